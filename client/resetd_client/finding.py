"""A finding of an inspection from outside the server, printed as one line."""

from __future__ import annotations

import pwd
from dataclasses import dataclass


@dataclass(frozen=True)
class Finding:
    """A finding, with three texts that may be empty: `fault` names the fault with which a start of the server would end because
    of it, `later` the fault that a running server meets or will meet, and `left_out` what could not be inspected."""

    about: str
    text: str
    fault: str = ""
    later: str = ""
    left_out: str = ""


def user_name(number: int) -> str:
    """Returns the name of a user, or the number if there is none."""
    try:
        return pwd.getpwuid(number).pw_name
    except KeyError:
        return str(number)
