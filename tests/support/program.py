"""Runs the program as a command that ends: its arguments, its input, and how it ended."""

import os
import subprocess
from collections.abc import Mapping
from typing import NamedTuple

ROOT = os.path.dirname(os.path.dirname(os.path.dirname(os.path.abspath(__file__))))
# The program, and one whose instances have few steps. `tests/run` builds both unless they are given.
PROGRAM = os.environ.get("RESETD", "")
SHORT = os.environ.get("RESETD_SHORT", "")
SHORT_STEPS = 32
# seconds within which a command has to end, even on a busy machine. A run of killing tests sets fewer, since some mutants wait forever
TIMEOUT = int(os.environ.get("RESETD_TIMEOUT", "600"))

class Ended(NamedTuple):
    """How a command ended: its exit status, its output, and the fault that it printed."""

    status: int
    printed: str
    fault: str


def ran(*arguments: str | bytes, given: bytes = b"", program: str | None = None, seconds: float = TIMEOUT,
        env: Mapping[str, str] | None = None, cwd: str | None = None, umask: int = -1) -> Ended:
    """Runs the program to its end."""
    done = subprocess.run([program or PROGRAM, *arguments], input=given, capture_output=True, timeout=seconds, env=env, cwd=cwd,
                          umask=umask, check=False)
    return Ended(done.returncode, done.stdout.decode(), done.stderr.decode())


def faulted(status: int, name: str) -> Ended:
    """Returns the expected end of a command with this fault: it prints only one line, with the fault's name."""
    return Ended(status, "", f"resetd: {name}\n")
