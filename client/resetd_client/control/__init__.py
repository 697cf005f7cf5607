"""Controls a resetd coordinator: sends orders to it, and inspects the server and its store.

Exit statuses: 0 done; 1 refused, with the refusal on standard error, or `diff` or `why` found something; 2 wrong
arguments, or a topology file that can't be read; 3 no answer within --patience; 4 the folder of this client's order
numbers can't be used, or its order number was not found. `health` exits like a monitoring check: 0 well, 1 warning,
2 critical, 3 unknown.
"""

from __future__ import annotations

import argparse
import os
import sys

from .. import __version__
from ..address import CREDENTIALS, default_address
from ..answers import Away, NotTaken
from ..errors import BadWords, ResetdError, Unreadable
from ..files import Held
from ..limits import CLIENTS
from ..orders import CountLost, CountNotFound
from ..store_file import NoStore, Restless
from ..topology import BadTopology
from . import audit, bench, changes, checks, completion, ranges, report, restored, stores, views
from .base import AWAY, COUNT, REFUSED, WRONG_ARGUMENTS, Control, complain

LEFT, INTERRUPTED = 141, 130  # as a shell reports an end by SIGPIPE and SIGINT

COMMANDS = (*views.COMMANDS, *changes.COMMANDS, *restored.COMMANDS, *checks.COMMANDS, *audit.COMMANDS, *bench.COMMANDS,
            *stores.COMMANDS, *report.COMMANDS, *completion.COMMANDS)


def parser() -> argparse.ArgumentParser:
    top = argparse.ArgumentParser(prog="resetctl", description=__doc__, formatter_class=argparse.RawDescriptionHelpFormatter)
    top.add_argument("--version", action="version", version=f"resetctl {__version__}")
    top.add_argument("--address", default=os.environ.get("RESETD_ADDRESS") or default_address(),
                     help="the address of the server (HOST:PORT) or of resetd-proxy (unix:PATH, tls:HOST:PORT), or several, separated by commas "
                     "(default: RESETD_ADDRESS, else a socket of resetd-proxy that you may open, else 127.0.0.1:4170)")
    for name, about in CREDENTIALS.items():
        top.add_argument(f"--{name}", metavar="PEM", help=f"the PEM file with {about}, for a tls: address (default: RESETD_{name.upper()})")
    top.add_argument("--client", type=ranges.of("client"), metavar="C",
                     default=os.environ.get("RESETD_CLIENT") or str(CLIENTS[-1]),
                     help="the client's number, 1 to 16 (default: RESETD_CLIENT, else 16)")
    top.add_argument("--state", default=os.environ.get("RESETCTL_STATE") or default_state(), metavar="FOLDER",
                     help="the folder for this client's order numbers (default: RESETCTL_STATE, else ~/.local/state/resetctl)")
    top.add_argument("--patience", type=ranges.span, metavar="SECONDS",
                     help="for how many seconds to resend a request that gets no answer (default: 30; 2 for commands that only read)")
    top.add_argument("--seconds", type=ranges.some_seconds, metavar="SECONDS",
                     help="how many seconds to wait for each answer (default: 20; 2 for commands that only read)")
    top.add_argument("--quiet", action="store_true", help="do not print the replies to orders, resend and close")
    commands = top.add_subparsers(dest="command", required=True, metavar="COMMAND")
    for command in COMMANDS:
        each = commands.add_parser(command.name, help=command.about, description=f"{command.about}.",
                                   epilog="resetctl --help describes the exit statuses and the common options.")
        each.set_defaults(call=command.call, is_read_only=command.is_read_only)
        command.add_arguments(each)
    return top


def is_within(path: str, folder: str) -> bool:
    """Returns whether a path is this folder or is inside it."""
    return os.path.join(path, "").startswith(os.path.join(folder, ""))


def default_state() -> str:
    """Returns the folder for the order numbers of a person's client."""
    if given := os.environ.get("STATE_DIRECTORY"):  # set by systemd
        return given.split(":")[0]
    return os.path.join(os.environ.get("XDG_STATE_HOME") or os.path.expanduser("~/.local/state"), "resetctl")


def main(arguments: list[str] | None = None) -> int:
    """Runs one command and returns its exit status."""
    top = parser()
    parsed = top.parse_args(arguments)
    try:
        control = Control(parsed)
    except (BadWords, Unreadable) as fault:
        top.error(str(fault))
    try:
        return int(parsed.call(control))
    except BadTopology as fault:
        complain(f"{parsed.topology}: {fault}")
        return WRONG_ARGUMENTS
    except BadWords as fault:
        complain(str(fault))
        return WRONG_ARGUMENTS
    except (NoStore, Restless) as fault:
        complain(f"{parsed.file}: {fault}")
        return REFUSED
    except (CountLost, CountNotFound, Held, Unreadable) as fault:
        complain(f"{fault}{'; run resetctl count to recover the number' if isinstance(fault, CountLost) else ''}")
        return COUNT
    except NotTaken as refused:
        complain(control.why(refused))
        return REFUSED
    except Away as away:
        complain(control.why(away))
        return AWAY
    except ResetdError as fault:
        complain(str(fault))
        return REFUSED
    except BrokenPipeError:  # the reader of the output has gone
        os.dup2(os.open(os.devnull, os.O_WRONLY), sys.stdout.fileno())
        return LEFT
    except OSError as fault:
        complain(f"{fault.filename}: {fault.strerror}")
        return COUNT if is_within(str(fault.filename), control.folder) or is_within(control.folder, str(fault.filename)) else REFUSED
    except KeyboardInterrupt:
        return INTERRUPTED
