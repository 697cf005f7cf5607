"""Commands for monitoring."""

from __future__ import annotations

import argparse
import os

from .. import files
from ..answers import Away, NotNow, NotTaken
from ..errors import ResetdError
from ..health import Bounds, Comparison, Level, check, metrics
from ..port import patiently
from ..signal_lag import Signals
from ..since import Since, boot_clock, boot_name
from . import ranges
from .base import DONE, Command, Control, add_json, print_json


def health(control: Control) -> int:
    """Prints the findings, or `well`."""
    arguments = control.arguments
    try:
        os.makedirs(control.folder, exist_ok=True)
        since = Since(os.path.join(control.folder, "health.json"), boot_clock(), boot_name())
        signals = Signals(arguments.signals, os.path.join(control.folder, "signals.json")) if arguments.signals else None
        bounds = Bounds(arguments.steps, arguments.wave, arguments.unconfirmed)
        found = check(control.port, since, bounds, control.timeout, signals, arguments.store)
        if found.is_stopped and arguments.close_stopped:
            control.port.close()
            print("resetctl: the server answered with Stopped, so it was closed")
    except (ResetdError, OSError) as fault:
        if arguments.json:
            print_json({"findings": [str(fault)], "level": Level.UNKNOWN.name})
        else:
            print(f"resetd UNKNOWN: {fault}")
        return Level.UNKNOWN
    if arguments.json:
        print_json({"findings": list(found.findings), "level": found.level.name})
        return found.level
    print(f"resetd {found.level.name}: {'; '.join(found.findings) or 'well'}")
    return found.level


def write_metrics(control: Control) -> int:
    """Writes the metrics into a file, which is replaced as a whole, or prints them."""
    view, is_stopped, differs = None, False, None
    comparison = Comparison(control.arguments.store)
    try:
        view = patiently(control.port.show, control.timeout)
        differs = comparison.differs(view)
    except NotNow as not_now:
        is_stopped = not_now.name == "Stopped"
    except Away:
        pass
    text = metrics(view, is_stopped, differs)
    if control.arguments.file == "-":
        print(text, end="")
    else:
        files.keep(control.arguments.file, text)
        os.chmod(control.arguments.file, 0o644)
    return DONE


def add_health_arguments(parser: argparse.ArgumentParser) -> None:
    add_json(parser)
    parser.add_argument("--steps", type=ranges.span, default=5.0, metavar="SECONDS",
                        help="report steps that have waited for the disk for this many seconds (default: 5)")
    parser.add_argument("--wave", type=ranges.span, default=5.0, metavar="SECONDS",
                        help="report a wave that has made no progress for this many seconds (default: 5)")
    parser.add_argument("--unconfirmed", type=ranges.span, default=60.0, metavar="SECONDS",
                        help="report an epoch that has been unconfirmed for this many seconds (default: 60)")
    parser.add_argument("--signals", metavar="FILE", help="warn if signals are missing from this file, to which the server's output is written")
    parser.add_argument("--store", metavar="FILE", help="report a critical state if this file is not the server's store")
    parser.add_argument("--close-stopped", action="store_true",
                        help="close a server that answers with Stopped, so that its service manager restarts it")


def add_metrics_arguments(parser: argparse.ArgumentParser) -> None:
    parser.add_argument("--store", metavar="STORE", help="also report whether this file is the server's store")
    parser.add_argument("file", metavar="FILE", nargs="?", default="-",
                        help="the file to write, which is replaced as a whole (default: standard output)")


COMMANDS = (
    Command("health", "checks the server; the exit status is 0 if all is well, 1 for a warning, 2 if critical, 3 if unknown",
            health, add_health_arguments, is_read_only=True),
    Command("metrics", "writes metrics for node_exporter's textfile collector", write_metrics, add_metrics_arguments,
            is_read_only=True),
)
