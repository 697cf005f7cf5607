"""Commands that show the nodes and links."""

from __future__ import annotations

import argparse
import math
import shutil
import sys
import time
from contextlib import closing, nullcontext
from datetime import datetime

from ..answers import Away, NotNow
from ..at_front import wakes_of
from ..view import View
from ..watching import Watched
from . import ranges
from .base import DONE, Command, Control, add_json, print_json

MARKS = {"ready": "·", "abort": "A", "converge": "C"}
PROXY_SECONDS = 30.0  # between two views, if the proxy reports changes
LEGEND = "· confirmed, o not confirmed yet, A abort, C converge; node:epoch/confirmed"


def show(control: Control) -> int:
    """Prints the nodes and links as tables or, with --json, the port's answer line."""
    view = control.show()
    if control.arguments.json:
        print_json(view.members())
    else:
        print(table(view), flush=True)
    return DONE


def table(view: View) -> str:
    """Formats a view for a person."""
    near: dict[int, list[int]] = {}
    for link in view.links:
        near.setdefault(link.a, []).append(link.b)
        near.setdefault(link.b, []).append(link.a)
    waiting = view.accepted - view.settled
    lines = [f"{view.settled} steps on the disk" + (f", {waiting} waiting" if waiting else ""),
             "node group mode     parent epoch confirmed  linked with"]
    for row in view.nodes:
        lines.append(f"{row.node:4d} {row.group:5d} {row.mode:8s} {row.parent or '-':>6} {row.epoch:5d} "
                     f"{row.confirmed:9d}{' ' if row.is_begun else '*'} {' '.join(map(str, sorted(near.get(row.node, []))))}")
    if any(not row.is_begun for row in view.nodes):
        lines.append("* the node is in a reset, or its epoch is not confirmed yet")
    return "\n".join(line.rstrip() for line in lines)


def watch(control: Control) -> int:
    """Draws the mode of each node, in place, as it changes. If the output is not a terminal, writes a line with the time for
    each change. The proxy reports changes; a server's port is queried repeatedly."""
    until = math.inf if control.arguments.for_seconds is None else time.monotonic() + control.arguments.for_seconds
    is_terminal = sys.stdout.isatty()
    wakes = wakes_of(control.port)
    every = PROXY_SECONDS if control.port.is_front else control.arguments.every
    seen: list[str] | None = None
    with closing(wakes) if isinstance(wakes, Watched) else nullcontext():
        while (left := until - time.monotonic()) > 0:
            picture = picture_lines(control)
            if picture != seen:
                draw(picture, seen) if is_terminal else note(picture)
                seen = picture
            wakes.wait(min(every, left))
    return DONE


def picture_lines(control: Control) -> list[str]:
    """Returns two lines: a mark for each node's mode, with the number of steps; and the nodes that are not through. If there is
    no view, returns one line with the reason."""
    try:
        view = control.port.show()
    except NotNow as not_now:
        return [f"the server answers {not_now.name}"]
    except Away as away:
        return [f"no answer: {away}"]
    marks = "".join(MARKS.get(node.mode, "?") if node.mode != "ready" or node.is_begun else "o" for node in view.nodes)
    rest = [f"{node.node}:{node.epoch}/{node.confirmed}" for node in view.nodes if not node.is_begun]
    return [f"[{marks}] {view.settled} steps", " ".join(rest) or "every node has confirmed its epoch"]


def draw(picture: list[str], before: list[str] | None) -> None:
    """Draws over the previous picture, unless a line is so long that the terminal would wrap it."""
    width = shutil.get_terminal_size().columns - 1
    up = f"\x1b[{len(before) + 1}A\x1b[J" if before is not None else ""
    print(up + "\n".join(line[:width] for line in [picture[0], LEGEND, *picture[1:]]), flush=True)


def note(picture: list[str]) -> None:
    print(datetime.now().astimezone().isoformat(timespec="milliseconds"), *picture, sep="  ", flush=True)


def add_watch_arguments(parser: argparse.ArgumentParser) -> None:
    parser.add_argument("--every", type=ranges.some_seconds, default=0.2, metavar="SECONDS",
                        help="the seconds between two views, if no proxy reports changes (default: 0.2)")
    parser.add_argument("--for", dest="for_seconds", type=ranges.span, metavar="SECONDS", help="end after this many seconds (default: never)")


COMMANDS = (
    Command("show", "prints the nodes and links", show, add_json, is_read_only=True),
    Command("watch", "draws the nodes' modes as they change; if the output is not a terminal, prints a line for each change", watch,
            add_watch_arguments, is_read_only=True),
)
