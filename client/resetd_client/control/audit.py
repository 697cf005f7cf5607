"""Formats the proxy's audit file for people: who ordered what, when, and with which result."""

from __future__ import annotations

import argparse
import json
import sys
from collections.abc import Iterable, Mapping
from typing import Any

from ..waiting import AUDIT
from . import ranges
from .base import DONE, Arguments, Command, Control

Entry = Mapping[str, Any]


def log(control: Control) -> int:
    """Prints the lines of the file that match the arguments."""
    arguments = control.arguments
    if arguments.file == "-":
        print_entries(sys.stdin, arguments)
        return DONE
    with open(arguments.file, encoding="utf-8", errors="replace", newline="\n") as file:
        print_entries(file, arguments)
    return DONE


def print_entries(lines: Iterable[str], arguments: Arguments) -> None:
    for line in lines:
        entry = entry_of(line)
        if entry is None:
            print(printable(f"? {line.strip()}"), flush=True)  # a line that was cut, or that another program wrote
        elif is_asked_for(entry, arguments):
            print(json.dumps(entry, separators=(",", ":")) if arguments.json else printable(formatted(entry)), flush=True)


def printable(text: str) -> str:
    """Returns the text without characters that would control a terminal, whatever a client has put into its line or its
    certificate."""
    return "".join(each if each.isprintable() else repr(each)[1:-1] for each in text)


def entry_of(line: str) -> Entry | None:
    """Returns the members of a line, or None if the proxy did not write it."""
    try:
        entry = json.loads(line)
    except (ValueError, RecursionError):
        return None
    return entry if isinstance(entry, dict) and "time" in entry and "event" in entry else None


def is_asked_for(entry: Entry, arguments: Arguments) -> bool:
    """Returns whether an entry matches the arguments."""
    request = line_of(entry)
    return ((not arguments.reset or is_reset(entry))
            and (arguments.node is None or arguments.node in (request.get("node"), request.get("a"), request.get("b")))
            and (not arguments.denied or entry["event"] in ("denied", "handshake"))
            and (arguments.since is None or str(entry["time"]) >= arguments.since)
            and (arguments.until is None or str(entry["time"]) < arguments.until))


def is_reset(entry: Entry) -> bool:
    """Returns whether an entry is a reset that was carried out, or may have been."""
    answer = entry.get("answer")
    return line_of(entry).get("op") == "reset" and (
        entry["event"] == "unanswered" or isinstance(answer, dict) and "kind" in answer)


def line_of(entry: Entry) -> Entry:
    """Returns the request of an entry, or an empty text if it has none."""
    line = entry.get("line")
    return line if isinstance(line, dict) else {}


def formatted(entry: Entry) -> str:
    """Formats an entry: the time, the actor, the order, and the result."""
    parts = [str(entry["time"]), who(entry.get("who")), what(entry), came_of(entry)]
    return "  ".join(part for part in parts if part)


def who(found: object) -> str:
    """Formats the actor: the principal; in an audit of an earlier version, the user or the certificate, and the address."""
    if not isinstance(found, dict):
        return found if isinstance(found, str) else ""
    name = found.get("certificate") or found.get("user") or (f"uid {found['uid']}" if "uid" in found else "")
    place = found.get("address") or (f"pid {found['pid']}" if "pid" in found else "")
    return f"{name} ({place})" if name and place else str(name or place)


def what(entry: Entry) -> str:
    """Formats the order as a `resetctl` command, or the event."""
    line = entry.get("line")
    if isinstance(line, dict):
        parts = [str(value) for name, value in line.items() if name not in ("client", "number")]
        return " ".join(parts) + (f" [client {line['client']}, number {line['number']}]" if {"client", "number"} <= set(line) else "")
    return repr(line) if isinstance(line, str) else str(entry["event"])


def came_of(entry: Entry) -> str:
    """Formats the answer, or the reason why there is none."""
    answer, parts = entry.get("answer"), list[str]()
    if isinstance(answer, dict):
        if "kind" in answer:
            parts.append(f"{answer['kind']} {answer.get('step', '')}".strip())
        elif "refused" in answer:
            parts.append(f"refused: {answer['refused']} {answer.get('name', '')}".strip())
        else:
            parts.append(str(answer.get("fault", "answered")))
    elif entry["event"] == "unanswered":
        parts.append("no answer: the order may have been carried out")
    if isinstance(passed := entry.get("passed"), dict):
        parts.append(f"as client {passed.get('client')}, number {passed.get('number')}")
    if "count" in entry:
        parts.append(f"{entry['count']} lines")
    if "seconds" in entry:
        parts.append(f"{entry['seconds']} s")
    return "; ".join([*parts, *([str(entry["why"])] if "why" in entry else [])])


def add_log_arguments(parser: argparse.ArgumentParser) -> None:
    parser.add_argument("file", metavar="FILE", nargs="?", default=AUDIT, help=f"the proxy's audit file, or - for standard input (default: {AUDIT})")
    parser.add_argument("--reset", action="store_true", help="print only resets that were carried out, or may have been")
    parser.add_argument("--denied", action="store_true", help="print only denied requests")
    parser.add_argument("--node", type=ranges.of("node"), help="print only orders that name this node")
    parser.add_argument("--since", metavar="TIME", help="print only entries from this time on, in UTC, such as 2026-01-31T12:00")
    parser.add_argument("--until", metavar="TIME", help="print only entries before this time, in UTC")
    parser.add_argument("--json", action="store_true", help="print each entry as a line of JSON, as in the file")


COMMANDS = (Command("log", "prints who ordered what and when, from the proxy's audit file", log, add_log_arguments, is_read_only=True),)
