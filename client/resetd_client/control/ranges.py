"""Parsers for the numbers among a command's arguments, each of which checks its range."""

from __future__ import annotations

import argparse
from collections.abc import Callable

from ..access import Account, account_named
from ..errors import BadWords
from ..limits import RANGES, check_number

MOST_SECONDS = 1_000_000_000.0  # about thirty years
MOST_FENCE_COUNT = (1 << 63) - 1


def span(text: str) -> float:
    """Parses a number of seconds, at least 0."""
    try:
        seconds = float(text)
    except ValueError:
        seconds = -1.0
    if not 0 <= seconds <= MOST_SECONDS:
        raise argparse.ArgumentTypeError(f"{text!r} is not a valid number of seconds")
    return seconds


def some_seconds(text: str) -> float:
    """Parses a number of seconds, more than 0."""
    if (seconds := span(text)) == 0:
        raise argparse.ArgumentTypeError("the number of seconds must be more than 0")
    return seconds


def of(name: str) -> Callable[[str], int]:
    """Parses a number of this name within its limits."""
    def number(text: str) -> int:
        value: int | str = int(text) if is_number(text, RANGES[name][-1]) else text
        try:
            check_number(name, value)
        except BadWords as fault:
            raise argparse.ArgumentTypeError(str(fault)) from None
        return int(value)
    return number


def count(text: str) -> int:
    """Parses a count of at least one."""
    if not is_number(text, 1 << 64) or int(text) == 0:
        raise argparse.ArgumentTypeError(f"{text!r} is not a count")
    return int(text)


def fence_count(text: str) -> int:
    """Parses the count of a fence, as a database stores it."""
    if not is_number(text, MOST_FENCE_COUNT) or int(text) > MOST_FENCE_COUNT:
        raise argparse.ArgumentTypeError(f"{text!r} is not a fence count: use a whole number below 2^63")
    return int(text)


def amount(text: str) -> int:
    """Parses a count of at least zero."""
    if not is_number(text, 1_000_000):
        raise argparse.ArgumentTypeError(f"{text!r} is not a count")
    return int(text)


def some_orders(text: str) -> int:
    """Parses a count of at least two."""
    if (value := amount(text)) < 2:
        raise argparse.ArgumentTypeError(f"{text} is too few: at least 2 are needed")
    return value


def is_number(text: str, most: int) -> bool:
    """Returns whether a text consists of digits, not more than the greatest number has."""
    return text.isascii() and text.isdigit() and len(text) <= len(str(most))


def account(text: str) -> Account:
    """Parses the name or number of a user of this machine."""
    try:
        return account_named(text)
    except KeyError:
        raise argparse.ArgumentTypeError(f"this machine has no user {text!r}") from None
