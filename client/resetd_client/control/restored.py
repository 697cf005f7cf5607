"""The command to run after a store was restored."""

from __future__ import annotations

import argparse

from ..fence import check_generation, generation_of
from ..restored import renew
from . import ranges
from .base import DONE, Command, Control


def add_arguments(parser: argparse.ArgumentParser) -> None:
    parser.add_argument("--fence", type=ranges.fence_count, metavar="COUNT",
                        help="the greatest fence count in your databases; the command then also prints the generation to give their members")


def restored(control: Control) -> int:
    """Asks for a reset in each group of linked nodes, and waits until every node has a new epoch."""
    count = control.arguments.fence
    if count is not None:
        check_generation(generation_of(count) + 1)
    with control.orders() as book:
        control.settle(book)
        control.report(control.patient(lambda: renew(control.port, book, control.timeout)))
    if count is not None:
        control.report(f"now start all members with generation {generation_of(count) + 1}, "
                       "or with a greater generation if a member has already used that one")
    return DONE


COMMANDS = (Command("restored", "asks for a reset in each group after the store was restored, and waits until every node has a new epoch",
                    restored, add_arguments),)
