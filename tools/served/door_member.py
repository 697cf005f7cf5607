#!/usr/bin/env python3
"""A member by the library for Python, at a proxy: its files are those of examples/members.

usage: door_member NODE ADDRESS FOLDER

FOLDER has `work`, with the epoch that was begun, and, while the group is in a run, `run`, with the epoch and the tag (- for a member that
is alone). Beside them stand the library's own files.
"""

from __future__ import annotations

import contextlib
import os
import sys

sys.dont_write_bytecode = True
sys.path.insert(0, os.path.join(os.path.dirname(os.path.abspath(__file__)), "..", "..", "client"))
from resetd_client import AtFront, Member, Port, Run, keep, read  # noqa: E402

LOOK_SECONDS = 1.0


def main() -> None:
    node, address, folder = int(sys.argv[1]), sys.argv[2], sys.argv[3]
    work, talking = f"{folder}/work", f"{folder}/run"

    def note(run: Run | None) -> None:
        """Writes the run's file as a whole, while the member may talk."""
        if run is None:
            with contextlib.suppress(FileNotFoundError):
                os.remove(talking)
        else:
            keep(talking, f"{run.epoch} {run.tag or '-'}\n")

    note(None)
    begun = read(work)
    port = Port(address)
    with AtFront(port, folder, held_seconds=10) as orders:
        member = Member(port, orders, node, int(begun) if begun else None, lambda epoch: keep(work, f"{epoch}\n"), on_run=note)
        member.follow(orders, LOOK_SECONDS)


main()
