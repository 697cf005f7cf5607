#!/usr/bin/env python3
"""A member in Python, by the library, with the files of member.c, for tools/try_member. usage: member.py NODE ADDR FOLDER [parts|whole|memory]

FOLDER has what the library keeps, and `work`; and, while the group is in a run, `run`, with the epoch and the tag (- for a member
that is alone). Whoever refuses a message of another run writes its tag into `refused`.
"""

import os
import sys
import threading
import time
from contextlib import suppress

sys.dont_write_bytecode = True
sys.path.insert(0, os.path.join(os.path.dirname(os.path.realpath(__file__)), ".."))
from coordinator import Member, OutOfRun, Port, Work, keep, orders_of, read, wakes_of  # noqa: E402

LOOK_SECONDS = 0.3  # at the server's own port, where nothing wakes it


class Files:
    """What the member says in its folder."""

    def __init__(self, folder):
        self.run, self.work, self.written, self.taken = (os.path.join(folder, name) for name in ("run", "work", "refused", "refused.taken"))
        self.refused = ""  # the tag of the last message of another run

    def begun(self):
        text = read(self.work)
        return int(text) if text else None

    def say(self, run):
        """In which run it may talk."""
        if run is None:
            with suppress(FileNotFoundError):
                os.remove(self.run)
        elif read(self.run) != (line := f"{run.epoch} {run.tag or '-'}\n"):
            keep(self.run, line)

    def refuse(self, member):
        """Refuses a message with the tag that somebody has written down, again and again as its sender would send it, until the run is
        over or has that tag. The file is renamed before it is read, so that a tag that replaces it meanwhile is read next time."""
        with suppress(FileNotFoundError):
            os.rename(self.written, self.taken)
            self.refused = read(self.taken).strip()
            os.remove(self.taken)
        if self.refused and member.run is not None:
            try:
                with member.in_run(self.refused):
                    pass
            except OutOfRun:
                return
        self.refused = ""


def main():
    if len(sys.argv) not in (4, 5):
        sys.exit(__doc__)
    node, address, folder, *kind = sys.argv[1:]
    os.makedirs(folder, exist_ok=True)
    files, work = Files(folder), Work[(kind or ["parts"])[0].upper()]
    files.say(None)  # before the first look nothing is known
    orders = orders_of(Port(address), int(node), folder, held_seconds=5)

    def begin(epoch):
        keep(files.work, f"{epoch}\n")  # the common start itself would stand here
        print(f"member {node}: starts anew, epoch {epoch}", flush=True)

    member = Member(orders.port, orders, int(node), None if work is Work.MEMORY else files.begun(), begin, work=work,
                    on_run=lambda run: files.say(None) if run is None else None)

    def watch_refused():
        while True:
            files.refuse(member)
            time.sleep(0.2)
    threading.Thread(target=watch_refused, daemon=True).start()
    member.follow(wakes_of(orders.port, None, orders), LOOK_SECONDS, after=lambda view: files.say(member.run))


main()
