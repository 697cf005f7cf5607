"""Some members in one process, each with a thread of its own: a line for each time that one may talk, with its node, the moment and
the run. The work of a member is in a folder of its own, `own-work`, so that its syncs can be counted apart from the library's.
usage: hosted.py proxy ADDRESS FOLDER WORK NODE..      through a proxy, each over a connection of its own
       hosted.py gateway FOLDER WORK NODE..            behind a gateway"""

import os
import sys
import threading
import time

sys.dont_write_bytecode = True
sys.path.insert(0, os.path.join(os.path.dirname(os.path.abspath(__file__)), "..", "..", "client"))
from resetd_client import AtFront, Member, Port, Run, Served, Work, keep  # noqa: E402


def say(node: int, tag: str) -> None:
    os.write(1, f"{node} {time.monotonic_ns()} {tag.partition('-')[0]}\n".encode())


def at_proxy(address: str, folder: str, work: Work, node: int) -> None:
    own = f"{folder}/{node}"
    os.makedirs(f"{own}/own-work")

    def begin(epoch: int) -> None:
        if work is not Work.MEMORY:
            keep(f"{own}/own-work/epoch", f"{epoch}\n")

    def on_run(run: Run | None) -> None:
        if run:
            say(node, run.tag)
    orders = AtFront(Port(address), own)
    Member(orders.port, orders, node, None, begin, on_run=on_run, work=work).follow(orders)


def served(folder: str, work: Work, node: int) -> None:
    member, talks = Served(f"{folder}/{node}"), ""
    while True:
        if member.wanted() is not None:
            member.has_begun("the common start\n", is_synced=work is not Work.MEMORY)
        tag = member.tag() or ""
        if tag and tag != talks:
            say(node, tag)
        talks = tag
        member.wait()


def main() -> None:
    kind, *arguments = sys.argv[1:]
    address = arguments.pop(0) if kind == "proxy" else ""
    folder, work = arguments.pop(0), Work[arguments.pop(0)]
    for node in map(int, arguments):
        threading.Thread(target=at_proxy if kind == "proxy" else served, args=(*([address] if address else []), folder, work, node)).start()


main()
