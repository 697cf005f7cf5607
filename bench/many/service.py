"""A service of its own: a line for each time that it begins or may talk, with the moment. usage: service.py NODE ADDRESS FOLDER SIGNALS"""

import os
import sys
import time

sys.dont_write_bytecode = True
sys.path.insert(0, os.path.join(os.path.dirname(os.path.abspath(__file__)), "..", "..", "client"))
from resetd_client import Member, Port, Run, Work, files, orders_of, wakes_of  # noqa: E402

node, address, folder, signals = sys.argv[1:]


def begin(epoch: int) -> None:
    files.keep(f"{folder}/work", f"epoch {epoch}\n")
    print(f"begins {time.monotonic_ns()}", flush=True)


def on_run(run: Run | None) -> None:
    if run:
        print(f"talks {time.monotonic_ns()}", flush=True)


port = Port(address)
orders = orders_of(port, int(node), folder)
member = Member(port, orders, int(node), None, begin, on_run=on_run, work=Work.WHOLE)
member.follow(wakes_of(port, signals, orders))
