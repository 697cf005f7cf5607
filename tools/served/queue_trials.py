"""Trials of a work queue of three members, while the store or a member goes back, comes again or is replaced.

In each of them a start of a member could be taken for another one. The members themselves report when they hear of two
starts of one member in one run (MIXED), and when an item is left out (GAP).
"""

import json
import os
import shutil
import signal
import subprocess
import sys
import time
from collections.abc import Callable
from typing import Any

from .ports import held_ports
from .services import ROOT, Arguments, Away, Failed, Trial, read

MEMBER = f"{ROOT}/tools/served/queue_member.py"
WEAKER = {"history", "party", "reset"}


class Queue(Trial):
    """A coordinator and the three members of a work queue, each of which can be down."""

    def __init__(self, arguments: Arguments, folder: str, nodes: int) -> None:
        super().__init__(arguments, folder, nodes)
        self.ports = held_ports(nodes)
        self.up: dict[int, subprocess.Popen[bytes]] = {}

    def begin(self) -> None:
        """All members are up, one reset is through, and items go round."""
        self.goes_on("at first")
        self.reset_epochs(*self.nodes)
        self.goes_on("after the first reset")

    def start_member(self, node: int) -> None:
        if node in self.up:
            return
        with open(f"{self.folder}/{node}.lines", "ab") as lines:
            self.up[node] = subprocess.Popen(
                [sys.executable, MEMBER, str(node), self.address, f"{self.folder}/{node}", str(self.ports[node - 1]),
                 str(self.ports[node % len(self.ports)]), self.server.signals, *sorted(WEAKER & self.arguments.without)],
                stdin=subprocess.DEVNULL, stdout=lines, stderr=lines)

    def start_all(self) -> None:
        for node in self.nodes:
            self.start_member(node)

    def down(self, *nodes: int) -> None:
        """Kills members by signal 9."""
        for node in nodes:
            member = self.up.pop(node, None)
            if member:
                member.kill()
                member.wait()

    def stop_helpers(self, *some: subprocess.Popen[bytes]) -> None:
        if not some:
            self.down(*self.nodes)
        super().stop_helpers(*some)

    def work(self, node: int) -> dict[str, Any]:
        work: dict[str, Any] = json.loads(read(f"{self.folder}/{node}/work") or '{"taken": 0, "epoch": null, "starts": {}}')
        return work

    def starts(self) -> dict[int, str | None]:
        """Returns the name of each member's start, if it has one."""
        return {node: self.work(node)["starts"].get(str(node)) for node in self.nodes}

    def goes_on(self, what: str, since: dict[int, str | None] | None = None) -> None:
        """Checks that all members are up, items move round, and no member has mixed two runs. If `since` has the starts of an
        earlier moment, each member must have another one."""
        self.start_all()
        seen: dict[int, dict[str | None, int]] = {}

        def holds() -> bool:
            starts = self.starts()
            for node in self.nodes:
                work = self.work(node)
                first = seen.setdefault(node, {}).setdefault(starts[node], work["taken"])
                if work["taken"] < first + 3 or (since and since[node] == starts[node]):
                    return False
            return True
        try:
            self.expect(f"items go round {what}", holds)
        finally:
            self.expect_whole(what)

    def expect_whole(self, what: str) -> None:
        """Checks that no member has reported a fault."""
        for node in self.nodes:
            faults = [line for line in read(f"{self.folder}/{node}.lines").splitlines() if "MIXED" in line or "GAP" in line]
            if faults:
                raise Failed(f"{what}: {faults[0]}")
        for node, member in self.up.items():
            if member.poll() is not None:
                raise Failed(f"{what}: member {node} has ended: {read(f'{self.folder}/{node}.lines').splitlines()[-3:]}")

    def copy(self, name: str = "copy") -> str:
        """Copies the store, by the commands of the page: it is closed meanwhile."""
        self.close()
        shutil.copy(self.server.store, f"{self.folder}/{name}")
        self.start()
        return f"{self.folder}/{name}"

    def reset_epochs(self, *nodes: int) -> None:
        """Resets some members that are up, and waits until each has begun and confirmed its epoch."""
        self.expect("no reset is under way", lambda: all(row.mode == "ready" for row in self.shown().nodes))
        before = {row.node: row.epoch for row in self.shown().nodes}
        self.reset(nodes[0])

        def holds() -> bool:
            rows = {row.node: row for row in self.shown().nodes}
            return all(rows[node].epoch > before[node] and rows[node].is_begun for node in nodes)
        self.expect(f"members {nodes} have begun", holds)

    def unlink(self, node: int) -> None:
        for other in self.nodes:
            if other != node:
                self.order("drop", a=node, b=other)

    def link(self, node: int) -> None:
        for other in self.nodes:
            if other != node:
                self.order("join", a=node, b=other)

    def add_again(self, node: int, resets: int = 0) -> None:
        """Removes a node without links and adds it again, resets it alone this often, and links it as before."""
        self.order("remove", node=node)
        self.order("add", node=node, group=1)
        for _ in range(resets):
            self.order("reset", node=node)
        self.link(node)




# The ways in which a node may show, confirmed, the epoch that its service has begun, though its start is another one than that
# which the others talked with. Each leaves the network whole; the checks come after it.

def with_one_down(trial: Queue) -> None:
    """The store is put back while a member is down that has not begun the forgotten epoch."""
    copy = trial.copy()
    trial.down(3)
    trial.reset_epochs(1, 2)
    trial.put_back(copy)


def between_confirms(trial: Queue) -> None:
    """The copy was taken when one member had not confirmed yet."""
    trial.down(3)
    trial.reset_epochs(1, 2)
    copy = trial.copy()
    trial.goes_on("after the copy")
    trial.put_back(copy)


def twice(trial: Queue) -> None:
    """The wrong copy is put back at first, while a member is down, and then the right one."""
    old = trial.copy("old")
    trial.reset_epochs(1, 2, 3)
    trial.goes_on("between the copies")
    new = trial.copy("new")
    trial.down(1)
    trial.put_back(old)
    trial.reset_epochs(2, 3)
    trial.put_back(new)


def while_served(trial: Queue) -> None:
    """A copy of a store that is served is put back, if it reads, while a member is down that has not begun the forgotten
    epoch."""
    served = f"{trial.folder}/served"
    shutil.copy(trial.server.store, served)
    trial.down(2)
    trial.reset_epochs(1, 3)
    if subprocess.run([trial.arguments.program, "check", served], capture_output=True, check=False).returncode == 0:
        trial.put_back(served)


def added_again_down(trial: Queue) -> None:
    """A member is removed while it is down, the others are reset, and it is added again and reset to the epoch that
    it has begun."""
    trial.down(3)
    epoch = trial.epoch(3)
    trial.unlink(3)
    trial.reset_epochs(1, 2)
    trial.add_again(3, resets=epoch)
    trial.order("confirm", node=3, epoch=epoch)


def added_again_up(trial: Queue) -> None:
    """A member is removed and added again while it is up."""
    trial.unlink(2)
    trial.add_again(2)


def moved(trial: Queue) -> None:
    """A member goes on on another host, without its work."""
    trial.down(2)
    shutil.rmtree(f"{trial.folder}/2")


def moved_and_added_again(trial: Queue) -> None:
    """A member is removed and added again, reset alone to the epoch that it had, and goes on without its work."""
    trial.down(2)
    epoch = trial.epoch(2)
    trial.unlink(2)
    trial.add_again(2, resets=epoch)
    shutil.rmtree(f"{trial.folder}/2")


def work_lost(trial: Queue) -> None:
    """A member's work is lost, and its other files are not."""
    trial.down(2)
    os.remove(f"{trial.folder}/2/work")


def own_copy(trial: Queue) -> None:
    """A member's own folder is put back from a copy."""
    trial.down(3)
    shutil.copytree(f"{trial.folder}/3", f"{trial.folder}/of3", dirs_exist_ok=True)
    trial.start_member(3)
    trial.reset_epochs(1, 2, 3)
    trial.goes_on("after the copy of the folder")
    trial.down(3)
    shutil.rmtree(f"{trial.folder}/3")
    shutil.copytree(f"{trial.folder}/of3", f"{trial.folder}/3")


def new_store(trial: Queue) -> None:
    """A new store is made under the same services, and reset to the epoch that they have begun, while one is down."""
    trial.down(3)
    epoch = trial.epoch(3)
    trial.close()
    os.remove(trial.server.store)
    status, lines = trial.server.command("init", f"{trial.server.store}.toml")
    if status != 0:
        raise Failed(f"resetd init: {lines}")
    trial.start()
    trial.orders.recover()
    for _ in range(epoch):
        trial.order("reset", node=1)


def old_host(trial: Queue) -> None:
    """Another host takes over with an old copy, no service is stopped, and one was down since before."""
    copy = trial.copy()
    trial.down(2)
    trial.reset_epochs(1, 3)
    trial.server.kill()
    shutil.copy(copy, trial.server.store)
    trial.start()
    trial.orders.recover()


def confirmed_for(trial: Queue) -> None:
    """The person on call confirms for a member that is down, and the member returns with its work."""
    trial.down(3)
    trial.reset_epochs(1, 2)
    trial.order("confirm", node=3, epoch=trial.epoch(3))
    time.sleep(0.5)


def parted(trial: Queue) -> None:
    """A member's links are dropped, it is reset alone, and linked again."""
    trial.unlink(3)
    trial.reset_epochs(3)
    trial.link(3)


def plain_reset(trial: Queue) -> None:
    """A reset while a member is down, and a kill of the server in it."""
    trial.down(trial.choice.choice(list(trial.nodes)))
    trial.reset(trial.choice.choice(list(trial.nodes)), is_killed=True)


def by_the_page(trial: Queue) -> None:
    """A reset is forgotten that no member has begun. By the commands of the page: services stopped, the copy put back,
    `resetctl restored`, services started."""
    copy = trial.copy()
    trial.down(*trial.nodes)
    trial.reset(1)
    trial.put_back(copy)
    trial.renew()


def between_confirms_without_files(trial: Queue) -> None:
    """The copy was taken when one member had not confirmed yet, and that member has lost all its files since."""
    trial.down(3)
    trial.reset_epochs(1, 2)
    copy = trial.copy()
    trial.goes_on("after the copy")
    trial.down(3)
    trial.put_back(copy)
    shutil.rmtree(f"{trial.folder}/3")
    trial.renew()


WAYS = (new_store, added_again_down, added_again_up, moved_and_added_again, with_one_down, between_confirms, twice,
        while_served, moved, work_lost, own_copy, old_host, confirmed_for, parted, between_confirms_without_files)
# after these, every member has to have another start than before
RENEWING = (plain_reset, by_the_page)


def happen(trial: Queue, way: Callable[[Queue], None], when: str) -> None:
    """Lets one of the events happen, and makes the checks after it."""
    since = trial.starts() if way in RENEWING else None
    try:
        way(trial)
    except (Failed, Away) as failed:
        raise Failed(f"{way.__name__} {when}: {failed}") from failed
    trial.goes_on(f"after {way.__name__} {when}", since)


def starts(trial: Queue) -> str:
    """Tries each event once, one after another."""
    trial.begin()
    for place, way in enumerate((*WAYS, *RENEWING), 1):
        happen(trial, way, f"({place})")
    return f"{len(WAYS) + len(RENEWING)} ways"


def queue(trial: Queue) -> str:
    """Tries random events, one after another."""
    seed = trial.arguments.seed
    trial.begin()
    for event in range(1, trial.arguments.events + 1):
        happen(trial, trial.choice.choice((*WAYS, *RENEWING, *RENEWING)), f"({event} of seed {seed})")
    return f"{trial.arguments.events} events of seed {seed}"
