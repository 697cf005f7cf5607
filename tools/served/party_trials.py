"""Trials of which members talk with each other: through others, and after a member was removed and added again."""

import time
from collections.abc import Callable, Iterable

from .services import Failed, Member, Orders, OutOfRun, Port, Trial, patiently

# A start of a member: its node, and its number among all starts.
Start = tuple[int, int]
READDS = 30
MOST_RESETS = 3


class Slow:
    """The members of a group in one process. Each looks only when the trial makes it look. Each message carries the starts that
    its sender has heard of, directly or through others; messages may arrive late."""

    def __init__(self, trial: Trial, nodes: Iterable[int]) -> None:
        self.trial, self.starts = trial, 0
        self.heard: dict[int, set[Start]] = {}
        self.sent: list[tuple[str, frozenset[Start]]] = []
        self.while_it_begins: list[Callable[[Trial], None]] = []  # an event while the next member begins
        self.members = {node: self.member(node) for node in nodes}

    def member(self, node: int) -> Member:
        def begin(epoch: int) -> None:
            self.starts += 1
            self.heard[node] = {(node, self.starts)}
            while self.while_it_begins:
                self.while_it_begins.pop()(self.trial)
        orders = Orders(Port(self.trial.address, 30), node, f"{self.trial.folder}/slow{node}", recovers=True,
                        told=lambda _: None)
        return Member(orders.port, orders, node, None, begin, told=lambda _: None)

    def look(self, *nodes: int) -> None:
        """Makes members look until they have done what is due. Then all messages ever sent are delivered to the members that
        may hear them."""
        for node in nodes:
            patiently(self.members[node].look, 20)
            self.trial.expect_quiet()
            self.talk()

    def talk(self) -> None:
        """Makes each member that talks send what it has heard of, and hear the messages of its run, until none learns more."""
        before = None
        while before != (before := ({node: set(heard) for node, heard in self.heard.items()}, len(self.sent))):
            for node, member in self.members.items():
                if member.run and (message := (member.run.tag, frozenset(self.heard[node]))) not in self.sent:
                    self.sent.append(message)
                self.hear(node, member)
        self.expect_unmixed()

    def hear(self, node: int, member: Member) -> None:
        for tag, heard in self.sent:
            try:
                with member.in_run(tag):
                    self.heard[node] |= heard
            except OutOfRun:
                pass

    def expect_unmixed(self) -> None:
        for node, heard in self.heard.items():
            if len({other for other, _ in heard}) < len(heard):
                raise Failed(f"the start of member {node} has heard of two starts of one member: (member, start) {sorted(heard)}")


def unlink(trial: Trial) -> None:
    for other in (1, 2):
        trial.order("drop", a=3, b=other)


def link(trial: Trial) -> None:
    for other in (1, 2):
        trial.order("join", a=3, b=other)


def second_hand(trial: Trial) -> str:
    """Member 1 is slow, then member 2, while 3 is taken off its links, reset alone, and linked again while it begins. By then
    members 1 and 2 have talked with two starts of 3, and are shown the same view."""
    slow = Slow(trial, trial.nodes)
    trial.reset()
    trial.expect_quiet()
    slow.look(1, 2, 3)   # all begin; the last one sees that all are through
    slow.look(2)         # it talks with 3
    unlink(trial)
    trial.order("reset", node=3)
    trial.expect_quiet()
    slow.while_it_begins.append(link)
    slow.look(3)
    slow.look(1)         # it talks with 3
    unlink(trial)
    slow.look(1, 2)
    link(trial)
    for _ in range(4):
        slow.look(1, 2, 3)
    if len({member.run and member.run.tag for member in slow.members.values()}) != 1 or not slow.members[1].run:
        raise Failed(f"the members do not reach one run: {[member.run for member in slow.members.values()]}")
    return f"{slow.starts} starts, {len(slow.sent)} messages"


def readd(trial: Trial) -> str:
    """The members keep their files, and run all the time."""
    trial.services()
    trial.expect_begun("the services began")
    most, longest = 0, 0.0
    for turn in range(READDS):
        node, stays = turn % 3 + 1, (turn + 1) % 3 + 1
        before, epoch = trial.times(), trial.epoch(stays)
        others = [other for other in trial.nodes if other != node]
        for other in others:
            trial.order("drop", a=node, b=other)
        trial.order("remove", node=node)
        trial.order("add", node=node, group=1)
        for other in others:
            trial.order("join", a=node, b=other)
        linked = time.monotonic()
        trial.expect_begun(f"re-add {turn + 1}, of member {node}", before)
        trial.expect(f"all are through after re-add {turn + 1}", lambda: trial.is_at_rest())
        resets = trial.epoch(stays) - epoch
        most, longest = max(most, resets), max(longest, time.monotonic() - linked)
        if resets > MOST_RESETS:
            raise Failed(f"re-add {turn + 1} took {resets} resets")
    return f"{READDS} re-adds, each with at most {most} resets, and through {longest:.1f} s after its last link at most"
