"""The rule of `resetd-proxy` for resets that name an epoch, in a model: all short executions of a server, a proxy and two such
resets, with a server's connection that ends at any moment, resets of others, and a proxy that is started again."""

from __future__ import annotations

import dataclasses
import unittest
from collections.abc import Iterator
from dataclasses import dataclass
from enum import Enum, auto


class Rule(Enum):
    """What the proxy does with a reset whose answer was lost."""

    FINDS_NUMBER = auto()  # finds the last number: the reset was carried out, or is judged by another view
    SENDS_AGAIN = auto()  # sends it again with its number
    JUDGES_AGAIN = auto()  # judges it again at once
    KEEPS_VIEW = auto()  # finds the last number, but sends a reset over another connection than the one of its view


class State(Enum):
    WAITS = auto()
    SENT = auto()
    UNCLEAR = auto()  # it was sent, and its answer was lost
    CARRIED_OUT = auto()  # its client was answered so
    BAD_EPOCH = auto()
    GONE = auto()  # its client has no answer: the proxy was started again


@dataclass(frozen=True)
class Reset:
    """A reset that names epoch 0."""

    state: State = State.WAITS
    number: int = 0
    times: int = 0  # it was carried out


@dataclass(frozen=True)
class World:
    resets: tuple[Reset, ...] = (Reset(), Reset())
    epoch: int = 0  # of all nodes
    last: int = 0  # the number of the last order of the proxy's client
    is_up: bool = True
    view: int | None = None  # the epoch of a view after which nothing was sent
    found: int | None = 0  # the last number, as the proxy knows it
    others: int = 3  # resets of others that may come
    breaks: int = 3
    restarts: int = 1
    wrong: str = ""

    def change(self, **members: object) -> World:
        return dataclasses.replace(self, **members)

    def put(self, place: int, **members: object) -> World:
        """The same with another reset at a place."""
        resets = list(self.resets)
        resets[place] = dataclasses.replace(resets[place], **members)
        return self.change(resets=tuple(resets))

    def carry_out(self, place: int) -> World:
        """The server takes a reset: it judges the number alone."""
        reset = self.resets[place]
        if reset.number != self.last + 1:
            return self
        wrong = self.wrong or ("another epoch" if self.epoch else "") or ("twice" if reset.times else "")
        return self.put(place, times=reset.times + 1).change(last=reset.number, epoch=self.epoch + 1, wrong=wrong)

    def answer(self, place: int, state: State) -> World:
        times = self.resets[place].times
        wrong = self.wrong or ("a wrong answer" if (state is State.CARRIED_OUT) != (times > 0) else "")
        return self.put(place, state=state).change(wrong=wrong)

    def lose(self, rule: Rule) -> World:
        """The server's connection ends."""
        lost = self.change(is_up=False, breaks=self.breaks - 1, view=self.view if rule is Rule.KEEPS_VIEW else None)
        for place, reset in enumerate(self.resets):
            if reset.state is State.SENT:
                lost = lost.put(place, state=State.WAITS if rule is Rule.JUDGES_AGAIN else State.UNCLEAR)
                lost = lost if rule is Rule.SENDS_AGAIN else lost.change(found=None)
        return lost


def send(world: World, place: int, number: int, rule: Rule) -> Iterator[World]:
    """A reset is sent: it is answered, or the connection ends before or after the server takes it."""
    sent = world.put(place, state=State.SENT, number=number).change(view=None)
    taken = sent.carry_out(place)
    yield taken.answer(place, State.CARRIED_OUT).change(found=number)
    if world.breaks:
        yield sent.lose(rule)
        yield taken.lose(rule)


def proxy_steps(world: World, rule: Rule) -> Iterator[World]:
    """What the proxy may do over a connection that stands."""
    unclear = [place for place, reset in enumerate(world.resets) if reset.state is State.UNCLEAR]
    waiting = [place for place, reset in enumerate(world.resets) if reset.state is State.WAITS]
    if unclear and rule is Rule.SENDS_AGAIN:
        yield from send(world, unclear[0], world.resets[unclear[0]].number, rule)
    elif unclear or world.found is None:
        found = world.change(found=world.last, view=None)
        for place in unclear:
            is_used = world.resets[place].number <= world.last
            found = found.answer(place, State.CARRIED_OUT) if is_used else found.put(place, state=State.WAITS)
        yield found
    elif waiting and world.view is None:
        yield world.change(view=world.epoch)
    elif waiting and world.view:
        yield world.answer(waiting[0], State.BAD_EPOCH)
    elif waiting:
        assert world.found is not None
        yield from send(world, waiting[0], world.found + 1, rule)


def steps(world: World, rule: Rule) -> Iterator[World]:
    if world.is_up:
        yield from proxy_steps(world, rule)
    else:
        yield world.change(is_up=True)
    if world.is_up and world.breaks:
        yield world.lose(rule)
    # The server serves one connection after the other, and the proxy sends nothing between a view and a reset.
    if world.others and (not world.is_up or world.view is None):
        yield world.change(epoch=world.epoch + 1, others=world.others - 1, view=world.view if rule is Rule.KEEPS_VIEW else None)
    if world.restarts:
        resets = tuple(after_restart(reset) for reset in world.resets)
        yield world.change(resets=resets, is_up=False, view=None, found=None, restarts=world.restarts - 1)


def after_restart(reset: Reset) -> Reset:
    """The client of a reset that was sent gets no answer; another one asks the new proxy."""
    return dataclasses.replace(reset, state=State.GONE) if reset.state in (State.SENT, State.UNCLEAR) else reset


def search(rule: Rule) -> tuple[set[str], set[World]]:
    """All faults of a rule, and all worlds that it reaches."""
    seen, rest = {World()}, [World()]
    faults = set()
    while rest:
        world = rest.pop()
        if world.wrong:
            faults.add(world.wrong)
            continue
        for following in steps(world, rule):
            if following not in seen:
                seen.add(following)
                rest.append(following)
    return faults, seen


class Rules(unittest.TestCase):
    def test_the_rule_of_the_proxy(self) -> None:
        faults, worlds = search(Rule.FINDS_NUMBER)
        self.assertEqual(faults, set())
        ends = {tuple(reset.state for reset in world.resets) for world in worlds}
        self.assertIn((State.CARRIED_OUT, State.BAD_EPOCH), ends)
        self.assertIn((State.BAD_EPOCH, State.BAD_EPOCH), ends)
        self.assertIn((State.GONE, State.BAD_EPOCH), ends)
        self.assertIn((State.GONE, State.CARRIED_OUT), ends)
        self.assertGreater(len(worlds), 1000)

    def test_other_rules_are_wrong(self) -> None:
        self.assertIn("another epoch", search(Rule.SENDS_AGAIN)[0])
        self.assertIn("a wrong answer", search(Rule.JUDGES_AGAIN)[0])
        self.assertIn("another epoch", search(Rule.KEEPS_VIEW)[0])


if __name__ == "__main__":
    unittest.main()
