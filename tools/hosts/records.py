"""Records all answers and signals over all hosts, and checks their invariants."""

import threading
import time

from .clients import Json, Lost
from .keeper import Keeper


class Records:
    def __init__(self, keepers: list[Keeper]) -> None:
        self.keepers, self.lock = keepers, threading.Lock()
        self.steps: dict[int, Json] = {}
        self.answers: list[tuple[float, Keeper]] = []
        self.epochs: dict[int, int] = {}

    def note_answer(self, order: Json, reply: Json, keeper: Keeper) -> None:
        """Records a reply. No two orders may have the same step."""
        with self.lock:
            other = self.steps.setdefault(reply["step"], order)
            self.answers.append((time.monotonic(), keeper))
            if other != order:
                raise Lost(f"{other} and {order} were both answered as step {reply['step']}")

    def signals(self) -> list[tuple[int, int]]:
        """Returns each printed signal, as its node and its epoch, over all hosts. None may be printed twice."""
        seen: dict[str, str] = {}
        for keeper in self.keepers:
            for line in keeper.lines("signals"):
                if line.startswith("signal "):
                    if line in seen:
                        raise Lost(f"{line} was printed on {seen[line]} and on {keeper.host.name}")
                    seen[line] = keeper.host.name
        return [(int(node), int(epoch)) for _, node, epoch in map(str.split, seen)]

    def note_epochs(self, epochs: dict[int, int]) -> None:
        """Records shown epochs. None may be below one that was signalled or shown before."""
        for node, epoch in [*self.signals(), *self.epochs.items()]:
            if epochs.get(node, 0) < epoch:
                raise Lost(f"node {node} was in epoch {epoch}, and is in epoch {epochs.get(node)}")
        self.epochs = dict(epochs)

    def last_step(self) -> int:
        return max(self.steps, default=0)

    def first_answer(self, keeper: Keeper, since: float) -> float | None:
        """Returns when this coordinator first answered an order after a moment, or None if it did not."""
        with self.lock:
            return next((when for when, who in self.answers if who is keeper and when >= since), None)

    def gaps(self, since: float) -> list[tuple[float, float]]:
        """Returns the times without an answer from a moment until now, by their beginnings and ends."""
        with self.lock:
            moments = [since, *(when for when, _ in self.answers if when >= since), time.monotonic()]
        return list(zip(moments, moments[1:]))

    def longest_gap(self, since: float) -> float:
        """Returns the seconds of the longest time without an answer from a moment until now."""
        return max(later - sooner for sooner, later in self.gaps(since))

    def count(self, since: float = 0.0) -> int:
        with self.lock:
            return sum(when >= since for when, _ in self.answers)
