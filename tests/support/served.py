"""Checks of a server's output, and of the form of its answers."""

from .case import Case
from .program import ran
from .serving import Answer, Serving

DONE, STARTED, FINISHED, JOINED = "done", "started", "finished", "joined"


def answered(kind: str, step: int) -> Answer:
    return {"kind": kind, "step": step}


def refused(number: int, name: str) -> Answer:
    return {"name": name, "refused": number}


def expected_signals(shown: Answer) -> set[tuple[int, int]]:
    return {(row[0], epoch) for row in shown["nodes"] for epoch in range(1, row[4] + 1)}


class Served(Case):
    def expect_each_signal_once(self, server: Serving) -> None:
        """Checks that each node was signalled as often as its epoch says, each epoch once and in order."""
        shown = server.show()
        wanted = expected_signals(shown)
        signals = server.await_signals(len(wanted))
        self.assertEqual((len(signals), set(signals)), (len(wanted), wanted))
        for row in shown["nodes"]:
            self.assertEqual([epoch for node, epoch in signals if node == row[0]], list(range(1, row[4] + 1)))

    def expect_closed(self, server: Serving, signals: int) -> None:
        """Checks that the server ends in order after it has printed its first line and this many signals, and that its store
        opens."""
        ended = server.close()
        self.assertEqual((ended.status, ended.fault, len(ended.printed.splitlines())), (0, "", 1 + signals))
        checked = ran("check", server.store)
        self.assertEqual((checked.status, checked.fault), (0, ""))
