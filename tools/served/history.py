"""All answers and signals over the starts of one store, and the checks of the store after each."""

from .clients import Lost
from .server import Server


class History:
    def __init__(self) -> None:
        self.answered = {0}  # the steps of all replies
        self.epochs: dict[int, int] = {}  # the greatest epoch of each node that was printed or shown
        self.printed = set[tuple[int, int]]()
        self.count = 0  # the number of steps in the store when it was last inspected
        self.accounted: dict[int, int] = {}  # for each node, the epoch up to which every signal was printed, or lost in a kill
        self.taken = 0  # the number of signals lost in kills

    def note_signals(self, signals: list[tuple[int, int]]) -> None:
        for node, epoch in signals:
            if (node, epoch) in self.printed:
                raise Lost(f"signal {node} {epoch} was printed twice")
            self.printed.add((node, epoch))
            self.epochs[node] = max(epoch, self.epochs.get(node, 0))

    def note_epochs(self, epochs: dict[int, int]) -> None:
        """Records shown epochs. None may be below one that was printed or shown before."""
        for node, epoch in self.epochs.items():
            if epochs.get(node, 0) < epoch:
                raise Lost(f"node {node} was seen in epoch {epoch}, and is in epoch {epochs.get(node)}")
        self.epochs = dict(epochs)

    def find_unprinted(self) -> list[tuple[int, int]]:
        """Returns the signals of shown epochs that were neither printed nor lost in an earlier kill."""
        return [(node, epoch) for node, last in self.epochs.items()
                for epoch in range(self.accounted.get(node, 0) + 1, last + 1) if (node, epoch) not in self.printed]

    def expect_printed(self) -> None:
        """Checks that each settled signal was printed, if nothing was killed and the device has not failed."""
        if missing := self.find_unprinted():
            raise Lost(f"signal {missing[0][0]} {missing[0][1]} was settled and not printed, one of {len(missing)}")
        self.accounted = dict(self.epochs)

    def note_taken(self) -> None:
        """Records that settled signals may be lost by a kill, or by a fault of the device, before they are printed."""
        self.taken += len(self.find_unprinted())
        self.accounted = dict(self.epochs)

    def look_into(self, server: Server) -> tuple[int, bool]:
        """Checks and shows a store that no process serves. Returns its number of steps, and whether a reset is in progress."""
        status, lines = server.command("check")
        if status != 0 or not lines[0].startswith("legal "):
            raise Lost(f"resetd check ended with status {status}: {' '.join(lines)}")
        count = int(lines[0].split()[1])
        if count < max(self.answered):
            raise Lost(f"step {max(self.answered)} was answered, but the store has only {count} steps")
        self.count = count
        status, lines = server.command("show")
        rows = [line.split() for line in lines if line.startswith("node ")]
        if status != 0 or lines[0] != f"view {count} {count}":
            raise Lost(f"resetd show ended with status {status}: {' '.join(lines[:1])}")
        self.note_epochs({int(row[1]): int(row[5]) for row in rows})
        return count, any(row[3] != "ready" for row in rows)
