"""A device that forgets unsynced bytes when the power is cut, and what the server over it has released, both by the server's calls."""

import os
import random
import re
import sys
from collections.abc import Iterator

ROOT = os.path.dirname(os.path.dirname(os.path.dirname(os.path.abspath(__file__))))
sys.path.insert(0, f"{ROOT}/tests")
from support import preloaded  # noqa: E402

__all__ = ["Forgetful"]
# A sync takes as long as on a disk. On a faster device, hardly any cut would find an unsynced write.
SYNC_MILLIS = 5
# What replies and views say about steps on the device, and the printed signals.
STEP, SIGNAL = re.compile(rb'"(?:step|settled)":(\d+)'), re.compile(rb"signal (\d+) (\d+)\n")
# A position and its bytes.
Write = tuple[int, bytes]


class Forgetful:
    """The device of one file, over all starts of the server that writes it. A kill leaves all writes in the system's memory. A
    power cut leaves what was synced, and of each later write nothing, a prefix, or all. If the device ignores syncs, nothing
    counts as synced."""

    def __init__(self, store: str, folder: str, choice: random.Random, ignores_syncs: bool = False) -> None:
        self._store, self._folder, self._choice, self._ignores_syncs = store, folder, choice, ignores_syncs
        self._calls = f"{folder}/calls"
        with open(store, "rb") as file:
            self._synced = bytearray(file.read())
        self._since = list[Write]()
        self.forgotten = 0  # writes of which a part was forgotten
        self.released = 0  # the greatest step in a reply or a view
        self.signalled = dict[int, int]()  # the greatest epoch that was printed for a node

    def before(self) -> list[str]:
        """Returns the arguments before those of the server, so that its calls are recorded."""
        settings = preloaded.environment(self._folder, CALLS=self._calls, SYNC_MILLIS=SYNC_MILLIS)
        return ["env", *(f"{name}={value}" for name, value in settings.items())]

    def take_calls(self) -> None:
        """Reads the record of a server that has ended."""
        for name, place, text in self._noted():
            if name == "write":
                self._since.append((place, text))
            elif name == "out":
                self._note_released(text)
            elif name == "sync" and text.decode() == self._store and not self._ignores_syncs:
                for each in self._since:
                    put(self._synced, *each)
                self._since.clear()

    def cut(self) -> None:
        """Cuts the power after the server has ended: the file has what the device has kept."""
        self.take_calls()
        for place, text in self._since:
            kept = self._choice.choice((0, len(text), self._choice.randint(0, len(text))))
            put(self._synced, place, text[:kept])
            self.forgotten += kept < len(text)
        self._since.clear()
        with open(self._store, "r+b") as file:
            file.truncate(0)
            file.write(self._synced)

    def _note_released(self, text: bytes) -> None:
        """Notes the steps and the epochs in what the server has sent or printed."""
        self.released = max([self.released, *map(int, STEP.findall(text))])
        for node, epoch in SIGNAL.findall(text):
            self.signalled[int(node)] = max(int(epoch), self.signalled.get(int(node), 0))

    def _noted(self) -> Iterator[tuple[str, int, bytes]]:
        """Returns the recorded calls, except a last line that the end of the server has cut."""
        if not os.path.exists(self._calls):
            return
        with open(self._calls, encoding="ascii") as file:
            lines = file.read().split("\n")[:-1]
        os.remove(self._calls)
        for line in lines:
            name, _, place, text = line.split(" ")
            if name in ("write", "sync", "out"):
                yield name, int(place), bytes.fromhex(text)


def put(content: bytearray, place: int, text: bytes) -> None:
    """Writes into a file's bytes, and extends them if necessary."""
    content.extend(bytes(max(0, place + len(text) - len(content))))
    content[place:place + len(text)] = text
