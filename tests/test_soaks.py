"""The waits of the soaks in tools/, and the device whose power they cut."""

import random
import sys
import unittest
from typing import Any

from support.case import Case
from support.program import ROOT

sys.path.insert(0, f"{ROOT}/tools")
from served.forgetful import Forgetful  # noqa: E402
from served.progress_timeout import ProgressTimeout  # noqa: E402

SECONDS = 180.0


class OfALostEpoch(unittest.TestCase):
    """A group of two, whose nodes had epoch 100 when the store went back, on a clock of the test."""

    def setUp(self) -> None:
        self.now = 0.0
        self.timeout = ProgressTimeout(SECONDS, lambda: self.now)
        self.timeout.note([100, 100])
        self.timeout.begin()

    def passes(self, epochs: range, seconds: float) -> bool:
        """Whether the wait is still on once both nodes have had these epochs, each after this many seconds."""
        for epoch in epochs:
            self.now += seconds
            self.timeout.note([epoch, epoch + 1])
            if self.timeout.is_over:
                return False
        return True

    def test_a_hundred_resets_take_longer_than_one_wait(self) -> None:
        self.assertTrue(self.passes(range(1, 101), 2.5))
        self.now += SECONDS - 1
        self.assertFalse(self.timeout.is_over)

    def test_each_takes_no_longer_than_one_wait(self) -> None:
        self.assertFalse(self.passes(range(1, 3), SECONDS + 1))

    def test_new_epochs_do_not_extend_it(self) -> None:
        """Members that ask for resets again and again are found."""
        self.assertFalse(self.passes(range(101, 200), 2.5))

    def test_an_epoch_extends_it_once(self) -> None:
        self.assertTrue(self.passes(range(1, 51), 2.5))
        self.assertFalse(self.passes(range(1, 51), 4.0))


class Keeps(random.Random):
    """Makes the same choice each time: a cut keeps this many bytes of an unsynced write, or all of a shorter one."""

    def __init__(self, count: int) -> None:
        super().__init__(0)
        self._count = count

    def choice(self, seq: Any) -> Any:
        return min(self._count, max(seq))


class OfADevice(Case):
    """A device whose server has written, synced, answered and printed, by the record of its calls."""

    takes = 1

    def device(self, kept: int, ignores_syncs: bool = False) -> Forgetful:
        self.write("store", b"")
        return Forgetful(self.path("store"), self.folder, Keeps(kept), ignores_syncs)

    def record(self, *calls: tuple[str, int, int, bytes]) -> None:
        self.write("calls", "".join(f"{name} {file} {place} {text.hex()}\n" for name, file, place, text in calls))

    def sync(self) -> tuple[str, int, int, bytes]:
        return "sync", 6, 0, self.path("store").encode()

    def test_a_cut_forgets_what_was_not_synced(self) -> None:
        device = self.device(2)
        self.record(("write", 6, 0, b"body"), self.sync(), ("write", 6, 4, b"gate"))
        for _ in range(2):
            device.cut()
            self.assertEqual((self.read("store"), device.forgotten), (b"bodyga", 1))
        self.record(("write", 6, 4, b"next"), self.sync())
        device.take_calls()
        self.record(("write", 6, 8, b"x"))
        device.cut()
        self.assertEqual((self.read("store"), device.forgotten), (b"bodynextx", 1))

    def test_the_sync_of_another_file_keeps_nothing(self) -> None:
        device = self.device(0)
        self.record(("write", 6, 0, b"body"), ("sync", 7, 0, self.folder.encode()))
        device.cut()
        self.assertEqual((self.read("store"), device.forgotten), (b"", 1))

    def test_a_device_that_ignores_syncs_loses_all(self) -> None:
        device = self.device(0, ignores_syncs=True)
        self.record(("write", 6, 0, b"body"), self.sync(), ("write", 6, 0, b"gate"), self.sync())
        device.cut()
        self.assertEqual((self.read("store"), device.forgotten), (b"", 2))

    def test_what_was_released(self) -> None:
        """The greatest step of the replies and the views, and the greatest epoch of each node's signals, over all starts. A step that was
        only accepted, and a line whose end is missing, do not count."""
        device = self.device(0)
        self.record(("out", 9, 0, b'{"kind":"finished","step":12}\n'), ("out", 9, 0, b'{"accepted":40,"settled":31}\n'),
                    ("out", 1, 0, b"signal 3 17\nsignal 4 8\n"), ("out", 1, 0, b"signal 4 90"))
        device.take_calls()
        self.record(("out", 9, 0, b'{"kind":"done","step":7}\n'), ("out", 1, 0, b"signal 4 9\nsignal 3 5\n"))
        device.cut()
        self.assertEqual((device.released, device.signalled), (31, {3: 17, 4: 9}))


if __name__ == "__main__":
    unittest.main()
