"""Files that are replaced as a whole."""

from __future__ import annotations

import os
import stat
import tempfile
import threading
import unittest
from unittest import mock

import case  # noqa: F401
from resetd_client import Held, hold, keep, read

TEXTS = [str(writer) * 20_000 for writer in range(4)]


class Kept(unittest.TestCase):
    def setUp(self) -> None:
        temporary = tempfile.TemporaryDirectory()
        self.addCleanup(temporary.cleanup)
        self.path = f"{temporary.name}/file"

    def test_several_that_write_at_once(self) -> None:
        """None of them fails, and a reader always sees the text of one of them."""
        faults: list[BaseException] = []

        def write(text: str) -> None:
            try:
                for _ in range(50):
                    keep(self.path, text)
                    if (found := read(self.path)) not in TEXTS:
                        raise AssertionError(f"torn: {len(found or '')} characters")
            except BaseException as fault:
                faults.append(fault)

        writers = [threading.Thread(target=write, args=[text]) for text in TEXTS]
        for writer in writers:
            writer.start()
        for writer in writers:
            writer.join()
        self.assertEqual(faults, [])
        self.assertEqual(os.listdir(os.path.dirname(self.path)), ["file"])

    def test_what_a_kill_has_left(self) -> None:
        with open(f"{self.path}.new", "w", encoding="utf-8") as file:
            file.write("a longer text that was not put in place")
        keep(self.path, "text")
        self.assertEqual((read(self.path), os.listdir(os.path.dirname(self.path))), ("text", ["file"]))

    def test_what_is_synced_and_when(self) -> None:
        """The whole text is synced before it is put in place, and after that its entry in the folder."""
        calls: list[tuple[str, str, int]] = []
        fsync, replace = os.fsync, os.replace

        def note_sync(descriptor: int) -> None:
            calls.append(("sync", os.readlink(f"/proc/self/fd/{descriptor}"), os.fstat(descriptor).st_size))
            fsync(descriptor)

        def note_replace(old: str, new: str) -> None:
            calls.append(("replace", new, os.stat(old).st_size))
            replace(old, new)

        with mock.patch("os.fsync", note_sync), mock.patch("os.replace", note_replace):
            keep(self.path, "text")
        self.assertEqual(calls[:2], [("sync", f"{self.path}.new", 4), ("replace", self.path, 4)])
        self.assertEqual([call[:2] for call in calls[2:]], [("sync", os.path.dirname(self.path))])

    def test_a_link_in_the_place_of_the_new_text(self) -> None:
        """The link is not followed: its target stays unchanged."""
        with open(f"{self.path}.other", "w", encoding="utf-8") as file:
            file.write("other")
        os.symlink(f"{self.path}.other", f"{self.path}.new")
        self.assertRaises(OSError, keep, self.path, "text")
        self.assertEqual((read(f"{self.path}.other"), read(self.path)), ("other", None))

    def test_a_folder_that_is_held(self) -> None:
        """The wait for the folder lasts as long as requested, and an unsuccessful wait leaves no open descriptor."""
        folder = os.path.dirname(self.path)
        lock = hold(folder)
        before = os.listdir("/proc/self/fd")
        for _ in range(3):
            self.assertRaises(Held, hold, folder)
        self.assertEqual(len(os.listdir("/proc/self/fd")), len(before))
        timer = threading.Timer(0.3, lock.close)
        timer.start()
        hold(folder, 60).close()
        timer.join()

    def test_who_may_read_it(self) -> None:
        """The user's umask decides: a member's files may have to be readable for another user."""
        before = os.umask(0o027)
        try:
            keep(self.path, "text")
        finally:
            os.umask(before)
        self.assertEqual(stat.S_IMODE(os.stat(self.path).st_mode), 0o640)
