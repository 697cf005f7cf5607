"""Waiting for files that other programs change, and for another thread: what ends a wait, and that nothing polls."""

from __future__ import annotations

import gc
import os
import shutil
import tempfile
import threading
import time
import unittest
from collections.abc import Callable
from unittest import mock

import case  # noqa: F401
from resetd_client import changes
from resetd_client.bell import Bell
from resetd_client.changes import Changes, wait_for

LONG = 120.0  # seconds; no wait of these tests lasts that long
QUIET = 0.5


class Files(unittest.TestCase):
    """The system reports the changes."""

    is_polled = False

    def setUp(self) -> None:
        temporary = tempfile.TemporaryDirectory()
        self.addCleanup(temporary.cleanup)
        self.folder = temporary.name
        self.path = f"{self.folder}/file"
        if self.is_polled:
            patch = mock.patch.object(changes, "Inotify", side_effect=OSError("none left"))
            patch.start()
            self.addCleanup(patch.stop)

    def write(self, path: str, text: str = "x") -> None:
        with open(path, "a", encoding="utf-8") as file:
            file.write(text)

    def replace(self) -> None:
        self.write(f"{self.path}.new", "other")
        os.replace(f"{self.path}.new", self.path)

    def expect_woken(self, files: Changes, change: Callable[[], None], path: str = "") -> None:
        timer = threading.Timer(0.1, change)
        timer.start()
        self.assertEqual(files.wait(LONG), [path or self.path])
        timer.join()
        files.take()  # the changes in between

    def test_each_change(self) -> None:
        files = Changes([self.path, f"{self.folder}/another"])
        self.assertEqual(files.take(), [])
        for change in (lambda: self.write(self.path), lambda: self.write(self.path), self.replace, lambda: os.truncate(self.path, 0),
                       lambda: os.remove(self.path)):
            self.expect_woken(files, change)
            self.write(f"{self.folder}/somebody_elses")
            self.assertEqual(files.wait(0.05), [])
        self.expect_woken(files, lambda: self.write(f"{self.folder}/another"), f"{self.folder}/another")

    def test_one_that_came_before_the_wait(self) -> None:
        files = Changes([self.path])
        files.take()
        self.write(self.path)
        self.assertEqual(files.wait(LONG), [self.path])

    def test_what_is_there_at_first(self) -> None:
        self.write(self.path)
        files = Changes([self.path])
        self.assertEqual((files.take(), files.take()), ([self.path], []))

    def test_a_folder_that_comes_and_is_replaced(self) -> None:
        path = f"{self.folder}/inner/file"
        files = Changes([path])
        self.assertEqual(files.take(), [])

        def came() -> None:
            os.makedirs(f"{self.folder}/inner", exist_ok=True)
            self.write(path)

        def another_came() -> None:
            os.rename(f"{self.folder}/inner", f"{self.folder}/outer")
            came()

        self.expect_woken(files, came, path)
        self.expect_woken(files, lambda: self.write(path), path)
        timer = threading.Timer(0.1, another_came)
        timer.start()
        self.assertEqual(files.wait(LONG), [path])
        timer.join()
        files.take()
        self.expect_woken(files, lambda: self.write(path), path)
        self.expect_woken(files, lambda: shutil.rmtree(f"{self.folder}/inner"), path)

    def test_a_symbolic_link(self) -> None:
        """The link's target is in another folder."""
        os.mkdir(f"{self.folder}/inner")
        self.write(f"{self.folder}/inner/file")
        os.symlink(f"{self.folder}/inner/file", self.path)
        files = Changes([self.path])
        files.take()
        self.expect_woken(files, lambda: self.write(f"{self.folder}/inner/file"))

    def test_a_wait_that_nothing_ends(self) -> None:
        """The wait lasts as long as requested. If the system reports changes, the files are checked twice: at the beginning and
        at the end."""
        files = Changes([self.path])
        files.take()
        with mock.patch.object(changes, "state_of", side_effect=changes.state_of) as looked:
            began = time.monotonic()
            self.assertEqual(files.wait(QUIET), [])
            self.assertGreaterEqual(time.monotonic() - began, QUIET)
        if not self.is_polled:
            self.assertLessEqual(looked.call_count, 3)

    def test_descriptors_are_given_back(self) -> None:
        gc.collect()
        before = len(os.listdir("/proc/self/fd"))
        for _ in range(20):
            Changes([self.path]).take()
            Bell()
        gc.collect()
        self.assertLessEqual(len(os.listdir("/proc/self/fd")), before)


class PolledFiles(Files):
    """The system can't report changes."""

    is_polled = True


class Bells(unittest.TestCase):
    def test_it_wakes_whoever_waits(self) -> None:
        bell = Bell()
        timer = threading.Timer(0.1, bell.ring)
        timer.start()
        self.assertTrue(wait_for([[bell.fileno()], []], LONG))
        timer.join()
        bell.hush()
        self.assertFalse(wait_for([[bell.fileno()]], 0.0))

    def test_it_rings_as_often_as_it_is_rung(self) -> None:
        """It rings more often than a pipe has room for bytes."""
        bell = Bell()
        for _ in range(70_000):
            bell.ring()
        self.assertTrue(wait_for([[bell.fileno()]], LONG))
        bell.hush()
        self.assertFalse(wait_for([[bell.fileno()]], 0.0))
