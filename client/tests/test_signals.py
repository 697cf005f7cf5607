"""Wake-ups of a service: lines of a stream, and a file of signals that grows, is truncated and is replaced."""

from __future__ import annotations

import fcntl
import os
import tempfile
import threading
import time
import unittest
from collections.abc import Callable

import case  # noqa: F401
from resetd_client import Stream, Wake
from resetd_client.signals import Follower


class Streams(unittest.TestCase):
    def setUp(self) -> None:
        self.reader, self.writer = os.pipe()
        fcntl.fcntl(self.writer, fcntl.F_SETPIPE_SZ, 1 << 20)
        self.addCleanup(os.close, self.reader)
        self.stream = Stream(self.reader)

    def test_all_that_came_is_one_wake(self) -> None:
        """This holds for any number of lines."""
        self.assertEqual(self.stream.wait(0), Wake.QUIET)
        for size in (1, 300_000):
            os.write(self.writer, b"x" * size)
            self.assertEqual((self.stream.wait(60), self.stream.wait(0)), (Wake.CAME, Wake.QUIET))
        os.write(self.writer, b"the last")
        os.close(self.writer)
        self.assertEqual((self.stream.wait(60), self.stream.wait(60)), (Wake.END, Wake.END))

    def test_a_wait_is_over_as_something_comes(self) -> None:
        self.addCleanup(os.close, self.writer)
        timer = threading.Timer(0.2, os.write, [self.writer, b"s"])
        timer.start()
        began = time.monotonic()
        self.assertEqual(self.stream.wait(60), Wake.CAME)
        self.assertLess(time.monotonic() - began, 30)
        timer.join()


class Followed(unittest.TestCase):
    def setUp(self) -> None:
        temporary = tempfile.TemporaryDirectory()
        self.addCleanup(temporary.cleanup)
        self.path = f"{temporary.name}/signals"

    def write(self, mode: str, text: str, suffix: str = "") -> None:
        with open(self.path + suffix, mode, encoding="utf-8") as file:
            file.write(text)

    def test_each_change_is_a_wake(self) -> None:
        follower = Follower(self.path)

        def replace() -> None:
            self.write("w", "signal 1 2\n", ".new")
            os.replace(f"{self.path}.new", self.path)

        self.assertEqual(follower.wait(0), Wake.QUIET)
        changes: tuple[Callable[[], None], ...] = (
            lambda: self.write("w", "signal 1 1\n"), lambda: self.write("a", "sig"), lambda: self.write("a", "nal"),
            lambda: self.write("w", "signal 1 1\n"), replace, lambda: self.write("w", ""), lambda: os.remove(self.path),
            lambda: self.write("w", ""))
        for change in changes:
            change()
            self.assertEqual((follower.wait(60), follower.wait(0)), (Wake.CAME, Wake.QUIET))
