"""A test with a scratch folder."""

import os
import re
import shutil
import tempfile
import time
import unittest
from collections.abc import Callable, Iterable
from typing import Literal, TypeVar

from .program import PROGRAM, ROOT, ran

T = TypeVar("T")
OPTIONAL = "optional: "  # how the reason begins if the test may be skipped in CI too
LACK = re.compile(rf"(?:{OPTIONAL})?it needs ([^:]+)")  # the reason of a skipped test: the missing requirement, and after a colon the details
SKIPPED = re.compile(r"""\.\.\. skipped (['"])(.*)\1$""", re.MULTILINE)  # the line of a skipped test in the output of unittest -v


def until(what: str, holds: Callable[[], T | Literal[False] | None], seconds: float = 300.0) -> T:
    """Calls `holds` repeatedly until its result is true, and returns that result. It looks often, so that the end does not
    depend on a clock."""
    end = time.monotonic() + seconds
    while not (found := holds()):
        if time.monotonic() > end:
            raise AssertionError(f"within {seconds} s {what} did not come")
        time.sleep(0.005)
    return found


class Case(unittest.TestCase):
    """A test with a scratch folder. `takes` is about the number of seconds that it takes: the longest test begins first. It
    must end within `most` seconds, even on a busy machine. `program` is the program that it runs, and `programs` are the
    variables that name the required builds."""

    maxDiff = 2_000
    takes = 1
    most = 1_800
    program: str = PROGRAM
    programs: tuple[str, ...] = ("RESETD",)

    def __init__(self, method: str = "runTest") -> None:
        super().__init__(method)
        self.skipped_within = list[str]()  # the reasons of the tests that were skipped in a command of this test

    def setUp(self) -> None:
        self.folder = tempfile.mkdtemp(prefix="resetd-test-")
        self.addCleanup(shutil.rmtree, self.folder, ignore_errors=True)

    def path(self, name: str) -> str:
        return os.path.join(self.folder, name)

    def write(self, name: str, text: str | bytes) -> str:
        """Writes a file, and returns its path."""
        with open(self.path(name), "wb") as file:
            file.write(text if isinstance(text, bytes) else text.encode())
        return self.path(name)

    def read(self, name: str) -> bytes:
        with open(self.path(name), "rb") as file:
            return file.read()

    def made(self, topology: str, name: str = "store") -> str:
        """Creates a store from a topology, and returns its path."""
        ended = ran("init", self.path(name), self.write(f"{name}.toml", topology), program=self.program)
        self.assertEqual((ended.status, ended.fault), (0, ""))
        return self.path(name)

    def needs(self, what: str, has: bool, is_optional: bool = False) -> None:
        """Requires something. If it is missing, the test is skipped, which counts as a failure in CI unless the requirement is
        optional."""
        if not has:
            self.skipTest(f"{OPTIONAL if is_optional else ''}it needs {what}")

    def note_skipped(self, printed: str) -> None:
        """Records the skipped tests in the output of `unittest -v`."""
        self.skipped_within += [reason for _, reason in SKIPPED.findall(printed)]


def lacking(reasons: Iterable[str]) -> list[str]:
    """Returns the missing requirement in each of these reasons, one for each skipped test."""
    return [lack[1] for reason in reasons if (lack := LACK.match(reason))]


def tool(name: str) -> str:
    return os.path.join(ROOT, "tools", name)
