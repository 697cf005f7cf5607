"""The common parts of the tests: a coordinator, which is the one in memory and, if RESETD names the program, also the program."""

from __future__ import annotations

import io
import os
import sys
import tempfile
import unittest
from contextlib import redirect_stderr, redirect_stdout
from typing import Any
from unittest import mock

sys.dont_write_bytecode = True
ROOT = os.path.join(os.path.dirname(os.path.abspath(__file__)), "..", "..")
sys.path.insert(0, os.path.join(ROOT, "client"))
from fake import Fake  # noqa: E402
from real import Real  # noqa: E402
from resetd_client import Orders, Port  # noqa: E402
from resetd_client.control import main  # noqa: E402

PROGRAM = os.path.abspath(os.environ["RESETD"]) if os.environ.get("RESETD") else ""


class Case(unittest.TestCase):
    """A test with a coordinator, a folder and a port."""

    is_real = False

    def setUp(self) -> None:
        self.server = self.fake = self.started()
        temporary = tempfile.TemporaryDirectory()
        self.addCleanup(temporary.cleanup)
        self.folder = temporary.name
        self.port = Port(self.server.address, 120)
        self.messages: list[str] = []

    def started(self) -> Any:
        """Starts a coordinator: a Fake or a Real, which have the same interface."""
        server = Real(PROGRAM) if self.is_real else Fake()
        self.addCleanup(server.close)
        return server

    def orders(self, client: int = 1, name: str = "orders", recovers: bool = False) -> Orders:
        orders = Orders(self.port, client, f"{self.folder}/{name}", recovers=recovers, told=self.messages.append)
        self.addCleanup(orders.close)
        return orders

    def run_resetctl(self, *arguments: str, address: str = "") -> tuple[int, str, str]:
        """Runs `resetctl` with these arguments. Returns its status, its output, and its messages."""
        out, err = io.StringIO(), io.StringIO()
        with redirect_stdout(out), redirect_stderr(err), mock.patch("resetd_client.control.base.SILENCE_SECONDS", 60.0):
            status = main(["--address", address or self.server.address, "--state", self.folder, "--patience", "0", *arguments])
        return status, out.getvalue(), err.getvalue()


def over_both(loader: unittest.TestLoader, tests: unittest.TestSuite, _: str | None) -> unittest.TestSuite:
    """For a module's `load_tests`: repeats each Case over the program, if RESETD names it."""
    if not PROGRAM:
        return tests
    both = unittest.TestSuite([tests])
    groups = [group for group in tests if isinstance(group, unittest.TestSuite)]
    for kind in {type(test) for group in groups for test in group if isinstance(test, Case)}:
        real = type(f"{kind.__name__}OverTheProgram", (kind,), {"is_real": True, "__module__": kind.__module__})
        both.addTests(loader.loadTestsFromTestCase(real))
    return both


def in_memory(test: Any) -> Any:
    """Marks a test that writes into the coordinator's memory, so it can't run over the program."""
    def call(self: Case) -> None:
        if self.is_real:
            self.skipTest("writes into the coordinator's memory")
        test(self)
    call.__name__, call.__doc__ = test.__name__, test.__doc__
    return call
