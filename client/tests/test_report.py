"""`resetctl report`: one file for the person who investigates a fault."""

from __future__ import annotations

import json
import os
import stat
import tarfile
import unittest
from unittest import mock

from case import PROGRAM, Case
from real import Real
from resetd_client.device import devices_of, kernel_lines, mount_of
from resetd_client.processes import checksum_of
from test_store_file import APPENDED

# Prints its arguments, and lines of two devices.
JOURNAL = """#!/bin/sh
echo "arguments: $*"
echo "kernel: I/O error, dev vdz9, sector 7"
echo "kernel: nvme0n1: another device"
"""


@unittest.skipUnless(PROGRAM, "RESETD names no program that serves")
class Report(Case):
    is_real = True

    def setUp(self) -> None:
        super().setUp()
        assert isinstance(self.server, Real)
        self.server.ring(2)
        self.store = self.server.store
        os.mkdir(f"{self.folder}/bin")
        with open(f"{self.folder}/bin/journalctl", "w", encoding="utf-8") as file:
            file.write(JOURNAL)
        os.chmod(f"{self.folder}/bin/journalctl", 0o755)
        path = mock.patch.dict(os.environ, {"PATH": f"{self.folder}/bin:{os.environ['PATH']}"})
        path.start()
        self.addCleanup(path.stop)
        self.out = f"{self.folder}/report.tar.gz"

    def report(self, *arguments: str) -> dict[str, bytes]:
        """Returns the parts of the report by their names."""
        status, out, errors = self.run_resetctl("report", "--store", self.store, "--memory", f"{self.folder}/none", *arguments, self.out,
                                                address=self.server.behind)
        self.assertEqual((status, errors), (0, ""))
        with tarfile.open(self.out) as archive:
            found = {name.removeprefix("report/"): archive.extractfile(name).read() for name in archive.getnames()}  # type: ignore[union-attr]
        for name in set(found) - {"README.txt"}:
            self.assertIn(f"{name} ", out)
        return found

    def test_what_is_in_it(self) -> None:
        assert isinstance(self.server, Real) and self.server.process
        self.server.reset(1)
        self.server.await_settled()
        self.run_resetctl("health", address=self.server.behind)
        found = self.report("--unit", "other")
        self.assertEqual(set(found), {"README.txt", "why.txt", "show.json", "store", "steps.txt", "steps-before.txt",
                                      "health/person-health.json", "journal.txt", "versions.txt", "process.txt", "filesystem.txt",
                                      "kernel.txt"})
        self.assertEqual(stat.S_IMODE(os.stat(self.out).st_mode), 0o600)
        self.assertEqual(json.loads(found["show.json"]), self.server.ask(op="show"))
        with open(f"{self.folder}/copy", "wb") as file:
            file.write(found["store"])
        self.assertIn(b"reset 1", found["steps.txt"])
        self.assertIn(" order 1: reset 1", self.run_resetctl("steps", f"{self.folder}/copy")[1])
        self.assertIn(f"lock     process {self.server.process.pid} ".encode(), found["why.txt"])
        self.assertIn(f"{checksum_of(PROGRAM)}  {PROGRAM}, run by process {self.server.process.pid}".encode(), found["versions.txt"])
        self.assertIn(b"control/report.py\n", found["versions.txt"])
        self.assertIn(b"--unit other --unit other-proxy --unit other-health\n", found["journal.txt"])
        self.assertIn(b"Max open files", found["process.txt"])
        self.assertIn(mount_of(self.store).encode(), found["filesystem.txt"])

    def test_nothing_is_replaced(self) -> None:
        self.report()
        with open(self.out, "rb") as file:
            before = file.read()
        self.assertEqual(self.run_resetctl("report", "--store", self.store, self.out)[0], 1)
        with open(self.out, "rb") as file:
            self.assertEqual(file.read(), before)

    def test_a_server_that_is_down_and_a_store_that_does_not_read(self) -> None:
        """A part that can't be found has the reason instead, and the rest of the store's part is there."""
        self.server.end()
        with open(self.store, "wb") as file:
            file.write(APPENDED[:50])
        found = self.report()
        self.assertEqual(found["store"], APPENDED[:50])
        self.assertIn(b"not found: ", found["show.json"])
        self.assertIn(b"not found: BadRecord", found["steps.txt"])
        self.assertIn(b"a start now would end with the fault BadRecord", found["why.txt"])
        self.assertIn(b"no process on this machine has locked the store", found["process.txt"])

    def test_only_the_lines_of_its_device(self) -> None:
        with mock.patch("resetd_client.device.devices_of", return_value=["vdz9"]):
            self.assertEqual(kernel_lines(self.store), "kernel: I/O error, dev vdz9, sector 7\n")
        with mock.patch("resetd_client.device.devices_of", return_value=["vdz"]):
            self.assertEqual(kernel_lines(self.store), "none of the kernel's 3 messages is about vdz\n")
        with mock.patch("resetd_client.device.devices_of", return_value=["dz9"]):
            self.assertEqual(kernel_lines(self.store), "none of the kernel's 3 messages is about dz9\n")
        with mock.patch("resetd_client.device.devices_of", return_value=[]):
            self.assertIn("not on a block device", kernel_lines(self.store))
        self.assertEqual(devices_of("/proc/self/status"), [])
