"""Copies of a store that is served, under load."""

from __future__ import annotations

import errno
import os
import stat
import subprocess
import tempfile
import unittest
from unittest import mock

from backups import Lost, Trial
from case import PROGRAM, Case
from real import Real


@unittest.skipUnless(PROGRAM, "RESETD names no program that serves")
class Backups(unittest.TestCase):
    def trial(self, is_planted: bool) -> Trial:
        folder = tempfile.TemporaryDirectory()
        self.addCleanup(folder.cleanup)
        trial = Trial(folder.name, is_planted)
        self.addCleanup(trial.end)
        return trial

    def test_copies_under_load(self) -> None:
        trial = self.trial(False)
        trial.copies(50)
        while len(trial.halves) == 1 and trial.made < 2_000:
            trial.copies(50)
        self.assertGreater(len(trial.halves), 1)

    def test_a_wrong_copy_is_found(self) -> None:
        self.assertRaises(Lost, self.trial(True).copies, 50)


@unittest.skipUnless(PROGRAM, "RESETD names no program that serves")
class Command(Case):
    is_real = True

    def setUp(self) -> None:
        super().setUp()
        assert isinstance(self.server, Real)
        self.server.ring(3)
        self.store, self.out = self.server.store, f"{self.folder}/copy"

    def test_a_copy_is_a_store_and_replaces_one(self) -> None:
        os.chmod(self.store, 0o640)
        for count in (5, 6):
            self.assertEqual(self.run_resetctl("backup", self.store, self.out), (0, f"copied a store of {count} steps, version 2\n", ""))
            done = subprocess.run([PROGRAM, "check", self.out], capture_output=True, encoding="utf-8", check=False)
            self.assertEqual(done.stdout, f"legal {count}\n")
            self.assertEqual(stat.S_IMODE(os.stat(self.out).st_mode), 0o640)
            self.server.by_somebody("add", node=9, group=1) if count == 5 else None
        self.assertEqual(os.listdir(self.folder), ["copy"])

    def test_a_file_beside_the_copy_stays(self) -> None:
        """It stays whatever its name is."""
        with open(f"{self.out}.new", "w", encoding="utf-8") as file:
            file.write("another file")
        self.assertEqual(self.run_resetctl("backup", self.store, self.out)[0], 0)
        with open(f"{self.out}.new", encoding="utf-8") as file:
            self.assertEqual(file.read(), "another file")

    def test_a_copy_that_fails_leaves_nothing(self) -> None:
        with mock.patch("os.fsync", side_effect=OSError(errno.ENOSPC, "No space left on device", self.out)):
            self.assertEqual(self.run_resetctl("backup", self.store, self.out),
                             (1, "", f"resetctl: {self.out}: No space left on device\n"))
        self.assertEqual(os.listdir(self.folder), [])

    def test_what_is_not_replaced(self) -> None:
        with open(f"{self.folder}/text", "w", encoding="utf-8") as file:
            file.write("something else than a store")
        self.run_resetctl("backup", self.store, self.out)
        for source, out, said in ((self.store, self.store, "the copy would replace the store itself"),
                                  (self.out, self.store, "a process has locked this file: a store that is being served can't be replaced"),
                                  (self.store, f"{self.folder}/text", "this file is not a store, so it is not replaced")):
            self.assertEqual(self.run_resetctl("backup", source, out), (2, "", f"resetctl: {out}: {said}\n"))

    def test_what_is_no_file_is_not_replaced(self) -> None:
        os.mkfifo(f"{self.folder}/fifo")
        os.symlink("fifo", f"{self.folder}/link")
        os.mkdir(f"{self.folder}/below")
        for name in ("fifo", "link", "below"):
            kind = os.lstat(f"{self.folder}/{name}").st_mode
            self.assertEqual(self.run_resetctl("backup", self.store, f"{self.folder}/{name}"),
                             (2, "", f"resetctl: {self.folder}/{name}: it is not a regular file\n"))
            self.assertEqual(os.lstat(f"{self.folder}/{name}").st_mode, kind)

    def test_a_link_to_a_copy_stays(self) -> None:
        os.symlink("copy", f"{self.folder}/link")
        for _ in range(2):
            self.assertEqual(self.run_resetctl("backup", self.store, f"{self.folder}/link")[0], 0)
            self.assertEqual((os.readlink(f"{self.folder}/link"), os.path.isfile(self.out)), ("copy", True))

    def test_what_is_no_store(self) -> None:
        self.assertEqual(self.run_resetctl("backup", f"{self.store}.toml", self.out)[0], 1)
        self.assertEqual(self.run_resetctl("backup", f"{self.folder}/none", self.out)[0], 1)
        os.mkfifo(f"{self.folder}/fifo")
        for command in (("backup", f"{self.folder}/fifo", self.out), ("steps", f"{self.folder}/fifo")):
            self.assertEqual(self.run_resetctl(*command), (1, "", f"resetctl: {self.folder}/fifo: it is not a regular file\n"))
        self.assertFalse(os.path.exists(self.out))

    def test_steps_say_who_asked_for_a_reset_and_when_it_settled(self) -> None:
        self.run_resetctl("reset", "1")
        self.server.await_settled()
        status, out, _ = self.run_resetctl("steps", self.store)
        rows = out.splitlines()
        self.assertEqual((status, rows[0]), (0, f"version 2, half 0: the snapshot has 0 steps, of which only each client's last order "
                                                f"is kept, and {len({row.split()[1] for row in rows[1:]})} batches have {len(rows) - 1} steps"))
        self.assertEqual(rows[1].split(), ["1", "1-5", "client", "16", "order", "1:", "add", "1", "1"])
        self.assertEqual(rows[6].split(), ["6", "6-6", "client", "16", "order", "6:", "reset", "1"])
        self.assertEqual(rows[7].split()[:6], ["7", "7-7", "2", "takes", "abort", "1"])
