"""The last lines of `tests/run`: about missing requirements, and about failures. Tools whose packages are missing."""

import os
import subprocess
import sys

from support.case import Case, lacking
from support.program import ROOT

WITHIN = '''
import unittest

class Some(unittest.TestCase):
    def test_one(self):
        """A docstring."""
        self.skipTest("it needs a thing: there is none")

    def test_two(self):
        self.skipTest("it is for another program")

@unittest.skipUnless(False, "optional: it needs a thing's part")
class All(unittest.TestCase):
    def test_one(self):
        pass

    def test_two(self):
        pass
'''


class LeftOut(Case):
    def run_tests(self, *names: str, **environment: str) -> list[str]:
        """Returns the last lines of `tests/run` for tests for which no program is built."""
        named = {"RESETD": "/nonexistent", "RESETD_PROXY": "/nonexistent", "RESETD_MEMBER": "/nonexistent", **environment}
        ran = subprocess.run([sys.executable, f"{ROOT}/tests/run", *names], env={**os.environ, **named}, capture_output=True, text=True,
                             check=False)
        return ran.stdout.splitlines()[-4:]

    def test_each_lack_has_a_line(self) -> None:
        lines = self.run_tests("test_types_of_all_programs", "InOtherLanguages.test_go_without_the_library", PATH=self.folder, CI="1")
        self.assertEqual(lines[:2], ["left out for lack of Go: 1 test", "left out for lack of mypy: 1 test"])
        self.assertEqual(lines[3], "0 passed, 0 failed")

    def test_a_lack_counts_all_its_tests_and_fails_in_ci(self) -> None:
        lines = self.run_tests("test_members.Searches", "test_members.Vectors", CI="1")
        self.assertEqual((lines[1], lines[3]), ("left out for lack of a C compiler: 3 tests", "0 passed, 3 failed"))

    def test_what_is_left_out_within_a_test(self) -> None:
        self.write("test_within.py", WITHIN)
        ran = subprocess.run([sys.executable, "-m", "unittest", "-v", "test_within"], cwd=self.folder, capture_output=True, text=True, check=True)
        self.note_skipped(ran.stderr)
        within, self.skipped_within = self.skipped_within, []
        self.assertEqual(sorted(lacking(within)), ["a thing", *["a thing's part"] * 2])

    def test_each_failure_is_named(self) -> None:
        """A failure is named with those within it: here the tests of a proxy whose program is missing, but not those of a model."""
        lines = self.run_tests("test_proxy.Proxy.test_resets_that_name_an_epoch")
        self.assertRegex(lines[1], r"^failed: test_proxy\.Proxy\.test_resets_that_name_an_epoch: test_epochs\.Epochs\.test_a_reset_that_names_an_epoch, test_epochs\.")
        self.assertNotIn("test_lost_resets.", lines[1])
        self.assertEqual(lines[3], "0 passed, 1 failed")


class MissingPackages(Case):
    """The tools of nightly parts, in a place where no program is installed."""

    programs = ()
    TOOLS = {
        ("tools/soak", "--program", sys.executable):
            "no system call can be made to fail: Debian's package strace is missing: apt-get install strace (--faults 0 goes without)",
        ("tools/try_member", "--program", sys.executable, "--proxy", sys.executable, "--wrong"):
            "--wrong has to see the file calls of members: there is no C compiler (apt-get install gcc)",
        ("tools/fuzz_library/fuzz",): "these Debian packages are missing: clang gcc",
        ("bench/around", "--trial", "--proxy", sys.executable, sys.executable): "these Debian packages are missing: gcc strace",
    }

    def test_each_tool_names_what_is_missing(self) -> None:
        for command, line in self.TOOLS.items():
            with self.subTest(tool=command[0]):
                ran = subprocess.run([sys.executable, *command], cwd=ROOT, env={**os.environ, "PATH": self.folder, "TMPDIR": self.folder},
                                     stdin=subprocess.DEVNULL, capture_output=True, text=True, check=False)
                self.assertEqual((ran.returncode, ran.stderr.splitlines()[-1:]), (1, [line]), ran.stderr)
