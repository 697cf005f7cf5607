"""The tests of tests/units, each in its own process. They are one program, which is built without any proof."""

import os
import re
import subprocess
from collections.abc import Callable

from support.case import Case, tool
from support.program import ROOT

PROGRAM = os.environ.get("RESETD_UNITS", "")
FOLDER = f"{ROOT}/tests/units"
# Without the variable the program waits. It chooses a mutant if the build has some.
ENVIRONMENT = {**os.environ, "MUTANT": os.environ.get("MUTANT", "0")}
TEST = re.compile(r"^#\[test\]\nfn (\w+)", re.MULTILINE)


def names() -> list[str]:
    """Returns the tests by module and function, like `engine::closing::the_last_share_alone_is_refused`."""
    found = []
    for at, _, files in sorted(os.walk(FOLDER)):
        for file in sorted(files):
            with open(os.path.join(at, file), encoding="utf-8") as source:
                module = os.path.relpath(os.path.join(at, file), FOLDER).removesuffix(".rt.txt").replace("/", "::")
                found += [f"{module}::{name}" for name in TEST.findall(source.read())]
    return found


def test_of(name: str) -> Callable[[Case], None]:
    def test(case: Case) -> None:
        case.needs("a C compiler: for a trial build of tests/units", os.path.isfile(PROGRAM))
        # each test has its own folder, so that two runs on one machine use different files
        ran = subprocess.run([PROGRAM, name], cwd=case.folder, env={**ENVIRONMENT, "TMPDIR": case.folder}, capture_output=True, check=False)
        said = (ran.stdout + ran.stderr).decode(errors="replace")
        case.assertEqual(ran.returncode, 0, said[-3_000:])
    return test


class Units(Case):
    takes = 5
    programs = ("RESETD_UNITS",)


for each in names():
    setattr(Units, f"test_{each}", test_of(each))


class Listed(Case):
    """The list of tests is the program's, and each file has the layout of `rt fmt`."""

    programs = ("RESETD_UNITS",)

    def test_each_test_of_the_program_is_run(self) -> None:
        self.needs("a C compiler: for a trial build of tests/units", os.path.isfile(PROGRAM))
        ran = subprocess.run([PROGRAM, "--list"], env=ENVIRONMENT, capture_output=True, text=True, check=True)
        self.assertEqual(sorted(re.findall(r"^(\S+): test$", ran.stdout, re.MULTILINE)), sorted(names()))

    def test_a_test_that_is_not_there_fails(self) -> None:
        self.needs("a C compiler: for a trial build of tests/units", os.path.isfile(PROGRAM))
        self.assertNotEqual(subprocess.run([PROGRAM, "engine::nothing"], env=ENVIRONMENT, capture_output=True, check=False).returncode, 0)

    def test_the_layout_is_that_of_the_formatter(self) -> None:
        ran = subprocess.run([tool("units")], capture_output=True, text=True, check=False)
        self.assertEqual((ran.returncode, ran.stdout), (0, ""))
