"""The killing tests of mutants: each is a test that fails with its mutant in.

Where that is possible the mutants stand in one build for each crate of tests, and in those of the program, of `resetd-proxy` and of
the members' library, and the environment chooses one of them (schemata.py). Others stand in a build of their own. With nothing
chosen each test has to pass.
"""

import os
import re
import subprocess
import tempfile
from concurrent.futures import ThreadPoolExecutor
from itertools import count
from queue import Queue

import schemata
from copies import RT, Depends, copy_crate, libraries, make_copy
from edits import Edit

# What runs together: the tests of tests/units as one program, and the program that the other tests of tests/ start.
TOGETHER = ("units", "tests")
# The arguments of the program's build, with the files that it leaves, by the variables that name them.
PROGRAM, FILES = ["--steps", "32", "resetd", "resetd_short"], {"RESETD": "resetd", "RESETD_SHORT": "resetd_short"}
# The arguments of the build of `resetd-proxy`, which is made if a mutant is in a crate that only this program has.
PROXY = ["--proxy", "--plain", "resetd_proxy"]
# Seconds within which a test of a crate ends, after which one that its edit makes wait counts as waiting, and for which a test of the
# program waits for an answer.
LIMIT, WAITS, ANSWER = 600, 60, 120
LATE, SEEN = "did not end in time", ("FAILED", "waits")


def run(edits: list[Edit], depends: Depends, jobs: int) -> int:
    """Runs the killing test of each edit. How many of them have not failed."""
    found: list[str] = []
    alone = [edit for edit in edits if not runs_together(edit, depends) or not schemata.fits(edit.mutant)]
    with tempfile.TemporaryDirectory() as scratch:
        for tests in sorted({edit.tests for edit in edits} & set(TOGETHER)):
            chosen = [edit for edit in edits if edit.tests == tests and edit not in alone]
            chosen, others = build_together(scratch, tests, chosen, depends)
            alone += others
            with ThreadPoolExecutor(jobs) as pool:
                names = sorted({edit.test for edit in chosen})
                passes = dict(zip(names, pool.map(lambda name: what_test_did(scratch, tests, name, 0) == "ok", names)))
                found += pool.map(lambda edit, number: try_chosen(scratch, edit, number, passes[edit.test]), chosen, count(1))
    found += run_alone(alone, depends, jobs)
    failed = sum(map(found.count, SEEN))
    print(f"{len(found)} edits, {failed} seen by their killing test, {len(found) - failed} not")
    return len(found) - failed


def runs_together(edit: Edit, depends: Depends) -> bool:
    """Whether a build that the edit's test shares with others has its crate."""
    built = set[str]().union(*(libraries(program, depends) for program in ("resetd", "resetd_proxy", "resetd_member")))
    return edit.tests in TOGETHER and (edit.tests != "tests" or edit.crate in built)


def build_together(scratch: str, tests: str, edits: list[Edit], depends: Depends) -> tuple[list[Edit], list[Edit]]:
    """Builds what these tests run, with the edits to choose from: those that it has, and those with which it did not compile."""
    left, apart = edits, list[Edit]()
    while left:
        said = build(scratch, tests, left, depends)
        if not said:
            return left, apart
        named = [edit for edit in left if any(re.search(rf"(?<!\w){re.escape(file)}:\d", said) for file, _, _ in edit.pairs)]
        print(f"{tests}: {len(named) or len(left)} edits stand alone, since the build of all said:\n{said}", flush=True)
        apart += named or left
        left = [edit for edit in left if named and edit not in named]
    return [], apart


def build(scratch: str, tests: str, edits: list[Edit], depends: Depends) -> str:
    """Builds what these tests run. What a build says where it fails, and nothing where it does not."""
    wanted = builds_of_program(scratch, edits, depends) if tests == "tests" else [
        ["tools/trial_build", *choices(edits), "--units", f"{scratch}/{tests}"]]
    making = [subprocess.Popen(command, stdout=subprocess.PIPE, stderr=subprocess.STDOUT, text=True) for command in wanted]
    said = [process.communicate()[0] for process in making]
    return "\n".join(text for process, text in zip(making, said) if process.returncode)


def choices(edits: list[Edit]) -> list[str]:
    """Returns the arguments for a build with these edits. Each build gets all of them, also those in crates that it lacks, so
    that an edit has the same number in all builds."""
    return ["--schemata", *(argument for edit in edits for argument in ("--mutant", edit.id))]


def builds_of_program(scratch: str, edits: list[Edit], depends: Depends) -> list[list[str]]:
    """Returns the commands that build what the tests of tests/ run. The members' library has no edits if none is in its crates."""
    file_of = {file: f"{scratch}/{file}" for file in [*FILES.values(), PROXY[-1]]}
    programs = [PROGRAM, PROXY] if any(is_of_proxy(edit) for edit in edits) else [PROGRAM]
    is_library_edited = not libraries("resetd_member", depends).isdisjoint(edit.crate for edit in edits)
    return [*(["tools/trial_build", *choices(edits), *(file_of.get(each, each) for each in arguments)] for arguments in programs),
            ["tools/trial_library", *(choices(edits) if is_library_edited else []), scratch]]


def is_of_proxy(edit: Edit) -> bool:
    """Whether an edit is in a crate of `resetd-proxy`, of which `resetd` has none."""
    return edit.crate.startswith(("proxy_", "resetd_proxy"))


def what_test_did(scratch: str, tests: str, test: str, number: int, seconds: int = LIMIT) -> str:
    """Runs a test over a build, with the edit of this number: ok, FAILED, or that it did not end in time."""
    environment = {**os.environ, "MUTANT": str(number)}
    if tests == "tests":
        files = {variable: f"{scratch}/{file}" for variable, file in FILES.items()}
        environment |= {**files, "RESETD_MEMBER": f"{scratch}/libresetd_member.so", "RESETD_TIMEOUT": str(ANSWER)}
        if os.path.exists(f"{scratch}/{PROXY[-1]}"):
            environment["RESETD_PROXY"] = f"{scratch}/{PROXY[-1]}"
        done = subprocess.run(["tests/run", "--jobs", "1", test], env=environment, capture_output=True, text=True)
        return outcome_in(test, done.stdout)
    try:
        status = subprocess.run([f"{scratch}/{tests}", test], env=environment, capture_output=True, timeout=seconds).returncode
    except subprocess.TimeoutExpired:
        return LATE
    return "FAILED" if status else "ok"


def outcome_in(test: str, text: str) -> str:
    """What this text of a run says of a test."""
    said = re.search(rf"^test {re.escape(test)} \.\.\. (\w+)((?:\n +.*)*)", text, re.M)
    return "was not run" if not said else LATE if "no-answer" in said[2] else said[1]


def try_chosen(scratch: str, edit: Edit, number: int, passes: bool) -> str:
    """Runs the killing test of an edit of a build, prints what it did and gives it."""
    found = what_test_did(scratch, edit.tests, edit.test, number, WAITS if edit.waits else LIMIT)
    if edit.waits and found == LATE:
        found = "waits"
    if not passes:
        found = "did not pass without it either"
    return report(edit, found)


def report(edit: Edit, found: str) -> str:
    print(f"{edit.id}: {edit.tests} {edit.test}: {found}", flush=True)
    return found


def run_alone(edits: list[Edit], depends: Depends, jobs: int) -> list[str]:
    """Runs the killing test of each edit over a build that has this edit alone, and gives what each did."""
    needed = set[str]().union(*(libraries(edit.tests, depends) for edit in edits if edit.tests in depends))
    with tempfile.TemporaryDirectory() as scratch, ThreadPoolExecutor(jobs) as pool:
        copies = Queue[str]()
        for number in range(min(jobs, len(edits))):
            copies.put(make_copy(os.path.join(scratch, str(number)), needed, depends))
        return list(pool.map(lambda edit: try_alone(edit, copies), edits))


def try_alone(edit: Edit, copies: Queue[str]) -> str:
    """Runs the killing test of an edit over a build of its own or, if a crate has the test, in a copy of the crates that is free."""
    if edit.tests in TOGETHER:
        return report(edit, what_own_build_did(edit))
    copy = copies.get()
    try:
        fits = edit.apply(os.path.join(copy, "crates", edit.crate))
        found = what_copy_did(edit, copy) if fits else "an old text does not stand there once"
        copy_crate(edit.crate, copy)
        if edit.waits and found == LATE:
            found = "waits" if what_copy_did(edit, copy) == "ok" else "did not end without it either"
        return report(edit, found)
    finally:
        copies.put(copy)


def what_own_build_did(edit: Edit) -> str:
    """Builds with this edit alone what its test runs, and runs the test: ok, FAILED, or that it did not end in time."""
    if edit.tests == "tests":
        environment = {**os.environ, "RESETD_TIMEOUT": str(ANSWER)}
        done = subprocess.run(["tests/run", "--mutant", edit.id, edit.test], env=environment, capture_output=True, text=True)
        return outcome_in(edit.test, done.stdout)
    with tempfile.TemporaryDirectory() as scratch:
        build = ["tools/trial_build", "--mutant", edit.id, "--units", f"{scratch}/{edit.tests}"]
        done = subprocess.run(build, capture_output=True, text=True)
        return what_test_did(scratch, edit.tests, edit.test, 0) if done.returncode == 0 else f"was not built: {done.stdout[-300:]}{done.stderr[-300:]}"


def what_copy_did(edit: Edit, copy: str) -> str:
    """Runs the killing test of an edit in a copy of the crates: ok, FAILED, or that it did not end in time."""
    command = [*RT, "try", "--test", "--seconds", str(WAITS), "--", edit.test]
    done = subprocess.run(command, cwd=os.path.join(copy, "crates", edit.tests), capture_output=True, text=True)
    return outcome_in(edit.test, done.stdout + done.stderr)
