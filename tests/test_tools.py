"""The trials of tools/, the client library's tests, the demo and the documents, each run as a person would run it."""

import contextlib
import json
import os
import re
import shlex
import shutil
import signal
import socket
import subprocess
import sys
import threading

from support.case import Case, tool, until
from support.program import PROGRAM, ROOT, SHORT
from support.serving import Serving

sys.path[:0] = [f"{ROOT}/tools", f"{ROOT}/client"]
from resetd_client import View  # noqa: E402
from resetd_client.party import digest_of, tag_of  # noqa: E402
from served import faults  # noqa: E402
from served.server import Server  # noqa: E402

FIRST_FAILURE = f"\n{'=' * 70}\n"  # in the output of unittest


def failures_in(printed: str) -> str:
    """Returns the failed tests in the output of unittest, with their tracebacks; for any other output, its end."""
    begin = printed.find(FIRST_FAILURE)
    return printed[begin:begin + 8_000] if begin >= 0 else printed[-3_000:]


class Run(Case):
    takes = 60
    most = 3_600

    def expect(self, *command: str, ends_with: str = "") -> str:
        """Checks that the command succeeds in time, and that its last line begins like this."""
        run = subprocess.Popen(command, stdin=subprocess.DEVNULL, stdout=subprocess.PIPE, stderr=subprocess.STDOUT, text=True,
                               cwd=ROOT, env={**os.environ, "RESETD": PROGRAM, "TMPDIR": self.folder},
                               start_new_session=True)
        is_late = False
        try:
            printed = run.communicate(timeout=self.most - 30)[0]
        except subprocess.TimeoutExpired as late:
            is_late, printed = True, (late.stdout or b"").decode(errors="replace")
        finally:
            # with everything that it has started
            with contextlib.suppress(ProcessLookupError):
                os.killpg(run.pid, signal.SIGKILL)
            run.wait()
        self.note_skipped(printed)
        self.assertFalse(is_late, f"it did not end within {self.most - 30} s: {failures_in(printed)}")
        self.assertEqual(run.returncode, 0, failures_in(printed))
        self.assertTrue(printed.splitlines()[-1].startswith(ends_with), printed[-1_000:])
        return printed


class Door(Run):
    takes = 120
    programs = ("RESETD", "RESETD_PROXY", "RESETD_MEMBER")

    def test_a_short_soak(self) -> None:
        """It runs some rounds with all 64 members. How long they may be stuck is not tested here."""
        self.needs("a C compiler", bool(shutil.which("cc")))
        self.needs("Go", bool(shutil.which("go")), is_optional=True)
        printed = self.expect(tool("soak_door"), "--library", os.path.dirname(os.environ["RESETD_MEMBER"]), "--minutes", "0.5", "--stuck", "1500")
        self.assertRegex(printed.splitlines()[-1], r"^[1-9]\d* rounds: .* checks of 64 members, 0 mixed, ")


class Nightly(Case):
    """`tools/nightly` with parts whose package or library is missing."""

    takes = 10
    programs = ("RESETD", "RESETD_PROXY")

    def nightly(self, *arguments: str) -> subprocess.CompletedProcess[str]:
        """Runs it over programs that are not those of bin/."""
        os.symlink(PROGRAM, self.path("resetd"))
        os.symlink(os.environ["RESETD_PROXY"], self.path("resetd-proxy"))
        programs = ["--program", self.path("resetd"), "--proxy", self.path("resetd-proxy"), "--library", self.folder]
        return subprocess.run([tool("nightly"), *programs, "--results", self.path("results"), *arguments],
                              env={**os.environ, "TMPDIR": self.folder, "PATH": self.path("bin")}, stdin=subprocess.DEVNULL,
                              capture_output=True, text=True, check=False)

    def test_what_is_missing_is_named(self) -> None:
        """Each part has a line with its commit, kit, seed and duration, and the command that repeats it, which does. The line
        of another part stays."""
        os.mkdir(self.path("bin"))
        for command in ("env", "python3", "git"):
            os.symlink(shutil.which(command) or command, self.path(f"bin/{command}"))
        self.write("bin/rt", "#!/bin/sh\necho the kit\n")
        os.chmod(self.path("bin/rt"), 0o755)
        first = self.nightly("--seed", "7", "--images", "30", "powercut", "soak-door")
        again = [line for line in first.stdout.splitlines() if line.startswith("to repeat it: ")]
        self.assertEqual((first.returncode, len(again)), (1, 2), first.stderr)
        lines = self.read("results").decode().splitlines()
        self.assertEqual(len(lines), 3)
        of_door = "the kit, another program than bin/resetd, another proxy than bin/resetd-proxy, another library than lib"
        wanted = (("powercut", "the kit, another program than bin/resetd, 30 images", "qemu-system-x86"),
                  ("soak-door", of_door, "there is no library of the members"))
        for line, (part, of_kit, missing) in zip(lines[1:], wanted):
            name, result, _, minutes, commit, kit, seed, last = line.split("\t")
            self.assertEqual((name, result, seed, kit), (part, "FAILED (1)", "7", of_kit))
            self.assertIn(missing, last)
            self.assertRegex(f"{commit} {minutes}", r"^[0-9a-f]{7,40}\+? \d+\.\d$")
        repeat = next(line for line in again if line.endswith("/powercut has what it printed)"))
        repeated = shlex.split(repeat.removeprefix("to repeat it: ").split("    (which runs ")[0])
        self.assertEqual(repeated[0], "tools/nightly")
        second = subprocess.run(repeated, cwd=ROOT, env={**os.environ, "TMPDIR": self.folder, "PATH": self.path("bin")}, stdin=subprocess.DEVNULL,
                                capture_output=True, text=True, check=False)
        self.assertEqual(second.returncode, 1, second.stderr)
        self.assertIn("\t7\tthese Debian packages are missing: ", second.stdout)
        self.assertIn("--images 30 ", second.stdout)
        self.assertEqual([line.split("\t")[0] for line in self.read("results").decode().splitlines()], ["part", "powercut", "soak-door"])


class WholeNight(Case):
    """`tools/nightly` with all its parts. Each command of a part is a script that ends at once."""

    programs = ()
    HELD = "#!/bin/sh\necho it held\n"

    def setUp(self) -> None:
        super().setUp()
        with open(tool("nightly"), encoding="utf-8") as file:
            source = file.read()
        self.known = re.findall(r'^ {8}"([\w-]+)": Part\(', source, re.MULTILINE)
        for name in ("tools", "refusals", "client/tests_proxy"):
            os.makedirs(self.path(name))
        shutil.copy(f"{ROOT}/refusals/nights.py", self.path("refusals"))
        self.shares = self.write("shares", "1\n")
        self.script("tools/nightly", re.sub(r'(?m)^SHARES = "[^"]*"', f'SHARES = "{self.shares}"', source))
        for name in set(re.findall(r'Part\(\[.*?"((?:tools|refusals|bench)/\w+(?:/\w+)?)"', source)):
            self.script(name, self.HELD)
        self.write("client/tests_proxy/test_kills.py", "import unittest\n\n\nclass Kills(unittest.TestCase):\n    def test(self):\n        pass\n")
        self.script("rt", "#!/bin/sh\necho the kit\n")

    def script(self, name: str, text: str) -> None:
        os.makedirs(os.path.dirname(self.path(name)), exist_ok=True)
        os.chmod(self.write(name, text), 0o755)

    def start(self, *parts: str) -> subprocess.Popen[str]:
        """Starts these parts, or all of them."""
        programs = [word for name in ("program", "proxy") for word in (f"--{name}", self.path("rt"))]
        night = subprocess.Popen([self.path("tools/nightly"), "--jobs", "3", "--seed", "7", *programs, "--results", self.path("results"), *parts],
                                 env={**os.environ, "TMPDIR": self.folder, "RT": self.path("rt")}, stdin=subprocess.DEVNULL,
                                 stdout=subprocess.PIPE, stderr=subprocess.PIPE, text=True)
        self.addCleanup(night.communicate)
        self.addCleanup(night.kill)
        return night

    def night(self, *parts: str) -> tuple[int, dict[str, list[str]]]:
        """Runs these parts, or all of them, and returns the exit status and the lines of the results by their parts."""
        night = self.start(*parts)
        self.assertEqual(night.communicate()[1], "")
        lines = [line.split("\t") for line in self.read("results").decode().splitlines()]
        by_part = {line[0]: line[1:] for line in lines[1:]}
        self.assertEqual(len(by_part), len(lines) - 1)
        return night.returncode, by_part

    def test_the_line_of_all_parts(self) -> None:
        """It says `held` only if every line of every part does. A run of one part leaves it, and a part that runs again replaces its lines."""
        status, lines = self.night()
        self.assertEqual((status, list(lines)), (0, [*self.known, "whole"]))
        self.assertEqual({line[0] for line in lines.values()}, {"held"})
        result, _, minutes, *_, seed, text = lines["whole"]
        self.assertRegex(minutes, r"^\d+\.\d$")
        self.assertEqual((result, seed, text), ("held", "7", f"{len(self.known)} parts, of which 0 failed, with 3 processors"))
        self.script("tools/powercut/run", f"{self.HELD}printf 'row\\txfs\\tFAILED\\t1 lost\\n'\n")
        self.script("tools/soak_fence", "#!/bin/sh\nexit 1\n")
        status, after = self.night("soak-fence")
        self.assertEqual((status, after["soak-fence"][0], after["whole"]), (1, "FAILED (1)", lines["whole"]))
        status, failed = self.night()
        self.assertEqual((status, list(failed)), (1, ["powercut", "powercut xfs", *self.known[1:], "whole"]))
        self.assertEqual([name for name, line in failed.items() if line[0] != "held"], ["powercut xfs", "soak-fence", "whole"])
        self.assertEqual(failed["whole"][0], "FAILED (powercut soak-fence)")
        self.assertEqual(failed["whole"][-1], f"{len(self.known)} parts, of which 2 failed, with 3 processors")
        for name in ("tools/powercut/run", "tools/soak_fence"):
            self.script(name, self.HELD)
        status, last = self.night()
        self.assertEqual((status, list(last), last["whole"][0]), (0, list(lines), "held"))

    def test_processes_have_equal_shares_while_all_parts_run(self) -> None:
        """Before and after, and while one part runs alone, the system's setting stays."""
        self.script("refusals/plant", f"#!/bin/sh\ncat {self.shares}\n")
        for before in ("1\n", "0\n"):
            self.write("shares", before)
            self.assertEqual(self.night("plant")[1]["plant"][-1], before.strip())
            self.assertEqual(self.night()[1]["plant"][-1], "0")
            self.assertEqual(self.read("shares").decode().strip(), before.strip())

    def test_one_that_is_stopped(self) -> None:
        """Its parts end with it, none has a line, and the system's setting is as before."""
        self.script("tools/powercut/run", f"#!/bin/sh\necho $$ > {self.path('begun.new')}\nmv {self.path('begun.new')} {self.path('begun')}\nexec sleep 1000\n")
        night = self.start()
        until("a part", lambda: os.path.exists(self.path("begun")))
        self.assertEqual(self.read("shares").strip(), b"0")
        night.terminate()
        self.assertEqual((*night.communicate(), night.returncode), ("", "", 1))
        self.assertRaises(ProcessLookupError, os.kill, int(self.read("begun")), 0)
        self.assertEqual(self.read("shares").strip(), b"1")
        self.assertFalse(os.path.exists(self.path("results")))


class Documents(Run):
    programs = ("RESETD", "RESETD_PROXY")

    def test_what_the_documents_show(self) -> None:
        self.expect(tool("test_documents"), "--quick", "--program", PROGRAM, "--proxy", os.environ["RESETD_PROXY"],
                    ends_with="the programs print what the documents show")


class Tools(Run):
    def test_kills(self) -> None:
        self.expect(tool("soak"), "--program", PROGRAM, "--rounds", "20", "--faults", "0", "--migrations", "0",
                    ends_with="nothing was lost")

    def test_faults_of_the_device(self) -> None:
        """Each write and each sync fails once, by strace."""
        self.needs("strace: one that may trace", faults.can_inject(), is_optional=True)
        printed = self.expect(tool("soak"), "--program", PROGRAM, "--rounds", "0", "--faults", "3", "--migrations", "0",
                              ends_with="nothing was lost")
        self.assertIn("failed at 3 places", printed)

    def test_killed_migrations(self) -> None:
        self.expect(tool("soak"), "--program", PROGRAM, "--rounds", "0", "--faults", "0", "--migrations", "5",
                    ends_with="nothing was lost")

    def test_a_closed_output(self) -> None:
        self.expect(tool("closed_output"), PROGRAM)

    def test_the_search_of_the_members_rule(self) -> None:
        """The search ends with nothing left to try, and finds the mix if a part of the rule is left out."""
        search = [tool("member_search"), "--seconds", "800", "--about"]
        self.expect(*search, "links", ends_with="links, 3 members: nothing is mixed after 20 events, 12580 states")
        weaker = subprocess.run([*search, "readd", "--without", "dropped"], stdin=subprocess.DEVNULL, capture_output=True, text=True,
                                check=False)
        self.assertEqual(weaker.returncode, 1, weaker.stderr)
        self.assertIn("mixed after 10 events", weaker.stdout)

    def test_the_demo(self) -> None:
        printed = self.expect(tool("demo"), ends_with="nodes: 8, signals: ")
        self.assertIn("ends with status 0\n  resetd check store                      legal ", printed)
        self.assertRegex(printed, r"\n  mixed: [1-9]\d* messages of both .*; skipped: [1-9]\d* items\n")
        self.assertEqual(printed.count("mixed: 0 messages; skipped: 0 items\n"), 2)

    def test_the_example(self) -> None:
        self.expect("examples/run", ends_with="the coordinator signalled each of the 8 members once, and each started again")

    def test_one_for_all(self) -> None:
        printed = self.expect("examples/one_for_all", ends_with="after it: ")
        self.assertEqual(printed.count(", 300 in all\n"), 2)

    def test_links_of_the_documents(self) -> None:
        self.expect(tool("links"))

    def test_mutants_fit_the_sources(self) -> None:
        """Each text that a mutant replaces is in the sources, and each killing test exists."""
        self.expect(os.path.join(ROOT, "refusals", "gather"), "--check")

    def test_types_of_all_programs(self) -> None:
        """They are checked by mypy --strict, in each folder."""
        self.needs("mypy", shutil.which("mypy") is not None, is_optional=True)
        printed = self.expect(tool("check_types"), ends_with="bench: Success: ")
        self.assertEqual(printed.count(": Success: no issues found in "), 6)

    def test_the_digest_that_a_page_shows(self) -> None:
        """The worked answer of docs/SERVICES.md has the party, the digest and the tag that the library computes from it."""
        with open(f"{ROOT}/docs/SERVICES.md", encoding="utf-8") as file:
            page = file.read()
        answer = re.search(r'^ *(\{"accepted":.*\})$', page, re.MULTILINE)
        assert answer
        party = View.of(json.loads(answer[1])).party(1)
        for text in (*party, digest_of(party), tag_of(party, party)):
            self.assertIn(f"`{text}`", page)

    def test_the_client_library(self) -> None:
        self.expect(sys.executable, "-m", "unittest", "discover", "-v", "-s", "client/tests", ends_with="OK")


class ShortInstances(Run):
    programs = ("RESETD_SHORT",)

    def test_what_an_instance_leaves_unanswered_is_asked_again(self) -> None:
        """An instance that ends may end a connection without an answer: the tools and the tests then send the request again."""
        process = subprocess.Popen(["sleep", "600"])
        self.addCleanup(process.wait)
        self.addCleanup(process.kill)
        with socket.create_server(("127.0.0.1", 0)) as listener:
            threading.Thread(target=self.answer_every_other, args=[listener], daemon=True).start()
            address = f"127.0.0.1:{listener.getsockname()[1]}"
            of_tools, of_tests = Server("", self.path("store")), Serving.__new__(Serving)
            of_tools.address, of_tools.process = address, process
            of_tests.address, of_tests.process, of_tests.has_short_instances = address, process, True
            for server_ask in (of_tools.ask, of_tests.ask):
                self.assertEqual(server_ask({"op": "show"}), {"settled": 1})

    @staticmethod
    def answer_every_other(listener: socket.socket) -> None:
        for number in range(4):
            with listener.accept()[0] as connection, connection.makefile("rb") as lines:
                lines.readline()
                if number % 2:
                    connection.sendall(b'{"settled":1}\n')

    def test_kills_between_instances(self) -> None:
        self.expect(tool("soak"), "--instances", "32", "--program", SHORT, "--rounds", "10", ends_with="nothing was lost")


class Services(Run):
    """The trials of tools/test_services, some in parallel."""

    programs = ("RESETD", "RESETD_PROXY")

    def trials(self, *names: str) -> None:
        self.expect(tool("test_services"), *names, ends_with="services lose no reset")

    def test_restores_and_members_that_come_again(self) -> None:
        self.trials("restore", "again", "plain")

    def test_a_work_queue(self) -> None:
        self.trials("starts", "queue")

    def test_members_that_are_taken_out_and_added_again(self) -> None:
        self.trials("second-hand", "re-add")

    def test_lines_that_do_not_come(self) -> None:
        self.trials("torn", "lost", "unread", "doubled")

    def test_lines_that_do_not_come_at_the_port(self) -> None:
        """Services read the lines themselves, without a proxy."""
        self.trials("--at-port", "torn", "lost", "unread", "doubled")

    def test_services_at_the_port(self) -> None:
        self.trials("--at-port", "restore", "plain", "queue", "messages")

    def test_many_members_and_messages(self) -> None:
        self.trials("members", "messages")

    def test_no_trial_is_left_out(self) -> None:
        with open(tool("test_services"), encoding="utf-8") as file:
            known = set(re.findall(r'"([\w-]+)": \(', file.read()))
        with open(__file__, encoding="utf-8") as file:
            tried = set(re.findall(r'"(\w[\w-]*)"', "".join(line for line in file if "self.trials(" in line)))
        self.assertEqual(tried, known)
