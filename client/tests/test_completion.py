"""Completion for shells: what bash offers, tried in bash itself."""

from __future__ import annotations

import shutil
import subprocess
import tempfile
import unittest

from case import ROOT, Case
from resetd_client.control import COMMANDS, parser
from resetd_client.control.completion import bash, zsh

ASK = """
source "$1"; shift
COMP_WORDS=("$@") COMP_CWORD=$(($# - 1))
_resetctl
printf '%s\\n' "${COMPREPLY[@]}"
"""


@unittest.skipUnless(shutil.which("bash"), "it needs bash")
class Bash(unittest.TestCase):
    def setUp(self) -> None:
        temporary = tempfile.TemporaryDirectory()
        self.addCleanup(temporary.cleanup)
        self.script = f"{temporary.name}/script"
        with open(self.script, "w", encoding="utf-8") as file:
            file.write(bash(parser()))

    def offered(self, *arguments: str) -> set[str]:
        """Returns what bash offers after these arguments, the last of which is incomplete."""
        done = subprocess.run(["bash", "--norc", "-c", ASK, "bash", self.script, "resetctl", *arguments], capture_output=True,
                              encoding="utf-8", check=False, cwd="/")
        self.assertEqual((done.returncode, done.stderr), (0, ""))
        return set(done.stdout.split())

    def test_commands_and_options_of_all(self) -> None:
        names = {command.name for command in COMMANDS}
        self.assertEqual({word for word in self.offered("") if not word.startswith("-")}, names)
        self.assertEqual(self.offered("re"), {name for name in names if name.startswith("re")})
        self.assertEqual(self.offered("--c"), {"--client", "--certificate"})

    def test_options_of_a_command(self) -> None:
        self.assertEqual(self.offered("show", ""), {"-h", "--help", "--json"})
        self.assertEqual(self.offered("watch", "--e"), {"--every"})
        self.assertEqual(self.offered("completion", "z"), {"zsh"})

    def test_values_are_not_commands(self) -> None:
        """In bash an address consists of several words, because bash splits at a colon and at an equals sign."""
        for before in (("--client", "3"), ("--address", "127.0.0.1", ":", "4170"), ("--address", "=", "unix", ":", "/run/proxy"),
                       ("--address", "a", ":", "1,b", ":", "2"), ("--quiet",), ("--state", "show")):
            with self.subTest(before=before):
                self.assertEqual(self.offered(*before, "show", "--j"), {"--json"})
                self.assertEqual(self.offered(*before, "sho"), {"show"})

    def test_files_are_left_to_bash(self) -> None:
        for arguments in (("steps", ""), ("apply", "x"), ("--state", ""), ("watch", "--every", "")):
            self.assertEqual(self.offered(*arguments), set())
        self.assertEqual(self.offered("steps", "--b"), {"--before"})


class Zsh(Case):
    def test_it_names_all(self) -> None:
        text = zsh(parser())
        for command in COMMANDS:
            self.assertIn(f"\n        '{command.name}:", text)
            self.assertIn(f"\n        {command.name}) _arguments", text)

    @unittest.skipUnless(shutil.which("zsh"), "it needs zsh")
    def test_zsh_reads_it(self) -> None:
        done = subprocess.run(["zsh", "-n", "-c", zsh(parser())], capture_output=True, encoding="utf-8", check=False)
        self.assertEqual((done.returncode, done.stderr), (0, ""))

    def test_the_command_prints_it(self) -> None:
        for shell, script in (("bash", bash), ("zsh", zsh)):
            self.assertEqual(self.run_resetctl("completion", shell), (0, script(parser()), ""))
        done = subprocess.run([f"{ROOT}/client/resetctl", "completion", "fish"], capture_output=True, check=False)
        self.assertEqual(done.returncode, 2)
