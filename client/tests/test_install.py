"""The installed library: by pip without a network, with types that mypy checks."""

from __future__ import annotations

import os
import shutil
import subprocess
import sys
import tempfile
import unittest

CLIENT = os.path.join(os.path.dirname(os.path.abspath(__file__)), "..")
SERVICE = """
from resetd_client import Member, Orders, Port
port = Port("127.0.0.1:4170")
member = Member(port, Orders(port, 3, "folder"), {node}, None, lambda epoch: None)
with member.in_run("tag") as run:
    epoch: int = run.epoch
"""


class Installed(unittest.TestCase):
    def setUp(self) -> None:
        temporary = tempfile.TemporaryDirectory()
        self.addCleanup(temporary.cleanup)
        self.folder = temporary.name

    def run_command(self, *command: str, **environment: str) -> tuple[int, str]:
        done = subprocess.run(command, cwd=self.folder, env={**os.environ, "PYTHONDONTWRITEBYTECODE": "1", **environment},
                              capture_output=True, encoding="utf-8", check=False)
        return done.returncode, done.stdout + done.stderr

    def test_pip_installs_it_without_an_index(self) -> None:
        status, output = self.run_command(sys.executable, "-m", "pip", "install", "--no-index", "--target", "there", CLIENT)
        self.assertEqual(status, 0, output)
        status, output = self.run_command(sys.executable, "-c", "import resetd_client as r; print(r.__version__, r.__file__)",
                                          PYTHONPATH="there")
        self.assertIn(f"{self.folder}/there/resetd_client", output)
        self.assertTrue(os.path.exists(f"{self.folder}/there/resetd_client/py.typed"))
        status, output = self.run_command(f"{self.folder}/there/bin/resetctl", "--version", PYTHONPATH="there")
        self.assertEqual(status, 0, output)

    @unittest.skipUnless(shutil.which("mypy"), "it needs mypy: no types are checked")
    def test_its_types_hold_and_are_seen_from_outside(self) -> None:
        done = subprocess.run(["mypy", "--cache-dir", f"{self.folder}/cache"], cwd=CLIENT, capture_output=True, encoding="utf-8",
                              check=False)
        self.assertEqual(done.returncode, 0, done.stdout + done.stderr)
        command = ("mypy", "--strict", "--cache-dir", f"{self.folder}/cache")
        for node, expected in (("3", 0), ('"three"', 1)):
            with open(f"{self.folder}/service.py", "w", encoding="utf-8") as file:
                file.write(SERVICE.format(node=node))
            status, output = self.run_command(*command, "service.py", MYPYPATH=CLIENT)
            self.assertEqual(status, expected, output)
