"""The command lines of the examples. tools/test_services tries what the examples do."""

from __future__ import annotations

import os
import subprocess
import tempfile
import unittest

from case import ROOT, Case
from pushing import of_unix

EXAMPLES = os.path.join(ROOT, "examples")
NAMES = ("ask", "gateway", "local_check", "member", "plain_member", "service", "talk", "worker")


def ran(*command: str) -> tuple[int, str, str]:
    done = subprocess.run(command, stdin=subprocess.DEVNULL, capture_output=True, encoding="utf-8", timeout=300, check=False)
    return done.returncode, done.stdout, done.stderr


class Lines(Case):
    def test_ask(self) -> None:
        """Tries the exit statuses of an example, and the address of a proxy."""
        proxy = of_unix(self.server, f"{self.folder}/proxy")
        self.addCleanup(proxy.close)
        show, fly = '{"op":"show"}', '{"op":"fly"}'
        for address in (self.server.address, f"unix:{self.folder}/proxy"):
            status, out, errors = ran(f"{EXAMPLES}/ask", address, show)
            self.assertEqual((status, out.count('"settled"'), errors), (0, 1, ""))
            self.assertEqual(ran(f"{EXAMPLES}/ask", address, fly)[:2], (1, '{"fault":"UnknownOp"}\n'))
        for arguments, status in ((("here", show), 2), ((self.server.address, "[]"), 2), ((self.server.address, "no"), 2),
                                  (("127.0.0.1:1", show), 3), (("tls:127.0.0.1:1", show), 1),
                                  (("tls:127.0.0.1:1", show, "--key", "a", "--certificate", "a", "--authority", "a"), 1)):
            self.assertEqual(ran(f"{EXAMPLES}/ask", *arguments)[0], status, arguments)

    def test_a_service_that_does_not_find_its_count_says_so_in_one_line(self) -> None:
        """The number of its last order is one that no coordinator can have."""
        self.server.ring(1)
        self.server.sessions[1] = (500_000, {"op": "reset", "node": 1}, {"kind": "finished", "step": 1})
        self.server.steps = 100  # and numbers above the count of steps are not tried
        status, out, errors = ran(f"{EXAMPLES}/service", "1", self.server.address, f"{self.folder}/service", "--no-signals")
        self.assertEqual((status, out), (1, ""), errors[-1_000:])
        self.assertIn("none is the number of the client's last or next order", errors.splitlines()[-1])
        self.assertNotIn("Traceback", errors)


class Examples(unittest.TestCase):
    def test_without_arguments_each_says_how_it_is_used(self) -> None:
        for name in NAMES:
            with self.subTest(example=name):
                status, out, errors = ran(f"{EXAMPLES}/{name}")
                self.assertEqual((status, out), (2, ""), errors)
                self.assertIn(f"usage: {name} ", errors)

    def test_what_can_not_be_is_one_line(self) -> None:
        """A folder can't be created, or a time would never pass."""
        with tempfile.TemporaryDirectory() as folder:
            for command in (("service", "3", "127.0.0.1:1", "/dev/null/folder", "--no-signals"),
                            ("service", "3", "127.0.0.1:1", folder, "--no-signals", "--look", "0"),
                            ("worker", "3", "127.0.0.1:1", "/dev/null/folder", "/dev/null/signals"),
                            ("gateway", "1-8", "3", "127.0.0.1:1", "/dev/null/folder"),
                            ("gateway", "1-8", "3", "127.0.0.1:1", folder, "--look", "nan"),
                            ("local_check", "3", "4", "127.0.0.1:1", "/dev/null/folder")):
                with self.subTest(command=command):
                    status, out, errors = ran(f"{EXAMPLES}/{command[0]}", *command[1:])
                    self.assertEqual((status, out, errors.count("\n")), (1, "", 1), errors)
                    self.assertTrue(errors.startswith(command[0]), errors)
