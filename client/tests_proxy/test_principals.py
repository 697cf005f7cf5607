"""The principals of the proxy: sockets, and certificates by HAProxy's header. And a policy that changes, limits, and arguments."""

from __future__ import annotations

import os
import stat
import subprocess
import unittest

from case import DEADLINE, DENIED, OWN, RESETD_PROXY, USER, Case, Client, needs_proxy, policy, unix, until, write_policy
from headers import header


class Principals(Case):
    nodes = 3
    has_proxy = False

    def setUp(self) -> None:
        super().setUp()
        self.policy, self.alice, self.tls = f"{self.folder}/policy.toml", f"{self.folder}/alice", f"{self.folder}/tls"
        self.write(policy(("alice", ["show", "watch"])) + policy(("certificate:service3", ["show", "reset", "confirm"])) + "nodes = [3]\n"
                   + policy((USER, ["reset"])) + "clients = [2]\n")
        self.proxy = self.started("--policy", self.policy, "--listen", f"alice={self.alice}", "--certificates", self.tls,
                                  "--connections", "3")

    def write(self, text: str) -> None:
        write_policy(self.policy, text)

    def connect(self, path: str, first: bytes = b"") -> Client:
        client = Client(unix(path))
        self.addCleanup(client.close)
        if first:
            client.send(first)
        return client

    def test_each_does_what_its_rules_allow(self) -> None:
        alice, service, own = self.connect(self.alice), self.connect(self.tls, header(b"service3")), self.connect(self.proxy.path)
        self.assertIn("nodes", alice.ask(op="show"))
        self.assertEqual(alice.ask(op="reset", node=3), DENIED)
        self.assertEqual(alice.ask(op="close"), DENIED)
        self.assertEqual(service.ask(op="reset", node=3)["kind"], "started")
        self.assertEqual(service.ask(op="reset", node=1), DENIED)
        self.assertEqual(service.ask(op="reset", node=3, client=OWN, number=1), DENIED)
        self.assertEqual(own.ask(op="reset", node=1, client=3, number=1), DENIED)
        self.assertIn("kind", own.ask(op="reset", node=1, client=2, number=1))
        self.assertEqual(own.ask(op="show"), DENIED)
        alice.send(b"f\xffly\n", b"{}\n")
        self.assertEqual([alice.reply(), alice.reply()], [{"fault": "BadText"}, {"fault": "BadRequest"}])

    def test_who_is_not_let_in(self) -> None:
        """Whatever is no header of a verified certificate is closed without a line."""
        for first in (b'{"op":"show"}\n', b"PROXY TCP4 1.2.3.4 5.6.7.8 9 10\r\n", header(b"service3", verify=1), header(b"service3", bits=0x01),
                      header(b""), header(b"x" * 65), header(b"a\x7f"), header(b"service3", command=0x20), header(b"service3")[:40] + b"x" * 3_000):
            client = self.connect(self.tls, first + b'{"op":"show"}\n')
            try:
                self.assertEqual(client.line(), b"", first)
            except ConnectionError:
                pass
        self.assertIn("nodes", self.connect(self.tls, header(b"service3")).ask(op="show"))

    def test_a_header_with_a_line_one_in_pieces_and_one_that_does_not_come(self) -> None:
        slow, silent = self.connect(self.tls), self.connect(self.tls)
        for byte in header(b"service3") + b'{"op":"show"}\n':
            slow.send(bytes([byte]))
        self.assertIn("nodes", slow.reply())
        self.assertIn("nodes", self.connect(self.tls, header(b"service3") + b'{"op":"show"}\n').reply())
        self.assertEqual(silent.line(), b"")

    def test_one_more_than_the_limit(self) -> None:
        clients = [self.connect(self.alice) for _ in range(3)]
        for client in clients:
            self.assertIn("nodes", client.ask(op="show"))
        self.assertEqual(self.connect(self.alice).line(), b"")
        self.assertIn("kind", self.connect(self.proxy.path).ask(op="reset", node=1, client=2, number=1))
        clients[0].close()
        until("a place", lambda: self.is_served(self.alice))

    def is_served(self, path: str) -> bool:
        try:
            return "nodes" in self.connect(path).ask(op="show")
        except ConnectionError:
            return False

    def test_a_policy_that_changes(self) -> None:
        alice, watcher = self.connect(self.alice), self.connect(self.alice)
        self.assertIn("nodes", alice.ask(op="show"))
        self.assertIn("nodes", watcher.ask(op="watch"))
        self.write(policy(("alice", ["confirm", "frobnicate"])))
        until("a report", lambda: "BadValue" in self.proxy.said())
        self.assertIn("nodes", alice.ask(op="show"))
        self.write(policy(("alice", ["reset"])))
        self.assertEqual(watcher.line(), b"")
        self.assertEqual(alice.ask(op="show"), DENIED)
        self.assertIn("kind", alice.ask(op="reset", node=1))
        self.assertEqual(self.proxy.said().count("BadValue"), 1)

    def test_the_sockets(self) -> None:
        """Each is its owner's alone, and one that was left there is replaced."""
        until("the last socket", lambda: "listening certificates" in self.proxy.said())
        for path in (self.alice, self.tls, self.proxy.path):
            self.assertEqual(stat.S_IMODE(os.stat(path).st_mode), 0o600)
        self.proxy.kill()
        self.proxy.start()
        self.assertIn("nodes", self.connect(self.alice).ask(op="show"))


@needs_proxy
class Arguments(unittest.TestCase):
    def status(self, *arguments: str) -> int:
        return subprocess.run([RESETD_PROXY, *arguments], capture_output=True, timeout=DEADLINE).returncode

    def test_wrong_arguments(self) -> None:
        whole = ["serve", "--server", "127.0.0.1:1", "--policy", "/dev/null", "--listen", "a=/nowhere/a"]
        wrong: list[list[str]] = [
            [], ["serve"], ["frobnicate"], [*whole[:3], *whole[5:]], [*whole, "--patience", "0"], [*whole, "--patience", "-1"], [*whole, "--stuck", "x"],
            [*whole, "--listen", "a b=/nowhere/b"], [*whole, "--listen", "b"], [*whole, "--connections", "x"], whole + ["--server", "127.0.0.1:1"] * 8]
        for arguments in wrong:
            self.assertEqual(self.status(*arguments), 2, arguments)
        self.assertEqual(self.status(*whole), 1)
        self.assertEqual(self.status(*whole[:4], "/nowhere/policy"), 1)


if __name__ == "__main__":
    unittest.main()
