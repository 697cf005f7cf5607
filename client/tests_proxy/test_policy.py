"""The rules of a policy, which policies are refused, and `resetd-proxy check`."""

from __future__ import annotations

import signal
import subprocess
import tempfile
import unittest

from case import DEADLINE, DENIED, RESETD_PROXY, ROOT, USER, Case, needs_proxy, policy, unread, until, write_policy

WHOLE = policy((USER, ["show"]))
REFUSED = (
    "[[allow]]\n", "[[allow]\n", "[[deny]]\n", "allow = 1\n", "allow = [1]\n", "all = 1\n" + WHOLE,
    f"[[allow]]\nprincipals = ['{USER}']\n", "[[allow]]\nops = ['show']\n",
    WHOLE + "days = 3\n", WHOLE + "[[deny]]\n", WHOLE + "nodes = [0]\n", WHOLE + "nodes = [65]\n", WHOLE + "nodes = []\n", WHOLE + "nodes = 1\n",
    WHOLE + "nodes = [true]\n", WHOLE + "clients = [0]\n", WHOLE + "clients = [17]\n", WHOLE.replace("show", "fly"), WHOLE.replace("['show']", "'show'"),
    WHOLE.replace("['show']", "[]"), WHOLE.replace(USER, ""), WHOLE.replace(USER, "a b"), WHOLE.replace("principals", "user"))


class Rights(Case):
    nodes = 3
    has_proxy = False

    def start(self, text: str) -> None:
        """Starts a proxy with this policy."""
        self.path = f"{self.folder}/policy.toml"
        write_policy(self.path, text)
        self.proxy = self.started("--policy", self.path)

    def test_rights_are_judged_line_by_line(self) -> None:
        self.start(policy((USER, ["show", "close"]), ("certificate:service2", ["show"])))
        with self.proxy.connect() as client:
            self.assertIn("nodes", client.ask(op="show"))
            self.assertEqual(client.ask(op="reset", node=1), DENIED)
            self.assertIn("nodes", client.ask(op="show"))

    def test_a_policy_that_allows_nothing(self) -> None:
        self.start("")
        for op in ("show", "watch", "resend", "close"):
            self.assertEqual(self.proxy.ask(op=op), DENIED)

    def test_nodes_and_clients(self) -> None:
        """A link is allowed if both its ends are. The client of a line without a number is not restricted."""
        self.start(policy((USER, ["confirm", "join", "drop"])) + "clients = [3]\nnodes = [1, 2]\n")
        with self.proxy.connect() as client:
            for number, a, b in ((1, 1, 3), (1, 3, 1), (1, 3, 2)):
                self.assertEqual(client.ask(op="drop", client=3, number=number, a=a, b=b), DENIED)
            self.assertEqual(client.ask(op="drop", client=4, number=1, a=1, b=2), DENIED)
            self.assertEqual(client.ask(op="drop", client=3, number=1, a=1, b=2)["kind"], "done")
            self.assertEqual(client.ask(op="join", client=3, number=2, a=2, b=1)["kind"], "done")
            self.assertEqual(client.ask(op="confirm", node=3, epoch=1), DENIED)
            self.assertEqual(client.ask(op="confirm", node=2, epoch=1), {"name": "BadEpoch", "refused": 15})

    def test_a_line_that_waits_when_its_right_ends(self) -> None:
        """It is never sent: its connection ends, and the others go on."""
        self.start(policy((USER, ["show", "reset"])))
        looking, ordering = self.client(), self.client()
        looking.ask(op="show")
        assert self.server.process
        self.server.process.send_signal(signal.SIGSTOP)
        self.addCleanup(self.server.process.send_signal, signal.SIGCONT)
        looking.send({"op": "show"})
        until("the proxy's reading", lambda: not unread(looking))
        ordering.send({"op": "reset", "node": 1})
        until("the proxy's reading", lambda: not unread(ordering))
        write_policy(self.path, policy((USER, ["show"])))
        self.assertEqual(ordering.line(), b"")
        self.server.process.send_signal(signal.SIGCONT)
        self.assertIn("nodes", looking.reply())
        self.assertEqual([row[4] for row in self.server.await_settled()["nodes"]], [0, 0, 0])

    def test_it_does_not_start_with_a_refused_policy(self) -> None:
        for text in REFUSED:
            with self.subTest(text), self.assertRaisesRegex(AssertionError, "the proxy ended: "):
                self.start(text)


@needs_proxy
class Check(unittest.TestCase):
    def check(self, path: str) -> tuple[int, str, str]:
        done = subprocess.run([RESETD_PROXY, "check", path], capture_output=True, encoding="utf-8", timeout=DEADLINE, check=False)
        return done.returncode, done.stdout, done.stderr

    def check_text(self, text: str) -> tuple[int, str, str]:
        with tempfile.NamedTemporaryFile("w", encoding="utf-8") as file:
            file.write(text)
            file.flush()
            return self.check(file.name)

    def test_what_it_prints(self) -> None:
        text = policy(("alice", ["show", "close"]), ("certificate:service3", ["join", "confirm"])) + "clients = [3]\nnodes = [1, 2]\n"
        self.assertEqual(self.check_text(text), (0, "alice: show close\ncertificate:service3: join confirm, as clients 3, at nodes 1 2\n", ""))

    def test_what_it_refuses(self) -> None:
        for text in REFUSED:
            with self.subTest(text):
                status, printed, error = self.check_text(text)
                self.assertEqual((status, printed, len(error.splitlines())), (1, "", 1))
        self.assertEqual(self.check("/nowhere/policy")[:2], (1, ""))

    def test_the_shipped_policy(self) -> None:
        """Nobody may end the server, and who looks sends no order."""
        expected = "order: show watch reset confirm add remove join drop resend\nlook: show watch\n"
        self.assertEqual(self.check(f"{ROOT}/examples/proxy.toml"), (0, expected, ""))


if __name__ == "__main__":
    unittest.main()
