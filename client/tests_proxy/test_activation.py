"""`resetd-proxy` over sockets that the service manager opened (`--listen-fds`)."""

from __future__ import annotations

import json
import os
import stat
import subprocess
import sys
import unittest

from case import RESETD_PROXY, Case, Client, unix
from headers import header

# Opens a socket at each path (a number is a port instead), passes them as the service manager does, and becomes the program.
# `{}` in a value of the environment is this process.
MANAGER = """
import fcntl, json, os, socket, sys
paths, environment, command = json.loads(sys.argv[1]), json.loads(sys.argv[2]), sys.argv[3:]
opened = []
for path in paths:
    listener = socket.socket(socket.AF_INET if isinstance(path, int) else socket.AF_UNIX)
    listener.bind(("127.0.0.1", path) if isinstance(path, int) else path)
    listener.listen(16)
    opened.append(fcntl.fcntl(listener.fileno(), fcntl.F_DUPFD, 100))
for place, descriptor in enumerate(opened):
    os.dup2(descriptor, 3 + place)
    os.close(descriptor)
os.environ.update({name: value.replace("{}", str(os.getpid())) for name, value in environment.items()})
os.execv(command[0], command)
"""


def manager(paths: list[str | int], **environment: str) -> tuple[str, ...]:
    """The start of the command line, before the program, of a manager that opens these sockets."""
    usual = {"LISTEN_PID": "{}", "LISTEN_FDS": str(len(paths)), **environment}
    return (sys.executable, "-c", MANAGER, json.dumps(paths), json.dumps(usual))


class Passed(Case):
    nodes = 3
    has_proxy = False

    def setUp(self) -> None:
        super().setUp()
        self.policy = f"{self.folder}/policy.toml"
        with open(self.policy, "w", encoding="ascii") as file:
            file.write("[[allow]]\nprincipals = ['alice']\nops = ['show']\n"
                       "[[allow]]\nprincipals = ['bob', 'certificate:service3']\nops = ['reset']\n")
        self.paths = [f"{self.folder}/{name}" for name in ("first", "second", "third", "fourth")]

    def allowed(self, path: str, first: bytes = b"") -> tuple[bool, bool]:
        """Whether a client there may look, and whether it may order."""
        with Client(unix(path)) as client:
            client.send(first)
            return "nodes" in client.ask(op="show"), "kind" in client.ask(op="reset", node=1)

    def try_names(self, names: str) -> None:
        proxy = self.started("--policy", self.policy, "--listen-fds", names, before=manager([*self.paths]))
        modes = [stat.S_IMODE(os.stat(path).st_mode) for path in self.paths]
        self.assertEqual(self.allowed(self.paths[0]), (False, True))
        self.assertEqual(self.allowed(self.paths[1]), (True, False))
        self.assertEqual(self.allowed(self.paths[2], header(b"service3")), (False, True))
        self.assertEqual(self.allowed(self.paths[3]), (True, False))
        self.assertEqual(modes, [stat.S_IMODE(os.stat(path).st_mode) for path in self.paths])
        said = proxy.said().splitlines()
        self.assertEqual([said.count(f"listening {name}") for name in ("alice", "bob", "certificates")], [2, 1, 1])

    def test_each_has_the_name_at_its_place(self) -> None:
        """Also two of one name, and the one whose principals are certificates."""
        self.try_names("bob,alice,certificates,alice")

    def test_names_as_the_manager_has_them(self) -> None:
        """In LISTEN_FDNAMES colons separate them."""
        self.try_names("bob:alice:certificates:alice")

    def test_nobody_without_a_certificate_comes_in(self) -> None:
        """No socket called `certificates` is one whose principal is `certificates`."""
        self.started("--policy", self.policy, "--listen-fds", "certificates", before=manager([self.paths[0]]))
        with Client(unix(self.paths[0])) as client:
            client.send(b'{"op":"show"}\n')
            self.assertEqual(client.line(), b"")

    def ended(self, names: str, paths: list[str | int], **environment: str) -> tuple[int, str]:
        """The status and the last line of a proxy that does not start."""
        command = [*manager(paths, **environment), RESETD_PROXY, "serve", "--server", self.server.address, "--policy", self.policy,
                   "--listen-fds", names]
        done = subprocess.run(command, stdin=subprocess.DEVNULL, capture_output=True, encoding="utf-8", timeout=120, check=False)
        for path in paths:
            if isinstance(path, str):
                os.remove(path)
        self.assertEqual(done.stdout, "")
        return done.returncode, done.stderr.splitlines()[-1]

    def test_what_is_refused(self) -> None:
        one, two = [self.paths[0]], self.paths[:2]
        cases: tuple[tuple[str, list[str], dict[str, str], str], ...] = (
                ("alice", two, {}, "passed 2 sockets, and --listen-fds names 1"),
                ("alice,bob,alice", two, {}, "passed 2 sockets, and --listen-fds names 3"),
                ("alice", one, {"LISTEN_FDS": "0"}, "passed 0 sockets, and --listen-fds names 1"),
                ("alice", one, {"LISTEN_PID": "1"}, "not for this process: LISTEN_PID is another one"),
                ("alice", one, {"LISTEN_PID": "0{}x"}, "not for this process: LISTEN_PID is another one"),
                ("alice", one, {"LISTEN_PID": "+{}"}, "not for this process: LISTEN_PID is another one"),
                ("alice", one, {"LISTEN_FDS": "one"}, "LISTEN_FDS is not a number of sockets"),
                ("alice", one, {"LISTEN_FDS": "65537"}, "LISTEN_FDS is not a number of sockets"))
        for names, paths, environment, expected in cases:
            with self.subTest(names=names, **environment):
                status, line = self.ended(names, [*paths], **environment)
                self.assertEqual(status, 1)
                self.assertIn(expected, line)
        self.assertEqual(self.ended("alice", [0])[0], 1)  # a port is no Unix socket

    def test_without_a_manager(self) -> None:
        environment = {name: value for name, value in os.environ.items() if not name.startswith("LISTEN_")}
        done = subprocess.run([RESETD_PROXY, "serve", "--server", self.server.address, "--policy", self.policy, "--listen-fds", "alice"],
                              stdin=subprocess.DEVNULL, capture_output=True, encoding="utf-8", timeout=120, env=environment, check=False)
        self.assertEqual(done.returncode, 1)
        self.assertIn("LISTEN_PID or LISTEN_FDS is missing", done.stderr)

    def test_names_that_are_none(self) -> None:
        for names in ("", "alice,", "al/ice", "x" * 65, "certificate alice"):
            with self.subTest(names):
                status, line = self.ended(names, [self.paths[0]])
                self.assertEqual(status, 2)


if __name__ == "__main__":
    unittest.main()
