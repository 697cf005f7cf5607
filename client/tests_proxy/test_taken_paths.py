"""Paths of sockets at which a proxy is to listen, and something else is there already."""

from __future__ import annotations

import os
import socket
import subprocess
import tempfile
import unittest

from case import DEADLINE, RESETD_PROXY, Client, Proxy, needs_proxy, unix


@needs_proxy
class Paths(unittest.TestCase):
    def setUp(self) -> None:
        folder = tempfile.TemporaryDirectory()
        self.addCleanup(folder.cleanup)
        self.folder = folder.name
        self.path, self.policy = f"{self.folder}/socket", f"{self.folder}/policy.toml"
        with open(self.policy, "w", encoding="ascii"):
            pass

    def started(self, *arguments: str) -> subprocess.CompletedProcess[str]:
        """A proxy that ends by itself."""
        command = [RESETD_PROXY, "serve", "--server", "127.0.0.1:1", "--policy", self.policy, *arguments]
        return subprocess.run(command, capture_output=True, text=True, check=False, timeout=DEADLINE)

    def ended(self, *arguments: str) -> tuple[int, str]:
        """The status of a proxy that ends by itself, and the last line that it wrote."""
        ran = self.started(*arguments)
        return ran.returncode, ran.stderr.splitlines()[-1]

    def listening(self) -> socket.socket:
        """Another process's socket at the path."""
        listener = socket.socket(socket.AF_UNIX)
        self.addCleanup(listener.close)
        listener.bind(self.path)
        listener.listen(0)
        return listener

    def test_a_proxy_that_runs_keeps_its_sockets(self) -> None:
        """Also that of HAProxy."""
        certificates = f"{self.folder}/certificates"
        proxy = Proxy(self.folder, "127.0.0.1:1", "--policy", self.policy, "--certificates", certificates)
        self.addCleanup(proxy.kill)
        unix(certificates).close()  # once it listens there
        for path, arguments in ((proxy.path, ["--listen", f"alice={proxy.path}"]), (certificates, ["--certificates", certificates])):
            with self.subTest(arguments[0]):
                self.assertEqual(self.ended(*arguments), (1, f"resetd-proxy: another process listens at {path}"))
        with proxy.connect() as client:
            self.assertEqual(client.ask(op="show"), {"fault": "NotAllowed"})

    def test_a_process_that_accepts_nothing(self) -> None:
        """Its backlog is full, so a connection would wait for room."""
        self.listening()
        waiting = [socket.socket(socket.AF_UNIX) for _ in range(2)]
        for each in waiting:
            self.addCleanup(each.close)
            each.setblocking(False)
            try:
                each.connect(self.path)
            except BlockingIOError:
                break
        self.assertEqual(self.ended("--listen", f"alice={self.path}"), (1, f"resetd-proxy: another process listens at {self.path}"))
        self.assertTrue(os.path.exists(self.path))

    def test_a_socket_that_was_left_is_replaced(self) -> None:
        self.listening().close()
        proxy = Proxy(self.folder, "127.0.0.1:1", "--policy", self.policy, "--listen", f"alice={self.path}")
        self.addCleanup(proxy.kill)
        with Client(unix(self.path)) as client:
            self.assertEqual(client.ask(op="show"), {"fault": "NotAllowed"})

    def test_what_is_no_socket_stays(self) -> None:
        """A connection to it is refused too."""
        with open(self.path, "w", encoding="ascii") as file:
            file.write("kept")
        self.assertEqual(self.started("--listen", f"alice={self.path}").returncode, 1)
        with open(self.path, encoding="ascii") as file:
            self.assertEqual(file.read(), "kept")


if __name__ == "__main__":
    unittest.main()
