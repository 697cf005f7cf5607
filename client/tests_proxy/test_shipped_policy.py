"""The shipped policy with its commented rules: with its certificate the member of node 3 begins, confirms and learns of resets over TLS;
in C with a tunnel like stunnel."""

from __future__ import annotations

import re
import select
import socket
import ssl
import sys
import threading
import unittest
from contextlib import suppress

import members
from case import DEADLINE, ROOT
from haproxy import OverTls


class Tunnel:
    """Connects each client of a Unix socket to a TLS port, like stunnel."""

    def __init__(self, path: str, host: str, port: int, context: ssl.SSLContext) -> None:
        self._place, self._context = (host, port), context
        self._listener = socket.socket(socket.AF_UNIX)
        self._listener.bind(path)
        self._listener.listen()
        threading.Thread(target=self._serve, daemon=True).start()

    def close(self) -> None:
        self._listener.shutdown(socket.SHUT_RDWR)
        self._listener.close()

    def _serve(self) -> None:
        with suppress(OSError):
            while True:
                near, _ = self._listener.accept()
                threading.Thread(target=self._pass_on, args=[near], daemon=True).start()

    def _pass_on(self, near: socket.socket) -> None:
        """Copies bytes both ways until one side ends. A single thread uses the TLS connection, and never blocks in a read of it."""
        with near, suppress(OSError), socket.create_connection(self._place) as plain, \
                self._context.wrap_socket(plain, server_hostname=self._place[0]) as far:
            while True:
                readable = select.select([near, far], [], [])[0]
                if near in readable:
                    far.setblocking(True)
                    far.sendall(data := near.recv(65536))
                    if not data:
                        return
                far.setblocking(False)
                with suppress(ssl.SSLWantReadError):
                    while data := far.recv(65536):
                        near.sendall(data)
                    return


class Shipped(members.Members, OverTls):
    clients = ("service3",)
    principal = "order"

    def setUp(self) -> None:
        super().setUp()
        own = self.credentials("service3")
        self.environment = {"RESETD_CERTIFICATE": own.certificate, "RESETD_KEY": own.key, "RESETD_AUTHORITY": own.authority}

    def policy_text(self) -> str:
        with open(f"{ROOT}/examples/proxy.toml", encoding="utf-8") as file:
            return re.sub(r"^# (?=\[\[allow\]\]$|principals = |ops = |nodes = )", "", file.read(), flags=re.MULTILINE)

    def address_of_proxy(self) -> str:
        return self.address

    def address_in_c(self) -> str:
        tunnel = Tunnel(f"{self.folder}/tunnel", "localhost", self.port, self.context("service3"))
        self.addCleanup(tunnel.close)
        return f"unix:{self.folder}/tunnel"

    def test_the_policy_allows_no_other_node(self) -> None:
        ended = self.member(sys.executable, f"{ROOT}/examples/service", "2", self.address, f"{self.folder}/2", "--no-signals")
        self.assertEqual(ended.wait(DEADLINE), 1)
        with open(f"{self.folder}/member.said", encoding="utf-8") as said:
            self.assertIn("NotAllowed", said.read())


if __name__ == "__main__":
    unittest.main()
