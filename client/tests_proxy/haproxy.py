"""HAProxy by the shipped configuration (examples/haproxy.cfg), over the certificates that examples/certificates makes."""

from __future__ import annotations

import os
import shutil
import signal
import socket
import ssl
import subprocess
import unittest

from case import DEADLINE, ROOT, USER, Case, Client, until
from resetd_client import Credentials

HAPROXY = shutil.which("haproxy", path=f"{os.environ.get('PATH', '')}:/usr/sbin")


def make(folder: str, *arguments: str) -> None:
    """Runs examples/certificates in a folder."""
    subprocess.run([f"{ROOT}/examples/certificates", *arguments], cwd=folder, check=True, capture_output=True)


@unittest.skipUnless(HAPROXY, "it needs haproxy: for TLS before resetd-proxy")
@unittest.skipUnless(shutil.which("openssl"), "it needs openssl: for certificates")
class OverTls(Case):
    """A test with certificates of an authority, a proxy with a policy, and HAProxy before it."""

    has_proxy = False
    clients: tuple[str, ...] = ()  # the names of those that get a certificate
    principal = USER  # of the proxy's other socket

    def setUp(self) -> None:
        super().setUp()
        self.pem, self.socket = f"{self.folder}/certificates", f"{self.folder}/tls"
        os.mkdir(self.pem)
        make(self.pem, "authority")
        make(self.pem, "server", "localhost")
        for name in self.clients:
            make(self.pem, "client", name)
        self.policy = f"{self.folder}/policy.toml"
        with open(self.policy, "w", encoding="ascii") as file:
            file.write(self.policy_text())
        self.proxy = self.started("--policy", self.policy, "--certificates", self.socket, principal=self.principal)
        with socket.create_server(("127.0.0.1", 0)) as listener:
            self.port = int(listener.getsockname()[1])
        self.haproxy = self.start_haproxy()

    def policy_text(self) -> str:
        raise NotImplementedError

    def start_haproxy(self) -> subprocess.Popen[bytes]:
        """Starts it by the shipped configuration, with the paths and the port of this test, and as this user."""
        with open(f"{ROOT}/examples/haproxy.cfg", encoding="utf-8") as file:
            text = file.read()
        for shipped, own in (("/etc/resetd/certificates", self.pem), ("/run/resetd-proxy/certificates", self.socket),
                             ("/run/haproxy/admin.sock", f"{self.folder}/admin.sock"), (":4171", f"127.0.0.1:{self.port}"),
                             ("    user haproxy\n    group haproxy\n", ""), ("    log /dev/log local0\n", "")):
            self.assertIn(shipped, text)
            text = text.replace(shipped, own)
        with open(f"{self.folder}/haproxy.cfg", "w", encoding="utf-8") as file:
            file.write(text)
        assert HAPROXY
        with open(f"{self.folder}/haproxy.log", "wb") as log:
            haproxy = subprocess.Popen([HAPROXY, "-W", "-f", f"{self.folder}/haproxy.cfg"], stdin=subprocess.DEVNULL, stdout=log, stderr=log)
        self.addCleanup(haproxy.wait)
        self.addCleanup(haproxy.send_signal, signal.SIGTERM)
        until("HAProxy", lambda: self.loaded() or haproxy.poll() is not None)
        self.assertIsNone(haproxy.poll(), self.said())
        return haproxy

    def said(self) -> str:
        with open(f"{self.folder}/haproxy.log", encoding="utf-8") as file:
            return file.read()

    def loaded(self) -> int:
        """How many times it has read its configuration."""
        return self.said().count("Loading success")

    def reload(self) -> None:
        """Has it read all again."""
        before = self.loaded()
        self.haproxy.send_signal(signal.SIGUSR2)
        until("a reload", lambda: self.loaded() > before)

    @property
    def address(self) -> str:
        return f"tls:localhost:{self.port}"

    def credentials(self, name: str) -> Credentials:
        """The files of a client."""
        return Credentials(f"{self.pem}/{name}.pem", f"{self.pem}/{name}.key", f"{self.pem}/authority.pem")

    def context(self, name: str, version: ssl.TLSVersion = ssl.TLSVersion.TLSv1_3) -> ssl.SSLContext:
        context = ssl.create_default_context(ssl.Purpose.SERVER_AUTH, cafile=f"{self.pem}/authority.pem")
        context.maximum_version = version
        if name:
            context.load_cert_chain(f"{self.pem}/{name}.pem", f"{self.pem}/{name}.key")
        return context

    def connected(self, name: str, version: ssl.TLSVersion = ssl.TLSVersion.TLSv1_3) -> Client:
        """A client with a certificate of this name, or with none. Raises OSError."""
        plain = socket.create_connection(("127.0.0.1", self.port), timeout=DEADLINE)
        client = Client(self.context(name, version).wrap_socket(plain, server_hostname="localhost"))
        self.addCleanup(client.close)
        return client
