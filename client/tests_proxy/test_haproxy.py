"""TLS with client certificates: HAProxy before `resetd-proxy`, with strangers, revoked certificates and a new authority."""

from __future__ import annotations

import contextlib
import os
import shutil
import socket
import ssl
import subprocess
import tempfile
import threading
import time
import unittest

from case import DEADLINE, DENIED, policy, until, write_policy
from haproxy import OverTls, make
from resetd_client import Credentials, Port, Untrusted

STRANGERS = 60


class Certificates(OverTls):
    nodes = 5
    clients = ("service3", "service5")

    def policy_text(self) -> str:
        return "".join(f"[[allow]]\nprincipals = ['certificate:service{node}']\nops = ['show', 'watch', 'reset', 'confirm']\nnodes = [{node}]\n"
                       for node in (3, 5))

    def is_served(self, name: str) -> bool:
        """Whether a client with this certificate gets an answer."""
        try:
            return "nodes" in self.connected(name).ask(op="show")
        except (OSError, ValueError):
            return False

    def refusal(self, name: str) -> str:
        """The alert that a connection with this certificate gets, which sends nothing; nothing if none comes for a second."""
        client = self.connected(name)
        client.socket.settimeout(1)
        try:
            client.socket.recv(1)
        except ssl.SSLError as fault:
            return fault.reason or ""
        except OSError:
            pass
        return ""

    def test_a_certificate_is_a_principal(self) -> None:
        three, five = self.connected("service3"), self.connected("service5")
        assert isinstance(three.socket, ssl.SSLSocket)
        self.assertEqual(three.socket.version(), "TLSv1.3")
        self.assertEqual(three.ask(op="reset", node=3)["kind"], "started")
        self.assertEqual(three.ask(op="reset", node=5), DENIED)
        self.assertEqual(five.ask(op="confirm", node=3, epoch=1), DENIED)
        self.assertIn("nodes", five.ask(op="show"))
        self.assertFalse(self.is_served(""))

    def test_a_name_that_is_taken_out_of_the_policy(self) -> None:
        """An open connection has no rights from then on."""
        three, five = self.connected("service3"), self.connected("service5")
        self.assertIn("nodes", five.ask(op="show"))
        write_policy(self.policy, policy(("certificate:service3", ["show"])))
        until("the new policy", lambda: not self.is_served("service5"))
        self.assertEqual(five.ask(op="show"), DENIED)
        self.assertIn("nodes", three.ask(op="show"))

    def test_old_certificates_and_versions(self) -> None:
        self.make_expired("old")
        until("a refusal of the expired certificate", lambda: "EXPIRED" in self.refusal("old"))
        with self.assertRaises(ssl.SSLError):
            self.connected("service3", ssl.TLSVersion.TLSv1_2)
        with socket.create_connection(("127.0.0.1", self.port), timeout=DEADLINE) as plain:
            plain.sendall(b'{"op":"show"}\n' * 10)
            with contextlib.suppress(ConnectionError):
                self.assertNotIn(b"nodes", plain.recv(1_000))
        self.assertTrue(self.is_served("service3"))

    def make_expired(self, name: str) -> None:
        """Makes a certificate that ended yesterday."""
        for command in (["req", "-newkey", "ec", "-pkeyopt", "ec_paramgen_curve:prime256v1", "-nodes", "-subj", f"/CN={name}", "-keyout", f"{name}.key",
                         "-out", f"{name}.csr"],
                        ["x509", "-req", "-in", f"{name}.csr", "-CA", "authority.pem", "-CAkey", "authority.key", "-CAcreateserial", "-days", "-1",
                         "-out", f"{name}.pem"]):
            subprocess.run(["openssl", *command], cwd=self.pem, check=True, capture_output=True)

    def test_many_at_once(self) -> None:
        """Whatever comes together with the end of a handshake is read too."""
        faults: list[str] = []

        def ask() -> None:
            try:
                for _ in range(6):
                    client = self.connected("service3")
                    for op in ("show", "watch", "close"):
                        client.ask(op=op)
            except OSError as fault:
                faults.append(str(fault))
        asking = [threading.Thread(target=ask) for _ in range(12)]
        for each in asking:
            each.start()
        for each in asking:
            each.join()
        self.assertEqual(faults, [])

    def test_the_library_and_a_stranger(self) -> None:
        """The library distinguishes a certificate that is not accepted from a server that is away."""
        self.assertEqual(len(Port(self.address, 60, self.credentials("service3")).show().nodes), 5)
        other = f"{self.folder}/other"
        os.mkdir(other)
        make(other, "authority")
        make(other, "client", "service3")
        foreign = Credentials(f"{other}/service3.pem", f"{other}/service3.key", f"{self.pem}/authority.pem")
        self.assertRaises(Untrusted, Port(self.address, 60, foreign).show)

    def strangers(self) -> list[socket.socket]:
        """Connections from as many hosts that begin no handshake."""
        found = []
        for place in range(STRANGERS):
            stranger = socket.create_connection(("127.0.0.1", self.port), timeout=DEADLINE, source_address=(f"127.0.1.{place + 1}", 0))
            stranger.sendall(b"\x16\x03\x01\x02\x00\x01")  # the first bytes of a hello
            self.addCleanup(stranger.close)
            found.append(stranger)
        return found

    def test_strangers_end_nobody(self) -> None:
        """Sixty handshakes that don't end: they are ended, and meanwhile a client stays, and a new one is served at once."""
        old = self.connected("service3")
        old.ask(op="show")
        strangers, began = self.strangers(), time.monotonic()
        self.assertTrue(self.is_served("service5"))
        self.assertIn("nodes", old.ask(op="show"))
        # Not one of the strangers had to end for that.
        waiting = [stranger for stranger in strangers if self.is_open(stranger)]
        self.assertTrue(len(waiting) == STRANGERS or time.monotonic() - began > 4, len(waiting))
        for stranger in strangers:
            try:
                self.assertEqual(stranger.recv(1), b"")
            except ConnectionError:
                pass
        self.assertIn("nodes", old.ask(op="show"))

    def is_open(self, connection: socket.socket) -> bool:
        connection.setblocking(False)
        try:
            return bool(connection.recv(1, socket.MSG_PEEK))
        except BlockingIOError:
            return True
        except ConnectionError:
            return False
        finally:
            connection.settimeout(DEADLINE)

    def refused(self) -> int:
        """How many of 300 silent connections from one source are refused: they are closed before their handshakes are late."""
        silent, refused = dict[socket.socket, float](), 0
        for _ in range(300):
            try:
                connection = socket.create_connection(("127.0.0.1", self.port), timeout=DEADLINE, source_address=("127.0.2.1", 0))
                silent[connection] = time.monotonic() + 4
            except ConnectionError:
                refused += 1
        while silent:
            for connection, late in list(silent.items()):
                if time.monotonic() > late or not self.is_open(connection):
                    refused += time.monotonic() < late
                    connection.close()
                    del silent[connection]
            time.sleep(0.05)
        return refused

    def test_one_source_has_a_limit(self) -> None:
        """Others are served meanwhile. A busy machine may be too slow to reach the limit at the first try."""
        until("a limit of one source", lambda: self.refused() >= 80)
        self.assertTrue(self.is_served("service3"))

    def test_a_revoked_certificate(self) -> None:
        self.assertTrue(self.is_served("service3") and self.is_served("service5"))
        shutil.copy(f"{self.pem}/service5.pem", f"{self.folder}/kept.pem")
        make(self.pem, "revoke", "service5")
        shutil.copy(f"{self.folder}/kept.pem", f"{self.pem}/service5.pem")
        self.reload()
        until("a refusal of the revoked certificate", lambda: "CERTIFICATE_REVOKED" in self.refusal("service5"))
        self.assertTrue(self.is_served("service3"))
        self.assertFalse(self.is_served("service5"))

    def test_a_replaced_authority(self) -> None:
        """Only certificates of the new one count, from a reload on."""
        self.assertTrue(self.is_served("service3"))
        old = tempfile.mkdtemp(dir=self.folder)
        for name in os.listdir(self.pem):
            os.rename(f"{self.pem}/{name}", f"{old}/{name}")
        make(self.pem, "authority")
        make(self.pem, "server", "localhost")
        make(self.pem, "client", "service3")
        for ending in ("pem", "key"):
            shutil.copy(f"{old}/service5.{ending}", f"{self.pem}/service5.{ending}")
        self.reload()
        until("the new authority", lambda: self.is_served("service3"))
        until("a refusal of the old one", lambda: "UNKNOWN_CA" in self.refusal("service5"))
        self.assertTrue(self.is_served("service3"))
        self.assertFalse(self.is_served("service5"))


if __name__ == "__main__":
    unittest.main()
