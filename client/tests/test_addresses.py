"""Addresses of a proxy: a socket of this host, and TLS with a certificate at each end."""

from __future__ import annotations

import asyncio
import os
import pwd
import shutil
import socket
import subprocess
import sys
import tempfile
import threading
import unittest
from unittest import mock

from case import ROOT, Case
from pushing import context_of, make_certificates, of_tls, of_unix
from resetd_client import Away, BadWords, Credentials, Fault, Faulted, Orders, Port, Unreadable, Untrusted
from resetd_client.address import SERVER, addresses_of, default_address
from resetd_client.control import main


class Parsing(unittest.TestCase):
    def test_what_an_address_is(self) -> None:
        text = "127.0.0.1:4170,unix:/run/proxy, tls:host.example:443,host:1"
        found = addresses_of(text, Credentials())
        self.assertEqual(",".join(map(str, found)), text.replace(" ", ""))
        self.assertEqual([each.is_front for each in found], [False, True, True, False])
        self.assertEqual([each.is_front for each in addresses_of("unix:4170,tls:4170")], [False, False])  # hosts with these names

    def test_what_is_none(self) -> None:
        for text in ("", "here", "127.0.0.1:", ":4170", "127.0.0.1:0", "127.0.0.1:65536", "127.0.0.1:x", "unix:", "unix:relative",
                     f"unix:/{'x' * 107}", "tls:host:0", "tls::4170", "127.0.0.1:4170,", "127.0.0.1:\u0661"):
            with self.subTest(text=text):
                self.assertRaises(BadWords, addresses_of, text)


class Sockets(Case):
    def setUp(self) -> None:
        super().setUp()
        self.server.ring(2)
        self.path = f"{self.folder}/proxy"
        self.proxy = of_unix(self.server, self.path)
        self.addCleanup(self.proxy.close)

    def test_it_is_asked_as_a_port_is(self) -> None:
        port = Port(f"unix:{self.path}", 30)
        self.assertTrue(port.is_front)
        self.assertEqual(len(port.show().nodes), 2)
        with Orders(port, 3, f"{self.folder}/orders") as orders:
            self.assertEqual(orders.order("reset", node=1).kind, "started")
        self.assertEqual(self.server.row(1)[1], 1)

    def test_one_that_is_not_there_gives_way_to_the_next(self) -> None:
        self.assertEqual(len(Port(f"unix:{self.folder}/none,unix:{self.path}", 30).show().nodes), 2)
        with self.assertRaisesRegex(Away, f"unix:{self.folder}/none: No such file"):
            Port(f"unix:{self.folder}/none").show()

    def test_what_is_not_allowed(self) -> None:
        """This library knows the fault: nothing was carried out, and the order's number can be used again."""
        with Orders(Port(f"unix:{self.path}", 30), 3, f"{self.folder}/orders") as orders:
            orders.order("reset", node=1)
            with mock.patch.object(self.server, "respond", return_value='{"fault":"NotAllowed"}'), self.assertRaises(Faulted) as caught:
                orders.order("remove", node=1)
            self.assertIs(caught.exception.fault, Fault.NOT_ALLOWED)
            self.assertEqual((orders.number, orders.unanswered), (1, []))


class Default(Case):
    """The address if none is given."""

    def setUp(self) -> None:
        super().setUp()
        reachable = tempfile.TemporaryDirectory(dir="/tmp")  # for other users too
        self.addCleanup(reachable.cleanup)
        os.chmod(reachable.name, 0o755)
        self.sockets = f"{reachable.name}/resetd-proxy"
        os.mkdir(self.sockets)
        for name, value in (("PROXY_SOCKETS", self.sockets), ("OLD_SOCKET", f"{self.folder}/old")):
            patched = mock.patch(f"resetd_client.address.{name}", value)
            patched.start()
            self.addCleanup(patched.stop)

    def listen(self, path: str) -> str:
        """Makes a socket, and returns its address."""
        listener = socket.socket(socket.AF_UNIX)
        self.addCleanup(listener.close)
        listener.bind(path)
        listener.listen()
        return f"unix:{path}"

    def test_ones_own_socket_comes_first_and_the_port_last(self) -> None:
        user = pwd.getpwuid(os.geteuid()).pw_name
        self.assertEqual(default_address(), SERVER)
        os.mkdir(f"{self.sockets}/{user}")  # no socket
        self.assertEqual(default_address(), SERVER)
        os.rmdir(f"{self.sockets}/{user}")
        self.listen(f"{self.sockets}/somebody")
        for path in (f"{self.folder}/old", f"{self.sockets}/look", f"{self.sockets}/order", f"{self.sockets}/{user}"):
            address = self.listen(path)
            self.assertEqual(default_address(), address)

    @unittest.skipIf(os.geteuid(), "it needs root: to act as another user")
    def test_a_socket_that_this_user_may_not_open_is_passed_over(self) -> None:
        """As another user in a process of that user, since the rights of a process are those of all its threads."""
        for name, mode in (("order", 0o600), ("look", 0o666)):
            self.listen(f"{self.sockets}/{name}")
            os.chmod(f"{self.sockets}/{name}", mode)
        self.assertEqual(default_address(), f"unix:{self.sockets}/order")
        code = ("import os; os.setgroups([]); os.setresgid(65534, 65534, 65534); os.setresuid(65534, 65534, 65534)\n"
                f"from resetd_client import address; address.PROXY_SOCKETS = {self.sockets!r}; print(address.default_address())")
        done = subprocess.run([sys.executable, "-c", f"import sys; sys.path.insert(0, {os.path.join(ROOT, 'client')!r}); import resetd_client.address\n{code}"],
                              capture_output=True, encoding="utf-8", check=False)
        self.assertEqual((done.stdout, done.stderr), (f"unix:{self.sockets}/look\n", ""))

    def test_resetctl_and_a_port_take_it(self) -> None:
        self.server.ring(2)
        proxy = of_unix(self.server, f"{self.sockets}/order")
        self.addCleanup(proxy.close)
        with mock.patch.dict(os.environ, {"RESETD_ADDRESS": ""}):
            self.assertEqual(main(["--quiet", "--state", self.folder, "reset", "1"]), 0)
        self.assertEqual(self.server.row(1)[1], 1)
        self.assertEqual(str(Port().addresses[0]), f"unix:{self.sockets}/order")


@unittest.skipUnless(shutil.which("openssl"), "it needs openssl: for certificates")
class Certificates(Case):
    @classmethod
    def setUpClass(cls) -> None:
        super().setUpClass()
        cls.pem = tempfile.mkdtemp()
        cls.addClassCleanup(shutil.rmtree, cls.pem)
        make_certificates(cls.pem)

    pem: str

    def credentials(self, client: str = "client", authority: str = "authority") -> Credentials:
        return Credentials(f"{self.pem}/{client}.pem", f"{self.pem}/{client}.key", f"{self.pem}/{authority}.pem")

    def setUp(self) -> None:
        super().setUp()
        self.server.ring(2)
        self.proxy, self.address = of_tls(self.server, self.pem)
        self.addCleanup(self.proxy.close)

    def test_it_is_asked_as_a_port_is(self) -> None:
        port = Port(self.address, 30, self.credentials())
        self.assertEqual(len(list(port.ask_many([{"op": "show"}] * 70))), 70)
        self.assertEqual(self.proxy.names, ["client"])

    def test_a_proxy_that_the_authority_has_not_signed(self) -> None:
        stranger, address = of_tls(self.server, self.pem, "stranger")
        self.addCleanup(stranger.close)
        with self.assertRaisesRegex(Untrusted, "does not accept the server's certificate"):
            Port(address, 30, self.credentials()).show()
        self.assertEqual(self.server.seen, [])

    def test_a_proxy_of_another_name(self) -> None:
        with self.assertRaisesRegex(Untrusted, "does not accept the server's certificate"):
            Port(self.address.replace("127.0.0.1", "localhost"), 30, self.credentials()).show()

    def test_a_client_that_the_proxy_does_not_take(self) -> None:
        for _ in range(3):
            with self.assertRaisesRegex(Untrusted, "does not accept this client's certificate"):
                Port(self.address, 30, self.credentials("stranger")).show()

    def test_a_client_that_is_not_taken_without_a_word(self) -> None:
        """A server may end the connection without an alert, like one on asyncio."""
        listener, stop = socket.create_server(("127.0.0.1", 0)), threading.Event()
        self.addCleanup(stop.set)

        async def serve() -> None:
            asyncio.get_running_loop().set_exception_handler(lambda *_: None)
            async with await asyncio.start_server(lambda _, writer: writer.close(), sock=listener, ssl=context_of(self.pem)):
                await asyncio.to_thread(stop.wait)
            await asyncio.sleep(0.1)  # the connection that the proxy has ended is closed

        thread = threading.Thread(target=lambda: asyncio.run(serve()), daemon=True)
        thread.start()
        port = f"tls:127.0.0.1:{listener.getsockname()[1]}"
        for _ in range(3):
            with self.assertRaisesRegex(Untrusted, "does not accept this client's certificate"):
                Port(port, 30, self.credentials("stranger")).show()
        with self.assertRaises(Away):
            Port(port, 30, self.credentials()).show()
        stop.set()
        thread.join(60)

    def test_a_proxy_that_takes_a_client_and_ends_is_away(self) -> None:
        self.proxy.ends = True
        for _ in range(3):
            self.assertRaises(Away, Port(self.address, 30, self.credentials()).show)

    def test_what_is_missing_or_is_no_certificate(self) -> None:
        wrong = (Credentials(), self.credentials().over(key=f"{self.pem}/none"), self.credentials().over(key=f"{self.pem}/foreign.key"),
                 self.credentials().over(authority=f"{self.pem}/client.key"))
        for credentials in wrong:
            with self.subTest(credentials=credentials):
                self.assertRaises(Untrusted, Port(self.address, 30, credentials).show)
        self.assertEqual(self.proxy.connections, 0)

    def test_a_proxy_that_is_not_there(self) -> None:
        self.assertRaises(Away, Port("tls:127.0.0.1:1", 30, self.credentials()).show)

    def test_where_credentials_are_found(self) -> None:
        """Options precede variables, and variables precede a file, whose paths are relative to its folder."""
        path = f"{self.folder}/tls.toml"
        with open(path, "w", encoding="utf-8") as file:
            file.write(f'certificate = "{self.pem}/client.pem"\nkey = "there.key"\nauthority = "/none"\n')
        found = Credentials.found({"RESETD_TLS": path, "RESETD_AUTHORITY": "/other"})
        self.assertEqual(found, Credentials(f"{self.pem}/client.pem", f"{self.folder}/there.key", "/other"))
        self.assertEqual(found.over(key="/mine", authority=None), Credentials(f"{self.pem}/client.pem", "/mine", "/other"))
        self.assertEqual(Credentials.found({}), Credentials())
        for text, said in (("key = 1\n", "the value of key must be a string"), ("word = 'x'\n", "the key word is unknown"), ("no toml", "as TOML")):
            with open(path, "w", encoding="utf-8") as file:
                file.write(text)
            self.assertRaisesRegex(Unreadable, said, Credentials.found, {"RESETD_TLS": path})
        self.assertRaises(Unreadable, Credentials.found, {"RESETD_TLS": "/none"})

    def test_resetctl(self) -> None:
        options = ("--certificate", f"{self.pem}/client.pem", "--key", f"{self.pem}/client.key")
        status, out, errors = self.run_resetctl(*options, "--authority", f"{self.pem}/authority.pem", "show", address=self.address)
        self.assertEqual((status, "node group" in out), (0, True), errors)
        status, _, errors = self.run_resetctl(*options, "--authority", f"{self.pem}/foreign.pem", "show", address=self.address)
        self.assertEqual((status, "does not accept the server's certificate" in errors), (1, True), errors)
        status, _, errors = self.run_resetctl(*options, "show", address=self.address)
        self.assertEqual((status, "these are not set: authority" in errors), (1, True), errors)
