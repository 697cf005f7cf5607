"""How a server ends through others: by signals, by a second server on its file or at its address."""

import contextlib
import json
import os
import signal
import sys

from support import stores
from support.case import Case
from support.program import ROOT, Ended, faulted, ran
from support.serving import Connection, Serving
from support.stores import ring, topology

sys.path.insert(0, f"{ROOT}/tools")
from served.ports import held_address  # noqa: E402

SERVED_ALREADY = faulted(3, "Device")


class Ends(Case):
    takes = 5

    def test_a_signal_ends_it_as_a_crash_does(self) -> None:
        """This is also so during a reset: the next start continues it, and no node is signalled twice."""
        store = self.made(ring(8))
        for number, each in enumerate((signal.SIGTERM, signal.SIGKILL, signal.SIGTERM, signal.SIGINT), 1):
            with Serving(store) as server:
                self.assertEqual(server.order(number, "reset", node=1)["kind"], "started")
                server.process.send_signal(each)
                self.assertEqual((server.ended().status, server.ended().fault), (-each, ""))
                first = server.signals()
            self.assertEqual(ran("check", store).status, 0)
            with Serving(store) as server:
                server.await_quiet(number)
                self.assertEqual(server.order(number, "reset", node=1)["kind"], "started")
                self.assertEqual(len(set(first) & set(server.signals())), 0)
                self.assertEqual(server.close().status, 0)

    def test_two_servers_on_one_file(self) -> None:
        """The second server reports Device, whatever name of the file it is given, and the first one continues."""
        store, others = self.made(topology([(1, 1)])), [self.path("link"), self.path("hard")]
        os.symlink(store, others[0])
        os.link(store, others[1])
        with Serving(store) as server:
            for number in (1, 2):
                for name in (store, *others):
                    for arguments in (["serve", name, "127.0.0.1:0"], ["migrate", name], ["init", name, f"{store}.toml"]):
                        self.assertEqual(ran(*arguments), SERVED_ALREADY)
                self.assertEqual(server.order(number, "reset", node=1), {"kind": "finished", "step": 1 + number})
                # these commands take no lock
                self.assertEqual(ran("check", store), Ended(0, f"legal {1 + number}\n", ""))
                self.assertEqual(ran("show", store).status, 0)
            self.assertEqual(server.close().status, 0)
        with Serving(store) as server:
            self.assertEqual(server.order(3, "reset", node=1), {"kind": "finished", "step": 4})

    def test_two_servers_at_one_address(self) -> None:
        """The second server reports Socket, and has written nothing."""
        with Serving(self.made(topology([(1, 1)]))) as server:
            other = self.made(topology([(2, 2)]), "other")
            before = self.read("other")
            self.assertEqual(ran("serve", other, server.address), faulted(3, "Socket"))
            self.assertEqual(self.read("other"), before)
            # FILE is checked before the socket
            self.assertEqual(ran("serve", self.write("no", "no store at all, no"), server.address), faulted(1, "NoMagic"))
            self.assertEqual(server.close().status, 0)

    def test_an_address_of_another_machine(self) -> None:
        store = self.made(topology([(1, 1)]))
        self.assertEqual(ran("serve", store, "192.0.2.1:4170"), faulted(3, "Socket"))

    def test_the_address_that_is_named(self) -> None:
        """The address is free again at once for the next start."""
        store = self.made(topology([(1, 1)]))
        address = held_address()
        with Serving(store, address=address) as server:
            server.ask({"op": "show"})
            server.kill()
        for number in range(1, 4):
            with Serving(store, address=address) as server:
                self.assertEqual(server.address, address)
                self.assertEqual(server.order(number, "reset", node=1), {"kind": "finished", "step": 1 + number})
                self.assertEqual(server.close().status, 0)

    def test_an_address_of_several(self) -> None:
        """The server listens only at the address that is named, and prints it."""
        store = self.made(topology([(1, 1)]))
        with Serving(store, address="127.255.255.254:0") as server:
            self.assertEqual(server.address.split(":")[0], "127.255.255.254")
            self.assertEqual(server.close().status, 0)
        with Serving(store, address="127.0.0.2:0") as server:
            host, port = server.address.split(":")
            self.assertEqual(host, "127.0.0.2")
            self.assertEqual(server.ask({"op": "resend"}), {"count": 0, "kind": "resent"})
            with self.assertRaises(ConnectionRefusedError):
                Connection(f"127.0.0.1:{port}")
            self.assertEqual(server.close().status, 0)

    def test_a_limit_on_the_size_of_files(self) -> None:
        """The system's signal ends it without a line, and nothing that was answered is lost."""
        store = self.made(topology([(1, 1)], half=stores.HALF))
        limit = ["prlimit", "--core=0", f"--fsize={os.path.getsize(store) + 300}"]
        with Serving(store, before=limit) as server, server.connect() as connection:
            answers = []
            with contextlib.suppress(ConnectionError):
                for number in range(1, 200):
                    connection.send({"op": "reset", "client": 1, "number": number, "node": 1})
                    if not (line := connection.line()):
                        break
                    answers.append(json.loads(line))
            self.assertEqual((server.ended().status, server.ended().fault), (-signal.SIGXFSZ, ""))
        self.assertEqual(answers, [{"kind": "finished", "step": number} for number in range(2, len(answers) + 2)])
        self.assertGreater(len(answers), 3)
        with Serving(store) as server:
            self.assertEqual(server.order(len(answers), "reset", node=1), answers[-1])
            self.assertEqual(server.close().status, 0)

    def test_a_device_that_fails(self) -> None:
        """The size of the file is limited: each later order and `show` is answered Stopped, and a close ends the server with
        Device."""
        store = self.made(topology([(1, 1)], half=stores.HALF))
        most = os.path.getsize(store) + 300
        limit = ["sh", "-c", f'trap "" XFSZ; exec prlimit --fsize={most} "$@"', "sh"]
        with Serving(store, before=limit) as server:
            answers = [server.order(number, "reset", node=1) for number in range(1, 40)]
            done = [answer for answer in answers if "kind" in answer]
            stopped = {"name": "Stopped", "refused": 1}
            self.assertEqual(answers, done + [stopped] * (len(answers) - len(done)))
            self.assertGreater(len(answers), len(done))
            self.assertEqual((server.show(), server.order(1, "reset", node=1)), (stopped, stopped))
            self.assertEqual(server.ask({"op": "resend"}), {"count": 0, "kind": "resent"})
            ended = server.close()
            self.assertEqual((ended.status, ended.fault), (3, "resetd: Device\n"))
        with Serving(store) as server:
            shown = server.show()
            self.assertGreaterEqual(shown["accepted"], 1 + len(done))
            self.assertEqual(server.order(len(done), "reset", node=1), done[-1])
