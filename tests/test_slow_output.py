"""An output that is slow, that loses its reader, or that fills up during the run: the server continues."""

import os
import subprocess

from support import stores
from support.case import Case
from support.piped import Piped
from support.program import TIMEOUT, Ended
from support.serving import Serving
from support.stores import topology

SIGNALS = 2_000  # far more than a page of lines
MANY_SIGNALS = 5_000


class SlowOutput(Case):
    takes = 20

    def reset(self, server: Serving, numbers: range) -> None:
        """Sends orders over one connection. Each is answered although nothing is printed."""
        with server.connect() as connection:
            connection.socket.settimeout(TIMEOUT)
            for first in range(numbers.start, numbers.stop, 250):
                each = range(first, min(first + 250, numbers.stop))
                connection.send(*({"op": "reset", "client": 1, "number": number, "node": 1} for number in each))
                for number in each:
                    self.assertEqual(connection.reply(), {"kind": "finished", "step": number + 1})

    def test_an_output_that_is_not_read(self) -> None:
        """A slow output delays no answer. After a close, the server ends only once everything is printed."""
        with Piped(self.made(topology([(1, 1)], half=stores.HALF))) as server:
            self.reset(server, range(1, MANY_SIGNALS + 1))
            self.assertEqual(server.ask({"op": "close"}), {"kind": "closed"})
            with self.assertRaises(subprocess.TimeoutExpired):
                server.process.wait(2)
            server.read_on()
            wanted = f"listening {server.address}\n" + "".join(f"signal 1 {epoch}\n" for epoch in range(1, MANY_SIGNALS + 1))
            self.assertEqual(server.ended(), Ended(0, wanted, ""))

    def test_a_reader_that_leaves(self) -> None:
        """Nothing more is printed, and a close ends the server with Write."""
        with Piped(self.made(topology([(1, 1)]))) as server:
            self.reset(server, range(1, 4))
            server.leave()
            self.reset(server, range(4, 30))
            self.assertEqual(server.show()["nodes"], [[1, 1, "ready", 0, 29, 0]])
            ended = server.close()
            self.assertEqual((ended.status, ended.fault), (3, "resetd: Write\n"))

    def test_a_last_line_that_no_one_takes(self) -> None:
        """Only one signal is not printed, and no other follows it."""
        with Piped(self.made(topology([(1, 1)]))) as server:
            server.leave()
            self.reset(server, range(1, 2))
            ended = server.close()
            self.assertEqual((ended.status, ended.fault), (3, "resetd: Write\n"))

    def test_a_reader_that_leaves_a_server_that_waits_for_it(self) -> None:
        with Piped(self.made(topology([(1, 1)], half=stores.HALF))) as server:
            self.reset(server, range(1, SIGNALS + 1))
            self.assertEqual(server.ask({"op": "close"}), {"kind": "closed"})
            server.leave()
            self.assertEqual((server.ended().status, server.ended().fault), (3, "resetd: Write\n"))

    def test_an_output_that_is_full_in_the_midst(self) -> None:
        """A line is torn, no more lines are printed, and a close ends the server with Write. The next start prints again."""
        store = self.made(topology([(1, 1)]))
        first = len("listening 127.0.0.1:12345\n")
        most = 1_000_000
        self.write("store.signals", b"")
        os.truncate(f"{store}.signals", most - first - len("signal 1 1\nsig"))
        with Serving(store, before=["sh", "-c", f'trap "" XFSZ; exec prlimit --fsize={most} "$@"', "sh"]) as server:
            self.reset(server, range(1, 20))
            ended = server.close()
            self.assertEqual((ended.status, ended.fault), (3, "resetd: Write\n"))
        self.assertEqual(self.read("store.signals")[-14 - first:], f"listening {server.address}\nsignal 1 1\nsig".encode())
        with Serving(store) as server:
            self.reset(server, range(20, 22))
            self.assertEqual(server.await_signals(2), [(1, 20), (1, 21)])
            self.assertEqual(server.close().status, 0)
