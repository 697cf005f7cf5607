"""A server that gets only a few descriptors or threads from the system."""

import errno
import os
import resource
import subprocess

from support import preloaded
from support.case import Case, tool
from support.program import TIMEOUT, PROGRAM, SHORT, SHORT_STEPS, Ended, faulted, ran
from support.serving import Connection, Serving
from support.stores import topology

THREADS = 10  # threads that a server starts: a flusher, eight workers and a printer


class Descriptors(Case):
    def test_none_is_left_for_a_while(self) -> None:
        """A client waits until a descriptor is free again, and is then served; twice."""
        with Serving(self.made(topology([(1, 1)]))) as server:
            usual = resource.prlimit(server.process.pid, resource.RLIMIT_NOFILE)
            used = max(map(int, os.listdir(f"/proc/{server.process.pid}/fd"))) + 1
            for _ in range(2):
                resource.prlimit(server.process.pid, resource.RLIMIT_NOFILE, (used, usual[1]))
                with self.waiting_client(server) as connection:
                    resource.prlimit(server.process.pid, resource.RLIMIT_NOFILE, usual)
                    connection.socket.settimeout(TIMEOUT)
                    self.assertEqual(connection.reply(), {"count": 0, "kind": "resent"})
            self.assertEqual(server.close().status, 0)

    def waiting_client(self, server: Serving) -> Connection:
        """Returns a client that waits. It is the first or the second one, because a call that waits for a client already has
        its descriptor."""
        for _ in range(2):
            connection = server.connect()
            connection.send({"op": "resend"})
            connection.socket.settimeout(1)
            try:
                connection.line()
                connection.socket.close()
            except TimeoutError:
                return connection
        self.fail("a client was served without a descriptor")

    def test_too_few_to_begin(self) -> None:
        """The server has everything that it needs before it prints that it listens: it serves, or it reports the reason and
        ends."""
        store, ends = self.made(topology([(1, 1)])), set[tuple[str, str, int]]()
        before = self.read("store")
        for most in range(4, 13):
            command = ["prlimit", f"--nofile={most}", PROGRAM, "serve", store, "127.0.0.1:0"]
            with self.subTest(most=most), subprocess.Popen(command, stdout=subprocess.PIPE, stderr=subprocess.PIPE) as server:
                assert server.stdout and server.stderr
                line = server.stdout.readline().decode()
                if line:
                    self.is_served(line.removeprefix("listening ").strip())
                fault = server.stderr.read().decode()
                ends.add((line[:10], fault, server.wait()))
            self.assertEqual(self.read("store"), before)
        self.assertEqual(ends, {("listening ", "", 0), ("", "resetd: Device\n", 3), ("", "resetd: Socket\n", 3)})

    def is_served(self, address: str) -> None:
        """Returns whether two connections are served, one after another; the second one closes the server."""
        for request, answer in (({"op": "resend"}, {"count": 0, "kind": "resent"}), ({"op": "close"}, {"kind": "closed"})):
            with Connection(address) as connection:
                connection.send(request)
                self.assertEqual(connection.reply(), answer)

    def test_an_address_that_can_not_be_listened_at(self) -> None:
        """This holds for any reason."""
        self.needs("a C compiler", preloaded.has_compiler())
        store = self.made(topology([(1, 1)]))
        for error in (errno.EACCES, errno.EADDRINUSE, errno.ENOBUFS, errno.ENOMEM, errno.EINVAL):
            environment = {**os.environ, **preloaded.environment(self.folder, LISTEN_FAILS=1, ERROR=error)}
            ended = ran("serve", store, "127.0.0.1:0", env=environment)
            self.assertEqual((error, ended), (error, faulted(3, "Socket")))

    def test_an_address_that_is_not_known(self) -> None:
        """The address can't be printed, so nobody is served."""
        self.needs("a C compiler", preloaded.has_compiler())
        environment = {**os.environ, **preloaded.environment(self.folder, NAME_FAILS=1)}
        store = self.made(topology([(1, 1)]))
        self.assertEqual(ran("serve", store, "127.0.0.1:0", env=environment), faulted(3, "Socket"))


class Threads(Case):
    takes = 20
    programs = ("RESETD", "RESETD_SHORT")

    def test_it_serves_with_all_of_them_or_not_at_all(self) -> None:
        """Runs tools/few_threads, as root."""
        self.needs("root", os.geteuid() == 0)
        done = subprocess.run([tool("few_threads"), PROGRAM], capture_output=True, text=True, timeout=self.most - 30)
        self.assertEqual((done.returncode, done.stderr), (0, ""), done.stdout)


    def test_one_that_is_refused(self) -> None:
        """Any single thread is refused, and all others start: the server reports the fault, prints nothing and leaves the store
        unchanged."""
        self.needs("a C compiler", preloaded.has_compiler())
        store = self.made(topology([(1, 1)]))
        before = self.read("store")
        for number in range(1, THREADS + 1):
            environment = {**os.environ, **preloaded.environment(self.folder, THREAD_FAILS=number)}
            with self.subTest(thread=number):
                self.assertEqual(ran("serve", store, "127.0.0.1:0", env=environment), faulted(4, "OutOfMemory"))
                self.assertEqual(self.read("store"), before)
        with Serving(store, env=preloaded.environment(self.folder, THREAD_FAILS=THREADS + 1)) as server:
            self.assertEqual(server.order(1, "reset", node=1), {"kind": "finished", "step": 2})
            self.assertEqual(server.close().status, 0)


    def test_one_that_is_refused_to_a_later_instance(self) -> None:
        """The flusher or a worker of the second or third instance is refused: the server reports that, and ends with everything
        that was answered."""
        self.needs("a C compiler", preloaded.has_compiler())
        for instance in (2, 3):
            for number in range(1, THREADS):
                fails = THREADS + (instance - 2) * (THREADS - 1) + number
                environment = preloaded.environment(self.folder, THREAD_FAILS=fails)
                store = self.made(topology([(1, 1)]), f"store{fails}")
                with Serving(store, program=SHORT, env=environment) as server:
                    for first in range(1, (instance - 1) * SHORT_STEPS, SHORT_STEPS):
                        with server.connect() as connection:
                            numbers = range(first, first + SHORT_STEPS)
                            connection.send(*({"op": "reset", "client": 1, "number": each, "node": 1} for each in numbers))
                            self.assertEqual([connection.reply()["step"] for _ in numbers], [1 + each for each in numbers])
                    count = (instance - 1) * SHORT_STEPS
                    signals = "".join(f"signal 1 {epoch}\n" for epoch in range(1, count + 1))
                    wanted = Ended(4, f"listening {server.address}\n{signals}", "resetd: OutOfMemory\n")
                    self.assertEqual((fails, server.ended()), (fails, wanted))
                self.assertEqual(ran("check", store).printed, f"legal {1 + count}\n")


class Reads(Case):
    takes = 30

    def test_an_end_that_does_not_come(self) -> None:
        """A drill reads at most 1,048,576 times, however few lines that gives."""
        self.needs("a C compiler", preloaded.has_compiler())
        environment = {**os.environ, **preloaded.environment(self.folder, PIECE=1)}
        comment = b"#" * 63 + b"\n"
        ended = ran("drill", given=comment * (1_048_576 // len(comment)) + b"#", env=environment)
        self.assertEqual(ended, faulted(3, "Turns"))
