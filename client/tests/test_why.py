"""`resetctl why`: the cause of each fault at a start."""

from __future__ import annotations

import fcntl
import json
import os
import pwd
import re
import resource
import shutil
import signal
import socket
import subprocess
import sys
import tempfile
import time
import unittest
from unittest import mock

from case import PROGRAM, ROOT, Case
from real import Real
from resetd_client.access import Trial, account_of, tried_as
from resetd_client.connections import Row, peers, read_address, row_of, written
from resetd_client.processes import Condition, checksum_of, condition_of, lock_holders
from test_store_file import APPENDED, CHECKPOINTED, FRESH


class Files(Case):
    def put(self, data: bytes) -> str:
        path = f"{self.folder}/store"
        with open(path, "wb") as file:
            file.write(data)
        os.chmod(path, 0o640)
        return path

    def move_to_all(self) -> None:
        """Makes the folder accessible to every user: TMPDIR may belong to this user alone."""
        folder = tempfile.TemporaryDirectory(dir="/tmp")
        self.addCleanup(folder.cleanup)
        self.folder = folder.name
        os.chmod(self.folder, 0o755)

    def why(self, *arguments: str) -> tuple[int, list[str]]:
        status, out, errors = self.run_resetctl("why", *arguments)
        self.assertEqual(errors, "")
        return status, out.splitlines()

    def test_a_store(self) -> None:
        for data, count, index, used in ((APPENDED, 1, 0, 45), (CHECKPOINTED, 0, 1, 17)):
            status, lines = self.why(self.put(data))
            self.assertEqual((status, lines[-1]), (0, "these checks found nothing that prevents a start"))
            self.assertIn(f"store    half {index} is selected; {used} of its 32,768 bytes are used", lines)
            self.assertTrue(any(line.startswith(f"store    version 1, {count} steps: 0 in the snapshot") for line in lines))
            self.assertRegex(lines[1], rf"^file     a file of {len(data):,} bytes, -rw-r----- \S+:\S+$")
            self.assertIn("lock     no process on this machine holds the lock", lines)

    def test_where_it_stops_to_read(self) -> None:
        for data, expected in ((b"", "NoMagic: at byte 0, the file does not begin with the header of a store: the file is empty"),
                               (APPENDED[:50], "BadRecord: at byte 38, a body of 23 bytes and its gate byte extend past the end"),
                               (FRESH[:17] + b"\3" + FRESH[18:], "BadSnapshot: at byte 17, this library does not know version 3 of the format"),
                               (APPENDED[:48] + b"\7" + APPENDED[49:], "BadBatch: at byte 48, batch 0 can't be decoded (BadByte)")):
            status, lines = self.why(self.put(data))
            name = expected.split(":")[0]
            self.assertEqual((status, lines[-1]), (
                1, f"a start now would end with the fault {name}: store: the file is not a readable store: {expected}"))

    def test_what_is_no_file(self) -> None:
        os.mkfifo(f"{self.folder}/fifo")
        os.symlink(f"{self.folder}/nowhere", f"{self.folder}/link")
        for path, expected in (("none", "NoMagic: file: No such file or directory; a start of the server would create an empty file"),
                               ("link", f"Device: file: the path is a symbolic link to a missing file: {self.folder}/nowhere"),
                               ("none/store", f"Device: folder: {self.folder}/none: No such file or directory"),
                               (".", "Device: file: a folder of "), ("fifo", "Device: file: a FIFO of 0 bytes, p"),
                               ("/dev/null", "Device: file: a character device of 0 bytes, c")):
            status, lines = self.why(os.path.join(self.folder, path))
            self.assertEqual(status, 1)
            self.assertTrue(lines[-1].startswith(f"a start now would end with the fault {expected}"), lines)

    def test_who_holds_the_lock(self) -> None:
        store = self.put(FRESH)
        with open(store, "rb") as file:
            fcntl.flock(file, fcntl.LOCK_EX)
            status, lines = self.why(store)
            found = os.stat(store)
            other_device = os.stat_result([*found[:2], found.st_dev + 1, *found[3:10]])
            self.assertEqual((lock_holders(found), lock_holders(other_device)), ([os.getpid()], []))
        self.assertEqual(status, 1)
        self.assertTrue(any(line.startswith(f"lock     process {os.getpid()} (") for line in lines), lines)

    def test_a_limit_and_a_mode(self) -> None:
        store = self.put(FRESH)
        before = resource.getrlimit(resource.RLIMIT_FSIZE)
        resource.setrlimit(resource.RLIMIT_FSIZE, (65_552, before[1]))
        self.addCleanup(resource.setrlimit, resource.RLIMIT_FSIZE, before)
        status, lines = self.why(store)
        self.assertEqual((status, lines[-1]), (1, "a running server may have this problem: a signal ends the server: limit: this shell may "
                                                  "write files of at most 65,552 bytes: at a longer file, SIGXFSZ ends it without a message"))

    @unittest.skipUnless(os.geteuid() == 0, "it needs root: it acts as another user")
    def test_the_user_of_the_server(self) -> None:
        """Root sees the faults for that user, which is by default the owner of the folder."""
        self.move_to_all()
        store = self.put(FRESH)
        os.chmod(store, 0o600)
        refused = ("a start now would end with the fault Device: access: the user nobody can't open the file for reading and writing: "
                   "Permission denied. ")
        self.assertEqual(self.why(store)[0], 0)
        status, lines = self.why("--user", "nobody", store)
        self.assertEqual((status, lines[-1][:len(refused)]), (1, refused))
        nobody = pwd.getpwnam("nobody")
        os.chown(self.folder, nobody.pw_uid, -1)
        self.assertEqual(self.why(store)[1][-1][:len(refused)], refused)
        os.chown(store, nobody.pw_uid, -1)
        status, lines = self.why(store)
        self.assertEqual((status, lines[-1]), (0, "these checks found nothing that prevents a start"))
        self.assertTrue(any("the user nobody may open the store and its folder; syncing both took" in line for line in lines), lines)
        os.chmod(self.folder, 0o300)
        self.assertIn("access: the user nobody can't open the file's folder: Permission denied", self.why(store)[1][-1])

    @unittest.skipUnless(os.geteuid() == 0, "it needs root: it acts as another user")
    def test_a_folder_of_a_lost_machine(self) -> None:
        """The owner has no name here, which is reported. A process with that number may still open the file."""
        self.move_to_all()
        store = self.put(FRESH)
        for path in (store, self.folder):
            os.chown(path, 54_321, 54_321)
        status, lines = self.why(store)
        self.assertEqual(status, 0)
        self.assertTrue(any("the folder belongs to user number 54321" in line for line in lines), lines)
        self.assertEqual(self.why("--user", "nobody", store)[0], 1)

    def test_who_can_not_try(self) -> None:
        """Only root can act as another user. A check that was not made is not reported as passed."""
        store = self.put(FRESH)
        with mock.patch("resetd_client.access.os.geteuid", return_value=12_345):
            status, lines = self.why("--user", "54321", store)
        self.assertEqual((status, lines[-1]), (
            0, "these checks found nothing that prevents a start; not checked: whether the user 54321 may open the store"))

    def test_a_disk_that_hangs(self) -> None:
        """A sync that never returns blocks nothing here."""
        with mock.patch("resetd_client.access.os.fdatasync", lambda _: time.sleep(3_600)):
            trial = tried_as(account_of(os.geteuid()), self.put(FRESH), 1.0)
        self.assertEqual(trial, Trial("", None))
        with mock.patch("resetd_client.why.tried_as", return_value=trial):
            self.assertIn("a running server may have this problem: the disk is slow or hangs: access: ", self.why(f"{self.folder}/store")[1][-1])
        with mock.patch("resetd_client.access.os.fdatasync", side_effect=OSError(5, "Input/output error")):
            self.assertEqual(tried_as(account_of(os.geteuid()), self.put(FRESH)).failed, "can't sync the file: Input/output error")

    def test_addresses(self) -> None:
        store = self.put(FRESH)
        with socket.create_server(("127.0.0.1", 0)) as other:
            status, lines = self.why(store, f"127.0.0.1:{other.getsockname()[1]}")
        self.assertEqual(status, 1)
        expected = rf"^a start now would end with the fault Socket: address: process {os.getpid()} \(.*\) listens at this address"
        self.assertTrue(any(re.search(expected, line) for line in lines), lines)
        self.assertTrue(any("connected, but got no answer for 2 s" in line for line in lines))
        for address, name in (("localhost:4170", "Usage"), ("127.0.0.1:0", "Usage"), ("192.0.2.7:4170", "Socket")):
            status, lines = self.why(store, address)
            self.assertTrue(lines[-1].startswith(f"a start now would end with the fault {name}: address: "), lines)

    def test_for_whom_a_group_waits(self) -> None:
        """The members are named, with the time since when and the last sign of life. If all are through, nothing is reported."""
        self.server.ring(3)
        store = self.put(FRESH)
        quiet = self.why(store, self.server.address)[1]
        self.assertFalse([line for line in quiet if line.startswith("group")])
        self.server.reset(1)
        self.server.by_somebody("confirm", node=1, epoch=1)
        lines = self.why(store, self.server.address, "--audit", f"{self.folder}/none")[1]
        self.assertIn("group    node 2 has not confirmed epoch 1: all 3 nodes of its group wait for this", lines)
        self.assertTrue(any("the proxy's audit can't be read" in line for line in lines), lines)
        with open(f"{self.folder}/audit", "w", encoding="utf-8") as audit:
            for time, op, node, kind in (("11:01", "confirm", 2, "done"), ("11:02", "reset", 3, "started"), ("11:03", "reset", 3, "joined"), ("11:04", "confirm", 1, "done")):
                audit.write(json.dumps({"time": time, "event": "answered", "who": {"user": "service"} if node == 2 else "service", "line": {"op": op, "node": node},
                                        "answer": {"kind": kind, "step": 1}}) + "\n")
            audit.write("torn")
        lines = self.why(store, self.server.address, "--audit", f"{self.folder}/audit")[1]
        waits = "since the reset at 11:02: all 3 nodes of its group wait for this; the node's last sign of life was a"
        self.assertEqual([line for line in lines if line.startswith("group")], [
            f"group    node 2 has not confirmed epoch 1 {waits} confirm at 11:01 by service",
            f"group    node 3 has not confirmed epoch 1 {waits} reset at 11:03 by service"])

    def test_a_coordinator_with_another_store(self) -> None:
        self.server.ring(2)
        status, lines = self.why(self.put(FRESH), self.server.address)
        self.assertEqual(status, 1)
        self.assertTrue(any(line.startswith("a running server may have this problem: the coordinator's answers are lost when it ends: "
                                            "answer: this file is not the server's store")
                            for line in lines))


class Conditions(unittest.TestCase):
    """The reasons why a process makes no progress."""

    def started(self, *code: str) -> int:
        process = subprocess.Popen([sys.executable, "-c", *code], stdout=subprocess.PIPE)
        self.addCleanup(process.wait)
        self.addCleanup(process.kill)
        assert process.stdout
        self.addCleanup(process.stdout.close)
        self.assertEqual(process.stdout.readline(), b"on\n")
        return process.pid

    def test_a_process_that_spins_or_is_stopped(self) -> None:
        busy = self.started("print('on', flush=True)\nwhile True: pass")
        self.assertEqual(condition_of(busy), Condition.SPINNING)
        resting = self.started("import time\nprint('on', flush=True)\nwhile True: time.sleep(0.01)")
        self.assertNotEqual(condition_of(resting), Condition.STOPPED)
        os.kill(resting, signal.SIGSTOP)
        until = time.monotonic() + 60
        while condition_of(resting, 0.0) is not Condition.STOPPED and time.monotonic() < until:
            time.sleep(0.01)
        self.assertEqual(condition_of(resting, 0.0), Condition.STOPPED)
        self.assertIsNone(condition_of(2 ** 22 + 1, 0.0))

    def test_a_call_that_does_not_come_back(self) -> None:
        for looks, condition in (
                ([{"7": ("S", 1), "8": ("D", 4)}, {"7": ("S", 1), "8": ("D", 4)}], Condition.IN_A_CALL),
                ([{"7": ("S", 1), "8": ("D", 4)}, {"7": ("S", 1), "8": ("D", 5)}], None),
                ([{"7": ("R", 1), "8": ("D", 4)}, {"7": ("R", 1), "8": ("S", 5)}], Condition.SPINNING),
                ([{"7": ("R", 1)}, {"7": ("R", 2)}], None), ([{"7": ("R", 1)}, {}], None)):
            with mock.patch("resetd_client.processes.threads_of", side_effect=looks):
                self.assertEqual(condition_of(1, 0.0), condition, looks)


class Connections(unittest.TestCase):
    """Which client has a server's only connection."""

    def test_the_one_that_is_served_and_those_that_wait(self) -> None:
        with socket.create_server(("127.0.0.1", 0)) as server:
            host, port = server.getsockname()
            self.assertEqual(peers(host, port), [])
            with socket.create_connection((host, port)) as first, socket.create_connection((host, port)) as second:
                self.assertEqual([peer.is_served for peer in peers(host, port)], [False, False])
                with server.accept()[0] as served:
                    found = peers(host, port)
                    self.assertEqual([(peer.address, peer.user, peer.processes, peer.is_served) for peer in found],
                                     [("{}:{}".format(*each.getsockname()), os.geteuid(), (os.getpid(),), is_served)
                                      for each, is_served in ((first, True), (second, False))])
                    first.close()
                    left = next(peer for peer in peers(host, port) if peer.is_served)
                    self.assertEqual((left.user, left.processes), (None, ()))
                    self.assertTrue(served)

    def test_a_client_with_an_address_of_version_6(self) -> None:
        fields = "0: 0000000000000000FFFF00000100007F:C350 0000000000000000FFFF00000100007F:104A 01 0:0 0:0 0 1000 0 77 1".split()
        self.assertEqual(row_of(fields), Row("0100007F:C350", "0100007F:104A", "01", 1000, 77))
        self.assertEqual((written("127.0.0.1", 4170), read_address("0100007F:104A")), ("0100007F:104A", "127.0.0.1:4170"))


@unittest.skipUnless(PROGRAM, "RESETD names no program to compare with")
@unittest.skipUnless(PROGRAM and os.getuid() == 0 and shutil.which("unshare") and shutil.which("ip"), "it needs root, unshare and ip")
class Networks(unittest.TestCase):
    """A server in a private network, as its unit has it."""

    def test_it_is_looked_at_in_there(self) -> None:
        with tempfile.TemporaryDirectory() as folder:
            store = f"{folder}/store"
            with open(f"{folder}/empty", "wb"):
                subprocess.run([PROGRAM, "init", store, f"{folder}/empty"], check=True, capture_output=True)
            with subprocess.Popen(["unshare", "--net", "sh", "-c", f"ip link set lo up && exec {PROGRAM} serve {store} 127.0.0.1:4170"],
                                  stdout=subprocess.PIPE, encoding="utf-8") as server:
                assert server.stdout
                self.assertEqual(server.stdout.readline(), "listening 127.0.0.1:4170\n")
                why = subprocess.run([sys.executable, f"{ROOT}/client/resetctl", "why", store, "127.0.0.1:4170"],
                                     stdout=subprocess.PIPE, encoding="utf-8", check=False)
                server.kill()
            self.assertIn(f"process {server.pid} has a private network: the address is checked inside that network", why.stdout)
            self.assertIn(f"a start now would end with the fault Device: lock: process {server.pid} (", why.stdout)
            self.assertIn("a coordinator with 0 nodes and 0 steps on the disk", why.stdout)


class BesideTheProgram(Case):
    """The predicted fault is the one that the program reports."""

    is_real = True

    def predicted(self, path: str, address: str) -> str:
        last = self.run_resetctl("why", path, address)[1].splitlines()
        predicted = [line for line in last if line.startswith("a start now would end with the fault ")]
        return predicted[0].split()[8].rstrip(":") if predicted else ""

    def ended(self, path: str, address: str) -> str:
        """Returns the fault with which a start ends, or nothing if the server listens."""
        with subprocess.Popen([PROGRAM, "serve", path, address], stdout=subprocess.PIPE, stderr=subprocess.PIPE,
                              encoding="utf-8") as process:
            assert process.stdout and process.stderr
            listens = process.stdout.readline()
            process.kill()
            return "" if listens else process.stderr.read().split()[1]

    def test_each_start(self) -> None:
        assert isinstance(self.server, Real)
        self.server.ring(2)
        os.mkfifo(f"{self.folder}/fifo")
        for name, target in (("to-nothing", "nothing"), ("to-good", "good"), ("to-fifo", "fifo")):
            os.symlink(target, f"{self.folder}/{name}")
        for name, data in (("good", FRESH), ("empty", b""), ("cut", APPENDED[:50]), ("text", b"something else than a store"),
                           ("later", FRESH[:17] + b"\3" + FRESH[18:]), ("batch", APPENDED[:48] + b"\7" + APPENDED[49:])):
            with open(f"{self.folder}/{name}", "wb") as file:
                file.write(data)
        # bound, so that nobody else gets it, but not listening
        held = self.enterContext(socket.socket())
        held.setsockopt(socket.SOL_SOCKET, socket.SO_REUSEADDR, 1)
        held.bind(("127.0.0.1", 0))
        free = f"127.0.0.1:{held.getsockname()[1]}"
        for path in ("good", "empty", "cut", "text", "later", "batch", "fifo", "to-fifo", "to-good", "to-nothing", "/dev/null", ".",
                     "none", "none/store", self.server.store):
            place = os.path.join(self.folder, path)
            self.assertEqual(self.predicted(place, free), self.ended(place, free), path)
        for address in ("localhost:4170", "127.0.0.1", "192.0.2.7:4170", self.server.behind):
            self.assertEqual(self.predicted(f"{self.folder}/good", address), self.ended(f"{self.folder}/good", address), address)

    def test_a_store_that_is_served(self) -> None:
        assert isinstance(self.server, Real) and self.server.process
        self.server.ring(2)
        _, out, _ = self.run_resetctl("why", self.server.store, self.server.behind)
        self.assertIn(f"process {self.server.process.pid} ({PROGRAM} serve {self.server.store} 127.0.0.1:0)", out)
        self.assertIn("a coordinator with 2 nodes and 3 steps on the disk", out)
        self.assertNotIn("this file is not the server's store", out)

    def test_which_program_it_runs(self) -> None:
        """A program that was replaced while the server runs is reported."""
        assert isinstance(self.server, Real)
        program = f"{self.folder}/resetd"
        shutil.copy(PROGRAM, program)
        self.server.program = program
        self.server.found("")
        line = f"runs {program}, SHA-256 {checksum_of(PROGRAM)}"
        _, out, _ = self.run_resetctl("why", self.server.store)
        self.assertIn(f"{line}\n", out)
        shutil.copy(sys.executable, f"{program}.new")
        os.replace(f"{program}.new", program)
        _, out, _ = self.run_resetctl("why", self.server.store)
        self.assertIn(f"{line}; the file at that path has changed", out)

    def test_a_client_that_keeps_the_one_connection(self) -> None:
        assert isinstance(self.server, Real) and self.server.process
        host, port = self.server.behind.split(":")
        with socket.create_connection((host, int(port))) as client:
            client.sendall(b'{"op":"show"}\n')
            self.assertTrue(client.recv(1))  # this client is the one that is served
            lines = self.run_resetctl("why", self.server.store, self.server.behind)[1].splitlines()
        keeps = "a running server may have this problem: a client keeps the server's only connection: client: process "
        self.assertTrue(any(line.startswith(f"{keeps}{os.getpid()} (") for line in lines), lines)

    def test_a_server_that_is_stopped(self) -> None:
        assert isinstance(self.server, Real) and self.server.process
        process = self.server.process.pid
        os.kill(process, signal.SIGSTOP)
        lines = self.run_resetctl("why", self.server.store, self.server.behind)[1].splitlines()
        os.kill(process, signal.SIGCONT)
        stopped = f"a running server may have this problem: a signal has stopped the server: server: process {process} is stopped by a signal"
        self.assertTrue(any(line.startswith(stopped) and f"kill -CONT {process}" in line for line in lines), lines)
        self.assertFalse(any("has the server's only connection" in line for line in lines), lines)

    def test_an_output_that_nobody_reads(self) -> None:
        self.expect_the_reader_reported(*os.pipe())

    def test_a_fifo_that_nobody_reads(self) -> None:
        """The reader of a named pipe has opened it for reading and writing, like a shell's `<>`."""
        os.mkfifo(f"{self.folder}/fifo")
        reader = os.open(f"{self.folder}/fifo", os.O_RDWR)
        self.expect_the_reader_reported(reader, os.open(f"{self.folder}/fifo", os.O_WRONLY))

    def expect_the_reader_reported(self, reader: int, writer: int) -> None:
        """The process that has the pipe is named, and once the pipe is full that is a finding about the running server."""
        self.addCleanup(os.close, reader)
        fcntl.fcntl(writer, fcntl.F_SETPIPE_SZ, 4_096)
        assert isinstance(self.server, Real)
        self.server.ring(1)
        self.server.end()
        process = subprocess.Popen([PROGRAM, "serve", self.server.store, "127.0.0.1:0"], stdout=writer)
        self.addCleanup(process.wait)
        self.addCleanup(process.kill)
        os.close(writer)
        self.server.behind = os.read(reader, 100).decode().split()[1]
        output = f"output   process {process.pid} writes to a pipe that process {os.getpid()} ("
        out = self.run_resetctl("why", self.server.store, self.server.behind)[1]
        self.assertIn(output, out)
        self.assertNotIn("a running server may have this problem", out)
        for number in range(1, 401):
            self.server.ask(op="reset", client=9, number=number, node=1)
        self.assertEqual(self.server.ask(op="close"), {"kind": "closed"})
        out = self.run_resetctl("why", self.server.store, self.server.behind)[1]
        self.assertIn(output, out)
        self.assertIn("a running server may have this problem: nobody reads the server's output: output: process", out.splitlines()[-1])

    def test_a_file_that_was_cut_under_its_server(self) -> None:
        assert isinstance(self.server, Real)
        self.server.ring(2)
        self.server.reset(1)
        os.truncate(self.server.store, 100)
        self.assertIn("this file is not the server's store", self.run_resetctl("why", self.server.store, self.server.behind)[1])
