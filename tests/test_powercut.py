"""The parts of tools/powercut that need no machine: what a cut may leave of a list of writes, the disk, and how a store's bytes
are read."""

import os
import random
import signal
import socket
import struct
import subprocess
import sys

from support.case import Case, tool, until
from support.program import PROGRAM, ran
from support.serving import Serving

sys.path.insert(0, tool("powercut"))
from cutting import nbd, stores  # noqa: E402
from cutting.cuts import UNITS, Cut, Volatile, ends_of_checkpoints, moments  # noqa: E402
from cutting.disk import SECTOR, Disk, Entry, sectors_of  # noqa: E402
from cutting.judging import Places  # noqa: E402
from cutting.verdicts import Looker, verdict_of  # noqa: E402

A, B, C = (letter * 4_096 for letter in (b"a", b"b", b"c"))
VOLATILE: Volatile = [(0, A), (8_192, A + B), (0, B), (4_096, C)]
# Four calls in two processes, each of which starts another process, like a machine, and ends it.
CALLS = """
import os, signal, subprocess, sys, time
sys.path.insert(0, sys.argv[1])
from cutting.workers import call_each

def wait(number):
    machine = subprocess.Popen(["sleep", "1000"], start_new_session=True)
    try:
        os.write(1, b"%d %d\\n" % (os.getpid(), machine.pid))  # in one call, so that two processes write two lines
        time.sleep(1000)
    finally:
        machine.kill()
        machine.wait()

signal.signal(signal.SIGINT, signal.default_int_handler)
call_each(wait, [(number,) for number in range(4)], 2)
"""


class Cuts(Case):
    programs = ()

    def left(self, way: str, unit: int, seed: int) -> dict[int, bytes]:
        return Cut(random.Random(seed), unit).leave(way, VOLATILE)

    def test_each_way_leaves_what_was_written(self) -> None:
        """Each sector that is left comes from a write, and a unit comes from one moment."""
        written = [sectors_of(*write) for write in VOLATILE]
        for way in Cut.WAYS:
            for unit in UNITS:
                for seed in range(50):
                    left = self.left(way, unit, seed)
                    for number, data in left.items():
                        self.assertIn(data, [sectors[number] for sectors in written if number in sectors])
                    if unit == 4_096:
                        for first in range(0, 32, 8):
                            self.assertIn(len({left.get(number) for number in range(first, first + 8)}), (1,), (way, seed))

    def test_what_differs_between_the_ways(self) -> None:
        self.assertEqual(self.left("lost", 512, 1), {})
        self.assertEqual(self.left("kept", 512, 1), {**sectors_of(0, B), **sectors_of(8_192, A + B), **sectors_of(4_096, C)})
        for seed in range(20):
            self.assertIn(self.left("only", 512, seed), [sectors_of(*write) for write in VOLATILE])
        self.assertIn(sectors_of(0, A)[0], [self.left("but", 512, seed).get(0) for seed in range(20)])
        self.assertIn(sectors_of(0, A)[0], [self.left("stale", 512, seed).get(0) for seed in range(20)])

    def test_moments(self) -> None:
        """A flush makes earlier writes durable, and markers record answers."""
        log: list[Entry] = [("marker", "start"), ("write", 0, A), ("marker", "signal 3 7\nleast 12"), ("flush",), ("write", 0, B)]
        found = [(len(at.volatile), at.newly_durable, at.answered, dict(at.signalled), at.phase) for at in moments(log)]
        self.assertEqual(found[1:], [(1, {}, 0, {}, "start"), (1, {}, 12, {3: 7}, "start"), (0, sectors_of(0, A), 12, {3: 7}, "start"),
                                     (1, {}, 12, {3: 7}, "start")])
        self.assertEqual([len(at.volatile) for at in moments(log, has_flushes=False)], [0, 1, 1, 1, 2])

    def test_places(self) -> None:
        """The moments at which a run is cut."""
        log: list[Entry] = [("write", 0, A), ("marker", "start"), ("write", 0, B), ("marker", "killed"), ("flush",), ("marker", "least 9"),
                            ("write", 0, A), ("marker", "served")]
        self.assertEqual(Places().of(log, True), [1, 2, 3, 4, 5, 6, 7])
        self.assertEqual(Places(("killed",)).of(log, True), [3, 4, 5, 6])
        self.assertEqual(Places(("killed",), is_at_markers=True).of(log, True), [3, 5])
        self.assertEqual(Places(is_near_checkpoints=True).of(log, True), [])

    def test_ends_of_checkpoints(self) -> None:
        """They are the writes that change the first byte of a store."""
        heads = [bytes([selector]) + stores.MAGIC + bytes(SECTOR - 9) for selector in (0, 1, 1, 2)]
        self.assertEqual(ends_of_checkpoints([("write", 8_192, head) for head in heads]), [1, 3])


class Disks(Case):
    programs = ()

    def test_what_is_shown(self) -> None:
        """An image consists of the durable bytes with some sectors over them; the base is unchanged."""
        disk = Disk(self.write("base", bytes(3 * SECTOR)))
        disk.settle({1: b"d" * SECTOR})
        disk.show({2: b"v" * SECTOR})
        disk.write(0, b"w" * SECTOR)
        self.assertEqual(bytes(disk.now[:]), b"w" * SECTOR + b"d" * SECTOR + b"v" * SECTOR)
        disk.show({0: b"x" * SECTOR})
        self.assertEqual(bytes(disk.now[:]), b"x" * SECTOR + b"d" * SECTOR + bytes(SECTOR))
        self.assertEqual(self.read("base"), bytes(3 * SECTOR))

    def test_over_nbd(self) -> None:
        """A client writes, flushes and reads. Of requests that wait together, flushes are carried out first."""
        disk = Disk(self.write("base", bytes(4_096)), is_recording=True)
        nbd.serve(disk, self.path("socket"))
        with socket.socket(socket.AF_UNIX) as client:
            client.settimeout(60)
            client.connect(self.path("socket"))
            nbd.receive(client, len(nbd.GREETING))
            client.sendall(struct.pack(">I", 1) + b"IHAVEOPT" + struct.pack(">II", nbd.EXPORT_NAME, 0))
            self.assertEqual(struct.unpack(">QH", nbd.receive(client, 10)), (4_096, nbd.FLAGS))

            def request(kind: int, handle: bytes, at: int = 0, size: int = 0, data: bytes = b"") -> bytes:
                return nbd.REQUEST.pack(0x25609513, 0, kind, handle, at, size or len(data)) + data
            together = request(nbd.WRITE, b"1" * 8, 512, data=b"w" * 512) + request(nbd.FLUSH, b"2" * 8)
            client.sendall(together + request(nbd.READ, b"3" * 8, 512, 512))
            answers = {nbd.receive(client, 16)[8:]: nbd.receive(client, 512 if handle == 2 else 0) for handle in range(3)}
            client.sendall(request(nbd.DISCONNECT, b"4" * 8))
        self.assertEqual(answers[b"3" * 8], b"w" * 512)
        self.assertEqual(disk.log, [("flush",), ("write", 512, b"w" * 512)])


class Stores(Case):
    def test_what_a_store_says(self) -> None:
        """A store that was just created, and one of version 1, are read from their bytes, and by the program."""
        path, looker = self.made(stores.TOPOLOGY), Looker(PROGRAM)
        for data, version in ((self.read("store"), 2), (stores.store_of_version_1(), 1)):
            content = stores.read_store(data)
            self.assertEqual((content.version, content.snapshot_count + len(content.steps)), (version, stores.STEPS_MADE))
            verdict = verdict_of(looker.look(data), data)
            self.assertEqual((verdict.kind, verdict.count, set(verdict.epochs.values())), ("legal", stores.STEPS_MADE, {0}))
            self.assertEqual(verdict_of(looker.look(data[:-200]), data[:-200]).kind, "refused")
        self.assertEqual(verdict_of(looker.look(b""), b"").kind, "empty")
        self.assertEqual(ran("check", path).printed, f"legal {stores.STEPS_MADE}\n")

    def test_nodes_that_are_apart(self) -> None:
        """Each reset there makes only one step, and no link can be made."""
        with Serving(self.made(stores.TOPOLOGY_APART)) as server:
            self.assertEqual(server.order(1, "join", a=1, b=2), {"name": "OtherGroup", "refused": 10})
            for node in range(1, stores.NODES + 1):
                self.assertEqual(server.order(node, "reset", node=node), {"kind": "finished", "step": stores.NODES + node})
            self.assertEqual(server.show()["accepted"], 2 * stores.NODES)

    def test_one_history(self) -> None:
        history = stores.History()
        content = stores.Content(2, 7, b"snapshot", {8: b"a", 9: b"b"})
        self.assertIsNone(history.differs(content))
        self.assertIsNone(history.differs(content._replace(steps={8: b"a"})))
        self.assertEqual(history.differs(content._replace(steps={9: b"c"})), "another step 9")
        self.assertEqual(history.differs(content._replace(snapshot=b"other")), "another snapshot of 7 steps")


class Workers(Case):
    programs = ()

    def test_they_end_with_what_they_have_started(self) -> None:
        """They end when the process is stopped, interrupted or killed. No further call begins."""
        for number in (signal.SIGTERM, signal.SIGINT, signal.SIGKILL):
            with self.subTest(number.name), subprocess.Popen([sys.executable, "-c", CALLS, tool("powercut")], stdout=subprocess.PIPE,
                                                             stderr=subprocess.DEVNULL, text=True) as process:
                assert process.stdout
                pids = [int(pid) for _ in range(2) for pid in process.stdout.readline().split()]
                process.send_signal(number)
                process.wait()
                until("the end of each process", lambda: not any(map(is_alive, pids)))
                self.assertEqual((len(pids), process.stdout.read()), (4, ""))


def is_alive(pid: int) -> bool:
    """Returns whether the process exists and has not ended."""
    try:
        with open(f"/proc/{pid}/stat", encoding="utf-8") as file:
            return file.read().rsplit(")", 1)[1].split()[0] != "Z"
    except FileNotFoundError:
        return False
