"""Reading a store's file: by its format, and compared with the program."""

from __future__ import annotations

import os
import random
import subprocess
import tempfile
import unittest
from unittest import mock

from case import PROGRAM
from journal import HEADER, Journal, Reading
from resetd_client import store_file
from resetd_client.store_file import NoStore, Read, Restless, Store, one_pass, read_half, read_store, store_of
from resetd_client.store_grammar import NotSpelled, Ordered, batch_of, world_of

FRESH = bytes.fromhex("00 4143525245534554 0000000000008000 01 0000000b 0000000000000000 00 00 00 00")
BODY = bytes.fromhex("0000000000000001 0001 00 01 0000000000000001 00 01 01")
APPENDED = FRESH[:33] + bytes.fromhex("01 00000017") + BODY + b"\0"
CHECKPOINTED = b"\1" + APPENDED[1:] + bytes(32_723) + FRESH[17:]
WORLD = bytes.fromhex(
    "0000000000000003 02 01 01 00 00 0000000000000000 0000000000000000 0000000000000000"
    "02 01 00 00 0000000000000000 0000000000000000 0000000000000000 01 01 02 0000000000000003"
    "0000000000000000 0000000000000000 00 0000000000000000 0000000000000000 01 01 00")


def of_bytes(data: bytes) -> Read:
    return lambda place, length: data[place:place + length]


def stored(data: bytes) -> Store:
    return store_of(read_half(of_bytes(data)))


class Formats(unittest.TestCase):
    """The worked dumps of docs/FORMATS.md."""

    def test_devices(self) -> None:
        self.assertEqual((len(FRESH), len(APPENDED), len(CHECKPOINTED)), (34, 62, 32_802))
        for data, index, used, count in ((FRESH, 0, 17, 0), (APPENDED, 0, 45, 1), (CHECKPOINTED, 1, 17, 0)):
            store = stored(data)
            self.assertEqual((store.half.index, store.half.used, store.count), (index, used, count))
            self.assertEqual(stored(store.half.file()).batches, store.batches)
        self.assertEqual(stored(APPENDED).half.file(), APPENDED)
        self.assertEqual([str(step) for step in stored(APPENDED).batches[0].steps], ["client 1 order 1: add 1 1"])
        before = store_of(read_half(of_bytes(CHECKPOINTED), is_other=True))
        self.assertEqual((before.half.index, before.count), (0, 1))

    def test_faults_of_devices(self) -> None:
        for data, name, place in (
                (b"", "NoMagic", 0), (FRESH[:16], "NoMagic", 1), (b"\0B" + FRESH[2:], "NoMagic", 1),
                (FRESH[:9] + bytes(8) + FRESH[17:], "NoMagic", 1), (FRESH[:17], "BadRecord", 17), (FRESH[:33], "BadRecord", 22),
                (FRESH[:18] + b"\0\0\x40\1" + FRESH[22:], "BadRecord", 18), (APPENDED[:61], "BadRecord", 38),
                (FRESH[:33] + bytes.fromhex("01 00002001") + bytes(9_000), "BadRecord", 34),
                (FRESH[:17] + b"\3" + FRESH[18:], "BadSnapshot", 17), (FRESH[:32] + b"\1\0", "BadSnapshot", 33),
                (APPENDED[:47] + b"\0" + APPENDED[48:], "BadBatch", 46 + 2), (APPENDED[:46] + b"\7" + APPENDED[47:], "BadBatch", 38)):
            with self.assertRaises(NoStore) as caught:
                stored(data)
            self.assertEqual((caught.exception.name), name, data[:64])

    def test_batches(self) -> None:
        for place, value, kind, fault in ((9, 0, "BadByte", 8), (9, 2, "Short", 23), (11, 0x11, "BadByte", 11)):
            with self.assertRaises(NotSpelled) as caught:
                batch_of(BODY[:place] + bytes([value]) + BODY[place + 1:], 1)
            self.assertEqual((caught.exception.kind, caught.exception.place), (kind, fault))
        with self.assertRaises(NotSpelled) as caught:
            batch_of(BODY + b"\0", 2)
        self.assertEqual((caught.exception.kind, caught.exception.place), ("Extra", 23))
        step = batch_of(BODY, 2).steps[0]
        self.assertTrue(isinstance(step, Ordered) and (step.client, step.number) == (1, 1))

    def test_worlds(self) -> None:
        world = world_of(WORLD, 1)
        self.assertEqual((world.count, world.modes, world.links), (3, {1: "ready", 2: "ready"}, ((1, 2),)))
        for place, value, version, kind, fault in ((67, 3, 1, "BadByte", 66), (75, 4, 1, "BadByte", 68), (75, 3, 2, "BadByte", 37)):
            with self.assertRaises(NotSpelled) as caught:
                world_of(WORLD[:place] + bytes([value]) + WORLD[place + 1:], version)
            self.assertEqual((caught.exception.kind, caught.exception.place), (kind, fault))
        self.assertRaises(NotSpelled, world_of, WORLD[:-1], 1)
        self.assertRaises(NotSpelled, world_of, WORLD + b"\0", 1)


class Moments(unittest.TestCase):
    """A store that is read while it is written reads as it was at one moment of the reading."""

    def attempt(self, seed: int, most_checkpoints: int) -> bool:
        """Makes one journal and one pass over it. Returns whether the pass was good."""
        choice = random.Random(seed)
        journal = Journal(choice, choice.choice([40, 60, 90, 200]), 40)
        start = choice.randrange(len(journal.states) // 2)
        reading = Reading(journal, choice, start, most_checkpoints)
        try:
            half = one_pass(reading, journal.size, False)
        except (NoStore, IndexError) as fault:
            raise AssertionError(f"journal {seed}: {fault}") from None
        if half is None:
            return False
        found = (half.index, half.snapshot, half.bodies)
        self.assertIn(found, journal.contents[start:reading.now + 1], f"journal {seed}")
        self.assertEqual(half.start, HEADER + half.index * journal.size)
        return True

    def test_with_appends_and_checkpoints(self) -> None:
        good = [self.attempt(seed, 3) for seed in range(int(os.environ.get("MOMENTS", "8000")))]
        self.assertGreater(sum(good), len(good) // 10)
        self.assertLess(sum(good), len(good))

    def test_a_pass_that_met_a_checkpoint_is_begun_again(self) -> None:
        passes = mock.Mock(side_effect=[None, None, "half"])
        with mock.patch.object(store_file, "one_pass", passes):
            self.assertEqual(read_half(of_bytes(FRESH)), "half")
        with mock.patch.object(store_file, "one_pass", return_value=None):
            self.assertRaises(Restless, read_half, of_bytes(FRESH))


@unittest.skipUnless(PROGRAM, "RESETD names no program to compare with")
class BesideTheProgram(unittest.TestCase):
    """The program and this reader find the same fault in a damaged store."""

    BY_BYTES = ("NoMagic", "BadRecord", "BadSnapshot", "BadBatch")

    def program(self, path: str) -> str:
        done = subprocess.run([PROGRAM, "check", path], capture_output=True, encoding="utf-8", check=False)
        return done.stdout.split()[0] if done.stdout else done.stderr.split()[1]

    def reader(self, path: str) -> str:
        try:
            read_store(path)
        except NoStore as fault:
            return fault.name
        return "legal"

    def compare(self, path: str, data: bytes) -> str:
        with open(path, "wb") as file:
            file.write(data)
        theirs, ours = self.program(path), self.reader(path)
        allowed = {"legal": ("legal", "violated", "BadStep"), "BadBatch": ("BadBatch", "violated", "BadStep")}.get(ours, (ours,))
        self.assertIn(theirs, allowed, f"{ours} of {data[:200].hex()}")
        return ours

    def test_stores_with_damage(self) -> None:
        choice, seen = random.Random(54), set()
        examples = [FRESH, APPENDED, CHECKPOINTED, *served_stores()]
        with tempfile.TemporaryDirectory() as folder:
            for _ in range(400):
                data = bytearray(choice.choice(examples))
                for _ in range(choice.choice([1, 1, 1, 2])):
                    place = choice.randrange(min(len(data), 700)) if choice.random() < 0.8 else choice.randrange(len(data))
                    data[place] = choice.choice([0, 1, 2, 3, data[place] ^ 1, (data[place] + 1) % 256, choice.randrange(256)])
                if choice.random() < 0.1:
                    del data[choice.randrange(len(data)):]
                seen.add(self.compare(f"{folder}/store", bytes(data)))
        self.assertLessEqual({"legal", *self.BY_BYTES}, seen)


def served_stores() -> list[bytes]:
    """Yields stores that the program has made: with links, resets in progress, sessions, and a checkpoint."""
    stores = []
    with tempfile.TemporaryDirectory() as folder:
        for name, lines in (("ring", 0), ("used", 900)):
            with open(f"{folder}/{name}.toml", "w", encoding="utf-8") as file:
                file.write("half = 32768\n" + "".join(f"[[node]]\nid = {node}\ngroup = 1\n" for node in range(1, 5)) +
                           "".join(f"[[link]]\na = {a}\nb = {b}\n" for a, b in ((1, 2), (2, 3), (3, 4), (1, 4), (1, 3))))
            subprocess.run([PROGRAM, "init", f"{folder}/{name}", f"{folder}/{name}.toml"], check=True, capture_output=True)
            if lines:
                use(f"{folder}/{name}", lines)
            with open(f"{folder}/{name}", "rb") as file:
                stores.append(file.read())
    return stores


def use(store: str, orders: int) -> None:
    """Asks for resets at a store, and ends the server during one."""
    from resetd_client import Port
    with subprocess.Popen([PROGRAM, "serve", store, "127.0.0.1:0"], stdout=subprocess.PIPE, encoding="utf-8") as server:
        assert server.stdout
        port = Port(server.stdout.readline().split()[1])
        lines = [{"op": "reset", "client": 1 + each % 2, "number": 1 + each // 2, "node": 1 + each % 4} for each in range(orders)]
        list(port.ask_many(lines))
        server.kill()


