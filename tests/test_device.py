"""The content of the device at each moment: an answer and a signal are sent only once their step is durable.

The test records the calls of the program while it serves. From them it makes the files that a power cut may leave at each
moment: all synced bytes, and any prefix of the later writes. Each such file must be a legal store with every step whose
answer or signal was sent before that moment.
"""

import os
import random
import re
from collections.abc import Iterable, Iterator, Mapping, Sequence

from support import preloaded, stores
from support.case import Case
from support.program import Ended, faulted, ran
from support.serving import Serving
from support.stores import ring, topology

STEP = re.compile(rb'"step":(\d+)\}\n')
SIGNAL = re.compile(rb"^signal 1 (\d+)\n")
ANY_SIGNAL = re.compile(rb"^signal (\d+) 1\n")
BEGUN = re.compile(r"^node (\d+) 1 \w+ \d+ 1 ", re.MULTILINE)
Order = dict[str, str | int]
# A recorded call: its name, its file, its offset and its bytes.
Call = tuple[str, int, int, bytes]
# What `init` prints for a ring of three nodes, and what `check` prints for a store that a cut of it leaves.
WHOLE, LEGAL = Ended(0, "created 6\n", ""), Ended(0, "legal 6\n", "")
CUT = [faulted(1, "NoMagic"), faulted(1, "BadRecord"), Ended(0, "legal 0\n", ""), LEGAL]
RESET: Order = {"op": "reset", "node": 1}
# The second step is the one that signals.
EACH_KIND: list[Order] = [RESET, {"op": "add", "node": 2, "group": 1}, {"op": "join", "a": 1, "b": 2}, {"op": "drop", "a": 1, "b": 2},
             {"op": "confirm", "node": 1, "epoch": 1}, {"op": "remove", "node": 2}]


class Device:
    """A file as the calls have made it: the synced bytes, and the writes since."""

    def __init__(self, content: bytes) -> None:
        self.synced, self.since = bytearray(content), list[tuple[int, bytes]]()

    def write(self, place: int, text: bytes) -> None:
        self.since.append((place, text))

    def sync(self) -> None:
        for place, text in self.since:
            put(self.synced, place, text)
        self.since = []

    def images(self) -> list[bytes]:
        """Yields what a power cut may leave: of each write since the last sync nothing, a part or all, in every combination."""
        images = [bytes(self.synced)]
        for place, text in self.since:
            parts = {0, 1, len(text) // 2, len(text) - 1, len(text)}
            images = [with_part(before, place, text[:part]) for before in images for part in sorted(parts)]
        return images


def put(content: bytearray, place: int, text: bytes) -> None:
    content.extend(bytes(max(0, place + len(text) - len(content))))
    content[place:place + len(text)] = text


def with_part(before: bytes, place: int, text: bytes) -> bytes:
    content = bytearray(before)
    if text:
        put(content, place, text)
    return bytes(content)


def calls_of(path: str) -> Iterator[Call]:
    """Returns the calls that were recorded."""
    with open(path, encoding="ascii") as file:
        for line in file:
            name, descriptor, place, text = line.rstrip("\n").split(" ")
            yield name, int(descriptor), int(place), bytes.fromhex(text)


class Moments(Case):
    takes = 60

    def setUp(self) -> None:
        super().setUp()
        self.needs("a C compiler", preloaded.has_compiler())

    def follow(self, before: bytes, calls: Iterable[Call]) -> Iterator[tuple[str, int, bytes, Device]]:
        """Yields, after each call, the device and the call."""
        device, store = Device(before), None
        for name, descriptor, place, text in calls:
            if name == "write":
                store = descriptor
                device.write(place, text)
            elif name == "sync" and descriptor == store:
                device.sync()
            yield name, place, text, device

    def moments(self, before: bytes, calls: Iterable[Call]) -> Iterator[tuple[str, int, Device, int]]:
        """Yields, after each call, the device and the greatest step that was answered so far."""
        answered = 1
        for name, place, text, device in self.follow(before, calls):
            if name == "out":
                steps = [int(step) for step in STEP.findall(text)] + [int(epoch) + 1 for epoch in SIGNAL.findall(text)]
                answered = max([answered, *steps])
            yield name, place, device, answered

    def expect_kept(self, image: bytes, answered: int) -> None:
        """Checks that a file that a power cut left has every answered step."""
        ended = ran("check", self.write("left", image))
        self.assertEqual((ended.status, ended.fault), (0, ""), ended.printed)
        self.assertGreaterEqual(int(ended.printed.split()[1]), answered)

    def test_a_store_that_is_made(self) -> None:
        """A cut of `init` leaves no store, a store without a step, or the whole store; once the line is printed, the whole
        store."""
        path, calls = self.path("store"), self.path("calls")
        self.assertEqual(ran("init", path, self.write("topology", ring(3)),
                             env={**os.environ, **preloaded.environment(self.folder, CALLS=calls)}), WHOLE)
        is_printed, found = False, set[Ended]()
        for name, _, text, device in self.follow(b"", calls_of(calls)):
            is_printed |= name == "out" and text == WHOLE.printed.encode()
            for image in device.images():
                ended = ran("check", self.write("left", image))
                self.assertIn(ended, [LEGAL] if is_printed else CUT)
                found.add(ended)
        self.assertTrue(is_printed)
        self.assertEqual(found, set(CUT))

    def serve(self, first: int, orders: Sequence[Order]) -> tuple[bytes, list[Call]]:
        """Serves orders with these numbers. Returns the store before, and the calls."""
        store, calls = self.made(topology([(1, 1)], half=stores.HALF)), self.path("calls")
        self.order(store, orders[:first - 1])
        before = self.read("store")
        self.order(store, orders[first - 1:], first, env=preloaded.environment(self.folder, CALLS=calls))
        return before, list(calls_of(calls))

    def order(self, store: str, orders: Sequence[Order], first: int = 1, env: Mapping[str, str] | None = None) -> None:
        """Sends one order at a time, so that each needs its own flight and the same amount of the journal."""
        with Serving(store, env=env) as server:
            with server.connect() as connection:
                for number, order in enumerate(orders, first):
                    connection.send({"client": 1, "number": number, **order})
                    self.assertEqual(connection.reply()["step"], 1 + number)
            self.assertEqual(server.close().status, 0)

    def test_each_moment_of_a_few_orders(self) -> None:
        before, calls = self.serve(1, EACH_KIND)
        seen = set()
        for name, _, device, answered in self.moments(before, calls):
            for image in device.images():
                self.expect_kept(image, answered)
            seen.add((name, answered))
        self.assertLessEqual({("out", step) for step in range(2, 8)}, seen)
        self.assertEqual(ran("check", self.path("left")).printed, "legal 7\n")

    def test_each_moment_of_a_wave(self) -> None:
        """A node whose signal was printed has begun its epoch on the device, so the next start does not signal it again."""
        store, calls = self.made(ring(4, stores.HALF)), self.path("calls")
        before, printed = self.read("store"), set[str]()
        with Serving(store, env=preloaded.environment(self.folder, CALLS=calls)) as server:
            self.assertEqual(server.order(1, "reset", node=1)["kind"], "started")
            server.await_signals(4)
            self.assertEqual(server.close().status, 0)
        for name, _, text, device in self.follow(before, calls_of(calls)):
            if name == "out":
                printed.update(node.decode() for node in ANY_SIGNAL.findall(text))
            for image in device.images() if printed else []:
                self.assertLessEqual(printed, set(BEGUN.findall(ran("show", self.write("left", image)).printed)))
        self.assertEqual(printed, {"1", "2", "3", "4"})

    def test_moments_of_many_orders_and_checkpoints(self) -> None:
        """Tries all moments of two checkpoints, which move the journal to the other half and back, and some of the others."""
        choice, selectors, near = random.Random(1), [], 0
        before, calls = self.serve(1_150, [RESET] * 2_450)
        last = 0
        for name, place, device, answered in self.moments(before, calls):
            if answered > last:
                # an order is sent only after the previous one was answered, so nothing else is on its way to the device
                self.assertEqual((answered, device.since), (answered, []))
                last = answered
            if name == "write" and place == 0:
                selectors.append(device.since[-1][1])
            if name == "write" and (place == 0 or len(device.since[-1][1]) > 60):
                near = 6
            near -= 1
            if near > 0 or choice.random() < 0.004:
                for image in device.images():
                    self.expect_kept(image, answered)
        self.assertEqual((selectors, answered), ([b"\1", b"\0"], 2_451))
