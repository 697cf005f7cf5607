"""The members' library with orders, answers, texts and numbers of every kind and size: no call reports that memory ran out if
no allocation was refused."""

import hashlib
import json
import sys
from collections.abc import Callable

from support.library_case import OfLibrary
from support.memberlib import MOST_TEXT, Library, Order, Orders, Refused
from support.program import ROOT

sys.path.insert(0, f"{ROOT}/client")
from resetd_client.fence import count_of  # noqa: E402
from resetd_client.party import Party, digest_of, is_alone, tag_of  # noqa: E402

CLIENTS, NODES, GROUPS = range(1, 17), range(1, 65), range(1, 17)
MOST = 2**64 - 1
SIZES = (*range(130), 512, 4_096, 65_536)  # of a text, in bytes
NUMBERS = [0, *(10**power + off for power in range(1, 20) for off in (-1, 0)), 2**32, 2**53, 2**63, MOST - 1]
OPS = {1: ("add", "node", "group"), 2: ("remove", "node"), 3: ("join", "a", "b"), 4: ("drop", "a", "b"), 5: ("reset", "node"),
       6: ("confirm", "node", "epoch")}
KINDS = ("done", "started", "finished", "joined")
GENERATIONS = [*(2**power - 1 for power in range(24)), *(2**power for power in range(23))]
MOST_STEPS = 2**40
BOOT = b"boot-1"
BOTH: Party = frozenset({"1 5", "2 5", "1 2 101"})
ALONE: Party = frozenset({"1 5"})
NO_ROOM, BAD_START, BAD_NUMBER = 2, 5, 7
DONE, NOT_DONE, SEND_AGAIN, COUNT_LOST = 1, 2, 3, 4
MEANINGS = {
    **dict.fromkeys(("Exhausted", "UnknownNode", "NodeExists", "HasLinks", "SameNode", "OtherGroup", "LinkExists", "NoLink",
                     "DegreeFull", "LinksFull", "BadEpoch"), NOT_DONE),
    **dict.fromkeys(("Stopped", "OutOfMemory", "PendingFull"), SEND_AGAIN),
    **dict.fromkeys(("OutOfTurn", "NumberReused"), COUNT_LOST),
}


def show_line(epoch: int, nodes: int = 2, accepted: int = 9) -> bytes:
    """Returns the line that shows a row of nodes that are ready at this epoch. With 64 nodes it shows 128 links, the maximum."""
    rows = [[node, 1, "ready", 0, epoch, epoch] for node in range(1, nodes + 1)]
    links = [[node, node + 1, 100 + node] for node in range(1, nodes)]
    if nodes == 64:
        links += [[node, node + 2, 2**40 - node] for node in range(1, nodes - 1)] + [[node, node + 3, 2**40] for node in (1, 2, 3)]
    shown = {"accepted": accepted, "links": links, "nodes": rows, "settled": accepted}
    return (json.dumps(shown, separators=(",", ":")) + "\n").encode()


def start_text(node: int, begun: int | None, party: list[str] | None = None, count: int | None = None) -> bytes:
    """Returns the file of a start that is valid in any boot."""
    counted = {} if count is None else {"count": count}
    return (json.dumps({str(node): {"begun": begun, "party": party, **counted}}) + "\n").encode()


class Limits(OfLibrary):
    takes = 15

    def setUp(self) -> None:
        super().setUp()
        self.library = Library()

    def line_of(self, last: int, order: Order, client: int) -> dict[str, object]:
        orders = Orders(last=last)
        self.library.write_down(orders, order)
        line: dict[str, object] = json.loads(self.library.order_line(orders, client))
        return line

    def test_each_order_of_each_client_under_each_number(self) -> None:
        for op, (name, *fields) in OPS.items():
            values = {"node": 5, "a": 5, "b": 2, "group": 2, "epoch": 9}
            wanted: dict[str, object] = {"op": name, **{field: values[field] for field in fields}}
            for client in CLIENTS:
                for last in NUMBERS:
                    order = Order(op, 5, 2 if "b" in fields or "group" in fields else 0, 9 if "epoch" in fields else 0)
                    self.assertEqual(self.line_of(last, order, client), {**wanted, "client": client, "number": last + 1})

    def test_an_order_of_each_node_group_and_epoch(self) -> None:
        for node in NODES:
            for group in GROUPS:
                self.assertEqual(self.line_of(7, Order(1, node, group, 0), 3),
                                 {"op": "add", "client": 3, "number": 8, "node": node, "group": group})
            for epoch in [*NUMBERS, MOST]:
                self.assertEqual(self.line_of(7, Order(6, node, 0, epoch), 3),
                                 {"op": "confirm", "client": 3, "number": 8, "node": node, "epoch": epoch})

    def test_each_answer(self) -> None:
        for last in NUMBERS:
            for kind in KINDS:
                for step in NUMBERS[1:]:
                    orders = Orders(last, Order(5, 1, 0, 0))
                    self.assertEqual(self.library.hear(orders, json.dumps({"kind": kind, "step": step}).encode()), DONE)
                    self.assertEqual((orders.last, orders.in_hand.op), (last + 1, 0))
            for number, (name, meaning) in enumerate(MEANINGS.items()):
                orders = Orders(last, Order(5, 1, 0, 0))
                self.assertEqual(self.library.hear(orders, json.dumps({"name": name, "refused": number}).encode()), meaning, name)
                self.assertEqual((orders.last, orders.in_hand.op), (last, 0 if meaning == NOT_DONE else 5))

    def refuses(self, status: int, call: Callable[..., object], *arguments: object) -> None:
        with self.assertRaises(Refused) as refused:
            call(*arguments)
        self.assertEqual(refused.exception.status, status, arguments)

    def expect_fence(self, party: Party, settled: int, generation: int, word: str = "") -> None:
        """Compares the fence of a start that first talked with this party with the definition in Python."""
        count = count_of(generation, settled)
        tag = digest_of(party, f"{word}@{count}" if is_alone(party) else word)[:32]
        start = start_text(1, 5, sorted(party), settled)
        self.assertEqual(self.library.fence(1, start, generation, word.encode()), (count, tag.encode()))

    def test_a_fence_of_each_generation_and_count(self) -> None:
        for generation in GENERATIONS:
            for settled in (*NUMBERS, MOST_STEPS, MOST_STEPS + 1):
                if settled <= MOST_STEPS:
                    self.expect_fence(BOTH, settled, generation)
                    self.expect_fence(ALONE, settled, generation)
                else:
                    self.refuses(BAD_START, self.library.fence, 1, start_text(1, 5, sorted(BOTH), settled), generation)
                self.assertEqual(self.library.fence(1, start_text(1, 5, None, settled), generation), (0, b""))
        for generation in (2**power + off for power in range(23, 32) for off in (0, 1)):
            self.refuses(BAD_NUMBER, self.library.fence, 1, start_text(1, 5, sorted(BOTH), 9), generation)

    def test_a_loaded_start_of_each_node_and_epoch(self) -> None:
        for node in NODES:
            for epoch in [*NUMBERS, MOST]:
                row: dict[str, object] = {"begun": None, "party": None, "loaded": epoch, "foreseen": [], "boot": BOOT.decode()}
                loaded = self.library.loaded(node, epoch, BOOT)
                self.assertEqual(json.loads(loaded), {str(node): row})
                self.assertEqual(self.library.carried(node, loaded, BOOT), start_text(node, epoch))
                self.assertEqual(self.library.carried(node, loaded, b"boot-2"), start_text(node, None))

    def test_long_names_of_boots(self) -> None:
        """The largest one is refused, since the text does not fit into the buffer."""
        for size in SIZES[1:]:
            boot = b"b" * size
            if size < MOST_TEXT:
                loaded = self.library.loaded(7, 5, boot)
                self.assertEqual(json.loads(loaded)["7"]["boot"], boot.decode())
                self.assertEqual(self.library.carried(7, loaded, boot), start_text(7, 5))
            else:
                self.refuses(NO_ROOM, self.library.loaded, 7, 5, boot)
            self.assertEqual(self.library.carried(7, start_text(7, 5), boot), start_text(7, 5))

    def test_starts_of_each_size_in_a_boot(self) -> None:
        """The party has this many lines, or one line of this size. Other starts have each epoch and count."""
        for size in SIZES:
            for party in (["1 5"] * size, ["1" * size]):
                start = start_text(7, 5, party, 9)
                if len(start) <= MOST_TEXT:
                    self.assertEqual(self.library.carried(7, start, BOOT), start)
                else:
                    self.refuses(NO_ROOM, self.library.carried, 7, start, BOOT)
        for number in [*NUMBERS, MOST]:
            for start in (start_text(7, number, sorted(BOTH), number), start_text(7, number)):
                self.assertEqual(self.library.carried(7, start, BOOT), start)

    def test_long_histories(self) -> None:
        """The histories have this length. One of their lines is that of the shown party, or none is."""
        first = self.library.judge(show_line(5), 1, self.library.begun(1, 5), b"", 5)
        lines = [hashlib.sha256(str(number).encode()).hexdigest() + "\n" for number in range(2_000)]
        for count in (0, 1, 2, 63, 64, 65, 66, 500, 2_000):
            history = "".join(lines[:count]).encode()
            judged = self.library.judge(show_line(5), 1, self.library.begun(1, 5), history, 5)
            self.assertEqual((judged.due, judged.history_size), ("TALK", 65 * count))
            judged = self.library.judge(show_line(5), 1, first.start, history + first.line, 5)
            self.assertEqual((judged.due, judged.line, judged.history_size), ("TALK", b"", 65 * (count + 1)))
            self.assertEqual(self.library.judge(show_line(5), 1, b"", first.line + history).due, "RESET")

    def test_long_words(self) -> None:
        start = self.library.judge(show_line(5), 1, self.library.begun(1, 5), b"", 5).start
        for size in SIZES:
            self.assertEqual(self.library.tag(show_line(5), 1, start, b"w" * size).decode(), tag_of(BOTH, BOTH, "w" * size))
            self.expect_fence(BOTH, 9, 3, "w" * size)
            self.expect_fence(ALONE, 9, 3, "w" * size)

    def test_each_epoch_up_to_a_million(self) -> None:
        """The start that begins has each of these epochs."""
        for epoch in range(1_000_001):
            if self.library.begun(7, epoch) != f'{{"7": {{"begun": {epoch}, "party": null}}}}\n'.encode():
                self.fail(f"epoch {epoch}")

    def test_each_node_and_great_epochs(self) -> None:
        for node in NODES:
            for epoch in [*NUMBERS, MOST]:
                self.assertEqual(json.loads(self.library.begun(node, epoch)), {str(node): {"begun": epoch, "party": None}})

    def test_each_epoch_and_count_that_is_shown(self) -> None:
        for size in NUMBERS:
            judged = self.library.judge(show_line(size, accepted=size), 1, self.library.begun(1, size), b"", size)
            self.assertEqual((judged.due, judged.epoch), ("TALK", size))

    def test_a_full_world(self) -> None:
        """For each member of 64 nodes with 128 links, the texts fit into the buffers of the header's sizes."""
        for epoch in (5, 2**40):
            for node in NODES:
                judged = self.library.judge(show_line(epoch, 64), node, self.library.begun(node, epoch), b"", epoch)
                self.assertEqual((judged.due, len(judged.line)), ("TALK", 65))
                self.assertEqual(len(json.loads(judged.start)[str(node)]["party"]), 64 + 128)
                self.assertEqual(len(self.library.tag(show_line(epoch, 64), node, judged.start)), 65)
                self.assertEqual(self.library.carried(node, judged.start, BOOT), judged.start)
                self.assertEqual(len(self.library.fence(node, judged.start)[1]), 32)
