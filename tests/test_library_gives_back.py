"""The members' library frees all memory that a call allocates, and reports exactly a refused allocation as out of memory."""

import json
from collections.abc import Callable
from functools import partial

from support.library_case import CountedLibrary, OfLibrary
from support.memberlib import MOST_TEXT, Judgement, Order, Orders, Refused

OUT_OF_MEMORY = 1
WORD, BOOT = b"blue", b"boot-1"
GENERATIONS = 2**23
Call = Callable[[], object]


def show_line(nodes: int = 8, epoch: int = 5, confirmed: int = 5, mode: str = "ready") -> bytes:
    """Returns the line that shows a row of nodes, the first of them in this mode with this confirmed epoch."""
    rows = [[node, 1, "ready", 0, epoch, epoch] for node in range(1, nodes + 1)]
    rows[0][2], rows[0][5] = mode, confirmed
    links = [[node, node + 1, 100 + node] for node in range(1, nodes)]
    return (json.dumps({"accepted": 9, "links": links, "nodes": rows, "settled": 9}, separators=(",", ":")) + "\n").encode()


SHOW = show_line()
OTHER_LINKS = SHOW.replace(b"[1,2,101]", b"[1,2,201]")
LINES = [b'{"kind":"done","step":7}\n', b'{"name":"UnknownNode","refused":6}\n', b'{"name":"Stopped","refused":1}\n',
         b'{"name":"OutOfTurn","refused":4}\n', b'{"fault":"BadJson"}\n', b"{", b"\xff"]


class GivesBack(OfLibrary):
    def setUp(self) -> None:
        super().setUp()
        self.library = CountedLibrary(self.folder)
        self.begun = self.library.begun(1, 5)
        self.talk = self.library.judge(SHOW, 1, self.begun, b"", 5)
        self.alone = self.library.judge(show_line(1), 1, self.begun, b"", 5)
        self.loaded = self.library.loaded(1, 5, BOOT)

    def judgements(self) -> dict[str, Callable[[], Judgement]]:
        """Returns a judgement for each action that may be due, with and without the possible content of the files."""
        judge, history = self.library.judge, self.talk.line
        return {
            "talks first": lambda: judge(SHOW, 1, self.begun, b"", 5),
            "talks on": lambda: judge(SHOW, 1, self.talk.start, history, 5),
            "asks for a reset after a link was made anew": lambda: judge(OTHER_LINKS, 1, self.talk.start, history, 5),
            "waits": lambda: judge(show_line(mode="abort"), 1, self.begun, history, 5),
            "begins": lambda: judge(show_line(epoch=6, confirmed=5), 1, self.talk.start, history, 5),
            "asks for a reset": lambda: judge(SHOW, 1, b"", history),
            "talks in a row of 64": lambda: judge(show_line(64), 1, self.begun, history * 50, 5),
        }

    def refusals(self) -> dict[str, Call]:
        """Returns a call for each input that can't be parsed."""
        judge = self.library.judge
        return {
            **self.refused_files(),
            "a torn line": lambda: judge(SHOW[:40], 1),
            "another line": lambda: judge(SHOW.replace(b'"settled":9', b'"s":9'), 1),
            "a torn row": lambda: judge(SHOW.replace(b"[7,8,107]", b"[7,8]"), 1),
            "a node that is not shown": lambda: judge(SHOW, 63),
            "no node": lambda: judge(SHOW, 0),
            "a start that is not JSON": lambda: judge(SHOW, 1, b"{\n"),
            "a start of another form": lambda: judge(SHOW, 1, b'{"1": {"begun": 1, "party": ["a", 1]}}\n'),
            "a history of another form": lambda: judge(SHOW, 1, b"", b"x\n"),
            "a line that is not UTF-8": lambda: judge(b"\xff", 1),
            "a start that is not UTF-8": lambda: judge(SHOW, 1, b"\xff\n"),
            "the tag of a start that is not JSON": lambda: self.library.tag(SHOW, 1, b"{\n", WORD),
            "the tag of a torn line": lambda: self.library.tag(b"{", 1, self.talk.start, WORD),
        }

    def refused_files(self) -> dict[str, Call]:
        """Returns calls of the functions that take no view, each with a text or a number that they refuse."""
        loaded, carried, fence = self.library.loaded, self.library.carried, self.library.fence
        long = self.talk.start.replace(b"1 5", b"1" * MOST_TEXT)
        return {
            "the name of the boot of a loaded start is too long": lambda: loaded(1, 5, b"b" * MOST_TEXT),
            "the name of the boot of a loaded start is not UTF-8": lambda: loaded(1, 5, b"\xff"),
            "in a boot, a start that is not JSON": lambda: carried(1, b"{\n", BOOT),
            "in a boot, a start of another form": lambda: carried(1, self.talk.start.replace(b'"1 5"', b"1"), BOOT),
            "in a boot, a start that was loaded for no epoch": lambda: carried(1, self.loaded.replace(b"5", b'"5"'), BOOT),
            "in a boot, a start that is not UTF-8": lambda: carried(1, b"\xff\n", BOOT),
            "in a boot, a start that is too long": lambda: carried(1, long, BOOT),
            "in a boot that is not UTF-8, a start": lambda: carried(1, self.talk.start, b"\xff"),
            "the fence of a start that is not JSON": lambda: fence(1, b"{\n"),
            "the fence of a start of another form": lambda: fence(1, self.talk.start.replace(b'"1 5"', b"1")),
            "the fence of too many steps": lambda: fence(1, self.talk.start.replace(b'"count": 9', b'"count": %d' % (2**40 + 1))),
            "the fence of a generation that is out of range": lambda: fence(1, self.talk.start, GENERATIONS),
            "the fence of a start that is not UTF-8": lambda: fence(1, b"\xff\n"),
            "the fence with a word that is not UTF-8": lambda: fence(1, self.talk.start, 0, b"\xff"),
        }

    def texts(self) -> dict[str, Call]:
        tag = self.library.tag
        return {
            **self.texts_of_a_file(),
            "a start that begins": lambda: self.library.begun(1, 7),
            "a tag": lambda: tag(SHOW, 1, self.talk.start, WORD),
            "the tag of a start without a party": lambda: tag(SHOW, 1, self.begun),
            **{f"the line of order {op}": partial(self.ordered, op) for op in range(1, 7)},
            **{f"the answer {line!r}": partial(self.heard, line) for line in LINES},
        }

    def texts_of_a_file(self) -> dict[str, Call]:
        """Returns calls that write the text of a start's file, or the fence of a start."""
        carried, fence = self.library.carried, self.library.fence
        return {
            "a start that is loaded": lambda: self.library.loaded(1, 7, BOOT),
            "a loaded start in its boot": lambda: carried(1, self.loaded, BOOT),
            "a loaded start in another boot": lambda: carried(1, self.loaded, b"boot-2"),
            "in a boot, a start that begins": lambda: carried(1, self.begun, BOOT),
            "in a boot, a start that talks": lambda: carried(1, self.talk.start, BOOT),
            "in a boot, a torn start": lambda: carried(1, self.talk.start[:-1], BOOT),
            "in a boot, the start of another node": lambda: carried(2, self.talk.start, BOOT),
            "in a boot, a missing file": lambda: carried(1, b"", BOOT),
            "the fence of a start that talks": lambda: fence(1, self.talk.start, GENERATIONS - 1, WORD),
            "the fence of a start that is alone": lambda: fence(1, self.alone.start, 1, WORD),
            "the fence of a start that begins": lambda: fence(1, self.begun, 1, WORD),
            "the fence of a start without a count": lambda: fence(1, self.talk.start.replace(b', "count": 9', b""), 1, WORD),
        }

    def ordered(self, op: int) -> bytes:
        """Returns the line of an order of this kind."""
        return self.library.order_line(Orders(7, Order(op, 5, 2 if op in (1, 3, 4) else 0, 9 if op == 6 else 0)), 16)

    def heard(self, line: bytes) -> None:
        """Passes a line to the order book. Refused orders stay as they were."""
        orders = Orders(7, Order(6, 1, 0, 5))
        try:
            self.library.hear(orders, line)
        except Refused:
            self.assertEqual((orders.last, orders.in_hand.op, orders.in_hand.epoch), (7, 6, 5))
            raise

    def calls(self) -> dict[str, Call]:
        return {**self.judgements(), **self.refusals(), **self.texts()}

    @staticmethod
    def status_of(call: Call) -> int:
        try:
            call()
            return 0
        except Refused as refused:
            return refused.status

    def test_the_judgements(self) -> None:
        """They are of each kind, so that the tests below try each kind."""
        dues = [call().due for call in self.judgements().values()]
        self.assertEqual(dues, ["TALK", "TALK", "RESET", "WAIT", "BEGIN", "RESET", "TALK"])
        self.assertNotIn(0, [self.status_of(call) for call in self.refusals().values()])
        self.assertEqual({self.status_of(call) for call in self.texts_of_a_file().values()}, {0})

    def test_each_call(self) -> None:
        for name, call in self.calls().items():
            with self.subTest(name):
                self.assertNotEqual(self.status_of(call), OUT_OF_MEMORY)
                self.assertEqual(self.library.kept, 0)

    def test_each_refused_allocation(self) -> None:
        """The call reports it, and has freed all other allocations."""
        for name, call in self.calls().items():
            self.library.count_from_here()
            self.status_of(call)
            count = self.library.allocations
            for refused in range(1, count + 1):
                with self.subTest(name, refused=refused, of=count):
                    self.library.count_from_here(refused)
                    self.assertEqual(self.status_of(call), OUT_OF_MEMORY)
                    self.assertEqual(self.library.kept, 0)
            self.library.count_from_here()
