"""`init`: the store that it creates, each of its faults, and the file after each."""

import os

from support import stores
from support.case import Case
from support.program import Ended, faulted, ran
from support.stores import topology

PAIR = topology([(1, 1), (2, 1)], [(1, 2)])
REFUSED = [
    ("6 UnknownNode", topology([(1, 1)], [(1, 2)])),
    ("7 NodeExists", topology([(1, 1), (1, 2)])),
    ("9 SameNode", topology([(64, 1)], [(64, 64)])),
    ("10 OtherGroup", topology([(1, 1), (2, 16)], [(1, 2)])),
    ("11 LinkExists", topology([(1, 1), (2, 1)], [(1, 2), (2, 1)])),
    ("13 DegreeFull", topology([(node, 1) for node in range(1, 19)], [(1, node) for node in range(2, 19)])),
    ("14 LinksFull", topology([(node, 1) for node in range(1, 65)],
                              [(node, (node + far - 1) % 64 + 1) for far in (1, 2) for node in range(1, 65)] + [(1, 33)])),
]
UNREAD: list[tuple[str, str | bytes]] = [
    ("NotToml", "nodes"), ("NotToml", b"\xff\xfe"), ("NotToml", "#" * 65_536 + "\n"),
    ("NotToml", "half = 32768\nhalf = 32768\n"),
    ("BadKey", "halves = 32768\n"), ("BadKey", "[[node]]\nid = 1\n"), ("BadKey", "[[node]]\nid = 1\ngroup = 1\nname = 1\n"),
    ("BadKey", "[[link]]\na = 1\n"), ("BadKey", "[[link]]\na = 1\nc = 2\n"),
    ("BadValue", "half = 32767\n"), ("BadValue", "half = 16777217\n"), ("BadValue", 'half = "32768"\n'),
    ("BadValue", "node = 1\n"),
    ("BadValue", topology([(0, 1)])), ("BadValue", topology([(65, 1)])), ("BadValue", topology([(1, 17)])),
    ("BadValue", topology([(1, 0)])), ("BadValue", topology([], [(1, 65)])), ("BadValue", topology([], [(0, 1)])),
    ("BadValue", "[[node]]\nid = 1.0\ngroup = 1\n"),
    ("BadKey", "Half = 32768"), ("BadKey", "[[node]]\nid = 1\ngroup = 1\n[node.x]"), ("BadKey", "half = 1\nkey = 1"),
    ("BadValue", "half = 1"), ("BadValue", "half = 65536.0"), ("BadValue", "half = {x = 1}"),
    ("BadValue", "half = 2026-11-22"), ("BadValue", "node.id = 1"), ("BadValue", "[link]"), ("BadValue", "node = [[]]"),
    ("NotToml", "[[node]]\nid = 1\nid = 2"), ("NotToml", "node = []\n[[node]]"), ("NotToml", "half = 99999999999999999999"),
    ("NotToml", "half = 032768"), ("NotToml", "half 32768"), ("NotToml", " " * 65_537),
]

# Topologies in other spellings, and the number of steps of each.
READ = [
    ("half = 65536 # the usual size\r\nnode = []\r\n", 0), ('"half" = 0x8000', 0), ("half = 32_768", 0),
    ("node = [{id = 1, group = 1}, {id = 2, group = 1}]\nlink = [{a = 2, b = 1}]", 3), (" " * 65_536, 0),
    (topology([], [(1, 2)]) + topology([(2, 9), (1, 9)]), 3),
    ("# b\u00e4r \u4e2d\n\t[[ node ]]\nid=1\n\n  group\t=\t0b1 # \U0001f600", 1),
]


class Init(Case):
    def init(self, text: str | bytes, name: str = "store") -> Ended:
        return ran("init", self.path(name), self.write("topology", text))

    def test_a_pair(self) -> None:
        self.assertEqual(self.init(PAIR), Ended(0, "created 3\n", ""))
        self.assertEqual(ran("check", self.path("store")), Ended(0, "legal 3\n", ""))
        self.assertEqual(ran("show", self.path("store")),
                         Ended(0, "view 3 3\nnode 1 1 ready 0 0 0\nnode 2 1 ready 0 0 0\nlink 1 2 3\n", ""))

    def test_the_bytes_of_a_pair(self) -> None:
        """The first half has an empty world of version 2, and then one batch."""
        self.assertEqual(self.init(topology([(7, 1)], half=40_000))[0], 0)
        order = b"\0\x10" + stores.wide(1) + b"\0\7\1"
        whole = stores.store(version=2, bodies=[stores.batch(1, order)], half=40_000)
        self.assertEqual(self.read("store"), whole)

    def test_the_usual_half(self) -> None:
        self.assertEqual(self.init(topology([(1, 1)]))[0], 0)
        self.assertEqual(self.read("store")[9:17], stores.wide(65_536))

    def test_halves_of_every_size(self) -> None:
        for half in (32_768, 32_769, 65_535, 1_000_000, 16_777_215, 16_777_216):
            with self.subTest(half=half):
                self.assertEqual(self.init(topology([(1, 1)], half=half), f"store{half}"), Ended(0, "created 1\n", ""))
                self.assertEqual(self.read(f"store{half}")[9:17], stores.wide(half))
                self.assertEqual(ran("check", self.path(f"store{half}")), Ended(0, "legal 1\n", ""))

    def test_the_longest_text(self) -> None:
        """A comment fills the file up to one byte less than is refused."""
        self.assertEqual(self.init(PAIR.ljust(65_535, "#") + "\n"), Ended(0, "created 3\n", ""))

    def test_an_empty_topology(self) -> None:
        self.assertEqual(self.init(""), Ended(0, "created 0\n", ""))
        self.assertEqual(ran("show", self.path("store")), Ended(0, "view 0 0\n", ""))

    def test_other_spellings(self) -> None:
        for number, (text, count) in enumerate(READ):
            with self.subTest(text=text[:60]):
                self.assertEqual(self.init(text, f"store{number}"), Ended(0, f"created {count}\n", ""))
        # a link from a node to itself can be read, but its order is refused
        self.assertEqual(self.init("link = [{a = 1, b = 1}]", "linked"), faulted(1, "6 UnknownNode"))

    def test_the_largest_network(self) -> None:
        links = [(node, (node + far - 1) % 64 + 1) for far in (1, 2) for node in range(1, 65)]
        self.assertEqual(self.init(topology([(node, 16) for node in range(1, 65)], links)),
                         Ended(0, "created 192\n", ""))
        self.assertEqual(ran("check", self.path("store")), Ended(0, "legal 192\n", ""))
        shown = ran("show", self.path("store")).printed.splitlines()
        self.assertEqual((len(shown), shown[64]), (1 + 64 + 128, "node 64 16 ready 0 0 0"))
        rows = sorted((*sorted(ends), step) for step, ends in enumerate(links, 65))
        self.assertEqual(shown[65:], [f"link {a} {b} {step}" for a, b, step in rows])

    def test_an_empty_file_is_filled(self) -> None:
        self.write("store", "")
        self.assertEqual(self.init(PAIR), Ended(0, "created 3\n", ""))

    def test_refused_orders(self) -> None:
        """An empty store remains."""
        for number, (name, text) in enumerate(REFUSED):
            with self.subTest(refusal=name):
                self.assertEqual(self.init(text, f"store{number}"), faulted(1, name))
                self.assertEqual(ran("check", self.path(f"store{number}")), Ended(0, "legal 0\n", ""))

    def test_more_entries_than_there_may_be(self) -> None:
        """Too many entries are not a fault of the text, even if all are equal: the first refused order is reported."""
        pair = "node = [{id = 1, group = 1}, {id = 2, group = 1}]\n"
        for name, text in (("7 NodeExists", "node = [" + "{id=1,group=1}," * 300 + "]"),
                           ("11 LinkExists", pair + "link = [" + "{a=1,b=2}," * 300 + "]"),
                           ("9 SameNode", "link = [" + "{a=1,b=1}," * 600 + "]\n" + pair)):
            with self.subTest(refusal=name):
                self.assertEqual(self.init(text, name), faulted(1, name))
                self.assertEqual(ran("check", self.path(name)), Ended(0, "legal 0\n", ""))

    def test_topologies_that_are_not_read(self) -> None:
        """The store's file is not touched, and not even created."""
        for name, text in UNREAD:
            with self.subTest(fault=name, text=text[:60]):
                self.assertEqual(self.init(text), faulted(1, name))
                self.assertFalse(os.path.exists(self.path("store")))

    def test_a_file_that_holds_something(self) -> None:
        for content in (b"\0", b"something else", stores.store()):
            with self.subTest(content=content[:20]):
                self.write("store", content)
                self.assertEqual(self.init(PAIR), faulted(1, "NotEmpty"))
                self.assertEqual(self.read("store"), content)

    def test_a_topology_that_is_not_there(self) -> None:
        for path in (self.path("none"), self.folder):
            self.assertEqual(ran("init", self.path("store"), path), faulted(3, "Read"))
        self.assertEqual(os.listdir(self.folder), [])

    def test_a_file_that_can_not_be_made(self) -> None:
        for path in (self.folder, self.path("none/store")):
            self.assertEqual(ran("init", path, self.write("topology", PAIR)), faulted(3, "Device"))

    def test_faults_in_their_order(self) -> None:
        """The topology is checked before the store's file, and an order after it."""
        self.write("store", "something")
        self.assertEqual(self.init("halves = 1"), faulted(1, "BadKey"))
        self.assertEqual(self.init(REFUSED[0][1]), faulted(1, "NotEmpty"))
        self.assertEqual(ran("init", self.folder, self.path("none")), faulted(3, "Read"))
        for name, text in UNREAD[:6]:
            self.assertEqual(self.init(text, "none/store"), faulted(1, name))
