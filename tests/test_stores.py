"""`check`, `show`, `migrate` and `serve` over stores of all kinds: the output of each, and the file after it."""

import os
import socket
import stat
from collections.abc import Sequence

from support import stores
from support.case import Case
from support.program import Ended, faulted, ran
from support.served import STARTED, answered
from support.serving import Serving
from support.stores import ACK, ABORT, CONVERGE, IS_READY, abort, add, batch, clear, link, node, order, take, world

PAIR = [node(1), node(2)]
COMMANDS: dict[str, list[str]] = {"check": [], "show": [], "migrate": [], "serve": ["127.0.0.1:0"]}
REFUSED = [
    ("NoMagic", b""), ("NoMagic", b"\0ACRRESET"), ("NoMagic", b"something that is no store"),
    ("NoMagic", stores.store(half=32_767)), ("NoMagic", stores.store(half=16_777_217)),
    ("BadRecord", stores.store()[:17]), ("BadRecord", stores.store()[:-1]), ("BadRecord", stores.store()[:-3]),
    ("BadRecord", b"\1" + stores.store()[1:]),
    ("BadSnapshot", stores.store(version=0)), ("BadSnapshot", stores.store(version=3)),
    ("BadSnapshot", stores.store(b"\0" * 10)), ("BadSnapshot", stores.store(b"\0" * 12)),
    ("BadSnapshot", stores.store(world(2, PAIR), version=2)),
    ("BadBatch", stores.store(bodies=[b""])), ("BadBatch", stores.store(bodies=[batch(2, add(1))])),
    ("BadBatch", stores.store(bodies=[batch(1, add(65))])),
    ("BadBatch", stores.store(bodies=[batch(1, add(1)), batch(3, add(2, number=2))])),
    ("BadStep", stores.store(bodies=[batch(1, add(1, number=2))])),
    ("BadStep", stores.store(bodies=[batch(1, add(1), add(1, number=2))])),
    ("BadStep", stores.store(bodies=[batch(1, add(1)), batch(2, add(1, number=2))])),
]
# An Ack that nobody awaits: the worked dump of docs/FORMATS.md.
UNAWAITED = world(3, PAIR, [link(1, 2, 3, back=(0, 0, [ACK]))])


def world_of_two(low: bytes, high: bytes, there: stores.Lane = stores.NO_LANE, back: stores.Lane = stores.NO_LANE) -> bytes:
    """Returns a world of version 1 with the nodes 2 and 64, after 4 steps."""
    return world(4, [low, high], [link(2, 64, 3, there, back)])


QUIET_2, QUIET_64 = node(2), node(64)
WAITS_2, WAITS_64 = node(2, ABORT, awaits=[64]), node(64, ABORT, awaits=[2])
# The first fault of each world, as `check` prints it.
VIOLATED = [
    ("64 64 N", world(4, [node(64, ABORT)])),
    ("2 2 N", world_of_two(node(2, CONVERGE), QUIET_64, (0, 1, []))),
    ("2 64 A", world_of_two(QUIET_2, QUIET_64, (0, 1, []))),
    ("64 2 A", world_of_two(QUIET_2, QUIET_64, back=(1, 0, []))),
    ("2 64 B", world_of_two(QUIET_2, QUIET_64, back=(0, 0, [ACK]))),
    ("64 2 B", world_of_two(QUIET_2, WAITS_64)),
    ("2 64 C", world_of_two(QUIET_2, QUIET_64, (0, 0, [IS_READY, IS_READY]))),
    ("2 64 D", world_of_two(WAITS_2, QUIET_64, (0, 0, [abort(), IS_READY]))),
    ("2 64 E", world_of_two(QUIET_2, node(64, CONVERGE, 2))),
    ("64 2 E", world_of_two(node(2, CONVERGE, 64), QUIET_64)),
    ("2 64 F", world_of_two(node(2, CONVERGE, 64), node(64, CONVERGE, 2))),
    ("2 64 G", world_of_two(WAITS_2, QUIET_64, (0, 0, [IS_READY]), (0, 0, [ACK]))),
]
# The same for worlds of version 1, each next to the legal world that is closest to it.
CHECKED_WORLDS = [
    # node 2 is Abort and awaits nobody; of two such nodes the one with the smaller number is reported
    ("violated 2 2 N", world(3, [node(1), node(2, ABORT)], [link(1, 2, 3)])),
    ("violated 1 1 N", world(3, [node(1, ABORT), node(2, ABORT)], [link(1, 2, 3)])),
    # a message was taken on an empty lane
    ("violated 2 1 A", world(3, PAIR, [link(1, 2, 3, back=(0, 1, []))])),
    # an Ack that nobody awaits: a fault of the node that will receive it
    ("violated 1 2 B", world(3, PAIR, [link(1, 2, 3, back=(0, 0, [ACK]))])),
    # two Readies; of two such links the one with the smaller ends is reported
    ("violated 1 2 C", world(3, PAIR, [link(1, 2, 3, (0, 0, [IS_READY, IS_READY]))])),
    ("violated 1 2 C", world(5, [node(1), node(2), node(3)],
                             [link(1, 2, 4, (0, 0, [IS_READY, IS_READY])), link(2, 3, 5, (0, 0, [IS_READY, IS_READY]))])),
    # a Ready after the Abort that node 1 sent; before it, it would be right
    ("violated 1 2 D", world(3, [node(1, ABORT, awaits=[2]), node(2)], [link(1, 2, 3, (0, 0, [abort(), IS_READY]))])),
    ("legal 3", world(3, [node(1, ABORT, awaits=[2]), node(2, CONVERGE, 1)], [link(1, 2, 3, (0, 0, [IS_READY, abort()]))])),
    # node 2 is Converge with parent 1, which is Ready and has no Ready on the way
    ("violated 1 2 E", world(3, [node(1), node(2, CONVERGE, 1)], [link(1, 2, 3)])),
    # mutual parents
    ("violated 1 2 F", world(3, [node(1, CONVERGE, 2), node(2, CONVERGE, 1)], [link(1, 2, 3)])),
    # node 1 is in a reset, with parent 3, and has a Ready in transit to node 2
    ("violated 1 2 G", world(5, [node(1, CONVERGE, 3), node(2), node(3, ABORT, awaits=[1])],
                             [link(1, 2, 4, (0, 0, [IS_READY])), link(1, 3, 5, (0, 0, [ACK]))])),
    # three nodes, each the parent of the next, in a circle: each awaits the next one forever
    ("legal 6", world(6, [node(1, ABORT, 3, awaits=[2]), node(2, ABORT, 1, awaits=[3]), node(3, ABORT, 2, awaits=[1])],
                      [link(1, 2, 4), link(1, 3, 5), link(2, 3, 6)])),
]
ASKED = [node(1, ABORT, awaits=[2], version=2), node(2, version=2)]
# Worlds of version 2, and what `check` says of them.
CHECKED_DISTANCES = [
    # a miscount is reported before an Abort that carries 2 from distance 0, although it is on the other lane
    ("violated 2 1 A", world(4, ASKED, [link(1, 2, 3, (0, 0, [abort(2, 2)]), (0, 1, []))])),
    # without the miscount, that Abort is reported; 1 would be right
    ("violated 1 2 H", world(4, ASKED, [link(1, 2, 3, (0, 0, [abort(2, 2)]))])),
    ("legal 4", world(4, ASKED, [link(1, 2, 3, (0, 0, [abort(1, 2)]))])),
    # a child of node 1 at distance 2, which has acknowledged
    ("violated 1 2 H", world(4, [ASKED[0], node(2, CONVERGE, 1, distance=2, version=2)], [link(1, 2, 3, back=(0, 0, [ACK]))])),
    # a Ready to it is in transit, and it may be anywhere
    ("legal 4", world(4, [node(1, epoch=1, version=2), node(2, CONVERGE, 1, distance=2, version=2)],
                      [link(1, 2, 3, (0, 0, [IS_READY]))])),
    # a node in a reset, at a distance equal to the count
    ("violated 2 2 N", world(4, [ASKED[0], node(2, CONVERGE, 1, distance=4, version=2)], [link(1, 2, 3, back=(0, 0, [ACK]))])),
    # the circle of three nodes: the distance rises from 1 to 2 and from 2 to 3, and not from 3 to 1
    ("violated 3 1 H", world(6, [node(1, ABORT, 3, awaits=[2], version=2), node(2, ABORT, 1, awaits=[3], distance=1, version=2),
                                 node(3, ABORT, 2, awaits=[1], distance=2, version=2)],
                             [link(1, 2, 4), link(1, 3, 5), link(2, 3, 6)])),
]


def in_reset(at: int, other: int, version: int = 1) -> bytes:
    """Returns a legal world of two nodes, one of which has just begun a reset."""
    lane = (0, 0, [abort(1, version)])
    rows = {at: node(at, ABORT, awaits=[other], version=version), other: node(other, version=version)}
    lanes = (lane, stores.NO_LANE) if at < other else (stores.NO_LANE, lane)
    low, high = sorted(rows)
    return world(4, [rows[low], rows[high]], [link(low, high, 3, *lanes)])


class Refused(Case):
    def test_what_is_no_store_is_refused_and_stays(self) -> None:
        for name, content in REFUSED:
            for command, more in COMMANDS.items():
                with self.subTest(fault=name, command=command, content=content.hex()[-60:]):
                    path = self.write("store", content)
                    self.assertEqual(ran(command, path, *more), faulted(1, name))
                    self.assertEqual(self.read("store"), content)

    def test_a_file_that_is_not_there(self) -> None:
        """The file is created, and is no store."""
        for command, more in COMMANDS.items():
            with self.subTest(command=command):
                self.assertEqual(ran(command, self.path(command), *more), faulted(1, "NoMagic"))
                self.assertEqual(self.read(command), b"")

    def test_a_file_that_can_not_be_opened(self) -> None:
        for command, more in COMMANDS.items():
            for path in (self.folder, self.path("none/store")):
                with self.subTest(command=command, path=path):
                    self.assertEqual(ran(command, path, *more), faulted(3, "Device"))
        self.assertEqual(os.listdir(self.folder), [])

    def test_what_is_no_file(self) -> None:
        """The program reports that before it opens the file: opening a pipe would wait for its other end."""
        pipe, ring = self.path("pipe"), self.write("ring.toml", stores.ring(3))
        os.mkfifo(pipe)
        os.symlink(pipe, self.path("name"))
        with socket.socket(socket.AF_UNIX) as listener:
            listener.bind(self.path("socket"))
        for command, more in {**COMMANDS, "init": [ring]}.items():
            for path in (pipe, self.path("name"), self.path("socket"), self.folder, "/dev/null", "/dev/zero"):
                with self.subTest(command=command, path=path):
                    self.assertEqual(ran(command, path, *more), faulted(3, "Device"))
        self.assertTrue(stat.S_ISFIFO(os.stat(pipe).st_mode))

    def test_a_link_to_a_store_is_that_store(self) -> None:
        """A link that leads nowhere is reported as missing, and no file is created."""
        os.symlink("store", self.path("name"))
        for command, more in {**COMMANDS, "init": [self.write("ring.toml", stores.ring(3))]}.items():
            self.assertEqual(ran(command, self.path("name"), *more), faulted(3, "Device"))
        self.made(stores.ring(3))
        for command, said in (("check", "legal 6"), ("migrate", "migrated 6"), ("show", "view 6 6")):
            with self.subTest(command=command):
                ended = ran(command, self.path("name"))
                self.assertEqual((ended.status, ended.printed.split("\n")[0], ended.fault), (0, said, ""))
        with Serving(self.path("name")) as server:
            self.assertEqual(server.order(1, "reset", node=1), answered(STARTED, 7))
            self.assertEqual(server.close().status, 0)
        self.assertTrue(os.path.islink(self.path("name")))

    def test_names_of_all_kinds(self) -> None:
        """The names are long, or have spaces and other characters, in a folder or in the present one."""
        ring = self.write("ring.toml", stores.ring(3))
        folder = self.path("/".join(["l" * 200] * 12))
        os.makedirs(folder)
        for name in ("a store", "b\u00e4r \u4e2d.store", "./store", f"../{os.path.basename(self.folder)}/other", "s" * 255,
                     f"{folder}/{'s' * 255}", "'\"$(x)\\\n", "."  * 3):
            with self.subTest(name=name):
                self.assertEqual(ran("init", name, ring, cwd=self.folder), Ended(0, "created 6\n", ""))
                os.replace(os.path.join(self.folder, name), self.path("kept"))
                self.assertEqual(ran("init", name, name, cwd=self.folder), faulted(3, "Read"))
                os.replace(ring, os.path.join(self.folder, name))
                self.assertEqual(ran("init", self.path("second"), name, cwd=self.folder), Ended(0, "created 6\n", ""))
                os.replace(os.path.join(self.folder, name), ring)
                os.replace(self.path("kept"), os.path.join(self.folder, name))
                os.remove(self.path("second"))
                for command, said in (("check", "legal 6"), ("migrate", "migrated 6"), ("show", "view 6 6")):
                    ended = ran(command, name, cwd=self.folder)
                    self.assertEqual((ended.status, ended.printed.split("\n")[0], ended.fault), (0, said, ""))
                with Serving(name, cwd=self.folder, output=self.path("output")) as server:
                    self.assertEqual(server.order(1, "reset", node=1), answered(STARTED, 7))
                    self.assertEqual(server.close().status, 0)

    def test_names_that_begin_or_end_in_a_blank(self) -> None:
        """Each of them names its own file: another file, whose name has no blank, is next to it."""
        self.made(stores.ring(3))
        for number, name in enumerate(("store ", " store", "store  ", "\tstore", "store\t", "store\n"), 4):
            content = self.read("store")
            with self.subTest(name=name):
                self.write("topology", stores.ring(number))
                for arguments, said in ((["init", name, "topology"], f"created {2 * number}"), (["check", name], f"legal {2 * number}"),
                                        (["migrate", name], f"migrated {2 * number}"), (["show", name], f"view {2 * number} {2 * number}")):
                    self.assertEqual(ran(*arguments, cwd=self.folder).printed.split("\n")[0], said)
                with Serving(name, cwd=self.folder, output=self.path("output")) as server:
                    self.assertEqual(server.order(1, "reset", node=1), answered(STARTED, 2 * number + 1))
                    self.assertEqual(server.close().status, 0)
                self.assertEqual(self.read("store"), content)

    def test_a_world_that_is_not_legal(self) -> None:
        """Only `check` says where the violation is, and nothing is written."""
        path = self.write("store", stores.store(UNAWAITED))
        self.assertEqual(ran("check", path), Ended(1, "violated 1 2 B\n", ""))
        for command in ("show", "migrate", "serve"):
            with self.subTest(command=command):
                self.assertEqual(ran(command, path, *COMMANDS[command]), faulted(1, "Violated"))
        self.assertEqual(self.read("store"), stores.store(UNAWAITED))


class Checked(Case):
    def check(self, snapshot: bytes, version: int = 1) -> Ended:
        return ran("check", self.write("store", stores.store(snapshot, version)))

    def test_the_first_fault(self) -> None:
        for fault, snapshot in VIOLATED:
            with self.subTest(fault=fault):
                self.assertEqual(self.check(snapshot), Ended(1, f"violated {fault}\n", ""))

    def test_each_letter(self) -> None:
        for version, worlds in ((1, CHECKED_WORLDS), (2, CHECKED_DISTANCES)):
            for line, snapshot in worlds:
                with self.subTest(version=version, line=line):
                    self.assertEqual(self.check(snapshot, version), Ended(int(line[0] == "v"), f"{line}\n", ""))

    def test_a_distance_that_differs(self) -> None:
        """A wrong distance is reported after a fault of an earlier predicate, even one at the other end."""
        rows = [node(2, ABORT, awaits=[64], version=2), node(64, version=2)]
        queue = (0, 0, [abort(3, 2)])
        self.assertEqual(self.check(world(4, rows, [link(2, 64, 3, queue)]), 2), Ended(1, "violated 2 64 H\n", ""))
        both = world(4, rows, [link(2, 64, 3, queue, (0, 1, []))])
        self.assertEqual(self.check(both, 2), Ended(1, "violated 64 2 A\n", ""))

    def test_legal_worlds(self) -> None:
        for version in (1, 2):
            for at, other in ((1, 2), (64, 63)):
                with self.subTest(version=version, at=at):
                    self.assertEqual(self.check(in_reset(at, other, version), version), Ended(0, "legal 4\n", ""))

    def test_batches_go_on_from_the_snapshot(self) -> None:
        bodies = [batch(1, add(1), add(2, number=2)), batch(3, add(64, client=16))]
        path = self.write("store", stores.store(bodies=bodies))
        self.assertEqual(ran("check", path), Ended(0, "legal 3\n", ""))
        rows = "".join(f"node {number} 1 ready 0 0 0\n" for number in (1, 2, 64))
        self.assertEqual(ran("show", path), Ended(0, f"view 3 3\n{rows}", ""))

    def test_a_selector_is_even_or_odd(self) -> None:
        """A torn write may leave any byte there."""
        whole = stores.store(bodies=[batch(1, add(1))]).ljust(stores.HEADER + stores.HALF, b"\xaa")
        other = stores.store(bodies=[batch(1, add(1), add(2, number=2))])[stores.HEADER:]
        for selector, count in ((0, 1), (1, 2), (2, 1), (254, 1), (255, 2)):
            path = self.write("store", bytes([selector]) + whole[1:] + other)
            self.assertEqual(ran("check", path), Ended(0, f"legal {count}\n", ""))

    def test_what_is_shown_of_a_reset(self) -> None:
        path = self.write("store", stores.store(in_reset(64, 63)))
        shown = "view 4 4\nnode 63 1 ready 0 0 0\nnode 64 1 abort 0 0 0\nlink 63 64 3\n"
        self.assertEqual(ran("show", path), Ended(0, shown, ""))
        rows = [node(1, CONVERGE, 2, epoch=3, confirmed=2), node(2, ABORT, awaits=[1], epoch=4)]
        path = self.write("store", stores.store(world(9, rows, [link(1, 2, 3, (0, 0, [ACK]))])))
        shown = "view 9 9\nnode 1 1 converge 2 3 2\nnode 2 1 abort 0 4 0\nlink 1 2 3\n"
        self.assertEqual(ran("show", path), Ended(0, shown, ""))


class Migrated(Case):
    def test_a_store_of_version_1(self) -> None:
        for content, count in ((stores.store(), 0), (stores.store(world(3, PAIR, [link(1, 2, 3)])), 3),
                               (stores.store(bodies=[batch(1, add(64))]), 1)):
            with self.subTest(count=count):
                path = self.write("store", content)
                shown = ran("show", path)
                self.assertEqual(ran("migrate", path), Ended(0, f"migrated {count}\n", ""))
                self.assertEqual((stores.version_of(path), ran("show", path)), (2, shown))
                self.assertEqual(ran("check", path), Ended(0, f"legal {count}\n", ""))

    def test_halves_of_every_size(self) -> None:
        """The world is written into the second half, wherever that begins, and is read at the next start."""
        for half in (32_768, 100_003, 16_777_216):
            path = self.write("store", stores.store(bodies=[batch(1, add(64))], half=half))
            with self.subTest(half=half):
                self.assertEqual(ran("migrate", path), Ended(0, "migrated 1\n", ""))
                self.assertEqual((os.path.getsize(path) > stores.HEADER + half, stores.version_of(path)), (True, 2))
                self.assertEqual(ran("show", path), Ended(0, "view 1 1\nnode 64 1 ready 0 0 0\n", ""))

    def test_one_in_which_a_reset_came_to_its_end(self) -> None:
        """The store has one batch for each step: two nodes, their link, the reset, and the steps of its wave."""
        started = [add(1), add(2, number=2), order(3, 2, 1, 2), order(4, 4, 1)]
        ended = [take(1, 2, 3, 1, abort()), take(2, 1, 3, 1, ACK), clear(1, 2, 3, 1), take(1, 2, 3, 2, IS_READY)]
        self.assertEqual(ran("migrate", self.store_of(started)), faulted(1, "NotQuiet 1"))
        path = self.store_of(started + ended)
        self.assertEqual(ran("migrate", path), Ended(0, "migrated 8\n", ""))
        raised = self.read("store")
        self.assertEqual((raised[0], stores.version_of(path)), (1, 2))
        shown = "view 8 8\nnode 1 1 ready 0 1 0\nnode 2 1 ready 0 1 0\nlink 1 2 3\n"
        self.assertEqual((ran("check", path), ran("show", path)), (Ended(0, "legal 8\n", ""), Ended(0, shown, "")))
        self.assertEqual((ran("migrate", path), self.read("store")), (Ended(0, "migrated 8\n", ""), raised))

    def store_of(self, steps: Sequence[bytes], snapshot: bytes = stores.EMPTY_WORLD, count: int = 0) -> str:
        """Returns a store of version 1 whose snapshot, after this many steps, is followed by these."""
        bodies = [batch(number, step) for number, step in enumerate(steps, count + 1)]
        return self.write("store", stores.store(snapshot, bodies=bodies))

    def test_a_circle_of_parents_is_opened_first(self) -> None:
        """Three nodes are each the parent of the next, and each awaits the next: a wave ends there only by a drop."""
        rows = [node(1, ABORT, 3, awaits=[2]), node(2, ABORT, 1, awaits=[3]), node(3, ABORT, 2, awaits=[1])]
        circle = world(6, rows, [link(1, 2, 4), link(1, 3, 5), link(2, 3, 6)])
        path = self.store_of([], circle, 6)
        self.assertEqual(ran("check", path), Ended(0, "legal 6\n", ""))
        self.assertEqual(ran("migrate", path), faulted(1, "NotQuiet 1"))
        opened = [order(1, 3, 1, 2), take(1, 3, 5, 1, ACK), take(3, 2, 6, 1, ACK), take(2, 3, 6, 1, IS_READY),
                  take(3, 1, 5, 1, IS_READY)]
        path = self.store_of(opened, circle, 6)
        self.assertEqual(ran("migrate", path), Ended(0, "migrated 11\n", ""))
        self.assertEqual(ran("check", path), Ended(0, "legal 11\n", ""))

    def test_one_of_version_2_is_not_written_to(self) -> None:
        content = stores.store(version=2, bodies=[batch(1, add(1))])
        path = self.write("store", content)
        for _ in range(2):
            self.assertEqual(ran("migrate", path), Ended(0, "migrated 1\n", ""))
            self.assertEqual(self.read("store"), content)

    def test_a_node_in_a_reset(self) -> None:
        """The node with the lowest number is reported, and nothing is written."""
        for at, other in ((1, 2), (2, 1), (1, 64), (64, 1), (63, 64), (64, 63)):
            content = stores.store(in_reset(at, other))
            path = self.write("store", content)
            with self.subTest(at=at):
                self.assertEqual(ran("migrate", path), faulted(1, f"NotQuiet {at}"))
                self.assertEqual(self.read("store"), content)
        rows = [node(2, CONVERGE, 64), node(64, ABORT, awaits=[2])]
        path = self.write("store", stores.store(world(9, rows, [link(2, 64, 3, (0, 0, [ACK]))])))
        self.assertEqual(ran("migrate", path), faulted(1, "NotQuiet 2"))

    def test_one_of_version_2_in_a_reset_is_migrated(self) -> None:
        path = self.write("store", stores.store(in_reset(64, 63, 2), version=2))
        self.assertEqual(ran("migrate", path), Ended(0, "migrated 4\n", ""))


class Limits(Case):
    def test_the_longest_legal_world(self) -> None:
        """All nodes are in a reset, and each lane has an Abort that was taken, a Ready and an Abort."""
        longest = stores.longest_world()
        self.assertEqual(len(longest), 13_259)
        content = stores.store(longest, version=2)
        path = self.write("store", content)
        self.assertEqual(ran("check", path), Ended(0, f"legal {stores.MOST_STEPS}\n", ""))
        self.assertEqual((ran("migrate", path).status, self.read("store")), (0, content))
        lines = ran("show", path).printed.splitlines()
        rows = [f"node {number} 1 abort 0 {512 + number} {256 + number}" for number in range(1, 65)]
        self.assertEqual((lines[:65], len(lines)), ([f"view {stores.MOST_STEPS} {stores.MOST_STEPS}", *rows], 1 + 64 + 128))

    def test_a_world_at_the_limits_is_raised(self) -> None:
        """All nodes are Ready, and each lane has a message that was taken and a Ready."""
        def ready(version: int) -> bytes:
            rows = [node(number, epoch=512 + number, confirmed=256 + number, version=version) for number in range(1, 65)]
            front = (abort(0, version), ACK, IS_READY)
            return stores.at_the_limits(version, rows, lambda _, sender: [front[sender % 3], IS_READY])
        path = self.write("store", stores.store(ready(1)))
        self.assertEqual(ran("migrate", path), Ended(0, f"migrated {stores.MOST_STEPS}\n", ""))
        raised = self.read("store")
        second = raised[stores.HEADER + stores.HALF:]
        wanted = stores.store(ready(2), version=2)[stores.HEADER:]
        self.assertEqual((raised[0], second[:len(wanted)]), (1, wanted))
