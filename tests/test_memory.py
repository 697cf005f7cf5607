"""Each allocation of a command is refused in turn. The command ends as it does with enough memory, or reports OutOfMemory and
leaves everything unchanged."""

import os
import pathlib
import re
import socket
import time
from collections.abc import Callable, Iterator

from support import preloaded, stores
from support.case import Case, until
from support.program import PROGRAM, SHORT, SHORT_STEPS, Ended, faulted, ran
from support.piped import Piped
from support.refusing import FIRST_THREAD, FLUSHER, WORKERS, Refusing
from support.runs import worked_runs
from support.served import FINISHED, STARTED, answered
from support.serving import Answer, Request, Serving
from support.stores import ABORT, batch, link, node, topology, world

NO_MEMORY = faulted(4, "OutOfMemory")
ALL = 10**9
PAIR = topology([(1, 1), (2, 1)], [(1, 2)])
IN_A_RESET = world(4, [node(1, ABORT, awaits=[2]), node(2)], [link(1, 2, 3, (0, 0, [stores.abort()]))])
CHECKED = [faulted(1, "NoMagic"), Ended(0, "legal 0\n", ""), Ended(0, "legal 3\n", "")]
# How an answer of a drill reports that memory ran out for its ledger, or for its disk, which is in memory and never fails for another reason.
ENDS = [(0, ""), (4, "resetd: OutOfMemory\n"), (3, "resetd: Device\n")]
LACKS = re.compile(r"^(no 2 OutOfMemory|commit 1 OutOfMemory|commit 2 Device)$", re.MULTILINE)
# After the reset, each of its three packets is taken and cleared.
AFTER_A_WAVE = {"accepted": 10, "links": [[1, 2, 3]], "nodes": [[1, 1, "ready", 0, 1, 0], [2, 1, "ready", 0, 1, 0]],
                "settled": 10}
VIOLATED = world(4, [node(64, ABORT)])


def unchanged(count: Callable[[], int]) -> int:
    """Returns a count once it has stayed the same for half a second."""
    now, same = count(), 0
    while same < 10:
        time.sleep(0.05)
        before, now = now, count()
        same = same + 1 if now == before else 0
    return now


class Memory(Case):
    takes = 20

    def setUp(self) -> None:
        super().setUp()
        self.needs("a C compiler", preloaded.has_compiler())
        self.refusing = Refusing(PROGRAM, self.folder)

    def each_refusal(self, arguments: list[str], prepare: Callable[[], object],
                     given: bytes = b"") -> Iterator[tuple[str, Ended, Ended]]:
        """Runs a command with each of its allocations refused, alone or together with all later ones. Yields where that was,
        how the command ends with enough memory, and how it ended.

        Parsing the arguments allocates often, the same each time. Of the allocations that a command without a file makes
        too, only some are refused.
        """
        usual = self.refusing.ran("check", self.path("none/store"))[1]
        prepare()
        ample, count = self.refusing.ran(*arguments, given=given)
        for first in range(1, count + 1):
            for many in (1, ALL) if first > usual - 5 or first % 16 == 0 else ():
                prepare()
                ended, _ = self.refusing.ran(*arguments, first=first, many=many, given=given)
                yield f"{arguments[0]}, {many} from {first} of {count}", ample, ended

    def expect_unchanged(self, wanted: Ended, *arguments: str, content: bytes) -> None:
        """Checks that the command ends as expected, or out of memory with its file unchanged."""
        path, lacked = self.path("store"), 0
        for where, ample, ended in self.each_refusal([arguments[0], path, *arguments[1:]], lambda: self.write("store", content)):
            self.assertEqual(ample, wanted)
            self.assertIn(ended, (wanted, NO_MEMORY), where)
            self.assertEqual(self.read("store"), content, where)
            lacked += ended == NO_MEMORY
        self.assertGreater(lacked, 10)

    def test_a_store_is_never_overwritten(self) -> None:
        for content in (stores.store(bodies=[batch(1, stores.add(1))]), b"\0"):
            self.expect_unchanged(faulted(1, "NotEmpty"), "init", self.write("topology", PAIR), content=content)

    def test_what_only_reads(self) -> None:
        content = stores.store(bodies=[batch(1, stores.add(1))])
        self.expect_unchanged(Ended(0, "legal 1\n", ""), "check", content=content)
        self.expect_unchanged(Ended(0, "view 1 1\nnode 1 1 ready 0 0 0\n", ""), "show", content=content)
        self.expect_unchanged(Ended(1, "violated 64 64 N\n", ""), "check", content=stores.store(VIOLATED))

    def test_a_migration_that_is_refused(self) -> None:
        self.expect_unchanged(faulted(1, "NotQuiet 1"), "migrate", content=stores.store(IN_A_RESET))
        self.expect_unchanged(faulted(1, "Violated"), "migrate", content=stores.store(VIOLATED))

    def test_a_migration(self) -> None:
        """The store has version 1 and is unchanged, or has version 2; in the second case the line may be missing."""
        content, path = stores.store(bodies=[batch(1, stores.add(1))]), self.path("store")
        for where, ample, ended in self.each_refusal(["migrate", path], lambda: self.write("store", content)):
            self.assertEqual(ample, Ended(0, "migrated 1\n", ""))
            self.assertIn(ended, (ample, NO_MEMORY), where)
            if stores.version_of(path) == 1:
                self.assertEqual((ended, self.read("store")), (NO_MEMORY, content), where)
            else:
                self.assertEqual(ran("check", path), Ended(0, "legal 1\n", ""), where)

    def test_a_store_that_is_made(self) -> None:
        """There is no store, an empty one, or a whole one, whose line may be missing."""
        store, arguments = self.path("store"), ["init", self.path("store"), self.write("topology", PAIR)]
        for where, ample, ended in self.each_refusal(arguments, lambda: pathlib.Path(store).unlink(missing_ok=True)):
            self.assertEqual(ample, Ended(0, "created 3\n", ""))
            self.assertIn(ended, (ample, NO_MEMORY), where)
            if os.path.exists(store):
                self.assertIn(ran("check", store), CHECKED[2 * (ended == ample):], where)

    def expect_first_part(self, run: str) -> None:
        """Checks that a drill prints a prefix of its output with enough memory, in whole answers, or that an answer reports
        that memory ran out."""
        given = worked_runs()[run].given
        for where, ample, ended in self.each_refusal(["drill"], lambda: None, given):
            self.assertEqual(ample.status, 0)
            self.assertIn((ended.status, ended.fault), ENDS, where)
            if not LACKS.search(ended.printed):
                self.assertTrue(ample.printed.startswith(ended.printed), where)
                self.assertEqual(ended.status == 0, ended.printed == ample.printed, where)

    def test_a_drill(self) -> None:
        self.expect_first_part("stored-run")

    def test_a_drill_that_sends_again(self) -> None:
        self.expect_first_part("resend-and-check")

    def test_a_drill_that_is_shown(self) -> None:
        self.expect_first_part("crash-loses-pending")


class Start(Case):
    takes = 20

    def test_each_allocation_of_a_start(self) -> None:
        """Each is refused alone, or with all later ones: the server listens, or it reports that, prints nothing and leaves its
        store unchanged."""
        self.needs("a C compiler", preloaded.has_compiler())
        refusing, store = Refusing(PROGRAM, self.folder), self.made(PAIR)
        content, lacked, usual = self.read("store"), 0, refusing.ran("check", self.path("none/store"))[1]
        with Serving(store, env=refusing.environment()):
            count = refusing.count()
        self.assertGreater(count, usual)
        for first in range(1, count + 1):
            for many in (1, ALL) if first > usual - 5 or first % 16 == 0 else ():
                with self.subTest(first=first, many=many, of=count):
                    lacked += self.start(store, refusing.environment(first, many)) == NO_MEMORY
                    self.assertEqual(self.read("store"), content)
        self.assertGreater(lacked, 10)

    def test_each_allocation_of_a_start_in_a_reset(self) -> None:
        """Packets are sent again after the line `listening`, for which the first thread allocates memory. If it runs out, the
        server reports that and ends; or it continues, and sends the lost packets once a client asks for that."""
        self.needs("a C compiler", preloaded.has_compiler())
        refusing, content = Refusing(PROGRAM, self.folder), stores.store(IN_A_RESET)
        with Serving(self.write("store", content), env=refusing.environment(threads=FIRST_THREAD)):
            count = unchanged(refusing.count)
        lacked = 0
        for first in range(count - 8, count + 1):
            with self.subTest(first=first, of=count):
                lacked += self.lacks_memory(content, refusing.environment(first, threads=FIRST_THREAD))
        self.assertGreater(lacked, 4)

    def lacks_memory(self, content: bytes, environment: dict[str, str]) -> bool:
        """Returns whether a server over a store in a reset ends out of memory."""
        try:
            with Serving(self.write("store", content), env=environment) as server:
                try:
                    self.assertEqual(server.ask({"op": "resend"})["kind"], "resent")
                    until("the end of the wave", lambda: server.show() == AFTER_A_WAVE)
                    return False
                except ConnectionError:
                    ended = server.ended()
        except AssertionError as early:
            self.assertIn(str(NO_MEMORY), str(early))
            return True
        self.assertEqual((ended.status, ended.fault), (NO_MEMORY.status, NO_MEMORY.fault))
        return True

    def start(self, store: str, environment: dict[str, str]) -> Ended | None:
        """Returns how a server that does not listen ends, or None for one that listens."""
        try:
            with Serving(store, env=environment, output=self.path("output")):
                return None
        except AssertionError as ended:
            self.assertIn(str(NO_MEMORY), str(ended))
            return NO_MEMORY


class Later(Case):
    """An instance after the first one."""

    takes = 30
    programs = ("RESETD_SHORT",)

    def test_each_allocation_of_its_start(self) -> None:
        """Each allocation is refused in turn: the server continues, or it reports that and ends with everything that was
        answered."""
        self.needs("a C compiler", preloaded.has_compiler())
        refusing, lacked = Refusing(SHORT, self.folder), 0
        with self.serving(refusing, 0) as server:
            before = self.live(server, refusing, 0)
            count = unchanged(refusing.count) - before
        for first in range(1, count + 1):
            with self.subTest(first=first, of=count), self.serving(refusing, first) as server:
                self.live(server, refusing, first)
                ended = self.end(server)
                signals = "".join(f"signal 1 {epoch}\n" for epoch in range(1, SHORT_STEPS + 1))
                self.assertEqual(ended.printed, f"listening {server.address}\n{signals}")
                self.assertIn((ended.status, ended.fault), ((0, ""), (NO_MEMORY.status, NO_MEMORY.fault)))
                self.assertEqual(ran("check", server.store).printed, f"legal {1 + SHORT_STEPS}\n")
                lacked += ended.status != 0
        self.assertGreater(lacked, 5)

    def serving(self, refusing: Refusing, first: int) -> Serving:
        store = self.made(topology([(1, 1)]), f"store{first}")
        return Serving(store, program=SHORT, env=refusing.environment(threads=FIRST_THREAD))

    def live(self, server: Serving, refusing: Refusing, first: int) -> int:
        """Makes an instance old, and then refuses this allocation. Returns how many allocations there were by then."""
        with server.connect() as connection:
            numbers = range(1, SHORT_STEPS + 1)
            connection.send(*({"op": "reset", "client": 1, "number": each, "node": 1} for each in numbers))
            self.assertEqual([connection.reply()["step"] for _ in numbers], [1 + each for each in numbers])
            count = unchanged(refusing.count)
            refusing.refuse(count + first, int(first > 0))
        return count

    @staticmethod
    def end(server: Serving) -> Ended:
        """Closes the server, unless it ends by itself."""
        try:
            until("a close", lambda: server.ask({"op": "close"}) == {"kind": "closed"})
        except ConnectionError:
            pass
        return server.ended()


class Wave(Case):
    """Each allocation of one thread is refused in turn. A packet that finds no room is kept and submitted a little later: the
    wave ends after the same number of steps, and no packet has to be sent again."""

    takes = 10

    def test_one_whose_flusher_lacks_memory(self) -> None:
        self.expect_end(FLUSHER, self.read(self.made(PAIR)), is_begun=False, least=20)

    def test_one_whose_workers_lack_memory(self) -> None:
        """The workers receive the packet that the node in a reset has sent, which the start sends again."""
        self.expect_end(WORKERS, stores.store(IN_A_RESET), is_begun=True, least=1)

    def expect_end(self, threads: range, content: bytes, *, is_begun: bool, least: int) -> None:
        self.needs("a C compiler", preloaded.has_compiler())
        refusing = Refusing(PROGRAM, self.folder)
        count = self.allocations_of_a_wave(content, refusing.environment(threads=threads), refusing, is_begun)
        self.assertGreaterEqual(count, least)
        for first in range(1, count + 1):
            with self.subTest(first=first, of=count):
                self.allocations_of_a_wave(content, refusing.environment(first, threads=threads), refusing, is_begun)

    def allocations_of_a_wave(self, content: bytes, environment: dict[str, str], refusing: Refusing, is_begun: bool) -> int:
        store = self.write("store", content)
        with Serving(store, env=environment) as server:
            if not is_begun:
                self.assertEqual(server.order(1, "reset", node=1), answered(STARTED, 4))
            until("the end of the wave", lambda: server.show() == AFTER_A_WAVE)
            count = refusing.count()
            self.assertEqual(server.close().status, 0)
        self.assertEqual(ran("check", store), Ended(0, "legal 10\n", ""))
        return count


class SentAgain(Case):
    """A start sends the packets again that may be lost, once. If it runs out of memory, a client's `resend` sends them."""

    takes = 20

    def setUp(self) -> None:
        super().setUp()
        self.needs("a C compiler", preloaded.has_compiler())
        self.refusing = Refusing(PROGRAM, self.folder)

    def first_of_sending(self, content: bytes) -> int:
        """Returns the number of the first thread's first allocation after the line `listening`. If it and all later ones are
        refused, the server has printed that line, and ends when it sends packets again."""
        with Serving(self.write("store", content), env=self.refusing.environment(threads=FIRST_THREAD)) as server:
            server.await_rest()
            listens, fails = self.refusing.count() + 1, 0
        while listens - fails > 1:
            middle = (listens + fails) // 2
            if self.listens_without(content, middle):
                listens = middle
            else:
                fails = middle
        return listens

    def listens_without(self, content: bytes, first: int) -> bool:
        """Returns whether a server listens if all allocations from this one on are refused."""
        environment = self.refusing.environment(first, ALL, threads=FIRST_THREAD)
        try:
            with Serving(self.write("store", content), env=environment):
                return True
        except AssertionError as early:
            self.assertIn(str(NO_MEMORY), str(early))
            return False

    def test_once_at_a_start(self) -> None:
        """A start makes about as many allocations as a client's `resend`. The world takes no further step, so both send the
        same packets."""
        content = stores.store(stores.longest_world(), version=2)
        first = self.first_of_sending(content)
        with Serving(self.write("store", content), env=self.refusing.environment(threads=FIRST_THREAD)) as server:
            server.await_rest()
            before = self.refusing.count()
            at_start = before - first + 1
            self.assertEqual(server.ask(b"{\n"), {"fault": "BadJson"})
            server.await_rest()
            between = self.refusing.count()
            self.assertEqual(server.ask({"op": "resend"}), {"count": 512, "kind": "resent"})
            server.await_rest()
            by_client = self.refusing.count() - between - (between - before)
        self.assertGreater(by_client, 32)
        self.assertLess(abs(at_start - by_client), by_client // 3, (at_start, by_client))

    def lost_at_a_start(self, content: bytes, wanted: int) -> Serving:
        """Returns a server whose start has lost all packets because memory was refused. Its workers and its flusher sleep."""
        first = self.first_of_sending(content)
        for refused in range(first, first + 60):
            server = Serving(self.write("store", content), env=self.refusing.environment(refused, ALL, threads=FIRST_THREAD))
            self.addCleanup(server.kill)
            server.__enter__()
            if server.await_rest():
                self.refusing.refuse(0, 0)
                if server.show()["settled"] < wanted:
                    return server
            server.kill()
        self.fail("no start has lost its packets")

    def test_a_wave_by_a_client(self) -> None:
        """The flusher sleeps. Nobody asks for anything after the `resend`, and still the wave ends."""
        server = self.lost_at_a_start(stores.store(IN_A_RESET), 10)
        self.assertEqual(server.ask({"op": "resend"}), {"count": 1, "kind": "resent"})
        self.assertEqual(sorted(server.await_signals(2)), [(1, 1), (2, 1)])
        self.assertEqual(server.close().status, 0)

    def test_many_packets_for_one_worker_by_a_client(self) -> None:
        """Each of the 128 links has an end whose number is divisible by 8, so one worker gets its data and its receipt: 256
        packets. None is lost."""
        others = [node for node in range(1, 65) if node % 8]
        pairs = sorted(tuple(sorted((8 * hub, others[(7 * hub + near) % 56]))) for hub in range(1, 9) for near in range(16))
        sent, taken = (0, 0, [stores.IS_READY]), (0, 1, [stores.IS_READY])
        links = [link(a, b, 65 + place, *((sent, taken) if b % 8 == 0 else (taken, sent))) for place, (a, b) in enumerate(pairs)]
        rows = [node(at, epoch=3, version=2) for at in range(1, 65)]
        server = self.lost_at_a_start(stores.store(world(1_000, rows, links), version=2), 1_000 + 256)
        self.assertGreater(server.ask({"op": "resend"})["count"], 16)
        until("each packet", lambda: bool(server.show()["settled"] == 1_000 + 128 + 256))
        self.assertEqual(server.ask({"op": "resend"}), {"count": 0, "kind": "resent"})
        self.assertEqual(server.close().status, 0)


class Waves(Case):
    """Waves over a star, with eight packets to its middle in one flight."""

    takes = 10
    star = topology([(node, 1) for node in (1, *range(8, 65, 8))], [(1, node) for node in range(8, 65, 8)])

    def test_a_flusher_that_lacks_memory_for_a_while(self) -> None:
        """The wave ends, and nobody sends anything again. The refusals mostly hit flights. Packets that wait together are tried
        with a full engine (tests_engine, alone.rt)."""
        self.needs("a C compiler", preloaded.has_compiler())
        refusing, store = Refusing(PROGRAM, self.folder), self.made(self.star)
        with Serving(store, env=refusing.environment(threads=FLUSHER)) as server:
            for epoch in range(1, 31):
                refusing.refuse(refusing.count() + 1 + epoch % 3, 1 if epoch % 6 == 1 else 6)
                self.assertEqual(server.order(epoch, "reset", node=1)["kind"], STARTED)
                until(f"the end of wave {epoch}", lambda: self.has_ended(server.show(), epoch))
                self.assertEqual(server.ask({"op": "resend"}), {"count": 0, "kind": "resent"})
            self.assertEqual(server.close().status, 0)

    @staticmethod
    def has_ended(shown: Answer, epoch: int) -> bool:
        """Returns whether each packet was taken and cleared; each link has three in a wave."""
        return all(row[2] == "ready" and row[4] == epoch for row in shown["nodes"]) and \
            shown["settled"] == shown["accepted"] == 17 + epoch * (1 + 2 * 3 * 8)


class Kept(Case):
    """A server frees the memory that it has used, however long it runs, counted in allocations."""

    takes = 5
    programs = ("RESETD", "RESETD_SHORT")

    def expect_no_more(self, program: str, store: str, work: Callable[[Serving, int], None], times: int = 16) -> None:
        """Checks that repeating some work keeps fewer allocations than one for each repetition."""
        self.needs("a C compiler", preloaded.has_compiler())
        refusing = Refusing(program, self.folder)
        with Serving(store, program=program, env=self.environment(refusing)) as server:
            for number in range(5 * times):
                if number == 4 * times:
                    kept = self.count_kept(server, refusing.kept)
                work(server, number)
            self.assertLess(self.count_kept(server, refusing.kept) - kept, times // 2)
            self.assertEqual(server.close().status, 0)

    def environment(self, refusing: Refusing) -> dict[str, str]:
        """Returns an environment in which allocations are counted and the device is not waited for."""
        return preloaded.both(preloaded.environment(self.folder, SYNCS_LEFT_OUT=1), refusing.environment())

    @staticmethod
    def count_kept(server: Serving, count: Callable[[], int]) -> int:
        """Returns the number of allocations in use once the server waits for the next client."""
        server.ask({"op": "resend"})
        return unchanged(count)

    def test_of_a_command(self) -> None:
        """All memory is freed at the end, however many lines a drill had."""
        self.needs("a C compiler", preloaded.has_compiler())
        refusing, path = Refusing(PROGRAM, self.folder), self.write("store", stores.store(bodies=[batch(1, stores.add(1))]))
        lines = b"add 1 1\nadd 2 1\njoin 1 2\nreset 1\n" + b"show\nresend\ncheck\nfly\nadd 1 1\n#\ncrash\n" * 20
        for arguments, status in ((["init", self.path("made"), self.write("topology", PAIR)], 0), (["check", path], 0),
                                  (["show", path], 0), (["migrate", path], 0), (["check", self.write("none", "no")], 1),
                                  (["init", path, self.path("topology")], 1), (["fly"], 2), (["drill"], 0)):
            ended, count = refusing.ran(*arguments, given=lines)
            with self.subTest(arguments=arguments):
                self.assertEqual((ended.status, refusing.kept()), (status, 0))
                self.assertGreater(count, 0)

    def test_of_a_connection_and_its_lines(self) -> None:
        lines: list[Request] = [{"op": "show"}, {"op": "resend"}, b"x" * 600 + b"\n", b"{\n", b"\xff\n", {"op": "fly"}, {"op": "reset"},
                 {"op": "reset", "client": 1, "number": 2, "node": 1}, b"{"]

        def ask(server: Serving, _: int) -> None:
            with server.connect() as connection:
                connection.send(*lines)
                connection.socket.shutdown(socket.SHUT_WR)
                self.assertEqual(len(connection.rest()), len(lines))
        self.expect_no_more(PROGRAM, self.made(PAIR), ask)

    def test_of_views_of_64_nodes(self) -> None:
        """The server shows more than a thousand views of the maximum numbers of nodes and links, over connections that each ask
        for several."""
        def show(server: Serving, _: int) -> None:
            with server.connect() as connection:
                connection.send(*[{"op": "show"}] * 16)
                self.assertEqual([len(connection.reply()["nodes"]) for _ in range(16)], [64] * 16)
        self.expect_no_more(PROGRAM, self.write("store", stores.store(stores.longest_world(), version=2)), show)

    def test_of_a_connection_that_was_torn_off(self) -> None:
        """Its client resets it: in a line, before a reply, or before it was served."""
        lines = (b'{"op":', b'{"op":"show"}\n' * 20, b'{"op":"reset","client":1,"number":9,"node":1}\n' * 20)

        def leave(server: Serving, number: int) -> None:
            with server.connect() as connection:
                connection.socket.setsockopt(socket.SOL_SOCKET, socket.SO_LINGER, b"\1\0\0\0\0\0\0\0")
                connection.send({"op": "resend"})
                self.assertEqual(connection.reply()["kind"], "resent")
                connection.send(lines[number % 3])
            self.assertEqual(server.ask({"op": "resend"}), {"count": 0, "kind": "resent"})
        self.expect_no_more(PROGRAM, self.made(PAIR), leave, times=18)

    def test_of_signals_that_nobody_reads(self) -> None:
        """Once a line can't be printed, the later ones are not kept: the bytes are counted at the beginning of each instance."""
        self.needs("a C compiler", preloaded.has_compiler())
        refusing, store = Refusing(SHORT, self.folder), self.made(topology([(1, 1)]))
        kept = []
        with Piped(store, program=SHORT, env=self.environment(refusing)) as server:
            server.leave()
            for first in range(1, 40 * SHORT_STEPS, SHORT_STEPS):
                with server.connect() as connection:
                    numbers = range(first, first + SHORT_STEPS)
                    connection.send(*({"op": "reset", "client": 1, "number": each, "node": 1} for each in numbers))
                    self.assertEqual([connection.reply() for _ in numbers], [answered(FINISHED, 1 + each) for each in numbers])
                if first // SHORT_STEPS in (7, 39):
                    kept.append(self.count_kept(server, refusing.kept_bytes))
            self.assertEqual(server.close().status, 3)
        # the signals between the two moments take about 16 bytes each
        self.assertLess(kept[1] - kept[0], 32 * SHORT_STEPS * 8, kept)

    def test_of_orders_and_waves(self) -> None:
        def reset(server: Serving, number: int) -> None:
            self.assertEqual(server.order(number + 1, "reset", node=number % 2 + 1)["kind"], STARTED)
            server.await_quiet(number + 1)
            server.await_signals(2 * (number + 1))
        self.expect_no_more(PROGRAM, self.made(PAIR), reset)

    def test_of_connections_that_are_cut(self) -> None:
        """Each has more lines than an instance takes. Its descriptor is closed too."""
        orders, descriptors = 1, []

        def fill(server: Serving, _: int) -> None:
            nonlocal orders
            with server.connect() as connection:
                numbers = range(orders, orders + 3 * SHORT_STEPS)
                connection.send(*({"op": "reset", "client": 1, "number": each, "node": 1} for each in numbers))
                answers = connection.rest()
                self.assertLess(len(answers), len(numbers))
                orders += len(answers)
            descriptors.append(len(os.listdir(f"/proc/{server.process.pid}/fd")))
        self.expect_no_more(SHORT, self.made(topology([(1, 1)])), fill, times=6)
        self.assertLessEqual(descriptors[-1], descriptors[0] + 2, descriptors)

    def test_of_instances(self) -> None:
        """Each connection has its own instance."""
        def reset(server: Serving, number: int) -> None:
            with server.connect() as connection:
                numbers = range(number * SHORT_STEPS + 1, (number + 1) * SHORT_STEPS + 1)
                connection.send(*({"op": "reset", "client": 1, "number": each, "node": 1} for each in numbers))
                self.assertEqual([connection.reply() for _ in numbers], [answered(FINISHED, 1 + each) for each in numbers])
            server.await_signals(numbers[-1])
        self.expect_no_more(SHORT, self.made(topology([(1, 1)])), reset)
