"""Gateways, against a coordinator in memory: `python3 -m unittest discover -s client/tests`."""

from __future__ import annotations

import json
import math
import os
import shutil
import tempfile
import threading
import time
import unittest
from collections.abc import Callable
from typing import Any
from unittest import mock

from case import Case, in_memory, over_both
from pushing import of_unix
from resetd_client import AtFront, Away, BadWords, Clock, Gateway, Port, Served, View, Wake, keep, patiently, read
from resetd_client.following import DOUBT_SECONDS
from resetd_client.files import put
from resetd_client.gateway import GATHER_SECONDS
from resetd_client.seats import Board, Seat
from resetd_client.since import boot_name


class UntilEnded:
    """Wake-ups that only bring the end, so that nothing is written any more when the folder is removed."""

    def __init__(self) -> None:
        self.ended = threading.Event()

    def wait(self, seconds: float) -> Wake:
        return Wake.END if self.ended.wait(seconds) else Wake.QUIET


class Seats(unittest.TestCase):
    """A member behind a gateway, from either side."""

    def setUp(self) -> None:
        temporary = tempfile.TemporaryDirectory()
        self.addCleanup(temporary.cleanup)
        self.folder = temporary.name
        self.board = Board(self.folder)
        self.seat, self.served = Seat(f"{self.folder}/1"), Served(f"{self.folder}/1")

    def write(self, name: str, text: str) -> None:
        keep(f"{self.folder}/{name}", text)

    def instruct(self, instruction: str, run: str = "") -> None:
        """Writes the member's instruction between those of two others."""
        self.board.publish(f"0 7 7 x-y {boot_name()}\n1 {instruction}{run}\n11 8 8\n")

    def begin(self, instruction: str) -> None:
        self.instruct(instruction)
        self.served.wanted()
        self.served.has_begun()

    def test_the_instructions_to_one_member(self) -> None:
        self.assertIsNone(self.served.wanted())
        self.begin("3 1")
        self.assertEqual((self.served.wanted(), self.seat.has_begun("3 1\n"), self.seat.has_begun("3 2\n")), (None, True, False))
        self.instruct("3 2")
        self.assertEqual(self.served.wanted(), 3)

    def test_it_is_instructed_in_one_write(self) -> None:
        """Nothing is written if nothing is new."""
        with mock.patch("os.replace", side_effect=os.replace) as replaced, mock.patch("os.fsync") as synced:
            for _ in range(3):
                self.instruct("1 1", f" a-b {boot_name()}")
        self.assertEqual((replaced.call_count, synced.call_count), (1, 0))

    def test_a_member_that_is_instructed_again_while_it_begins(self) -> None:
        self.instruct("1 1")
        self.assertEqual(self.served.wanted(), 1)
        self.instruct("2 2")
        self.served.has_begun()
        self.assertEqual((self.seat.has_begun("2 2\n"), self.served.wanted()), (False, 2))

    def test_work_goes_down_with_what_is_begun(self) -> None:
        """They are in one file, whole and on the disk: the file and its folder are synced."""
        self.assertIsNone(self.served.work())
        self.instruct("1 1")
        self.served.wanted()
        with mock.patch("os.fsync", side_effect=os.fsync) as synced:
            self.served.has_begun("some\nwork\n")
        self.assertEqual((synced.call_count, self.served.work(), self.served.wanted()), (2, "some\nwork\n", None))
        self.assertEqual((self.seat.has_begun("1 1\n"), self.seat.number, read(f"{self.folder}/1/begun")), (True, 1, "1 1\nsome\nwork\n"))
        self.instruct("1 1", f" tag {boot_name()}")
        self.assertEqual(self.served.tag(), "tag")
        self.served.has_lost()
        self.assertEqual((self.seat.has_lost("1 1\n"), self.served.work(), self.served.tag()), (True, None, None))

    def test_what_is_lost_is_lost_once(self) -> None:
        """The loss also removes the work."""
        self.instruct("1 1")
        self.served.wanted()
        self.served.has_begun("work\n")
        for _ in range(2):
            self.served.has_lost()
            self.assertEqual(read(f"{self.folder}/1/begun"), "lost 1 1\n")

    def test_what_was_lost_before_it_was_begun(self) -> None:
        """The member still has to begin."""
        self.instruct("1 1")
        self.served.has_lost()
        self.assertEqual((self.seat.has_lost("1 1\n"), self.served.wanted()), (False, 1))
        self.begin("1 2")
        self.instruct("1 3")
        self.served.has_lost()
        self.assertEqual((self.seat.has_lost("1 3\n"), self.served.wanted()), (False, 1))

    def test_the_same_epoch_may_be_instructed_again(self) -> None:
        """The number is greater, and nothing else differs."""
        for number in range(1, 12):
            self.begin(f"1 {number}")
            self.assertEqual((self.served.wanted(), self.seat.has_begun(f"1 {number}\n"), self.seat.number), (None, True, number))

    def test_a_tag_is_that_of_the_start(self) -> None:
        """The tag belongs to the epoch that the member has begun, not to one that it has to begin or has lost. It is valid only
        in this boot and in a complete line."""
        self.begin("1 1")
        self.instruct("1 1", f" a-b {boot_name()}")
        self.assertEqual(self.served.tag(), "a-b")
        for line in (f"1 2 a-b {boot_name()}\n", f"1 1 a-b {boot_name()}", f"1 1 - {boot_name()}\n", "1 1 a-b\n", "1 1 a-b another\n", "1 1\n"):
            self.write("told/members", f"1 {line}")
            self.assertIsNone(self.served.tag(), line)
        self.write("told/members", "")
        self.assertEqual((self.served.tag(), self.served.wanted()), (None, None))
        self.instruct("1 1", f" a-c {boot_name()}")
        self.assertEqual(self.served.tag(), "a-c")
        self.served.has_lost()
        self.assertIsNone(self.served.tag())

    def test_a_power_cut_before_begun(self) -> None:
        """The work is on the disk, `begun` is not, and the instruction is unchanged. The new work must not talk in the old
        work's run."""
        self.begin("1 1")
        self.instruct("1 1", f" a-b {boot_name()}")
        before = read(f"{self.folder}/told/members") or ""
        self.instruct("1 2")
        self.assertEqual(self.served.wanted(), 1)
        self.write("told/members", before)
        with mock.patch("resetd_client.seats.boot_name", return_value="the next boot"):
            again = Served(f"{self.folder}/1")
            self.assertEqual((again.wanted(), again.tag()), (None, None))

    def test_a_power_cut_after_begun(self) -> None:
        """An old text of the instructions asks for nothing, and gives the new start no run. A torn text does the same."""
        self.begin("1 1")
        self.instruct("1 1", f" a-b {boot_name()}")
        old = read(f"{self.folder}/told/members") or ""
        self.begin("1 2")
        for text in (old, old[:len(old) // 2], ""):
            self.write("told/members", text)
            self.assertEqual((self.served.wanted(), self.served.tag()), (None, None))

    def test_what_is_refused_is_reported(self) -> None:
        self.begin("1 1")
        self.assertEqual((self.served.takes("a-c"), self.seat.take_refused()), (False, None))
        self.instruct("1 1", f" a-b {boot_name()}")
        self.assertEqual((self.served.takes("a-c"), self.seat.take_refused()), (True, None))
        self.assertEqual((self.served.takes("x-c"), self.seat.take_refused(), self.seat.take_refused()), (False, "x-c", None))

    def test_a_refused_tag_that_replaces_another_one_as_that_is_taken(self) -> None:
        """No tag is lost."""
        self.begin("1 1")
        self.instruct("1 1", f" a-b {boot_name()}")
        self.served.takes("x-c")
        later = ["y-d"]

        def read_as_another_comes(path: str) -> str | None:
            text = read(path)
            if "refused" in path and later:
                put(f"{self.folder}/1/refused", f"{later.pop()}\n")
            return text
        with mock.patch("resetd_client.files.read", read_as_another_comes):
            taken = self.seat.take_refused()
        self.assertEqual((taken, self.seat.take_refused(), self.seat.take_refused()), ("x-c", "y-d", None))

    def test_a_wait_ends_with_a_change(self) -> None:
        """A change before the wait ends it too."""
        self.instruct("1 1")
        began = time.monotonic()
        self.served.wait(120)
        timer = threading.Timer(0.2, self.instruct, ["1 2"])
        timer.start()
        self.served.wait(120)
        timer.join()
        self.assertLess(time.monotonic() - began, 60)
        self.assertEqual(self.served.wanted(), 1)

    def test_what_an_earlier_gateway_left(self) -> None:
        """An earlier gateway instructed each member in separate files. They are removed, and their number is the least one
        allowed."""
        for name, text in (("run", "1 tag 9 boot\n"), ("wanted", "1 9\n"), ("begun", "1 4\n")):
            self.write(f"1/{name}", text)
        with self.assertLogs("resetd_client", "WARNING") as logs:
            Served(f"{self.folder}/1")
        self.assertIn("the gateway is of an earlier version", logs.output[0])
        seat = Seat(f"{self.folder}/1")
        self.assertEqual((seat.is_earlier, seat.number, sorted(os.listdir(f"{self.folder}/1"))), (True, 9, ["begun"]))

    def test_names(self) -> None:
        for name in ("told", "a b", "a\tb"):
            self.assertRaises(BadWords, Seat, f"{self.folder}/{name}")


class Gateways(Case):
    def setUp(self) -> None:
        super().setUp()
        self.server.ring(3)
        self.gateway = self.gateway_of("first")

    def gateway_of(self, name: str) -> Gateway:
        self.book = self.orders(5, "book")
        return Gateway(self.port, self.book, {1: ["1"], 2: ["2"], 3: ["3"]}, f"{self.folder}/members",
                       told=self.messages.append)

    def restarted(self) -> Gateway:
        self.book.close()
        return self.gateway_of("next")

    def begin(self, node: int) -> int | None:
        served = Served(f"{self.folder}/members/{node}")
        epoch = served.wanted()
        if epoch is not None:
            served.has_begun()
        return epoch

    def instruction_to(self, node: int) -> str:
        """Returns the instruction to the member."""
        lines = (read(f"{self.folder}/members/told/members") or "").splitlines()
        return next(line.partition(" ")[2] for line in lines if line.startswith(f"{node} "))

    def look(self) -> None:
        """Looks as often as a reset, which takes a while, requires."""
        for _ in range(5):
            self.gateway.look()
            self.server.await_settled()

    def all_begin(self) -> list[int | None]:
        self.look()
        begun = [self.begin(node) for node in (1, 2, 3)]
        self.look()
        return begun

    def rows(self) -> list[tuple[int, int]]:
        return [(self.server.row(node)[1], self.server.row(node)[2]) for node in (1, 2, 3)]

    def tags(self) -> set[str | None]:
        return {Served(f"{self.folder}/members/{node}").tag() for node in (1, 2, 3)}

    def test_members_begin_and_are_confirmed(self) -> None:
        self.assertEqual((self.all_begin(), self.rows()), ([1, 1, 1], [(1, 1)] * 3))
        first = self.tags()
        self.server.reset(2)
        self.assertEqual((self.all_begin(), self.rows()), ([2, 2, 2], [(2, 2)] * 3))
        self.assertEqual((len(first), len(first | self.tags()), None in first), (1, 2, False))
        self.assertEqual(self.all_begin(), [None, None, None])

    def test_one_member_holds_the_others(self) -> None:
        self.all_begin()
        self.server.reset(2)
        self.look()
        self.begin(1)
        self.look()
        self.assertEqual((self.rows(), self.tags()), ([(2, 2), (2, 1), (2, 1)], {None}))

    def test_a_node_that_went_and_came_again(self) -> None:
        self.all_begin()
        for op, members in (("drop", {"a": 1, "b": 2}), ("drop", {"a": 2, "b": 3}), ("remove", {"node": 2}),
                            ("add", {"node": 2, "group": 1}), ("join", {"a": 1, "b": 2}), ("join", {"a": 2, "b": 3})):
            self.server.by_somebody(op, **members)
        self.assertEqual((self.all_begin(), self.rows()), ([2, 1, 2], [(2, 2), (1, 1), (2, 2)]))

    def test_a_gateway_that_starts_again(self) -> None:
        self.look()
        self.begin(1)
        self.gateway = self.restarted()
        self.assertEqual(self.all_begin(), [1, 1, 1])
        self.gateway = self.restarted()
        self.assertEqual(self.all_begin(), [None, None, None])

    def test_a_gateway_that_starts_again_goes_on(self) -> None:
        """It continues in the previous run: its stored state is the one that its members have begun."""
        self.all_begin()
        tags = self.tags()
        self.gateway = self.restarted()
        self.assertEqual((self.all_begin(), self.tags(), None in tags), ([None] * 3, tags, False))

    def test_its_instructions_go_down_once_for_all(self) -> None:
        """A begin, its confirmation and a first talk need as many syncs for three members as for one."""
        counts: list[int] = []
        sync = os.fsync

        def note_sync(descriptor: int) -> None:
            name = os.readlink(f"/proc/self/fd/{descriptor}")
            counts[-1] += name.startswith(f"{self.folder}/members") and not name.startswith(f"{self.folder}/members/book")
            sync(descriptor)

        self.all_begin()
        self.server.reset(1)
        with mock.patch("os.fsync", note_sync), mock.patch("os.fdatasync", note_sync):
            for _ in range(3):
                counts.append(0)
                self.gateway.look()
                self.server.await_settled()
                with mock.patch("os.fsync", sync):
                    for node in (1, 2, 3):
                        self.begin(node)
        self.assertEqual((counts, len(self.tags()), None in self.tags()), ([2, 1, 0], 1, False))

    def test_what_is_begun_while_it_looks(self) -> None:
        """A begun epoch is stored before it is confirmed."""
        instruct, confirm = self.gateway._instruct_members, self.gateway._confirm

        def instruct_and_begin(*arguments: Any) -> None:
            instruct(*arguments)
            for node in (1, 2, 3):
                self.begin(node)

        def compare_and_confirm(epochs: dict[int, int], foresee: Callable[[View], None], view: View) -> None:
            kept = json.loads(read(f"{self.folder}/members/starts.json") or "{}")
            self.assertEqual({node: kept[str(node)]["loaded"] for node in epochs}, epochs)
            confirm(epochs, foresee, view)

        with mock.patch.object(self.gateway, "_instruct_members", instruct_and_begin), \
                mock.patch.object(self.gateway, "_confirm", compare_and_confirm):
            self.look()
        self.assertEqual(self.rows(), [(1, 1)] * 3)

    def test_what_somebody_else_confirms(self) -> None:
        """It is a run if the gateway's members have begun that epoch. No instruction for the same epoch is repeated."""
        self.look()
        for node in (1, 2, 3):
            self.begin(node)
            self.server.by_somebody("confirm", node=node, epoch=1)
        self.assertEqual((self.all_begin(), self.all_begin(), len(self.tags()), None in self.tags()), ([None] * 3, [None] * 3, 1, False))
        for op, members in (("drop", {"a": 1, "b": 2}), ("drop", {"a": 2, "b": 3}), ("remove", {"node": 2}),
                            ("add", {"node": 2, "group": 1}), ("reset", {"node": 2})):
            self.server.by_somebody(op, **members)
        self.assertEqual((self.all_begin(), self.rows()), ([None, 1, None], [(1, 1)] * 3))

    def test_the_greatest_number_is_published(self) -> None:
        """This is so even if the gateway's own file is missing, or those of its members."""
        self.all_begin()
        self.assertTrue(self.instruction_to(1).startswith("1 1 "))
        self.book.close()
        for name in ("starts.json", "starts.history"):
            os.remove(f"{self.folder}/members/{name}")
        self.gateway = self.gateway_of("next")
        self.assertEqual((self.all_begin(), self.rows()), ([2, 2, 2], [(2, 2)] * 3))
        self.assertTrue(self.instruction_to(1).startswith("2 2 "))
        for node in (1, 2, 3):
            shutil.rmtree(f"{self.folder}/members/{node}")
        self.assertEqual(self.all_begin(), [3, 3, 3])
        self.assertTrue(self.instruction_to(1).startswith("3 3 "))

    def test_a_file_of_an_earlier_version(self) -> None:
        """All begin again after one reset, and earlier begins of members do not count for it."""
        self.all_begin()
        self.book.close()
        party = sorted(self.port.show().party(1))
        keep(f"{self.folder}/members/starts.json", json.dumps({str(node): {"epoch": 1, "party": party} for node in (1, 2, 3)}) + "\n")
        for node in (1, 2, 3):
            for name in ("wanted", "begun"):
                keep(f"{self.folder}/members/{node}/{name}", "1 0123456789abcdef\n")
        self.gateway = self.gateway_of("next")
        self.assertEqual((self.all_begin(), self.rows()), ([2, 2, 2], [(2, 2)] * 3))

    def test_the_tag_is_that_of_the_first_party(self) -> None:
        self.all_begin()
        [first] = self.tags()
        self.server.by_somebody("drop", a=2, b=3)
        self.look()
        tags = [Served(f"{self.folder}/members/{node}").tag() or "" for node in (1, 2, 3)]
        self.assertEqual({tag[:33] for tag in tags}, {(first or "")[:33]})
        self.assertEqual((tags[0] == tags[1], tags[0] == first, tags[2] == first), (True, False, False))
        self.assertTrue(Served(f"{self.folder}/members/1").takes(first or ""))

    def test_the_word_of_a_group_is_in_its_tag(self) -> None:
        self.book.close()
        self.gateway = Gateway(self.port, self.orders(5, "book"), {1: ["1"], 2: ["2"], 3: ["3"]}, f"{self.folder}/members",
                               word="word", told=self.messages.append)
        self.all_begin()
        self.assertEqual(self.tags(), {self.port.show().tag(1, "word")})

    def test_a_node_that_is_alone_has_no_tag(self) -> None:
        self.all_begin()
        for a, b in ((1, 2), (2, 3)):
            self.server.by_somebody("drop", a=a, b=b)
        for node in (1, 2, 3):
            self.server.reset(node)
        self.assertEqual((self.all_begin(), self.tags()), ([2, 2, 2], {None}))
        self.assertEqual(self.instruction_to(1), f"2 2 - {boot_name()}")

    def test_a_run_ends_where_somebody_comes(self) -> None:
        """It ends before any member is instructed to begin."""
        self.all_begin()
        self.server.by_somebody("add", node=9, group=1)
        self.server.by_somebody("join", a=3, b=9)
        with mock.patch.object(self.gateway, "_order_what_is_due", return_value=False):
            self.gateway.look()
        self.assertEqual(self.tags(), {None})

    def test_what_a_member_writes_brings_a_look(self) -> None:
        """A look follows at once when the member has begun, and soon after it has refused a tag. The gateway's own writes wake
        nobody."""
        self.look()
        self.assertEqual(self.gateway._sooner(7.0), math.inf)
        self.begin(1)
        now = time.monotonic()
        self.assertTrue(now < self.gateway._sooner(7.0) < time.monotonic() + GATHER_SECONDS)  # the gateway waits for the other members
        for node in (2, 3):
            self.begin(node)
        self.assertTrue(now < self.gateway._sooner(7.0) < time.monotonic())
        self.all_begin()
        self.gateway._changes.take()
        self.gateway._written = set()
        Served(f"{self.folder}/members/2").takes("another")
        self.assertEqual([self.gateway._sooner(7.0) for _ in range(2)], [7.0 + DOUBT_SECONDS] * 2)
        self.look()
        self.gateway._written = set()
        self.assertEqual(self.gateway._sooner(7.0), math.inf)

    def test_a_refused_tag(self) -> None:
        """A reset is asked for only if the sender of the tag was shown the same view."""
        self.all_begin()
        served = Served(f"{self.folder}/members/2")
        own = served.tag() or ""
        for shown, begun in ((32 * "e", None), (own[33:], 2)):
            self.assertFalse(served.takes(f"{32 * 'f'}-{shown}"))
            self.assertEqual(self.all_begin(), [begun] * 3)

    @in_memory
    def test_a_tag_that_was_refused_beside_a_run_that_is_over(self) -> None:
        self.all_begin()
        desk, own = self.gateway.desks[1], Served(f"{self.folder}/members/2").tag() or ""
        desk.tag = None
        keep(f"{self.folder}/members/2/refused", f"{32 * 'f'}-{own[33:]}\n")
        self.assertFalse(desk.is_parted())

    def test_nothing_is_published_before_it_is_kept(self) -> None:
        with mock.patch.object(self.gateway._shelf, "keep", side_effect=OSError("full")):
            for _ in range(3):
                self.server.reset(1)
                self.assertRaises(OSError, self.gateway.look)
        self.assertEqual([self.begin(node) for node in (1, 2, 3)], [None] * 3)

    def test_a_reset_while_its_members_begin(self) -> None:
        """They are instructed to begin the new epoch, although they have not begun the previous one."""
        self.look()
        epoch = self.rows()[0][0]
        self.server.reset(1)
        self.assertEqual(self.all_begin(), [epoch + 1] * 3)

    @in_memory
    def test_it_looks_again_after_it_asked_for_a_reset(self) -> None:
        """So the same look instructs its members to begin the new epoch."""
        self.gateway.look()
        self.assertEqual([self.begin(node) for node in (1, 2, 3)], [1] * 3)

    @in_memory
    def test_a_node_that_is_not_there_is_not_through(self) -> None:
        """So the gateway looks again soon."""
        self.all_begin()
        self.assertTrue(self.gateway._is_through)
        for a, b in ((1, 2), (2, 3)):
            self.server.by_somebody("drop", a=a, b=b)
        self.server.by_somebody("remove", node=2)
        self.look()
        self.assertFalse(self.gateway._is_through)

    def test_a_reset_that_is_asked_for_again_is_reported_again(self) -> None:
        for times in (1, 2):
            self.all_begin()
            Served(f"{self.folder}/members/2").has_lost()
            self.look()
            self.assertEqual(len([text for text in self.messages if text.startswith("node 2: ")]), times, self.messages)

    @in_memory
    def test_a_confirmed_epoch_that_it_never_published(self) -> None:
        self.all_begin()
        self.server.nodes[3] = [1, 5, 5]
        self.assertEqual(self.all_begin(), [2, 2, 6])

    def test_work_that_was_lost(self) -> None:
        self.all_begin()
        served = Served(f"{self.folder}/members/2")
        served.has_lost()
        self.assertEqual((served.wanted(), served.tag()), (None, None))
        self.assertEqual((self.all_begin(), self.rows()), ([2, 2, 2], [(2, 2)] * 3))
        self.server.reset(1)
        self.look()
        self.assertEqual(self.begin(2), 3)
        served.has_lost()
        self.assertEqual(self.all_begin(), [3, 3, 3])
        shutil.rmtree(f"{self.folder}/members/3")
        self.assertEqual((self.all_begin(), self.rows()), ([4, 4, 4], [(4, 4)] * 3))

    def test_all_members_of_a_node_begin_before_it_is_confirmed(self) -> None:
        self.book.close()
        self.gateway = Gateway(self.port, self.orders(5, "book"), {1: ["1", "2"], 3: ["3"]}, f"{self.folder}/members",
                               told=self.messages.append)
        self.look()
        self.begin(1)
        self.look()
        self.assertEqual(self.rows()[0], (1, 0))
        self.begin(2)
        self.look()
        self.assertEqual(self.rows()[0], (1, 1))

    def test_it_waits_for_its_members(self) -> None:
        wakes = UntilEnded()
        thread = threading.Thread(target=self.gateway.follow, args=(wakes, 0.2), daemon=True)
        thread.start()
        patiently(self._expect_confirmed, 300)
        wakes.ended.set()
        thread.join(20)
        self.assertFalse(thread.is_alive())

    @in_memory
    def test_it_rests_once_all_have_begun(self) -> None:
        """A member's write causes one look, not repeated ones."""
        wakes = UntilEnded()
        thread = threading.Thread(target=self.gateway.follow, args=(wakes, 600.0), daemon=True)
        thread.start()
        patiently(self._expect_confirmed, 300)
        patiently(self._expect_talk, 300)
        looks = self.looks()
        time.sleep(0.5)
        self.assertLess(self.looks() - looks, 10)
        wakes.ended.set()
        thread.join(20)

    def looks(self) -> int:
        return len([order for order in self.server.seen if order.get("op") == "show"])

    def test_it_looks_often_again_once_it_has_ordered_something(self) -> None:
        self.gateway._waits = 9
        self.gateway.look()
        self.assertLess(self.gateway._waits, 9)

    def _expect_talk(self) -> None:
        if None in self.tags():
            raise Away("not yet")

    def _expect_confirmed(self) -> None:
        for node in (1, 2, 3):
            self.begin(node)
        if [row[1] for row in self.rows()] != [1, 1, 1]:
            raise Away("not yet")

    def test_it_can_be_stopped(self) -> None:
        thread = threading.Thread(target=self.gateway.follow, args=(Clock(), 30))
        thread.start()
        self.gateway.stop()
        thread.join(5)
        self.assertFalse(thread.is_alive())


class AtAFront(Case):
    """A gateway with its orders, looks and wake-ups over one connection."""

    def setUp(self) -> None:
        super().setUp()
        self.server.ring(3)
        path = f"{self.folder}/proxy"
        self.proxy = of_unix(self.server, path)
        self.addCleanup(self.proxy.close)
        self.at_proxy = AtFront(Port(f"unix:{path}", 30), f"{self.folder}/members")
        self.addCleanup(self.at_proxy.close)
        self.gateway = Gateway(self.at_proxy.port, self.at_proxy, {node: [f"{node}"] for node in (1, 2, 3)}, f"{self.folder}/members",
                               told=self.messages.append)
        self.following = threading.Thread(target=self.gateway.follow, args=(self.at_proxy, 3_600.0), daemon=True)
        self.following.start()
        self.addCleanup(self.end)

    def end(self) -> None:
        self.gateway.stop()
        self.following.join(60)

    def expect(self, holds: Callable[[], bool]) -> None:
        until = time.monotonic() + 60
        while not holds():
            self.assertLess(time.monotonic(), until, self.messages)
            time.sleep(0.002)

    def begin_all(self, epoch: int) -> None:
        served = [Served(f"{self.folder}/members/{node}") for node in (1, 2, 3)]
        for each in served:
            self.expect(lambda: each.wanted() == epoch)
            each.has_begun(is_synced=False)
        self.expect(lambda: len({each.tag() for each in served}) == 1 and served[0].tag() is not None)

    def test_resets(self) -> None:
        """Its members are confirmed together, and their files cause no request to the server: the proxy pushes each change."""
        self.begin_all(1)
        shows = [request for request in self.server.seen if request["op"] == "show"]
        for epoch in (2, 3):
            self.server.by_somebody("reset", node=2)
            self.proxy.push()
            self.begin_all(epoch)
        self.assertEqual([request for request in self.server.seen if request["op"] == "show"], shows)
        self.assertEqual([order["node"] for order in self.proxy.ordered if order["op"] == "confirm"], [1, 2, 3] * 3)
        self.assertFalse(os.path.exists(f"{self.folder}/members/order.json"))

    def test_syncs_of_a_reset(self) -> None:
        """Two for the instructions to begin, and one for the history. All members are instructed in two writes."""
        self.begin_all(1)
        synced = list[int]()
        with mock.patch("os.fsync", side_effect=synced.append), mock.patch("os.fdatasync", side_effect=synced.append):
            self.server.by_somebody("reset", node=2)
            self.proxy.push()
            self.begin_all(2)
        self.assertEqual(len(synced), 3)


load_tests = over_both
