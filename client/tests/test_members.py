"""Members, against a coordinator in memory: `python3 -m unittest discover -s client/tests`."""

from __future__ import annotations

import json
import os
import threading
import time
from collections.abc import Callable, Mapping
from contextlib import suppress
from unittest import mock

from case import Case, in_memory, over_both
from resetd_client import Clock, Follower, Member, Orders, OutOfRun, Port, Run, StoreWentBack, Stream, View, read
from resetd_client.fence import check_store
from resetd_client.member import MOST_REFUSED, is_one_run


class MemberCase(Case):
    """A ring of two nodes, and a member of node 1."""

    def setUp(self) -> None:
        super().setUp()
        self.server.ring(2)
        self.begun: list[int] = []

    def member(self, begun: int | None = None, name: str = "member") -> Member:
        return Member(self.port, self.orders(1, name, True), 1, begun, self.begun.append, told=self.messages.append)

    def rows(self) -> list[tuple[int, int]]:
        return [(self.server.row(node)[1], self.server.row(node)[2]) for node in (1, 2)]

    def look(self, member: Member) -> None:
        """Looks as often as a reset, which takes a while, requires."""
        for _ in range(10):
            member.look()
            self.server.await_settled()

    def confirm_other(self) -> None:
        self.server.by_somebody("confirm", node=2, epoch=self.server.row(2)[1])

    def in_a_run(self) -> Member:
        """Returns a member that talks with the other one."""
        member = self.member()
        self.look(member)
        self.confirm_other()
        self.look(member)
        self.assertIsNotNone(member.run)
        return member


class Members(MemberCase):
    def test_runs_of_two_epochs_are_two(self) -> None:
        """Two runs differ even if both have no tag."""
        self.assertTrue(is_one_run(Run(1, ""), Run(1, "")))
        self.assertFalse(is_one_run(Run(1, ""), Run(2, "")))

    def test_it_looks_seldom_while_its_node_is_not_there(self) -> None:
        """It looks often while others are not through."""
        member = self.member()
        self.look(member)
        self.assertLess(member.wait_seconds(30), 3)
        self.server.by_somebody("drop", a=1, b=2)
        self.server.by_somebody("remove", node=1)
        self.look(member)
        self.assertEqual(member.wait_seconds(30), 30)

    def test_a_reset_that_is_wanted_is_asked_for_once(self) -> None:
        member = self.in_a_run()
        member.reset("the count is wrong")
        for _ in range(3):
            self.look(member)
        self.assertEqual(self.rows()[0][0], 2)

    def test_its_tag_has_the_word_of_its_group(self) -> None:
        first = self.in_a_run()
        first.orders.close()
        member = Member(self.port, self.orders(1, "member", True), 1, first.begun, self.begun.append, word="word")
        self.look(member)
        assert member.run
        self.assertEqual(member.run.tag, self.port.show().tag(1, "word"))

    def test_it_remembers_no_more_refused_tags_than_a_group_has_members(self) -> None:
        member = self.in_a_run()
        for number in range(100):
            with suppress(OutOfRun), member.in_run(f"{number:032}-{number:032}"):
                self.fail("it took a message of another run")
        self.assertEqual(len(member._refused), MOST_REFUSED)

    def test_a_new_member_asks_for_a_reset(self) -> None:
        member = self.member()
        self.look(member)
        self.assertEqual((self.begun, self.rows(), member.run), ([1], [(1, 1), (1, 0)], None))

    def test_it_begins_and_confirms_the_shown_epoch(self) -> None:
        self.server.reset(1)
        self.server.reset(1)
        member = self.member()
        self.look(member)
        self.assertEqual((self.begun, self.rows()[0], member.run), ([2], (2, 2), None))
        self.confirm_other()
        self.look(member)
        self.assertIsNotNone(member.run)

    def test_it_goes_on_after_an_end(self) -> None:
        first = self.in_a_run()
        first.orders.close()
        again = self.member(first.begun)
        self.look(again)
        self.assertEqual((self.begun, again.run), ([1], first.run))

    @in_memory
    def test_a_restored_store_is_reset_until_its_party_is_new(self) -> None:
        """If a look at the program falls into a wave, the party is new for that moment: the member then begins there too."""
        member = self.in_a_run()
        copy = self.server.copy()
        for _ in range(3):
            self.server.reset(1)
            self.look(member)
            self.confirm_other()
            self.look(member)
        self.server.restore(copy)
        self.look(member)
        self.assertEqual((self.begun, self.rows()), ([1, 2, 3, 4, 5], [(5, 5), (5, 1)]))

    def test_one_reset_where_no_run_is_forgotten(self) -> None:
        """One reset is asked for, however far the epoch went back."""
        member = self.in_a_run()
        copy = self.server.copy()
        for _ in range(3):
            self.server.reset(1)
        self.look(member)
        self.server.restore(copy)
        self.look(member)
        self.assertEqual((self.begun, self.rows()), ([1, 4, 2], [(2, 2), (2, 1)]))

    @in_memory
    def test_a_copy_from_between_two_confirms(self) -> None:
        member = self.in_a_run()
        self.server.nodes[1][2] = 0
        self.look(member)
        self.assertEqual((self.begun, self.rows()[1]), ([1, 2], (2, 1)))

    def test_a_node_that_went_and_came_again(self) -> None:
        member = self.in_a_run()
        self.server.by_somebody("drop", a=1, b=2)
        self.server.by_somebody("remove", node=1)
        self.look(member)
        self.assertEqual((self.messages[-1], member.run), ("node 1 does not exist", None))
        self.server.by_somebody("add", node=1, group=1)
        self.look(member)
        self.assertEqual((self.begun, self.rows()[0], member.run), ([1, 1], (1, 1), Run(1, "")))
        self.server.by_somebody("join", a=1, b=2)
        self.look(member)
        self.assertEqual((self.begun, self.rows()), ([1, 1, 2], [(2, 2), (2, 1)]))

    def test_another_link_is_another_run(self) -> None:
        member = self.in_a_run()
        self.server.by_somebody("drop", a=1, b=2)
        self.server.by_somebody("join", a=1, b=2)
        self.look(member)
        self.assertEqual((self.begun, self.rows()[1]), ([1, 2], (2, 1)))

    @in_memory
    def test_a_death_between_begin_and_confirm_begins_twice(self) -> None:
        self.server.reset(1)
        member = self.member()
        assert isinstance(member.orders, Orders)
        member.orders.recover()
        self.server.faults = ["", "lose"]
        self.look(member)
        self.assertEqual(self.begun, [1])
        self.server.nodes[1][2] = 0
        member.orders.close()
        self.look(self.member(1))
        self.assertEqual((self.begun, self.rows()[0]), ([1, 1], (1, 1)))

    def test_a_reset_while_it_begins(self) -> None:
        def begin(epoch: int) -> None:
            self.begun.append(epoch)
            if len(self.begun) == 1:
                self.server.reset(1)
        self.server.reset(1)
        self.look(Member(self.port, self.orders(1, "m", True), 1, None, begin, told=self.messages.append))
        self.assertEqual((self.begun, self.rows()[0]), ([1, 2], (2, 2)))

    def test_a_confirm_that_meets_another_node_of_the_same_number(self) -> None:
        """No runs are mixed: the start that this confirms has not talked."""
        def begin(epoch: int) -> None:
            self.begun.append(epoch)
            if len(self.begun) == 2:
                for op, members in (("drop", {"a": 1, "b": 2}), ("remove", {"node": 1}), ("add", {"node": 1, "group": 1}),
                                    ("join", {"a": 1, "b": 2}), ("reset", {"node": 1}), ("reset", {"node": 1})):
                    self.server.by_somebody(op, **members)
        member = Member(self.port, self.orders(1, "m", True), 1, None, begin, told=self.messages.append)
        self.look(member)
        self.confirm_other()
        self.look(member)
        first = member.run
        self.server.reset(2)
        self.look(member)
        self.confirm_other()
        self.look(member)
        self.assertEqual((self.begun, self.rows()), ([1, 2], [(2, 2), (4, 4)]))
        self.assertTrue(first and member.run and first.tag != member.run.tag)

    def test_it_follows_until_its_input_ends(self) -> None:
        read, write = os.pipe()
        member = self.member()

        def after(view: View) -> None:
            if len(self.begun) == 1:
                self.server.reset(1)
                os.write(write, b"sig")
            elif len(self.begun) == 2:
                os.close(write)
                self.begun.append(99)
        member.follow(Stream(read), 30, after)
        os.close(read)
        self.assertEqual(self.begun, [1, 2, 99])

    def test_a_time_between_two_looks_passes(self) -> None:
        member = self.member()
        for seconds in (0.0, -1.0, float("nan")):
            self.assertRaises(ValueError, member.follow, Clock(), seconds)

    def test_it_can_be_stopped(self) -> None:
        for port in (self.port, Port("127.0.0.1:1")):
            orders = self.orders(1, f"of {port.addresses}")
            member = Member(port, orders, 1, None, self.begun.append, told=self.messages.append)
            thread = threading.Thread(target=member.follow, args=(Clock(), 30))
            thread.start()
            time.sleep(0.3)
            member.stop()
            thread.join(25)  # less than the time between two looks
            self.assertFalse(thread.is_alive())


class Kept(MemberCase):
    """What a member has on the disk before it acts."""

    def test_with_whom_a_start_first_talked_outlives_the_process(self) -> None:
        """This is so even if the next process finds another party."""
        first = self.in_a_run()
        first.orders.close()
        for op, members in (("add", {"node": 3, "group": 1}), ("join", {"a": 2, "b": 3}), ("reset", {"node": 1}),
                            ("confirm", {"node": 1, "epoch": 2}), ("confirm", {"node": 2, "epoch": 2}),
                            ("confirm", {"node": 3, "epoch": 1})):
            self.server.by_somebody(op, **members)
        again = self.member(first.begun)
        self.look(again)
        self.assertEqual(self.begun, [1, 3])

    def test_no_run_before_it_is_written_down(self) -> None:
        member = self.member()
        self.look(member)
        self.confirm_other()
        with mock.patch.object(member._shelf, "keep", side_effect=OSError("full")), suppress(OSError):
            member.look()
        self.assertIsNone(member.run)

    def test_no_confirm_before_the_begin_is_written_down(self) -> None:
        """Otherwise a death after the confirm would cost a reset."""
        kept: list[str | None] = []
        orders = self.orders()
        member = Member(self.port, orders, 1, None, self.begun.append, told=self.messages.append)
        confirm = member._confirm

        def note_and_confirm(epochs: Mapping[int, int], foresee: Callable[[View], None], view: View) -> None:
            kept.append(read(f"{orders.folder}/start-1.json"))
            confirm(epochs, foresee, view)

        with mock.patch.object(member, "_confirm", note_and_confirm):
            self.look(member)
        found = json.loads(kept[0] or "{}")["1"]
        self.assertEqual((found["begun"], found["party"], found["loaded"]), (None, None, 1))

    def test_a_death_in_a_begin(self) -> None:
        """The old work is still there, with an epoch that is used again and that another client confirms: it does not count as
        work."""
        def dies(epoch: int) -> None:
            raise ZeroDivisionError

        first = self.in_a_run()
        first.orders.close()
        for op, members in (("drop", {"a": 1, "b": 2}), ("remove", {"node": 1}), ("add", {"node": 1, "group": 1}),
                            ("join", {"a": 1, "b": 2}), ("reset", {"node": 1}), ("confirm", {"node": 2, "epoch": 2})):
            self.server.by_somebody(op, **members)
        dying = Member(self.port, self.orders(1, "member", True), 1, 1, dies, told=self.messages.append)
        self.assertRaises(ZeroDivisionError, dying.look)
        dying.orders.close()
        self.server.by_somebody("confirm", node=1, epoch=1)
        again = self.member(1)
        again.look()
        self.assertEqual((again.run, self.rows()[1][0]), (None, 3))


class Refusals(MemberCase):
    """Tags of other runs."""

    def other(self, member: Member, is_shown_the_same: bool) -> str:
        """Returns the tag of a start that first talked with a party that differs from the member's."""
        assert member.run
        shown = member.run.tag[33:] if is_shown_the_same else 32 * "e"
        return f"{32 * 'f'}-{shown}"

    def refuse(self, member: Member, tag: str) -> None:
        with self.assertRaises(OutOfRun), member.in_run(tag):
            self.fail("it was taken")

    def test_the_tag_is_that_of_the_first_party(self) -> None:
        """The member's messages are accepted while others leave, and so is a message from a member that was shown more or fewer
        nodes."""
        self.server.by_somebody("add", node=3, group=1)
        self.server.by_somebody("join", a=2, b=3)
        member = self.member()
        self.look(member)
        self.confirm_other()
        self.server.by_somebody("confirm", node=3, epoch=1)
        self.look(member)
        first = member.run
        self.server.by_somebody("drop", a=2, b=3)
        self.look(member)
        assert first and member.run
        self.assertEqual((first.tag[:33], len(member.run.tag)), (member.run.tag[:33], 65))
        self.assertNotEqual(first.tag, member.run.tag)
        with member.in_run(first.tag):
            pass
        self.assertEqual(self.begun, [1])

    def test_who_is_alone_takes_no_message(self) -> None:
        """A member that is alone does not accept a message of another lone member either."""
        self.server.by_somebody("drop", a=1, b=2)
        member = self.member()
        self.look(member)
        self.assertEqual(member.run, Run(1, ""))
        for tag in ("", "-", self.port.show().tag(2)):
            self.refuse(member, tag)
        with member.in_run() as run:
            self.assertEqual(run.tag, "")

    def test_two_that_refuse_each_other_ask_for_a_reset(self) -> None:
        """If both are shown the same party, both are up to date."""
        member = self.in_a_run()
        for same, begun in ((False, [1]), (True, [1, 2])):
            self.refuse(member, self.other(member, same))
            self.look(member)
            self.assertEqual(self.begun, begun)

    def test_a_resource_that_was_taken_by_its_own_group(self) -> None:
        """One reset is asked for, and none if the members that took the resource are not connected with this one, or it may no
        longer talk."""
        member = self.in_a_run()
        for takers, begun in (({7, 9}, [1]), ({2, 9}, [1, 2]), ({2, 9}, [1, 2])):
            member.note_overtaken(takers, self.port.show().settled)
            self.look(member)
            self.assertEqual(self.begun, begun)

    def test_a_resource_that_no_look_can_have_brought_so_far(self) -> None:
        """The store went back: a message names the generation with which the members have to be started. A reset would not
        help."""
        member = self.in_a_run()
        asked, settled = sum(order.get("op") == "reset" for order in self.server.seen), self.port.show().settled
        for count, message in ((settled + 1, f"--fence {settled + 1}`"),
                               (3 << 40, "generation 3 has used the resource, but this member has generation 0")):
            member.note_overtaken({2}, count)
            member.note_overtaken({2}, 0)
            with self.assertRaisesRegex(StoreWentBack, message):
                self.look(member)
        self.assertEqual((self.begun, sum(order.get("op") == "reset" for order in self.server.seen)), ([1], asked))

    def test_generations(self) -> None:
        for generation in (-1, 1 << 23):
            self.assertRaises(ValueError, Member, self.port, self.orders(1, f"{generation}"), 1, None, self.begun.append, generation=generation)
        self.in_a_run().orders.close()
        member = Member(self.port, self.orders(1, "member", True), 1, 1, self.begun.append, generation=2)
        self.look(member)
        assert member.fence
        self.assertEqual((member.fence.count >> 40, member.fence.nodes), (2, {1, 2}))
        settled = self.port.show().settled
        for count in ((1 << 40) + settled + 1, (2 << 40) + settled):
            member.note_overtaken({9}, count)
            self.look(member)
        member.note_overtaken({9}, (2 << 40) + settled + 1)
        self.assertRaises(StoreWentBack, self.look, member)
        check_store((2 << 40) + settled, 2, settled)

    def test_what_was_refused_before_the_last_look_counts_no_more(self) -> None:
        member = self.in_a_run()
        self.refuse(member, self.other(member, True))
        self.server.reset(2)
        self.look(member)
        self.confirm_other()
        self.look(member)
        self.assertEqual((self.begun, self.rows()[0]), ([1, 2], (2, 2)))


class InThread(MemberCase):
    """A member that follows in its own thread."""

    def expect(self, holds: Callable[[], bool]) -> None:
        until = time.monotonic() + 60
        while not holds():
            self.assertLess(time.monotonic(), until, self.messages)
            time.sleep(0.01)

    def followed(self, begin: Callable[[int], None] | None = None) -> Member:
        path = f"{self.folder}/signals"
        return Member(self.port, self.orders(1, "m", True), 1, None, begin or self.begun.append, told=self.messages.append,
                      wakes=Follower(path), every=600.0, on_run=self.runs.append)

    def setUp(self) -> None:
        super().setUp()
        self.runs: list[Run | None] = []

    def test_it_begins_and_ends_with_its_block(self) -> None:
        with self.followed() as member:
            self.expect(lambda: self.begun == [1])
            self.confirm_other()
            self.expect(lambda: member.run is not None)
            threads = [thread.name for thread in threading.enumerate()]
        self.assertIn("member 1", threads)
        self.assertNotIn("member 1", [thread.name for thread in threading.enumerate()])
        self.assertEqual((len(self.runs), self.runs[1], member.run), (2, None, None))

    def test_a_reset_from_another_thread(self) -> None:
        """One reset is asked for at once."""
        with self.followed() as member:
            self.expect(lambda: self.begun == [1])
            self.confirm_other()
            self.expect(lambda: member.run is not None)
            asked = sum(order.get("op") == "reset" for order in self.server.seen)
            member.reset("the count is wrong")
            self.expect(lambda: self.begun == [1, 2])
            self.assertEqual(sum(order.get("op") == "reset" for order in self.server.seen), asked + 1)
        self.assertTrue(any("the count is wrong" in text for text in self.messages), self.messages)
        self.assertEqual([run.epoch if run else None for run in self.runs], [1, None])

    def test_what_ends_its_thread_is_raised_at_the_end(self) -> None:
        """The exception also ends the run. An exception that the body raises comes first."""
        def begin(epoch: int) -> None:
            raise ZeroDivisionError

        with self.assertRaises(ZeroDivisionError), self.followed(begin) as member:
            self.expect(lambda: any("has stopped following" in text for text in self.messages))
            with self.assertRaises(ZeroDivisionError), member.in_run():
                self.fail("there is no run")
        member.orders.close()
        with self.assertRaises(KeyError), self.followed(begin):
            raise KeyError

    def looks(self) -> int:
        return len([order for order in self.server.seen if order.get("op") == "show"])

    def test_it_looks_soon_after_it_refused_a_tag(self) -> None:
        """Nothing else wakes it."""
        with self.followed() as member:
            self.expect(lambda: self.begun == [1])
            self.confirm_other()
            self.expect(lambda: member.run is not None)
            looks = self.looks()
            with suppress(OutOfRun), member.in_run(f"{1:032}-{1:032}"):
                self.fail("it took a message of another run")
            self.expect(lambda: self.looks() > looks)

    def test_a_run_is_reported_once(self) -> None:
        """It is called once, however often the member looks, and even if others leave."""
        with self.followed() as member:
            self.expect(lambda: self.begun == [1])
            self.confirm_other()
            self.expect(lambda: member.run is not None)
            for _ in range(3):
                member.look()
        self.assertEqual([run.epoch if run else None for run in self.runs], [1, None])

    def test_what_ends_its_thread_ends_its_run(self) -> None:
        with self.assertRaises(ZeroDivisionError), self.followed() as member:
            self.expect(lambda: self.begun == [1])
            self.confirm_other()
            self.expect(lambda: member.run is not None)
            with mock.patch.object(member.port, "show", side_effect=ZeroDivisionError):
                member.reset("so that it looks")
                self.expect(lambda: any("has stopped following" in text for text in self.messages))
                self.expect(lambda: member.run is None)


class Runs(MemberCase):
    def test_a_message_of_another_run_is_not_taken(self) -> None:
        member = self.in_a_run()
        assert member.run
        with member.in_run(member.run.tag) as run:
            self.assertEqual(run.epoch, 1)
        with self.assertRaises(OutOfRun), member.in_run("another"):
            self.fail("it was taken")
        self.server.reset(2)
        self.look(member)
        with self.assertRaises(OutOfRun), member.in_run(run.tag):
            self.fail("it was taken")

    def test_at_a_message_of_another_run_it_looks(self) -> None:
        member = self.in_a_run()
        looks = threading.Semaphore(0)
        following = threading.Thread(target=member.follow, args=(Clock(), 30, lambda _: looks.release()))
        following.start()
        self.assertTrue(looks.acquire(timeout=25))
        with self.assertRaises(OutOfRun), member.in_run("another"):
            self.fail("it was taken")
        self.assertTrue(looks.acquire(timeout=25))
        self.assertFalse(looks.acquire(timeout=0.5))
        member.stop()
        following.join()

    def test_a_begin_waits_for_work_of_the_run(self) -> None:
        member = self.in_a_run()
        self.server.reset(2)
        with member.in_run():
            looking = threading.Thread(target=member.look)
            looking.start()
            time.sleep(0.3)
            self.assertEqual(self.begun, [1])
        looking.join()
        self.assertEqual(self.begun, [1, 2])

    def test_a_begin_is_written_down_before_work_is_dropped(self) -> None:
        """The start has nobody to talk with yet, so a death during the begin is detected."""
        kept: list[str | None] = []
        orders = self.orders()
        member = Member(self.port, orders, 1, None, lambda epoch: kept.append(read(f"{orders.folder}/start-1.json")),
                        told=self.messages.append)
        self.server.reset(1)
        self.look(member)
        self.assertEqual(json.loads(kept[0] or "{}").get("1", {"begun": None, "party": None}), {"begun": None, "party": None})

    def test_who_waits_for_a_run_is_woken_by_it(self) -> None:
        member = self.member()
        self.look(member)
        self.confirm_other()
        looking = threading.Timer(0.3, member.look)
        looking.start()
        began = time.monotonic()
        with member.in_run(wait=120):
            self.assertLess(time.monotonic() - began, 60)
        looking.join()

    def test_how_often_it_looks_while_others_are_not_through(self) -> None:
        """At first it looks soon, and then less often, but never as seldom as when all are through."""
        member = self.member()
        self.look(member)
        waits = [member.wait_seconds(30.0) for _ in range(40)]
        self.assertLess(waits[0], 0.2)
        self.assertEqual(waits, sorted(waits))
        self.assertTrue(1.0 < waits[-1] < 3.0, waits[-1])
        self.server.reset(2)
        self.look(member)
        self.assertLess(member.wait_seconds(30.0), 0.2)
        self.confirm_other()
        self.look(member)
        self.assertEqual(member.wait_seconds(30.0), 30.0)

    def test_it_waits_for_a_run(self) -> None:
        member = self.member()
        self.look(member)
        with self.assertRaises(OutOfRun), member.in_run(wait=0.1):
            self.fail("there is no run")
        self.confirm_other()
        looking = threading.Timer(0.2, member.look)
        looking.start()
        with member.in_run(wait=60) as run:
            self.assertEqual(run, member.run)
        looking.join()


load_tests = over_both
