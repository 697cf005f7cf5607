"""A member's orders and wake-ups at a proxy, over one connection: a socket of this host, and TLS."""

from __future__ import annotations

import asyncio
import os
import shutil
import tempfile
import time
import unittest
from collections.abc import Callable
from contextlib import suppress
from unittest import mock

from case import Case  # first: it adds the library to the path
from pushing import Pushing, make_certificates, of_tls, of_unix
from resetd_client import (AtFront, Away, BadWords, Credentials, EarlierFront, Faulted, Garbled, Held, Member, NotTaken, Port, Refusal, Refused, Reply, Run,
                           View, Wake, Work, aio)

SECONDS = 60.0


class FrontCase(Case):
    def setUp(self) -> None:
        super().setUp()
        self.server.ring(2)
        self.proxy, self.port = self.started_proxy()
        self.addCleanup(self.proxy.close)
        self.at_proxy = AtFront(self.port, f"{self.folder}/member")
        self.addCleanup(self.at_proxy.close)

    def started_proxy(self) -> tuple[Pushing, Port]:
        path = f"{self.folder}/proxy"
        return of_unix(self.server, path), Port(f"unix:{path}", 30)

    def order(self, **order: object) -> Reply | NotTaken:
        [outcome] = self.at_proxy.order_all([order])
        return outcome


class Orders(FrontCase):
    def test_orders_have_no_client_and_no_number(self) -> None:
        """No record of them is kept."""
        self.assertEqual(self.order(op="reset", node=1, epoch=0), Reply("started", 4))
        self.assertEqual(self.order(op="confirm", node=1, epoch=1), Reply("done", 5))
        self.assertEqual(self.proxy.ordered, [{"op": "reset", "node": 1, "epoch": 0}, {"op": "confirm", "node": 1, "epoch": 1}])
        self.assertEqual((self.proxy.connections, os.listdir(f"{self.folder}/member")), (1, ["lock"]))

    def test_one_that_is_refused_does_not_hold_the_others(self) -> None:
        self.server.reset(1)
        refused, done = self.at_proxy.order_all([{"op": "confirm", "node": 1, "epoch": 9}, {"op": "confirm", "node": 2, "epoch": 1}])
        assert isinstance(refused, Refused) and isinstance(done, Reply)
        self.assertIs(refused.refusal, Refusal.BAD_EPOCH)

    def test_a_reset_for_an_epoch_that_has_passed(self) -> None:
        self.server.reset(1)
        refused = self.order(op="reset", node=1, epoch=0)
        assert isinstance(refused, Refused)
        self.assertEqual((refused.refusal, self.server.row(1)[1]), (Refusal.BAD_EPOCH, 1))

    def test_what_is_no_answer(self) -> None:
        """The proxy has lost its count, the server has no room, or the connection ends: in each case the order is to be sent
        again."""
        for to_order in ('{"name":"OutOfTurn","refused":4}', '{"name":"NumberReused","refused":5}', '{"name":"Stopped","refused":1}',
                         '{"fault":"OutOfMemory"}', "lose"):
            self.proxy.to_order = to_order
            with self.subTest(to_order=to_order):
                self.assertRaises(Away, self.order, op="reset", node=1)
                self.assertIsInstance(self.order(op="reset", node=1), Reply)

    def test_what_the_policy_does_not_allow_and_what_is_no_answer(self) -> None:
        self.proxy.to_order = '{"fault":"NotAllowed"}'
        self.assertIsInstance(self.order(op="reset", node=1), Faulted)
        for text in ('{"x":1}', "[]"):
            self.proxy.to_order = text
            self.assertRaises(Garbled, self.order, op="reset", node=1)

    def test_a_proxy_of_an_earlier_version(self) -> None:
        """An earlier proxy does not know these orders: that is reported in one line, and ends the member."""
        self.proxy.to_order = '{"fault":"BadRequest"}'
        member = Member(self.port, self.at_proxy, 1, None, lambda epoch: None, told=self.messages.append)
        with self.assertRaisesRegex(EarlierFront, "the proxy is older than this library"):
            member.look()

    def test_a_number_out_of_its_range_is_not_sent(self) -> None:
        self.assertRaises(BadWords, self.at_proxy.order_all, [{"op": "reset", "node": 1}, {"op": "reset", "node": 65}])
        self.assertEqual(self.proxy.ordered, [])

    def test_a_proxy_is_needed_at_each_address(self) -> None:
        proxy = ",".join(map(str, self.port.addresses))
        self.assertRaises(BadWords, AtFront, Port(f"{proxy},{self.server.address}"), f"{self.folder}/x")

    def test_one_process_has_the_folder(self) -> None:
        with self.assertRaisesRegex(Held, f"process {os.getpid()} works with {self.folder}/member"):
            AtFront(self.port, f"{self.folder}/member")

    def test_what_is_called_while_an_order_is_on_its_way(self) -> None:
        """`on_view` is called with the view that led to the order, and with each view that is pushed before its answer."""
        self.assertIs(self.at_proxy.wait(SECONDS), Wake.CAME)
        view = self.at_proxy.take()
        assert view
        came: list[int] = []

        def note(each: View) -> None:
            came.append(each.settled)
        self.at_proxy.order_all([{"op": "reset", "node": 1}], on_view=note, view=view)
        self.assertEqual(came, [view.settled, view.settled + 1])


class Views(FrontCase):
    def test_the_first_look_needs_no_other_connection(self) -> None:
        self.assertIsNotNone(self.at_proxy.take())
        self.assertEqual(self.proxy.connections, 1)

    def test_a_view_is_taken_once_and_only_if_it_has_the_last_order(self) -> None:
        self.assertIs(self.at_proxy.wait(SECONDS), Wake.CAME)
        before = self.at_proxy.take()
        self.assertIsNone(self.at_proxy.take())
        reply = self.order(op="reset", node=1)
        assert before and isinstance(reply, Reply)
        self.at_proxy.await_view(SECONDS)
        after = self.at_proxy.take()
        assert after
        self.assertEqual((after.settled >= reply.step, after.nodes[0].epoch), (True, 1))

    def test_a_view_of_before_the_last_order_is_no_look(self) -> None:
        """A view from before the last order does not count: the proxy is asked for a new one."""
        self.assertIs(self.at_proxy.wait(SECONDS), Wake.CAME)
        with mock.patch.object(self.proxy, "_view", return_value=self.proxy._view()):
            self.order(op="reset", node=1)
            self.at_proxy.await_view(0.2)
            self.assertIsNone(self.at_proxy.take())

    def test_a_store_that_went_back_is_shown_by_the_next_connection(self) -> None:
        """This is so although the last order had a greater step."""
        copy = self.server.copy()
        self.order(op="reset", node=1)
        self.at_proxy.take()
        self.server.restore(copy)
        self.proxy.drop()
        self.assertIs(self.at_proxy.wait(SECONDS), Wake.CAME)
        view = self.at_proxy.take()
        assert view
        self.assertEqual(view.nodes[0].epoch, 0)


class Members(FrontCase):
    """A member with its orders, looks and wake-ups over one connection."""

    def member(self, work: Work = Work.PARTS) -> Member:
        self.begun, self.runs = list[int](), list[Run | None]()
        return Member(self.port, self.at_proxy, 1, None, self.begun.append, told=self.messages.append, every=3_600.0,
                      on_run=self.runs.append, work=work)

    def expect(self, holds: Callable[[], bool]) -> None:
        until = time.monotonic() + SECONDS
        while not holds():
            self.assertLess(time.monotonic(), until, self.messages)
            time.sleep(0.005)

    def confirmed(self) -> int:
        """Returns the epoch that the member has confirmed."""
        return int(self.server.row(1)[2])

    def confirm_other(self) -> None:
        self.server.by_somebody("confirm", node=2, epoch=self.server.row(2)[1])
        self.proxy.push()

    def test_it_begins_confirms_and_talks(self) -> None:
        with self.member() as member:
            self.expect(lambda: self.begun == [1] and self.confirmed() == 1)
            self.confirm_other()
            self.expect(lambda: member.run is not None)
            self.server.by_somebody("reset", node=2)
            self.proxy.push()
            self.expect(lambda: self.begun == [1, 2])
            self.confirm_other()
            self.expect(lambda: member.run is not None and member.run.epoch == 2)
            fence = member.fence
            assert fence and member.run
            self.assertEqual(member.run.tag[:32], fence.tag)
        self.assertEqual(self.proxy.ordered, [{"op": "reset", "node": 1, "epoch": 0}, {"op": "confirm", "node": 1, "epoch": 1},
                                              {"op": "confirm", "node": 1, "epoch": 2}])

    def test_a_reset_from_a_thread_names_the_epoch(self) -> None:
        with self.member() as member:
            self.expect(lambda: self.begun == [1])
            self.confirm_other()
            self.expect(lambda: member.run is not None)
            member.reset("the count is wrong")
            self.expect(lambda: self.begun == [1, 2])
        self.assertIn({"op": "reset", "node": 1, "epoch": 1}, self.proxy.ordered)

    def test_it_goes_on_over_connections_that_end(self) -> None:
        with self.member() as member:
            for epoch in range(1, 4):
                self.proxy.drop()
                self.expect(lambda: self.confirmed() == epoch)
                self.confirm_other()
                self.expect(lambda: member.run is not None and member.run.epoch == epoch)
                self.server.by_somebody("reset", node=2)
                self.proxy.push()

    def syncs_of_a_reset(self, work: Work) -> int:
        """Counts the syncs of one more reset, until the member talks."""
        synced = list[int]()
        with self.member(work) as member:
            self.expect(lambda: self.confirmed() == 1)
            self.confirm_other()
            self.expect(lambda: member.run is not None)
            with mock.patch("os.fsync", side_effect=synced.append), mock.patch("os.fdatasync", side_effect=synced.append):
                self.server.by_somebody("reset", node=2)
                self.proxy.push()
                self.expect(lambda: self.confirmed() == 2)
                self.confirm_other()
                self.expect(lambda: member.run is not None and member.run.epoch == 2)
        return len(synced)

    def test_how_often_a_member_syncs_for_a_reset(self) -> None:
        """It syncs the history, and also "nothing begun" before work that is replaced part by part."""
        self.assertEqual(self.syncs_of_a_reset(Work.MEMORY), 1)

    def test_how_often_one_with_work_that_is_renamed_syncs(self) -> None:
        self.assertEqual(self.syncs_of_a_reset(Work.WHOLE), 1)

    def test_how_often_one_with_work_in_parts_syncs(self) -> None:
        self.assertEqual(self.syncs_of_a_reset(Work.PARTS), 2)

    def test_a_member_on_asyncio(self) -> None:
        """Its work is in memory, and a proxy wakes it: it writes no start file."""
        begun: list[int] = []

        async def begin(epoch: int) -> None:
            begun.append(epoch)

        async def follow() -> None:
            member = aio.Member(self.port, self.at_proxy, 1, None, begin, told=self.messages.append, work=Work.MEMORY)
            async with asyncio.timeout(SECONDS):
                following = asyncio.create_task(member.follow(self.at_proxy, 3_600.0))
                while self.confirmed() != 1:
                    await asyncio.sleep(0.005)
                self.confirm_other()
                async with member.in_run(wait=SECONDS) as run:
                    self.assertEqual(run.fence, member.fence)
                following.cancel()
                with suppress(asyncio.CancelledError):
                    await following

        asyncio.run(follow())
        self.assertEqual((begun, sorted(os.listdir(f"{self.folder}/member"))), ([1], ["lock", "start-1.history"]))

    def test_what_is_begun_in_memory(self) -> None:
        self.assertRaises(BadWords, Member, self.port, self.at_proxy, 1, 4, self.messages.append, work=Work.MEMORY)


class OverTls(FrontCase):
    """The same tests over TLS, with a certificate at each end."""

    def started_proxy(self) -> tuple[Pushing, Port]:
        if not shutil.which("openssl"):
            self.skipTest("it needs openssl: for certificates")
        pem = tempfile.mkdtemp()
        self.addCleanup(shutil.rmtree, pem)
        make_certificates(pem)
        proxy, address = of_tls(self.server, pem)
        return proxy, Port(address, 30, Credentials(f"{pem}/client.pem", f"{pem}/client.key", f"{pem}/authority.pem"))


class OrdersOverTls(OverTls, Orders):
    pass


class ViewsOverTls(OverTls, Views):
    pass


class MembersOverTls(OverTls, Members):
    pass


if __name__ == "__main__":
    unittest.main()
