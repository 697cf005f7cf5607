"""Several threads that share one `Orders`: each gets the answers to its own orders, and each order is carried out once."""

from __future__ import annotations

import threading
from collections.abc import Callable, Iterator, Sequence
from typing import Any

from case import Case, over_both
from resetd_client import Away, NotTaken, Orders, Port, Refusal, Refused, Reply
from resetd_client.answers import CARRIED_OUT
from resetd_client.port import Request

ROUNDS = 40
SECONDS = 120.0  # seconds in which all threads of a test end, on any machine


class Held(Port):
    """A port that sends requests only once the test allows it."""

    def __init__(self, address: str) -> None:
        super().__init__(address, 10)
        self.is_asked, self.may_ask = threading.Event(), threading.Event()

    def ask_many(self, requests: Sequence[Request]) -> Iterator[dict[str, Any] | NotTaken]:
        self.is_asked.set()
        self.may_ask.wait(SECONDS)
        return super().ask_many(requests)


class Threads(Case):
    def setUp(self) -> None:
        super().setUp()
        self.server.ring(2)
        self.book = self.orders()
        self.book.recover()

    def in_threads(self, *calls: Callable[[], object]) -> None:
        """Makes calls at the same time, each in its own thread, and raises the exception of one of them."""
        raised: list[BaseException] = []

        def caller(call: Callable[[], object]) -> None:
            try:
                call()
            except BaseException as fault:
                raised.append(fault)

        threads = [threading.Thread(target=caller, args=(call,), daemon=True) for call in calls]
        for thread in threads:
            thread.start()
        for thread in threads:
            thread.join(SECONDS)
            self.assertFalse(thread.is_alive(), "it waits on")
        for fault in raised:
            raise fault

    def test_each_gets_its_own_answers(self) -> None:
        """A confirm of epoch 0 is always refused, an addition never, and the removal of a missing node always."""
        def confirm() -> None:
            for _ in range(ROUNDS):
                with self.assertRaises(Refused) as caught:
                    self.book.order("confirm", node=1, epoch=0)
                self.assertIs(caught.exception.refusal, Refusal.BAD_EPOCH)

        def add() -> None:
            for node in range(3, 3 + ROUNDS):
                self.assertEqual(self.book.order("add", node=node, group=1).kind, "done")

        def remove() -> None:
            for _ in range(ROUNDS):
                with self.assertRaises(Refused) as caught:
                    self.book.order("remove", node=64)
                self.assertIs(caught.exception.refusal, Refusal.UNKNOWN_NODE)

        self.in_threads(confirm, add, remove)
        self.assertEqual((len(self.server.nodes), self.server.last(1)), (2 + ROUNDS, ROUNDS))
        self.assertEqual((self.book.number, self.book.unanswered), (ROUNDS, []))

    def test_several_orders_at_once(self) -> None:
        def adds(first: int) -> None:
            for node in range(first, first + 20, 5):
                outcomes = self.book.order_all([{"op": "add", "node": each, "group": 1} for each in range(node, node + 5)])
                self.assertEqual([type(outcome) for outcome in outcomes], [Reply] * 5)

        self.in_threads(lambda: adds(3), lambda: adds(23), lambda: adds(43))
        self.assertEqual((len(self.server.nodes), self.server.last(1)), (62, 60))

    def test_one_without_an_answer_goes_on_after_what_another_ordered(self) -> None:
        """Whether it was carried out or not, its own thread calls again, and it is carried out once."""
        for node, fault in ((3, "mute"), (4, "lose")):
            self.server.faults = [fault]
            self.assertRaises(Away, self.book.order, "add", node=node, group=1)
            self.in_threads(lambda: self.book.order("reset", node=1))
            self.assertEqual(self.book.unanswered, [])
            self.assertIn(self.book.order("add", node=node, group=1).kind, ("done", CARRIED_OUT.kind))
            self.server.await_settled()
        self.assertEqual(self.server.last(1), 4)
        self.assertEqual(self.messages, [])

    def test_several_of_which_the_first_alone_was_answered(self) -> None:
        wanted = [{"op": "add", "node": node, "group": 1} for node in (3, 4, 5)]
        self.book.order("reset", node=1)  # so that they are sent together
        self.server.await_settled()
        self.server.faults = ["", "mute", "lose"]
        self.assertRaises(Away, self.book.order_all, wanted)
        self.in_threads(lambda: self.book.order("reset", node=2))
        outcomes = self.book.order_all(wanted)
        self.assertEqual([isinstance(outcome, Reply) for outcome in outcomes], [True] * 3)
        self.assertEqual((sorted(self.server.nodes), self.server.last(1)), ([1, 2, 3, 4, 5], 5))

    def test_a_folder_is_let_go_after_the_call_that_works(self) -> None:
        port = Held(self.server.address)
        book = Orders(port, 2, f"{self.folder}/held", told=self.messages.append)
        asker = threading.Thread(target=lambda: book.order("reset", node=1), daemon=True)
        asker.start()
        self.assertTrue(port.is_asked.wait(SECONDS))
        closer = threading.Thread(target=book.close, daemon=True)
        closer.start()
        closer.join(0.5)  # never long enough for it, because the other thread holds the lock
        self.assertTrue(closer.is_alive(), "the folder was let go in the midst of an order")
        port.may_ask.set()
        for thread in (asker, closer):
            thread.join(SECONDS)
            self.assertFalse(thread.is_alive(), "it waits on")
        Orders(port, 2, f"{self.folder}/held").close()


load_tests = over_both
