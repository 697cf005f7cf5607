"""Numbered orders: each is carried out once."""

from __future__ import annotations

import json
from typing import Any
from unittest import mock

from case import Case, in_memory, over_both
from resetd_client import (
    Away, BadWords, CountLost, CountNotFound, Fault, Faulted, Held, NotNow, Orders, Port, Refused, Reply, find_count, patiently)
from resetd_client.answers import CARRIED_OUT, Outcome
from resetd_client.orders import Order, outwards
from resetd_client.port import TooLong
from resetd_client.store_file import read_store

STOPPED = '{"name":"Stopped","refused":1}'


class Numbers(Case):
    def setUp(self) -> None:
        super().setUp()
        self.server.ring(3)

    def test_orders_are_numbered_and_kept(self) -> None:
        orders = self.orders()
        self.assertEqual(orders.order("reset", node=1), Reply("started", 6))
        orders.close()
        self.server.await_settled()
        self.assertEqual(self.orders().order("reset", node=1).kind, "started")
        self.assertEqual(self.server.last(1), 2)

    def test_an_order_without_an_answer_is_sent_again_once(self) -> None:
        for fault, epoch in (("mute", 1), ("lose", 2)):
            orders = self.orders()
            orders.order("confirm", node=1, epoch=1) if epoch == 2 else orders.recover()
            self.server.faults = [fault]
            self.assertRaises(Away, orders.order, "reset", node=1)
            orders.close()
            again = self.orders()
            again.order("reset", node=1)
            again.close()
            self.assertEqual(self.server.row(1)[1], epoch)

    def test_it_is_written_down_before_it_is_sent(self) -> None:
        orders = self.orders()
        orders.recover()
        self.server.faults = ["lose"]
        self.assertRaises(Away, orders.order, "reset", node=1)
        with open(f"{self.folder}/orders/order.json", encoding="utf-8") as file:
            self.assertEqual(json.load(file), {"number": 1, "answered": False, "order": {"op": "reset", "node": 1}})

    def test_a_refused_number_is_free(self) -> None:
        orders = self.orders()
        self.assertRaises(Refused, orders.order, "reset", node=9)
        orders.order("reset", node=1)
        self.assertEqual(self.server.last(1), 1)

    def test_a_fault_leaves_the_number_free(self) -> None:
        orders = self.orders()
        orders.order("reset", node=1)
        self.server.await_settled()
        wrong: tuple[dict[str, int], ...] = ({"node": 65}, {"node": 1, "group": 1}, {})
        for members in wrong:
            with mock.patch("resetd_client.orders.check_order"), self.assertRaises(Faulted) as caught:
                orders.order("reset", **members)
            self.assertIs(caught.exception.fault, Fault.BAD_REQUEST)
        with self.assertRaises(Faulted) as caught:
            orders.order("fly", node=1)
        self.assertIs(caught.exception.fault, Fault.UNKNOWN_OP)
        self.assertEqual((orders.unanswered, orders.number), ([], 1))
        orders.close()
        self.assertEqual(self.orders().order("confirm", node=1, epoch=1).kind, "done")

    def test_each_fault_that_says_that_nothing_was_done_leaves_it_free(self) -> None:
        orders = self.orders()
        orders.order("reset", node=1)
        for fault in Fault:
            self.server.faults = [f'{{"fault":"{fault.value}"}}']
            is_not_now = fault is Fault.OUT_OF_MEMORY  # it may replace the reply to an order that was carried out
            self.assertRaises(NotNow if is_not_now else Faulted, orders.order, "reset", node=2)
            self.assertEqual(len(orders.unanswered), int(is_not_now))
        self.server.faults = ['{"fault":"Later"}']
        self.assertRaises(Faulted, orders.order, "reset", node=2)
        self.assertEqual(len(orders.unanswered), 1)

    def test_a_line_that_is_too_long_is_not_written_down(self) -> None:
        orders = self.orders()
        orders.order("reset", node=1)
        self.assertRaises(TooLong, orders.order, "reset" * 110, node=1)
        self.assertEqual((orders.unanswered, orders.number), ([], 1))

    def test_numbers_out_of_their_range_are_reported_before_anything_is_sent(self) -> None:
        """Nothing is stored either, and none of several orders that are sent together is sent."""
        orders = self.orders()
        orders.order("reset", node=1)
        wrong: list[Any] = [{"node": 0}, {"node": 65}, {"node": -1}, {"node": 10 ** 5_000}, {"node": True}, {"node": 1.0}, {"node": "1"},
                            {"node": None}, {"node": 1, "epoch": 1 << 64}, {"node": 1, "epoch": -1}, {"node": 1, "group": 17},
                            {"a": 1, "b": 65}, {"a": 0, "b": 1}]
        seen = len(self.server.seen)
        for place, members in enumerate(wrong):
            with self.subTest(place=place):
                self.assertRaises(BadWords, orders.order, "reset", **members)
                self.assertRaises(BadWords, orders.order_all, [{"op": "reset", "node": 1}, {"op": "reset", **members}])
        self.assertEqual((len(self.server.seen), orders.unanswered, orders.number), (seen, [], 1))
        for limit in (0, (1 << 64) - 1):
            self.assertRaises(Refused, orders.order, "confirm", node=1, epoch=limit)
        for node in (1, 64):
            self.assertRaises(Refused, orders.order, "remove", node=node)

    def test_a_line_that_the_coordinator_finds_too_long_leaves_the_number_free(self) -> None:
        orders = self.orders()
        orders.order("reset", node=1)
        with mock.patch("resetd_client.port.MOST_BYTES", 10_000), self.assertRaises(Faulted) as caught:
            orders.order("reset" * 110, node=1)
        self.assertIs(caught.exception.fault, Fault.TOO_LONG)
        self.assertEqual((orders.unanswered, orders.number), ([], 1))

    def test_one_process_holds_a_folder(self) -> None:
        self.orders()
        self.assertRaises(Held, self.orders)

    def test_clients_are_1_to_16(self) -> None:
        self.assertRaises(ValueError, self.orders, 17)
        self.assertRaises(ValueError, self.orders, 0)
        for client in (1, 16):
            orders, before = self.orders(client, f"of {client}"), self.server.last(client)
            orders.order("reset", node=1)
            self.assertEqual(self.server.last(client), before + 1)
            self.server.await_settled()

    def test_a_lost_count_is_loud_or_found(self) -> None:
        orders = self.orders()
        for _ in range(5):
            orders.order("reset", node=1)
        copy = self.server.copy()
        for _ in range(3):
            orders.order("reset", node=1)
        self.server.restore(copy)
        self.assertRaises(CountLost, orders.order, "reset", node=2)
        orders.close()
        again = self.orders(recovers=True)
        again.order("reset", node=2)
        self.assertEqual(self.server.last(1), 6)
        self.assertTrue(any("had no answer at first" in text for text in self.messages))

    @in_memory
    def test_a_count_is_found_from_anywhere(self) -> None:
        self.server.steps = 1_000
        for made in (0, 1, 2, 70, 300):
            if made:
                self.server.sessions[3] = (made, {"op": "reset", "node": 1}, {"kind": "started", "step": 5})
            for near in (0, made, made + 1, 5_000):
                self.assertEqual(find_count(self.port, 3, near), made)
        self.assertEqual(self.server.last(3), 300)

    @in_memory
    def test_a_far_count_takes_few_connections(self) -> None:
        self.server.steps = 5_000
        self.server.sessions[3] = (3_000, {"op": "reset", "node": 1}, {"kind": "started", "step": 5})
        before = self.server.connections
        self.assertEqual(find_count(self.port, 3, 0), 3_000)
        self.assertLess(self.server.connections - before, 20)

    def test_a_count_that_was_found_is_kept(self) -> None:
        """So the next process need not look for the count."""
        first = self.orders()
        first.order("reset", node=1)
        self.server.await_settled()
        found = self.orders(name="found")
        self.assertEqual(found.recover(), 1)
        found.close()
        again = self.orders(name="found")
        self.assertEqual(again.number, 1)
        before = len(self.server.seen)
        again.order("reset", node=1)
        self.assertEqual((len(self.server.seen) - before, self.server.last(1)), (1, 2))

    def test_a_refusal_of_another_kind_ends_the_search(self) -> None:
        """Such a refusal implies nothing about the count."""
        self.server.faults = ["", '{"name":"Exhausted","refused":3}']
        with self.assertRaises(Refused) as caught:
            find_count(self.port, 3)
        self.assertEqual(caught.exception.name, "Exhausted")

    def test_a_count_that_is_lost_again_and_again(self) -> None:
        """This happens if others order as the same client. The count is looked for three times, and then the loss is reported."""
        orders = self.orders(recovers=True)
        orders.order("reset", node=1)
        with mock.patch.object(orders, "_send", side_effect=CountLost(4, "OutOfTurn")) as send, \
                mock.patch.object(orders, "recover", return_value=1) as recover:
            self.assertRaises(CountLost, orders.order, "reset", node=2)
        self.assertEqual((send.call_count, recover.call_count), (4, 3))

    def test_an_earlier_order_that_is_refused_is_reported(self) -> None:
        """An order without an answer is sent first, and is dropped if it is refused."""
        orders = self.orders()
        orders.recover()
        self.server.faults = ["lose"]
        self.assertRaises(Away, orders.order, "remove", node=2)
        self.assertEqual(orders.order("reset", node=1).kind, "started")
        self.assertEqual(len(self.messages), 1, self.messages)
        self.assertIn("'remove'", self.messages[0])
        self.assertIn("had no answer at first, and now the answer is 8 HasLinks", self.messages[0])

    def test_a_count_is_found_without_nodes(self) -> None:
        self.assertEqual(find_count(Port(self.started().address, 120), 3), 0)

    def test_a_search_is_bounded_and_says_so(self) -> None:
        orders = self.orders()
        for _ in range(30):
            orders.order("reset", node=1)
        self.assertRaises(CountNotFound, find_count, self.port, 1, 0, 20)

    def test_a_lost_folder_does_not_repeat_an_old_order(self) -> None:
        self.orders().order("reset", node=1)
        self.server.await_settled()  # another reset would join one that still runs
        self.orders(name="other").order("reset", node=1)
        self.assertEqual(self.server.row(1)[1], 2)

    def test_another_ones_order_is_not_taken_for_this_one(self) -> None:
        mine, other = self.orders(), self.orders(name="other")
        mine.order("reset", node=1)
        other.order("reset", node=1)
        accepted = self.port.show().accepted
        self.assertRaises(CountLost, mine.order, "reset", above=accepted, node=1)

    def test_outwards(self) -> None:
        self.assertEqual(list(outwards(3, 6)), [4, 3, 5, 2, 6, 1])
        self.assertEqual(list(outwards(0, 3)), [1, 2, 3])
        self.assertEqual(list(outwards(90, 3)), [3, 2, 1])


class Together(Case):
    """Several orders of one client in one write."""

    def setUp(self) -> None:
        super().setUp()
        self.server.ring(2)
        self.book = self.orders()

    def adds(self, *nodes: int) -> list[Order]:
        return [{"op": "add", "node": node, "group": 1} for node in nodes]

    def nodes(self) -> list[int]:
        return sorted(self.server.nodes)

    def patient(self, orders: list[Order]) -> list[Outcome]:
        return patiently(lambda: self.book.order_all(orders), 300)

    def test_they_are_answered_in_order(self) -> None:
        outcomes = self.patient(self.adds(*range(3, 33)))
        self.assertEqual([type(outcome) for outcome in outcomes], [Reply] * 30)
        steps = [outcome.step for outcome in outcomes if isinstance(outcome, Reply)]
        self.assertEqual(steps, list(range(steps[0], steps[0] + 30)))
        self.assertEqual((self.nodes(), self.server.last(1), self.book.number), (list(range(1, 33)), 30, 30))

    def test_all_but_the_first_go_out_over_one_connection(self) -> None:
        self.book.recover()
        before = self.server.connections
        self.patient(self.adds(*range(3, 60)))
        self.assertEqual(self.server.connections - before, 2)

    def test_in_one_packet_to_the_program(self) -> None:
        if not self.is_real:
            self.skipTest("the program alone")
        book = Orders(Port(self.server.behind, 120), 2, f"{self.folder}/direct", told=self.messages.append)
        self.addCleanup(book.close)
        accepted = self.port.show().accepted
        outcomes = book.order_all([*self.adds(*range(3, 60)), {"op": "reset", "node": 1}, *self.adds(1, 60)])
        self.assertEqual([type(outcome) for outcome in outcomes], [*[Reply] * 58, Refused])
        self.assertEqual((self.nodes(), self.server.last(2)), (list(range(1, 60)), 58))
        flights = [batch for batch in read_store(self.server.store).batches if accepted < batch.first <= accepted + 58]
        self.assertLess(len(flights), 12)  # the first order has an answer, and the others arrive together

    def test_more_than_one_part(self) -> None:
        pairs = [(3, 4), *[(a, b) for a in range(1, 13) for b in range(a + 1, 13)]]
        self.patient(self.adds(*range(3, 13)))
        orders = [{"op": "join", "a": a, "b": b} for a, b in pairs if (a, b) not in ((1, 2), (3, 4))] + \
            [{"op": "drop", "a": a, "b": b} for a, b in pairs if (a, b) not in ((1, 2), (3, 4))]
        self.assertGreater(len(orders), 64)
        self.assertEqual(len(self.patient(orders)), len(orders))
        self.assertEqual(self.server.pairs(), [(1, 2)])

    def test_nothing_after_a_refused_one_is_carried_out(self) -> None:
        outcomes = self.patient([*self.adds(3, 4, 1, 5, 6)])
        self.assertEqual(len(outcomes), 3)
        self.assertEqual(str(outcomes[-1]), "7 NodeExists")
        self.assertEqual((self.nodes(), self.book.number, self.book.unanswered), ([1, 2, 3, 4], 2, []))
        self.assertEqual(len(self.patient(self.adds(5, 6))), 2)
        self.assertEqual((self.nodes(), self.server.last(1)), ([1, 2, 3, 4, 5, 6], 4))

    def test_nothing_after_a_fault_is_carried_out(self) -> None:
        with mock.patch("resetd_client.orders.check_order"):
            outcomes = self.patient([*self.adds(3, 4, 65, 5, 6)])
        self.assertEqual([str(outcome) for outcome in outcomes[2:]], ["BadRequest"])
        self.assertEqual((self.nodes(), self.book.number, self.book.unanswered), ([1, 2, 3, 4], 2, []))

    def test_a_connection_that_is_lost_at_any_line(self) -> None:
        """One answer is lost, and then another one when the lines are repeated. Each order is carried out once."""
        self.book.order("reset", node=1)
        fresh = iter(range(3, 64))
        for fault in ("mute", "lose", STOPPED, '{"fault":"OutOfMemory"}'):
            for place in range(4):
                nodes = [next(fresh) for _ in range(3)]
                orders = [*self.adds(*nodes), {"op": "reset", "node": 1}]
                self.server.await_settled()
                before = (self.server.row(1)[1], self.server.last(1))
                self.server.faults = [*[""] * place, fault, *[""] * (3 - place), fault]
                outcomes = self.patient(orders)
                self.server.await_settled()
                self.assertEqual([type(outcome) for outcome in outcomes], [Reply] * 4)
                self.assertEqual((self.server.row(1)[1], self.server.last(1)), (before[0] + 1, before[1] + 4))
                self.server.faults = []
                for node in nodes:
                    self.server.by_somebody("remove", node=node)

    def test_a_lost_reply_says_so(self) -> None:
        self.book.order("reset", node=1)
        self.server.await_settled()
        muted = [json.dumps({"op": "add", "client": 1, "number": number, "node": number + 1, "group": 1}) for number in (2, 3)]
        self.server.faults = ["mute"]
        orders = self.adds(3, 4)
        self.assertRaises(Away, self.book.order_all, orders)
        self.server.respond(muted[1].encode() + b"\n")  # the second order has reached the coordinator too
        outcomes = self.patient(orders)
        self.assertEqual(outcomes[0], CARRIED_OUT)
        self.assertEqual((self.nodes(), self.server.last(1)), ([1, 2, 3, 4], 3))

    def test_a_process_that_dies_with_several_on_their_way(self) -> None:
        self.book.order("reset", node=1)
        for fault in ("mute", "lose"):
            self.server.faults = ["", "", fault, "lose"]
            nodes = (3, 4, 5, 6) if fault == "mute" else (7, 8, 9, 10)
            self.assertRaises(Away, self.book.order_all, self.adds(*nodes))
            self.book.close()
            self.book = self.orders()
            self.assertEqual(len(self.book.unanswered), 2)
            self.book.order("confirm", node=1, epoch=1) if fault == "mute" else self.book.order("reset", node=1)
            self.assertEqual(self.nodes(), list(range(1, nodes[-1] + 1)))
        self.assertEqual(self.server.last(1), 11)

    def test_a_stale_count_carries_out_nothing_after_the_first(self) -> None:
        other = self.orders(name="other")
        self.book.order("reset", node=1)
        for node in (3, 4):
            other.order("add", node=node, group=1)
        self.book.close()
        self.book = self.orders()
        self.assertRaises(CountLost, self.book.order_all, self.adds(10, 11, 12, 13))
        self.assertEqual(self.nodes(), [1, 2, 3, 4])

    def test_a_stale_count_is_found_and_they_are_sent_once_more(self) -> None:
        other = self.orders(name="other")
        self.book.order("reset", node=1)
        for node in (3, 4):
            other.order("add", node=node, group=1)
        self.book.close()
        self.book = self.orders(recovers=True)
        self.assertEqual([type(outcome) for outcome in self.patient(self.adds(10, 11, 12, 13))], [Reply] * 4)
        self.assertEqual(self.nodes(), [1, 2, 3, 4, 10, 11, 12, 13])


load_tests = over_both
