"""Answers, refusals and faults, and a port at several addresses."""

from __future__ import annotations

import os
import re
import unittest

from case import ROOT, Case, over_both
from resetd_client import Away, Fault, Faulted, Garbled, NotNow, Port, Refusal, Refused, patiently
from resetd_client.advice import WHAT_TO_DO, explained
from resetd_client.view import View

STOPPED = '{"name":"Stopped","refused":1}'


class Answers(Case):
    def test_a_refusal_is_a_value_with_its_name(self) -> None:
        with self.assertRaises(Refused) as caught:
            self.orders().order("reset", node=7)
        self.assertEqual((caught.exception.refusal, caught.exception.name), (Refusal.UNKNOWN_NODE, "UnknownNode"))

    def test_a_fault_is_a_value_with_its_name(self) -> None:
        with self.assertRaises(Faulted) as caught:
            self.port.ask({"op": "fly"})
        self.assertIs(caught.exception.fault, Fault.UNKNOWN_OP)

    def test_only_three_answers_are_not_now(self) -> None:
        for line in (STOPPED, '{"name":"PendingFull","refused":20}', '{"fault":"OutOfMemory"}',
                     '{"name":"OutOfMemory","refused":2}'):
            self.server.faults = [line]
            self.assertRaises(NotNow, self.port.show)
        self.server.faults = ['{"fault":"BadJson"}']
        self.assertRaises(Faulted, self.port.show)
        self.server.faults = ['{"name":"Later","refused":99}']
        with self.assertRaises(Refused) as caught:
            self.port.show()
        self.assertIsNone(caught.exception.refusal)

    def test_no_coordinator_is_garbled(self) -> None:
        for line in ("HTTP/1.1 400 Bad Request", "[]", '{"nodes":3}', '{"refused":"no"}', '{"refused":null}'):
            self.server.faults = [line]
            self.assertRaises(Garbled, self.port.show)
        for line in ("{}", '{"count":"some"}', '{"count":null}'):
            self.server.faults = [line]
            self.assertRaises(Garbled, self.port.resend)

    def test_addresses_are_tried_in_turn(self) -> None:
        other = self.started()
        other.ring(2)
        self.server.is_stopped = True
        both = Port(f"127.0.0.1:1,{self.server.address},{other.address}", 120)
        self.assertEqual(len(both.show().nodes), 2)
        other.is_stopped = True
        self.assertRaises(NotNow, both.show)

    def test_wrong_addresses(self) -> None:
        for text in ("", "here", "127.0.0.1:", "127.0.0.1:0", "127.0.0.1:99999"):
            self.assertRaises(ValueError, Port, text)

    def test_many_lines_over_connections_that_end_early(self) -> None:
        self.server.lines_each = 10
        answers = list(self.port.ask_many([{"op": "resend"}] * 150))
        self.assertEqual(len(answers), 150)

    def test_patiently_ends(self) -> None:
        self.assertRaises(Away, patiently, Port("127.0.0.1:1").show, 0.0)

    def test_many_lines_go_out_in_one_write_each_sixty_four(self) -> None:
        self.assertEqual(len(list(self.port.ask_many([{"op": "resend"}] * 64))), 64)
        self.assertEqual(self.server.connections, 1)

    def test_not_now_in_the_midst_gives_way_to_the_next_address(self) -> None:
        other = self.started()
        both = Port(f"{self.server.address},{other.address}", 120)
        self.server.faults = ["", "", *[STOPPED] * 4]
        self.assertEqual(len(list(both.ask_many([{"op": "resend"}] * 4))), 4)
        self.assertEqual((len(self.server.seen), len(other.seen)), (6, 2))


class Advice(unittest.TestCase):
    def test_the_table_has_the_words_of_the_protocol(self) -> None:
        with open(os.path.join(ROOT, "docs/PROTOCOL.md"), encoding="utf-8") as file:
            table = file.read().split("## Acceptance and refusals")[1].split("\n## ")[0]
        rows = re.findall(r"^\| (\d+) \| (\w+) \| .* \| (.*?) ?\|$", table, re.MULTILINE)
        advice = {int(number): re.sub(r" \(in the drill: [^)]*\)", "", text) for number, _, text in rows}
        self.assertEqual(len(advice), 22)
        self.assertEqual({number: text for number, text in advice.items() if text}, dict(WHAT_TO_DO))
        self.assertEqual([refusal.name.replace("_", "").lower() for refusal in Refusal], [name.lower() for _, name, _ in rows])

    def test_what_was_found_stands_before_what_to_do(self) -> None:
        view = View.of({"accepted": 9, "settled": 9, "nodes": [[3, 1, "ready", 0, 4, 4], [5, 2, "ready", 0, 0, 0]], "links": []})
        confirm = {"op": "confirm", "node": 3, "epoch": 4}
        self.assertEqual(explained(Refused(15, "BadEpoch"), confirm, view),
                         "15 BadEpoch: node 3 is at epoch 4, and its last confirmed epoch is 4")
        self.assertEqual(explained(Refused(15, "BadEpoch"), confirm),
                         "15 BadEpoch: the epoch was confirmed before, or the node has gone back to a lower epoch: compare the epochs in `show`")
        self.assertEqual(explained(Refused(99, "Later"), confirm, view), "99 Later")
        self.assertEqual(explained(Faulted("Later"), confirm, view), "Later")

    def test_a_view_that_has_changed_since_says_what_to_do(self) -> None:
        view = View.of({"accepted": 9, "settled": 9, "nodes": [[3, 1, "ready", 0, 4, 4], [5, 1, "ready", 0, 0, 0]], "links": []})
        for number, name, order, said in (
                (6, "UnknownNode", {"node": 3}, "`show` lists the nodes that exist"), (8, "HasLinks", {"node": 3}, "drop the node's links first"),
                (13, "DegreeFull", {"a": 3, "b": 5}, "drop one of the node's links first"),
                (14, "LinksFull", {"a": 3, "b": 5}, "drop another link first")):
            self.assertEqual(explained(Refused(number, name), order, view), f"{number} {name}: {said}")


load_tests = over_both
