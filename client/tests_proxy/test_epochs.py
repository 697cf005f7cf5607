"""Resets that name an epoch, and orders that the proxy numbers, also if their answers are lost with the server's connection."""

from __future__ import annotations

import json
import os
import socket
import sys
import tempfile
import threading
import time
import unittest
from collections.abc import Callable
from typing import IO, Any

from case import CLIENT, DEADLINE, OWN, Case, Client, Proxy, needs_proxy, unread, until

sys.path.append(os.path.join(CLIENT, "tests"))
from fake import Fake  # noqa: E402

BAD_EPOCH = {"name": "BadEpoch", "refused": 15}


class Epochs(Case):
    nodes = 4

    def test_a_reset_that_names_an_epoch(self) -> None:
        """It is judged by a view; those that come at once make one reset."""
        self.assertEqual(self.proxy.ask(op="reset", node=1, epoch=7), BAD_EPOCH)
        self.assertEqual(self.proxy.ask(op="reset", node=9, epoch=0), {"name": "UnknownNode", "refused": 6})
        self.assertEqual(self.proxy.ask(op="reset", node=1, epoch=0)["kind"], "started")
        self.server.await_settled()
        clients = [self.client() for _ in range(4)]
        for node, client in enumerate(clients, 1):
            client.send({"op": "reset", "node": node, "epoch": 1})
        answers = [client.reply() for client in clients]
        self.assertEqual(sum(answer.get("kind") == "started" for answer in answers), 1, answers)
        self.assertEqual({row[4] for row in self.server.await_settled()["nodes"]}, {2})

    def test_it_waits_for_a_server_without_work(self) -> None:
        self.server.kill()
        client = self.client()
        client.send({"op": "reset", "node": 1, "epoch": 0})
        until("a try to reach the server", lambda: "no server answers" in self.proxy.said())
        before = self.processor_seconds()
        time.sleep(2)
        self.assertLess(self.processor_seconds() - before, 0.5)
        self.server.start()
        self.assertEqual(client.reply()["kind"], "started")

    def processor_seconds(self) -> float:
        """How long the proxy has worked."""
        assert self.proxy.process
        with open(f"/proc/{self.proxy.process.pid}/stat", encoding="ascii") as file:
            times = file.read().rpartition(")")[2].split()[11:13]
        return sum(map(int, times)) / os.sysconf("SC_CLK_TCK")

    def test_others_go_on_beside_it(self) -> None:
        beside = self.client()
        beside.send({"op": "reset", "node": 1, "epoch": 0}, {"op": "show"}, {"op": "confirm", "node": 1, "epoch": 9})
        with self.proxy.connect() as other:
            for number in range(1, 20):
                self.assertIn("kind", other.ask(op="reset", client=3, number=number, node=3))
        replies = [beside.reply() for _ in range(3)]
        self.assertIn("nodes", replies[1])
        self.assertEqual(replies[2].get("name"), "BadEpoch")


class Losing(Fake):
    """A coordinator in memory that ends the connection at the next resets of the proxy, each before or after it has carried
    it out. It notes each reset with a new number that does not directly follow a view on its connection."""

    def __init__(self) -> None:
        self.losses: list[tuple[bool, Callable[[], object]]] = []  # whether a reset is carried out first, and what happens then
        self.look_seconds, self.is_left_after_view = 0.0, False
        self.mute_resets = 0  # the number of resets that are carried out without an answer; the connection ends after the last one
        self.answers = threading.Event()  # until then it says nothing
        self.answers.set()
        self.resets: list[dict[str, Any]] = []  # that came
        self.unseen: list[dict[str, Any]] = []  # of these, the ones without a view directly before them
        super().__init__()

    def _serve_lines(self, connection: socket.socket, lines: IO[bytes]) -> None:
        last = ""
        for line in lines:
            self.answers.wait(DEADLINE)
            request = json.loads(line)
            op = request["op"]
            if op == "reset" and self.mute_resets:
                self.respond(line)
                self.mute_resets -= 1
                if not self.mute_resets:
                    return
                continue
            if op == "reset":
                self.resets.append(request)
                if last != "show" and request["number"] > self.last(OWN):
                    self.unseen.append(request)
                if self.losses:
                    is_taken, meanwhile = self.losses.pop(0)
                    if is_taken:
                        self.respond(line)
                    meanwhile()
                    return
            if op == "show":
                time.sleep(self.look_seconds)
            connection.sendall(self.respond(line).encode() + b"\n")
            if op == "show" and self.is_left_after_view:
                self.is_left_after_view = False
                return
            last = op


@needs_proxy
class BeforeLosing(unittest.TestCase):
    """A proxy before three linked nodes of epoch 0."""

    options: tuple[str, ...] = ()

    def setUp(self) -> None:
        folder = tempfile.TemporaryDirectory()
        self.addCleanup(folder.cleanup)
        self.server = Losing()
        self.addCleanup(self.server.close)
        self.server.ring(3)
        self.proxy = Proxy(folder.name, self.server.address, *self.options)
        self.addCleanup(self.proxy.kill)

    def client(self) -> Client:
        client = self.proxy.connect()
        self.addCleanup(client.close)
        return client

    def lose(self, is_taken: bool, meanwhile: Callable[[], object] = lambda: None) -> None:
        """The server's connection ends at the next reset, which the server has taken or not."""
        self.server.losses.append((is_taken, meanwhile))

    def check(self, epoch: int) -> None:
        """Each reset that could be carried out came right after a view, and the nodes have this epoch."""
        self.assertEqual(self.server.unseen, [])
        self.assertEqual({self.server.nodes[node][1] for node in (1, 2, 3)}, {epoch})


def is_carried_out(answer: dict[str, Any]) -> bool:
    return answer.get("kind") in ("started", "carried out")


class LostAnswers(BeforeLosing):
    """Resets that name an epoch, whose answer is lost with the server's connection."""

    def test_one_that_was_carried_out(self) -> None:
        self.lose(True)
        answer = self.client().ask(op="reset", node=1, epoch=0)
        self.assertTrue(is_carried_out(answer), answer)
        self.check(1)

    def test_one_that_was_carried_out_before_another(self) -> None:
        self.lose(True, lambda: self.server.reset(1))
        answer = self.client().ask(op="reset", node=1, epoch=0)
        self.assertTrue(is_carried_out(answer), answer)
        self.check(2)

    def test_one_that_was_not_carried_out(self) -> None:
        self.lose(False)
        self.assertEqual(self.client().ask(op="reset", node=1, epoch=0)["kind"], "started")
        self.check(1)

    def test_one_that_was_not_carried_out_and_another_was(self) -> None:
        self.lose(False, lambda: self.server.reset(2))
        self.assertEqual(self.client().ask(op="reset", node=1, epoch=0), BAD_EPOCH)
        self.check(1)
        self.assertEqual(len(self.server.resets), 1)

    def test_one_that_is_lost_again_and_again(self) -> None:
        for _ in range(3):
            self.lose(False)
        self.lose(True)
        answer = self.client().ask(op="reset", node=1, epoch=0)
        self.assertTrue(is_carried_out(answer), answer)
        self.check(1)

    def test_two_at_once(self) -> None:
        for is_taken in (False, True):
            with self.subTest(is_taken):
                epoch = self.server.nodes[1][1]
                clients = [self.client(), self.client()]
                self.lose(is_taken)
                for node, client in enumerate(clients, 1):
                    client.send({"op": "reset", "node": node, "epoch": epoch})
                answers = [client.reply() for client in clients]
                self.assertEqual(sorted(map(is_carried_out, answers)), [False, True], answers)
                self.assertIn(BAD_EPOCH, answers)
                self.check(epoch + 1)

    def test_its_connection_and_others_go_on(self) -> None:
        client, other = self.client(), self.client()
        self.lose(True)
        client.send({"op": "reset", "node": 1, "epoch": 0}, {"op": "confirm", "node": 1, "epoch": 1}, {"op": "show"})
        self.assertEqual(other.ask(op="confirm", node=2, epoch=9)["name"], "BadEpoch")
        answers = [client.reply() for _ in range(3)]
        self.assertTrue(is_carried_out(answers[0]), answers)
        self.assertEqual(answers[1]["kind"], "done")
        self.assertIn("nodes", answers[2])
        self.assertEqual(other.ask(op="reset", client=2, number=1, node=2)["kind"], "started")
        self.assertEqual(self.server.last(OWN), 2)

    def test_looks_that_take_longer_than_a_connection_is_kept(self) -> None:
        self.server.look_seconds = 1.1
        self.assertEqual(self.client().ask(op="reset", node=1, epoch=0)["kind"], "started")
        self.check(1)

    def test_a_connection_that_ends_after_the_view(self) -> None:
        self.server.is_left_after_view = True
        self.assertEqual(self.client().ask(op="reset", node=1, epoch=0)["kind"], "started")
        self.check(1)


class LostOrders(BeforeLosing):
    """Orders that the proxy numbers, several in one flight, whose answers are lost with the server's connection."""

    def in_one_flight(self, *requests: dict[str, Any]) -> list[dict[str, Any]]:
        """Sends each over another connection, and returns the answers."""
        clients = [self.client() for _ in requests]
        self.server.answers.clear()
        for client, request in zip(clients, requests):
            client.send(request)
            until("the proxy's reading", lambda: not unread(client))
        self.server.answers.set()
        return [client.reply() for client in clients]

    def test_orders_that_were_carried_out(self) -> None:
        """The server keeps the last reply alone."""
        self.server.mute_resets = 3
        answers = self.in_one_flight(*({"op": "reset", "node": node} for node in (1, 2, 3)))
        self.assertEqual([answer["kind"] for answer in answers], ["carried out", "carried out", "started"])
        self.assertEqual((self.server.nodes[1][1], self.server.last(OWN)), (3, 3))

    def test_an_order_that_was_not_carried_out(self) -> None:
        """Its number is not the next one, since the order before it is refused."""
        self.lose(False)
        answers = self.in_one_flight({"op": "confirm", "node": 1, "epoch": 9}, {"op": "reset", "node": 2})
        self.assertEqual(answers[0]["name"], "BadEpoch")
        self.assertEqual(answers[1]["kind"], "started")
        self.assertEqual((self.server.nodes[1][1], self.server.last(OWN)), (1, 1))


class LostWithItsClient(BeforeLosing):
    options = ("--patience", "0.5")

    def test_one_whose_client_is_gone(self) -> None:
        """It is not sent again for nobody."""
        client, is_gone = self.client(), threading.Event()
        self.lose(False, lambda: is_gone.wait(DEADLINE))
        client.send({"op": "reset", "node": 1, "epoch": 0})
        self.assertEqual(client.line(), b"")
        is_gone.set()
        self.assertEqual(until("an answer", self.reset_of_another)["kind"], "started")
        self.assertEqual([request["node"] for request in self.server.resets], [1, 2])

    def reset_of_another(self) -> dict[str, Any]:
        try:
            return self.client().ask(op="reset", node=2, epoch=0)
        except ConnectionError:
            return {}


if __name__ == "__main__":
    unittest.main()
