"""Orders through the proxy: many at once, without a number, joined, and after kills."""

from __future__ import annotations

import contextlib
import json
import socket
import threading
import time
import unittest
from typing import Any

from case import OWN, Case, unread, until
from resetd_client import Orders, Port


class Many(Case):
    nodes = 64

    def reset(self) -> None:
        self.assertEqual(self.proxy.ask(op="reset", node=1)["kind"], "started")
        self.server.await_settled()

    def test_64_clients_at_once(self) -> None:
        """Each has its own answers, in the order of its lines."""
        self.reset()
        clients = [self.client() for _ in range(64)]
        for node, client in enumerate(clients, 1):
            client.send({"op": "show"}, {"op": "confirm", "node": node, "epoch": 1}, {"op": "confirm", "node": node, "epoch": 2},
                        b"no request\n", {"op": "show"})
        steps = set()
        for node, client in enumerate(clients, 1):
            first, done, refused, fault, last = (client.reply() for _ in range(5))
            self.assertEqual((first["nodes"][node - 1][5], done["kind"], refused["name"], fault, last["nodes"][node - 1][5]),
                             (0, "done", "BadEpoch", {"fault": "BadJson"}, 1))
            steps.add(done["step"])
        self.assertEqual(len(steps), 64)

    def test_one_with_many_lines_holds_no_other_up(self) -> None:
        """More lines than a connection may have in the works, all at once and with answers that nobody reads at first."""
        many, few = self.client(), self.client()
        writer = threading.Thread(target=many.send, args=[b'{"op":"show"}\n' * 3_000])
        writer.start()
        self.assertIn("nodes", few.ask(op="show"))
        for _ in range(3_000):
            self.assertIn("nodes", many.reply())
        writer.join()


class Unnumbered(Case):
    nodes = 3

    def epochs(self) -> list[int]:
        return [row[4] for row in self.server.await_settled()["nodes"]]

    def test_a_number_is_found_after_a_kill_of_the_proxy(self) -> None:
        for _ in range(3):
            self.assertEqual(self.proxy.ask(op="reset", node=1)["kind"], "started")
            self.server.await_settled()
            self.proxy.kill()
            self.proxy.start()
        self.assertEqual(self.epochs(), [3, 3, 3])

    def test_a_refused_order_leaves_its_number_to_the_next(self) -> None:
        """Orders of others after it, in the same flight, are carried out all the same."""
        self.proxy.ask(op="reset", node=1)
        self.server.await_settled()
        client, other = self.client(), self.client()
        client.send(*({"op": "confirm", "node": 1, "epoch": epoch} for epoch in (7, 1, 8, 9)), {"op": "reset", "node": 64})
        other.send({"op": "confirm", "node": 2, "epoch": 1})
        self.assertEqual(other.reply()["kind"], "done")
        self.assertEqual([client.reply().get("name") for _ in range(5)], ["BadEpoch", None, "BadEpoch", "BadEpoch", "UnknownNode"])

    def test_a_count_that_somebody_else_changed_is_found(self) -> None:
        self.proxy.ask(op="reset", node=1)
        self.server.await_settled()
        for number in range(2, 5):
            self.assertEqual(self.server.ask(op="reset", client=OWN, number=number, node=1)["kind"] != "", True)
            self.server.await_settled()
        self.assertIn(self.proxy.ask(op="reset", node=2)["kind"], ("started", "joined"))
        self.assertEqual(self.epochs(), [5, 5, 5])

    def test_nobody_else_orders_as_the_proxy(self) -> None:
        self.assertEqual(self.proxy.ask(op="reset", client=OWN, number=1, node=1), {"fault": "NotAllowed"})
        self.assertEqual(self.proxy.ask(op="reset", client=OWN - 1, number=1, node=1)["kind"], "started")

    def test_resets_that_name_the_epoch_cost_one(self) -> None:
        """Members that ask one after the other, each for the epoch that it saw, make one reset."""
        for node in (1, 2, 3, 1, 2, 3):
            answer = self.proxy.ask(op="reset", node=node, epoch=0)
            self.assertTrue(answer.get("kind") in ("started", "joined") or answer.get("name") == "BadEpoch", answer)
        self.assertEqual(self.epochs(), [1, 1, 1])
        self.assertEqual(self.proxy.ask(op="reset", node=3, epoch=0), {"name": "BadEpoch", "refused": 15})
        self.assertEqual(self.proxy.ask(op="reset", node=9, epoch=0), {"name": "UnknownNode", "refused": 6})
        self.assertEqual(self.proxy.ask(op="reset", node=3, epoch=1)["kind"], "started")
        self.assertEqual(self.epochs(), [2, 2, 2])

    def test_resets_at_once_that_name_the_epoch_cost_one(self) -> None:
        clients = [self.client() for _ in range(30)]
        for place, client in enumerate(clients):
            client.send({"op": "reset", "node": 1 + place % 3, "epoch": 0})
        for client in clients:
            client.reply()
        self.assertEqual(self.epochs(), [1, 1, 1])



class Away(Case):
    nodes = 2

    def test_lines_wait_for_a_server_that_is_away(self) -> None:
        self.server.kill()
        clients = [self.client() for _ in range(8)]
        for number, client in enumerate(clients, 1):
            client.send({"op": "reset", "client": number, "number": 1, "node": 1})
        until("a proxy that misses the server", lambda: "no server" in self.proxy.said())
        self.server.start()
        self.assertEqual({client.reply()["kind"] for client in clients} - {"started", "joined"}, set())

    def test_the_port_is_left_to_others(self) -> None:
        """A client that always has something waiting does not keep others from the port itself."""
        client, sent = self.client(), []

        def flood() -> None:
            with contextlib.suppress(OSError):
                while True:
                    client.send(b'{"op":"resend"}\n' * 500)
                    sent.append(500)

        def read() -> None:
            with contextlib.suppress(OSError):
                while client.reply():
                    pass
        busy = [threading.Thread(target=each, daemon=True) for each in (flood, read)]
        for each in busy:
            each.start()
        until("a flood", lambda: len(sent) > 10)
        try:
            for _ in range(3):
                self.assertIn("nodes", self.server.ask(op="show"))
        finally:
            client.socket.shutdown(socket.SHUT_RDWR)
        for each in busy:
            each.join()

    def test_the_library_orders_through_it(self) -> None:
        """`Orders` of the library, with its own client."""
        with Orders(Port(f"unix:{self.proxy.path}"), 3, f"{self.folder}/orders") as orders:
            self.assertEqual(orders.order("reset", node=1).kind, "started")
            self.server.await_settled()
            self.assertEqual([outcome.kind for outcome in orders.order_all(  # type: ignore[union-attr]
                [{"op": "confirm", "node": node, "epoch": 1} for node in (1, 2)])], ["done", "done"])

    def test_a_close_ends_the_server_once(self) -> None:
        self.assertEqual(self.proxy.ask(op="close"), {"kind": "closed"})
        until("the end of the server", lambda: self.server.process and self.server.process.poll() is not None)
        self.server.start()
        self.assertIn("nodes", self.proxy.ask(op="show"))


class ShortTimeout(Case):
    nodes = 2
    options = ("--patience", "0.5")

    def test_a_connection_without_an_answer_is_ended(self) -> None:
        self.server.kill()
        began = time.monotonic()
        with self.proxy.connect() as client:
            client.send({"op": "reset", "client": 1, "number": 1, "node": 1})
            self.assertEqual(client.line(), b"")
        self.assertGreaterEqual(time.monotonic() - began, 0.5)
        self.server.start()
        self.assertEqual(self.asked_again()["kind"], "started")

    def test_one_whose_line_waits_for_the_reset_of_another_is_ended(self) -> None:
        """The proxy takes that line only after it has judged the reset, but its time counts from when it came."""
        self.server.kill()
        lines: list[dict[str, Any]] = [{"op": "show"}, {"op": "watch"}, {"op": "reset", "node": 2, "epoch": 0}]
        for line in lines:
            with self.subTest(line), self.proxy.connect() as one, self.proxy.connect() as other:
                one.send({"op": "reset", "node": 1, "epoch": 0})
                until("that it was read", lambda: unread(one) == 0)
                began = time.monotonic()
                other.send(line)
                self.assertEqual(other.line(), b"")
                self.assertGreaterEqual(time.monotonic() - began, 0.5)

    def asked_again(self) -> dict[str, Any]:
        """The same order once more, until it is answered."""
        def answered() -> dict[str, Any] | None:
            with self.proxy.connect() as client:
                client.send({"op": "reset", "client": 1, "number": 1, "node": 1})
                line = client.line()
            return json.loads(line) if line else None
        return until("an answer", answered) or {}


if __name__ == "__main__":
    unittest.main()
