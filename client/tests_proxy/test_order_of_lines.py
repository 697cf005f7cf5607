"""What a client sees of its own lines and of others', when they wait together."""

from __future__ import annotations

import signal
import socket
import threading
import unittest
from typing import Any

from case import Case, Client, unread, until


class Held(Case):
    """The server stands still until `go_on`, so that lines wait together."""

    nodes = 2

    def hold(self) -> Client:
        """A client whose look is on its way."""
        assert self.server.process
        looking = self.client()
        looking.ask(op="show")
        self.server.process.send_signal(signal.SIGSTOP)
        self.addCleanup(self.go_on)
        self.send(looking, {"op": "show"})
        return looking

    def send(self, client: Client, *lines: dict[str, Any]) -> None:
        client.send(*lines)
        until("that it was read", lambda: unread(client) == 0)

    def go_on(self) -> None:
        if self.server.process and self.server.process.poll() is None:
            self.server.process.send_signal(signal.SIGCONT)

    def test_a_look_after_an_order_shows_it(self) -> None:
        """Also if another's order, which the server refuses, goes with it."""
        self.proxy.ask(op="reset", node=1)
        self.server.await_settled()
        numbered, same, mine = self.client(), self.client(), self.client()
        self.hold()
        self.send(numbered, {"op": "confirm", "client": 1, "number": 1, "node": 1, "epoch": 1})
        self.send(same, {"op": "confirm", "node": 1, "epoch": 1})
        self.send(mine, {"op": "confirm", "node": 2, "epoch": 1}, {"op": "show"})
        self.go_on()
        self.assertEqual(numbered.reply()["kind"], "done")
        self.assertEqual(same.reply().get("name"), "BadEpoch")
        self.assertEqual(mine.reply()["kind"], "done")
        self.assertEqual([row[5] for row in mine.reply()["nodes"]], [1, 1])

    def test_a_confirm_and_a_reset_of_one_node_and_epoch_are_two_orders(self) -> None:
        self.proxy.ask(op="reset", node=1)
        self.server.await_settled()
        one, other = self.client(), self.client()
        self.hold()
        self.send(one, {"op": "reset", "node": 1, "epoch": 1})
        self.send(other, {"op": "confirm", "node": 1, "epoch": 1})
        self.go_on()
        reset, confirm = one.reply(), other.reply()
        self.assertIn(reset.get("kind", reset.get("name")), ("started", "joined", "BadEpoch"))
        self.assertIn(confirm.get("kind", confirm.get("name")), ("done", "BadEpoch"))
        view = self.server.await_settled()
        self.assertEqual(view["nodes"][0][5], 1 if "kind" in confirm else 0)

    def test_no_more_is_read_than_may_be_in_the_works(self) -> None:
        client = self.client()
        self.hold()
        client.socket.settimeout(5)
        with self.assertRaises(TimeoutError):
            for _ in range(1_000):
                client.socket.sendall(b'{"op":"show"}\n' * 1_000)



class Alone(Case):
    """One node without links, whose epoch is known as soon as a reset was answered."""

    nodes = 1

    def test_a_reset_at_an_epoch_beside_plain_ones(self) -> None:
        """It is carried out at that epoch or refused, whatever else is ordered meanwhile."""
        stop = threading.Event()

        def plain() -> None:
            with self.proxy.connect() as client:
                while not stop.is_set():
                    client.ask(op="reset", node=1)
        others = [threading.Thread(target=plain) for _ in range(3)]
        for other in others:
            other.start()
        try:
            carried_out = sum(self.resets_at_epochs() for _ in range(20))
        finally:
            stop.set()
            for other in others:
                other.join()
        self.assertGreater(carried_out, 0)

    def resets_at_epochs(self) -> int:
        """Sends resets for the epochs that come next; each step is one epoch. How many were carried out."""
        clients = [self.client() for _ in range(12)]
        view = clients[0].ask(op="show")
        ahead = view["nodes"][0][4]
        for place, client in enumerate(clients):
            client.send({"op": "reset", "node": 1, "epoch": ahead + place})
        count = 0
        for place, client in enumerate(clients):
            answer = client.reply()
            if "kind" in answer and answer["step"]:
                self.assertEqual(answer["step"] - view["settled"] + ahead, ahead + place + 1, answer)
                count += 1
            client.socket.shutdown(socket.SHUT_RDWR)
        return count


if __name__ == "__main__":
    unittest.main()
