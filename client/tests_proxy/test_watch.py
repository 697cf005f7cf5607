"""`watch`: a view at once, at each change, and from time to time; slow and dead watchers."""

from __future__ import annotations

import json
import socket
import unittest
from typing import Any

from case import DENIED, USER, Case, Client, policy, write_policy


class Watching(Case):
    nodes = 8

    def started(self, *arguments: str, **how: Any) -> Any:
        return super().started("--signals", self.server.signals, *arguments, **how)

    def watcher(self) -> tuple[Client, dict[str, Any]]:
        client = self.client()
        return client, client.ask(op="watch")

    def view_where(self, client: Client, holds: Any) -> dict[str, Any]:
        """The first view of those that come for which this holds."""
        while not holds(view := client.reply()):
            pass
        return view

    def test_a_reset_through_the_proxy_and_one_beside_it(self) -> None:
        client, view = self.watcher()
        self.assertEqual([row[4] for row in view["nodes"]], [0] * 8)
        self.proxy.ask(op="reset", node=1)
        self.view_where(client, lambda view: all(row[2] == "ready" and row[4] == 1 for row in view["nodes"]))
        self.server.ask(op="reset", client=3, number=1, node=2)
        self.view_where(client, lambda view: all(row[2] == "ready" and row[4] == 2 for row in view["nodes"]))
        self.proxy.ask(op="confirm", node=5, epoch=2)
        self.view_where(client, lambda view: view["nodes"][4][5] == 2)
        self.proxy.ask(op="drop", client=1, number=1, a=1, b=2)
        self.view_where(client, lambda view: len(view["links"]) == 7)

    def test_it_gets_views_after_the_server_was_away(self) -> None:
        client, _ = self.watcher()
        self.server.kill()
        self.server.start()
        self.proxy.ask(op="reset", node=1)
        self.view_where(client, lambda view: all(row[4] == 1 for row in view["nodes"]))

    def test_one_that_does_not_read_holds_nobody_up(self) -> None:
        """A slow client gets few views, and the newest in the end; another gets them all the while."""
        with socket.socket(socket.AF_UNIX) as slow:
            slow.setsockopt(socket.SOL_SOCKET, socket.SO_RCVBUF, 1)
            slow.connect(self.proxy.path)
            slow.sendall(b'{"op":"watch"}\n')
            client, _ = self.watcher()
            for epoch in range(1, 4):
                self.proxy.ask(op="reset", node=1)
                self.view_where(client, lambda view: all(row[2] == "ready" and row[4] == epoch for row in view["nodes"]))
            slow.settimeout(120)
            late = Client(slow)
            self.view_where(late, lambda view: all(row[4] == 3 for row in view["nodes"]))

    def test_one_that_leaves(self) -> None:
        client, _ = self.watcher()
        client.close()
        self.proxy.ask(op="show")  # its end has been seen by then
        self.proxy.ask(op="reset", node=1)
        self.assertEqual([row[4] for row in self.server.await_settled()["nodes"]], [1] * 8)

    def test_other_lines_over_the_same_connection(self) -> None:
        client, _ = self.watcher()
        client.send({"op": "reset", "node": 1}, b"fly\n")
        answers: list[dict[str, Any]] = []
        while len(answers) < 2:
            answer = json.loads(client.line())
            if "nodes" not in answer:
                answers.append(answer)
        self.assertEqual((answers[0]["kind"], answers[1]), ("started", {"fault": "BadJson"}))

    def test_lines_after_a_watch_wait_for_its_view(self) -> None:
        """A view is the answer to a `watch`, and answers come in turn: over a new connection, and at a second `watch`."""
        for _ in range(10):
            client = self.client()
            for _ in range(2):
                client.send({"op": "watch"}, {"op": "confirm", "node": 1, "epoch": 0}, b"fly\n")
                self.assertIn("nodes", client.reply())
                self.assertEqual([client.reply().get("fault") for _ in range(2)], [None, "BadJson"])

    def test_who_may_watch_no_more_is_disconnected(self) -> None:
        self.proxy.kill()
        path = f"{self.folder}/policy"
        write_policy(path, policy((USER, ["watch"])))
        self.proxy = self.started("--policy", path)
        client, _ = self.watcher()
        write_policy(path, policy((USER, ["show"])))
        while client.line():
            pass
        self.assertEqual(self.proxy.ask(op="watch"), DENIED)
        self.assertIn("nodes", self.proxy.ask(op="show"))


if __name__ == "__main__":
    unittest.main()
