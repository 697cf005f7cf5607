"""Resets that overlap: two or three members ask at the same time, and the server prints signals until all are ready again."""

import collections
import random
import subprocess
from collections.abc import Iterable, Sequence
from typing import Any, NamedTuple

from support.case import Case, tool, until
from support.served import FINISHED, JOINED, STARTED, Served
from support.serving import Answer, Serving
from support.stores import topology

RESETS = 125  # for each graph
ROUNDS = 60  # with resets while links are dropped and added
FEWEST_OVERLAPS = 10  # the least number of times that two or more resets were started before all nodes were ready again, for each graph


class Asked(NamedTuple):
    """A reset that was accepted: its node, and the kind and the step of the reply."""

    node: int
    kind: str
    step: int


class Moment(NamedTuple):
    """A moment at which all nodes of a group are ready: the number of settled steps, and the epoch of each node."""

    settled: int
    epochs: dict[int, int]


class Group:
    """Nodes that links connect with each other and with no other node, and the last moment at which all of them were ready."""

    def __init__(self, nodes: Iterable[int]) -> None:
        self.nodes = tuple(nodes)
        self.last = Moment(0, dict.fromkeys(self.nodes, 0))
        self.owed = dict[int, int]()  # nodes that asked and were later shown in a reset, each with the shown epoch

    def rows(self, shown: Answer) -> list[list[Any]]:
        return [row for row in shown["nodes"] if row[0] in self.nodes]

    def moment(self, shown: Answer) -> Moment | None:
        """Returns the moment that a view shows, or None if a node of the group is in a reset."""
        rows = self.rows(shown)
        is_ready = all(row[2] == "ready" for row in rows)
        return Moment(shown["settled"], {row[0]: row[4] for row in rows}) if is_ready else None

    def note_owed(self, shown: Answer, askers: Sequence[int]) -> None:
        self.owed |= {row[0]: row[4] for row in self.rows(shown) if row[0] in askers and row[2] != "ready"}


def count_up_to(epochs: list[int], epoch: int) -> int:
    """Returns how many of a node's signals were printed up to the last one of this epoch. Epoch 0 has no signal."""
    return len(epochs) - epochs[::-1].index(epoch) if epoch else 0


class Overlaps(Served):
    takes = 5

    def ask(self, server: Serving, packets: list[list[int]], numbers: collections.Counter[int]) -> list[Asked]:
        """Asks for a reset of each of these nodes; the nodes in one packet ask at the same time. Each is a client with the
        node's number."""
        asked = []
        with server.connect() as connection:
            for nodes in packets:
                numbers.update(nodes)
                connection.send(*({"op": "reset", "client": node, "number": numbers[node], "node": node} for node in nodes))
                replies = [connection.reply() for _ in nodes]
                asked += [Asked(node, reply["kind"], reply["step"]) for node, reply in zip(nodes, replies)]
        return asked

    def expect_signals(self, server: Serving, group: Group, now: Moment, asked: list[Asked]) -> bool:
        """Checks how many signals of each node of a group were printed between the last two moments at which all were ready.
        Returns whether two or more resets were started meanwhile."""
        last, owed, group.last, group.owed = group.last, group.owed, now, {}
        since = [each for each in asked if each.node in group.nodes and last.settled < each.step <= now.settled]
        kinds = collections.Counter(each.kind for each in since)
        printed = until(f"the signals of {now}", lambda: self.printed_up_to(server, now))
        for node, epoch in now.epochs.items():
            signals = count_up_to(printed[node], epoch) - count_up_to(printed[node], last.epochs[node])
            message = f"node {node} was signalled {signals} times: {since}"
            if len(group.nodes) == 1:
                self.assertEqual((signals, kinds.total()), (kinds[FINISHED], kinds[FINISHED]), message)
            else:
                self.assertEqual(kinds.total(), kinds[STARTED] + kinds[JOINED], message)
                self.assertLessEqual(min(1, kinds.total()), signals, message)
                self.assertLessEqual(signals, kinds[STARTED], message)
            self.assertGreater(epoch, owed.get(node, -1), message)
        return kinds[STARTED] > 1

    def printed_up_to(self, server: Serving, now: Moment) -> dict[int, list[int]] | None:
        """Returns the epochs of each node's printed signals, in order, or None if the signal of a present epoch is missing."""
        signals = server.signals()
        printed = {node: [epoch for signalled, epoch in signals if signalled == node] for node in now.epochs}
        return printed if all(epoch in [0, *printed[node]] for node, epoch in now.epochs.items()) else None

    def expect_overlaps(self, groups: list[Group], links: list[tuple[int, int]]) -> None:
        """Two or three random nodes ask at the same time, and possibly one of them again while the reset of the others runs.
        Sometimes the next ones ask before all are ready."""
        random.seed(len(links))
        nodes = [(node, group) for group, members in enumerate(groups, 1) for node in members.nodes]
        asked, numbers, overlaps, is_at_rest = list[Asked](), collections.Counter[int](), 0, True
        with Serving(self.made(topology(nodes, links))) as server:
            def look() -> bool:
                nonlocal overlaps
                shown, is_at_rest = server.show(), True
                for group in groups:
                    if now := group.moment(shown):
                        overlaps += self.expect_signals(server, group, now, asked)
                    else:
                        is_at_rest = False
                return is_at_rest

            while len(asked) < RESETS or not is_at_rest:
                if len(asked) < RESETS:
                    askers = random.sample([node for node, _ in nodes], random.choice((2, 3)))
                    split = random.choice((len(askers), len(askers) - 1))
                    asked += self.ask(server, [askers[:split], askers[split:]], numbers)
                    shown = server.show()
                    for group in groups:
                        group.note_owed(shown, askers)
                is_at_rest = look() if random.random() < 0.2 else until("the end of the resets", look)
            self.expect_each_signal_once(server)
            self.assertGreaterEqual(overlaps, FEWEST_OVERLAPS)
            self.assertEqual(server.close().status, 0)

    def test_a_path(self) -> None:
        self.expect_overlaps([Group(range(1, 6))], [(node, node + 1) for node in range(1, 5)])

    def test_a_ring(self) -> None:
        self.expect_overlaps([Group(range(1, 6))], [(node, node % 5 + 1) for node in range(1, 6)])

    def test_a_star(self) -> None:
        self.expect_overlaps([Group(range(1, 6))], [(1, node) for node in range(2, 6)])

    def test_two_groups_and_a_node_alone(self) -> None:
        """One group is ready at moments at which the other one is in a reset."""
        self.expect_overlaps([Group((1, 2, 3)), Group((5, 6, 7)), Group([9])], [(1, 2), (2, 3), (5, 6), (6, 7), (5, 7)])

    def test_links_that_come_and_go(self) -> None:
        """While links are dropped and added, each node gets at most as many signals as resets were started and links dropped,
        plus its own resets that were answered `finished`."""
        random.seed(5)
        links = [(node, node % 5 + 1) for node in range(1, 6)]
        group, away, numbers = Group(range(1, 6)), set[tuple[int, int]](), collections.Counter[int]()
        with Serving(self.made(topology([(node, 1) for node in group.nodes], links))) as server:
            for _ in range(ROUNDS):
                changed = random.sample(links, 2)
                orders: list[dict[str, Any]] = [{"op": "reset", "node": node} for node in random.sample(group.nodes, 3)]
                orders += [{"op": "join" if link in away else "drop", "a": link[0], "b": link[1]} for link in changed]
                random.shuffle(orders)
                away ^= set(changed)
                replies = self.order_each(server, orders, numbers)
                now = until("the end of the resets", lambda: group.moment(server.show()))
                printed = until(f"the signals of {now}", lambda: self.printed_up_to(server, now))
                last, group.last = group.last, now
                bound = sum(reply["kind"] == STARTED for reply in replies) + sum(order["op"] == "drop" for order in orders)
                for node, epoch in now.epochs.items():
                    signals = count_up_to(printed[node], epoch) - count_up_to(printed[node], last.epochs[node])
                    alone = sum(reply["kind"] == FINISHED and order["node"] == node for order, reply in zip(orders, replies))
                    self.assertLessEqual(signals, bound + alone, f"node {node}: {orders}, {replies}")
            self.expect_each_signal_once(server)
            self.assertEqual(server.close().status, 0)

    def order_each(self, server: Serving, orders: list[dict[str, Any]], numbers: collections.Counter[int]) -> list[Answer]:
        """Sends orders at the same time, each by the client with its node's number, and returns their replies. An order about a
        link is sent by client 6."""
        numbered = []
        for order in orders:
            client = order.get("node", 6)
            numbers[client] += 1
            numbered.append(order | {"client": client, "number": numbers[client]})
        with server.connect() as connection:
            connection.send(*numbered)
            return [connection.reply() for _ in orders]



class Searches(Case):
    """All short runs of models: of the reset rules, and of members while resets overlap."""

    programs = ()
    takes = 5

    def search(self, name: str, *arguments: str) -> subprocess.CompletedProcess[str]:
        return subprocess.run([tool(name), *arguments], capture_output=True, text=True, check=False)

    def test_the_rules_with_a_link_that_is_dropped(self) -> None:
        found = self.search("overlap_search", "--drops", "1", "--joins", "1")
        self.assertEqual(found.returncode, 0, found.stdout)

    def test_wrong_rules(self) -> None:
        for rule in ("pass_on_signals", "silent_child", "start_alone", "joined_when_ready", "drop_starts"):
            found = self.search("overlap_search", "--rule", rule)
            self.assertEqual(found.returncode, 0, found.stdout)

    def test_two_members_one_of_which_loses_its_files(self) -> None:
        found = self.search("overlap_members", "--graph", "link", "--losses", "1", "--seconds", "1000")
        self.assertEqual(found.returncode, 0, found.stdout)
        self.assertNotIn("cut off", found.stdout)

    def test_members_over_a_wrong_rule(self) -> None:
        found = self.search("overlap_members", "--graph", "link", "--rule", "joined_when_ready", "--seconds", "1000")
        self.assertEqual(found.returncode, 1)
        self.assertIn("talked before a reset was asked for talk on", found.stdout)
