"""Views and wake-ups: `python3 -m unittest discover -s client/tests`."""

from __future__ import annotations

import os
import random
import sys
import unittest

from case import Case
from resetd_client import Follower, Link, Node, View, Wake
from resetd_client.rule import Kept, judge, shown_to
from resetd_client.view import Part


class Views(Case):
    def test_rows_are_typed(self) -> None:
        self.fake.ring(2)
        view = self.port.show()
        self.assertEqual(view.node(2), Node(2, 1, "ready", 0, 0, 0))
        self.assertEqual(View.of(view.members()), view)
        longer = view.members()
        longer["nodes"] = [[*row, 7] for row in longer["nodes"]]
        self.assertEqual(View.of(longer), view)

    def test_connected_and_tag(self) -> None:
        self.fake.ring(3)
        self.fake.nodes[9] = [1, 0, 0]
        before = self.port.show()
        self.assertEqual([node.node for node in before.connected(2)], [1, 2, 3])
        self.assertEqual(before.connected(8), ())
        self.fake.reset(9)
        self.assertEqual(self.port.show().tag(1), before.tag(3))
        self.fake.reset(2)
        self.assertNotEqual(self.port.show().tag(1), before.tag(1))
        self.assertNotEqual(before.tag(1), before.tag(1, "restored"))
        self.assertEqual([node.node for node in self.port.show().awaited(1)], [1, 2, 3])


class Parts(unittest.TestCase):
    def test_who_is_connected(self) -> None:
        """Random links give the same parts as following them one by one. Links may name nodes that do not exist."""
        chance = random.Random(7)
        for _ in range(200):
            nodes = sorted(chance.sample(range(1, 65), chance.randrange(1, 20)))
            ends = [sorted(chance.sample(range(1, 25), 2)) for _ in range(chance.randrange(30))]
            links = tuple(Link(a, b, place) for place, (a, b) in enumerate(ends))
            view = View(9, 9, tuple(Node(node, 1, chance.choice(("ready", "abort")), 0, 2, 2) for node in nodes), links)
            for node in nodes:
                reached = {node}
                for _ in links:
                    reached |= {end for link in links if reached & {link.a, link.b} for end in (link.a, link.b)}
                part = view.part(node)
                self.assertEqual([each.node for each in part.nodes], [each for each in nodes if each in reached])
                self.assertEqual(part.links, tuple(link for link in links if link.a in reached))
                self.assertEqual(part.is_quiet, all(each.mode == "ready" for each in part.nodes))
                self.assertEqual(view.connected(node), part.nodes)
            self.assertEqual((view.part(64 if 64 not in nodes else 99), view.party(99)), (Part(), frozenset()))

    def test_many_members_ask_a_view_once(self) -> None:
        """The due actions at 64 nodes need as many calls as those at a few, because common parts are computed once."""
        links = tuple(Link(node, (node + far - 1) % 64 + 1, far) for node in range(1, 65) for far in (1, 2))
        view = View(9, 9, tuple(Node(node, 1, "ready", 0, 2, 2) for node in range(1, 65)), links)
        calls = 0

        def count(frame: object, event: str, value: object) -> None:
            nonlocal calls
            calls += event in ("call", "c_call")
        sys.setprofile(count)
        try:
            for row in view.nodes:
                judge(Kept(2, None), (), shown_to(view, row))
        finally:
            sys.setprofile(None)
        self.assertLess(calls, 6_000)


class Wakes(Case):
    def test_a_file_that_grows_is_cut_replaced_and_gone(self) -> None:
        path = f"{self.folder}/signals"
        follower = Follower(path)
        self.assertIs(follower.wait(0), Wake.QUIET)
        for text, mode in (("a", "w"), ("b", "a"), ("", "w")):
            with open(path, mode, encoding="utf-8") as file:
                file.write(text)
            self.assertIs(follower.wait(5), Wake.CAME)
            self.assertIs(follower.wait(0), Wake.QUIET)
        with open(path + "2", "w", encoding="utf-8"):
            pass
        os.replace(path + "2", path)
        self.assertIs(follower.wait(5), Wake.CAME)
        os.remove(path)
        self.assertIs(follower.wait(5), Wake.CAME)

    def test_it_waits_no_longer_than_the_given_time(self) -> None:
        self.assertIs(Follower(f"{self.folder}/none").wait(0.2), Wake.QUIET)
