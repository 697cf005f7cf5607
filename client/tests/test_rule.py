"""The rule of a member, as a table: stored and shown values, the due action, and the values to store. Nothing is read or
written."""

from __future__ import annotations

import hashlib
import unittest
from collections.abc import Container

import case  # noqa: F401
from resetd_client import Due, Node, View
from resetd_client.party import are_parted, digest_of, is_alone, is_same_run, tag_of
from resetd_client.rule import Judged, Kept, judge, shown_to


def view_of(*rows: tuple[int, int, int]) -> View:
    """Returns a view of nodes, each with its epoch and confirmed epoch, in a row whose links were made by steps 1 and so on."""
    nodes = tuple(Node(node, 1, "ready", 0, epoch, confirmed) for node, epoch, confirmed in rows)
    return View.of({"accepted": 9, "settled": 9, "nodes": nodes,
                    "links": [[a.node, b.node, step] for step, (a, b) in enumerate(zip(nodes, nodes[1:]), 1)]})


def judged(view: View, kept: Kept = Kept(), history: Container[str] = ()) -> Judged:
    """Returns the due action for node 1."""
    row = view.node(1)
    assert row
    return judge(kept, history, shown_to(view, row))


def in_reset(view: View, node: int) -> View:
    rows = tuple(each._replace(mode="abort") if each.node == node else each for each in view.nodes)
    return View(9, 9, rows, view.links)


THROUGH = view_of((1, 4, 4), (2, 7, 7))
PARTY = THROUGH.party(1)
DIGEST = digest_of(PARTY)


class Table(unittest.TestCase):
    def test_an_epoch_above_the_confirmed_is_begun(self) -> None:
        """It is begun whatever the epoch was before, and whatever is stored. Nothing stored remains."""
        for kept in (Kept(), Kept(4), Kept(5, PARTY), Kept(9, PARTY)):
            for view in (view_of((1, 5, 4), (2, 8, 7)), in_reset(view_of((1, 5, 4), (2, 8, 7)), 2)):
                self.assertEqual(judged(view, kept, {DIGEST}), Judged(Due.BEGIN, Kept()))

    def test_one_that_an_earlier_start_talked_in_is_not(self) -> None:
        view = view_of((1, 4, 3), (2, 7, 7))
        self.assertEqual(judged(view, Kept(4, None), {DIGEST}), Judged(Due.RESET, Kept(4, None)))
        self.assertEqual(judged(in_reset(view, 2), Kept(), {DIGEST}), Judged(Due.WAIT, Kept()))

    def test_it_waits_for_others(self) -> None:
        for view in (view_of((1, 4, 4), (2, 8, 7)), in_reset(THROUGH, 1), in_reset(THROUGH, 2)):
            for kept in (Kept(4), Kept(4, PARTY)):
                self.assertEqual(judged(view, kept), Judged(Due.WAIT, kept))

    def test_it_talks_first(self) -> None:
        self.assertEqual(judged(THROUGH, Kept(4)), Judged(Due.TALK, Kept(4, PARTY), DIGEST))

    def test_it_does_not_talk_by_a_party_of_an_earlier_start(self) -> None:
        self.assertEqual(judged(THROUGH, Kept(4), {DIGEST}), Judged(Due.RESET, Kept(4)))

    def test_it_talks_on_while_others_go(self) -> None:
        """It keeps talking by its first party, which is in its history."""
        first = view_of((1, 4, 4), (2, 7, 7), (3, 1, 1))
        kept = Kept(4, first.party(1))
        for view in (first, THROUGH, view_of((1, 4, 4))):
            self.assertEqual(judged(view, kept, {digest_of(first.party(1)), DIGEST}), Judged(Due.TALK, kept))

    def test_it_does_not_talk_with_one_that_came(self) -> None:
        kept = Kept(4, view_of((1, 4, 4), (2, 7, 7), (3, 1, 1)).party(1))
        other_link = View(9, 9, THROUGH.nodes, tuple(link._replace(incarnation=5) for link in THROUGH.links))
        for view in (view_of((1, 4, 4), (2, 8, 8)), view_of((1, 4, 4), (3, 1, 1)), other_link,
                     view_of((1, 4, 4), (2, 7, 7), (3, 1, 1), (9, 0, 0))):
            self.assertEqual(judged(view, kept), Judged(Due.RESET, kept))

    def test_a_start_that_is_alone_is_not_in_the_history(self) -> None:
        alone = view_of((1, 4, 4))
        self.assertEqual(judged(alone, Kept(4)), Judged(Due.TALK, Kept(4, alone.party(1))))
        self.assertEqual(judged(THROUGH, Kept(4, alone.party(1))).due, Due.RESET)

    def test_work_that_is_not_what_is_shown(self) -> None:
        """There is no work, work of another epoch, or work of an epoch that another client confirmed."""
        for view, begun in ((view_of((1, 0, 0)), None), (THROUGH, None), (THROUGH, 5), (THROUGH, 3), (view_of((1, 6, 6)), 5)):
            for party in (None, PARTY):
                kept = Kept(begun, party)
                self.assertEqual(judged(view, kept), Judged(Due.RESET, kept))
                self.assertEqual(judged(in_reset(view, 1), kept), Judged(Due.WAIT, kept))


class Tags(unittest.TestCase):
    FIRST, LESS, OTHER = (frozenset(lines) for lines in (("1 4", "10 2", "2 7", "1 2 3"), ("1 4", "2 7", "1 2 3"), ("1 5", "2 8", "1 2 3")))

    def test_the_text(self) -> None:
        """Its lines are sorted by their bytes, each with a line feed, after the group's word."""
        text = b"1 2 3\n1 4\n10 2\n2 7\n"
        self.assertEqual(digest_of(self.FIRST), hashlib.sha256(text).hexdigest())
        self.assertEqual(digest_of(self.FIRST, "word"), hashlib.sha256(b"word\n" + text).hexdigest())

    def test_both_digests(self) -> None:
        for word in ("", "word"):
            first, less = digest_of(self.FIRST, word)[:32], digest_of(self.LESS, word)[:32]
            self.assertEqual(tag_of(self.FIRST, self.LESS, word), f"{first}-{less}")

    def test_one_that_was_alone_has_none(self) -> None:
        alone = frozenset({"1 4"})
        self.assertEqual((is_alone(alone), is_alone(self.LESS), tag_of(alone, alone, "word")), (True, False, ""))

    def test_a_run_is_known_by_the_first_party(self) -> None:
        own = tag_of(self.FIRST, self.FIRST)
        for other, is_same in ((own, True), (tag_of(self.FIRST, self.LESS), True), (tag_of(self.LESS, self.FIRST), False),
                               (tag_of(self.OTHER, self.OTHER), False), ("", False), ("-", False)):
            self.assertEqual((is_same_run(own, other), is_same_run("", other)), (is_same, False))

    def test_two_that_refuse_each_other_for_ever(self) -> None:
        """They talk in two runs, and both are shown the same party."""
        own = tag_of(self.FIRST, self.LESS)
        for other, parted in ((tag_of(self.LESS, self.LESS), True), (tag_of(self.LESS, self.FIRST), False), (own, False),
                              (tag_of(self.FIRST, self.FIRST), False), ("", False)):
            self.assertEqual((are_parted(own, other), are_parted(other, own)), (parted, parted))
        self.assertFalse(are_parted("", own))
