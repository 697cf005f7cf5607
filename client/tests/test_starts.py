"""The stored state of a member's starts, and what a power cut leaves of it."""

from __future__ import annotations

import json
import os
import tempfile
import unittest
from collections.abc import Callable
from dataclasses import replace
from unittest import mock

import case  # noqa: F401
from resetd_client import Due, Fence, Shelf, Starts, Unreadable, View, keep, read
from resetd_client.history import History
from resetd_client.party import digest_of
from test_rule import DIGEST, PARTY, THROUGH, in_reset, view_of

UNCONFIRMED = view_of((1, 4, 3), (2, 7, 7))


class Cut(Exception):
    """Raised when the power is cut."""


class Case(unittest.TestCase):
    def setUp(self) -> None:
        temporary = tempfile.TemporaryDirectory()
        self.addCleanup(temporary.cleanup)
        self.folder = temporary.name
        self.path = f"{self.folder}/start.json"

    def due(self, starts: Starts, view: View) -> Due:
        row = view.node(1)
        assert row
        return starts.due(view, row)


class Kept(Case):
    def begun(self, epoch: int) -> tuple[Shelf, Starts]:
        """Returns a start of this epoch that has not talked."""
        shelf = Shelf(self.path)
        starts = Starts(shelf, 1, None)
        starts.note_begin()
        starts.note_begun(epoch)
        shelf.keep()
        return shelf, starts

    def test_who_first_talked_is_written_down(self) -> None:
        shelf, starts = self.begun(4)
        more = view_of((1, 4, 4), (2, 7, 7), (3, 0, 0))
        self.assertEqual([self.due(starts, each) for each in (THROUGH, more)], [Due.TALK, Due.RESET])
        shelf.keep()
        again = Starts(Shelf(self.path), 1, 4)
        self.assertEqual([self.due(again, each) for each in (more, THROUGH)], [Due.RESET, Due.TALK])
        self.assertEqual(json.loads(read(self.path) or ""), {"1": {"begun": 4, "party": sorted(PARTY), "count": 9}})
        self.assertEqual(read(f"{self.folder}/start.history"), f"{DIGEST}\n")

    def test_a_party_comes_only_once(self) -> None:
        """If an earlier start talked with this party, a later one asks for a reset: it doesn't talk, and nothing is begun."""
        shelf, starts = self.begun(4)
        self.due(starts, THROUGH)
        shelf.keep()
        _, starts = self.begun(4)
        self.assertEqual([self.due(starts, view) for view in (THROUGH, UNCONFIRMED)], [Due.RESET, Due.RESET])

    def test_a_begin_takes_the_party_and_the_work_in_one_write(self) -> None:
        shelf, starts = self.begun(4)
        self.due(starts, THROUGH)
        shelf.keep()
        starts.note_begin()
        with mock.patch("os.fdatasync", side_effect=os.fdatasync) as synced, mock.patch("os.fsync") as others:
            shelf.keep(is_synced=True)
        self.assertEqual((synced.call_count, others.call_count, read(self.path)), (1, 0, ""))
        other = view_of((1, 4, 4), (9, 7, 7))
        self.assertEqual(self.due(Starts(Shelf(self.path), 1, 4), other), Due.RESET)

    def test_a_start_that_is_begun_has_talked_with_nobody(self) -> None:
        shelf, starts = self.begun(4)
        self.due(starts, THROUGH)
        starts.note_begun(5)
        shelf.keep()
        self.assertEqual({name: json.loads(read(self.path) or "")["1"][name] for name in ("begun", "party", "loaded")}, {"begun": None, "party": None, "loaded": 5})

    def test_what_is_put_twice_is_written(self) -> None:
        shelf, starts = self.begun(4)
        starts.note_begun(5)
        starts.note_begun(5)
        shelf.keep()
        self.assertEqual(json.loads(read(self.path) or "")["1"]["loaded"], 5)

    def test_an_epoch_is_a_number(self) -> None:
        for begun in ("true", "1.0", '"1"'):
            keep(self.path, f'{{"1": {{"begun": {begun}, "party": null}}}}\n')
            self.assertRaises(Unreadable, Shelf, self.path)

    def test_a_history_of_other_lines_does_not_read(self) -> None:
        for line in ("A" * 64, "a" * 63, "a" * 65, "", "?" * 64):
            with open(f"{self.folder}/start.history", "w", encoding="utf-8") as file:
                file.write(f"{DIGEST}\n{line}\n{DIGEST}\n")
            self.assertRaises(Unreadable, Shelf, self.path)

    def test_nothing_is_written_where_nothing_is_due(self) -> None:
        """A waiting start leaves the stored state unchanged, although its work has been lost meanwhile."""
        self.begun(4)
        before = read(self.path)
        shelf = Shelf(self.path)
        self.assertEqual(self.due(Starts(shelf, 1, None), in_reset(THROUGH, 2)), Due.WAIT)
        shelf.keep()
        self.assertEqual(read(self.path), before)

    def test_the_history_grows_by_each_party(self) -> None:
        """Several parties of one process are added too."""
        shelf, _ = self.begun(4)
        digests = [f"{number:064}" for number in range(3)]
        for digest in digests:
            shelf.history.add(digest)
            shelf.keep()
        self.assertEqual(read(f"{self.folder}/start.history"), "".join(f"{digest}\n" for digest in digests))

    def test_the_tag_is_of_the_first_party(self) -> None:
        shelf, starts = self.begun(4)
        first = view_of((1, 4, 4), (2, 7, 7), (3, 1, 1))
        self.assertEqual(self.due(starts, first), Due.TALK)
        self.assertEqual(starts.tag(first), first.tag(1))
        self.assertEqual(self.due(starts, THROUGH), Due.TALK)
        self.assertEqual(starts.tag(THROUGH, "w"), f"{digest_of(first.party(1), 'w')[:32]}-{digest_of(PARTY, 'w')[:32]}")

    def test_work_that_is_not_that_of_the_start(self) -> None:
        """There is no work, or it is of another epoch, or of a begin that was not stored."""
        self.begun(4)
        for work in (None, 3, 5):
            self.assertEqual(self.due(Starts(Shelf(self.path), 1, work), THROUGH), Due.RESET)
        self.assertEqual(self.due(Starts(Shelf(self.path), 1, 4), THROUGH), Due.TALK)
        self.assertEqual(self.due(Starts(Shelf(f"{self.folder}/none.json"), 1, 4), THROUGH), Due.RESET)

    def test_what_a_gateway_instructs_again_is_written(self) -> None:
        """It is written even if nothing else changes."""
        shelf = Shelf(self.path)
        for instruction in ("1 1\n", "1 2\n"):
            Starts(shelf, 1, None).note_begin(instruction)
            shelf.keep()
            self.assertEqual(Shelf(self.path).told(1), instruction)

    def test_nothing_is_written_where_nothing_changes(self) -> None:
        shelf, starts = self.begun(4)
        for _ in range(2):
            self.due(starts, THROUGH)
            shelf.keep()
        with mock.patch("os.fsync") as synced:
            self.due(starts, THROUGH)
            self.due(starts, UNCONFIRMED)
            shelf.keep()
        self.assertEqual(synced.call_count, 0)

    def test_a_file_that_does_not_read_is_reported(self) -> None:
        for text in ("[]", "{", '{"1": {}}', '{"1": {"begun": 4}}', '{"1": {"begun": "4", "party": null}}', '{"1": {"begun": 4, "party": "1 4"}}'):
            keep(self.path, f"{text}\n")
            self.assertRaises(ValueError, Shelf, self.path)
        for torn in ("{", '{"1": {"begun": 4, "par', '{"1": {"begun": 4, "party": null}}'):  # by a power cut
            keep(self.path, torn)
            self.assertIsNone(Shelf(self.path).get(1).begun)


class Cuts(Case):
    """The power is cut at each call that writes something to the disk."""

    def steps(self, cut: int) -> Callable[..., mock.Mock]:
        """Counts the calls until the one that is cut."""
        self.left = cut

        def made(call: Callable[..., object]) -> mock.Mock:
            def called(*arguments: object) -> object:
                self.left -= 1
                if self.left < 0:
                    raise Cut
                return call(*arguments)
            return mock.Mock(side_effect=called)
        return made

    def test_no_party_without_its_history(self) -> None:
        """At a first talk, either no party is stored, or its digest is in the history."""
        outcomes = set()
        for cut in range(20):
            folder = tempfile.mkdtemp(dir=self.folder)
            shelf = Shelf(f"{folder}/start.json")
            starts = Starts(shelf, 1, None)
            starts.note_begun(4)
            shelf.keep()
            made = self.steps(cut)
            with mock.patch("os.fsync", made(os.fsync)), mock.patch("os.replace", made(os.replace)):
                try:
                    self.assertEqual(self.due(starts, THROUGH), Due.TALK)
                    shelf.keep()
                    is_over = True
                except Cut:
                    is_over = False
            again = Shelf(f"{folder}/start.json")
            outcomes.add((again.get(1).party is not None, DIGEST in again.history))
            if is_over:
                break
        self.assertTrue(is_over and outcomes <= {(False, False), (False, True), (True, True)}, outcomes)
        self.assertIn((False, True), outcomes)

    def test_a_line_that_was_torn(self) -> None:
        """A torn line is skipped, and the next one overwrites it. A complete line that can't be parsed is reported."""
        path = f"{self.folder}/a.history"
        lines = [digest_of(frozenset({str(place)})) for place in range(3)]
        for torn in ("", lines[1][:20], lines[1], "\0" * 200):
            with open(path, "w", encoding="utf-8") as file:
                file.write(f"{lines[0]}\n{torn}")
            history = History(path)
            self.assertEqual([line in history for line in lines], [True, False, False])
            history.add(lines[2])
            self.assertNotIn(lines[2], history)
            history.keep()
            self.assertEqual((read(path), lines[2] in history), (f"{lines[0]}\n{lines[2]}\n", True))
        keep(path, f"{lines[0][1:]}\n{lines[1]}\n")
        self.assertRaises(ValueError, History, path)

    def test_a_line_that_could_not_be_written_is_written_again(self) -> None:
        history = History(f"{self.folder}/a.history")
        history.add(DIGEST)
        with mock.patch("os.fsync", side_effect=OSError("full")), self.assertRaises(OSError):
            history.keep()
        self.assertNotIn(DIGEST, history)
        history.keep()
        self.assertEqual((read(f"{self.folder}/a.history"), DIGEST in history), (f"{DIGEST}\n", True))

    def test_a_new_history_stands_in_its_folder(self) -> None:
        """The folder is synced once, before anything depends on the file."""
        history = History(f"{self.folder}/a.history")
        for digest, syncs in ((DIGEST, (2, 0)), (digest_of(frozenset({"1 9"})), (0, 1))):
            history.add(digest)
            with mock.patch("os.fsync", side_effect=os.fsync) as whole, mock.patch("os.fdatasync", side_effect=os.fdatasync) as data:
                history.keep()
            self.assertEqual((whole.call_count, data.call_count), syncs)


class Fences(Case):
    """The fence of a start."""

    def begun(self) -> Starts:
        starts = Starts(Shelf(self.path), 1, None)
        starts.note_begun(4)
        return starts

    def test_it_is_of_the_look_in_which_the_party_was_fixed(self) -> None:
        """It does not depend on later looks or on a new process. All members of a run have the same name for it, which includes
        the group's word."""
        starts = self.begun()
        self.assertIsNone(starts.fence())
        self.due(starts, THROUGH)
        later = replace(THROUGH, accepted=99, settled=99)
        self.due(starts, later)
        starts._shelf.keep()
        again = Starts(Shelf(self.path), 1, 4)
        for each in (starts, again):
            nodes = frozenset({1, 2})
            self.assertEqual((each.fence(), each.fence("w", 3)), (
                Fence(9, DIGEST[:32], nodes), Fence(3 * 2**40 + 9, digest_of(PARTY, "w")[:32], nodes)))

    def test_one_whose_party_an_earlier_version_fixed_has_none(self) -> None:
        keep(self.path, json.dumps({"1": {"begun": 4, "party": sorted(PARTY)}}) + "\n")
        earlier = Starts(Shelf(self.path), 1, 4)
        self.assertEqual((earlier.fence(), self.due(earlier, THROUGH)), (None, Due.TALK))

    def test_two_that_were_alone_differ(self) -> None:
        """They differ although the party is the same, after a node was removed and added again."""
        fences = []
        for settled in (9, 20):
            starts = Starts(Shelf(f"{self.folder}/{settled}.json"), 1, None)
            starts.note_begun(4)
            self.due(starts, replace(view_of((1, 4, 4)), settled=settled))
            fences.append(starts.fence("w"))
        tags = [digest_of(frozenset({"1 4"}), f"w@{settled}")[:32] for settled in (9, 20)]
        self.assertEqual(fences, [Fence(settled, tag, frozenset({1})) for settled, tag in zip((9, 20), tags)])

    def test_what_a_resource_accepts(self) -> None:
        """It accepts the same run if the count is above the floor, and any later run."""
        fence = Fence(12, "a", frozenset())
        for kept, passes in (((0, 0, ""), True), ((0, 12, "a"), True), ((11, 30, "a"), True), ((12, 30, "a"), False), ((0, 11, "b"), True),
                             ((0, 12, "b"), False)):
            self.assertEqual(fence.passes(*kept), passes, kept)

    def test_the_next_start_has_its_own(self) -> None:
        starts = self.begun()
        self.due(starts, THROUGH)
        starts.note_begin()
        starts.note_begun(5)
        self.assertIsNone(starts.fence())
        self.due(starts, replace(view_of((1, 5, 5), (2, 8, 8)), settled=30))
        fence = starts.fence()
        self.assertEqual(fence and fence.count, 30)


class Versions(Case):
    """Files of the previous version, and of a later one."""

    def test_a_start_that_had_not_talked_goes_on(self) -> None:
        """The file is replaced and synced: an earlier text that says "begun, no party" must not return once the start has
        talked."""
        keep(self.path, '{"1": {"begun": 4, "party": null}}\n')
        with mock.patch("os.fsync", side_effect=os.fsync) as synced:
            starts = Starts(Shelf(self.path), 1, 4)
        self.assertEqual((synced.call_count, json.loads(read(self.path) or "")["1"]["loaded"]), (3, 4))  # the text, and twice its folder
        self.assertEqual(self.due(starts, THROUGH), Due.TALK)

    def test_a_start_that_talked_goes_on(self) -> None:
        keep(self.path, json.dumps({"1": {"begun": 4, "party": sorted(PARTY)}}) + "\n")
        keep(f"{self.folder}/start.history", f"{DIGEST}\n")
        self.assertEqual(self.due(Starts(Shelf(self.path), 1, 4), THROUGH), Due.TALK)

    def test_what_the_version_before_reads_of_this_one(self) -> None:
        """It reads a start that has not talked as nothing begun, so a downgrade costs one reset. A start that has talked
        continues."""
        starts = Starts(Shelf(self.path), 1, None)
        starts.note_begun(4)
        starts._shelf.keep()
        row = json.loads(read(self.path) or "")["1"]
        self.assertEqual((row["begun"], row["party"]), (None, None))
        self.due(starts, THROUGH)
        starts._shelf.keep()
        row = json.loads(read(self.path) or "")["1"]
        self.assertEqual((row["begun"], row["party"]), (4, sorted(PARTY)))

    def test_a_file_of_a_later_version_is_refused(self) -> None:
        keep(self.path, '{"1": {"begun": 4, "party": null, "seal": 7}}\n')
        with self.assertRaisesRegex(Unreadable, "a later version of the library wrote the file"):
            Shelf(self.path)

    def test_what_was_read_is_synced_before_it_counts(self) -> None:
        """Both files and the folder are synced, even if a file is missing: it may have been removed and may return."""
        both: tuple[list[str], ...] = ([], ["start.json", "start.history"])
        for names in both:
            for name in names:
                keep(f"{self.folder}/{name}", "")
            synced: list[str] = []
            fsync = os.fsync

            def note_sync(descriptor: int) -> None:
                synced.append(os.path.basename(os.readlink(f"/proc/self/fd/{descriptor}")))
                fsync(descriptor)

            with mock.patch("os.fsync", note_sync):
                Shelf(self.path)
            self.assertEqual((set(synced), synced[-1]), ({*names, os.path.basename(self.folder)}, os.path.basename(self.folder)))


class Written(Case):
    """Which files are synced, and which are only written."""

    def test_nothing_begun_is_on_the_disk_where_it_has_to_be(self) -> None:
        """It is synced even if it was written before without a sync."""
        shelf = Shelf(self.path)
        starts = Starts(shelf, 1, None)
        starts.note_begun(4)
        shelf.keep()
        starts.note_begin()
        shelf.keep()
        with mock.patch("os.fdatasync", side_effect=os.fdatasync) as synced:
            shelf.keep(is_synced=True)
            shelf.keep(is_synced=True)
        self.assertEqual((synced.call_count, read(self.path)), (1, ""))

    def test_what_the_disk_may_say_is_begun(self) -> None:
        keep(self.path, json.dumps({"1": {"begun": 4, "party": sorted(PARTY)}}) + "\n")
        shelf = Shelf(self.path)
        self.assertEqual([shelf.may_say_begun(epoch) for epoch in (4, 5)], [True, False])
        starts = Starts(shelf, 1, 4)
        starts.note_begin()
        starts.note_begun(6)
        shelf.keep()
        self.assertEqual([shelf.may_say_begun(epoch) for epoch in (6, 7)], [True, False])
        starts.note_begin()
        shelf.keep(is_synced=True)
        self.assertFalse(shelf.may_say_begun(0))

    def test_a_party_that_was_foreseen(self) -> None:
        """It is in the history before the start talks, so the start does not wait for the disk. Another start does not talk by
        it."""
        shelf = Shelf(self.path)
        starts = Starts(shelf, 1, None)
        starts.note_begun(4)
        starts.foresee(UNCONFIRMED)
        shelf.write()
        shelf.keep()
        self.assertEqual(read(f"{self.folder}/start.history"), f"{DIGEST}\n")
        again = Starts(Shelf(self.path), 1, 4)  # a new process in the same boot
        with mock.patch("os.fdatasync") as synced, mock.patch("os.fsync") as whole:
            self.assertEqual(self.due(again, THROUGH), Due.TALK)
            again._shelf.keep()
        self.assertEqual((synced.call_count, whole.call_count), (0, 0))
        again.note_begin()
        again.note_begun(4)
        self.assertEqual(self.due(again, THROUGH), Due.RESET)

    def test_that_it_is_begun_counts_in_one_boot(self) -> None:
        """It counts until the start has talked."""
        shelf = Shelf(self.path)
        starts = Starts(shelf, 1, None)
        starts.note_begun(4)
        shelf.keep()
        with mock.patch("resetd_client.starts.boot_name", return_value="the next boot"):
            self.assertIsNone(Shelf(self.path).get(1).begun)
        self.due(starts, THROUGH)
        shelf.keep()
        with mock.patch("resetd_client.starts.boot_name", return_value="the next boot"):
            self.assertEqual(Shelf(self.path).get(1).begun, 4)

    def test_what_is_not_foreseen(self) -> None:
        """A party during a reset, of a node that is alone, and of another epoch than the start's is not foreseen."""
        shelf = Shelf(self.path)
        starts = Starts(shelf, 1, None)
        starts.note_begun(4)
        for view in (in_reset(UNCONFIRMED, 2), view_of((1, 4, 3)), view_of((1, 5, 4), (2, 7, 7))):
            starts.foresee(view)
        shelf.keep()
        self.assertIsNone(read(f"{self.folder}/start.history"))

    def test_work_in_memory_keeps_the_history_alone(self) -> None:
        keep(self.path, json.dumps({"1": {"begun": 4, "party": sorted(PARTY)}}) + "\n")
        shelf = Shelf(self.path)
        shelf.keep_no_starts()
        starts = Starts(shelf, 1, None)
        starts.note_begun(5)
        self.due(starts, view_of((1, 5, 5), (2, 8, 8)))
        shelf.keep()
        self.assertEqual((read(self.path), len((read(f"{self.folder}/start.history") or "").splitlines())), ("", 1))


class Earlier(Case):
    """The file of an earlier version, which has the greatest epoch and the party of that start."""

    def of(self, epoch: int, party: View | None) -> Starts:
        keep(self.path, json.dumps({"1": {"epoch": epoch, "party": sorted(party.party(1)) if party else None}}) + "\n")
        return Starts(Shelf(self.path), 1, 4)

    def test_a_reset_is_asked_for_once(self) -> None:
        for epoch in (4, 9):
            starts = self.of(epoch, THROUGH)
            self.assertEqual([self.due(starts, view) for view in (in_reset(THROUGH, 2), THROUGH, view_of((1, 5, 4), (2, 8, 7)))],
                             [Due.WAIT, Due.RESET, Due.BEGIN])

    def test_none_if_the_shown_epoch_is_above(self) -> None:
        self.assertEqual(self.due(self.of(3, view_of((1, 3, 3), (2, 6, 6))), UNCONFIRMED), Due.BEGIN)

    def test_the_epoch_that_it_knows_is_not_begun_again(self) -> None:
        """It asks for no reset, although nobody has confirmed the epoch and others are connected."""
        other = view_of((1, 4, 3), (9, 7, 7))
        self.assertEqual([self.due(self.of(4, THROUGH), other), self.due(self.of(3, THROUGH), other)], [Due.RESET, Due.BEGIN])

    def test_its_party_does_not_come_again(self) -> None:
        """No other start of this version talks with it either."""
        for starts in (self.of(3, THROUGH), Starts(Shelf(self.path), 1, None)):
            self.assertEqual(self.due(starts, UNCONFIRMED), Due.RESET)

    def test_its_party_goes_into_the_history_once(self) -> None:
        for _ in range(2):
            self.of(3, THROUGH)
        self.assertEqual(read(f"{self.folder}/start.history"), f"{DIGEST}\n")

    def test_a_party_of_one_goes_into_no_history(self) -> None:
        self.of(3, view_of((1, 3, 3)))
        self.assertEqual(read(f"{self.folder}/start.history"), None)

    def test_what_it_knew_counts_no_more_once_a_greater_epoch_is_shown(self) -> None:
        """This holds although the store goes back after that."""
        starts = self.of(6, view_of((1, 6, 6), (2, 6, 6)))
        self.assertEqual([self.due(starts, view) for view in (view_of((1, 7, 6), (2, 7, 7)), UNCONFIRMED)], [Due.BEGIN, Due.BEGIN])

    def test_the_next_write_is_of_this_version(self) -> None:
        starts = self.of(3, THROUGH)
        starts.note_begin()
        starts._shelf.keep()
        self.assertEqual(json.loads(read(self.path) or ""), {"1": {"begun": None, "party": None}})
