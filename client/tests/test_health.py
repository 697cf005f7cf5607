"""What a monitoring check prints."""

from __future__ import annotations

import os
import re
import resource
import shutil
import signal
import subprocess
import threading
import time
import unittest
from unittest import mock

from case import PROGRAM, Case, over_both
from real import Real
from resetd_client import Port, View
from resetd_client.health import Bounds, Level, check, findings, metrics
from resetd_client.same_store import Reading, difference
from resetd_client.signal_lag import Signals
from resetd_client.since import Since, boot_clock


class Watching(Case):
    def setUp(self) -> None:
        super().setUp()
        self.server.ring(2)

    def look(self, now: float) -> tuple[Level, tuple[str, ...]]:
        health = check(self.port, Since(f"{self.folder}/since", now), Bounds())
        return health.level, health.findings

    def test_unconfirmed_epochs_are_reported_after_a_while(self) -> None:
        self.assertEqual(self.look(0), (Level.OK, ()))
        self.server.reset(1)
        self.server.by_somebody("confirm", node=2, epoch=1)
        self.assertEqual(self.look(10), (Level.OK, ()))
        self.assertEqual(self.look(69), (Level.OK, ()))
        self.assertEqual(self.look(75), (Level.WARNING, ("epoch 1 of node 1 has been unconfirmed for 65 s",)))
        self.server.reset(1)
        self.assertEqual(self.look(80), (Level.OK, ()))

    def test_what_has_passed_is_forgotten(self) -> None:
        """A condition that returns lasts from its return on. A clock that was set back makes no duration negative."""
        path = f"{self.folder}/since"
        for now, things, lasted in ((0, "ab", [0, 0]), (10, "a", [10]), (20, "ab", [20, 0]), (25, "ab", [25, 5]),
                                    (3, "ab", [3, 0]), (7, "ab", [7, 4])):
            since = Since(path, now)
            self.assertEqual([since.seconds(thing) for thing in things], lasted)
            since.keep()

    def test_a_bound_is_the_least_that_is_reported(self) -> None:
        """The bounds of waiting steps, of a wave that does not move, and of an unconfirmed epoch."""
        bounds = Bounds(steps=5, wave=5, unconfirmed=60)
        rows = [[1, 1, "abort", 0, 4, 4], [2, 1, "ready", 0, 4, 3], [3, 1, "ready", 0, 4, 4]]
        for settled, expected in ((8, [0, 0, 1, 1, 2]), (9, [0, 0, 1, 1, 2])):
            view = View.of({"accepted": 9, "settled": settled, "nodes": rows, "links": [[1, 2, 5]]})
            counts = []
            for now in (0, 4, 5, 59, 60):
                since = Since(f"{self.folder}/since{settled}", now)
                counts.append(len(findings(view, since, bounds)))
                since.keep()
            self.assertEqual(counts, expected)
        text = metrics(view, False)
        self.assertEqual([f'resetd_node_in_reset{{node="{node}",group="1"}} {there}\n' in text for node, there in
                          ((1, 1), (2, 0), (3, 0))], [True] * 3)

    def test_what_is_not_taken_now(self) -> None:
        """A server that has stopped must be started again; one that lacks room must not."""
        for line, is_stopped in (('{"name":"Stopped","refused":1}', True), ('{"name":"PendingFull","refused":20}', False),
                                 ('{"fault":"OutOfMemory"}', False)):
            self.server.faults = [line]
            health = check(self.port, Since(f"{self.folder}/since", 0), Bounds())
            self.assertEqual((health.level, health.is_stopped), (Level.CRITICAL, is_stopped))
        self.assertEqual([int(level) for level in (Level.OK, Level.WARNING, Level.CRITICAL, Level.UNKNOWN)], [0, 1, 2, 3])

    def expect(self, folder: str, looks: list[tuple[float, int, int, int, list[str]]]) -> None:
        """Looks at a row of two nodes, the first in a reset. Each look has its time, the numbers of accepted and settled steps,
        the second node's epoch, and the expected findings."""
        for now, accepted, settled, epoch, expected in looks:
            rows = [[1, 1, "abort", 2, 0, 0], [2, 1, "ready", 0, epoch, epoch]]
            since = Since(f"{self.folder}/{folder}", now)
            view = View.of({"accepted": accepted, "settled": settled, "nodes": rows, "links": [[1, 2, 5]]})
            self.assertEqual(findings(view, since, Bounds()), expected, (now, accepted, settled))
            since.keep()

    def test_the_oldest_step_that_waits(self) -> None:
        """The oldest step counts, not the last flight that returned. A lower count means another store."""
        self.expect("since", [(0, 9, 7, 0, []), (4, 11, 8, 0, []), (6, 12, 8, 0, ["4 steps have waited for the disk for 6 s"]),
                              (8, 12, 9, 0, []), (9, 13, 10, 0, ["3 steps have waited for the disk for 5 s"]), (20, 9, 8, 0, []),
                              (30, 10, 9, 0, [])])

    def test_a_wave_that_moves_with_its_flights_is_not_still(self) -> None:
        """While steps wait, the disk is reported and no wave. A wave is not reported either if a look fell between two of its
        flights."""
        self.expect("since", [(0, 9, 7, 0, []), (6, 9, 7, 0, ["2 steps have waited for the disk for 6 s"]), (7, 11, 9, 0, []),
                              (13, 12, 11, 0, []), (20, 12, 12, 0, []), (21, 13, 12, 0, []), (25.5, 13, 13, 0, []),
                              (30, 13, 13, 1, []), (34, 13, 13, 1, [])])

    def test_a_wave_that_stands_still(self) -> None:
        """A wave is reported if nothing waits, or if so many steps were settled meanwhile that its own must be among them."""
        message = "a wave has made no progress at node 1 (abort) for {} s: run resetctl resend"
        self.expect("idle", [(0, 9, 9, 0, []), (6, 9, 9, 0, [message.format(6)]), (7, 30, 30, 0, [message.format(7)])])
        self.expect("busy", [(0, 9, 8, 0, []), (1, 1_000, 999, 0, []), (2, 1_040, 1_039, 0, []), (5, 1_050, 1_040, 0, [message.format(5)])])

    def test_what_was_seen_in_another_boot_is_forgotten(self) -> None:
        """The clock for durations restarts with the machine."""
        for boot, now, lasted in (("one", 10, 0), ("one", 30, 20), ("two", 50, 0), ("two", 60, 10)):
            since = Since(f"{self.folder}/since", now, boot)
            self.assertEqual(since.seconds("thing"), lasted)
            since.keep()
        for text in ('{"thing": 5.0}', '{"seen": {"thing": 5.0}, "boot": "two"}', "[]", "no json"):
            with open(f"{self.folder}/since", "w", encoding="utf-8") as file:
                file.write(text)
            self.assertEqual(Since(f"{self.folder}/since", 70, "two").seconds("thing"), 0)

    def test_a_clock_that_is_set_makes_nothing_older(self) -> None:
        """Nobody can set the clock for durations."""
        self.server.reset(1)
        with mock.patch("time.time", lambda: 1_000.0):
            self.assertEqual(self.run_resetctl("health")[:2], (0, "resetd OK: well\n"))
        with mock.patch("time.time", lambda: 5_000.0):
            self.assertNotIn("unconfirmed", self.run_resetctl("health")[1])
        with mock.patch("resetd_client.control.checks.boot_clock", lambda: boot_clock() + 61):
            self.assertIn("epoch 1 of node 1 has been unconfirmed for 6", self.run_resetctl("health")[1])

    def test_stopped_and_away(self) -> None:
        self.server.is_stopped = True
        self.assertEqual(self.look(0), (Level.CRITICAL, ("the server answers Stopped",)))
        self.assertEqual(check(Port("127.0.0.1:1"), Since(f"{self.folder}/since", 0), Bounds()).level, Level.CRITICAL)

    def test_metrics(self) -> None:
        text = metrics(self.port.show(), False)
        self.assertIn('resetd_node_epoch{node="2",group="1"} 0\n', text)
        self.assertIn("resetd_up 1\n", text)
        self.assertIn("resetd_up 0\n", metrics(None, False))
        stopped = metrics(None, True)  # it answers, but accepts nothing
        self.assertIn("resetd_up 1\n", stopped)
        self.assertIn("resetd_stopped 1\n", stopped)


class Lagging(Case):
    """The file of signals compared with the view."""

    def setUp(self) -> None:
        super().setUp()
        self.server.ring(2)
        self.path = f"{self.folder}/signals"
        self.write("w", "listening 127.0.0.1:4170\n")

    def write(self, mode: str, text: str) -> None:
        with open(self.path, mode, encoding="utf-8") as file:
            file.write(text)

    def look(self, now: float) -> tuple[str, ...]:
        bounds = Bounds(steps=1_000_000, wave=1_000_000, unconfirmed=1_000_000)
        return check(self.port, Since(f"{self.folder}/since", now), bounds, 0.0, Signals(self.path, f"{self.folder}/kept")).findings

    def lag(self, node: int, epoch: int, more: str, seconds: int) -> tuple[str, ...]:
        return (f"the file of signals lacks `signal {node} {epoch}`{more} for {seconds} s: the server can't print, so services learn "
                "of a reset only by looking. Free some disk space and restart the server",)

    def test_lines_that_do_not_come(self) -> None:
        self.assertEqual(self.look(0), ())
        self.server.reset(1)
        self.write("a", "signal 1 1\nsignal 2 1\n")
        self.assertEqual((self.look(10), self.look(20)), ((), ()))
        self.server.reset(1)
        self.write("a", "signal 1 2\nsig")
        self.assertEqual(self.look(30), ())
        self.assertEqual(self.look(40), self.lag(2, 2, "", 10))
        self.server.reset(1)
        self.assertEqual((self.look(50), self.look(60)), ((), self.lag(1, 3, " and 1 more", 10)))
        self.write("a", "listening 127.0.0.1:4170\n")
        self.assertEqual((self.look(70), self.look(80)), ((), ()))
        self.server.reset(1)
        self.assertEqual((self.look(90), self.look(100)), ((), self.lag(1, 4, " and 1 more", 10)))

    def test_lines_of_before_its_first_look_may_be_gone(self) -> None:
        self.server.reset(1)
        self.assertEqual((self.look(0), self.look(10), self.look(20)), ((), (), ()))

    def test_lines_that_a_kill_or_a_new_file_took_may_be_gone(self) -> None:
        self.look(0)
        self.server.reset(1)
        self.write("a", "sig" + "listening 127.0.0.1:4170\n")
        self.assertEqual((self.look(10), self.look(20)), ((), ()))
        for mode, text in (("w", ""), ("w", "listening 127.0.0.1:4170\n")):
            self.server.reset(1)
            self.write(mode, text)
            self.assertEqual((self.look(30), self.look(40)), ((), ()))
        self.server.reset(1)
        self.assertEqual((self.look(50), self.look(60)), ((), self.lag(1, 4, " and 1 more", 10)))

    def test_a_longer_file_in_its_place(self) -> None:
        """Another file may lack lines that were written before it was created."""
        self.look(0)
        self.server.reset(1)
        with open(f"{self.path}.new", "w", encoding="utf-8") as file:
            file.write("signal 1 1\n" * 50)
        os.replace(f"{self.path}.new", self.path)
        self.assertEqual((self.look(10), self.look(20)), ((), ()))

    def test_the_first_signal_of_a_new_node(self) -> None:
        self.look(0)
        self.server.by_somebody("add", node=9, group=1)
        self.server.reset(9)
        self.assertEqual((self.look(10), self.look(20)), ((), self.lag(9, 1, "", 10)))

    def test_a_line_that_is_written_in_two_parts(self) -> None:
        """A look between the two parts does not lose the line."""
        self.write("a", "sig")
        self.assertEqual(self.look(0), ())
        self.server.reset(1)
        self.write("a", "nal 1 1\nsignal 2 1\n")
        self.assertEqual((self.look(10), self.look(20)), ((), ()))

    def test_a_node_that_came_again(self) -> None:
        self.server.reset(1)
        self.look(0)
        for op, members in (("drop", {"a": 1, "b": 2}), ("remove", {"node": 2}), ("add", {"node": 2, "group": 1})):
            self.server.by_somebody(op, **members)
        self.assertEqual((self.look(10), self.look(20), self.look(30)), ((), (), ()))

    def test_no_file(self) -> None:
        os.remove(self.path)
        self.assertEqual(self.look(0), (f"the file of signals can't be read: {self.path}: No such file or directory",))


class SameStore(unittest.TestCase):
    """A view between two readings of the file."""

    def test_counts(self) -> None:
        view = View.of({"accepted": 12, "settled": 10, "nodes": [], "links": []})
        for before, after, differs in ((10, 10, ""), (10, 12, ""), (8, 10, ""), (12, 12, ""), (10, 500, ""),
                                       (10, 9, "the file has 9 steps, but the coordinator has 10 steps on the disk"),
                                       (13, 20, "the file had 13 steps, but the coordinator had accepted only 12")):
            self.assertEqual(difference(Reading(before), view, Reading(after)), differs)
        gone = Reading(None, "can't be read (No such file or directory)")
        self.assertEqual(difference(Reading(10), view, gone), gone.why_not)
        self.assertEqual(difference(gone, view, Reading(10)), "")


@unittest.skipUnless(PROGRAM, "RESETD names no program that serves")
class OtherStore(Case):
    """Changes that somebody makes to the file of a running server."""

    is_real = True
    LOST = "resetd CRITICAL: this file is not the server's store: "

    def look(self) -> tuple[int, str]:
        return self.run_resetctl("health", "--unconfirmed", "1000000", "--store", self.server.store)[:2]

    def spoil(self, how: str, copy: str) -> None:
        store = self.server.store
        if how == "removed":
            os.remove(store)
        elif how == "cut":
            os.truncate(store, 0)
        elif how == "cut in its midst":
            os.truncate(store, 100)
        elif how == "overwritten":
            with open(store, "r+b") as file:
                file.write(bytes(os.path.getsize(store)))
        elif how == "overwritten by a copy":
            with open(copy, "rb") as old, open(store, "r+b") as file:
                file.write(old.read())
        else:
            shutil.copy(copy, f"{store}.new")
            os.replace(f"{store}.new", store)

    def test_each_way_is_critical_while_orders_are_answered(self) -> None:
        for how in ("removed", "cut", "cut in its midst", "overwritten", "overwritten by a copy", "replaced by a copy"):
            with self.subTest(how):
                self.server.ring(2)
                copy = f"{self.folder}/copy"
                shutil.copy(self.server.store, copy)
                self.assertEqual(self.look(), (0, "resetd OK: well\n"))
                self.server.reset(1)
                self.server.await_settled()
                self.assertEqual(self.look(), (0, "resetd OK: well\n"))
                self.assertIn("resetd_store_differs 0\n", self.run_resetctl("metrics", "--store", self.server.store)[1])
                self.assertNotIn("resetd_store_differs", self.run_resetctl("metrics")[1])
                self.spoil(how, copy)
                self.server.reset(1)
                status, out = self.look()
                self.assertEqual((status, out[:len(self.LOST)]), (2, self.LOST), how)
                self.assertIn("resetd_store_differs 1\n", self.run_resetctl("metrics", "--store", self.server.store)[1])
                self.assertEqual(self.run_resetctl("health", "--unconfirmed", "1000000")[0], 0)

    def test_a_file_that_may_not_be_read_is_unknown(self) -> None:
        self.server.ring(2)
        with mock.patch("resetd_client.store_file.os.open", side_effect=PermissionError(13, "Permission denied")):
            health = check(self.port, Since(f"{self.folder}/since", 0), Bounds(), store=self.server.store)
        self.assertEqual(health.level, Level.UNKNOWN)
        self.assertIn(f"the server's store can't be compared with the file: {self.server.store}: Permission denied", health.findings)

    def test_a_store_that_is_at_work_is_the_one_on_its_file(self) -> None:
        """Orders, waves and checkpoints go on meanwhile."""
        self.server.ring(2)
        ended = threading.Event()

        def work() -> None:
            number = 0
            while not ended.is_set():
                number += 1
                self.server.ask(op="reset", client=9, number=number, node=1)

        worker = threading.Thread(target=work)
        worker.start()
        try:
            for _ in range(100):
                health = check(self.port, Since(f"{self.folder}/since", 0), Bounds(), 30.0, store=self.server.store)
                self.assertNotIn("is not the server's store", " ".join(health.findings))
        finally:
            ended.set()
            worker.join()


@unittest.skipUnless(PROGRAM, "RESETD names no program that serves")
class FullDisk(Case):
    """The program, with a file of signals that can't grow."""

    is_real = True
    MOST = 400_000

    def limit_files(self) -> None:
        signal.signal(signal.SIGXFSZ, signal.SIG_IGN)
        resource.setrlimit(resource.RLIMIT_FSIZE, (self.MOST, self.MOST))

    def test_health_reports_lines_that_do_not_come(self) -> None:
        assert isinstance(self.server, Real)
        self.server.ring(2)
        self.server.end()
        path = f"{self.folder}/signals"
        with open(path, "w", encoding="utf-8") as file:
            file.write("#" * (self.MOST - 40) + "\n")
        with open(path, "ab") as signals, subprocess.Popen(
                [PROGRAM, "serve", self.server.store, "127.0.0.1:0"], stdout=signals, stderr=subprocess.DEVNULL,
                preexec_fn=self.limit_files, restore_signals=False) as process:
            self.addCleanup(process.kill)
            while not (found := re.search(r"listening (\S+)\n", self.read(path))):
                time.sleep(0.01)
            self.server.behind = found[1]
            self.assertEqual(self.run_resetctl("health", "--signals", path)[:2], (0, "resetd OK: well\n"))
            self.server.reset(1)
            self.server.reset(1)
            self.run_resetctl("health", "--signals", path)
            with mock.patch("resetd_client.control.checks.boot_clock", lambda: boot_clock() + 10):
                status, out, _ = self.run_resetctl("health", "--signals", path)
            process.kill()
        self.assertEqual(status, 1)
        self.assertIn("the file of signals lacks `signal 1 2` and 1 more for ", out)

    def read(self, path: str) -> str:
        with open(path, encoding="utf-8") as file:
            return file.read()


load_tests = over_both
