"""The audit: its lines, the quotas, and that a line is written before its answer is sent."""

from __future__ import annotations

import json
import os
import re
import shutil
import stat
import subprocess
import time
import unittest
from datetime import datetime
from typing import Any

from audited import PREFIX, Audited, Piped, metrics_of
from case import DEADLINE, DENIED, RESETD_PROXY, USER, until

MOMENT = re.compile(r"\d{4}-\d\d-\d\dT\d\d:\d\d:\d\d\.\d{3}Z")
MOST = 10  # lines of one principal and kind in a second


def seconds_of(line: dict[str, Any]) -> float:
    return datetime.fromisoformat(line["time"].replace("Z", "+00:00")).timestamp()


class Lines(Audited):
    def test_each_order_before_its_answer(self) -> None:
        """At the moment of each answer its line is there, whole."""
        with self.proxy.connect() as client:
            for number in range(1, 30):
                answer = client.ask(op="reset", client=1, number=number, node=1)
                last = self.proxy.audited()[-1]
                self.assertEqual((last["event"], last["line"]["number"], last["answer"]), ("answered", number, answer))

    def test_what_a_line_says(self) -> None:
        with self.proxy.connect() as client:
            client.send(b' {"op":"reset", "node":1}\r\n')
            began = client.reply()
            client.ask(op="show")
            refused = client.ask(op="confirm", node=2, epoch=9)
            again = client.ask(op="resend")
            client.send(b"f\xffly\n", b"x" * 70 + b"\n", b"{}\n", b" " * 100_000 + b"\n")
            faults = [client.reply() for _ in range(4)]
        self.proxy.await_audited("its end", lambda line: line["event"] == "ends")
        lines = self.proxy.audited()
        self.assertEqual([line["event"] for line in lines], ["starts", "begins", *["answered"] * 7, "ends"])
        self.assertTrue(all(MOMENT.fullmatch(line["time"]) for line in lines))
        self.assertEqual({line["who"] for line in lines[1:]}, {USER})
        answered = [(line["line"], line["answer"]) for line in lines[2:9]]
        self.assertEqual(answered[:3], [({"op": "reset", "node": 1}, began), ({"op": "confirm", "node": 2, "epoch": 9}, refused), ({"op": "resend"}, again)])
        self.assertEqual([fault["fault"] for fault in faults], ["BadText", "BadJson", "BadRequest", "TooLong"])
        self.assertEqual(answered[3:], list(zip(["f\ufffdly", "x" * 64, "{}", ""], faults)))
        self.assertTrue(all(line["seconds"] >= 0 for line in lines[2:]))
        self.assertEqual(set(lines[2]), {"time", "event", "who", "line", "answer", "seconds"})

    def test_a_denial_and_no_look(self) -> None:
        """A principal that may only look leaves a line of a denial alone, and none of its begin and end."""
        with self.looking() as client:
            self.assertIn("nodes", client.ask(op="show"))
            self.assertIn("nodes", client.ask(op="watch"))
            client.send({"op": "reset", "node": 3})
            self.assertEqual(client.reply(), DENIED)
            [line] = self.of("look")
            self.assertEqual((line["event"], line["line"], line["answer"]), ("denied", {"op": "reset", "node": 3}, DENIED))
        self.proxy.ask(op="show")
        self.proxy.await_audited("the end of another", lambda line: line["event"] == "ends")
        self.assertEqual(len(self.of("look")), 1)

    def test_an_order_whose_client_left(self) -> None:
        client = self.proxy.connect()
        client.send({"op": "reset", "client": 1, "number": 1, "node": 1})
        client.close()
        line = self.proxy.await_audited("a line of it", lambda line: line["event"] == "answered")
        self.assertEqual(line["line"]["op"], "reset")

    def test_others_do_not_read_it(self) -> None:
        self.assertEqual(stat.S_IMODE(os.stat(self.proxy.audit).st_mode) & 0o007, 0)

    def test_a_link_is_refused(self) -> None:
        os.symlink("/dev/null", f"{self.folder}/link")
        command = [RESETD_PROXY, "serve", "--server", self.server.address, "--policy", self.policy, "--audit", f"{self.folder}/link"]
        self.assertEqual(subprocess.run(command, capture_output=True, timeout=DEADLINE).returncode, 1)


class Quotas(Audited):
    def assert_within_quota(self, lines: list[dict[str, Any]]) -> None:
        """No eleven of these lines are within a second. Their times are cut to milliseconds."""
        for first, last in zip(lines, lines[MOST:]):
            self.assertGreater(seconds_of(last) - seconds_of(first), 0.998)

    def await_counted(self, who: str, *events: str, count: int) -> list[dict[str, Any]]:
        """Waits until this many lines are written or counted, and returns the written ones."""
        def counted() -> list[dict[str, Any]]:
            lines = self.of(who)
            written = [line for line in lines if line["event"] in events]
            left_out = sum(line["count"] for line in lines if line["event"] == "more")
            self.assertLessEqual(len(written) + left_out, count)
            return written if len(written) + left_out == count else []
        return until("the count of what was left out", counted)

    def test_denials_and_faults_together(self) -> None:
        client = self.looking()
        for _ in range(10):
            client.send(b'{"op":"reset","node":1}\nno request\n' * 10)
            for _ in range(20):
                self.assertIn("fault", client.reply())
        written = self.await_counted("look", "denied", "answered", count=200)
        self.assertGreaterEqual(len(written), MOST)
        self.assert_within_quota(written)
        [first, *_] = [line for line in self.of("look") if line["event"] == "more"]
        self.assertEqual(set(first), {"time", "event", "who", "count"})

    def test_a_neighbour_has_a_quota_of_its_own(self) -> None:
        client = self.looking()
        client.send(*[{"op": "reset", "node": 1}] * 64)
        self.assertEqual([client.reply() for _ in range(64)], [DENIED] * 64)
        with self.proxy.connect() as other:
            other.send(b"no request\n")
            other.reply()
            self.assertEqual(self.of(USER)[-1]["line"], "no request")

    def test_refusals_of_the_server_have_none(self) -> None:
        """Each order has its line, whatever the server answers."""
        with self.proxy.connect() as client:
            client.send(*[{"op": "confirm", "node": 2, "epoch": 9}] * 60)
            for _ in range(60):
                self.assertEqual(client.reply()["name"], "BadEpoch")
            lines = [line for line in self.of(USER) if line["event"] == "answered"]
        self.assertEqual(len(lines), 60)

    def test_begins_and_ends(self) -> None:
        for _ in range(100):
            with self.proxy.connect() as client:
                client.ask(op="show")
        written = self.await_counted(USER, "begins", "ends", count=200)
        self.assertGreaterEqual(len(written), MOST)
        self.assert_within_quota(written)


class Files(Audited):
    def order(self, number: int) -> None:
        self.assertIn("kind", self.proxy.ask(op="reset", client=1, number=number, node=1))

    def numbers(self, path: str) -> list[int]:
        """The numbers of the orders in a file of the audit."""
        with open(path, encoding="utf-8") as file:
            lines = [json.loads(line) for line in file]
        return [line["line"]["number"] for line in lines if line["event"] == "answered"]

    def test_a_file_that_is_moved(self) -> None:
        """The next line goes to the file of that name, which somebody has made again."""
        self.order(1)
        os.rename(self.proxy.audit, self.proxy.audit + ".1")
        with open(self.proxy.audit, "xb"):
            pass
        self.order(2)
        self.assertEqual((self.numbers(self.proxy.audit + ".1"), self.numbers(self.proxy.audit)), ([1], [2]))

    def test_a_file_that_is_moved_without_work(self) -> None:
        os.rename(self.proxy.audit, self.proxy.audit + ".1")
        until("a new file", lambda: os.path.exists(self.proxy.audit))

    @unittest.skipUnless(shutil.which("logrotate"), "optional: logrotate")
    def test_logrotate(self) -> None:
        """logrotate moves the file, and the proxy needs no signal."""
        with open(f"{self.folder}/rotation", "w", encoding="ascii") as file:
            file.write(f"{self.proxy.audit} {{\nrotate 4\nnocreate\nnocompress\n}}\n")
        os.chmod(f"{self.folder}/rotation", 0o600)
        for number in range(1, 4):
            self.order(number)
            subprocess.run(["logrotate", "-f", "-s", f"{self.folder}/state", f"{self.folder}/rotation"], check=True, capture_output=True)
        self.order(4)
        self.assertEqual([self.numbers(f"{self.proxy.audit}{ending}") for ending in (".3", ".2", ".1", "")], [[1], [2], [3], [4]])


@unittest.skipUnless(os.path.exists("/dev/full"), "it needs /dev/full")
class FullDisk(Audited):
    def arguments(self) -> list[str]:
        self.metrics = f"{self.folder}/metrics"
        return [*super().arguments(), "--audit", "/dev/full", "--metrics", self.metrics]

    def test_orders_go_on(self) -> None:
        """That it can't be written is said at most once a minute, and the lines beyond a mebibyte are counted as lost."""
        begin = time.monotonic()
        with self.proxy.connect() as client:
            for _ in range(110):
                client.send(*[{"op": "confirm", "node": 2, "epoch": 2**64 - 1}] * 60)
                for _ in range(60):
                    self.assertEqual(client.reply()["name"], "BadEpoch")
        until("a count of lost lines", lambda: metrics_of(self.metrics).get(f"{PREFIX}_audit_lost_total", 0) > 0)
        reports, minutes = self.proxy.said().count("/dev/full can't be written"), (time.monotonic() - begin) / 60
        self.assertTrue(1 <= reports <= 2 + minutes, (reports, minutes))


class BeforeTheAnswer(Audited):
    def test_a_kill_between(self) -> None:
        """An order is carried out, its line can't be written yet, and the proxy is killed: no answer went out."""
        self.proxy.kill()
        proxy = Piped(self.folder, self.server.address, *self.arguments(), "--audit", "-")
        self.addCleanup(proxy.kill)
        client = proxy.connect()
        self.addCleanup(client.close)
        self.assertIn("nodes", client.ask(op="show"))
        proxy.stop_reading()
        client.send({"op": "reset", "client": 1, "number": 1, "node": 1})
        until("the end of the reset", self.has_signalled)
        proxy.kill()
        self.assertEqual(client.line(), b"")
        self.assertNotIn(b"answered", proxy.read_rest())

    def has_signalled(self) -> bool:
        with open(self.server.signals, "rb") as file:
            return b"signal 1 1\n" in file.read()


if __name__ == "__main__":
    unittest.main()
