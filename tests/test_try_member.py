"""The views that tools/try_member sends to a member that watches."""

import json
import os
import select
import socket
import sys
import threading

from support.case import Case, until
from support.program import PROGRAM, ROOT

sys.path[:0] = [f"{ROOT}/tools", f"{ROOT}/client"]
from resetd_client import Due, View  # noqa: E402
from served.foreign import NODE, Between, Rule  # noqa: E402
from served.services import Arguments, Trial  # noqa: E402

QUIET_SECONDS = 1.0  # in which a member would be shown a change, or the same view again
SECONDS = 120.0  # for one line, on a busy machine


class Held(Between):
    """Holds the answers to orders until `is_let_go` is set."""

    def __init__(self, trial: Trial, rule: Rule) -> None:
        self.is_let_go = threading.Event()
        super().__init__(trial, rule)

    def direct(self, line: bytes) -> bytes:
        text = super().direct(line)
        if json.loads(line)["op"] != "show":
            self.is_let_go.wait(SECONDS)
        return text


class Member:
    """A member over one connection, which asks the judge for its next action."""

    def __init__(self, between: Between) -> None:
        self._rule, self._lock = between.rule, between.lock
        self._connection = socket.socket(socket.AF_UNIX)
        self._connection.settimeout(SECONDS)
        self._connection.connect(between.path)
        self._lines = self._connection.makefile("rb", buffering=0)

    def close(self) -> None:
        self._lines.close()
        self._connection.close()

    def send(self, **request: str | int) -> None:
        self._connection.sendall(json.dumps(request).encode() + b"\n")

    def line(self) -> bytes:
        line = self._lines.readline()
        assert line, "the connection has ended"
        return line

    def view(self) -> View:
        return View.of(json.loads(self.line()))

    def is_shown_nothing(self) -> bool:
        return not select.select([self._connection], [], [], QUIET_SECONDS)[0]

    def order(self, op: str, epoch: int) -> None:
        """Sends an order, and reads up to its answer."""
        self.send(op=op, node=NODE, epoch=epoch)
        while b'"nodes"' in self.line():
            pass

    def due(self) -> tuple[Due | None, int]:
        """Reads the next view. Returns the member's action by the judge, and the epoch."""
        self.view()
        with self._lock:
            row = self._rule.view and self._rule.view.node(NODE)
            return self._rule.due, row.epoch if row else 0

    def talk(self) -> None:
        """Follows the judge until the member talks."""
        self.send(op="watch")
        while (due := self.due())[0] is not Due.TALK:
            if due[0] in (Due.BEGIN, Due.RESET):
                self.order("confirm" if due[0] is Due.BEGIN else "reset", due[1])
                self.send(op="show")
        with open(f"{self._rule.folder}/run", "w", encoding="ascii") as file:
            file.write(f"{self._rule.run}\n")


class Watching(Case):
    takes = 10
    programs = ("RESETD", "RESETD_PROXY")

    def setUp(self) -> None:
        super().setUp()
        arguments = Arguments(program=PROGRAM, seconds=SECONDS, without=set(), seed=1)
        self.trial = Trial(arguments, self.folder, 3)
        self.addCleanup(self.trial.end)
        self.rule = Rule(self.path("member"))
        os.mkdir(self.rule.folder)
        self.between = Held(self.trial, self.rule)
        self.addCleanup(self.between.end)
        self.member = Member(self.between)
        self.addCleanup(self.member.close)
        self.addCleanup(self.between.is_let_go.set)

    def test_an_answer_that_comes_late(self) -> None:
        """While its order has no answer, the member is shown no view that it has to judge. Each `show` after that is answered."""
        self.member.send(op="watch")
        first = self.member.view()
        self.member.send(op="reset", node=NODE, epoch=0)
        self.assertEqual(self.member.view(), first)
        until("the end of the reset", lambda: all(row.epoch > 0 and row.mode == "ready" for row in self.trial.port.show().nodes))
        self.assertTrue(self.member.is_shown_nothing())
        self.between.is_let_go.set()
        self.assertIn(json.loads(self.member.line())["kind"], ("started", "joined"))
        self.member.send(op="show")
        self.assertNotEqual(self.member.view().nodes, first.nodes)
        self.assertIsNone(self.rule.wrong)

    def test_a_refusal_that_is_noted_before_the_look(self) -> None:
        """It takes the file `refused` away, judges a view that was pushed before that as usual, and asks for a look and for the
        reset."""
        self.between.is_let_go.set()
        talking = threading.Thread(target=self.member.talk)
        talking.start()
        for node in (1, 2):
            until("the reset", lambda: self.trial.epoch(node) > 0)
            self.trial.order("confirm", node=node, epoch=self.trial.epoch(node))
        talking.join()
        with self.between.lock:
            self.rule.refused()
        pushed = self.member.view()
        while not self.rule.has_heeded:
            pushed = self.member.view()
        self.member.send(op="show")
        self.assertEqual(self.member.view(), pushed)
        self.member.order("reset", self.trial.epoch(NODE))
        self.member.send(op="show")
        self.assertGreater(self.member.view().settled, pushed.settled)
        self.assertIsNone(self.rule.wrong)
        self.assertFalse(self.rule.guesses[0].is_refused)
