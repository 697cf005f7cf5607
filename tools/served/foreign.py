"""Runs a member in any language beside two of the library. Compares, at each look, what it orders and in which run it reports
that it talks, with the library's rule for what it is shown."""

import contextlib
import json
import os
import shutil
import signal
import socket
import subprocess
import threading
import time
from collections.abc import Callable
from typing import Any

from resetd_client import Due, View
from resetd_client.party import digest_of, is_same_run, tag_of
from resetd_client.rule import Kept, judge, shown_to

from .clients import Json
from .file_calls import FileCalls
from .party_trials import Slow
from .services import Failed, Port, Trial, patiently, read

NODE = 3
SHOW = b'{"op":"show"}\n'
# Of a member that watches: how often it is checked, how long it has to have done what was due before it is shown a change, and
# after how long it is shown the same again.
STEP_SECONDS, REST_SECONDS, BEAT_SECONDS = 0.01, 0.04, 0.3
# What a member orders: the kind, the node, and the epoch that it confirms.
Order = tuple[str, int | None, int | None]
ROWS: dict[Due | None, str] = {Due.BEGIN: "begins", Due.WAIT: "waits", Due.TALK: "talks", Due.RESET: "asks for a reset", None: "is not shown"}


class Guess:
    """The possible states of the member's disk, and the action that is then due by the last answer that it got. There is more
    than one guess only after it died: it is unknown which of its writes were done."""

    def __init__(self, kept: Kept = Kept(), history: frozenset[str] = frozenset()) -> None:
        self.kept, self.history = kept, history
        self.due: Due | None = None
        self.run, self.steps = "", [(kept, history)]
        self.is_refused = False  # whether it has refused a tag that requires a reset, if it looks and talks

    def answered(self, view: View | None) -> None:
        """Returns the guesses after the member was shown this view or, if it is None, was started again. `steps` are the states
        of the disk in between."""
        self.due, self.run, self.steps = None, "", [(self.kept, self.history)]
        row = view and view.node(NODE)
        if not view or not row:
            return
        judged = judge(self.kept, self.history, shown_to(view, row))
        self.due = judged.due
        if judged.due is Due.TALK:
            assert judged.kept.party is not None
            self.history |= {judged.digest} if judged.digest else set()
            self.steps += [(self.kept, self.history), (judged.kept, self.history)]
            self.run = f"{row.epoch} {tag_of(judged.kept.party, view.party(NODE)) or '-'}"
        elif judged.due is Due.BEGIN:
            self.steps += [(Kept(), self.history), (Kept(row.epoch), self.history)]
        if judged.due is not Due.TALK:  # it may know more parties than it talked with: the shown one, before it talks
            more = self.history | {digest_of(view.party(NODE))}
            self.steps += [(kept, more) for kept, _ in self.steps]
        self.kept = judged.kept

    def fit(self, view: View | None) -> set[Order]:
        """Returns the orders that are due."""
        row = view and view.node(NODE)
        if self.due is Due.BEGIN:
            return {("confirm", NODE, row.epoch if row else None)}
        asks = self.due is Due.RESET or self.due is Due.TALK and self.is_refused
        return {("reset", NODE, None)} if asks else set()

    def wrong(self, view: View | None, orders: list[Order], run: str, has_heeded: bool) -> str | None:
        """Describes the member's behaviour that does not fit this guess, or returns None if all of it fits. `has_heeded`: it
        had taken the file `refused` away before the last view was shown to it."""
        if not set(orders) <= self.fit(view):
            return f"row `{ROWS[self.due]}`: it orders {', '.join(map(str, dict.fromkeys(orders)))}"
        if not orders and self.due in (Due.BEGIN, Due.RESET):
            return f"row `{ROWS[self.due]}`: it orders nothing"
        if run != self.run:
            return f"row `{ROWS[self.due]}`: its file `run` has {run!r} and not {self.run!r}"
        if not orders and self.due is Due.TALK and self.is_refused and has_heeded:
            return f"row `{ROWS[self.due]}`: it refused a tag that no look can bring to its own, and orders nothing"
        return None


class Rule:
    """The rule for the member: what it has to store, and what is due by the last answer that it got."""

    def __init__(self, folder: str) -> None:
        self.folder, self.guesses = folder, [Guess()]
        self.asked: set[tuple[tuple[str, Any], ...]] = set()
        self.looks, self.talks = 0, 0
        self.wrong: str | None = None
        self.has_heeded = False  # whether it had taken `refused` away when the last view was shown to it
        self.answered(None)

    @property
    def due(self) -> Due | None:
        return self.guesses[0].due

    @property
    def run(self) -> str:
        return self.guesses[0].run

    def answered(self, view: View | None) -> None:
        """Records that the member was shown this view, or was started again."""
        self.view, self.orders = view, list[Order]()
        for guess in self.guesses:
            guess.answered(view)

    def died(self) -> None:
        """Records that the member is started again, with any number of the writes for the last answer done."""
        steps = dict.fromkeys(step for guess in self.guesses for step in [*guess.steps, (guess.kept, guess.history)])
        self.guesses = [Guess(*step) for step in steps]
        self.answered(None)

    def forgot(self) -> None:
        """The member has lost all its files."""
        self.guesses = [Guess()]
        self.answered(None)

    def refused(self) -> None:
        """Records that the member refused a message of another run, whose sender was shown the same view."""
        self.has_heeded = False
        for guess in self.guesses:
            guess.is_refused = True

    def ordered(self, order: Json) -> None:
        """Records an order of the member. It may repeat the order that it was sending when it died, with the same number."""
        line = tuple(sorted(order.items()))
        asked: Order = (order["op"], order.get("node"), order.get("epoch") if order["op"] == "confirm" else None)
        is_again = "number" in order and line in self.asked and not any(asked in guess.fit(self.view) for guess in self.guesses)
        self.asked.add(line)
        if is_again or order.get("op") == "confirm" and order.get("epoch") == 0:
            return  # or it looks for its count
        self.orders.append(asked)
        for guess in self.guesses:
            if guess.due is Due.BEGIN and order["op"] == "confirm":
                self.expect(read(f"{self.folder}/run") == "", "it says that it talks while it confirms")
                guess.kept = Kept(order["epoch"])

    def found(self) -> list[str | None]:
        """Describes the behaviour that does not fit, for each guess that remains."""
        run = read(f"{self.folder}/run").strip()
        return [guess.wrong(self.view, self.orders, run, self.has_heeded) for guess in self.guesses]

    def has_done(self) -> bool:
        """Returns whether the member has done everything that is due by the last view."""
        return None in self.found()

    def looks_again(self) -> None:
        """Records that the member has done everything for the last answer. It takes the file `refused` away before a look or
        during it, and asks for the reset after that look."""
        self.looks += 1
        found = self.found()
        fitting = [guess for guess, wrong in zip(self.guesses, found) if not wrong]
        if fitting:
            self.guesses = list({(guess.kept, guess.history): guess for guess in fitting}.values())
        elif not self.wrong:
            self.wrong = found[0]
        is_gone = not os.path.exists(f"{self.folder}/refused")
        for guess in self.guesses:
            has_asked = ("reset", NODE, None) in self.orders and guess.due is Due.TALK
            guess.is_refused = guess.is_refused and not (has_asked or is_gone and self.has_heeded)
        self.has_heeded = is_gone
        self.talks = self.talks + 1 if self.due is Due.TALK else 0
        self.orders = []

    def expect(self, holds: bool, what: str) -> None:
        if not holds and not self.wrong:
            self.wrong = f"row `{ROWS[self.due]}`: {what}"


# The fate of a request: whether more requests are answered on its connection.
Spoil = Callable[[socket.socket, bytes], bool]


class Between:
    """A port and a socket for the member alone, before the coordinator's proxy. `spoil` determines how the next looks are
    spoiled. Each process of the member has its own port: a request of a dead one may still wait there, and means nothing.

    A member that watches is pushed a view once it has done what was due by the previous one, at each change and from time to
    time. While its order has no answer, only the previous view is pushed again, as by a proxy that has not read the order
    yet. While its process is stopped it is shown nothing, so it does not see what happens meanwhile.
    """

    def __init__(self, trial: Trial, rule: Rule) -> None:
        self.trial, self.rule, self.spoil = trial, rule, list[Spoil]()
        self.on_confirm: Callable[[], None] | None = None
        self.deaths, self.lock = 0, threading.RLock()  # the number of times that the member died
        self.is_stopped, self.goes_on = False, threading.Condition(self.lock)
        self.watching, self.ordering = set[socket.socket](), set[socket.socket]()  # connections that watch and whose order has no answer yet
        self.text = b""  # the last view that was shown to this process
        self.path = f"{trial.folder}/between.socket"
        self.proxy = Port(trial.address, 30)
        self.listen()

    def listen(self) -> None:
        self.listener = socket.create_server(("127.0.0.1", 0))
        with contextlib.suppress(FileNotFoundError):
            os.remove(self.path)
        self.at_socket = socket.socket(socket.AF_UNIX)
        self.at_socket.bind(self.path)
        self.at_socket.listen(64)
        for listener in (self.listener, self.at_socket):
            threading.Thread(target=self.serve, args=[listener, self.deaths], daemon=True).start()

    def end(self) -> None:
        """Stops answering. (A call that waits there is woken by a shutdown, but not by a close.)"""
        for listener in (self.listener, self.at_socket):
            listener.shutdown(socket.SHUT_RDWR)
            listener.close()

    def serve(self, listener: socket.socket, deaths: int) -> None:
        while True:
            try:
                connection, _ = listener.accept()
            except OSError:
                return
            threading.Thread(target=self.serve_one, args=[connection, deaths], daemon=True).start()

    def serve_one(self, connection: socket.socket, deaths: int) -> None:
        with connection, contextlib.suppress(OSError):
            for line in connection.makefile("rb"):
                if not self.answer(connection, line, deaths):
                    connection.shutdown(socket.SHUT_RDWR)
                    return

    def answer(self, connection: socket.socket, line: bytes, deaths: int) -> bool:
        """Answers a line. Returns whether more lines are answered on this connection."""
        request: Json = json.loads(line)
        if request["op"] in ("show", "watch"):
            if request["op"] == "watch":
                self.watching.add(connection)
            goes_on = self.show(connection, deaths)
            if goes_on and request["op"] == "watch":
                threading.Thread(target=self.push, args=[connection, deaths], daemon=True).start()
            return goes_on
        with self.lock:
            if deaths != self.deaths:
                return False
            self.rule.ordered(request)
            self.ordering.add(connection)
            if connection in self.watching:
                connection.sendall(self.text + b"\n")
        if request["op"] == "confirm" and self.on_confirm:
            self.on_confirm()
            return False
        text = self.direct(line)
        with self.lock:
            self.ordering.discard(connection)
            connection.sendall(text + b"\n")
        return True

    def show(self, connection: socket.socket, deaths: int, is_pushed: bool = False) -> bool:
        """Sends the present view, after judging the member by the previous one. A member that watches, asks for a look and has
        not yet carried out the previous view, perhaps because it has not read it, gets that one again. Returns whether more
        lines are answered."""
        self.direct(SHOW)  # waits while the server is away, and keeps nobody else waiting
        with self.lock:
            self.goes_on.wait_for(lambda: not self.is_stopped)
            if deaths != self.deaths:
                return False
            is_done = self.rule.has_done() and not self.ordering
            if is_pushed and not is_done:
                return True  # since `await_done` it was shown another view, or has begun to order
            if self.watching and self.text and not is_done:
                connection.sendall(self.text + b"\n")
                return True
            self.rule.looks_again()
            text = self.direct(SHOW)
            if self.spoil:
                return self.spoil.pop(0)(connection, text)
            self.rule.answered(View.of(json.loads(text)))
            self.text = text
            connection.sendall(text + b"\n")
            return True

    def push(self, connection: socket.socket, deaths: int) -> None:
        """Sends the present view to a member that watches, whenever it has carried out the previous one; less often if nothing
        has changed."""
        with contextlib.suppress(OSError):
            while self.await_done(deaths):
                if not self.show(connection, deaths, is_pushed=True):
                    connection.shutdown(socket.SHUT_RDWR)
                    return

    def await_done(self, deaths: int) -> bool:
        """Waits until a view is due. Returns whether the member still runs."""
        began, since = time.monotonic(), None
        while deaths == self.deaths:
            time.sleep(STEP_SECONDS)
            now = time.monotonic()
            with self.lock:
                since = (since or now) if self.rule.has_done() and not self.ordering else None
                shown = self.rule.view
            if since is None or now - since < REST_SECONDS:
                continue
            if now - began > BEAT_SECONDS or shown is None or shown.nodes != self.present().nodes:
                return True
        return False

    def present(self) -> View:
        return View.of(json.loads(self.direct(SHOW)))

    def stop(self, is_stopped: bool) -> None:
        """Records whether the member's process is stopped."""
        with self.lock:
            self.is_stopped = is_stopped
            self.goes_on.notify_all()

    def died(self) -> None:
        self.stop(False)
        with self.lock:
            self.deaths += 1
            self.watching, self.ordering, self.text = set(), set(), b""
            self.rule.died()
            self.end()
            self.listen()

    def direct(self, line: bytes) -> bytes:
        request: Json = json.loads(line)
        return patiently(lambda: self.proxy.raw(request), self.trial.arguments.seconds).encode()


def away(connection: socket.socket, text: bytes) -> bool:
    return False


def torn(connection: socket.socket, text: bytes) -> bool:
    connection.sendall(text[:len(text) // 2])
    return False


class Tried:
    """The member's process, and the group around it."""

    def __init__(self, trial: Trial, command: list[str]) -> None:
        self.trial, self.command = trial, command
        self.folder = f"{trial.folder}/foreign"
        self.rule = Rule(self.folder)
        self.between = Between(trial, self.rule)
        self.others = Slow(trial, (1, 2))
        self.calls = FileCalls(trial.folder)
        self.kills = 0  # before its file calls

    def start(self) -> None:
        host, port = self.between.listener.getsockname()
        values = {"node": NODE, "host": host, "port": port, "address": f"{host}:{port}", "proxy": f"unix:{self.between.path}",
                  "folder": self.folder, "signals": self.trial.server.signals}
        with open(f"{self.trial.folder}/foreign.lines", "ab") as lines:
            self.process: subprocess.Popen[bytes] = subprocess.Popen(
                self.calls.around([word.format(**values) for word in self.command]), stdin=subprocess.DEVNULL, stdout=lines,
                stderr=lines, start_new_session=True)

    def kill(self) -> None:
        """Kills it, unless it killed itself."""
        with contextlib.suppress(ProcessLookupError):
            os.killpg(self.process.pid, signal.SIGKILL)
        self.process.wait()
        self.between.died()

    def stop(self) -> None:
        os.killpg(self.process.pid, signal.SIGSTOP)
        self.between.stop(True)

    def go_on(self) -> None:
        self.between.stop(False)
        os.killpg(self.process.pid, signal.SIGCONT)

    def starts_without(self, name: str, what: str) -> None:
        """Starts the member again with a folder in place of a file, so that it can't be read; then with the file again."""
        path, aside = f"{self.folder}/{name}", f"{self.trial.folder}/aside"
        self.kill()
        os.rename(path, aside)
        os.mkdir(path)
        self.start()
        before = self.rule.looks
        self.until(what, lambda: self.process.poll() is not None or self.rule.looks >= before + 2, may_end=True)
        self.kill()
        os.rmdir(path)
        os.rename(aside, path)
        self.start()
        self.all_talk(f"{what}: after it can be read again")

    def dies_on_its_way(self, what: str) -> bool:
        """Returns whether it dies before it talks with the others."""
        def holds() -> bool:
            return self.process.poll() is not None or self.talks_with_all()
        self.until(what, holds, may_end=True)
        return self.process.poll() is not None

    def refuse(self, tag: str) -> None:
        """Makes the member refuse a message with this tag, whose sender is shown the same view. Before that it has noted
        another tag, which requires nothing; the file is replaced just before the call with which the member takes it away."""
        with self.between.lock:
            self.rule.refused()
            if self.calls.can_see:
                self.put("refused.next", tag)
                tag = self.rule.run.split(" ")[1]
            self.put("refused", tag)

    def put(self, name: str, line: str) -> None:
        """Replaces a file in the member's folder as a whole."""
        with open(f"{self.trial.folder}/put", "w", encoding="utf-8") as file:
            file.write(f"{line}\n")
        os.replace(f"{self.trial.folder}/put", f"{self.folder}/{name}")

    def until(self, what: str, holds: Callable[[], bool], may_end: bool = False) -> None:
        """Waits until something holds, while the member keeps the rule."""
        until = time.monotonic() + self.trial.arguments.seconds
        while True:
            reached = holds()
            if self.rule.wrong:
                raise Failed(f"{what}: {self.rule.wrong}")
            if reached:
                return
            if self.process.poll() is not None and not may_end:
                raise Failed(f"{what}: it has ended: {read(f'{self.trial.folder}/foreign.lines')[-300:]}")
            if time.monotonic() > until:
                raise Failed(f"{what}, within {self.trial.arguments.seconds} s: {self.rule.found()[0] or self.trial.summary()}; "
                             f"its due action is {self.rule.due}")
            time.sleep(0.02)

    def looks(self, what: str, times: int = 2) -> None:
        """Waits until the member has looked this often, and has done each time what was due."""
        before = self.rule.looks
        self.until(what, lambda: self.rule.looks >= before + times)

    def talks_now(self) -> bool:
        """Returns whether it talks by the present view."""
        view = self.trial.port.show()
        rule = self.rule
        return rule.talks > 1 and rule.due is Due.TALK and rule.view is not None and rule.view.nodes == view.nodes

    def talks_with_all(self) -> bool:
        """Returns whether all three are in one run, each with the present view."""
        self.others.look(1, 2)
        runs = [member.run for member in self.others.members.values() if member.run]
        return (self.talks_now() and len(runs) == len(self.others.members)
                and all(is_same_run(run.tag, self.rule.run.split(" ")[1]) for run in runs))

    def all_talk(self, what: str) -> None:
        self.until(what, self.talks_with_all)


def unlink(trial: Trial) -> None:
    for other in (1, 2):
        trial.order("drop", a=NODE, b=other)


def link(trial: Trial) -> None:
    for other in (1, 2):
        trial.order("join", a=NODE, b=other)


def of_resets(tried: Tried) -> None:
    trial = tried.trial
    tried.all_talk("at first")
    trial.reset(1)
    tried.looks("a reset, after which the others look late", 4)
    tried.all_talk("after a reset")
    tried.between.spoil += [torn, away, away, torn]
    tried.looks("the coordinator is away, and its answers are torn", 6)


def of_links(tried: Tried) -> None:
    trial = tried.trial
    trial.order("drop", a=1, b=2)
    trial.order("drop", a=1, b=NODE)
    tried.looks("the links of another member are dropped", 3)
    trial.order("join", a=1, b=NODE)
    trial.order("join", a=1, b=2)
    tried.looks("that member returns")
    tried.all_talk("after that one came back")
    unlink(trial)
    tried.looks("its own links are dropped", 3)
    trial.reset(NODE)
    tried.looks("a reset of it alone", 6)
    link(trial)
    tried.all_talk("after it came back")


def of_nodes(tried: Tried) -> None:
    trial = tried.trial
    for _ in range(2):
        unlink(trial)
        trial.order("remove", node=NODE)
        tried.looks("its node is removed", 3)
        trial.order("add", node=NODE, group=1)
        link(trial)
        tried.all_talk("after its node was added again")


def of_confirms(tried: Tried) -> None:
    """A manual confirm; a kill when it is about to confirm, once with the confirm lost."""
    trial = tried.trial
    tried.kill()
    trial.reset(1)
    trial.expect_quiet()
    trial.order("confirm", node=NODE, epoch=trial.epoch(NODE))
    tried.start()
    tried.all_talk("after somebody else confirmed for it")
    died = threading.Event()

    def dies() -> None:
        tried.between.on_confirm = None
        tried.kill()
        died.set()
    tried.between.on_confirm = dies
    trial.reset(2)
    if not died.wait(trial.arguments.seconds):
        raise Failed("a reset: it confirms nothing")
    tried.start()
    tried.all_talk("after it died before its confirm")


def of_restores(tried: Tried) -> None:
    """A store is put back, with its node unconfirmed, to where it has talked in the epoch that it is to begin."""
    trial = tried.trial
    tried.kill()
    trial.reset(1)
    trial.expect_quiet()
    tried.others.look(1, 2)
    trial.close()
    shutil.copy(trial.server.store, f"{trial.folder}/copy")
    trial.start()
    tried.start()
    tried.all_talk("before a store is put back")
    trial.put_back(f"{trial.folder}/copy")
    tried.all_talk("after a store was put back")


def of_unreadable(tried: Tried) -> None:
    """A file of its own can't be read: it ends, or does what was due with the file. Once it talks, and once a store is put back
    to where it has talked in the shown epoch."""
    for name in sorted(os.listdir(tried.folder)):
        if name in ("run", "refused") or name.endswith(".new") or not os.path.isfile(f"{tried.folder}/{name}"):
            continue
        tried.starts_without(name, f"its file {name} can't be read")
        tried.kill()
        tried.trial.put_back(f"{tried.trial.folder}/copy")
        tried.starts_without(name, f"its file {name} can't be read, and a store was put back")


def of_files(tried: Tried) -> None:
    tried.kill()
    shutil.rmtree(tried.folder)
    tried.rule.forgot()
    tried.start()
    tried.all_talk("after it lost all its files")


def of_second_hand(tried: Tried) -> None:
    """Member 2 is taken off its links, reset alone, linked again, and taken off again, while it is stopped. Member 1 first
    talks in between, with a start of 2 that it never hears of. Then both are shown the same, and talk in two runs."""
    trial, others = tried.trial, tried.others
    trial.reset(1)
    trial.expect_quiet()
    others.look(1, 2)

    def talks_beside_2() -> bool:
        others.look(2)
        return tried.talks_now()
    tried.until("after a reset, before member 1 has looked again", talks_beside_2)
    tried.stop()
    for other in (1, NODE):
        trial.order("drop", a=2, b=other)
    trial.order("reset", node=2)
    trial.expect_quiet()

    def join_again(trial: Trial) -> None:
        for other in (1, NODE):
            trial.order("join", a=2, b=other)
    others.while_it_begins.append(join_again)
    others.look(2, 1)
    for other in (1, NODE):
        trial.order("drop", a=2, b=other)
    others.look(1)
    tried.go_on()
    tried.looks("while it was stopped, the links of another member were dropped, it was reset alone, linked, and its links dropped again", 3)
    tried.until("by what it is shown then, it talks", tried.talks_now)
    run = others.members[1].run
    assert run is not None
    tried.refuse(run.tag)
    tried.until("it refused a message of another run, whose sender is shown the same, so it asks for a reset",
                lambda: not tried.rule.guesses[0].is_refused)
    join_again(trial)
    tried.all_talk("after that one came back")


def of_kills(tried: Tried) -> None:
    """The member dies in front of each file call that a reset takes it to, in turn."""
    if not tried.calls.can_see:
        return
    trial = tried.trial
    for call in range(1, trial.arguments.kills + 1):
        tried.calls.die_at(call)
        trial.reset(1)
        has_died = tried.dies_on_its_way(f"a reset, and a kill at file call {call}")
        tried.calls.die_at(0)
        if not has_died:
            if call == 1:
                raise Failed("a reset: the member changed no file")
            return
        tried.kills += 1
        tried.kill()
        tried.start()
        tried.all_talk(f"after it died at file call {call} after a reset")


EVENTS = (of_resets, of_links, of_second_hand, of_nodes, of_confirms, of_restores, of_unreadable, of_kills, of_files)


def lead(trial: Trial, command: list[str]) -> str:
    """Leads a member through the events. Raises Failed if it violates the rule."""
    tried = Tried(trial, command)
    tried.start()
    try:
        for events in EVENTS:
            events(tried)
    finally:
        if tried.process.poll() is None:
            tried.kill()
        tried.between.end()
    kills = f"{tried.kills} kills in front of its file calls" if tried.calls.can_see else f"no such kill, since {tried.calls.why}"
    return f"{tried.rule.looks} looks, and each time it did what was due; {kills}"
