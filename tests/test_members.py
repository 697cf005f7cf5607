"""The library of the members' rule for C, compared with the Python library; and members in other languages that call it.
RESETD_MEMBER names the library; tests/run makes a trial build of it."""

import contextlib
import itertools
import json
import os
import random
import shutil
import signal
import socket
import subprocess
import sys
import threading
from collections.abc import Iterable, Iterator
from typing import Self

from support import traced
from support.case import Case, tool, until
from support.library_case import OfLibrary
from support.memberlib import PATH, Library, Order, Orders, Refused
from support.program import PROGRAM, ROOT

sys.path[:0] = [f"{ROOT}/tools", f"{ROOT}/client"]
from resetd_client import Due, Link, Node, View  # noqa: E402
from resetd_client.gateway import Desk  # noqa: E402
from resetd_client.party import Party, are_parted, digest_of, is_same_run, tag_of  # noqa: E402
from resetd_client.rule import Kept, judge, shown_to  # noqa: E402
from resetd_client.starts import Shelf, Starts  # noqa: E402
from served import faults, services  # noqa: E402
from served.services import Arguments, Trial  # noqa: E402

STATES = 25_000  # random states for each of four seeds
EXAMPLES = f"{ROOT}/examples/members"
COMPILERS = {"cc": "a C compiler", "rustc": "Rust", "go": "Go"}
HEADER = f"{ROOT}/crates/resetd_member/include"
# The view, the member's node, its stored values, the digests of its history, and the epoch stored with its work.
State = tuple[View, int, Kept, list[str], int | None]


def line_of(view: View) -> bytes:
    """Returns the line that shows a view."""
    return (json.dumps(view.members(), separators=(",", ":")) + "\n").encode()


def row_of(view: View, node: int) -> Node:
    """Returns the row of an existing node."""
    row = view.node(node)
    assert row is not None
    return row


def start_text(node: int, kept: Kept, count: int | None = None) -> bytes:
    """Returns a start file that is valid in any boot, as the Python library writes it. `count` is the number of settled steps
    in the view in which the start first talked."""
    party = None if kept.party is None else sorted(kept.party)
    counted = {} if count is None else {"count": count}
    return (json.dumps({str(node): {"begun": kept.begun, "party": party, **counted}}) + "\n").encode()


def loaded_text(node: int, epoch: int, boot: str) -> bytes:
    """Returns the start file of a start that has talked with nobody, as the Python library writes it."""
    row: dict[str, object] = {"begun": None, "party": None, "loaded": epoch, "foreseen": [], "boot": boot}
    return (json.dumps({str(node): row}) + "\n").encode()


def kept_in(text: bytes, node: int) -> Kept:
    """Returns the values in a start file, in the boot that it names."""
    row = json.loads(text or b"{}").get(str(node), {"begun": None, "party": None})
    return Kept(row.get("loaded", row["begun"]), None if row["party"] is None else frozenset(row["party"]))


def history_text(digests: Iterable[str], torn: str = "") -> bytes:
    return "".join(f"{digest}\n" for digest in digests).encode() + torn.encode()


def small_views() -> Iterator[View]:
    """Yields views of two nodes, each in each state of two epochs, with no link, a first link or a second one between them."""
    rows = list(itertools.product(("ready", "abort", "converge"), (0, 1), (0, 1)))
    for (mode, epoch, confirmed), (other_mode, other_epoch, other_confirmed), link in itertools.product(rows, rows, (0, 1, 2)):
        nodes = Node(1, 1, mode, 0, epoch, confirmed), Node(2, 1, other_mode, 0, other_epoch, other_confirmed)
        yield View(3, 3, nodes, (Link(1, 2, link),) if link else ())


def small_states() -> Iterator[State]:
    """Yields each small view with each small state that may be stored, and work of that epoch or none."""
    for view in small_views():
        party = view.party(1)
        parties: list[Party | None] = [None, party, party | {"3 0"}, party - {"2 0", "2 1"}]
        for begun, kept, has, has_work in itertools.product((None, 0, 1), parties, (False, True), (False, True)):
            if has_work or begun is not None:
                yield view, 1, Kept(begun, kept), [digest_of(party)] if has else [], begun if has_work else None


class Random:
    """Random states of up to six nodes with any links, epochs and histories."""

    def __init__(self, seed: int) -> None:
        self.random = random.Random(seed)

    def view(self) -> View:
        draw, most = self.random, self.random.choice((1, 2, 2, 3, 3, 4, 6, 6) * 4 + (64,))
        numbers = sorted(draw.sample(range(1, 65), draw.randint(1, most)))
        epochs = draw.choice((2, 12, 1 << 40))
        rows = tuple(Node(n, 1, draw.choice(("ready",) * 6 + ("abort", "converge")), 0, epoch := draw.randrange(epochs),
                          draw.choice((epoch, epoch, epoch, max(0, epoch - 1)))) for n in numbers)
        pairs = list(itertools.combinations(numbers, 2))
        chosen = sorted(draw.sample(pairs, min(len(pairs), draw.randint(0, 2 * len(numbers)), 128)))
        return View(99, 99, rows, tuple(Link(a, b, draw.randrange(1, epochs + 99)) for a, b in chosen))

    def party(self, view: View, row: Node) -> Party | None:
        """Returns None, the shown party, or a larger or smaller one."""
        draw, shown = self.random, view.party(row.node)
        more = frozenset(f"{draw.randint(1, 64)} {draw.randrange(99)}" for _ in range(draw.randrange(3)))
        fewer = frozenset(line for line in shown if draw.random() < 0.8)
        return draw.choice((None, None, shown, shown | more, fewer | more or None))

    def state(self) -> State:
        draw, view = self.random, self.view()
        row = draw.choice(view.nodes)
        kept = Kept(draw.choice((None, row.epoch, row.epoch, row.confirmed, draw.randrange(99))), self.party(view, row))
        history = [digest_of(frozenset({str(draw.random())})) for _ in range(draw.randrange(4))]
        if draw.random() < 0.4:
            history.insert(draw.randint(0, len(history)), digest_of(view.party(row.node)))
        return view, row.node, kept, history, draw.choice((kept.begun, kept.begun, kept.begun, None, row.epoch))


class Shows:
    """A port that shows one line, and carries out each order."""

    def __init__(self, line: bytes) -> None:
        self.line, self.looks, self.looked_twice = line, 0, threading.Event()
        self.ordered: str | None = None
        self._listener = socket.create_server(("127.0.0.1", 0))
        self.number: int = self._listener.getsockname()[1]

    def __enter__(self) -> Self:
        threading.Thread(target=self._serve, daemon=True).start()
        return self

    def __exit__(self, *_: object) -> None:
        with contextlib.suppress(OSError):
            self._listener.shutdown(socket.SHUT_RDWR)
        self._listener.close()

    def _serve(self) -> None:
        with contextlib.suppress(OSError):
            while True:
                connection, _ = self._listener.accept()
                with connection, contextlib.suppress(OSError):
                    for line in connection.makefile("rb"):
                        connection.sendall(self._answer(json.loads(line)["op"]))

    def _answer(self, op: str) -> bytes:
        if op != "show":
            self.ordered = self.ordered or op
            return b'{"kind":"done","step":1}\n'
        self.looks += 1
        if self.looks > 1:
            self.looked_twice.set()
        return self.line


class Members(OfLibrary):
    takes = 120

    def setUp(self) -> None:
        super().setUp()
        self.library = Library()

    def judged_alike(self, state: State, torn: str = "") -> str:
        """Compares the two libraries for one state: the due action, the values to store, the line for the history, and the tag."""
        view, node, kept, history, work = state
        row = row_of(view, node)
        begun = kept.begun if kept.begun == work else None
        wanted = judge(Kept(begun, kept.party), set(history), shown_to(view, row))
        line, file = line_of(view), b"" if kept == Kept() else start_text(node, kept)
        judged = self.library.judge(line, node, file, history_text(history, torn), work)
        self.assertEqual((judged.due, judged.epoch, judged.history_size), (wanted.due.name, row.epoch, 65 * len(history)), state)
        self.assertEqual(judged.line, history_text([wanted.digest]) if wanted.digest else b"", state)
        changes = wanted.due is Due.BEGIN or wanted.due is Due.TALK and kept.party is None
        count = None if wanted.due is Due.BEGIN else view.settled
        self.assertEqual(judged.start, start_text(node, wanted.kept, count) if changes else b"", state)
        if wanted.due is Due.TALK:
            assert wanted.kept.party is not None
            for word in ("", "blue"):
                tag = self.library.tag(line, node, judged.start or file, word.encode())
                self.assertEqual(tag.decode(), tag_of(wanted.kept.party, view.party(node), word), state)
        return judged.due

    def test_small_states(self) -> None:
        """Tries all of them."""
        dues = [self.judged_alike(state) for state in small_states()]
        self.assertGreater(len(dues), 15_000)
        self.assertEqual(set(dues), {due.name for due in Due})

    def random_states(self, seed: int) -> None:
        states, dues = Random(seed), dict[str, int]()
        for _ in range(STATES):
            due = self.judged_alike(states.state(), states.random.choice(("", "", "", "a", "f" * 64, "?")))
            dues[due] = dues.get(due, 0) + 1
        self.assertGreater(min(dues.get(due.name, 0) for due in Due), STATES // 50, dues)

    def test_random_states_1(self) -> None:
        self.random_states(1)

    def test_random_states_2(self) -> None:
        self.random_states(2)

    def test_random_states_3(self) -> None:
        self.random_states(3)

    def test_random_states_4(self) -> None:
        self.random_states(4)

    def alike_in(self, state: State, due: Due, after: Kept, history: bytes) -> None:
        """Checks that a member of another kind, after it was shown a state, has taken the action and has the files that the
        proved library determines. (One that begins has already continued.)"""
        view, node, kept, digests, work = state
        judged = self.library.judge(line_of(view), node, start_text(node, kept), history_text(digests), work)
        self.assertEqual(due.name, judged.due, state)
        if judged.due != "BEGIN":
            self.assertEqual(after, kept_in(judged.start, node) if judged.start else kept, state)
            self.assertEqual(history, history_text(digests) + judged.line, state)

    def test_the_files_of_the_python_library(self) -> None:
        """The starts of a member, over files: both libraries write the same bytes."""
        states = Random(5)
        for turn in range(1_000):
            view, node, kept, digests, work = state = states.state()
            folder = self.path(f"{turn}")
            os.mkdir(folder)
            self.write(f"{turn}/starts.json", b"" if kept == Kept() else start_text(node, kept))
            self.write(f"{turn}/starts.history", history_text(digests, states.random.choice(("", "torn"))))
            shelf = Shelf(f"{folder}/starts.json")
            due = Starts(shelf, node, work).due(view, row_of(view, node))
            shelf.keep()
            text = self.read(f"{turn}/starts.json")
            self.alike_in(state, due, kept_in(text, node), self.read(f"{turn}/starts.history").removesuffix(b"torn"))
            if text and due is Due.TALK:
                count = view.settled if kept.party is None else None
                self.assertEqual(json.dumps(json.loads(text)).encode() + b"\n", start_text(node, kept_in(text, node), count), state)

    def test_a_gateway(self) -> None:
        """Its members have begun its last instruction, or have lost the work."""
        states = Random(6)
        for turn in range(300):
            view, node, kept, digests, work = state = states.state()
            if work not in (None, kept.begun):
                continue
            folder, instruction = self.path(f"{turn}"), f"{kept.begun or 0} 1\n"
            os.makedirs(f"{folder}/a")
            kept_row = json.loads(start_text(node, kept))
            kept_row[str(node)]["told"] = instruction
            self.write(f"{turn}/starts.json", json.dumps(kept_row) + "\n")
            self.write(f"{turn}/starts.history", history_text(digests))
            if work is not None:
                self.write(f"{turn}/a/begun", instruction)
            shelf = Shelf(f"{folder}/starts.json")
            due = Desk(node, shelf, folder, ["a"]).due(view, row_of(view, node))
            shelf.keep()
            self.alike_in(state, due, kept_in(self.read(f"{turn}/starts.json"), node), self.read(f"{turn}/starts.history"))

    def test_a_member_in_bash(self) -> None:
        """Tries examples/plain_member, over its own files."""
        states = Random(7)
        for turn in range(60):
            view, node, kept, digests, work = state = states.state()
            folder = self.path(f"{turn}")
            os.mkdir(folder)
            lines = [] if kept.party is None else sorted(kept.party)
            self.write(f"{turn}/kept", "\n".join([str(-1 if kept.begun is None else kept.begun), *lines]) + "\n")
            self.write(f"{turn}/history", history_text(digests))
            if work is not None:
                self.write(f"{turn}/work", f"{work}\n")
            with Shows(line_of(view)) as port:
                member = subprocess.Popen([f"{ROOT}/examples/plain_member", str(node), "127.0.0.1", str(port.number), folder],
                                          stdout=subprocess.DEVNULL, start_new_session=True)
                port.looked_twice.wait(300)
                os.killpg(member.pid, signal.SIGKILL)
                member.wait()
            run = f"{folder}/run"
            due = {"confirm": Due.BEGIN, "reset": Due.RESET}.get(port.ordered or "", Due.TALK if os.path.exists(run) else Due.WAIT)
            first, *party = self.read(f"{turn}/kept").decode().splitlines()
            after = Kept(None if first == "-1" else int(first), frozenset(party) if party else None)
            self.alike_in(state, due, after, self.read(f"{turn}/history"))
            if due is Due.TALK:
                tag = self.library.tag(line_of(view), node, start_text(node, after)).decode() or "-"
                self.assertEqual(self.read(f"{turn}/run").decode(), f"{row_of(view, node).epoch} {tag}\n", state)

    def test_begun(self) -> None:
        for node, epoch in ((1, 0), (64, (1 << 64) - 1), (7, 12)):
            self.assertEqual(self.library.begun(node, epoch), start_text(node, Kept(epoch)))
            self.assertEqual(self.library.loaded(node, epoch, b"boot-1"), loaded_text(node, epoch, "boot-1"))

    def test_what_a_file_says_in_a_boot(self) -> None:
        """A loaded start is valid only in its boot, files of earlier versions are converted, and a torn one counts as empty."""
        party = frozenset({"1 2", "2 2", "1 2 3"})
        loaded, nothing = loaded_text(2, 7, "boot-1"), start_text(2, Kept())
        for text, boot, wanted in (
                (loaded, b"boot-1", start_text(2, Kept(7))), (loaded, b"boot-2", nothing), (loaded, b"", nothing),
                (loaded.replace(b"[]", b'["ab"]'), b"boot-1", start_text(2, Kept(7))), (b"", b"boot-1", nothing),
                (start_text(2, Kept(7)), b"boot-1", start_text(2, Kept(7))), (start_text(3, Kept(7)), b"boot-1", nothing),
                (start_text(2, Kept(7, party)), b"", start_text(2, Kept(7, party))),
                (start_text(2, Kept(7, party), 9), b"boot-1", start_text(2, Kept(7, party), 9)),
                (loaded[:-1] + b"    \n", b"boot-1", start_text(2, Kept(7)))):
            self.assertEqual(self.library.carried(2, text, boot), wanted, (text, boot))
        for text in (loaded, start_text(2, Kept(7, party), 9)):
            for size in range(len(text)):
                self.assertEqual(self.library.carried(2, text[:size], b"boot-1"), nothing, text[:size])
        for text in (b"[]\n", loaded.replace(b"7", b"-7"), start_text(2, Kept(7, party)).replace(b"]}", b'], "count": null}')):
            with self.assertRaises(Refused) as refused:
                self.library.carried(2, text, b"boot-1")
            self.assertEqual(refused.exception.status, 5, text)

    def test_fences(self) -> None:
        """The start has talked with another one, or was alone; others have no fence."""
        both, alone = frozenset({"1 2", "2 2", "1 2 3"}), frozenset({"2 2"})
        for word, generation in itertools.product(("", "blue"), (0, 1, (1 << 23) - 1)):
            count = (generation << 40) + 9
            for party, tag in ((both, digest_of(both, word)[:32]), (alone, digest_of(alone, f"{word}@{count}")[:32])):
                fence = self.library.fence(2, start_text(2, Kept(2, party), 9), generation, word.encode())
                self.assertEqual(fence, (count, tag.encode()))
        for text in (b"", start_text(2, Kept(7)), start_text(2, Kept(7, both)), loaded_text(2, 7, "boot-1")):
            self.assertEqual(self.library.fence(2, text), (0, b""))
        for status, text, generation in ((7, b"", 1 << 23), (5, start_text(2, Kept(2, both), (1 << 40) + 1), 0), (5, b"[]\n", 0)):
            with self.assertRaises(Refused) as refused:
                self.library.fence(2, text, generation)
            self.assertEqual(refused.exception.status, status)

    def test_tags_that_came(self) -> None:
        tags = ["", "torn", "-", "a-b-c"]
        tags += [tag_of(frozenset({a, "x"}), frozenset({b}), word) for a in "12" for b in "12" for word in ("", "w")]
        for own, other in itertools.product(tags, tags):
            self.assertEqual(self.library.is_same_run(own.encode(), other.encode()), is_same_run(own, other), (own, other))
            self.assertEqual(self.library.are_parted(own.encode(), other.encode()), are_parted(own, other), (own, other))

    def refuses(self, status: int, show: bytes, node: int, start: bytes = b"", history: bytes = b"") -> None:
        with self.assertRaises(Refused) as refused:
            self.library.judge(show, node, start, history)
        self.assertEqual(refused.exception.status, status, (show, node, start, history))

    def test_what_does_not_read(self) -> None:
        line = line_of(View(1, 1, (Node(1, 1, "ready", 0, 0, 0),), ()))
        for torn in (b"", line[:40], b"{}\n", b'{"fault":"BadJson"}\n', b'{"name":"Stopped","refused":1}\n', b"7\n"):
            self.refuses(3, torn, 1)
        self.refuses(4, line, 2)
        for start in (b"{", b"[]", b"7", b'{"1": {}}', b'{"1": {"begun": true, "party": null}}',
                      b'{"1": {"begun": 1, "party": [1]}}', b'{"1": {"begun": 1, "party": null, "count": -1}}'):
            self.refuses(5, line, 1, start + b"\n")
            self.assertEqual(self.library.judge(line, 1, start), self.library.judge(line, 1), start)  # torn
        for history in (b"\n", b"a" * 63 + b"\n", b"A" * 64 + b"\n", b"a" * 64 + b"\nb\n"):
            self.refuses(6, line, 1, b"", history)
        for node in (0, 65, 255):
            self.refuses(7, line, node)
        self.refuses(9, line, 1, b"\xff")

    def test_the_order_book(self) -> None:
        """It has one order from its first line to its last answer, and the number of the next."""
        orders = Orders()
        self.assertEqual(self.library.order_line(orders, 3), b"")
        self.library.write_down(orders, Order(6, 5, 0, 9))
        with self.assertRaises(Refused) as refused:
            self.library.write_down(orders, Order(5, 5, 0, 0))
        self.assertEqual(refused.exception.status, 8)
        self.assertEqual(json.loads(self.library.order_line(orders, 3)),
                         {"op": "confirm", "client": 3, "number": 1, "node": 5, "epoch": 9})
        for again in (b'{"name":"Stopped","refused":1}\n', b'{"name":"PendingFull","refused":20}\n'):
            self.assertEqual(self.library.hear(orders, again), 3)
        self.assertEqual(self.library.hear(orders, b'{"name":"OutOfTurn","refused":4}\n'), 4)
        self.assertEqual((orders.last, orders.in_hand.op), (0, 6))
        self.assertEqual(self.library.hear(orders, b'{"kind":"done","step":7}\n'), 1)
        self.assertEqual((orders.last, orders.in_hand.op), (1, 0))
        self.library.write_down(orders, Order(5, 5, 0, 0))
        self.assertEqual(json.loads(self.library.order_line(orders, 3)), {"op": "reset", "client": 3, "number": 2, "node": 5})
        self.assertEqual(self.library.hear(orders, b'{"name":"UnknownNode","refused":6}\n'), 2)
        self.assertEqual((orders.last, orders.in_hand.op), (1, 0))


class Searches(OfLibrary):
    def last_line(self, *arguments: str) -> str:
        """Returns the last line that tools/member_search prints."""
        done = subprocess.run([tool("member_search"), "--seconds", "500", *arguments], capture_output=True, text=True, check=False)
        self.assertEqual(done.stderr, "")
        return done.stdout.splitlines()[-1]

    def test_the_search_with_the_proved_judge(self) -> None:
        """The search reaches as many states as with the Python judge, and finds the mix if a part is left out."""
        for about, depth in (("all", 5), ("lose", 5), ("restore", 6), ("readd", 8), ("links", 9)):
            arguments = ["--about", about, "--depth", str(depth)]
            self.assertEqual(self.last_line(*arguments, "--library", PATH), self.last_line(*arguments))
        weaker = ["--about", "readd", "--without", "dropped"]
        self.assertIn("mixed after 10 events", self.last_line(*weaker, "--library", PATH))


class Made(Case):
    """A test of a member that is compiled."""

    programs: tuple[str, ...] = ("RESETD", "RESETD_MEMBER")

    def make(self, compiler: str, *arguments: str, env: dict[str, str] | None = None) -> str:
        """Compiles a member without a warning, and returns its program."""
        self.needs(COMPILERS[compiler], shutil.which(compiler) is not None, is_optional=True)
        made = subprocess.run([compiler, *arguments], capture_output=True, text=True, cwd=EXAMPLES, env={**os.environ, **(env or {})}, timeout=600)
        self.assertEqual((made.returncode, made.stderr), (0, ""))
        return self.path("member")

    def make_in_go(self, *files: str, env: dict[str, str]) -> str:
        folders = {name: self.path(name) for name in ("GOCACHE", "GOPATH", "GOTMPDIR")}
        os.mkdir(folders["GOTMPDIR"])
        return self.make("go", "build", "-o", self.path("member"), *files, env={**folders, **env})

    def library(self) -> str:
        """Returns the library with which the member is linked."""
        self.needs("a C compiler: for the members' library", os.path.exists(PATH))
        return PATH.replace(".so", ".a")

    def make_in_c(self) -> str:
        return self.make("cc", "-std=c11", "-Wall", "-Wextra", "-Wconversion", "-O1", "-I", HEADER, "-o", self.path("member"), "member.c",
                         self.library())


    def make_in_rust(self) -> str:
        return self.make("rustc", "--edition", "2024", "-O", "-o", self.path("member"), "member.rs", "-L", os.path.dirname(self.library()),
                         "-l", "static=resetd_member")

    def make_in_go_with_the_library(self) -> str:
        return self.make_in_go("member.go", "resetd_member.go", "proxy.go", "files.go",
                               env={"CGO_CFLAGS": f"-I{HEADER}", "CGO_LDFLAGS": self.library()})

    def make_in_plain_go(self) -> str:
        return self.make_in_go("plain_member.go", "proxy.go", "files.go", env={"CGO_ENABLED": "0"})


class InOtherLanguages(Made):
    """Whole members, each at a proxy, which tools/try_member leads through the table of docs/SERVICES.md."""

    takes = 100
    programs = (*Made.programs, "RESETD_PROXY")

    def keeps_the_rule(self, *command: str) -> None:
        """Checks that tools/try_member finds no violation by a member."""
        tried = subprocess.run([tool("try_member"), "--seconds", "180", *command], capture_output=True, text=True,
                               env={**os.environ, "RESETD": PROGRAM, "TMPDIR": self.folder})
        self.assertEqual(tried.returncode, 0, tried.stdout + tried.stderr)

    def test_python(self) -> None:
        self.keeps_the_rule(f"{EXAMPLES}/member.py", "{node}", "{proxy}", "{folder}", "parts")

    def test_python_whose_work_is_replaced_as_a_whole(self) -> None:
        self.keeps_the_rule(f"{EXAMPLES}/member.py", "{node}", "{proxy}", "{folder}", "whole")

    def test_bash(self) -> None:
        self.keeps_the_rule(f"{ROOT}/examples/plain_member", "{node}", "{host}", "{port}", "{folder}")

    def test_c(self) -> None:
        self.keeps_the_rule(self.make_in_c(), "{node}", "{proxy}", "{folder}")

    def test_rust(self) -> None:
        self.keeps_the_rule(self.make_in_rust(), "{node}", "{proxy}", "{folder}")

    def test_go(self) -> None:
        self.keeps_the_rule(self.make_in_go_with_the_library(), "{node}", "{proxy}", "{folder}")

    def test_go_without_the_library(self) -> None:
        self.keeps_the_rule(self.make_in_plain_go(), "{node}", "{proxy}", "{folder}")


class OneProcess(Made):
    """A second process of a member ends, and names the process that holds its folder."""

    takes = 20

    def starts(self, *command: str) -> subprocess.Popen[str]:
        process = subprocess.Popen(command, stdin=subprocess.DEVNULL, stdout=subprocess.DEVNULL, stderr=subprocess.PIPE, text=True)
        self.addCleanup(process.communicate)
        self.addCleanup(process.kill)
        return process

    def has_the_folder(self, process: subprocess.Popen[str]) -> bool:
        with contextlib.suppress(FileNotFoundError):
            return self.read("files/lock") == f"{process.pid}\n".encode()
        return False

    def allows_one_process(self, *forms: str) -> None:
        folder = self.path("files")
        command = [form.format(proxy=f"unix:{self.path('no proxy')}", folder=folder) for form in forms]
        first = self.starts(*command)
        until("the first process has the folder", lambda: self.has_the_folder(first))
        second = self.starts(*command)
        _, said = second.communicate(timeout=60)
        self.assertNotEqual(second.returncode, 0)
        self.assertIn(f"process {first.pid} works with {folder}", said.splitlines()[-1])
        self.assertIsNone(first.poll())
        first.kill()
        first.wait()
        third = self.starts(*command)
        until("the next process has the folder", lambda: self.has_the_folder(third))

    def test_python(self) -> None:
        self.allows_one_process(f"{EXAMPLES}/member.py", "1", "{proxy}", "{folder}")

    def test_bash(self) -> None:
        self.allows_one_process(f"{ROOT}/examples/plain_member", "1", "127.0.0.1", "1", "{folder}")

    def test_c(self) -> None:
        self.allows_one_process(self.make_in_c(), "1", "{proxy}", "{folder}")

    def test_rust(self) -> None:
        self.allows_one_process(self.make_in_rust(), "1", "{proxy}", "{folder}")

    def test_go(self) -> None:
        self.allows_one_process(self.make_in_go_with_the_library(), "1", "{proxy}", "{folder}")

    def test_go_without_the_library(self) -> None:
        self.allows_one_process(self.make_in_plain_go(), "1", "{proxy}", "{folder}")


class Durable(Made):
    """The member in C, by its system calls: which files are on the disk before it drops its work, confirms and talks, so that
    no power cut restores an earlier start. This test is member 2 of the group."""

    takes = 20
    programs = (*Made.programs, "RESETD_PROXY")

    def setUp(self) -> None:
        super().setUp()
        self.needs("strace: one that may trace", faults.can_inject(), is_optional=True)
        self.member, self.disk = self.make_in_c(), traced.Disk()
        self.trial = Trial(Arguments(program=PROGRAM, seconds=300.0, without=set(), seed=1), self.folder, 2)
        self.addCleanup(self.trial.end)

    def run_until_it_talks(self, resets: int) -> list[traced.Call]:
        """Runs the member until it talks, and through this number of resets. Returns its calls."""
        process = subprocess.Popen([*traced.command(self.path("trace")), self.member, "1", self.trial.address, self.path("files")],
                                   stdout=subprocess.DEVNULL, start_new_session=True)
        try:
            self.trial.expect("it talks", self.is_talking)
            for _ in range(resets):
                self.trial.reset(2)
                self.trial.expect("it talks after a reset", self.is_talking)
        finally:
            os.killpg(process.pid, signal.SIGKILL)
            process.wait()
        os.remove(self.path("files/run"))
        return list(traced.calls(self.path("trace"), self.path("files")))

    def is_talking(self) -> bool:
        other = row_of(self.trial.shown(), 2)
        if other.epoch > other.confirmed:
            self.trial.order("confirm", node=2, epoch=other.epoch)
        return bool(other.epoch) and services.read(self.path("files/run")).startswith(f"{other.epoch} ")

    def expect_synced_before(self, call: traced.Call) -> None:
        """Checks the files that must be on the disk before this call."""
        if call.name == "rename" and call.text == b"work":
            starts = [json.loads(text or b"{}").get("1", {"begun": None}) for text in self.disk.possible("start-1.json")]
            self.assertEqual([start["begun"] for start in starts], [None])
        elif call.name == "rename" and call.text == b"run":
            tag = self.disk.text("run.new").split()[1]
            self.assertIn(tag[:32], [line[:32] for line in self.disk.synced("start-1.history").splitlines()])
            self.assertIsNotNone(json.loads(self.disk.text("start-1.json"))["1"]["party"])
        elif call.name == "sendto" and b"confirm" in call.text:
            self.assertEqual(int(self.disk.synced("work")), json.loads(call.text)["epoch"])

    def test_syncs_of_the_member_in_c(self) -> None:
        began = 0
        for resets in (2, 0, 1):
            calls = self.run_until_it_talks(resets)
            first = next(place for place, call in enumerate(calls) if call.name == "sendto")
            if began:
                synced = {call.file for call in calls[:first] if call.name == "fsync"}
                self.assertLessEqual({"work", "start-1.json", "start-1.history", "."}, synced)
            for call in calls:
                self.expect_synced_before(call)
                self.disk.take(call)
            began += sum(call.name == "rename" and call.text == b"work" for call in calls)
        self.assertGreaterEqual(began, 4)


class Vectors(OfLibrary):
    def test_vectors(self) -> None:
        """Both the proved library and the Python library agree with docs/member-vectors.json."""
        checked = subprocess.run([tool("member_vectors")], capture_output=True, text=True)
        self.assertEqual((checked.returncode, checked.stderr), (0, ""))

    def test_vectors_in_python(self) -> None:
        with open(f"{ROOT}/docs/member-vectors.json", encoding="utf-8") as file:
            cases = json.load(file)
        for case in cases:
            view = View.of(json.loads(case["show"]))
            start = json.loads(case["start"] or "{}").get("1", {"begun": None, "party": None})
            party = None if start["party"] is None else frozenset(start["party"])
            begun = start["begun"] if start["begun"] == case["work"] else None
            judged = judge(Kept(begun, party), case["history"], shown_to(view, row_of(view, 1)))
            self.assertEqual((judged.due.name.lower(), judged.digest), (case["due"], case["digest"]), case)
            tag = tag_of(judged.kept.party, view.party(1)) if judged.due is Due.TALK and judged.kept.party is not None else None
            self.assertEqual(tag, case["tag"], case)
