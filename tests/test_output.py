"""Output that can't be written: `resetd: Write`, and the work is done nevertheless."""

import contextlib
import fcntl
import os
import subprocess

from support import preloaded, stores
from support.case import Case, until
from support.program import TIMEOUT, PROGRAM, Ended, ran
from support.serving import Serving
from support.stores import topology

PAIR = topology([(1, 1), (2, 1)], [(1, 2)])
LOST = (3, "resetd: Write\n")


def by_shell(redirected: str, *arguments: str) -> tuple[int, str]:
    """Runs the program with a shell's redirections. Returns its status and its fault."""
    done = subprocess.run(["sh", "-c", f'exec "$0" "$@" {redirected}', PROGRAM, *arguments], stdin=subprocess.DEVNULL,
                          capture_output=True, timeout=TIMEOUT)
    return done.returncode, done.stderr.decode()


class Printed(Case):
    def test_a_text_goes_out_in_one_write(self) -> None:
        """This holds for the output of a command and for each answer of a drill, so a reader never sees part of a line."""
        self.needs("a C compiler", preloaded.has_compiler())
        store, network = self.path("store"), self.write("topology", stores.ring(64))
        for arguments in (["init", store, network], ["check", store], ["show", store], ["migrate", store]):
            with self.subTest(arguments=arguments):
                self.expect_writes(arguments, b"", [ran(*arguments).printed] if arguments[0] != "init" else ["created 128\n"])
        drill = b"add 1 1\nhold\n" + b"reset 1\n" * 50
        pending = "done 1\n" + "".join(f"pending {step}\n" for step in range(2, 52))
        settled = "".join(f"finished {step}\nsignal 1 {step - 1}\n" for step in range(2, 52))
        # the second piece of the input; the first one has 512 bytes
        self.expect_writes(["drill"], drill.ljust(511, b"#") + b"\nflush\n", [pending, f"{settled}settled 51\n"])
        environment = preloaded.environment(self.folder, CALLS=self.path("calls"))
        with Serving(store, env=environment) as server:
            self.assertEqual(server.order(1, "reset", node=1)["kind"], "started")
            server.await_signals(64)
            printed = server.close().printed
        lines = [text for text in self.writes() if not text.startswith("{")]
        self.assertEqual(lines, printed.splitlines(keepends=True))

    def test_writes_that_are_interrupted_very_often(self) -> None:
        """They are writes of a command, of a drill, and of a server's first line."""
        self.needs("a C compiler", preloaded.has_compiler())
        environment = preloaded.environment(self.folder, WRITE_STORM=15_000)
        store = self.made(PAIR)
        for arguments, printed in ((["check", store], "legal 3\n"), (["drill"], "done 1\n")):
            with self.subTest(arguments=arguments):
                ended = ran(*arguments, given=b"add 1 1\n", env={**os.environ, **environment})
                self.assertEqual(ended, Ended(0, printed, ""))
        with Serving(store, env=environment) as server:
            self.assertEqual(server.close().status, 0)

    def test_texts_that_go_out_byte_by_byte(self) -> None:
        """The texts may be long: the view of the longest world, and a drill's answer to a flight."""
        self.needs("a C compiler", preloaded.has_compiler())
        environment = {**os.environ, **preloaded.environment(self.folder, PIECE=1)}
        store = self.write("store", stores.store(stores.longest_world(), version=2))
        flight = b"add 1 1\nhold\n" + b"reset 1\n" * 256 + b"flush\n"
        for arguments in (["show", store], ["drill"]):
            with self.subTest(arguments=arguments):
                usual = ran(*arguments, given=flight)
                self.assertGreater(len(usual.printed), 3_000)
                self.assertEqual(ran(*arguments, given=flight, env=environment), usual)

    def expect_writes(self, arguments: list[str], given: bytes, wanted: list[str]) -> None:
        environment = preloaded.environment(self.folder, CALLS=self.path("calls"))
        self.assertEqual(ran(*arguments, given=given, env={**os.environ, **environment}).fault, "")
        self.assertEqual(self.writes(), wanted)

    def writes(self) -> list[str]:
        """Returns the text of each write."""
        rows = [line.split(" ") for line in self.read("calls").decode().splitlines()]
        os.remove(self.path("calls"))
        return [bytes.fromhex(text).decode() for name, _, _, text in rows if name == "out"]


class Unprinted(Case):
    def test_every_command_says_so(self) -> None:
        """The output is full, or closed."""
        for redirected in (">/dev/full", ">&-"):
            topology_path, store = self.write("topology", PAIR), self.path("store" + redirected[1:3].replace("/", "f"))
            with self.subTest(output=redirected):
                self.assertEqual(by_shell(redirected, "init", store, topology_path), LOST)
                self.assertEqual(ran("check", store), Ended(0, "legal 3\n", ""))
                for command in ("check", "show", "migrate"):
                    self.assertEqual(by_shell(redirected, command, store), LOST)
                self.assertEqual(by_shell(redirected, "serve", store, "127.0.0.1:0"), LOST)
                self.assertEqual(ran("check", store), Ended(0, "legal 3\n", ""))

    def test_a_migration_is_done_though_it_is_not_printed(self) -> None:
        path = self.write("store", stores.store())
        self.assertEqual(by_shell(">/dev/full", "migrate", path), LOST)
        self.assertEqual(stores.version_of(path), 2)

    def test_a_store_is_let_go_before_its_line_is_taken(self) -> None:
        """The reader of the output of `init` or `migrate` may be slow: the store can be served meanwhile."""
        old = stores.store(stores.world(3, [stores.node(1), stores.node(2)], [stores.link(1, 2, 3)]))
        made: list[tuple[str, bytes, list[str]]] = [("init", b"", [self.write("topology", PAIR)]), ("migrate", old, [])]
        for command, before, more in made:
            self.write("store", before)
            reader, writer = os.pipe()
            self.addCleanup(os.close, reader)
            with open(writer, "wb", 0) as full:
                full.write(b"x" * fcntl.fcntl(full, fcntl.F_GETPIPE_SZ))
                waiting = subprocess.Popen([PROGRAM, command, self.path("store"), *more], stdout=full)
            self.addCleanup(waiting.wait)
            self.addCleanup(waiting.kill)
            until(f"a free store after {command}", lambda: self.is_free("store"))
            self.assertIsNone(waiting.poll())
            os.read(reader, 1 << 20)
            self.assertEqual((waiting.wait(TIMEOUT), os.read(reader, 100)[-2:]), (0, b"3\n"))

    def is_free(self, name: str) -> bool:
        """Returns whether the file is a store of version 2 that nobody has locked."""
        if ran("check", self.path(name)).printed != "legal 3\n" or stores.version_of(self.path(name)) != 2:
            return False
        with open(self.path(name), "rb") as file, contextlib.suppress(BlockingIOError):
            fcntl.flock(file, fcntl.LOCK_EX | fcntl.LOCK_NB)
            return True
        return False

    def test_a_drill_ends_where_it_can_not_print(self) -> None:
        for redirected in (">/dev/full", ">&-"):
            self.assertEqual(by_shell(f"{redirected} <{self.write('lines', 'add 1 1')}", "drill"), LOST)

    def test_a_violation_that_is_not_printed(self) -> None:
        path = self.write("store", stores.store(stores.world(4, [stores.node(64, stores.ABORT)])))
        self.assertEqual(by_shell(">/dev/full", "check", path), LOST)

    def test_a_store_does_not_take_the_place_of_a_stream(self) -> None:
        """If some streams are closed, their output is discarded, and never written into the store's file."""
        content, topology_path = stores.store(), self.write("topology", PAIR)
        arguments: dict[str, list[str]] = {"init": [topology_path], "check": [], "show": [], "serve": ["127.0.0.1:0"]}
        for closed in ("<&- >&- 2>&-", ">&- 2>&-", "<&- >&-"):
            for command, more in arguments.items():
                with self.subTest(closed=closed, command=command):
                    path = self.write("store", content)
                    self.assertEqual(by_shell(closed, command, path, *more)[0], 1 if command == "init" else 3)
                    self.assertEqual(self.read("store"), content)

    def test_a_fault_line_that_can_not_be_written(self) -> None:
        """The status reports the fault."""
        for redirected in ("2>/dev/full", "2>&-", ">&- 2>&-"):
            self.assertEqual(by_shell(redirected, "check", self.path("none/store"))[0], 3)
            self.assertEqual(by_shell(redirected, "help")[0], 2)
