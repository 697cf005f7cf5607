"""The file of a store: who may open it, what is synced before an answer, and calls that fail or do only a part."""

import contextlib
import errno
import fcntl
import os
import stat
import subprocess
import time

from support import preloaded, stores
from support.case import Case, until
from support.program import TIMEOUT, PROGRAM, Ended, faulted, ran
from support.serving import Serving
from support.stores import topology

ONE = topology([(1, 1)], half=stores.HALF)
COMMANDS = ["init", "check", "show", "migrate", "serve"]
FAILED = faulted(3, "Device")
STOPPED = {"name": "Stopped", "refused": 1}
ORDERS = 4
# The errors with which the system may fail a call.
ERRORS = [errno.EIO, errno.ENOSPC, errno.EDQUOT, errno.EINVAL, errno.EROFS, errno.EOPNOTSUPP, errno.ENOMEM, errno.EAGAIN]
# The syncs of a start (of the folder and the file), and of an order (of its batch, and of the byte that makes it readable).
AT_A_START, AT_AN_ORDER = 2, 2


class Made(Case):
    def test_its_owner_alone_may_open_it(self) -> None:
        """This is so whichever command creates the file, and whatever the umask permits."""
        arguments: dict[str, list[str]] = {
            "init": [self.write("topology", ONE)], "check": [], "show": [], "migrate": [], "serve": ["127.0.0.1:0"]}
        for command, more in arguments.items():
            with self.subTest(command=command):
                ran(command, self.path(command), *more, umask=0)
                self.assertEqual(stat.S_IMODE(os.stat(self.path(command)).st_mode), 0o600)

    def test_one_that_another_process_makes_meanwhile(self) -> None:
        """The file is unchanged."""
        self.needs("a C compiler", preloaded.has_compiler())
        other = self.made(ONE, "other")
        before = self.read("other")
        arguments: dict[str, list[str]] = {"init": [f"{other}.toml"], "migrate": []}
        for command, more in arguments.items():
            with self.subTest(command=command):
                environment = preloaded.environment(self.folder, MEANWHILE=other)
                self.assertEqual(ran(command, self.path(command), *more, env={**os.environ, **environment}), FAILED)
                self.assertEqual((self.read("other"), self.read(command)), (before, before))


class ReadOnly(Case):
    """What a user can do who may read a file or a folder but not write it. Root without its privilege to override the modes is
    such a user."""

    prefix = ["setpriv", "--bounding-set=-dac_override,-dac_read_search"] if os.geteuid() == 0 else []

    def user(self, *arguments: str) -> Ended:
        done = subprocess.run([*self.prefix, PROGRAM, *arguments], stdin=subprocess.DEVNULL, capture_output=True, timeout=TIMEOUT)
        return Ended(done.returncode, done.stdout.decode(), done.stderr.decode())

    def test_a_store(self) -> None:
        """The store can be checked and shown, but not served or migrated."""
        path = self.made(ONE)
        before = self.read("store")
        os.chmod(path, 0o400)
        self.assertEqual(self.user("check", path), Ended(0, "legal 1\n", ""))
        self.assertEqual(self.user("show", path), Ended(0, "view 1 1\nnode 1 1 ready 0 0 0\n", ""))
        for arguments in (["serve", path, "127.0.0.1:0"], ["migrate", path], ["init", path, f"{path}.toml"]):
            self.assertEqual(self.user(*arguments), FAILED)
        self.assertEqual(self.read("store"), before)

    def test_a_folder(self) -> None:
        """An existing store is served. No store is created there, and no other file."""
        topology_path, folder = self.write("topology", ONE), self.path("folder")
        os.mkdir(folder)
        self.assertEqual(ran("init", f"{folder}/store", topology_path).status, 0)
        os.chmod(folder, 0o500)
        for arguments in (["check", f"{folder}/other"], ["init", f"{folder}/other", topology_path]):
            self.assertEqual(self.user(*arguments), FAILED)
        with Serving(f"{folder}/store", before=self.prefix, output=self.path("output")) as server:
            self.assertEqual(server.order(1, "reset", node=1), {"kind": "finished", "step": 2})
            self.assertEqual(server.close().status, 0)
        self.assertEqual(os.listdir(folder), ["store"])

    def test_a_folder_that_is_not_read(self) -> None:
        """The folder's entries can't be synced, so an existing file is not written."""
        topology_path, folder = self.write("topology", ONE), self.path("folder")
        os.mkdir(folder)
        self.assertEqual(ran("init", f"{folder}/store", topology_path).status, 0)
        before = self.content(f"{folder}/store")
        os.chmod(folder, 0o300)
        for arguments in (["init", f"{folder}/other", topology_path], ["serve", f"{folder}/store", "127.0.0.1:0"],
                          ["migrate", f"{folder}/store"]):
            self.assertEqual(self.user(*arguments), FAILED)
        self.assertEqual(self.user("check", f"{folder}/store"), Ended(0, "legal 1\n", ""))
        os.chmod(folder, 0o700)
        self.assertEqual([self.content(f"{folder}/{name}") for name in ("store", "other")], [before, b""])

    @staticmethod
    def content(path: str) -> bytes:
        with open(path, "rb") as file:
            return file.read()


class Looked(Case):
    def test_who_reads_a_store_locks_nobody_out(self) -> None:
        """`check` and `show` take no lock, not even while they read."""
        self.needs("a C compiler", preloaded.has_compiler())
        store = self.made(ONE)
        for command in ("check", "show"):
            environment = {**os.environ, **preloaded.environment(self.folder, SYNC_MILLIS=600_000)}
            reader = subprocess.Popen([PROGRAM, command, store], env=environment, stdout=subprocess.DEVNULL)
            self.addCleanup(reader.wait)
            self.addCleanup(reader.kill)
            until("a look", lambda: store in self.open_files(reader.pid))
            with open(store, "rb") as file:
                for _ in range(20):
                    fcntl.flock(file, fcntl.LOCK_EX | fcntl.LOCK_NB)  # which fails if another process holds it
                    fcntl.flock(file, fcntl.LOCK_UN)
                    time.sleep(0.02)
            self.assertIn(store, self.open_files(reader.pid))

    @staticmethod
    def open_files(process: int) -> set[str]:
        """Returns the files that the process has open."""
        names = set()
        for number in os.listdir(f"/proc/{process}/fd"):
            with contextlib.suppress(OSError):
                names.add(os.readlink(f"/proc/{process}/fd/{number}"))
        return names


class Called(Case):
    takes = 8

    def setUp(self) -> None:
        super().setUp()
        self.needs("a C compiler", preloaded.has_compiler())

    def environment(self, **settings: str | int) -> dict[str, str]:
        return {**os.environ, **preloaded.environment(self.folder, **settings)}

    def synced_at_first(self) -> tuple[set[str], bool]:
        """Returns the paths of the files that were synced before any output, and whether something was written that was not
        synced."""
        synced, is_written = [], False
        with open(self.path("calls"), encoding="ascii") as calls:
            for name, _, _, text in (line.rstrip("\n").split(" ") for line in calls):
                if name == "out":
                    break
                synced += [bytes.fromhex(text).decode()] if name == "sync" else []
                is_written = name == "write" or (is_written and name != "sync")
        os.remove(self.path("calls"))
        return set(synced), is_written

    def test_a_file_and_its_entry_are_synced(self) -> None:
        """Both are synced before any output. The entry is synced even if the file existed: its creator may not have synced it."""
        folder, topology_path, log = self.path("folder"), self.write("topology", ONE), self.path("calls")
        os.mkdir(folder)
        store = f"{folder}/store"
        for arguments, path in ((["init", store, topology_path], store), (["init", "bare", topology_path], f"{folder}/bare"),
                                (["check", f"{folder}/absent"], f"{folder}/absent"), (["migrate", store], store)):
            with self.subTest(arguments=arguments):
                ended = ran(*arguments, env=self.environment(CALLS=log), cwd=folder)
                self.assertEqual(ended.status, int(arguments[0] == "check"))
                self.assertEqual(self.synced_at_first(), ({folder, path}, False))
        with Serving(store, env=self.environment(CALLS=log)) as server:
            self.assertEqual(server.close().status, 0)
        self.assertEqual(self.synced_at_first(), ({folder, store}, False))

    def test_a_sync_that_fails_where_a_store_is_made(self) -> None:
        """Device is reported for each sync."""
        arguments = ["init", self.path("store"), self.write("topology", ONE)]
        log = self.path("calls")
        self.assertEqual(ran(*arguments, env=self.environment(CALLS=log)), Ended(0, "created 1\n", ""))
        syncs = self.read("calls").count(b"sync ")
        self.assertGreater(syncs, 2)
        for number in range(1, syncs + 1):
            with self.subTest(sync=number, of=syncs):
                os.remove(self.path("store"))
                self.assertEqual(ran(*arguments, env=self.environment(SYNC_FAILS=number)), FAILED)

    def test_a_length_that_is_not_reported(self) -> None:
        for number in (1, 2):
            self.expect_refused(COMMANDS, LENGTH_FAILS=number)

    def test_a_lock_that_can_not_be_had(self) -> None:
        """Device is reported whatever the reason is."""
        self.expect_refused(["init", "migrate", "serve"], LOCK_FAILS=1)

    def test_a_first_sync_that_fails(self) -> None:
        self.expect_refused(COMMANDS, SYNC_FAILS=1)

    def test_a_read_that_fails(self) -> None:
        self.expect_refused(COMMANDS[1:], READ_FAILS=1)

    def test_a_file_that_ends_too_soon(self) -> None:
        """The file is truncated while it is read."""
        self.expect_refused(COMMANDS[1:], [errno.EIO], READ_ENDS=1)

    def test_a_write_that_is_interrupted(self) -> None:
        """The call is repeated, and nothing is reported."""
        for number in (1, 2, 3):
            arguments = ["init", self.path(f"store{number}"), self.write("topology", ONE)]
            environment = self.environment(ERROR=errno.EINTR, WRITE_FAILS=number)
            self.assertEqual((number, ran(*arguments, env=environment)), (number, Ended(0, "created 1\n", "")))
            self.assertEqual(ran("check", arguments[1]), Ended(0, "legal 1\n", ""))

    def test_a_read_that_is_interrupted(self) -> None:
        environment = self.environment(ERROR=errno.EINTR, READ_FAILS=1)
        self.assertEqual(ran("check", self.made(ONE), env=environment), Ended(0, "legal 1\n", ""))

    def expect_refused(self, commands: list[str], errors: list[int] = ERRORS, **call: int) -> None:
        """Checks that, if only this call fails, with any error, the commands report Device and leave the store unchanged."""
        more = {"init": [self.write("topology", ONE)], "serve": ["127.0.0.1:0"]}
        content = stores.store(bodies=[stores.batch(1, stores.add(1))])
        for command in commands:
            for error in errors:
                path, where = self.write("store", content), (call, command, errno.errorcode[error])
                ended = ran(command, path, *more.get(command, []), env=self.environment(ERROR=error, **call))
                self.assertEqual((where, ended, self.read("store")), (where, FAILED, content))

    def test_a_write_that_fails_where_a_store_is_made(self) -> None:
        """The device is not called again after it."""
        arguments = ["init", self.path("store"), self.write("topology", ONE)]
        ended, made = self.called(arguments, WRITE_FAILS=4)
        self.assertEqual(ended, Ended(0, "created 1\n", ""))
        for number in (1, 2, 3):
            for error in ERRORS:
                os.remove(self.path("store"))
                ended, called = self.called(arguments, WRITE_FAILS=number, ERROR=error)
                self.assertEqual((number, error, ended), (number, error, FAILED))
                self.assertEqual(called, made[:len(called)])
                self.assertTrue(made[len(called)].startswith("write"))

    def called(self, arguments: list[str], **settings: int) -> tuple[Ended, list[str]]:
        """Returns how the program ended, and the writes and syncs that it made."""
        calls = self.write("calls", "")
        ended = ran(*arguments, env=self.environment(CALLS=calls, **settings))
        with open(calls, encoding="ascii") as lines:
            return ended, [line for line in lines if not line.startswith("out")]

    def test_a_write_that_fails_while_a_store_is_raised(self) -> None:
        content = stores.store(bodies=[stores.batch(1, stores.add(1))])
        for number in (1, 2):
            for error in ERRORS:
                path = self.write("store", content)
                with self.subTest(write=number, error=errno.errorcode[error]):
                    environment = self.environment(WRITE_FAILS=number, ERROR=error)
                    self.assertEqual(ran("migrate", path, env=environment), FAILED)
                    self.assertEqual((ran("check", path), stores.version_of(path)), (Ended(0, "legal 1\n", ""), 1))

    def test_a_write_that_fails_while_orders_are_served(self) -> None:
        """A single failure, with each error: the order and each later one is answered Stopped, and a close ends the server with
        Device."""
        store = self.made(ONE)
        before = self.read("store")
        for number, error in enumerate(ERRORS, 1):
            self.write("store", before)
            environment = self.environment(WRITE_FAILS=number, ERROR=error)
            with self.subTest(write=number, error=errno.errorcode[error]), Serving(store, env=environment) as server:
                answers = [server.order(each, "reset", node=1) for each in range(1, len(ERRORS) // 2 + 2)]
                done = (number - 1) // 2  # an order needs two writes
                kept = [{"kind": "finished", "step": 1 + each} for each in range(1, done + 1)]
                self.assertEqual(answers, kept + [STOPPED] * (len(answers) - done))
                ended = server.close()
                self.assertEqual((ended.status, ended.fault), (3, "resetd: Device\n"))
            self.assertGreaterEqual(int(ran("check", store).printed.split()[1]), 1 + done)

    def test_a_sync_that_fails_while_a_store_is_raised(self) -> None:
        """A single failure is reported, and the store has one version or the other."""
        content, log = stores.store(bodies=[stores.batch(1, stores.add(1))]), self.path("calls")
        path = self.write("store", content)
        self.assertEqual(ran("migrate", path, env=self.environment(CALLS=log)), Ended(0, "migrated 1\n", ""))
        for number in range(1, self.read("calls").count(b"sync ") + 1):
            with self.subTest(sync=number):
                self.write("store", content)
                self.assertEqual(ran("migrate", path, env=self.environment(SYNC_FAILS=number)), FAILED)
                self.assertEqual(ran("check", path), Ended(0, "legal 1\n", ""))

    def test_a_sync_that_fails_while_orders_are_served(self) -> None:
        """The order that waited for the sync and each later one is answered Stopped, although no other sync fails."""
        for number in range(AT_A_START + 1, AT_A_START + 1 + AT_AN_ORDER * ORDERS):
            store = self.made(ONE, f"store{number}")
            done = (number - AT_A_START - 1) // AT_AN_ORDER
            with self.subTest(sync=number), Serving(store, env=self.environment(SYNC_FAILS=number)) as server:
                answers = [server.order(each, "reset", node=1) for each in range(1, ORDERS + 1)]
                kept = [{"kind": "finished", "step": 1 + each} for each in range(1, done + 1)]
                self.assertEqual(answers, kept + [STOPPED] * (ORDERS - done))
                ended = server.close()
                self.assertEqual((ended.status, ended.fault), (3, "resetd: Device\n"))
                self.assertEqual(server.signals(), [(1, epoch) for epoch in range(1, done + 1)])
            self.assertGreaterEqual(int(ran("check", store).printed.split()[1]), 1 + done)

    def test_a_start_whose_sync_fails(self) -> None:
        store = self.made(ONE)
        for number in range(1, AT_A_START + 1):
            self.assertEqual(ran("serve", store, "127.0.0.1:0", env=self.environment(SYNC_FAILS=number)), FAILED)

    def test_read_and_written_in_pieces(self) -> None:
        """The system may do only a part of each call, for a file, the output or a connection."""
        pieces = self.environment(PIECE=5)
        topology_path = self.write("topology", stores.ring(8, stores.HALF))
        whole, parts = self.path("whole"), self.path("parts")
        self.assertEqual(ran("init", whole, topology_path).status, 0)
        self.assertEqual(ran("init", parts, topology_path, env=pieces), Ended(0, "created 16\n", ""))
        self.assertEqual(self.read("whole"), self.read("parts"))
        with Serving(parts, env=pieces) as server:
            for epoch in (1, 2):
                self.assertEqual(server.order(epoch, "reset", node=epoch)["kind"], "started")
                server.await_quiet(epoch)
            count = server.show()["accepted"]
            self.assertEqual(sorted(server.await_signals(16)), [(node, epoch) for node in range(1, 9) for epoch in (1, 2)])
            self.assertEqual(server.close().status, 0)
        self.assertEqual(ran("check", parts, env=pieces), Ended(0, f"legal {count}\n", ""))
        self.assertEqual(ran("migrate", parts, env=pieces), Ended(0, f"migrated {count}\n", ""))
        self.assertEqual(ran("check", parts), Ended(0, f"legal {count}\n", ""))
