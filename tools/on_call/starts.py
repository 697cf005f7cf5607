"""The rows about a start, or a command."""

import os
import resource
import shutil
import signal
import socket

from served import migrations
from support.case import until
from support.program import ROOT, faulted, ran
from support.serving import Serving

from .desk import LEFT_OUT, LONG, Desk, NotSeen, row, see

LEFT_OUT["`SharesMissing`, `NotNamed`, `NotSettled`"] = "the program is at fault then: no run is known that has one"


def expect(ended: object, wanted: object) -> None:
    if ended != wanted:
        raise NotSeen(f"a command ended with {ended}, and not with {wanted}")


@row("`resetd: Device` at a start")
def device_at_a_start(desk: Desk) -> None:
    store = desk.store()
    with Serving(store) as server:
        desk.start_ends(store, 3, "Device")
        see(desk.why(store, server), f"lock     process {server.process.pid} (", "a start now would end with the fault Device: lock: ")
    desk.expect_served(store)
    if os.geteuid() == 0:
        os.chmod(desk.folder, 0o755)
        os.chmod(store, 0o600)
        see(desk.why(store, None, "--user", "nobody"), "Device: access: the user nobody can't open the file for reading and writing")
        shutil.chown(store, "nobody")
        see(desk.why(store, None, "--user", "nobody"), "these checks found nothing that prevents a start")


@row("`resetd: Device` from each command, at once")
def no_regular_file(desk: Desk) -> None:
    os.mkfifo(desk.path("store"))
    for command in ("check", "show"):
        expect(ran(command, desk.path("store")), faulted(3, "Device"))
    see(desk.why(desk.path("store")), "file     a FIFO of 0 bytes", "a start now would end with the fault Device: file: ")


@row("any fault at a start, and you don't know why")
def any_fault(desk: Desk) -> None:
    store = desk.store()
    os.truncate(store, 60)
    see(desk.why(store), "a start now would end with the fault BadRecord: store: the file is not a readable store: BadRecord: at byte ")
    desk.start_ends(store, 1, "BadRecord")
    see(desk.resetctl("report", "--store", store, desk.path("report.tar.gz"), timeout=0, seconds=2).text, "why.txt", "written to ")


@row("status 153, `signal XFSZ`")
def a_limit(desk: Desk) -> None:
    store = desk.store()
    most = os.path.getsize(store) + 2_000

    def limit_files() -> None:
        resource.setrlimit(resource.RLIMIT_FSIZE, (most, most))

    with Serving(store, preexec_fn=limit_files) as server:
        see(desk.why(store), f"process {server.process.pid} may write files of at most {most:,} bytes")
        number = 0
        while server.process.poll() is None:
            number += 1
            try:
                server.order(number, "reset", node=1)
            except (OSError, ValueError):
                break
        if (status := server.process.wait(LONG)) != -signal.SIGXFSZ:
            raise NotSeen(f"the server ended with status {status}")
    desk.expect_served(store)


@row("`resetd: NoMagic`")
def no_store(desk: Desk) -> None:
    copy = desk.store(name="copy")
    store = desk.write("store", b"")
    desk.start_ends(store, 1, "NoMagic")
    see(desk.why(store), "a start now would end with the fault NoMagic: store: the file is not a readable store", "the file is empty")
    os.remove(store)
    shutil.copy(copy, store)
    desk.expect_served(store)


@row("`resetd: NotEmpty`")
def made_before(desk: Desk) -> None:
    store = desk.store()
    topology = desk.write("again", b"[[node]]\nid = 1\ngroup = 1\n")
    expect(ran("init", store, topology), faulted(1, "NotEmpty"))
    see(ran("check", store).printed, "legal ")
    desk.expect_served(store)


@row("`BadRecord`, `BadSnapshot`")
def damaged(desk: Desk) -> None:
    store = desk.store()
    shutil.copy(store, desk.path("copy"))
    with open(store, "rb") as file:
        data = file.read()
    for name, bytes_ in (("BadRecord", data[:-8]), ("BadSnapshot", data[:17] + b"\7" + data[18:])):
        desk.write("store", bytes_)
        desk.start_ends(store, 1, name)
        see(ran("check", store).fault, name)
        see(desk.why(store), f"a start now would end with the fault {name}: ")
        with open(store, "rb") as file:
            if file.read() != bytes_:
                raise NotSeen("the command wrote something")
    shutil.copy(desk.path("copy"), store)
    expect(ran("check", store).status, 0)
    desk.expect_served(store)


@row("`resetd: Socket`")
def a_taken_address(desk: Desk) -> None:
    store = desk.store()
    with socket.create_server(("127.0.0.1", 0)) as other:
        address = f"127.0.0.1:{other.getsockname()[1]}"
        desk.start_ends(store, 3, "Socket", address)
        see(desk.resetctl("why", store, address, timeout=0, seconds=2).text, f"process {os.getpid()} (",
            "a start now would end with the fault Socket: address: ")
    desk.expect_served(store)


@row("`resetd: OutOfMemory`")
def no_thread(desk: Desk) -> None:
    store = desk.store()
    desk.start_ends(store, 4, "OutOfMemory", THREAD_FAILS=5)
    desk.expect_served(store)


@row("`resetd: Usage`")
def wrong_arguments(_: Desk) -> None:
    expect(ran("srve"), faulted(2, "Usage"))
    with open(f"{ROOT}/docs/resetd.8", encoding="utf-8") as page:
        see(page.read(), "serve")


@row("`resetd: NotQuiet 1`")
def not_quiet(desk: Desk) -> None:
    store = desk.write("store", migrations.IN_A_RESET)
    expect(ran("migrate", store), faulted(1, "NotQuiet 1"))
    with Serving(store) as server:
        until("the end of the reset", lambda: all(node[2] == "ready" for node in server.show()["nodes"]))
        server.close()
    see(ran("migrate", store).printed, "migrated ")
    desk.expect_served(store)


@row("the machine is lost")
def a_lost_machine(desk: Desk) -> None:
    store = desk.store()
    with Serving(store) as server:
        see(desk.resetctl("backup", store, desk.path("copy")).text, "copied ")
    os.remove(store)
    shutil.copy(desk.path("copy"), desk.path("other"))
    with Serving(desk.path("other")) as server:
        see(desk.resetctl("restored", server=server).text, "all 2 nodes have a new epoch")


@row("who asked for a reset?")
def who_asked(desk: Desk) -> None:
    store = desk.store()
    with Serving(store) as server:
        server.order(1, "reset", client=9, node=2)
        server.await_quiet()
        see(desk.resetctl("steps", store).text, "client 9 order 1: reset 2")
        number = 0
        while selector_of(store) == 0:
            number += 1
            server.order(number, "reset", client=10, node=1)
        server.order(number + 1, "reset", client=10, node=1)
        server.await_quiet()
        steps = desk.resetctl("steps", store).text
        see(steps, "snapshot           client 9 order 1: reset 2", f"client 10 order {number + 1}: reset 1")
        if "client 10 order 1: reset 1\n" in steps:
            raise NotSeen("the output has an order from before the checkpoint that was not its client's last one")
        see(desk.resetctl("steps", "--before", store).text, "client 10 order 1: reset 1\n")


def selector_of(store: str) -> int:
    """Returns which half is selected. Each checkpoint changes it."""
    with open(store, "rb") as file:
        return file.read(1)[0] % 2
