"""The rows about a running server."""

import contextlib
import os
import resource
import shutil
import signal
import socket
import subprocess
import sys
import threading
import time
from collections.abc import Callable, Iterator

from support.case import until
from support.piped import Piped
from support.program import PROGRAM, ROOT, ran
from support.refusing import WORKERS, Refusing
from support.serving import Serving, spelled

from resetd_client import Port
from resetd_client.health import Bounds, check
from resetd_client.since import Since, boot_clock
from served import migrations

from .desk import LEFT_OUT, LONG, Desk, NotSeen, row, see

LEFT_OUT["`20 PendingFull`"] = ("no client reaches it, since a server posts no more orders at a time than one flight has; "
                                "client/tests has it of a coordinator in memory")


@row("`resetctl health`: `no answer`")
def no_answer(desk: Desk) -> None:
    store = desk.store()
    see(desk.health(None, timeout=0, seconds=2).text, "resetd CRITICAL: no answer: ")
    with Serving(store) as server:
        with stop_meanwhile(server):
            see(desk.health(server, timeout=0, seconds=2).text, "resetd CRITICAL: no answer: ")
            see(desk.why(store, server), f"is stopped by a signal (SIGSTOP or a debugger): kill -CONT {server.process.pid}")
        with held(server):
            see(desk.health(server, timeout=0, seconds=2).text, "resetd CRITICAL: no answer: ")
            see(desk.why(store, server), f"client   process {os.getpid()} (", "has the server's only connection")
        see(desk.health(server).text, "resetd OK: well")


@contextlib.contextmanager
def stop_meanwhile(server: Serving) -> Iterator[None]:
    server.process.send_signal(signal.SIGSTOP)
    try:
        yield
    finally:
        server.process.send_signal(signal.SIGCONT)


@contextlib.contextmanager
def held(server: Serving) -> Iterator[None]:
    """A client of this process uses the only connection. It sends a request each second, because a silent client would be
    ended."""
    host, port_number = server.address.split(":")
    has_asked, is_over = threading.Event(), threading.Event()

    def ask() -> None:
        with socket.create_connection((host, int(port_number)), LONG) as client, client.makefile("rb") as answers:
            while not is_over.wait(1 if has_asked.is_set() else 0):
                client.sendall(spelled({"op": "show"}))
                answers.readline()
                has_asked.set()

    asking = threading.Thread(target=ask)
    asking.start()
    has_asked.wait(LONG)
    try:
        yield
    finally:
        is_over.set()
        asking.join()


@row("`the server answers Stopped`")
def a_device_that_fails(desk: Desk) -> None:
    store = desk.store()
    with desk.serve(store, SYNC_FAILS=8) as server:
        number, step = 1, 0
        while "step" in (answer := server.order(number, "reset", client=9, node=1)):
            number, step = number + 1, answer["step"]
        see(str(answer), "Stopped")
        see(desk.health(server, "--close-stopped", timeout=0).text, "the server answers Stopped", "was closed")
        ended = server.ended()
        if (ended.status, ended.fault) != (3, "resetd: Device\n"):
            raise NotSeen(f"the server ended with {ended}")
    with Serving(store) as server:
        if server.show()["settled"] < step:
            raise NotSeen(f"step {step} was answered, but is lost")
        see(desk.health(server).text, "resetd OK: well")


@row("`this file is not the server's store`")
def another_store(desk: Desk) -> None:
    store = desk.store()
    shutil.copy(store, desk.path("old"))
    with Serving(store) as server:
        server.order(1, "reset", node=1)
        shutil.copy(desk.path("old"), desk.path("new"))
        os.replace(desk.path("new"), store)
        server.order(2, "reset", node=1)
        server.await_quiet()
        arguments = ("--store", store, "--unconfirmed", "1000000")
        see(desk.health(server, *arguments).text, f"resetd CRITICAL: this file is not the server's store: {store}: the file has ")
        see(desk.why(store, server), "a running server may have this problem: the coordinator's answers are lost when it ends: answer: this file is not the server's store")
        folder = f"/proc/{server.process.pid}/fd"
        held = next(f"{folder}/{name}" for name in os.listdir(folder) if os.readlink(f"{folder}/{name}") == f"{store} (deleted)")
        see(desk.resetctl("backup", held, desk.path("left")).text, "copied ")
        settled = server.show()["settled"]
        server.close()
    os.replace(desk.path("left"), store)
    desk.expect_served(store, f"{settled} steps on the disk")


@row("`resetd: Write`")
@row("``the file of signals lacks `signal N E` ``")
def a_file_of_signals_that_is_full(desk: Desk) -> None:
    store, most = desk.store(), 400_000

    def limit_files() -> None:
        signal.signal(signal.SIGXFSZ, signal.SIG_IGN)
        resource.setrlimit(resource.RLIMIT_FSIZE, (most, most))

    with open(f"{store}.signals", "w", encoding="ascii") as file:
        file.write("#" * (most - 40) + "\n")
    with Serving(store, preexec_fn=limit_files, restore_signals=False) as server:
        arguments = ("--signals", server.output, "--unconfirmed", "1000000")
        see(desk.health(server, *arguments).text, "resetd OK: well")
        for number in (1, 2):
            server.order(number, "reset", node=1)
            server.await_quiet(epoch=number)
        desk.await_health(server, "the file of signals lacks `signal 1 2`", *arguments)
        ended = server.close()
        see(ended.fault, "resetd: Write")
    os.truncate(server.output, 0)
    desk.expect_served(store)


@row("`N steps have waited for the disk`", is_slow=True)
def a_slow_disk(desk: Desk) -> None:
    """A sync takes 2, 4 and 7 seconds, and a flight has two. A flight that takes longer than 5 s is reported, but no wave is
    reported as still, because it moves with its flights."""
    for seconds in (2, 4, 7):
        store = desk.store(name=f"slow{seconds}")
        with desk.serve(store, SYNC_MILLIS=1_000 * seconds) as server:
            with server.connect() as connection:
                connection.send({"op": "reset", "client": 1, "number": 1, "node": 1})
            found = findings_of_a_wave(server, desk.path(f"health{seconds}"))
            see(desk.why(store, server), "syncing both took ")
        if "made no progress" in found or seconds > 2 and "have waited for the disk" not in found:
            raise NotSeen(f"at {seconds} s a sync the check printed: {sorted(found)}")


def findings_of_a_wave(server: Serving, memory: str) -> set[str]:
    """Returns what the check finds from the beginning of a wave to its end, by looks in quick succession."""
    port, found, phrases = Port(server.address, LONG), set[str](), {"made no progress", "have waited for the disk"}
    while True:
        view = port.show()
        if view.settled == view.accepted > 4 and all(node.mode == "ready" for node in view.nodes):
            return found
        findings = check(port, Since(memory, boot_clock()), Bounds(unconfirmed=1_000_000), LONG).findings
        found |= {each for each in phrases if each in " ".join(findings)}
        time.sleep(0.1)


@row("`a wave has made no progress at node N`")
def a_lost_packet(desk: Desk) -> None:
    """The workers, which submit the packets that a start sends again, run out of memory, and so lose one."""
    store, refusing = desk.write("store", migrations.IN_A_RESET), Refusing(PROGRAM, desk.folder)
    with Serving(store, env=refusing.environment(1, 1_000_000, threads=WORKERS)) as server:
        desk.await_health(server, "a wave has made no progress at node 1 (abort)")
        refusing.refuse(refusing.count() + 1, 0)
        until("the end of the wave", lambda: desk.resetctl("resend", server=server) and
              all(row[2] == "ready" for row in server.show()["nodes"]))
        see(desk.health(server).text, "resetd OK: well")


@row("`epoch E of node N has been unconfirmed`")
def a_service_that_is_down(desk: Desk) -> None:
    store = desk.store(1)
    with Serving(store) as server:
        server.order(1, "reset", client=9, node=1)
        server.await_quiet()
        desk.await_health(server, "epoch 1 of node 1 has been unconfirmed for ", "--unconfirmed", "1")
        with service(desk, server) as output:
            until("its start", lambda: bool(server.show()["nodes"][0][4] == server.show()["nodes"][0][5] > 0))
            see(output(), "service 1: starts anew, epoch ")
        see(desk.health(server, "--unconfirmed", "1").text, "resetd OK: well")


@row("a service says `asking for a reset`")
def a_new_service(desk: Desk) -> None:
    store = desk.store(1)
    with Serving(store) as server, service(desk, server) as output:
        until("what it says", lambda: "asking for a reset" in output())
        until("its start", lambda: "service 1: starts anew, epoch 1" in output())


@contextlib.contextmanager
def service(desk: Desk, server: Serving) -> Iterator[Callable[[], str]]:
    """Starts the example as member 1. Returns it and its output."""
    said = desk.path("service.txt")
    with open(said, "wb") as out:
        process = subprocess.Popen([sys.executable, "-B", f"{ROOT}/examples/service", "1", server.address, desk.path("member"),
                                    "--signals", server.output], stdin=subprocess.DEVNULL, stdout=out, stderr=out)
    try:
        yield lambda: open(said, encoding="utf-8").read()
    finally:
        process.kill()
        process.wait()


@row("`4 OutOfTurn`, `5 NumberReused`")
def a_lost_count(desk: Desk) -> None:
    store = desk.store()
    with Serving(store) as server:
        server.order(1, "reset", client=9, node=1)
        see(str(server.order(7, "reset", client=9, node=1)), "OutOfTurn")
        see(str(server.order(1, "reset", client=9, node=2)), "NumberReused")
        see(desk.resetctl("--client", "9", "count", server=server).text, "client 9: 1")
        see(desk.resetctl("--client", "9", "reset", "1", server=server).text, "started ")


@row("no answer to an order")
def no_answer_to_an_order(desk: Desk) -> None:
    """The server is killed with an order in progress: the order is carried out once, however often it is sent."""
    store = desk.store(1)
    order = {"op": "reset", "client": 9, "number": 1, "node": 1}
    with desk.serve(store, SYNC_MILLIS=300) as server, server.connect() as connection:
        connection.send(order)
        until("that it was accepted", lambda: os.path.getsize(store) > 0)
        server.kill()
    with Serving(store) as server:
        for _ in range(3):
            see(str(server.ask(order)), "'step': ")
        server.await_quiet(epoch=1)


@row("the power failed, or the process was killed")
def a_kill(desk: Desk) -> None:
    """The server is killed during a reset."""
    store = desk.store(8)
    with desk.serve(store, SYNC_MILLIS=100) as server:
        server.order(1, "reset", node=1)
        server.kill()
    with Serving(store) as server:
        server.await_quiet(epoch=1)
        see(desk.health(server).text, "resetd OK: well")


@row("no signals come, and the output is a pipe")
def a_reader_that_hangs(desk: Desk) -> None:
    store = desk.store(1)
    with Piped(store) as server:
        for number in range(1, 401):
            server.order(number, "reset", node=1)
        reader = subprocess.Popen(["sleep", "3600"], stdin=server.reader)
        try:
            server.leave()
            see(str(server.ask({"op": "close"})), "closed")
            see(desk.why(store, server), f"process {reader.pid} (sleep 3600) reads; the pipe is full: end the process that reads it")
        finally:
            reader.kill()
            reader.wait()
        if (status := server.process.wait(LONG)) == 0:
            raise NotSeen("the server ended as if it had printed everything")
        see(server_errors(server), "resetd: Write")
    if ran("check", store).status:
        raise NotSeen("the store is not legal")


def server_errors(server: Serving) -> str:
    with open(server.errors, encoding="utf-8") as file:
        return file.read()
