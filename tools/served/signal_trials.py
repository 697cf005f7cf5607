"""Trials of lines that are torn, lost or doubled, of many members, and of messages across resets."""

import os
import resource
import signal
import subprocess
import time

from .ports import held_ports
from .services import Failed, Trial, patiently, read, tags_at

LIMIT = 400_000  # size of the file of signals at which a line is to be torn
TIMEOUT = 300  # seconds within which a server answers and ends, even on a busy machine


def begin_first(trial: Trial) -> None:
    """Starts services, and waits until one reset is through."""
    trial.services()
    trial.expect_begun("the services began")
    trial.reset_all("the first reset")


def torn(trial: Trial) -> None:
    begin_first(trial)
    trial.close()
    with open(trial.server.signals, "a", encoding="utf-8") as file:
        file.write("#" * 79 + "\n")
        line = len(f"listening {trial.server.wanted}\n")
        file.write("#" * (LIMIT - file.tell() - 2 - line) + "\n")
    before = trial.times()
    start_limited(trial)
    trial.reset()
    trial.expect("a line was cut", lambda: os.path.getsize(trial.server.signals) == LIMIT)
    trial.kill()
    last = read(trial.server.signals).splitlines()[-1]
    if not last.startswith("slistening"):
        raise Failed(f"no line was torn: {last!r}")
    trial.expect_begun(f"the reset whose line was torn ({last.split()[0]!r})", before)


def start_limited(trial: Trial) -> None:
    """Starts the server with a limit on the size of files: the last write is cut, and later ones fail."""
    server = trial.server

    def limit() -> None:
        signal.signal(signal.SIGXFSZ, signal.SIG_IGN)
        resource.setrlimit(resource.RLIMIT_FSIZE, (LIMIT, LIMIT))
    server.address = ""
    with open(server.signals, "ab") as signals, open(server.errors, "wb") as errors:
        server.size_before = signals.tell()
        server.process = subprocess.Popen([server.program, "serve", server.store, server.wanted], stdout=signals,
                                          stderr=errors, preexec_fn=limit, restore_signals=False)
    if not server.listen():
        raise Failed(f"the coordinator did not start: {server.ended()}")


def lost(trial: Trial) -> None:
    begin_first(trial)
    os.rename(trial.server.signals, f"{trial.folder}/moved")
    with open(trial.server.signals, "w", encoding="utf-8"):
        pass
    trial.reset_all("the reset whose lines were lost")
    trial.reset_all("the reset in which the server was killed", is_killed=True)


def unread(trial: Trial) -> None:
    """The server's lines go to a pipe whose reader hangs, and services look by themselves. Orders are answered; after a
    close the process stays, with the store locked, until the reader leaves."""
    trial.services()
    trial.expect_begun("the services began")
    trial.close()
    reader = subprocess.Popen(["sleep", "600"], stdin=subprocess.PIPE)
    trial.helpers.append(reader)
    server = trial.server
    with open(server.errors, "wb") as errors:
        server.process = subprocess.Popen([server.program, "serve", server.store, server.wanted], stdin=subprocess.DEVNULL,
                                          stdout=reader.stdin, stderr=errors)
    server.address = server.wanted
    patiently(trial.port.show, TIMEOUT)
    assert reader.stdin
    fill(reader.stdin.fileno())
    reader.stdin.close()
    trial.reset_all("a reset whose lines nobody reads")
    trial.port.close()
    time.sleep(1)
    if server.process.poll() is not None:
        raise Failed(f"the process ended though its lines were not read: {server.ended()}")
    if (second := subprocess.run([server.program, "serve", server.store, "127.0.0.1:0"], capture_output=True, check=False,
                                 timeout=TIMEOUT)).returncode != 3:
        raise Failed(f"the store was not locked: {second}")
    reader.kill()
    status, message = server.ended()
    if (status, message) != (3, "resetd: Write\n"):
        raise Failed(f"once the reader has gone the process ends with status {status}, {message!r}")
    trial.start()
    trial.reset_all("a reset after it")


def fill(descriptor: int) -> None:
    """Fills a pipe, so that the next line that is written to it waits."""
    os.set_blocking(descriptor, False)
    try:
        while True:
            os.write(descriptor, b"\n" * 4096)
    except BlockingIOError:
        pass
    try:
        while True:
            os.write(descriptor, b"\n")
    except BlockingIOError:
        os.set_blocking(descriptor, True)


def doubled(trial: Trial) -> None:
    begin_first(trial)
    trial.reset_all("the second reset", is_killed=True)
    before = trial.times()
    with open(trial.server.signals, "a+", encoding="utf-8") as file:
        file.seek(0)
        file.write(file.read())
    time.sleep(2)
    if trial.times() != before:
        raise Failed(f"a repeated line made a service begin again: {before} and then {trial.times()}")


def members(trial: Trial) -> None:
    nodes = len(trial.nodes)
    trial.run("gateway", f"1-{nodes}", 1, trial.address, f"{trial.folder}/gateway", "--signals",
              trial.server.signals, "--look", 5, name="gateway")
    for node in trial.nodes:
        trial.run("member", f"{trial.folder}/gateway/{node}", name=node)
    trial.expect_begun("64 members started")
    trial.reset_all("a reset of 64 members")
    trial.reset_all("a reset of 64 members with a kill in it", node=33, is_killed=True)
    trial.expect("all members have one tag", lambda: len(tags := tags_at(f"{trial.folder}/gateway")) == 1 and tags != {""})


def messages(trial: Trial) -> str:
    """Member 1 looks only at intervals, so it learns late: after a reset it continues in the old run for a while."""
    places = held_ports(2)
    tag = ["--without-tag"] if "tag" in trial.arguments.without else []
    for node, signals, look in ((1, "/nonexistent", 1.2), (2, trial.server.signals, 5)):
        trial.run("talk", node, trial.address, f"{trial.folder}/{node}", places[node - 1], places[2 - node],
                  signals, look, *tag, name=node)
    for reset in range(1, 7):
        trial.expect(f"messages before reset {reset}", lambda: talk_goes_on(trial))
        trial.reset_all(f"reset {reset}", is_killed=reset % 3 == 0)
    trial.expect("messages after the last reset", lambda: talk_goes_on(trial))
    time.sleep(0.5)
    counts = {node: read(f"{trial.folder}/{node}/counts").strip() for node in trial.nodes}
    mixed = [line for node in trial.nodes for line in read(f"{trial.folder}/{node}.lines").splitlines() if "MIXED" in line]
    if mixed or not all(text.endswith(" 0 mixed") for text in counts.values()):
        raise Failed(f"messages of two runs were mixed: {counts}; first {mixed[:1]}")
    return f"{counts[1]} at member 1, {counts[2]} at member 2"


def talk_goes_on(trial: Trial) -> bool:
    taken = [int((read(f"{trial.folder}/{node}/counts") or "0").split()[0]) for node in trial.nodes]
    time.sleep(0.5)
    now = [int((read(f"{trial.folder}/{node}/counts") or "0").split()[0]) for node in trial.nodes]
    return all(a < b for a, b in zip(taken, now))
