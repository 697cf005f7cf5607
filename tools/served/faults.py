"""A coordinator whose writes and syncs fail, each once, injected by strace."""

import os
import shutil
import subprocess

from . import kills
from .clients import Lost, Stopped
from .ring import Ring
from .server import Away

CALLS = {"fsync": ["EIO"], "fdatasync": ["EIO"], "pwrite64": ["EIO", "ENOSPC"]}
STOPPED_BY_DEVICE = (3, "resetd: Device\n")


def why_not() -> str:
    """Returns why strace can't make a call fail here, or an empty text if it can."""
    if shutil.which("strace") is None:
        return "Debian's package strace is missing: apt-get install strace"
    traced = subprocess.run(["strace", "-qq", "-o", os.devnull, "true"], capture_output=True, check=False)
    return "strace may not trace here" if traced.returncode else ""


def can_inject() -> bool:
    return not why_not()


def run(ring: Ring, most: int) -> None:
    for call, errors in CALLS.items():
        places = 0
        while places < most and one_fault(ring, call, places + 1, errors[places % len(errors)]):
            places += 1
        print(f"{call} failed at {places} places ({' and '.join(errors)}): each time Stopped, resetd: Device, "
              f"status 3, and all that was answered was there afterwards", flush=True)
        if places == 0:
            raise Lost(f"{call} never failed: strace injected no fault")


def one_fault(ring: Ring, call: str, place: int, error: str) -> bool:
    """Makes a start in which one call fails, and then a start in which none does. Returns whether the run reached that call."""
    server, log = ring.server, f"{ring.server.store}.strace"
    count, _ = ring.history.look_into(server)
    inject = f"inject={call}:error={error}:when={place}"
    listens = server.start("strace", "-f", "-qq", "-o", log, "-e", f"trace={call}", "-e", inject)
    if listens:
        serve_until_stopped(ring, count)
    has_failed = was_injected(log)
    if listens and has_failed:
        expect_stopped(ring)
    ended = server.close() if listens else server.ended()
    if ended != (STOPPED_BY_DEVICE if has_failed else (0, "")):
        raise Lost(f"{call} {place} ({error}): the coordinator ended with {ended}")
    ring.history.note_signals(server.new_signals())
    ring.history.look_into(server)
    ring.history.note_taken()
    kills.finish(ring)
    return has_failed


def serve_until_stopped(ring: Ring, count: int) -> None:
    try:
        ring.repeat_orders(count)
        ring.follow()
        ring.ask_resets(1)
        ring.follow()
    except (Stopped, Away):
        pass


def expect_stopped(ring: Ring) -> None:
    """Checks that every further order is answered Stopped. Their numbers are sent again after the next start."""
    for client in ring.clients:
        try:
            if client.unanswered:
                client.settle(ring.server)
            else:
                client.order(ring.server, "reset", node=1)
        except Stopped:
            continue
        raise Lost(f"after a fault of the device {client.answered} was answered {client.reply}")


def was_injected(log: str) -> bool:
    with open(log, encoding="utf-8", errors="replace") as file:
        return "(INJECTED)" in file.read()
