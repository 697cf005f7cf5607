"""A coordinator killed at random moments, and the checks after each kill."""

import threading
import time

from .clients import Lost
from .ring import Ring
from .server import Away, Server

KILLED = -9


def run(ring: Ring, rounds: int) -> None:
    usual = first_reset(ring)
    kinds = {"before it listened": 0, "in a reset": 0, "between resets": 0}
    for done in range(1, rounds + 1):
        kinds[one_round(ring, *usual)] += 1
        if done % 20 == 0 or done == rounds:
            report(ring, done, kinds)
    finish(ring)


def first_reset(ring: Ring) -> tuple[float, float]:
    """Returns how long a start and a reset usually take, for choosing moments."""
    begun = time.monotonic()
    start_again(ring)
    started = time.monotonic()
    ring.ask_resets(1)
    ring.follow()
    ended = time.monotonic()
    print(f"without a kill: a start of {started - begun:.3f} s, a reset of {ended - started:.3f} s", flush=True)
    finish(ring)
    return started - begun, ended - started


def one_round(ring: Ring, usual_start: float, usual_reset: float) -> str:
    """A start, the checks after it, further resets, and a kill: while it starts, exactly at an answer, or at a random moment.
    Returns where the kill happened."""
    server, killer = ring.server, None
    count, _ = ring.history.look_into(server)
    moment = ring.choice.choice(["start", "answer", "any", "any", "any"])
    server.launch()
    if moment == "start":
        killer = kill_later(server, ring.choice.uniform(0, usual_start + usual_reset))
    listens = server.listen()
    try:
        if listens:
            ring.repeat_orders(count)
            ring.follow()
            if moment == "any":
                killer = kill_later(server, ring.choice.uniform(0, usual_reset * 1.2))
            ring.ask_resets(ring.choice.randint(1, 3))
            if moment == "answer":
                server.process.kill()
            ring.follow()
    except Away:
        pass
    if killer:
        killer.join()
    return after_kill(ring, listens)


def kill_later(server: Server, seconds: float) -> threading.Timer:
    killer = threading.Timer(seconds, server.process.kill)
    killer.start()
    return killer


def after_kill(ring: Ring, listened: bool) -> str:
    status, errors = ring.server.ended()
    if status != KILLED:
        raise Lost(f"the coordinator ended by itself with status {status}: {errors}")
    ring.history.note_signals(ring.server.new_signals())
    _, is_going = ring.history.look_into(ring.server)
    ring.history.note_taken()
    return "before it listened" if not listened else "in a reset" if is_going else "between resets"


def start_again(ring: Ring) -> None:
    """Makes a start without a kill: every answer must be there, and an interrupted reset completes."""
    count, _ = ring.history.look_into(ring.server)
    ring.server.must_start()
    ring.repeat_orders(count)
    ring.follow()


def finish(ring: Ring) -> None:
    """Closes the coordinator in order, and inspects its store."""
    if ring.server.process.poll() is not None:
        start_again(ring)
    ring.server.must_close()
    ring.history.note_signals(ring.server.new_signals())
    ring.history.look_into(ring.server)
    ring.history.expect_printed()


def report(ring: Ring, done: int, kinds: dict[str, int]) -> None:
    history = ring.history
    where = ", ".join(f"{number} {kind}" for kind, number in kinds.items())
    print(f"{done} kills ({where}): {history.count} steps, {len(history.printed)} signals printed, each once; "
          f"{history.taken} more were settled, but a kill lost their lines, so only their epochs show them", flush=True)
