"""The parts of the trial: the loss in each, and which host continues."""

import time
from collections.abc import Callable

from . import half
from .clients import Lost, ask
from .keeper import Keeper, look_into
from .network import STEP_TIMEOUT, Host, wait_for
from .trial import Trial, report

LATER = 2  # seconds of load before and after each loss
RECONNECTED = 6  # seconds after which all hosts have found a brick again
AWAY = 9  # seconds for which the host without a coordinator, or the majority, is away


def kill_in_wave(trial: Trial) -> float:
    print("1. A reset is requested, and during it the whole machine host 1, which runs the coordinator, is killed.",
          flush=True)
    old, new = trial.present, trial.other(trial.present)
    asker = trial.load.clients[0]
    for is_late in (False, True, True):
        trial.wait_quiet()
        before = len(old.lines("signals"))
        asker.order("reset", node=6)
        if not is_late:
            wait_for("a signal", lambda: len(old.lines("signals")) > before, 0.0005)
        old.host.kill()
        killed = time.monotonic()
        old.wait_over()
        left = [row[1] for row in look_into(trial.program, trial.volume.bytes()[1], trial.folder)[2]
                if row[3] != "ready"]
        if left:
            break
        report("(the reset was complete when the kill came; the next try kills right at the answer)")
        trial.restart(old)
        asker.repeat()
        trial.hand_over_to(old)
    else:
        raise Lost("no kill came during a reset")
    signalled = [line.split()[1] for line in old.lines("signals")[before:]]
    report(f"signalled before the kill: {' '.join(signalled) or 'none'}; in the store still in the reset: "
           f"{' '.join(left)}")
    if trial.planted == "old-copy":
        new.host.run("cp", f"{trial.folder}/old", "/srv/resetd/store")
    trial.load.start()
    took = trial.wait_takeover(new, killed)
    report(f"host2 answered the first order {took:.1f} s after the kill")
    trial.load.stop()
    trial.load.finish()
    trial.wait_quiet()
    report("the interrupted reset was completed; each member has begun its epoch and confirmed it")
    trial.restart(old)
    trial.check()
    return took


def cut_in_load(trial: Trial) -> float:
    old, new = trial.present, trial.other(trial.present)
    print(f"2. {old.host.name}, which runs the coordinator, is cut off from the network under load.",
          flush=True)
    trial.load.start()
    time.sleep(LATER)
    ends = len(old.ends())
    old.host.cut()
    cut = time.monotonic()
    took = trial.wait_takeover(new, cut)
    report(f"{new.host.name} answered the first order {took:.1f} s after the cut")
    time.sleep(LATER)
    old.host.link()
    report(f"{old.host.name} is reconnected; orders continue")
    time.sleep(LATER)
    ask_linked_old(trial, old, ends)
    trial.load.stop()
    trial.load.finish()
    trial.check()
    return took


def ask_linked_old(trial: Trial, old: Keeper, ends: int) -> None:
    """Asks the old coordinator, over a new connection, with an order of a client that nobody else uses."""
    request = {"op": "reset", "client": 15, "number": 1, "node": 1}
    report(f"the old coordinator on {old.host.name} {trial.end_old(old, ends, request)}")


def cut_while_idle(trial: Trial) -> float:
    old, new = trial.present, trial.other(trial.present)
    print(f"3. {old.host.name} is cut off while its coordinator is idle.", flush=True)
    trial.wait_quiet()
    ends = len(old.ends())
    old.host.cut()
    cut = time.monotonic()
    trial.load.start()
    took = trial.wait_takeover(new, cut)
    report(f"{new.host.name} answered the first order {took:.1f} s after the cut")
    trial.load.stop()
    trial.load.finish()
    trial.wait_quiet()
    old.host.link()
    before, _ = trial.volume.wait_healed(new.host)
    shown = ask(trial.site.host, old.address, {"op": "show"}, STEP_TIMEOUT)
    report(f"{old.host.name} is reconnected, and all three bricks have the same {len(before)} bytes")
    if "accepted" in shown:
        report(f"the old coordinator answers show with its own past: {shown['accepted']} steps")
    ask_linked_old(trial, old, ends)
    refused = old.wait_refused()
    if trial.volume.wait_healed(new.host)[0] != before:
        raise Lost(f"the old coordinator on {old.host.name} has written")
    report(f"all three bricks still have exactly these bytes; {old.host.name} is a standby now: status {refused}")
    trial.check()
    return took


def bricks_in_turn(trial: Trial) -> float:
    print("4. One brick is killed and comes back under load; then another one; then a whole host is away.", flush=True)
    trial.load.start()
    begun = time.monotonic()
    for host in (trial.hosts[2], trial.present.host):
        time.sleep(LATER)
        starts = trial.starts()
        without = one_brick(trial, host)
        if trial.starts() != starts:
            raise Lost(f"the coordinator did not outlive the brick of {host.name}")
        closed = time.monotonic()
        trial.hand_over()
        healed = wait_for("healing", lambda: trial.volume.is_healed(host), 0.5)
        handed = trial.records.longest_gap(closed)
        report(f"the brick of {host.name} is killed and started again: at most {without:.1f} s between two answers; a "
               f"close, and {trial.present.host.name} serves: {handed:.1f} s; healed {healed:.1f} s later")
    report(f"host3 is cut off and reconnected: at most {third_host_away(trial):.1f} s between two answers")
    trial.load.stop()
    gaps = trial.records.gaps(begun)
    report(f"{trial.records.count(begun)} orders were answered during all this")
    trial.load.finish()
    for since, until in gaps:
        trial.check_quick(since, until)
    trial.check()
    return max(until - since for since, until in gaps)


def one_brick(trial: Trial, host: Host) -> float:
    """Kills a brick and starts it again. Returns the longest time without an answer."""
    killed = time.monotonic()
    trial.volume.kill_brick(host)
    time.sleep(LATER)
    trial.volume.start_brick(host)
    time.sleep(RECONNECTED)
    return trial.records.longest_gap(killed)


def third_host_away(trial: Trial) -> float:
    """Cuts off the host without a coordinator. Returns the longest time without an answer to clients on the coordinator's host."""
    away, trial.site.host = trial.site.host, trial.present.host
    starts = trial.starts()
    time.sleep(LATER)
    away.cut()
    cut = time.monotonic()
    time.sleep(AWAY)
    gap = trial.records.longest_gap(cut)
    away.link()
    time.sleep(LATER)
    trial.site.host = away
    if trial.starts() != starts:
        raise Lost(f"the coordinator did not outlive {away.name}")
    return gap


def lose_majority(trial: Trial) -> float:
    keeper = trial.present
    away = [host for host in trial.hosts if host is not keeper.host]
    print(f"5. Two of the three bricks are cut off, those of {away[0].name} and {away[1].name}: no majority.",
          flush=True)
    site, usual = trial.site, trial.site.host
    trial.site.host = keeper.host
    trial.load.start()
    time.sleep(LATER)
    starts = trial.starts()
    for host in away:
        host.cut()
    cut = time.monotonic()
    time.sleep(AWAY)
    late = trial.records.count(cut + 5)
    if late:
        raise Lost(f"{late} orders were answered without a majority")
    report(f"after {AWAY} s orders were no longer answered; {keeper.host.name} answers "
           f"{what_it_answers(keeper)}")
    for host in away:
        host.link()
    linked = time.monotonic()
    report("the two hosts are reconnected")
    site.host = usual
    wait_for("an answer", lambda: trial.load.fault or trial.records.count(linked), 0.01)
    took = time.monotonic() - linked
    trial.load.stop()
    trial.load.finish()
    if trial.starts() == starts:
        raise Lost("no new start was needed: the majority was not lost")
    report(f"{trial.present.host.name} answered the first order {took:.1f} s after that, after a new start")
    trial.check()
    return took


def what_it_answers(keeper: Keeper) -> str:
    try:
        return str(ask(keeper.host, keeper.address, {"op": "show"}, 5).get("name", "show alone"))
    except Exception:
        return "nothing"


PARTS: list[Callable[[Trial], object]] = [kill_in_wave, cut_in_load, cut_while_idle, bricks_in_turn, lose_majority, half.write_half]
