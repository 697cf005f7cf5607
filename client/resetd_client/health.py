"""A monitoring check: the present state of a coordinator, and how long each condition has lasted."""

from __future__ import annotations

import enum
from dataclasses import dataclass

from .answers import Away, NotNow
from .port import Port, patiently
from .same_store import NotCompared, Reading, difference, reading
from .signal_lag import Signals
from .since import Since
from .view import View

# Two messages, each with its receipt, cross each of the 128 links in both directions: more steps than a wave can make without
# changing a row of one of its nodes.
MOST_WAVE_STEPS = 1_024


class Level(enum.IntEnum):
    """The statuses of a monitoring check."""

    OK = 0
    WARNING = 1
    CRITICAL = 2
    UNKNOWN = 3


@dataclass(frozen=True)
class Bounds:
    """The number of seconds that each condition may last before it is reported."""

    steps: float = 5.0
    wave: float = 5.0
    unconfirmed: float = 60.0
    signals: float = 5.0


@dataclass(frozen=True)
class Health:
    """The findings. `is_stopped`: the server answers Stopped, so it has to be closed and started again."""

    level: Level
    findings: tuple[str, ...]
    is_stopped: bool = False


def check(port: Port, since: Since, bounds: Bounds, timeout: float = 0.0, signals: Signals | None = None,
          store: str | None = None) -> Health:
    """Queries the server and returns the findings. If no view arrives within `timeout` seconds, findings that were already
    active stay active. `store` is the file that the coordinator should be serving. Raises NotTaken."""
    comparison = Comparison(store)
    try:
        view = patiently(port.show, timeout)
    except NotNow as not_now:
        return Health(Level.CRITICAL, (f"the server answers {not_now.name}",), not_now.name == "Stopped")
    except Away as away:
        return Health(Level.CRITICAL, (f"no answer: {away}",))
    level, found = comparison.judged(view)
    found += findings(view, since, bounds)
    if signals:
        found += missing_signals(view, signals, since, bounds)
    since.keep()
    return Health(level if level is not Level.OK or not found else Level.WARNING, tuple(found))


class Comparison:
    """Compares the coordinator's store with the store in a file, if there is one, by reading the file before and after a view."""

    def __init__(self, path: str | None) -> None:
        self._path = path
        self._before = Reading(None)
        try:
            self._before = reading(path) if path else self._before
        except NotCompared:
            pass  # `judged` reports it after the second reading

    def differs(self, view: View) -> bool | None:
        """Returns whether the stores differ, or None if that is unknown."""
        level = self.judged(view)[0] if self._path else Level.UNKNOWN
        return None if level is Level.UNKNOWN else level is Level.CRITICAL

    def judged(self, view: View) -> tuple[Level, list[str]]:
        if not self._path:
            return Level.OK, []
        try:
            differs = difference(self._before, view, reading(self._path))
        except NotCompared as fault:
            return Level.UNKNOWN, [f"the server's store can't be compared with the file: {fault}"]
        if not differs:
            return Level.OK, []
        return Level.CRITICAL, [f"this file is not the server's store: {self._path}: {differs}. What the server answers now is lost "
                                "when it ends, so leave it running (OPERATING, Backup and restore)"]


def findings(view: View, since: Since, bounds: Bounds) -> list[str]:
    """Returns the conditions that have lasted longer than their bounds."""
    found: list[str] = []
    if view.accepted > view.settled and (lasted := oldest_wait(view, since)) >= bounds.steps:
        found.append(f"{view.accepted - view.settled} steps have waited for the disk for {lasted:.0f} s")
    found += still_waves(view, since, bounds)
    for node in view.nodes:
        if node.epoch > node.confirmed:
            lasted = since.seconds(f"unconfirmed {node.node} {node.epoch}")
            if lasted >= bounds.unconfirmed:
                found.append(f"epoch {node.epoch} of node {node.node} has been unconfirmed for {lasted:.0f} s")
    return found


def oldest_wait(view: View, since: Since) -> float:
    """Returns the least time for which the oldest unsettled step has waited for the disk. Each look records the last accepted
    step; the oldest such record that is not settled yet determines the time."""
    noted = {int(thing.split()[1]) for thing in since.things("accepted")} | {view.accepted}
    return max(since.seconds(f"accepted {step}") for step in noted if view.settled < step <= view.accepted)


def still_waves(view: View, since: Since, bounds: Bounds) -> list[str]:
    """Returns the waves that do not move although no packet is in transit. A wave moves if the row of one of its nodes changes.
    It may be waiting for the disk with pending steps; so it counts only if no look has found pending steps for long, or if
    so many steps were settled meanwhile that its own must be among them."""
    found: list[str] = []
    seen: set[int] = set()
    for node in view.nodes:
        if node.mode == "ready" or node.node in seen:
            continue
        party = view.connected(node.node)
        seen |= {each.node for each in party}
        rows = " ".join(f"{each.node}:{each.mode}:{each.parent}:{each.epoch}" for each in party)
        settled = since.grown(f"wave {rows}", view.settled)
        lasted = since.seconds(f"wave {rows}")
        alone = since.seconds(f"alone {rows}") if view.accepted == view.settled else 0.0
        if max(alone, lasted if settled > MOST_WAVE_STEPS else 0.0) >= bounds.wave:
            more = sum(each.mode != "ready" for each in party) - 1
            found.append(f"a wave has made no progress at node {node.node} ({node.mode}){f' and {more} more' if more else ''} for "
                         f"{lasted:.0f} s: run resetctl resend")
    return found


def missing_signals(view: View, signals: Signals, since: Since, bounds: Bounds) -> list[str]:
    """Reports the signals that have been missing from the file of signals for longer than the bound."""
    try:
        lacking = signals.lacking(view)
    except OSError as fault:
        return [f"the file of signals can't be read: {fault.filename}: {fault.strerror}"]
    lasted = {signal: since.seconds("unsignalled {} {}".format(*signal)) for signal in lacking}
    late = [signal for signal in lacking if lasted[signal] >= bounds.signals]
    if not late:
        return []
    more = f" and {len(late) - 1} more" if len(late) > 1 else ""
    return ["the file of signals lacks `signal {} {}`{} for {:.0f} s: the server can't print, so services learn of a reset only "
            "by looking. Free some disk space and restart the server".format(*late[0], more, lasted[late[0]])]


def metrics(view: View | None, is_stopped: bool, differs: bool | None = None) -> str:
    """Formats the metrics for node_exporter's textfile collector. `differs`: whether the store differs from the one in its
    file, or None if unknown."""
    rows = [("resetd_up", "gauge", "1 if the server answers", [("", int(view is not None or is_stopped))]),
            ("resetd_stopped", "gauge", "1 if the server answers with Stopped", [("", int(is_stopped))])]
    if differs is not None:
        rows.append(("resetd_store_differs", "gauge", "1 if the store's file is no longer the server's store", [("", int(differs))]))
    if view:
        names = [(f'{{node="{node.node}",group="{node.group}"}}', node) for node in view.nodes]
        rows += [
            ("resetd_steps_accepted", "gauge", "the number of accepted steps", [("", view.accepted)]),
            ("resetd_steps_settled", "gauge", "the number of steps on the disk", [("", view.settled)]),
            ("resetd_links", "gauge", "the number of links", [("", len(view.links))]),
            ("resetd_node_epoch", "gauge", "a node's epoch", [(name, node.epoch) for name, node in names]),
            ("resetd_node_confirmed", "gauge", "the node's last confirmed epoch",
             [(name, node.confirmed) for name, node in names]),
            ("resetd_node_in_reset", "gauge", "1 if the node is in a reset",
             [(name, int(node.mode != "ready")) for name, node in names])]
    return "".join(f"# HELP {name} {about}.\n# TYPE {name} {kind}\n" +
                   "".join(f"{name}{labels} {value}\n" for labels, value in values)
                   for name, kind, about, values in rows)
