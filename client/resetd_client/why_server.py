"""Finds the cause of a fault of a server at an address: which process listens there, which client has its one connection, and
the server's present state."""

from __future__ import annotations

import os
import socket
from collections.abc import Iterator

from .address import host_and_port
from .answers import Away, NotNow, NotTaken
from .connections import Peer, peers
from .finding import Finding, user_name
from .port import Port
from .processes import Condition, commanded, condition_of, has_other_network, join_network, listening, lock_holders
from .same_store import NotCompared, Reading, difference, reading
from .view import View
from .waiting import AUDIT, of_groups

KEPT_SECONDS = "11 minutes"  # the longest time for which one client keeps all others waiting
CONDITIONS = {
    Condition.STOPPED: ("process {process} is stopped by a signal (SIGSTOP or a debugger): kill -CONT {process} continues it",
                        "a signal has stopped the server"),
    Condition.IN_A_CALL: ("process {process} has a thread in a system call that does not return, such as a sync of a slow or hanging disk: "
                          "see the kernel's log (journalctl -k)", "the disk is slow or hangs"),
    Condition.SPINNING: ("process {process} has a thread that is always busy, either working or spinning", ""),
}


def of_address(text: str, seconds: float, path: str, audit: str = AUDIT) -> Iterator[Finding]:
    """Reports what listens at an address, whether a server could listen there, whether a coordinator there has the store in
    this file, and which members its groups wait for, with the times from the proxy's audit file."""
    yield from of_network(path)
    try:
        host, port = host_and_port(text)
        socket.inet_aton(host)
    except (ValueError, OSError):
        yield Finding("address", f"the address {text} is not of the form A.B.C.D:P", "Usage")
        return
    try:
        with socket.socket() as trial:
            trial.bind((host, 0))
    except OSError as fault:
        yield Finding("address", f"{host}: {fault.strerror}", "Socket")
    if port < lowest_port() and os.geteuid() != 0:
        yield Finding("address", f"only root may use port {port}: other users may use ports from {lowest_port()} on", "Socket")
    listeners = sorted(listening(host, port))
    for process in listeners:
        yield Finding("address", f"process {process}{commanded(process)} listens at this address, so no other process can", "Socket")
    yield from of_answer(f"{host}:{port}", seconds, path, listeners, audit)


def of_network(path: str) -> Iterator[Finding]:
    """Reports a private network. A server whose unit has PrivateNetwork= is in one, and then the following checks run inside
    it."""
    for process in filter(has_other_network, holders_of(path)):
        try:
            join_network(process)
            yield Finding("address", f"process {process} has a private network: the address is checked inside that network")
        except OSError as fault:
            text = f"process {process} has a private network, which this user can't join ({fault.strerror})"
            yield Finding("address", text, left_out="what listens at the address inside the private network")
        return


def of_answer(address: str, seconds: float, path: str, listeners: list[int], audit: str) -> Iterator[Finding]:
    """Reports what answers at an address."""
    fault = "" if listeners else "Socket"
    before = read_if_allowed(path)
    try:
        view = Port(address, seconds).show()
    except NotNow as not_now:
        yield Finding("answer", f"a coordinator answers with {not_now.name}: its device has failed, or the coordinator is ending; "
                                "resetctl close ends it", fault)
    except NotTaken as other:
        yield Finding("answer", str(other), fault)
    except Away as away:
        is_refused = "refused" in str(away)
        yield Finding("answer", str(away), "" if is_refused else fault)
        if not is_refused:
            yield from of_silence(address, listeners or holders_of(path))
    else:
        yield Finding("answer", f"a coordinator with {len(view.nodes)} nodes and {view.settled:,} steps on the disk answers", fault)
        yield from of_store_behind(path, before, view)
        yield from of_groups(view, audit)


def read_if_allowed(path: str) -> Reading | None:
    try:
        return reading(path)
    except NotCompared:
        return None


def of_store_behind(path: str, before: Reading | None, view: View) -> Iterator[Finding]:
    """Reports whether a coordinator has the store in this file."""
    after = read_if_allowed(path)
    if not before or not after:
        text = "whether this file is the coordinator's store"
        yield Finding("answer", f"it is unknown {text}: this user can't read the file, or the file changes too fast", left_out=text)
    elif differs := difference(before, view, after):
        yield Finding("answer", f"this file is not the server's store: {differs}. The coordinator has another store, or this file was "
                                "overwritten, truncated or replaced while the coordinator used it; what the coordinator answers now is "
                                "lost when it ends",
                      later="the coordinator's answers are lost when it ends")


def holders_of(path: str) -> list[int]:
    try:
        return lock_holders(os.stat(path))
    except OSError:
        return []


def of_silence(address: str, servers: list[int]) -> Iterator[Finding]:
    """Reports why a listening server does not answer: its own state, and which client has its one connection."""
    for process in servers:
        if condition := condition_of(process):
            text, later = CONDITIONS[condition]
            yield Finding("server", text.format(process=process), later=later)
    having = peers(*host_and_port(address))
    for peer in having:
        if peer.is_served:
            yield Finding("client", f"{peer_text(peer)} has the server's only connection, so no other client is served: end that client, or wait "
                                    f"at most {KEPT_SECONDS}", later="a client keeps the server's only connection")
    if waiting := [peer for peer in having if not peer.is_served and peer.user is not None]:
        yield Finding("client", f"{', '.join(map(peer_text, waiting))} {'wait' if len(waiting) > 1 else 'waits'} for a connection")


def peer_text(peer: Peer) -> str:
    """Describes a client by its processes, or by its user if the processes can't be seen."""
    if peer.processes:
        return " and ".join(f"process {each}{commanded(each)}" for each in peer.processes) + (
            f" of {user_name(peer.user)}" if peer.user is not None else "")
    if peer.user is not None:
        return f"a process of the user {user_name(peer.user)} at {peer.address} (only root can see which process)"
    return f"a client at {peer.address} that has no process on this machine"


def lowest_port() -> int:
    try:
        with open("/proc/sys/net/ipv4/ip_unprivileged_port_start", encoding="utf-8") as file:
            return int(file.read())
    except OSError:
        return 1024
