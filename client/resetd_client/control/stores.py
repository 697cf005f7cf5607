"""Commands that read a store's file, even while it is served."""

from __future__ import annotations

import argparse
import os
import tempfile
from collections.abc import Iterator
from dataclasses import asdict

from ..access import Account
from ..files import sync_folder
from ..finding import Finding
from ..processes import lock_holders
from ..store_file import HEADER, MAGIC, Store, open_store, read_half, read_store, reader_of, store_of
from ..waiting import AUDIT
from ..why import of_file
from ..why_server import of_address
from . import ranges
from .base import DONE, REFUSED, WRONG_ARGUMENTS, Command, Control, add_json, complain, print_json


def why(control: Control) -> int:
    """Prints the causes of a fault at a server's start, for a store's file and an address."""
    arguments = control.arguments
    findings = []
    for finding in looked_at(arguments.file, arguments.user, arguments.at, control.seconds, arguments.audit):
        if not arguments.json:
            print(f"{finding.about:8s} {finding.text}", flush=True)
        findings.append(finding)
    problems = start_problems(findings)
    if arguments.json:
        print_json({"findings": [asdict(finding) for finding in findings], "told": problems.splitlines()})
        return REFUSED if problems else DONE
    left_out = "".join(f"; not checked: {finding.left_out}" for finding in findings if finding.left_out)
    print(problems or f"these checks found nothing that prevents a start{left_out}")
    return REFUSED if problems else DONE


def looked_at(path: str, user: Account | None, address: str | None, seconds: float, audit: str = AUDIT) -> Iterator[Finding]:
    """Yields the findings about a store's file and, if an address is given, about the server there."""
    yield from of_file(path, user)
    if address:
        yield from of_address(address, seconds, path, audit)


def start_problems(findings: list[Finding]) -> str:
    """Returns the fault with which a start of the server would end now, and the faults that a running server may run into; empty if
    there is none."""
    faults = sorted((finding for finding in findings if finding.fault), key=lambda finding: finding.fault != "Usage")
    problems = [f"a start now would end with the fault {finding.fault}: {finding.about}: {finding.text}" for finding in faults[:1]]
    problems += [f"a running server may have this problem: {finding.later}: {finding.about}: {finding.text}"
                 for finding in findings if finding.later]
    return "\n".join(problems)


def steps(control: Control) -> int:
    """Prints the steps of a store, each with the batch that settled it."""
    store = read_store(control.arguments.file, control.arguments.before)
    if control.arguments.json:
        print_json(store_members(store))
        return DONE
    half, rows = store.half, list(store_rows(store))
    print(f"version {half.version}, half {half.index}: the snapshot has {store.world.count} steps, of which only each client's last "
          f"order is kept, and {len(store.batches)} batches have {store.count - store.world.count} steps")
    for row in rows:
        print(row)
    return DONE


def store_members(store: Store) -> dict[str, object]:
    """Returns the output of `steps` as the members of a JSON object."""
    return {"batches": [{"first": batch.first, "steps": [str(step) for step in batch.steps]} for batch in store.batches],
            "half": store.half.index, "snapshot": store.world.count,
            "snapshot_orders": [{"order": str(session), "step": session.step}
                                for session in sorted(store.world.sessions, key=lambda session: session.step)],
            "version": store.half.version}


def store_rows(store: Store) -> Iterator[str]:
    for session in sorted(store.world.sessions, key=lambda session: session.step):
        yield f"{session.step:8d}  snapshot           {session}"
    for batch in store.batches:
        for place, step in enumerate(batch.steps):
            yield f"{batch.first + place:8d}  {f'{batch.first}-{batch.last}':17s}  {step}"


def backup(control: Control) -> int:
    """Copies a store, which may be served meanwhile. If the name of the copy is a link, the copy is written to its target."""
    arguments = control.arguments
    out = os.path.realpath(arguments.out)
    descriptor = open_store(arguments.file)
    try:
        if (refusal := why_not(out, os.fstat(descriptor))):
            complain(f"{arguments.out}: {refusal}")
            return WRONG_ARGUMENTS
        store = store_of(read_half(reader_of(descriptor)))
        put(out, store.half.file(), os.fstat(descriptor))
    finally:
        os.close(descriptor)
    control.report(f"copied a store of {store.count} steps, version {store.half.version}")
    return DONE


def why_not(out: str, source: os.stat_result) -> str:
    """Returns the reason why a copy may not replace this file. Only an absent or empty file, or another copy, is replaced."""
    try:
        descriptor = open_store(out)
    except FileNotFoundError:
        return ""
    except OSError as fault:
        return str(fault.strerror)
    try:
        found, head = os.fstat(descriptor), os.read(descriptor, HEADER)
    finally:
        os.close(descriptor)
    if os.path.samestat(found, source):
        return "the copy would replace the store itself"
    if lock_holders(found):
        return "a process has locked this file: a store that is being served can't be replaced"
    return "" if not head or head[1:9] == MAGIC else "this file is not a store, so it is not replaced"


def put(path: str, data: bytes, like: os.stat_result) -> None:
    """Replaces a file as a whole, and syncs it. The new file has the mode and, if this user may set it, the owner of the file
    `like`. If the call fails, it leaves no new file."""
    descriptor, new = tempfile.mkstemp(prefix=f".{os.path.basename(path)}-", dir=os.path.dirname(path))
    try:
        with open(descriptor, "wb") as file:
            file.write(data)
            os.fchmod(file.fileno(), like.st_mode & 0o777)
            if os.geteuid() == 0:
                os.fchown(file.fileno(), like.st_uid, like.st_gid)
            file.flush()
            os.fsync(file.fileno())
        os.replace(new, path)
    except BaseException:
        os.remove(new)
        raise
    sync_folder(path)


def add_why_arguments(parser: argparse.ArgumentParser) -> None:
    add_json(parser)
    add_file_arguments(parser)
    parser.add_argument("at", metavar="ADDRESS", nargs="?", help="the server's address, as an IPv4 address and a port (A.B.C.D:P)")
    parser.add_argument("--audit", metavar="FILE", default=AUDIT,
                        help=f"the proxy's audit file, which shows how long a group has waited (default: {AUDIT})")
    parser.add_argument("--user", type=ranges.account, metavar="NAME",
                        help="the user that the server runs as (default: the owner of the store's folder)")


def add_file_arguments(parser: argparse.ArgumentParser) -> None:
    parser.add_argument("file", metavar="FILE", help="the store's file")


def add_steps_arguments(parser: argparse.ArgumentParser) -> None:
    add_json(parser)
    add_file_arguments(parser)
    parser.add_argument("--before", action="store_true",
                        help="read the store's previous half, from before the last checkpoint; it is kept until the next checkpoint")


def add_backup_arguments(parser: argparse.ArgumentParser) -> None:
    add_file_arguments(parser)
    parser.add_argument("out", metavar="OUT", help="the file for the copy; an older copy there is replaced as a whole")


COMMANDS = (
    Command("why", "checks the store's file and the server's address, and prints what would make a start fail; "
            "exits with 1 if it finds a problem", why, add_why_arguments, is_read_only=True),
    Command("steps", "prints the steps of a store, each with the batch in which it was settled", steps,
            add_steps_arguments),
    Command("backup", "copies a store, even while a server uses it", backup, add_backup_arguments),
)
