"""Makes a file for an investigation: the output of the commands that a person on call would use, and the server's environment."""

from __future__ import annotations

import argparse
import io
import json
import os
import sys
import tarfile
import time
from collections.abc import Callable, Iterator
from dataclasses import dataclass

from .. import __version__
from ..address import SERVER, Tcp, addresses_of
from ..answers import Away, NotTaken
from ..device import file_system, kernel_lines, said
from ..port import patiently
from ..processes import checksum_of, lock_holders, program_of, threads_of
from ..store_file import NoStore, Restless, open_store, read_half, read_store, reader_of, store_of
from .base import DONE, Command, Control
from .stores import looked_at, store_rows, start_problems

MOST_LINES = "5000"  # of the systemd journal
PACKAGE = os.path.dirname(os.path.dirname(os.path.abspath(__file__)))


@dataclass(frozen=True)
class Part:
    """A part of the report: its file name, its description, and a function that returns its content."""

    name: str
    about: str
    find: Callable[[], bytes | str]


def parts(control: Control) -> Iterator[Part]:
    arguments = control.arguments
    yield Part("why.txt", "the output of resetctl why", lambda: why_text(control))
    yield Part("show.json", "the nodes and links, as resetctl show --json prints them",
               lambda: json.dumps(patiently(control.port.show, control.timeout).members()))
    yield Part("store", "a copy of the store, made like resetctl backup, or the file's bytes if the store can't be read",
               lambda: copy_of(arguments.store))
    yield Part("steps.txt", "the store's steps since the last checkpoint", lambda: steps_text(arguments.store, False))
    yield Part("steps-before.txt", "the steps in the store's previous half", lambda: steps_text(arguments.store, True))
    for name, path in memories(control):
        yield Part(name, f"the state that resetctl health keeps ({path})", lambda path=path: bytes_of(path))  # type: ignore[misc]
    unit = arguments.unit
    yield Part("journal.txt", f"the last {MOST_LINES} journal lines of the units {unit}, {unit}-proxy and {unit}-health",
               lambda: said("journalctl", "--no-pager", "--quiet", "--output", "short-iso-precise", "--lines", MOST_LINES,
                            "--unit", unit, "--unit", f"{unit}-proxy", "--unit", f"{unit}-health"))
    yield Part("versions.txt", "the versions, and the checksums of the program and the library", lambda: versions(arguments.store))
    yield Part("process.txt", "the server's resource limits, and the state of each of its threads", lambda: process_text(arguments.store))
    yield Part("filesystem.txt", "the mount, the free space and the device of the store", lambda: file_system(arguments.store))
    yield Part("kernel.txt", "the kernel's messages about the store's device", lambda: kernel_lines(arguments.store))


def why_text(control: Control) -> str:
    port = next((str(each) for each in addresses_of(control.arguments.address) if isinstance(each, Tcp)), SERVER)  # because it is not the proxy's
    findings = list(looked_at(control.arguments.store, None, port, control.seconds))
    return "".join(f"{each.about:8s} {each.text}\n" for each in findings) + start_problems(findings) + "\n"


def copy_of(path: str) -> bytes:
    descriptor = open_store(path)
    try:
        half = read_half(reader_of(descriptor))
        store_of(half)
        return half.file()
    except NoStore:
        return bytes_of(path)
    finally:
        os.close(descriptor)


def steps_text(path: str, is_before: bool) -> str:
    return "".join(f"{row}\n" for row in store_rows(read_store(path, is_before)))


def memories(control: Control) -> Iterator[tuple[str, str]]:
    """Returns the files in which health keeps its state: the timer's and this person's."""
    address = os.path.basename(control.folder)
    for whose, folder in (("timer", os.path.join(control.arguments.memory, address)), ("person", control.folder)):
        for name in ("health.json", "signals.json"):
            if os.path.exists(path := os.path.join(folder, name)):
                yield f"health/{whose}-{name}", path


def bytes_of(path: str) -> bytes:
    with open(path, "rb") as file:
        return file.read()


def versions(path: str) -> str:
    lines = [f"resetctl {__version__}", f"python {sys.version.split()[0]}", f"kernel {os.uname().release}",
             "package " + said("dpkg-query", "--show", "resetd").strip()]
    for process in lock_holders(os.stat(path)):
        if program := program_of(process):
            now = "the file has not changed since" if program.is_there else "the file at that path has changed since"
            lines.append(f"{program.checksum}  {program.path}, run by process {process}; {now}")
    for folder, _, names in sorted(os.walk(PACKAGE)):
        lines += [f"{checksum_of(os.path.join(folder, name))}  {os.path.relpath(os.path.join(folder, name), PACKAGE)}"
                  for name in sorted(names) if name.endswith(".py")]
    return "\n".join(lines) + "\n"


def process_text(path: str) -> str:
    text = ""
    for process in lock_holders(os.stat(path)):
        text += f"process {process}\n{bytes_of(f'/proc/{process}/limits').decode()}"
        text += "".join(f"thread {thread}: state {state}; the thread has gone to sleep {rests} times\n"
                        for thread, (state, rests) in sorted(threads_of(process).items()))
    return text or "no process on this machine has locked the store\n"


def found(part: Part) -> bytes:
    """Returns the content of a part or, if there is none, the reason."""
    try:
        content = part.find()
    except (Away, NotTaken, NoStore, Restless, OSError, ValueError) as fault:
        content = f"not found: {fault}\n"
    return content if isinstance(content, bytes) else content.encode()


def report(control: Control) -> int:
    """Writes the report into a new file that only its owner can read, and prints its contents."""
    out = control.arguments.out
    descriptor = os.open(out, os.O_WRONLY | os.O_CREAT | os.O_EXCL | os.O_CLOEXEC, 0o600)
    try:
        with open(descriptor, "wb") as file, tarfile.open(fileobj=file, mode="w:gz") as archive:
            contents = [(part, found(part)) for part in parts(control)]
            table = "".join(f"{part.name:28s} {len(content):9,} bytes  {part.about}\n" for part, content in contents)
            for name, content in (("README.txt", table.encode()), *((part.name, content) for part, content in contents)):
                put_into(archive, f"report/{name}", content)
    except BaseException:
        os.remove(out)
        raise
    print(f"{table}The report was written to {out}, which only its owner may read; it contains nothing else about this machine")
    return DONE


def put_into(archive: tarfile.TarFile, name: str, content: bytes) -> None:
    entry = tarfile.TarInfo(name)
    entry.size, entry.mtime, entry.mode = len(content), int(time.time()), 0o600
    archive.addfile(entry, io.BytesIO(content))


def add_arguments(parser: argparse.ArgumentParser) -> None:
    parser.add_argument("out", metavar="OUT.tar.gz", help="the file to write, which must not exist yet")
    parser.add_argument("--store", metavar="FILE", default="/var/lib/resetd/store", help="the store's file (default: /var/lib/resetd/store)")
    parser.add_argument("--unit", metavar="NAME", default="resetd", help="the server's systemd unit (default: resetd)")
    parser.add_argument("--memory", metavar="FOLDER", default="/var/lib/resetd-health",
                        help="the folder in which the health timer keeps its state (default: /var/lib/resetd-health)")


COMMANDS = (Command("report", "writes a file for diagnosing a fault, with the output of why, show and steps, the state that "
                    "health keeps, a copy of the store, the units' journal, the versions, the server's limits, the file system, "
                    "and the kernel's messages about the device", report, add_arguments,
                    is_read_only=True),)
