"""Records the file calls and the sent lines of a program with strace, and computes the files that a power cut between two of
them may leave."""

import ast
import os
import re
from collections.abc import Iterator
from typing import NamedTuple

CALLS = "openat,pwrite64,ftruncate,fsync,fdatasync,rename,unlink,sendto"
LINE = re.compile(r"^(\w+)\((.*)\) += \d+(?:<.*>)?$")
DESCRIPTOR = re.compile(r"\d+<(.*?)>")
TEXT = re.compile(r'"((?:[^"\\]|\\.)*)"')


def command(trace: str) -> list[str]:
    """Returns the start of a command, before the program. strace writes its calls to the file `trace`."""
    return ["strace", "-y", "-s", "9999", "-o", trace, "-e", f"trace={CALLS}"]


class Call(NamedTuple):
    """A call: its name, the name of the file (`.` for the folder), the bytes or the second name, and the offset."""

    name: str
    file: str
    text: bytes = b""
    at: int = 0


def calls(trace: str, folder: str) -> Iterator[Call]:
    """Returns the calls in a trace that concern the files of a folder, and the lines that were sent."""
    with open(trace, encoding="ascii") as file:
        for line in file:
            if found := LINE.match(line.rstrip("\n")):
                yield from call_of(found[1], found[2], os.path.realpath(folder))


def call_of(name: str, arguments: str, folder: str) -> Iterator[Call]:
    texts = [ast.literal_eval(f'b"{text}"') for text in TEXT.findall(arguments)]
    if name in ("rename", "unlink"):
        yield Call(name, texts[0].decode(), texts[-1])
    elif name == "sendto":
        yield Call(name, "", texts[0])
    elif name == "openat":
        if "O_CREAT" in arguments:
            yield Call("create", texts[0].decode())
    elif (opened := DESCRIPTOR.match(arguments)) and (opened[1] == folder or os.path.dirname(opened[1]) == folder):
        at = int(arguments.rpartition(", ")[2]) if name in ("pwrite64", "ftruncate") else 0
        yield Call(name, "." if opened[1] == folder else os.path.basename(opened[1]), texts[0] if texts else b"", at)


class File:
    """A file: its bytes as the program sees them, and its bytes at the last sync."""

    def __init__(self) -> None:
        self.text = self.synced = b""


class Disk:
    """A folder. A power cut keeps synced bytes, and the names at the last sync of the folder; of later changes it may keep any."""

    def __init__(self) -> None:
        self._files, self._synced = dict[str, File](), dict[str, File]()
        self._later = dict[str, set[bytes]]()  # for each name, the texts that it has had since it was synced

    def take(self, call: Call) -> None:
        """Carries out a call."""
        files = self._files
        if call.name == "create":
            files.setdefault(call.file, File())
        elif call.name == "pwrite64":
            files[call.file].text = files[call.file].text[:call.at] + call.text
            self._note(call.file)
        elif call.name == "ftruncate":
            files[call.file].text = files[call.file].text[:call.at]
        elif call.name == "rename":
            files[call.text.decode()] = files.pop(call.file)
            self._note(call.text.decode())
        elif call.name == "unlink":
            files.pop(call.file, None)
        elif call.name in ("fsync", "fdatasync") and call.file == ".":
            self._synced = dict(files)
            self._later = {name: texts for name, texts in self._later.items() if name in files and files[name].text != files[name].synced}
        elif call.name in ("fsync", "fdatasync"):
            files[call.file].synced = files[call.file].text

    def _note(self, name: str) -> None:
        self._later.setdefault(name, set()).add(self._files[name].text)

    def text(self, name: str) -> bytes:
        """Returns the bytes of a file as the program sees them."""
        return self._files[name].text

    def synced(self, name: str) -> bytes:
        """Returns the bytes of a file after a power cut that keeps no unsynced change."""
        return self._synced[name].synced if name in self._synced else b""

    def possible(self, name: str) -> set[bytes]:
        """Returns all texts that a power cut may leave of a file."""
        return {self.synced(name)} | self._later.get(name, set())
