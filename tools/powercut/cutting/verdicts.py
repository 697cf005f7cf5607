"""The verdict of the machine and the program on an image: whether it mounts, and what its store is."""

import hashlib
import os
import re
import subprocess
import tempfile
from dataclasses import dataclass, field
from typing import NamedTuple

from .file_systems import DEVICE
from .initramfs import program_path
from .machine import Gone, Machine
from .recording import GROWTH, Run
from .stores import Content, read_store

NODE_LINE = re.compile(r"^node (\d+) \d+ \w+ \d+ (\d+) \d+$", re.M)


@dataclass
class Verdict:
    """`kind` is legal, nomount, nofile, unreadable, empty, refused, noshow, noumount or hung. `said` is the reason, if it is
    not legal. `count` is the number of steps, or the number of bytes of a file that is not a store; such a file has no `content`."""

    kind: str
    said: str = ""
    count: int = 0
    epochs: dict[int, int] = field(default_factory=dict)
    content: Content | None = None


class Said(NamedTuple):
    """The output of a command about a store."""

    name: str
    status: int
    text: str


def read_said(text: str) -> list[Said]:
    """Parses the agent's output: each command's line `NAME STATUS BYTES`, and those bytes."""
    found = list[Said]()
    while head := re.match(r"(check|show) (\d+) (\d+)\n", text):
        size = int(head[3])
        found.append(Said(head[1], int(head[2]), text[head.end():head.end() + size]))
        text = text[head.end() + size:]
    return found


def verdict_of(said: list[Said], data: bytes) -> Verdict:
    """Returns the verdict that follows from the output of `check` and `show` for a store's bytes."""
    if not said or said[0].status:
        return Verdict("refused" if data else "empty", said[0].text if said else "nothing was said")
    legal = re.match(r"legal (\d+)\n", said[0].text)
    if not legal or len(said) < 2 or said[1].status:
        return Verdict("noshow", said[-1].text)
    epochs = {int(node): int(epoch) for node, epoch in NODE_LINE.findall(said[1].text)}
    return Verdict("legal", "", int(legal[1]), epochs, read_store(data))


class Looker:
    """The host's program, which checks a store's bytes, once for equal bytes."""

    def __init__(self, program: str, mutant: int | None = None) -> None:
        self._program, self._known = program, dict[bytes, list[Said]]()
        self._folder = tempfile.TemporaryDirectory(prefix="powercut-")
        self._environment = os.environ if mutant is None else {**os.environ, "MUTANT": "0"}

    def look(self, data: bytes) -> list[Said]:
        key, path = hashlib.sha256(data).digest(), f"{self._folder.name}/store"
        if key not in self._known:
            with open(path, "wb") as file:
                file.write(data)
            said = self._known[key] = []
            for name in ("check", "show"):
                done = subprocess.run([self._program, name, path], capture_output=True, timeout=100, env=self._environment, check=False)
                said.append(Said(name, done.returncode, (done.stdout + done.stderr).decode(errors="replace")))
                if done.returncode:
                    break
        return self._known[key]


class Disagreement(Exception):
    """The program's output differs between the machine and the host."""


def judge_image(machine: Machine, run: Run, looker: Looker, is_inside: bool) -> Verdict:
    """Mounts the disk as it is now, and checks its store with the host's program and, if `is_inside`, also with the machine's
    own. Raises Disagreement."""
    program = program_path(run.program) if is_inside and run.scenario != GROWTH else ""
    status, printed, data = machine.ask("judge", DEVICE, run.kind, run.options, program, run.store)
    text = printed.decode(errors="replace")
    if status:
        return Verdict({1: "nomount", 2: "noumount"}.get(status, "hung"), text)
    if text.startswith(("nofile", "unreadable")):
        return Verdict(text.split()[0], text)
    if run.scenario == GROWTH:
        return Verdict("legal", count=len(data))
    said = looker.look(data)
    if is_inside and read_said(text) != said:
        raise Disagreement(f"in the machine {text[:300]}, and here {said}")
    return verdict_of(said, data)


def hung(gone: Gone) -> Verdict:
    """Returns the verdict on an image with which the machine does not answer."""
    return Verdict("hung", str(gone)[-600:])
