"""The program over a new store, whose syncs are counted and may wait, and a proxy before it."""

import asyncio
import contextlib
import json
import os
import pathlib
import shutil
import struct
import subprocess
import sys
import tempfile
import time
from collections.abc import Awaitable, Callable, Sequence
from typing import Any, Self

ROOT = pathlib.Path(__file__).resolve().parent.parent.parent
sys.path[:0] = [str(ROOT / "client"), str(ROOT / "tools")]
from resetd_client.inotify import Inotify  # noqa: E402
from served.proxy import Proxy  # noqa: E402

Json = dict[str, Any]  # a line that was read
Links = Sequence[tuple[int, int]]
Connection = tuple[asyncio.StreamReader, asyncio.StreamWriter]
Opening = Callable[[], Awaitable[Connection]]  # what opens a connection
MOST_BYTES = 1 << 20  # of an answer


def counting_library(folder: str) -> str:
    """The library that is loaded ahead of the C library, so that syncs are counted and may wait."""
    library, source = f"{folder}/syncs.so", (ROOT / "bench" / "serve" / "syncs.c.txt").read_text(encoding="utf-8")
    subprocess.run([os.environ.get("CC", "cc"), "-O1", "-shared", "-fPIC", "-x", "c", "-", "-o", library], input=source, text=True, check=True)
    return library


class Counts:
    """The file in which the counting library counts the syncs of a process."""

    def __init__(self, path: str) -> None:
        self.path = path
        pathlib.Path(path).write_bytes(bytes(24))

    def read(self) -> tuple[int, int, float]:
        """All syncs, those of the part that is counted apart, and the milliseconds of the longest."""
        of_all, of_part, longest = struct.unpack("QQQ", pathlib.Path(self.path).read_bytes())
        return of_all, of_part, longest / 1e6

    def forget_longest(self) -> None:
        with open(self.path, "r+b") as file:
            file.seek(16)
            file.write(bytes(8))


class Server:
    """`resetd serve`, and a proxy before it where one is started."""

    def __init__(self, program: str, library: str, nodes: int, links: Links, micros: int = 0) -> None:
        self.folder = tempfile.mkdtemp(prefix="resetd-bench-")
        os.mkdir(f"{self.folder}/log")
        self.signals = f"{self.folder}/log/signals"
        self.proxy: Proxy | None = None
        text = "".join([*(f"[[node]]\nid = {n}\ngroup = 1\n" for n in range(1, nodes + 1)), *(f"[[link]]\na = {a}\nb = {b}\n" for a, b in links)])
        pathlib.Path(f"{self.folder}/topology").write_text(text, encoding="ascii")
        subprocess.run([program, "init", f"{self.folder}/store", f"{self.folder}/topology"], check=True, capture_output=True)
        self.counts = Counts(f"{self.folder}/count")
        with open(self.signals, "wb") as signals:
            self.process = subprocess.Popen(
                [program, "serve", f"{self.folder}/store", "127.0.0.1:0"], stdin=subprocess.DEVNULL, stdout=signals,
                env={**os.environ, "LD_PRELOAD": library, "SYNC_COUNT": self.counts.path, "SYNC_WAITS": str(micros)})
        while not (lines := pathlib.Path(self.signals).read_text(encoding="ascii").splitlines()):
            time.sleep(0.01)
        self.address = lines[0].split()[1]

    def start_proxy(self, program: str) -> Proxy:
        """Starts a proxy before it, which ends with it."""
        self.proxy = Proxy(self.folder, self.address, "--signals", self.signals, program=program)
        return self.proxy

    def syncs(self) -> int:
        return self.counts.read()[0]

    def __enter__(self) -> Self:
        return self

    def __exit__(self, *_: object) -> None:
        if self.proxy:
            self.proxy.kill()
        self.process.kill()
        self.process.wait()
        shutil.rmtree(self.folder)

    async def port(self) -> Connection:
        host, port = self.address.split(":")
        return await asyncio.open_connection(host, int(port), limit=MOST_BYTES)


async def at_socket(path: str) -> Connection:
    """A connection to a proxy."""
    for _ in range(1_000):
        with contextlib.suppress(OSError):
            return await asyncio.open_unix_connection(path, limit=MOST_BYTES)
        await asyncio.sleep(0.01)
    raise SystemExit(f"{path} takes no connection")


async def ask(connection: Connection, *requests: Json) -> list[Json]:
    reader, writer = connection
    writer.write(b"".join(json.dumps(each).encode() + b"\n" for each in requests))
    return [json.loads(await reader.readline()) for _ in requests]


async def once(open_connection: Opening, *requests: Json) -> list[Json]:
    """The answers over a new connection, tried again until they come."""
    while True:
        try:
            connection = await open_connection()
            answers = await ask(connection, *requests)
            connection[1].close()
            return answers
        except (OSError, ValueError):
            await asyncio.sleep(0.01)


class Signals:
    """Wakes who waits for a node's signal, within an event loop."""

    def __init__(self, path: str) -> None:
        self.file, self.rest, self.have, self.changed = open(path, "rb"), b"", dict[int, int](), asyncio.Event()
        self.inotify = Inotify()
        self.inotify.watch(os.path.dirname(path))
        asyncio.get_running_loop().add_reader(self.inotify.fileno(), self.read)
        self.read()

    def read(self) -> None:
        self.inotify.take()
        *lines, self.rest = (self.rest + self.file.read()).split(b"\n")  # the last line may be torn
        for line in lines:
            fields = line.split()
            if fields[0] == b"signal":
                self.have[int(fields[1])] = int(fields[2])
        self.changed.set()
        self.changed = asyncio.Event()

    async def wait(self, node: int, epoch: int) -> None:
        while self.have.get(node, 0) < epoch:
            await self.changed.wait()

    def close(self) -> None:
        asyncio.get_running_loop().remove_reader(self.inotify.fileno())
        self.file.close()
