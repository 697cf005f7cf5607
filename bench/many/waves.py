"""From the order of a reset to the last of 64 confirms, over two ways: how long, and how many syncs."""

from __future__ import annotations

import asyncio
import statistics
import time
from collections.abc import Coroutine
from typing import Any

from coordinator import Connection, Json, Links, Server, Signals, ask, at_socket, once

NODES = 64
PAIRS = [(n, (n + d - 1) % NODES + 1) for n in range(1, NODES + 1) for d in (1, 2)]
CHORDS = sorted({(min(pair), max(pair)) for pair in PAIRS})
TREE = [((n + 13) // 15, n) for n in range(2, NODES + 1)]
SHOW: Json = {"op": "show"}
Confirms = list[Coroutine[Any, Any, list[Json]]]


class Group:
    """Members that confirm as soon as they have their signals."""

    def __init__(self, server: Server, links: Links) -> None:
        self.server = server
        self.signals: Signals
        self.resets = NODES + len(links)  # orders of client 16 so far, which asks for the resets

    async def open(self) -> Connection:
        """Opens a connection over which this group orders."""
        return await self.server.port()

    async def begin(self) -> None:
        """Follows the file of signals, and opens the connections that last, in this event loop."""
        self.signals = Signals(self.server.signals)

    def confirms(self, epoch: int) -> Confirms:
        raise NotImplementedError

    async def reset(self, epoch: int) -> None:
        """A reset, and all that it brings."""
        self.resets += 1
        await once(self.open, {"op": "reset", "client": 16, "number": self.resets, "node": 1})
        for answers in await asyncio.gather(*self.confirms(epoch)):
            if "refused" in answers[-1] or "fault" in answers[-1]:
                raise SystemExit(f"a confirm: {answers[-1]}")


class Own(Group):
    """Each member confirms over a connection of its own, through a proxy."""

    def __init__(self, server: Server, links: Links, path: str) -> None:
        super().__init__(server, links)
        self.path, self.connections = path, list[Connection]()

    async def open(self) -> Connection:
        return await at_socket(self.path)

    async def begin(self) -> None:
        await super().begin()
        self.connections = [await self.open() for _ in range(NODES)]

    def confirms(self, epoch: int) -> Confirms:
        return [self.confirm(node, connection, epoch) for node, connection in enumerate(self.connections, 1)]

    async def confirm(self, node: int, connection: Connection, epoch: int) -> list[Json]:
        await self.signals.wait(node, epoch)
        return await ask(connection, SHOW, {"op": "confirm", "node": node, "epoch": epoch})


class One(Group):
    """One connection to the port confirms for all."""

    def confirms(self, epoch: int) -> Confirms:
        return [self.confirm_all(epoch)]

    async def confirm_all(self, epoch: int) -> list[Json]:
        for node in range(1, NODES + 1):
            await self.signals.wait(node, epoch)
        before = (epoch - 1) * NODES
        return await once(self.open, SHOW, *({"op": "confirm", "client": 1, "number": before + node, "node": node, "epoch": epoch}
                                             for node in range(1, NODES + 1)))


async def measure(group: Group, count: int) -> tuple[float, float]:
    """Milliseconds and syncs, the medians of this many resets."""
    await group.begin()
    took, syncs = list[float](), list[int]()
    for epoch in range(1, count + 1):
        before, began = group.server.syncs(), time.monotonic()
        await group.reset(epoch)
        took.append(1000 * (time.monotonic() - began))
        await asyncio.sleep(0.05)  # the last acknowledgements
        syncs.append(group.server.syncs() - before)
    group.signals.close()
    return statistics.median(took), statistics.median(syncs)
