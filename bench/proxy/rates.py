"""What an order costs the proxy, and how many are committed in a second, beside the port itself, etcd and Redis."""

from __future__ import annotations

import asyncio
import statistics
import tempfile
from dataclasses import dataclass

import peers
import waves
from coordinator import Links, Server
from running import Answering, Driven, Proxy, Tools, audit_arguments

LOADS = {(1, 1): 6_000, (16, 1): 20_000, (64, 1): 40_000, (16, 16): 60_000, (64, 64): 100_000}  # connections, outstanding: orders
COUNTS = {1: 2_000, 16: 16_000, 64: 32_000}  # connections: orders of a round
MOST = 4_000  # connections


@dataclass(frozen=True)
class Rates:
    """Orders a second: the medians of some rounds; and the median microseconds until an answer."""

    proxy: int
    port: int
    peers: dict[str, int]
    proxy_median: float
    port_median: float


def cost(tools: Tools, load: tuple[int, int], part: int, is_audited: bool) -> Driven:
    """The processor time of the proxy for an order, by connections and orders outstanding on each. The server answers at once."""
    orders = max(LOADS[load] // part, load[0] * load[1])
    with tempfile.TemporaryDirectory() as folder, Answering(tools, folder) as server:
        arguments = audit_arguments(tools, folder) if is_audited else []
        with Proxy(tools, server.address, folder, arguments=arguments) as proxy:
            tools.drive("own", proxy.path(), 1, 1, 1, proxy.process.pid)  # the number of its client is found
            return tools.drive("numbered", proxy.path(), load[0], orders, load[1], proxy.process.pid)


def many(tools: Tools) -> Driven:
    """A thousand connections are idle, then each of four thousand orders once. What the idle ones take, and the rest of the others."""
    arguments = ["--connections", str(MOST + 10)]
    with tempfile.TemporaryDirectory() as folder, Answering(tools, folder) as server:
        with Proxy(tools, server.address, folder, arguments=arguments) as proxy:
            tools.drive("numbered", proxy.path(), 1, 100, 1, proxy.process.pid)
            return tools.drive("numbered", proxy.path(), MOST, MOST, 1, proxy.process.pid)


def through(tools: Tools, connections: int, orders: int) -> Driven:
    with Server(tools.server, tools.library, waves.NODES, []) as server:
        with Proxy(tools, server.address, server.folder, arguments=audit_arguments(tools, server.folder)) as proxy:
            tools.drive("own", proxy.path(), 1, 1, 1, proxy.process.pid)
            return tools.drive("own", proxy.path(), connections, orders, 1, proxy.process.pid)


def at_port(tools: Tools, outstanding: int, orders: int) -> Driven:
    with Server(tools.server, tools.library, waves.NODES, []) as server:
        return tools.drive("numbered", server.address.split(":")[1], 1, orders, outstanding, server.process.pid)


def of_peer(tools: Tools, peer: type[peers.Redis] | type[peers.Etcd], connections: int, orders: int) -> Driven:
    with tempfile.TemporaryDirectory() as folder, peer(folder) as running:
        return tools.drive(running.kind, running.address, connections, orders, 1, running.process.pid)


def committed(tools: Tools, connections: int, rounds: int, part: int) -> Rates:
    """Each round measures all of them, one after the other."""
    orders = max(COUNTS[connections] // part, 2 * connections)
    proxied, raw, others = list[Driven](), list[Driven](), {peer: list[Driven]() for peer in peers.installed()}
    for _ in range(rounds):
        proxied.append(through(tools, connections, orders))
        raw.append(at_port(tools, connections, orders))
        for peer, each in others.items():
            each.append(of_peer(tools, peer, connections, orders))

    def rate(all_driven: list[Driven]) -> int:
        return int(statistics.median(driven.rate for driven in all_driven))
    return Rates(rate(proxied), rate(raw), {peer.kind: rate(each) for peer, each in others.items()},
                 statistics.median(driven.median for driven in proxied), statistics.median(driven.median for driven in raw))


def wave(tools: Tools, links: Links, micros: int, count: int) -> tuple[float, float]:
    """Milliseconds and syncs from a reset to the last of 64 confirms, each over a connection of its own."""
    with Server(tools.server, tools.library, waves.NODES, links, micros) as server:
        arguments = ["--signals", server.signals, *audit_arguments(tools, server.folder)]
        with Proxy(tools, server.address, server.folder, arguments=arguments) as proxy:
            return asyncio.run(waves.measure(waves.Own(server, links, proxy.path()), count))


def wave_of_one(tools: Tools, links: Links, micros: int, count: int) -> tuple[float, float]:
    """The same over one connection to the port, which confirms for all."""
    with Server(tools.server, tools.library, waves.NODES, links, micros) as server:
        return asyncio.run(waves.measure(waves.One(server, links), count))
