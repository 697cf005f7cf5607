"""Measures a server: the number of orders in a second, and the duration of a wave."""

from __future__ import annotations

import argparse
import statistics
import time
from collections.abc import Callable
from functools import partial

from ..answers import Away, NotTaken
from ..limits import GROUPS, NODES
from ..orders import Order, Orders
from ..view import View
from . import ranges
from .base import DONE, REFUSED, Command, Control, add_json, complain, print_json

ORDERS, TOGETHER, WAVES = 200, 1_000, 9
WAVE_SECONDS = 60.0  # after which an unfinished wave is reported


def bench(control: Control) -> int:
    """Repeatedly adds and removes a node, and asks for resets. Refuses to run if there are services, because all of them would
    begin again. An interrupted run may leave a node without links."""
    arguments = control.arguments
    view = control.show()
    if (served := [node.node for node in view.nodes if node.confirmed]) and not arguments.with_services:
        complain(f"these nodes have services: {', '.join(map(str, served))}. Each service would begin again at each of the "
                 f"{arguments.waves} resets; to run anyway, use --with-services")
        return REFUSED
    with control.orders() as book:
        control.settle(book)
        found = {**measured_orders(control, book, view), **measured_waves(control, book, view)}
    if arguments.json:
        print_json(found)
        return DONE
    for what, value in found.items():
        print(f"{what.replace('_', ' '):36s} {value:10,.2f}")
    return DONE


def measured_orders(control: Control, book: Orders, view: View) -> dict[str, float]:
    """Measures the order rate: orders sent one at a time, and orders sent together. Returns nothing if all nodes exist, because
    the orders add and remove a node that does not."""
    node = next((node for node in reversed(NODES) if view.node(node) is None), None)
    if node is None:
        complain(f"all {len(NODES)} nodes exist, so the order rate is not measured: that needs a node to add and remove")
        return {}
    pair: list[Order] = [{"op": "add", "node": node, "group": GROUPS[-1]}, {"op": "remove", "node": node}]
    each = [timed(partial(carried_out, control, book, [order])) for order in pair * (control.arguments.orders // 2)]
    together = pair * (TOGETHER // 2)
    seconds = timed(partial(carried_out, control, book, together))
    return {"orders_a_second": len(each) / sum(each), "milliseconds_an_order_p50": 1_000 * statistics.median(each),
            "milliseconds_an_order_p99": 1_000 * statistics.quantiles(each, n=100)[-1],
            "orders_a_second_together": len(together) / seconds}


def measured_waves(control: Control, book: Orders, view: View) -> dict[str, float]:
    """Measures the milliseconds from a reset to the view in which the whole largest group is ready again."""
    groups = [view.connected(node.node) for node in view.nodes]
    if not groups or not control.arguments.waves:
        return {}
    group = max(groups, key=len)
    waves = [timed(partial(wave, control, book, group[0].node)) for _ in range(control.arguments.waves)]
    return {"nodes_of_a_wave": len(group), "milliseconds_a_wave_p50": 1_000 * statistics.median(waves),
            "milliseconds_a_wave_most": 1_000 * max(waves)}


def wave(control: Control, book: Orders, node: int) -> None:
    """Orders one reset, and waits until all nodes that it reaches are ready in a new epoch. Raises Away after a minute."""
    before = {row.node: row.epoch for row in control.show().connected(node)}
    carried_out(control, book, [{"op": "reset", "node": node}])
    until = time.monotonic() + WAVE_SECONDS
    while not all(row.mode == "ready" and row.epoch > before.get(row.node, -1) for row in control.show().connected(node)):
        if time.monotonic() > until:
            raise Away(f"the reset of node {node} has not ended after {WAVE_SECONDS:g} s")


def carried_out(control: Control, book: Orders, orders: list[Order]) -> None:
    """Submits the orders and waits for all replies. Raises the first rejection."""
    for outcome in control.patient(lambda: book.order_all(orders)):
        if isinstance(outcome, NotTaken):
            raise outcome


def timed(call: Callable[[], object]) -> float:
    """Returns the seconds that a call takes."""
    began = time.perf_counter()
    call()
    return time.perf_counter() - began


def add_bench_arguments(parser: argparse.ArgumentParser) -> None:
    add_json(parser)
    parser.add_argument("--orders", type=ranges.some_orders, default=ORDERS, metavar="N",
                        help=f"how many orders to send one after another, at least 2 (default: {ORDERS})")
    parser.add_argument("--waves", type=ranges.amount, default=WAVES, metavar="N", help=f"how many resets to ask for (default: {WAVES})")
    parser.add_argument("--with-services", action="store_true", help="run even if nodes have services, which then begin again at each reset")


COMMANDS = (Command("bench", "measures the server's order rate and the duration of a wave; refuses to run if nodes have services", bench,
                    add_bench_arguments),)
