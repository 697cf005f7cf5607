"""Commands that give orders. Each order is carried out once."""

from __future__ import annotations

import argparse
from collections.abc import Callable

from ..orders import MOST_TRIED
from ..orders import Order as Line
from ..topology import BadTopology, Network, Order, plan, read_topology
from ..view import View
from . import ranges
from .base import DONE, REFUSED, Command, Control, add_json, complain, print_json, order_text, reply_text

NUMBERS = {"node": "the node, 1 to 64", "group": "the node's group, 1 to 16", "a": "the node at one end of the link",
           "b": "the node at the other end", "epoch": "the node's epoch, as resetctl show prints it"}


def order(control: Control) -> int:
    """Carries out one order, and prints its reply."""
    arguments = control.arguments
    members = {name: getattr(arguments, name) for name in NUMBERS if hasattr(arguments, name)}
    with control.orders() as book:
        control.settle(book)
        control.report(reply_text(control.carry_out(book, arguments.command, **members)))
    if arguments.command == "remove":
        say_what_becomes_of_files(control, [arguments.node])
    return DONE


def say_what_becomes_of_files(control: Control, nodes: list[int]) -> None:
    """Prints what the services of removed nodes should do with their files."""
    if nodes and not control.arguments.quiet:
        complain(f"removed nodes: {', '.join(map(str, nodes))}. If a node is removed for good, remove its service's files too. If it will "
                 "be added again, its service may keep its files, and will ask for one reset")


def resend(control: Control) -> int:
    control.report(f"resent {control.patient(control.port.resend)}")
    return DONE


def close(control: Control) -> int:
    """Shuts the server down, even if it answers Stopped to every other request."""
    control.port.close()
    control.report("closed")
    return DONE


def count(control: Control) -> int:
    """Finds the number of the client's last order, and stores it in the client's folder."""
    arguments = control.arguments
    with control.orders() as book:
        for each in book.unanswered:
            complain(f"giving up this order, which had no answer and may have been carried out: {order_text(each)}")
        print(f"client {arguments.client}: {control.patient(lambda: book.recover(arguments.most))}")
    return DONE


def topology_of(control: Control) -> Network:
    """Returns the network of the topology file. Raises BadTopology."""
    try:
        with open(control.arguments.topology, "rb") as file:
            return read_topology(file.read())
    except OSError as fault:
        raise BadTopology("Read", fault.strerror or str(fault)) from fault


def wanted(control: Control, view: View) -> list[Order]:
    """Returns the orders that change the network into that of the topology file. Raises BadTopology."""
    return plan(Network.of(view), topology_of(control))


def diff(control: Control) -> int:
    """Prints the orders that `apply` would make."""
    orders = wanted(control, control.show())
    if control.arguments.json:
        print_json([{"op": each.op, "members": each.members, "note": each.note} for each in orders])
        return REFUSED if orders else DONE
    for each in orders:
        print(each)
    return REFUSED if orders else DONE


def check_topology(control: Control) -> int:
    """Prints the size of the network in a topology file, without a store or a server."""
    network = topology_of(control)
    groups = len(set(network.groups.values()))
    print(f"legal: {len(network.groups)} nodes in {groups} groups, {len(network.links)} links")
    return DONE


def apply(control: Control) -> int:
    """Carries out the orders of `diff`, each once; all except the first are sent together. After an interruption, the same
    command continues."""
    with control.orders() as book:
        control.settle(book)
        view = control.show()
        orders = wanted(control, view)
        lines: list[Line] = [{"op": each.op, **each.members} for each in orders]
        for each, reply in zip(orders, control.carry_out_all(book, lines, view.accepted)):
            print(f"{reply_text(reply)}: {each}", flush=True)
    say_what_becomes_of_files(control, [each.members["node"] for each in orders if each.op == "remove"])
    print(f"carried out {len(orders)} orders; the network now matches {control.arguments.topology}")
    return DONE


def numbers(*names: str) -> Callable[[argparse.ArgumentParser], None]:
    def add_arguments(parser: argparse.ArgumentParser) -> None:
        for name in names:
            parser.add_argument(name, type=ranges.of(name), metavar=name.upper(), help=NUMBERS[name])
    return add_arguments


def add_count_arguments(parser: argparse.ArgumentParser) -> None:
    parser.add_argument("--most", type=ranges.count, default=MOST_TRIED, help=f"the maximum number of order numbers to try (default: {MOST_TRIED})")


def add_diff_arguments(parser: argparse.ArgumentParser) -> None:
    add_json(parser)
    add_topology_arguments(parser)


def add_topology_arguments(parser: argparse.ArgumentParser) -> None:
    parser.add_argument("topology", metavar="TOPOLOGY", help="the topology file, in the format that docs/FORMATS.md describes")


COMMANDS = (
    Command("reset", "asks for a reset of a node, and so of all nodes that are linked with it directly or through others", order, numbers("node")),
    Command("confirm", "confirms that a node's service has begun an epoch", order, numbers("node", "epoch")),
    Command("add", "adds a node", order, numbers("node", "group")),
    Command("remove", "removes a node that has no links", order, numbers("node")),
    Command("join", "links two nodes", order, numbers("a", "b")),
    Command("drop", "removes the link between two nodes", order, numbers("a", "b")),
    Command("resend", "sends the packets in transit again, which helps a wave that makes no progress", resend),
    Command("close", "shuts the server down", close),
    Command("count", "recovers the number of this client's last order, if that number was lost", count, add_count_arguments),
    Command("diff", "prints the orders that would make the network match a topology file; exits with 1 if any are needed",
            diff, add_diff_arguments, is_read_only=True),
    Command("check-topology", "checks a topology file like `resetd init`, but makes no store; exits with 2 if the file is invalid",
            check_topology, add_topology_arguments, is_read_only=True),
    Command("apply", "sends the orders that make the network match a topology file; each is carried out once",
            apply, add_topology_arguments),
)
