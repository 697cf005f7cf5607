"""Makes stores and topologies as bytes, by docs/FORMATS.md."""

from collections.abc import Callable, Iterable, Sequence

HALF = 32_768
MOST_STEPS = 1 << 40
HEADER = 17
READY, ABORT, CONVERGE = 0, 1, 2
# The number of cleared messages of a lane, the number of taken ones, and the messages in transit.
Lane = tuple[int, int, Sequence[bytes]]
NO_LANE: Lane = (0, 0, ())
# Messages of a queue, in version 1 and as the messages of version 2 that carry no distance.
ACK, IS_READY = b"\1", b"\2"


def wide(number: int) -> bytes:
    return number.to_bytes(8, "big")


def topology(nodes: Iterable[tuple[int, int]], links: Iterable[tuple[int, int]] = (), half: int | None = None) -> str:
    """Returns the text of a topology with nodes as (id, group) and links as (a, b)."""
    return "".join([f"half = {half}\n" if half else "",
                    *(f"[[node]]\nid = {node}\ngroup = {group}\n" for node, group in nodes),
                    *(f"[[link]]\na = {a}\nb = {b}\n" for a, b in links)])


def ring(nodes: int, half: int = HALF) -> str:
    """Returns the text of a ring of this many nodes of one group."""
    return topology([(node, 1) for node in range(1, nodes + 1)],
                    [(node, node % nodes + 1) for node in range(1, nodes + 1)], half)


def node(number: int, mode: int = READY, parent: int = 0, awaits: Iterable[int] = (), epoch: int = 0,
         confirmed: int = 0, distance: int = 0, version: int = 1) -> bytes:
    """Returns the row of a node of group 1."""
    awaited = sum(1 << other - 1 for other in awaits)
    row = bytes([number, 1, mode, parent]) + wide(awaited) + wide(epoch) + wide(confirmed)
    return row + (wide(distance) if version == 2 else b"")


def abort(distance: int = 0, version: int = 1) -> bytes:
    return b"\0" + (wide(distance) if version == 2 else b"")


def lane(base: int, got: int, queue: Sequence[bytes]) -> bytes:
    return wide(base) + wide(got) + bytes([len(queue)]) + b"".join(queue)


def link(a: int, b: int, incarnation: int, there: Lane = NO_LANE, back: Lane = NO_LANE) -> bytes:
    """Returns the row of a link: its lane from a to b, and the lane back, each as (base, got, queue)."""
    return bytes([a, b]) + wide(incarnation) + lane(*there) + lane(*back)


def client(number: int, last: int, command: bytes, step: int, kind: int = 0) -> bytes:
    """Returns the row of a client: the number of its last order, the bytes of its command, and the step and kind of its reply."""
    return bytes([number]) + wide(last) + command + wide(step) + bytes([kind])


def world(count: int, nodes: Sequence[bytes], links: Sequence[bytes] = (), clients: Sequence[bytes] = ()) -> bytes:
    """Returns the bytes of a world with this many steps."""
    return wide(count) + b"".join(bytes([len(rows)]) + b"".join(rows) for rows in (nodes, links, clients))


EMPTY_WORLD = world(0, [])


def order(number: int, *command: int, client: int = 1) -> bytes:
    """Returns the bytes of a client's order, up to its command."""
    return b"\0" + bytes([client]) + wide(number) + bytes(command)


def add(node: int, client: int = 1, number: int = 1) -> bytes:
    """Returns the bytes of a client's order to add a node to group 1."""
    return order(number, 0, node, 1, client=client)


def take(sender: int, taker: int, incarnation: int, number: int, message: bytes) -> bytes:
    """Returns the bytes of a step that takes a data packet."""
    return b"\1" + bytes([sender, taker]) + wide(incarnation) + wide(number) + message


def clear(sender: int, taker: int, incarnation: int, number: int) -> bytes:
    """Returns the bytes of a step in which a receipt clears a message."""
    return b"\2" + bytes([sender, taker]) + wide(incarnation) + wide(number)


def batch(first: int, *steps: bytes) -> bytes:
    """Returns the body of a batch."""
    return wide(first) + len(steps).to_bytes(2, "big") + b"".join(steps)


def at_the_limits(version: int, nodes: Sequence[bytes], queue: Callable[[int, int], Sequence[bytes]]) -> bytes:
    """Returns a world with as many steps, nodes, links and clients as possible: a ring in which each node is also linked to the
    next but one. On each lane one more message was taken than cleared."""
    links = []
    for a in range(1, 65):
        for b in range(a, 65):
            if b - a in (1, 2, 62, 63):
                number = 64 * a + b
                lanes = [(number, number + 1, queue(number, sender)) for sender in (a, b)]
                links.append(link(a, b, number, *lanes))
    clients = [client(c, 1_024 + c, b"\5" + bytes([c]) + wide(256), 2_048 + c) for c in range(1, 17)]
    return world(MOST_STEPS, nodes, links, clients)


def longest_world() -> bytes:
    """Returns the longest legal world: all nodes are in a reset, and each lane has an Abort that was taken, a Ready and an
    Abort."""
    rows = []
    for number in range(1, 65):
        awaited = [(number - 1 + way) % 64 + 1 for way in (1, 2, 62, 63)]
        rows.append(node(number, ABORT, 0, awaited, 512 + number, 256 + number, number, 2))
    return at_the_limits(2, rows, lambda number, sender: [abort(number, 2), IS_READY, abort(sender + 1, 2)])


def store(snapshot: bytes = EMPTY_WORLD, version: int = 1, bodies: Iterable[bytes] = (), half: int = HALF) -> bytes:
    """Returns a store whose first half has a snapshot and the bodies of batches."""
    text = bytes([version]) + len(snapshot).to_bytes(4, "big") + snapshot
    for body in bodies:
        text += b"\1" + len(body).to_bytes(4, "big") + body
    return b"\0ACRRESET" + wide(half) + text + b"\0"


def version_of(path: str) -> int:
    """Returns the version of the half that a store selects."""
    with open(path, "rb") as file:
        selector, half = file.read(1)[0], int.from_bytes(file.read(16)[8:], "big")
        file.seek(HEADER + selector % 2 * half)
        return file.read(1)[0]
