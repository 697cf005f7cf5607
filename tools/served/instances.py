"""A coordinator whose instances are short: they change during resets and connections, and it is killed there.

A kill is aimed at a change of instance: it comes once the server is seen with fewer threads than an instance has, so while the
threads of one end or those of the next one start, or between the two, when the engine is taken apart.
"""

import io
import json
import os
import socket
import threading
from typing import BinaryIO

from . import kills
from .clients import Client, Json, Lost
from .ring import Ring
from .server import TIMEOUT, Away, Server

WORKERS = 8
# The threads of a server during an instance: the main one, the printer, the flusher and the workers. The flusher and the workers end with it.
IN_A_INSTANCE, OVER_ALL = 3 + WORKERS, 2
MOST_LOOKS = 10_000_000
UNKILLED, STAYED, AT_ONCE = 20, 80, 8  # resets, and orders of a client that stays connected, some of which are sent at once


class Watched(Server):
    """A server whose instances are counted by the number of the flusher's thread, as seen after each answer. The count is a
    lower bound: some instances end unseen."""

    instances = 0
    flusher: int | None = None

    def ask(self, request: Json) -> Json:
        reply = super().ask(request)
        self.note_instance()
        return reply

    def threads(self) -> list[int]:
        """Returns the numbers of its threads, in the order in which they were started."""
        try:
            return sorted(map(int, os.listdir(f"/proc/{self.process.pid}/task")))
        except FileNotFoundError:
            return []

    def note_instance(self) -> None:
        threads = self.threads()
        if len(threads) == IN_A_INSTANCE and threads[OVER_ALL] != self.flusher:
            self.flusher = threads[OVER_ALL]
            self.instances += 1


class Killer(threading.Thread):
    """Kills the server during a change of instance: once it has at most this many threads, fewer than in an instance. `met` is
    how many it had then."""

    def __init__(self, server: Watched, most: int) -> None:
        super().__init__()
        self.server, self.most, self.is_stopped = server, most, False
        self.met: int | None = None
        self.start()

    def run(self) -> None:
        for _ in range(MOST_LOOKS):
            count = len(self.server.threads())
            if count < OVER_ALL or self.is_stopped:
                return
            if count <= self.most:
                self.server.process.kill()
                self.met = count
                return

    def end(self) -> int | None:
        """Stops watching. Returns the number of threads that the server had when it was killed, if it was."""
        self.is_stopped = True
        self.join()
        return self.met


class Staying:
    """A connection that its client never closes: the server does, after a reply, once its instance is too old. Lines without a
    reply are then sent again over the next connection."""

    def __init__(self, server: Watched) -> None:
        self.server, self.connections = server, 0
        self.socket: socket.socket | None = None
        self.replies: BinaryIO = io.BytesIO()

    def ask(self, request: Json) -> Json:
        return self.ask_all([request])[0]

    def ask_all(self, requests: list[Json]) -> list[Json]:
        """Sends all requests before it reads the first reply. Returns the replies."""
        lines, replies = [json.dumps(request).encode() + b"\n" for request in requests], list[Json]()
        for _ in range(10 + len(lines)):
            try:
                self.send(b"".join(lines[len(replies):]))
                while len(replies) < len(lines) and (line := self.replies.readline()).endswith(b"\n"):
                    replies.append(json.loads(line))
            except OSError:
                pass
            self.server.note_instance()
            if len(replies) == len(lines):
                return replies
            self.close()
            if self.server.process.poll() is not None:
                break
        raise Away("the server no longer answers")

    def send(self, text: bytes) -> None:
        if self.socket is None:
            host, port = self.server.address.rsplit(":", 1)
            self.socket = socket.create_connection((host, int(port)), timeout=TIMEOUT)
            self.replies = self.socket.makefile("rb")
            self.connections += 1
        self.socket.sendall(text)

    def close(self) -> None:
        if self.socket:
            self.replies.close()
            self.socket.close()
        self.socket = None


def watch(ring: Ring) -> Watched:
    assert isinstance(ring.server, Watched)
    return ring.server


def run(ring: Ring, rounds: int) -> None:
    kills.first_reset(ring)
    live_unkilled(ring)
    met: dict[int | None, int] = {}
    for done in range(1, rounds + 1):
        count = one_round(ring)
        met[count] = met.get(count, 0) + 1
        if done % 20 == 0 or done == rounds:
            report(ring, done, met)
    kills.finish(ring)
    if met.get(None, 0) == rounds:
        raise Lost("no kill came during a change of instance")


def live_unkilled(ring: Ring) -> None:
    """Makes resets over many instances. Nothing may be lost between them: each signal is printed, and each client's last order
    gets the same answer as before."""
    server = watch(ring)
    kills.start_again(ring)
    for _ in range(UNKILLED):
        ring.ask_resets(ring.choice.randint(1, 3))
        ring.follow()
        ring.repeat_orders(ring.counts[1])
    connections = stay(ring, STAYED, 1)
    ring.follow()
    at_once = stay(ring, STAYED, AT_ONCE)
    ring.follow()
    ring.repeat_orders(ring.counts[1])
    print(f"without a kill: at least {server.instances} instances in {UNKILLED} rounds of resets and {2 * STAYED} orders of clients "
          f"that stay, over {connections} connections one after the other and {at_once} where {AT_ONCE} are sent at "
          f"once; each signal was printed, each once", flush=True)
    if server.instances < UNKILLED or min(connections, at_once) < 2:
        raise Lost("hardly any instance has ended: this is not a program with short instances")
    kills.finish(ring)


def stay(ring: Ring, orders: int, at_once: int) -> int:
    """Makes resets by one client that stays connected. Returns the number of connections that it needed."""
    staying, client = Staying(watch(ring)), ring.choice.choice(ring.clients)
    try:
        for _ in range(orders // at_once):
            if at_once == 1:
                client.order(staying, "reset", node=ring.choice.randint(1, 64))
                ring.note(client)
            else:
                order_at_once(ring, staying, client, at_once)
    finally:
        staying.close()
    return staying.connections


def order_at_once(ring: Ring, staying: Staying, client: Client, count: int) -> None:
    first = client.answered["number"] + 1 if client.answered else 1
    sent = [{"op": "reset", "client": client.client, "number": first + place, "node": ring.choice.randint(1, 64)}
            for place in range(count)]
    for request, reply in zip(sent, staying.ask_all(sent)):
        if "kind" not in reply or (client.reply and reply["step"] <= client.reply["step"]):
            raise Lost(f"{request} was answered {reply} after {client.reply}")
        client.answered, client.reply = request, reply
        ring.note(client)


def one_round(ring: Ring) -> int | None:
    """A start, the checks after it, resets by clients that stay connected or do not, and a kill during a change of instance.
    Returns the number of threads that the server had at the kill, if it was killed."""
    server = watch(ring)
    count, _ = ring.history.look_into(server)
    server.must_start()
    ring.repeat_orders(count)
    ring.follow()
    killer = Killer(server, ring.choice.randint(OVER_ALL, IN_A_INSTANCE - 1))
    try:
        if ring.choice.randint(0, 3) == 0:
            stay(ring, ring.choice.randint(1, 20), 1)
        else:
            ring.ask_resets(ring.choice.randint(1, 3))
        ring.follow()
    except Away:
        pass
    met = killer.end()
    if met is None:
        server.process.kill()
    kills.after_kill(ring, True)
    return met


def report(ring: Ring, done: int, met: dict[int | None, int]) -> None:
    history, between = ring.history, met.get(OVER_ALL, 0)
    within = sum(met.values()) - between - met.get(None, 0)
    print(f"{done} kills ({between} between two instances, {within} while the threads of one ended or started, "
          f"{met.get(None, 0)} elsewhere), at least {watch(ring).instances} instances: {history.count} steps, "
          f"{len(history.printed)} signals printed, each once; {history.taken} more were settled, but a kill lost their "
          f"lines, so only their epochs show them", flush=True)
