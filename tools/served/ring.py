"""A ring of nodes. Several clients ask for its resets, which are followed to their end."""

import random
import time

from .clients import Client, Lost
from .history import History
from .server import Away, Server

NODES, CLIENTS, HALF = 64, 8, 32_768
TIMEOUT = 300  # seconds within which a reset has to end, even on a busy machine


def topology(half: int, reach: int) -> str:
    """A ring in which each node is linked to this many that follow it."""
    nodes = "".join(f"[[node]]\nid = {node}\ngroup = 1\n" for node in range(1, NODES + 1))
    links = "".join(f"[[link]]\na = {node}\nb = {(node + far) % NODES + 1}\n"
                    for node in range(1, NODES + 1) for far in range(reach))
    return f"half = {half}\n{nodes}{links}"


class Ring:
    """What the clients know. `quiet` are the epochs when all nodes were last ready with nothing in transit, and `started` are
    the nodes of the resets that were started since."""

    def __init__(self, server: Server, choice: random.Random) -> None:
        self.server, self.choice, self.history = server, choice, History()
        self.clients = [Client(number) for number in range(1, CLIENTS + 1)]
        self.quiet = dict.fromkeys(range(1, NODES + 1), 0)
        self.started = list[int]()
        self.counts = (0, 0)  # the numbers of steps shown as accepted and settled since the last start

    def found(self) -> None:
        done = self.server.found(topology(HALF, 1))
        if done != (0, [f"created {2 * NODES}"]):
            raise Lost(f"resetd init: {done}")

    def ask_resets(self, resets: int) -> None:
        """Makes this many clients ask for resets, one after another, each over its own connection."""
        for client in self.choice.sample(self.clients, resets):
            client.order(self.server, "reset", node=self.choice.randint(1, NODES))
            self.note(client)

    def note(self, client: Client) -> None:
        """Records a reply, if it is new."""
        assert client.answered and client.reply
        step = client.reply["step"]
        if step not in self.history.answered and client.reply["kind"] == "started":
            self.started.append(client.answered["node"])
        self.history.answered.add(step)

    def repeat_orders(self, count: int) -> None:
        """After a start on a store of `count` steps, sends each answered order again, which must get the same answer, and each
        order without an answer."""
        self.note_counts(count, count, is_start=True)
        for client in self.clients:
            client.repeat(self.server, count)
            if client.answered:
                self.note(client)

    def follow(self) -> None:
        """Waits until each reset has ended, and compares the epochs."""
        until = time.monotonic() + TIMEOUT
        while time.monotonic() < until:
            view = self.server.ask({"op": "show"})
            if "nodes" not in view:
                raise Away(str(view))
            self.note_counts(view["accepted"], view["settled"])
            epochs = {row[0]: row[4] for row in view["nodes"]}
            self.history.note_epochs(epochs)
            if all(row[2] == "ready" for row in view["nodes"]) and self.server.ask({"op": "resend"}) == \
                    {"count": 0, "kind": "resent"}:
                self.compare(epochs)
                return self.await_signals(until)
            time.sleep(0.005)
        raise Lost(f"a reset did not end within {TIMEOUT} seconds")

    def note_counts(self, accepted: int, settled: int, is_start: bool = False) -> None:
        """Checks that neither count falls while a server runs, over all its instances."""
        if not is_start and (accepted < self.counts[0] or settled < self.counts[1]):
            raise Lost(f"{self.counts} steps were accepted and settled, and then {accepted} and {settled}")
        self.counts = accepted, settled

    def await_signals(self, until: float) -> None:
        """Waits until each settled signal is printed, which happens after the answers."""
        while self.history.find_unprinted() and time.monotonic() < until:
            if self.server.process.poll() is not None:
                raise Away("the coordinator is gone")
            self.history.note_signals(self.server.new_signals())
            time.sleep(0.005)
        self.history.expect_printed()

    def compare(self, epochs: dict[int, int]) -> None:
        """Checks the epochs. If no reset was started, no epoch rose; a single one raised each by one; of several, each node
        that started some was signalled at least as often."""
        for node, before in self.quiet.items():
            rise = epochs[node] - before
            if (len(self.started) < 2 and rise != len(self.started)) or rise < self.started.count(node):
                raise Lost(f"node {node} went from epoch {before} to {epochs[node]} in resets of {self.started}")
        self.quiet, self.started = epochs, []
