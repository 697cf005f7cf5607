"""A coordinator, and services around it that can be stopped and started again."""

import argparse
import os
import random
import shutil
import subprocess
import sys
import time
from collections.abc import Callable, Sequence
from typing import IO

from .bridge import Bridge
from .ports import held_address
from .proxy import PROGRAM, Proxy
from .server import TIMEOUT, Server

ROOT = os.path.dirname(os.path.dirname(os.path.dirname(os.path.abspath(__file__))))
sys.path.insert(0, os.path.join(ROOT, "client"))
from resetd_client import Away, Member, Orders, OutOfRun, Port, Reply, View, patiently  # noqa: E402

__all__ = ["ROOT", "Arguments", "Away", "Failed", "Member", "Orders", "OutOfRun", "Port", "Trial", "View", "patiently", "read",
           "tag_in", "tags_at"]

OPERATOR, RESETCTL = 16, 14  # clients that neither a member nor the proxy uses


class Failed(Exception):
    """A trial failed."""


class Arguments(argparse.Namespace):
    """The arguments of the command line. Some trials have no events."""

    program: str
    seconds: float
    without: set[str]
    seed: int
    events: int
    is_at_port = False  # whether the coordinator has no proxy
    proxy = PROGRAM


class Trial:
    """A coordinator, its requirements, and the helpers that were started. All of them end with the trial."""

    def __init__(self, arguments: Arguments, folder: str, nodes: int, is_ring: bool = True) -> None:
        self.arguments, self.folder, self.nodes = arguments, folder, range(1, nodes + 1)
        self.choice = random.Random(arguments.seed)
        self.server = Server(arguments.program, f"{folder}/store", held_address())  # of all its starts
        self.helpers = list[subprocess.Popen[bytes]]()
        self._proxies, self._bridges = list[Proxy](), list[Bridge]()
        links = [(node, node % nodes + 1) for node in self.nodes][:nodes if is_ring and nodes > 2 else nodes - 1]
        done = self.server.found(
            "".join(f"[[node]]\nid = {node}\ngroup = 1\n" for node in self.nodes) +
            "".join(f"[[link]]\na = {a}\nb = {b}\n" for a, b in links))
        if done[0] != 0:
            raise Failed(f"resetd init: {done}")
        self.start()
        proxy = None if arguments.is_at_port else self._start_proxy()
        self.address = proxy.address if proxy else self.server.address  # of the trial's members
        self.port = Port(self.address, 30)
        self.orders = Orders(self.port, OPERATOR, f"{folder}/operator", told=lambda _: None)

    def start(self) -> None:
        if not self.server.start():
            raise Failed(f"the coordinator did not start: {self.server.ended()}")

    @property
    def tcp(self) -> list[str]:
        """The host and the port of a bridge to a proxy, for a member that connects by TCP. Starts both if the trial has none."""
        if not self._bridges:
            proxy = self._proxies[0] if self._proxies else self._start_proxy()
            self._bridges.append(Bridge(proxy.socket))
        return self._bridges[0].address.split(":")

    def _start_proxy(self) -> Proxy:
        proxy = Proxy(self.folder, self.server.address, "--signals", self.server.signals, "--patience", "600", program=self.arguments.proxy)
        self._proxies.append(proxy)
        return proxy

    def kill(self) -> None:
        """Kills the server by signal 9, and starts it again."""
        self.server.kill()
        self.start()

    def close(self) -> None:
        if self.server.close() != (0, ""):
            raise Failed("the coordinator did not end in order")

    def run(self, program: str, *arguments: str | float, name: str | int,
            stdin: int | IO[bytes] = subprocess.DEVNULL) -> subprocess.Popen[bytes]:
        """Starts one of the examples, with its lines in a file of this name."""
        with open(f"{self.folder}/{name}.lines", "ab") as lines:
            self.helpers.append(subprocess.Popen([f"{ROOT}/examples/{program}", *map(str, arguments)],
                                                 stdin=stdin, stdout=lines, stderr=lines))
        return self.helpers[-1]

    def services(self) -> None:
        """An example service for each node."""
        for node in self.nodes:
            self.service(node)

    def service(self, node: int) -> tuple[subprocess.Popen[bytes], subprocess.Popen[bytes]]:
        """Starts an example service, which reads the file of signals from its beginning. Returns its processes."""
        tail = subprocess.Popen(["tail", "-n", "+1", "-F", self.server.signals], stdout=subprocess.PIPE,
                                stderr=subprocess.DEVNULL)
        assert tail.stdout
        self.helpers.append(tail)
        service = self.run("service", node, self.address, f"{self.folder}/{node}", "--look", 1, name=node,
                           stdin=tail.stdout)
        tail.stdout.close()
        return tail, service

    def stop_helpers(self, *some: subprocess.Popen[bytes]) -> None:
        """Kills some helpers, or all, by signal 9."""
        stopped = some or tuple(self.helpers)
        for helper in stopped:
            helper.kill()
        for helper in stopped:
            helper.wait()
            self.helpers.remove(helper)

    def order(self, op: str, **members: int) -> Reply:
        return patiently(lambda: self.orders.order(op, **members), TIMEOUT)

    def shown(self) -> View:
        """Returns the view, for which a server that was just started may need a moment."""
        return patiently(self.port.show, TIMEOUT)

    def epoch(self, node: int) -> int:
        """Returns the epoch in which a node is shown."""
        row = self.shown().node(node)
        if row is None:
            raise Failed(f"node {node} is not shown")
        return row.epoch

    def reset(self, node: int = 1, is_killed: bool = False) -> None:
        """Asks for a reset. If the server is killed, that happens at some moment of the reset."""
        self.order("reset", node=node)
        if is_killed:
            time.sleep(self.choice.uniform(0, 0.004))
            self.kill()

    def expect_quiet(self) -> None:
        self.expect("no reset is at any node", lambda: all(row.mode == "ready" for row in patiently(self.port.show, 20).nodes))

    def is_at_rest(self) -> bool:
        """Returns whether nobody has anything to do: each node is confirmed, and stays so for a while."""
        rows = self.port.show().nodes
        time.sleep(0.3)
        return all(row.is_begun for row in rows) and self.port.show().nodes == rows

    def begun(self, node: int) -> tuple[int, int | None]:
        """Returns how many times a service has begun, and the last epoch."""
        if not os.path.exists(f"{self.folder}/{node}.lines"):
            return 0, None
        with open(f"{self.folder}/{node}.lines", encoding="utf-8") as lines:
            epochs = [int(line.split()[-1]) for line in lines if "starts anew" in line]
        return len(epochs), epochs[-1] if epochs else None

    def expect(self, what: str, holds: Callable[[], bool], seconds: float | None = None) -> None:
        """Waits until something holds."""
        until = time.monotonic() + (seconds or self.arguments.seconds)
        while not holds():
            if time.monotonic() > until:
                raise Failed(f"{what}, within {seconds or self.arguments.seconds} s: {self.summary()}")
            time.sleep(0.05)

    def summary(self) -> str:
        rows = self.shown().nodes
        return "shown (node, epoch, confirmed) " + \
            " ".join(f"{row.node}:{row.epoch}/{row.confirmed}" for row in rows if row.node < 20) + \
            "; begun (node, last epoch, times) " + " ".join(
                f"{node}:{last}/{times}" for node in self.nodes if node < 20
                for times, last in [self.begun(node)])

    def expect_begun(self, what: str, before: dict[int, int] | None = None, nodes: Sequence[int] | None = None) -> None:
        """Checks that every service has begun once more than before, in the epoch that its node has, and confirmed it."""
        earlier = before or {}

        def holds() -> bool:
            rows = {row.node: row for row in self.shown().nodes}
            return all(self.begun(node)[0] > earlier.get(node, 0) and rows[node].is_begun
                       and self.begun(node)[1] == rows[node].epoch for node in nodes or self.nodes)
        self.expect(what, holds)

    def times(self) -> dict[int, int]:
        return {node: self.begun(node)[0] for node in self.nodes}

    def reset_all(self, what: str, node: int = 1, is_killed: bool = False) -> None:
        """Makes a reset, after which every service begins again."""
        before = self.times()
        self.reset(node, is_killed)
        self.expect_begun(what, before)

    def put_back(self, copy: str) -> None:
        """Restores the store from a copy."""
        self.close()
        shutil.copy(copy, self.server.store)
        self.start()
        self.orders.recover()

    def renew(self) -> None:
        """Does what the page says to do once a restored store is served."""
        if "restored" not in self.arguments.without:
            status, output = self.resetctl("restored")
            if status != 0 or "have a new epoch" not in output:
                raise Failed(f"resetctl restored: status {status}, {output}")

    def resetctl(self, *arguments: str) -> tuple[int, str]:
        """Runs a command of the person on call, with a separate client. Returns its status and its output."""
        done = subprocess.run([f"{ROOT}/client/resetctl", "--address", self.address, "--client", str(RESETCTL),
                               "--state", f"{self.folder}/state", *arguments], capture_output=True, encoding="utf-8", check=False)
        return done.returncode, done.stdout + done.stderr

    def end(self) -> None:
        self.stop_helpers()
        for bridge in self._bridges:
            bridge.end()
        for proxy in self._proxies:
            proxy.kill()
        self.orders.close()
        self.server.end()


def read(path: str) -> str:
    if not os.path.exists(path):
        return ""
    with open(path, encoding="utf-8") as file:
        return file.read()


def tag_in(path: str) -> str:
    """Returns the tag of a member's run from its file, or an empty text if there is none."""
    fields = read(path).split()
    return fields[1] if len(fields) > 1 else ""


def tags_at(folder: str) -> set[str]:
    """Returns the last tags that a gateway gave its members; with an empty text if it gave one none."""
    return {(line.split() + ["", "", "", ""])[3] for line in read(f"{folder}/told/members").splitlines()}
