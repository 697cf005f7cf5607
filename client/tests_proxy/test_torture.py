"""Many clients check each answer, while the server is killed or leaves at any moment. TORTURE says for how many seconds (20), and SEED
with which random choices."""

from __future__ import annotations

import contextlib
import json
import os
import random
import socket
import sys
import tempfile
import unittest
from typing import IO

from audit_tail import AuditTail
from case import CLIENT, DEADLINE, Case, Proxy, needs_proxy
from torture import Torture

sys.path.append(os.path.join(CLIENT, "tests"))
from fake import Fake  # noqa: E402

SECONDS = float(os.environ.get("TORTURE", "20"))
SEED = int(os.environ.get("SEED", "0")) or random.randrange(1, 1 << 30)
NODES = 16
CLIENTS = 6  # of them order with a client's number
SILENT = "5"  # seconds after which the proxy leaves a server, which on a busy machine too answers something within them


class Leaving(Fake):
    """A coordinator in memory whose connections end at any moment: before a line is carried out, after that, or within its answer.
    Some answer nothing until the proxy has left them."""

    def __init__(self, seed: int, nodes: int) -> None:
        self.choice = random.Random(seed)
        super().__init__()
        for node in range(1, nodes + 1):
            self.nodes[node] = [1, 0, 0]
        self.steps = nodes

    def _serve_lines(self, connection: socket.socket, lines: IO[bytes]) -> None:
        left = self.choice.randrange(1, 400)
        for line in lines:
            left -= 1
            if left == 0:
                self.leave(connection, line)
                return
            connection.sendall(self.respond(line).encode() + b"\n")

    def leave(self, connection: socket.socket, line: bytes) -> None:
        if self.choice.random() < 0.3:
            return
        answer = self.respond(line).encode()
        if self.choice.random() < 0.02:
            with contextlib.suppress(OSError):
                while connection.recv(1 << 16):  # until the front has left
                    pass
            return
        connection.sendall(answer[:self.choice.randrange(len(answer) + 1)])


class Lying(Fake):
    """A coordinator in memory that does something wrong with a few resets, in place of a proxy that does."""

    def __init__(self, lie: str) -> None:
        self.lie, self.count, self.kept = lie, 0, ""
        super().__init__()
        self.nodes[1] = [1, 0, 0]
        self.steps = 1

    def respond(self, line: bytes) -> str:
        is_reset = b'"reset"' in line
        self.count += is_reset
        if not is_reset or self.count < 5:
            return super().respond(line)
        if self.lie == "a reset is carried out twice":
            self.nodes[1][1] += 1
        if self.lie == "a reset is not carried out":
            return json.dumps({"kind": "finished", "step": self.steps + self.count})
        if self.lie == "an answer of another order":
            return json.dumps({"kind": "finished", "step": 4})
        return super().respond(line)


@needs_proxy
class Lies(unittest.TestCase):
    def test_what_is_wrong_is_found(self) -> None:
        for lie in ("a reset is carried out twice", "a reset is not carried out", "an answer of another order"):
            with self.subTest(lie), tempfile.TemporaryDirectory() as folder:
                server = Lying(lie)
                self.addCleanup(server.close)
                proxy = Proxy(folder, server.address)
                self.addCleanup(proxy.kill)
                torture = Torture(proxy, SEED, nodes=1, clients=0)
                torture.run(DEADLINE, lambda _: None)
                self.assertNotEqual(torture.faults(), [], f"SEED={SEED}")


class Killed(Case):
    has_proxy = False

    def topology(self) -> str:
        return "".join(f"[[node]]\nid = {node}\ngroup = 1\n" for node in range(1, NODES + 1))

    def test_a_server_that_is_killed(self) -> None:
        self.proxy = self.started()
        torture = Torture(self.proxy, SEED, NODES, CLIENTS, AuditTail(self.proxy.audit))
        torture.run(SECONDS / 2, self.kill)
        self.assertEqual(torture.faults(), [], f"SEED={SEED}")
        view = self.server.await_settled()
        self.assertEqual(view["accepted"] - NODES, torture.resets(), f"SEED={SEED}")
        print(f"a server that was killed {torture.hurts} times: {torture.said()} (SEED={SEED})", file=sys.stderr)

    def kill(self, _: random.Random) -> None:
        self.server.kill()
        self.server.start()


@needs_proxy
class Left(unittest.TestCase):
    def test_a_server_that_leaves(self) -> None:
        folder = tempfile.TemporaryDirectory()
        self.addCleanup(folder.cleanup)
        server = Leaving(SEED, NODES)
        self.addCleanup(server.close)
        proxy = Proxy(folder.name, server.address, "--server-silent", SILENT)
        self.addCleanup(proxy.kill)
        torture = Torture(proxy, SEED, NODES, CLIENTS, AuditTail(proxy.audit))
        torture.run(SECONDS / 2, lambda _: None)
        self.assertEqual(torture.faults(), [], f"SEED={SEED}")
        self.assertEqual(sum(row[1] for row in server.nodes.values()), torture.resets(), f"SEED={SEED}")
        print(f"a server that left {server.connections - 1} times: {torture.said()} (SEED={SEED})", file=sys.stderr)


if __name__ == "__main__":
    unittest.main()
