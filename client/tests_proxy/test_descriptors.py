"""More clients than a proxy may have descriptors: whatever they do, it reaches the server and its own files."""

from __future__ import annotations

import os
import shutil
import unittest
from typing import Any

from case import DENIED, OPS, USER, Case, policy, until, write_policy

MOST = 60  # descriptors


@unittest.skipUnless(shutil.which("prlimit"), "it needs prlimit")
class Few(Case):
    nodes = 2
    has_proxy = False

    def setUp(self) -> None:
        super().setUp()
        self.policy = f"{self.folder}/policy.toml"
        self.allow(*OPS)
        self.proxy = self.started("--policy", self.policy, "--audit", f"{self.folder}/audit",
                                  before=("prlimit", f"--nofile={MOST}:{MOST}"))
        self.clients = [self.client() for _ in range(MOST + 20)]
        # The first ones are connected; the last ones wait until others leave.
        self.assertIn("nodes", self.clients[0].ask(op="show"))

    def allow(self, *ops: str) -> None:
        write_policy(self.policy, policy((USER, ops)))

    def test_the_server_is_reached_again(self) -> None:
        """Each time that its connection was lost, although clients wait for any place."""
        for _ in range(5):
            self.server.kill()
            self.server.start()
            self.assertIn("nodes", self.clients[0].ask(op="show"))

    def test_a_changed_policy_counts(self) -> None:
        """Its file takes a descriptor while it is read."""
        self.allow("reset")
        until("a denial", lambda: self.look() == DENIED)
        self.assertNotIn("can't be read", self.proxy.said())

    def look(self) -> dict[str, Any]:
        """Returns the first client's answer. If its connection ends because it lost a right, drops this client and returns nothing."""
        try:
            return self.clients[0].ask(op="show")
        except ConnectionError:
            self.clients.pop(0).close()
            return {}

    def test_an_audit_that_is_rotated(self) -> None:
        """The new file is opened beside the old one."""
        os.rename(f"{self.folder}/audit", f"{self.folder}/audit.1")
        self.clients[0].ask(op="reset", client=1, number=1, node=1)
        until("the new file", lambda: os.path.exists(f"{self.folder}/audit"))

    def test_those_that_wait_come_in_when_others_leave(self) -> None:
        first, last = self.clients[:MOST // 2], self.clients[MOST // 2:]
        for client in first:
            client.close()
        for client in last:
            self.assertIn("nodes", client.ask(op="show"))


if __name__ == "__main__":
    unittest.main()
