"""Members of every language at a socket of the proxy, also one in bash over a bridge."""

from __future__ import annotations

import sys
import unittest

import members
from case import ROOT

sys.path.append(f"{ROOT}/tools")
from served.bridge import Bridge  # noqa: E402


class AtSocket(members.Members):
    has_proxy = False

    def setUp(self) -> None:
        super().setUp()
        self.proxy = self.started("--signals", self.server.signals)

    def address_of_proxy(self) -> str:
        return f"unix:{self.proxy.path}"

    def test_the_member_in_bash(self) -> None:
        bridge = Bridge(self.proxy.path)
        self.addCleanup(bridge.end)
        self.expect_member(self.member(f"{ROOT}/examples/plain_member", "3", *bridge.address.split(":"), f"{self.folder}/3"))


if __name__ == "__main__":
    unittest.main()
