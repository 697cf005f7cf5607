"""Members in Python, at a gateway, in Go and in C: each begins as a new one does, and begins again at each of two resets, of which it
learns from the proxy alone."""

from __future__ import annotations

import os
import shutil
import subprocess
import sys

from case import ROOT, Case, until

LIBRARY = os.environ.get("RESETD_MEMBER", "")  # for members in C
NODE = 3


class Members(Case):
    """The tests of a member of node 3. A test class says how it reaches the proxy."""

    environment: dict[str, str] = {}  # of the members

    def address_of_proxy(self) -> str:
        raise NotImplementedError

    def address_in_c(self) -> str:
        """The address of a member that has no TLS."""
        return self.address_of_proxy()

    def member(self, *command: str) -> subprocess.Popen[bytes]:
        with open(f"{self.folder}/member.said", "ab") as said:
            process = subprocess.Popen(command, stdin=subprocess.DEVNULL, stdout=said, stderr=said, env={**os.environ, **self.environment})
        self.addCleanup(process.wait)
        self.addCleanup(process.kill)
        return process

    def row(self, node: int) -> list[int]:
        return next(row for row in self.proxy.ask(op="show")["nodes"] if row[0] == node)

    def confirm_others(self) -> bool:
        """Confirms for the other members; whether all are through."""
        for node in (1, 2, 4):
            if self.row(node)[4] > self.row(node)[5]:
                self.proxy.ask(op="confirm", node=node, epoch=self.row(node)[4])
        return all(self.row(node)[4] == self.row(node)[5] > 0 for node in range(1, 5))

    def expect_member(self, *processes: subprocess.Popen[bytes]) -> None:
        until("a group that is through", self.confirm_others)
        for _ in range(2):
            epoch = self.row(NODE)[4]
            self.proxy.ask(op="reset", node=1)
            until("the member's confirm", lambda: self.row(NODE)[5] > epoch)
            until("a group that is through", self.confirm_others)
        for process in processes:
            self.assertIsNone(process.poll())
        self.assertEqual([line for line in self.proxy.audited() if line["event"] == "denied"], [])

    def build(self, *command: str, **environment: str) -> None:
        subprocess.run(command, check=True, capture_output=True, timeout=600, cwd=f"{ROOT}/examples/members", env={**os.environ, **environment})

    def test_the_service(self) -> None:
        service = f"{ROOT}/examples/service"
        self.expect_member(self.member(sys.executable, service, "3", self.address_of_proxy(), f"{self.folder}/3", "--no-signals", "--look", "3600"))

    def test_the_gateway(self) -> None:
        """Of two members of the node."""
        gateway = self.member(sys.executable, f"{ROOT}/examples/gateway", "3x2", "3", self.address_of_proxy(), f"{self.folder}/g", "--look", "3600")
        members = [self.member(sys.executable, f"{ROOT}/examples/member", f"{self.folder}/g/3.{place}") for place in (1, 2)]
        self.expect_member(gateway, *members)

    def test_the_member_in_go(self) -> None:
        if not shutil.which("go"):
            self.skipTest("optional: it needs Go")
        folders = {name: f"{self.folder}/{name}" for name in ("GOCACHE", "GOPATH", "GOTMPDIR")}
        os.mkdir(folders["GOTMPDIR"])
        self.build("go", "build", "-o", f"{self.folder}/member", "plain_member.go", "proxy.go", "files.go", CGO_ENABLED="0", **folders)
        self.expect_member(self.member(f"{self.folder}/member", "3", self.address_of_proxy(), f"{self.folder}/3"))

    def test_the_member_in_c(self) -> None:
        if not shutil.which("cc") or not os.path.exists(LIBRARY):
            self.skipTest("it needs a C compiler: for the members' library")
        self.build("cc", "-I", f"{ROOT}/crates/resetd_member/include", "-o", f"{self.folder}/member", "member.c", LIBRARY.replace(".so", ".a"))
        self.expect_member(self.member(f"{self.folder}/member", "3", self.address_in_c(), f"{self.folder}/3"))
