"""The tests of client/tests_proxy. Each file runs as it does by hand."""

import os
import sys

from test_tools import Run

from support.program import ROOT

FOLDER = f"{ROOT}/client/tests_proxy"


class Files(Run):
    takes = 30
    programs: tuple[str, ...] = ("RESETD", "RESETD_PROXY")

    def files(self, *names: str) -> None:
        """Runs these files. With a mutant (tests/run) the first failure ends a file."""
        until = ["--failfast"] if "FAIL_FAST" in os.environ else []
        for name in names:
            with self.subTest(name):
                self.expect(sys.executable, "-m", "unittest", "discover", "-v", *until, "-s", FOLDER, "-p", f"{name}.py", ends_with="OK")


class Proxy(Files):
    """`resetd-proxy` before the program."""

    def test_policies_and_principals(self) -> None:
        self.files("test_policy", "test_principals", "test_manifest")

    def test_lines_and_orders(self) -> None:
        self.files("test_lines", "test_orders", "test_order_of_lines")

    def test_resets_that_name_an_epoch(self) -> None:
        self.files("test_epochs", "test_lost_resets")

    def test_breaks(self) -> None:
        self.files("test_lost_answers", "test_breaks", "test_silent_servers")

    def test_watchers(self) -> None:
        self.files("test_watch")

    def test_hostile_clients(self) -> None:
        self.files("test_hostile")

    def test_kills(self) -> None:
        self.files("test_kills")

    def test_torture(self) -> None:
        self.files("test_torture")

    def test_the_audit(self) -> None:
        self.files("test_audit")

    def test_the_metrics(self) -> None:
        self.files("test_metrics")

    def test_sockets_of_the_manager(self) -> None:
        self.files("test_activation")

    def test_what_is_in_the_way(self) -> None:
        self.files("test_stopped_servers", "test_taken_paths", "test_descriptors")

    def test_haproxy(self) -> None:
        self.files("test_haproxy")

    def test_the_page(self) -> None:
        self.files("test_page")

    def test_a_fenced_database(self) -> None:
        self.files("test_fence")

    def test_no_file_is_left_out(self) -> None:
        with open(__file__, encoding="utf-8") as file:
            text = file.read()
        for name in os.listdir(FOLDER):
            if name.startswith("test_"):
                self.assertIn(f'"{name[:-3]}"', text)


class MembersAtProxy(Files):
    """Members of every language, one of which is linked with the members' library."""

    programs = ("RESETD", "RESETD_PROXY", "RESETD_MEMBER")

    def test_members_at_a_socket(self) -> None:
        self.files("test_interop")

    def test_members_over_tls(self) -> None:
        self.files("test_shipped_policy")


del Files, Run  # otherwise their tests would run here a second time
