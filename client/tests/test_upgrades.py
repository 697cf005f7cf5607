"""Which parts of two neighbouring versions work together: each row of the table in docs/DEPLOYING.md, "Upgrading", has a test."""

from __future__ import annotations

import os
import re
import unittest

from case import ROOT, Case
from resetd_client import Gateway, keep

# The first two columns of a row, and its tests: a file, and the names in it.
ROWS = {
    ("server, proxy", "library"): ("client/tests_proxy/test_orders.py", "test_the_library_orders_through_it"),
    ("library", "server, proxy or front"): ("client/tests/test_at_proxy.py", "test_a_proxy_of_an_earlier_version"),
    ("library", "its own files"): (
        "client/tests/test_starts.py", "test_a_start_that_had_not_talked_goes_on", "test_a_start_that_talked_goes_on",
        "test_one_whose_party_an_earlier_version_fixed_has_none"),
    ("files", "library (a downgrade)"): ("client/tests/test_starts.py", "test_what_the_version_before_reads_of_this_one"),
    ("files of a later version", "library"): ("client/tests/test_starts.py", "test_a_file_of_a_later_version_is_refused"),
    ("gateway", "its members"): ("client/tests/test_upgrades.py", "test_a_gateway_whose_members_are_of_before"),
    ("members", "their gateway"): ("client/tests/test_gateways.py", "test_what_an_earlier_gateway_left"),
    ("server 0.9.0 and later", "store of version 1 or 2"): (
        "tests/test_stores.py", "test_a_store_of_version_1", "test_one_of_version_2_in_a_reset_is_migrated"),
}
# Rows about programs that no test runs: they were tried when those programs were current.
OF_EARLIER_PROGRAMS = {("tags since 0.16", "tags before 0.16"), ("server before 0.9.0", "store of version 2")}


class Table(unittest.TestCase):
    def test_each_row_has_a_test(self) -> None:
        with open(f"{ROOT}/docs/DEPLOYING.md", encoding="utf-8") as file:
            [chapter] = re.findall(r"^## Upgrading$(.*?)(?=^## |\Z)", file.read(), re.MULTILINE | re.DOTALL)
        rows = [tuple(cell.strip() for cell in line.split("|")[1:3]) for line in chapter.splitlines() if line.startswith("|")]
        self.assertEqual(set(rows[2:]), {*ROWS, *OF_EARLIER_PROGRAMS})

    def test_each_test_is_there(self) -> None:
        for path, *names in ROWS.values():
            with open(os.path.join(ROOT, path), encoding="utf-8") as file:
                text = file.read()
            for name in names:
                self.assertEqual(text.count(f"    def {name}(self) -> None:\n"), 1, (path, name))


class Gateways(Case):
    def test_a_gateway_whose_members_are_of_before(self) -> None:
        """They read the files that an earlier gateway wrote for each member. These are removed, and that is reported in one
        line."""
        self.server.ring(2)
        for node in (1, 2):
            os.makedirs(f"{self.folder}/members/{node}")
            keep(f"{self.folder}/members/{node}/wanted", "1 9\n")
        Gateway(self.port, self.orders(5, "book"), {1: ["1"], 2: ["2"]}, f"{self.folder}/members", told=self.messages.append)
        self.assertEqual(self.messages, ["2 members, such as 1, have instructions from a gateway of an earlier version: "
                                         "start them again with this version"])
        self.assertEqual([os.listdir(f"{self.folder}/members/{node}") for node in (1, 2)], [[], []])


if __name__ == "__main__":
    unittest.main()
