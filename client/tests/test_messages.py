"""The library's messages for a person, to the logger or to a function that a caller passes; and the page that `help` begins
with."""

from __future__ import annotations

import io
import re
import unittest
from contextlib import redirect_stderr

from case import Case  # first: it adds the library to the path

import resetd_client
from resetd_client import Away, Orders


class Messages(Case):
    def overtaken(self, orders: Orders) -> None:
        """Makes an order without an answer be refused, which is reported to a person."""
        self.server.faults = ["lose"]
        self.assertRaises(Away, orders.order, "remove", node=2)
        orders.order("reset", node=1)

    def test_it_goes_to_the_logger(self) -> None:
        self.server.ring(2)
        err = io.StringIO()
        with Orders(self.port, 1, f"{self.folder}/orders") as orders, redirect_stderr(err):
            orders.recover()
            with self.assertLogs("resetd_client", "WARNING") as logs:
                self.overtaken(orders)
        self.assertEqual(err.getvalue(), "")
        self.assertRegex(logs.output[0], "'remove'.* had no answer at first, and now the answer is 8 HasLinks")
        self.assertEqual(len(logs.output), 1)

    def test_a_caller_hears_it_instead(self) -> None:
        self.server.ring(2)
        orders = self.orders()
        orders.recover()
        with self.assertNoLogs("resetd_client"):
            self.overtaken(orders)
        self.assertEqual(len(self.messages), 1)


class Page(unittest.TestCase):
    def test_it_is_a_page_and_names_what_there_is(self) -> None:
        page = str(resetd_client.__doc__)
        self.assertLess(page.count("\n"), 60)
        for name in ("Member", "Gateway", "Served", "Port", "Orders", "Follower", "Watched", "Clock", "ResetdError", "Away"):
            with self.subTest(name=name):
                self.assertIn(name, page)
                self.assertTrue(hasattr(resetd_client, name))
        for name, member in re.findall(r"\b(Member|Port|Gateway)\.(\w+)", page):
            self.assertTrue(hasattr(getattr(resetd_client, name), member), f"{name}.{member}")
