"""Power cuts and kills at each write of a member (cuts.py): some scenarios of each kind, and a proof that each part of the member
is needed, by leaving it out. CUTS is the number of scenarios of each kind of work (400); the nightly run uses more."""

from __future__ import annotations

import os
import unittest

import case  # noqa: F401
from cuts import PARTS, search
from resetd_client import Work

COUNT = int(os.environ.get("CUTS", "400"))
MOST = 20_000  # scenarios within which the violation must be found if a part is left out
OF_WHOLE = ("again",)  # parts that only work which is replaced as a whole needs


class Cuts(unittest.TestCase):
    def test_no_start_talks_in_two_runs_and_no_two_in_one(self) -> None:
        for work in Work:
            with self.subTest(work=work):
                self.assertIsNone(search(range(COUNT), work))

    def test_each_part_is_needed(self) -> None:
        for part in PARTS:
            with self.subTest(part=part):
                self.assertIsNotNone(search(range(MOST), Work.WHOLE if part in OF_WHOLE else Work.PARTS, part))


if __name__ == "__main__":
    unittest.main()
