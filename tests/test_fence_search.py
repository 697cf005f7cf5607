"""The search for resources that a fence does not protect (tools/search_fence): it finds nothing, and each part is needed."""

import subprocess

from support.case import Case, tool

# The searches that find nothing: their numbers of members and depths.
ABOUT = (("links", 3, 99), ("joins", 3, 99), ("split", 3, 5), ("resets", 3, 6), ("readd", 3, 4), ("lose", 3, 4), ("restore", 3, 5),
         ("again", 2, 7), ("sides", 2, 7), ("sides", 3, 4))
# The violation without each part, and the search that finds it first.
FOUND = (("floor", "links", 3, "returns"), ("talk", "joins", 3, "older"), ("kept", "split", 3, "locked"), ("alone", "readd", 3, "older"),
         ("asks", "links", 3, "locked"), ("restored", "restore", 3, "locked"), ("generation", "restore", 2, "older"),
         ("jump", "restore", 2, "older"), ("record", "again", 2, "locked"), ("after", "sides", 2, "locked"))


class Searches(Case):
    takes = 60

    def said(self, *arguments: str) -> tuple[int, list[str]]:
        """Returns the status of a search, and its lines."""
        done = subprocess.run([tool("search_fence"), "--seconds", "500", *arguments], capture_output=True, text=True, check=False)
        self.assertEqual(done.stderr, "")
        return done.returncode, done.stdout.splitlines()

    def test_nothing_is_wrong(self) -> None:
        for about, members, depth in ABOUT:
            status, lines = self.said("--about", about, "--members", str(members), "--depth", str(depth))
            self.assertEqual(status, 0, lines)
            self.assertRegex(lines[-1], f"^{about}, {members} members: nothing is wrong after ")

    def test_each_part_is_needed(self) -> None:
        for part, about, members, wrong in FOUND:
            status, lines = self.said("--about", about, "--members", str(members), "--without", part)
            self.assertEqual(status, 1, (part, lines))
            self.assertIn(wrong, lines[-2], part)
            self.assertRegex(lines[-1], f"^{about}: found after ")
