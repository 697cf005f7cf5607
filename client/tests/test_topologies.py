"""Topology files, and the orders between two networks."""

from __future__ import annotations

import os
import subprocess
import tempfile
import unittest

from case import PROGRAM, ROOT
from resetd_client.topology import BadTopology, Network, plan, read_topology


class Topologies(unittest.TestCase):
    def network(self, nodes: dict[int, int], *links: tuple[int, int]) -> Network:
        return Network(dict(nodes), set(links))

    def lines(self, have: Network, want: Network) -> list[str]:
        return [str(order) for order in plan(have, want)]

    def test_nothing_to_do(self) -> None:
        self.assertEqual(self.lines(self.network({1: 1}), self.network({1: 1})), [])

    def test_joins_come_before_drops_and_removals_last(self) -> None:
        have = self.network({1: 1, 2: 1, 3: 1}, (1, 2), (2, 3))
        want = self.network({1: 1, 2: 1, 4: 1}, (1, 2), (1, 4), (2, 4))
        self.assertEqual(self.lines(have, want), ["add 4 1", "join 1 4", "join 2 4", "drop 2 3", "remove 3"])

    def test_a_changed_group_is_a_removal_and_an_addition(self) -> None:
        have = self.network({1: 1, 2: 1}, (1, 2))
        want = self.network({1: 2, 2: 2}, (1, 2))
        self.assertEqual([line.split("    #")[0] for line in self.lines(have, want)],
                         ["drop 1 2", "remove 1", "add 1 2", "remove 2", "add 2 2", "join 1 2"])

    def test_a_drop_comes_first_where_there_is_no_room(self) -> None:
        star = {node: 1 for node in range(1, 19)}
        have = self.network(star, *((1, node) for node in range(2, 18)))
        want = self.network(star, *((1, node) for node in range(3, 19)))
        self.assertEqual(self.lines(have, want), [
            "drop 1 2    # this makes room for the link between 1 and 18", "join 1 18"])

    def test_all_links_are_taken(self) -> None:
        nodes = {node: 1 for node in range(1, 65)}
        ring = [(node, node + 1) for node in range(1, 64)]
        chords = [(node, node + 2) for node in range(1, 63)]
        have = self.network(nodes, *ring, *chords, (1, 60), (1, 61), (1, 62))
        want = self.network(nodes, *ring, *chords, (2, 60), (2, 61), (2, 62))
        self.assertEqual(len(have.links), 128)
        now = self.network(nodes, *have.links)
        for order in plan(have, want):
            link = (order.members["a"], order.members["b"])
            now.links ^= {link}
            self.assertLessEqual(len(now.links), 128)
        self.assertEqual(now.links, want.links)

    def test_what_a_network_may_have(self) -> None:
        """A network at the program's limits is accepted, and one beyond them is refused."""
        def written(groups: dict[int, int], links: list[tuple[int, int]]) -> bytes:
            return ("".join(f"[[node]]\nid = {node}\ngroup = {group}\n" for node, group in groups.items()) +
                    "".join(f"[[link]]\na = {a}\nb = {b}\n" for a, b in links)).encode()

        alike = {node: 1 for node in range(1, 65)}
        star = [(1, node) for node in range(2, 18)]
        circles = [(node, (node + far - 1) % 64 + 1) for far in (1, 2) for node in range(1, 65)]
        pair = {63: 16, 64: 16}
        fit: list[tuple[dict[int, int], list[tuple[int, int]]]] = [(alike, star), (alike, circles), (pair, [(64, 63)])]
        for groups, links in fit:
            self.assertEqual(len(read_topology(written(groups, links)).links), len(links))
        unfit: list[tuple[dict[int, int], list[tuple[int, int]]]] = [
            (alike, [*star, (1, 18)]), (alike, [*circles, (1, 33)]), (pair, [(63, 64), (64, 63)]), (pair, [(63, 64), (63, 64)]),
            ({**pair, 62: 17}, []), ({**pair, 65: 1}, []), ({**pair, 0: 1}, [])]
        for groups, links in unfit:
            self.assertRaises(BadTopology, read_topology, written(groups, links))
        for half, is_read in ((32_767, False), (32_768, True), (16_777_216, True), (16_777_217, False)):
            text = f"half = {half}\n".encode()
            if is_read:
                read_topology(text)
            else:
                self.assertRaises(BadTopology, read_topology, text)
        read_topology(b" " * 65_536)
        self.assertRaises(BadTopology, read_topology, b" " * 65_537)
        self.assertRaises(BadTopology, read_topology, written(pair, []) + b"[[node]]\nid = 63\ngroup = 16\n")

    def test_files(self) -> None:
        with open(os.path.join(ROOT, "examples/ring.toml"), "rb") as file:
            ring = read_topology(file.read())
        self.assertEqual((len(ring.groups), len(ring.links)), (8, 8))
        for text in ("x", "ring = 1", "node = 1", "half = 1", "[[node]]\nid = 1", "[[node]]\nid = 65\ngroup = 1",
                     "[[node]]\nid = true\ngroup = 1", "[[node]]\nid = 1\ngroup = 1\n[[link]]\na = 1\nb = 1",
                     "[[node]]\nid = 1\ngroup = 1\n[[link]]\na = 1\nb = 2",
                     "[[node]]\nid = 1\ngroup = 1\n[[node]]\nid = 2\ngroup = 2\n[[link]]\na = 1\nb = 2"):
            self.assertRaises(BadTopology, read_topology, text.encode())

    @unittest.skipUnless(PROGRAM, "RESETD names no program")
    def test_faults_have_the_names_that_init_has(self) -> None:
        """Keys are checked before values, values before the rows, and each in the order of the file."""
        one, two = "[[node]]\nid = 1\ngroup = 1\n", "[[node]]\nid = 2\ngroup = 2\n"
        link = "[[link]]\na = {}\nb = {}\n".format
        texts = (
            "x", "ring = 1", "half = 1", "half = true", "node = 1", "node = [[]]", "[node]\nid = 1\ngroup = 1", "[[node]]\nid = 1",
            "half = 1\n[[node]]\nid = 1", "half = 1\nring = 1", "[[node]]\nid = 65\ngroup = 1\n[[link]]\na = 1", one + one,
            one + "[[node]]\nid = 0\ngroup = 1", one + link(1, 1), one + link(1, 2), one + link(2, 1), one + two + link(1, 2),
            one + one + link(1, 65), one + link(1, 2) + "[[node]]\nid = 3\n", one + two.replace("= 2\ng", "= 3\ng") + link(3, 1),
            one + two.replace("group = 2", "group = 1") + link(1, 2) + link(2, 1))
        with tempfile.TemporaryDirectory() as folder:
            for place, text in enumerate(texts):
                path = f"{folder}/topology.toml"
                with open(path, "w", encoding="utf-8") as file:
                    file.write(text)
                init = subprocess.run([PROGRAM, "init", f"{folder}/store{place}", path], capture_output=True, encoding="utf-8", check=False)
                with self.subTest(text=text), self.assertRaises(BadTopology) as caught:
                    read_topology(text.encode())
                self.assertEqual(f"resetd: {caught.exception.name}\n", init.stderr)
