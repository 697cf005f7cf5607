"""`resetctl restored`: a reset in each group, and every node at a new epoch."""

from __future__ import annotations

from case import Case, in_memory, over_both
from resetd_client import Away
from resetd_client.restored import renew


class Restored(Case):
    def epochs(self) -> list[int]:
        return [self.server.row(node)[1] for node in self.nodes]

    def setUp(self) -> None:
        super().setUp()
        self.nodes = (1, 2, 3, 8, 9, 12)
        self.server.ring(3)
        for node in (8, 9, 12):
            self.server.by_somebody("add", node=node, group=1)
        self.server.by_somebody("join", a=8, b=9)

    def test_each_group_has_one_reset(self) -> None:
        for times in (1, 2):
            message = renew(self.port, self.orders(name=str(times)), 300)
            self.assertEqual((message, self.epochs()), (
                "each of the 3 groups was reset, and all 6 nodes have a new epoch", [times] * 6))

    def test_after_a_restore_the_count_is_found(self) -> None:
        copy = self.server.copy()
        orders = self.orders()
        for _ in range(5):
            orders.order("reset", node=1)
            self.server.await_settled()
        self.server.restore(copy)
        renew(self.port, orders, 300)
        self.assertEqual(self.epochs(), [1] * 6)

    def test_the_command(self) -> None:
        status, out, _ = self.run_resetctl("--patience", "300", "restored")
        self.assertEqual((status, out, self.epochs()), (0, "each of the 3 groups was reset, and all 6 nodes have a new epoch\n", [1] * 6))

    def test_the_generation_is_named(self) -> None:
        """It is one above that of the count, so that no earlier member has a greater fence."""
        for count, generation in ((0, 1), ((1 << 40) - 1, 1), (1 << 40, 2), ((8_388_607 << 40) - 1, 8_388_607)):
            status, out, _ = self.run_resetctl("--patience", "300", "restored", "--fence", str(count))
            self.assertEqual((status, out.splitlines()[1:]), (0, [
                f"now start all members with generation {generation}, or with a greater generation if a member has already used that one"]))

    def test_counts_above_which_there_is_no_generation(self) -> None:
        """Then nothing is asked for."""
        status, _, errors = self.run_resetctl("restored", "--fence", str((1 << 63) - 1))
        self.assertEqual((status, self.epochs()), (2, [0] * 6))
        self.assertIn("from 0 to 8388607, not 8388608", errors)

    @in_memory
    def test_a_node_that_gets_no_new_epoch_is_named(self) -> None:
        reset = self.server.reset
        self.server.reset = lambda node: None if node == 12 else reset(node)
        with self.assertRaisesRegex(Away, "node 12:"):
            renew(self.port, self.orders(), 1)


load_tests = over_both
