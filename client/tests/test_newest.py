"""Views never go back: of several addresses of one coordinator, an old one shows the past."""

from __future__ import annotations

import threading
import unittest

from case import Case  # first: it adds the library to the path
from fake import Fake
from pushing import of_unix
from resetd_client import AtFront, Due, Member, Orders, Past, Port, View, Wake, Watched
from resetd_client.address import addresses_of
from resetd_client.newest import Newest
from resetd_client.party import is_same_run, tag_of
from resetd_client.rule import Kept, judge, shown_to

OLD, NEW = addresses_of("127.0.0.1:1,127.0.0.1:2")


def view(settled: int, accepted: int = 0) -> View:
    return View(accepted or settled, settled, (), ())


class Takes(unittest.TestCase):
    def test_a_view_of_another_address_has_as_many_steps(self) -> None:
        newest = Newest()
        newest.take(NEW, view(20))
        with self.assertRaisesRegex(Past, "127.0.0.1:1 shows 19 settled steps, but 127.0.0.1:2 has already shown 20"):
            newest.take(OLD, view(19))
        newest.take(OLD, view(20))
        self.assertRaises(Past, newest.take, NEW, view(19))

    def test_one_address_may_go_back(self) -> None:
        """Its store was restored; then another address is compared with its view."""
        newest = Newest()
        for steps in (20, 5):
            newest.take(NEW, view(steps))
        newest.take(OLD, view(5))

    def test_an_order_makes_an_address_count(self) -> None:
        """It counts if the order's step is new at that address: an old coordinator repeats an old reply."""
        newest = Newest()
        newest.take(NEW, view(20))
        self.assertRaises(Past, newest.take, OLD, view(9, accepted=10))
        newest.note_order(OLD, 10)
        self.assertRaises(Past, newest.take, OLD, view(9, accepted=10))
        newest.note_order(OLD, 11)
        newest.take(OLD, view(11))
        self.assertRaises(Past, newest.take, NEW, view(10))

    def test_an_order_counts_as_a_look(self) -> None:
        newest = Newest()
        newest.take(OLD, view(10))
        newest.note_order(NEW, 11)
        self.assertRaises(Past, newest.take, OLD, view(10))


class Ports(Case):
    """A coordinator that was replaced answers looks, but no order."""

    def setUp(self) -> None:
        super().setUp()
        self.old, self.new = self.server, self.started()
        for server in (self.old, self.new):
            server.ring(2)
        self.new.by_somebody("reset", node=1)
        self.old.is_stopped = False

    def old_answers_looks_alone(self) -> None:
        respond = self.old.respond
        self.old.respond = lambda line: respond(line) if b'"show"' in line else '{"name":"Stopped","refused":1}'

    def test_the_client_stays_with_the_one_that_answered_its_order(self) -> None:
        """While that address is away, no look is answered by the old one."""
        self.old_answers_looks_alone()
        port = Port(f"{self.old.address},{self.new.address}", 120)
        self.assertEqual(port.ask({"op": "confirm", "client": 3, "number": 1, "node": 2, "epoch": 1})["kind"], "done")
        confirmed = [port.show().nodes[1].confirmed]
        self.new.faults = ["lose"]
        self.assertRaises(Past, port.show)
        confirmed += [port.show().nodes[1].confirmed for _ in range(2)]
        self.assertEqual(confirmed, [1, 1, 1])

    def test_the_newest_is_retried(self) -> None:
        port = Port(f"{self.new.address},{self.old.address}", 120)
        self.assertEqual(port.show().nodes[0].epoch, 1)
        self.new.faults = ["lose"]
        self.assertRaises(Past, port.show)
        self.assertEqual(port.show().nodes[0].epoch, 1)

    def test_a_member_that_is_shown_a_past_for_long_finds_out(self) -> None:
        """The coordinator is lost, and another one serves an older copy of its store. It carries out a reset, and so it counts."""
        port = Port(f"{self.new.address},{self.old.address}", 120)
        member = Member(port, self.orders_of(port), 1, None, lambda epoch: None, told=self.messages.append)
        member.look()
        self.new.faults = ["lose"] * 10_000
        member.past_seconds = 0.2
        following = threading.Thread(target=member.follow, args=(Silent(), 30.0), daemon=True)
        following.start()
        for _ in range(600):
            if self.old.row(1)[2]:
                break
            threading.Event().wait(0.1)
        self.assertGreater(self.old.row(1)[2], 0, self.messages)
        member.stop()
        following.join(60)

    def orders_of(self, port: Port) -> Orders:
        orders = Orders(port, 1, f"{self.folder}/past", recovers=True, told=self.messages.append)
        self.addCleanup(orders.close)
        return orders


class Silent:
    """A source without wake-ups."""

    def wait(self, seconds: float) -> Wake:
        threading.Event().wait(seconds)
        return Wake.QUIET


class Proxies(Case):
    """The same for proxies that push views."""

    def setUp(self) -> None:
        super().setUp()
        self.old, self.new = Fake(), Fake()
        self.paths = [f"{self.folder}/old", f"{self.folder}/new"]
        for server, path in zip((self.old, self.new), self.paths):
            self.addCleanup(server.close)
            server.ring(2)
        self.new.by_somebody("reset", node=1)
        self.proxies = [of_unix(server, path) for server, path in zip((self.old, self.new), self.paths)]
        for proxy in self.proxies:
            self.addCleanup(proxy.close)

    def test_an_older_view_is_not_taken(self) -> None:
        port = Port(f"unix:{self.paths[1]},unix:{self.paths[0]}", 30)
        watched = Watched(port)
        self.addCleanup(watched.close)
        self.assertIs(watched.wait(60), Wake.CAME)
        self.assertEqual(epoch_of(watched.take()), 1)
        self.proxies[1].drop()
        self.assertIs(watched.wait(60), Wake.CAME)  # it has skipped the old one
        self.assertEqual(epoch_of(watched.take()), 1)

    def test_a_look_is_no_older_than_a_view_that_was_pushed(self) -> None:
        """Looks and pushed views share one count: after the new proxy has pushed a view, a look finds the old proxy, which
        returned later."""
        self.proxies[0].close()
        with AtFront(Port(f"unix:{self.folder}/later,unix:{self.paths[1]}", 30), f"{self.folder}/m") as orders:
            self.assertIs(orders.wait(60), Wake.CAME)
            self.addCleanup(of_unix(self.old, f"{self.folder}/later").close)
            self.assertEqual(orders.port.show().nodes[0].epoch, 1)
            self.assertEqual(epoch_of(orders.take()), 1)


def epoch_of(view: View | None) -> int:
    assert view
    return view.nodes[0].epoch


class Looks(unittest.TestCase):
    """Two members that follow the rule are shown moments of one ledger; the second one loses its files once."""

    def views(self) -> tuple[View, View]:
        """The views before and after node 2 is confirmed."""
        before, after = (View.of({"accepted": 9 + confirmed, "settled": 9 + confirmed, "links": [[1, 2, 3]],
                                  "nodes": [[node, 1, "ready", 0, 1, confirmed] for node in (1, 2)]}) for confirmed in (0, 1))
        return before, after

    def starts_heard_of(self, after_the_loss: list[View]) -> int:
        """Returns the number of starts of member 2 whose messages member 1 accepts in one run."""
        before, after = self.views()
        heard, names = set[int](), iter(range(1, 9))
        first = Judged()
        second, own = Judged(), 0
        for shown in (before, after):
            first.look(shown, 1)
            own = next(names) if second.look(shown, 2) is Due.BEGIN else own
        heard |= {own} if is_same_run(first.tag, second.tag) else set()
        second = Judged()
        for shown in after_the_loss:
            own = next(names) if second.look(shown, 2) is Due.BEGIN else own
        heard |= {own} if is_same_run(first.tag, second.tag) else set()
        return len(heard)

    def test_why_looks_must_not_go_back(self) -> None:
        before, after = self.views()
        self.assertEqual((self.starts_heard_of([after]), self.starts_heard_of([before, after])), (1, 2))

    def test_the_client_refuses_the_older_look(self) -> None:
        before, after = self.views()
        newest = Newest()
        newest.take(NEW, after)
        self.assertRaises(Past, newest.take, OLD, before)


class Judged:
    """The values that a member keeps by the rule alone."""

    def __init__(self) -> None:
        self.kept, self.history, self.tag = Kept(), set[str](), ""

    def look(self, view: View, node: int) -> Due:
        row = view.node(node)
        assert row
        judged = judge(self.kept, self.history, shown_to(view, row))
        self.kept, self.tag = judged.kept, ""
        if judged.due is Due.BEGIN:
            self.kept = Kept(row.epoch)
        if judged.due is Due.TALK and judged.kept.party is not None:
            self.history |= {judged.digest} if judged.digest else set()
            self.tag = tag_of(judged.kept.party, view.party(node))
        return judged.due


if __name__ == "__main__":
    unittest.main()
