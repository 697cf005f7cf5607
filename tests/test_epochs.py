"""Resets through many epochs: every signal is printed once and in order, far beyond the first ones."""

import os
import resource

from support import stores
from support.program import Ended, ran
from support.served import FINISHED, JOINED, STARTED, Served, answered
from support.serving import Serving
from support.stores import ring, topology


CLOSING = 60  # processor seconds within which an instance with this many steps is closed: about 1, but 500 if each step is searched for


class Epochs(Served):
    takes = 20

    def test_a_ring_of_8_through_20_epochs(self) -> None:
        """One wave follows another, each begun at another node."""
        with Serving(self.made(ring(8))) as server:
            for epoch in range(1, 21):
                reply = server.order(epoch, "reset", node=(epoch * 3) % 8 + 1)
                self.assertEqual(reply["kind"], STARTED)
                server.await_quiet(epoch)
                wave = server.await_signals(8 * epoch)[8 * (epoch - 1):]
                self.assertEqual(sorted(wave), [(node, epoch) for node in range(1, 9)])
                self.assertEqual(wave[0][0], (epoch * 3) % 8 + 1, "a wave's first node is signalled first")
            self.expect_each_signal_once(server)
            self.expect_closed(server, 8 * 20)

    def test_the_links_of_high_nodes(self) -> None:
        """In a ring of 64, every node has a worker that carries its packets."""
        with Serving(self.made(ring(64))) as server:
            for epoch in range(1, 5):
                self.assertEqual(server.order(epoch, "reset", node=65 - epoch * 16)["kind"], STARTED)
                server.await_quiet(epoch)
            self.expect_each_signal_once(server)
            self.expect_closed(server, 64 * 4)

    def test_the_longest_way(self) -> None:
        """In a row of 64 nodes, the last one is 63 links away from the first."""
        row = topology([(node, 1) for node in range(1, 65)], [(node, node + 1) for node in range(1, 64)])
        with Serving(self.made(row)) as server:
            for epoch, node in enumerate((1, 64), 1):
                self.assertEqual(server.order(epoch, "reset", node=node)["kind"], STARTED)
                server.await_signals(64 * epoch)
            self.expect_each_signal_once(server)
            self.expect_closed(server, 64 * 2)

    def test_signals_come_in_the_order_of_their_steps(self) -> None:
        """The signals of one flight are in that order too, whichever nodes they belong to."""
        nodes = [7, 64, 1, 8, 9, 33, 2, 63]
        with Serving(self.made(topology([(node, 1) for node in nodes]))) as server, server.connect() as connection:
            numbers = range(1, 1_001)
            order = [nodes[number * number % 8] for number in numbers]
            connection.send(*({"op": "reset", "client": 1, "number": number, "node": node}
                              for number, node in zip(numbers, order)))
            self.assertEqual([connection.reply() for _ in numbers], [answered(FINISHED, 8 + number) for number in numbers])
            connection.socket.close()
            signals = server.await_signals(1_000)
            self.assertEqual([node for node, _ in signals], order)
            self.expect_each_signal_once(server)
            self.expect_closed(server, 1_000)

    def test_several_that_ask_at_once(self) -> None:
        """Several members begin or join one wave: each node has as many signals as its epoch says."""
        with Serving(self.made(ring(16))) as server:
            for number in range(1, 11):
                for client in range(1, 9):
                    self.assertIn(server.order(number, "reset", client, node=2 * client)["kind"], (STARTED, JOINED))
            server.await_quiet()
            self.expect_each_signal_once(server)


class ManySignals(Served):
    takes = 15

    def test_one_node_that_is_reset_a_thousand_times(self) -> None:
        with Serving(self.made(topology([(64, 16)], half=stores.HALF))) as server, server.connect() as connection:
            for first in range(1, 1_001, 50):
                numbers = range(first, first + 50)
                connection.send(*({"op": "reset", "client": 2, "number": number, "node": 64} for number in numbers))
                for number in numbers:
                    self.assertEqual(connection.reply(), answered(FINISHED, 1 + number))
            self.assertEqual(server.await_signals(1_000), [(64, epoch) for epoch in range(1, 1_001)])
            connection.send({"op": "close"})
            self.assertEqual(connection.rest(), [b'{"kind":"closed"}\n'])
            wanted = f"listening {server.address}\n" + "".join(f"signal 64 {epoch}\n" for epoch in range(1, 1_001))
            self.assertEqual(server.ended(), Ended(0, wanted, ""))
        self.assertEqual(ran("show", server.store).printed, "view 1001 1001\nnode 64 16 ready 0 1000 0\n")

    def test_seven_hundred_waves_over_one_link(self) -> None:
        """The packets are far beyond the first ones of a link: each wave takes two of one lane and one of the other."""
        waves = 700
        with Serving(self.made(topology([(1, 1), (2, 1)], [(1, 2)], stores.HALF))) as server, server.connect() as connection:
            for epoch in range(1, waves + 1):
                connection.send({"op": "reset", "client": 1, "number": epoch, "node": epoch % 2 + 1})
                self.assertEqual(connection.reply()["kind"], STARTED)
                server.await_signals(2 * epoch)
            connection.socket.close()
            server.await_quiet(waves)
            self.expect_each_signal_once(server)
            self.expect_closed(server, 2 * waves)


class ManySteps(Served):
    takes = 100
    most = 3_600

    def test_a_hundred_thousand_steps_in_one_instance(self) -> None:
        """All clients ask at once for waves over the maximum number of links."""
        links = [(node, (node + far - 1) % 64 + 1) for far in (1, 9) for node in range(1, 65)]
        store = self.made(topology([(node, 1) for node in range(1, 65)], links, 1_048_576))
        with Serving(store) as server:
            server.await_quiet()
            threads = os.listdir(f"/proc/{server.process.pid}/task")
            number, steps = 0, 0
            while steps < 110_000:
                number += 1
                with server.connect() as connection:
                    nodes = {client: (7 * client + number) % 64 + 1 for client in range(1, 16)}
                    connection.send(*({"op": "reset", "client": client, "number": number, "node": node}
                                      for client, node in nodes.items()))
                    self.assertLessEqual({connection.reply()["kind"] for _ in range(15)}, {STARTED, JOINED})
                server.await_quiet()
                steps = server.show()["accepted"]
            self.assertEqual(os.listdir(f"/proc/{server.process.pid}/task"), threads)
            self.expect_each_signal_once(server)
            before, ended = self.spent(server.process.pid), self.spent_by_ended()
            self.assertEqual(server.close().status, 0)
            self.assertLess(self.spent_by_ended() - ended - before, CLOSING)
        self.assertEqual(ran("check", store).printed, f"legal {steps}\n")

    @staticmethod
    def spent(process: int) -> float:
        """Returns the processor seconds of a running process, including those of the system for it."""
        with open(f"/proc/{process}/stat", encoding="ascii") as stat:
            ticks = stat.read().rpartition(")")[2].split()[11:13]
        return sum(map(int, ticks)) / os.sysconf("SC_CLK_TCK")

    @staticmethod
    def spent_by_ended() -> float:
        """Returns the processor seconds of all child processes that have ended."""
        spent = resource.getrusage(resource.RUSAGE_CHILDREN)
        return spent.ru_utime + spent.ru_stime
