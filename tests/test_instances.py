"""A server whose instances end after 32 steps: nothing that clients see changes with the instance."""

import contextlib
import os
import threading

from support.piped import Piped
from support.program import TIMEOUT, SHORT, SHORT_STEPS, Ended
from support.served import Served
from support.serving import Serving
from support.stores import ring, topology

INSTANCES = 50
MANY = 1_000  # lines, more than an instance takes, with fewer bytes than are discarded after its end
FLUSHER = 2  # the third thread in the order of starts; each instance has its own

# The time at which a thread was started, in ticks of the system's clock, and its number, which an earlier thread may have had.
Started = tuple[int, int]


def threads_of(process: int) -> list[Started]:
    """Returns the threads of a process, in the order in which they were started."""
    found = list[Started]()
    for thread in os.listdir(f"/proc/{process}/task"):
        # a thread that ends meanwhile is not counted
        with contextlib.suppress(FileNotFoundError, ProcessLookupError), open(f"/proc/{process}/task/{thread}/stat", encoding="utf-8") as file:
            found.append((int(file.read().rsplit(")", 1)[1].split()[19]), int(thread)))
    return sorted(found)


class Instances(Served):
    takes = 30
    program = SHORT
    programs = ("RESETD_SHORT",)

    def flusher(self, server: Serving) -> Started | None:
        """Returns the flusher of the present instance."""
        threads = threads_of(server.process.pid)
        return threads[FLUSHER] if len(threads) > FLUSHER else None

    def test_a_ring_through_fifty_instances(self) -> None:
        """Instances are counted as they are seen. All signals are printed, once and in order."""
        instances, epoch = set[Started | None](), 0
        with Serving(self.made(ring(8)), program=SHORT) as server:
            while len(instances) < INSTANCES and epoch < 400:
                epoch += 1
                self.assertEqual(server.order(epoch, "reset", node=epoch % 8 + 1)["kind"], "started")
                instances.add(self.flusher(server))
                server.await_quiet(epoch)
                instances.add(self.flusher(server))
            self.assertGreaterEqual(len(instances), INSTANCES)
            self.assertGreaterEqual(server.show()["accepted"], INSTANCES * SHORT_STEPS // 2)
            self.expect_each_signal_once(server)
            self.expect_closed(server, 8 * epoch)

    def test_a_hundred_and_fifty_instances(self) -> None:
        """Each connection has its own instance, and there are never more threads than in the first one."""
        with Serving(self.made(topology([(1, 1)])), program=SHORT) as server:
            instances, threads, count = set(), set(), 150 * SHORT_STEPS
            for first in range(1, count, SHORT_STEPS):
                numbers = range(first, first + SHORT_STEPS)
                with server.connect() as connection:
                    connection.send(*({"op": "reset", "client": 1, "number": number, "node": 1} for number in numbers))
                    self.assertEqual([connection.reply()["step"] for _ in numbers], [1 + number for number in numbers])
                    instances.add(self.flusher(server))
                    threads.add(len(threads_of(server.process.pid)))
            self.assertEqual((len(instances), len(threads)), (150, 1))
            self.assertEqual(server.await_signals(count), [(1, epoch) for epoch in range(1, count + 1)])
            self.expect_closed(server, count)

    def test_orders_are_answered_the_same_in_a_later_instance(self) -> None:
        with Serving(self.made(topology([(1, 1), (2, 1)])), program=SHORT) as server:
            kept = [server.order(1, "reset", client, node=1) for client in range(2, 9)]
            first = self.flusher(server)
            for number in range(1, 200):
                self.assertEqual(server.order(number, "reset", node=2), {"kind": "finished", "step": 9 + number})
            self.assertNotEqual(self.flusher(server), first)
            self.assertEqual([server.order(1, "reset", client, node=1) for client in range(2, 9)], kept)
            wanted = [(1, epoch) for epoch in range(1, 8)] + [(2, epoch) for epoch in range(1, 200)]
            self.assertEqual(server.await_signals(206), wanted)
            self.expect_closed(server, 206)

    def test_a_connection_that_stays_is_ended_after_a_reply(self) -> None:
        """Whatever the client has sent, it can read all answers and then the end of the connection; it sends the rest again."""
        with Serving(self.made(topology([(1, 1)])), program=SHORT) as server:
            answered, connections = 0, 0
            while answered < 1_400:
                connections += 1
                with server.connect() as connection:
                    connection.send(*({"op": "reset", "client": 1, "number": number, "node": 1}
                                      for number in range(answered + 1, answered + MANY + 1)))
                    lines = connection.rest()
                # the instance was new, and is over at twice its steps; one read may have some more lines
                self.assertTrue(2 * SHORT_STEPS <= len(lines) < 3 * SHORT_STEPS, len(lines))
                for line in lines:
                    answered += 1
                    self.assertEqual(line, b'{"kind":"finished","step":%d}\n' % (answered + 1))
            self.assertGreater(connections, 1)
            self.assertEqual(server.close().status, 0)
            signals = server.signals()
            self.assertGreaterEqual(len(signals), answered)
            self.assertEqual(signals, [(1, epoch) for epoch in range(1, len(signals) + 1)])

    def test_a_close_after_many_instances(self) -> None:
        """The answer to a close can be read although lines follow it, and everything is settled."""
        with Serving(self.made(topology([(1, 1)])), program=SHORT) as server:
            for number in range(1, 101):
                server.order(number, "reset", node=1)
            with server.connect() as connection:
                connection.send(b'{"op":"close"}\n' + b'{"op":"show"}\n' * 2_000)
                self.assertEqual(connection.rest(), [b'{"kind":"closed"}\n'])
            ended = server.ended()
            self.assertEqual((ended.status, ended.fault, len(ended.printed.splitlines())), (0, "", 101))

    def test_an_output_that_is_not_read(self) -> None:
        """A slow output delays no answer and no next instance. What an instance has released is printed during later ones."""
        with Piped(self.made(topology([(1, 1)])), program=SHORT) as server:
            count = 20 * SHORT_STEPS
            for first in range(1, count, SHORT_STEPS):
                numbers = range(first, first + SHORT_STEPS)
                with server.connect() as connection:
                    connection.socket.settimeout(TIMEOUT)
                    connection.send(*({"op": "reset", "client": 1, "number": number, "node": 1} for number in numbers))
                    self.assertEqual([connection.reply()["step"] for _ in numbers], [1 + number for number in numbers])
            self.assertEqual(server.ask({"op": "close"}), {"kind": "closed"})
            server.read_on()
            signals = "".join(f"signal 1 {epoch}\n" for epoch in range(1, count + 1))
            self.assertEqual(server.ended(), Ended(0, f"listening {server.address}\n{signals}", ""))

    def test_two_clients_across_instances(self) -> None:
        """Each client waits for its turn, and each order is carried out once."""
        with Serving(self.made(topology([(1, 1), (2, 2)])), program=SHORT) as server:
            steps: dict[int, list[int]] = {1: [], 2: []}

            def orders(client: int) -> None:
                for number in range(1, 101):
                    steps[client].append(server.order(number, "reset", client, node=client)["step"])

            callers = [threading.Thread(target=orders, args=[client]) for client in steps]
            for caller in callers:
                caller.start()
            for caller in callers:
                caller.join()
            self.assertEqual(sorted(steps[1] + steps[2]), list(range(3, 203)))
            self.assertEqual([sorted(each) == each for each in steps.values()], [True, True])
            self.expect_each_signal_once(server)
