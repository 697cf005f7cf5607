"""Orders and other lines: the reply, the repeat and the refusals of each kind, and what a start finds in a store."""

import itertools

from support import stores
from support.case import until
from support.program import Ended, ran
from support.served import DONE, FINISHED, STARTED, Served, answered, refused
from support.serving import Answer, Serving
from support.stores import ring, topology


class Orders(Served):
    """Each kind of order is sent, sent again, and refused."""

    def test_an_order_of_each_kind_is_repeated(self) -> None:
        orders = [("add", {"node": 1, "group": 1}, DONE), ("add", {"node": 2, "group": 1}, DONE),
                  ("join", {"a": 1, "b": 2}, DONE), ("drop", {"a": 2, "b": 1}, DONE), ("reset", {"node": 1}, FINISHED),
                  ("confirm", {"node": 1, "epoch": 1}, DONE), ("remove", {"node": 2}, DONE)]
        with Serving(self.made("")) as server:
            for step, (op, members, kind) in enumerate(orders, 1):
                for _ in range(3):
                    self.assertEqual(server.order(step, op, **members), answered(kind, step))
                self.assertEqual(server.show()["accepted"], step)
                # the number was used for another order, and the one before it is no longer kept
                self.assertEqual(server.order(step, "add", node=64, group=1), refused(5, "NumberReused"))
                self.assertEqual(server.order(step - 1, op, **members), refused(4, "OutOfTurn"))
                self.assertEqual(server.order(step + 2, op, **members), refused(4, "OutOfTurn"))
            self.assertEqual(server.show(), {"accepted": 7, "links": [], "nodes": [[1, 1, "ready", 0, 1, 1]], "settled": 7})
            self.expect_closed(server, 1)
            self.assertEqual(server.signals(), [(1, 1)])

    def test_each_kind_by_each_client(self) -> None:
        """All are sent in one packet. Each client has its own nodes, up to the greatest, and its own numbers."""
        with Serving(self.made("")) as server, server.connect() as connection:
            step = 0
            for client in range(1, 17):
                first, second = client, 65 - client
                orders = [("add", {"node": first, "group": client}, DONE), ("add", {"node": second, "group": client}, DONE),
                          ("join", {"a": second, "b": first}, DONE), ("drop", {"a": first, "b": second}, DONE),
                          ("reset", {"node": second}, FINISHED), ("confirm", {"node": second, "epoch": 1}, DONE),
                          ("remove", {"node": first}, DONE)]
                connection.send(*({"op": op, "client": client, "number": number, **members}
                                  for number, (op, members, _) in enumerate(orders, 1)))
                for _, _, kind in orders:
                    step += 1
                    self.assertEqual(connection.reply(), answered(kind, step))
            connection.socket.close()
            self.assertEqual(server.show(), {"accepted": step, "links": [], "settled": step, "nodes": [
                [node, 65 - node, "ready", 0, 1, 1] for node in range(49, 65)]})
            self.expect_closed(server, 16)
            self.assertEqual(server.signals(), [(65 - client, 1) for client in range(1, 17)])

    def test_one_link_of_several(self) -> None:
        """One link is dropped, and becomes another one when it is joined again."""
        with Serving(self.made(ring(5))) as server:
            before = server.show()["links"]
            for number, (a, b) in enumerate(((3, 4), (5, 1)), 1):
                self.assertEqual(server.order(2 * number - 1, "drop", a=a, b=b), answered(DONE, 10 + 2 * number - 1))
                rest = [link for link in before if link[:2] != sorted((a, b))]
                self.assertEqual(server.show()["links"], rest)
                self.assertEqual(server.order(2 * number, "join", a=b, b=a), answered(DONE, 10 + 2 * number))
                before = sorted([*rest, [*sorted((a, b)), 10 + 2 * number]])
                self.assertEqual(server.show()["links"], before)
            self.assertEqual(server.order(5, "reset", node=2)["kind"], STARTED)
            server.await_quiet(1)
            self.expect_closed(server, 5)

    def test_a_reset_is_started_once(self) -> None:
        with Serving(self.made(ring(4))) as server:
            first = server.order(1, "reset", node=3)
            self.assertEqual(first, answered(STARTED, 9))
            for _ in range(5):
                self.assertEqual(server.order(1, "reset", node=3), first)
            server.await_quiet(1)
            self.assertEqual(server.order(1, "reset", node=3), first)
            self.expect_each_signal_once(server)
            self.expect_closed(server, 4)

    def test_orders_are_kept_over_a_close_and_a_kill(self) -> None:
        store = self.made(ring(4))
        with Serving(store) as server:
            replies = [server.order(1, "reset", client, node=1) for client in range(1, 17) if client != 16]
            server.await_quiet()
            server.close()
        for end in ("kill", "close"):
            with Serving(store) as server:
                self.assertEqual([server.order(1, "reset", client, node=1) for client in range(1, 16)], replies)
                getattr(server, end)()

    def test_refusals(self) -> None:
        nodes = [(node, 1) for node in range(1, 19)] + [(64, 2)]
        links = [(1, node) for node in range(2, 18)]
        refusals = [
            ("reset", {"node": 63}, refused(6, "UnknownNode")), ("remove", {"node": 63}, refused(6, "UnknownNode")),
            ("join", {"a": 1, "b": 63}, refused(6, "UnknownNode")),
            ("confirm", {"node": 63, "epoch": 1}, refused(6, "UnknownNode")),
            ("add", {"node": 64, "group": 1}, refused(7, "NodeExists")), ("remove", {"node": 17}, refused(8, "HasLinks")),
            ("join", {"a": 18, "b": 18}, refused(9, "SameNode")), ("drop", {"a": 18, "b": 18}, refused(9, "SameNode")),
            ("join", {"a": 18, "b": 64}, refused(10, "OtherGroup")), ("join", {"a": 17, "b": 1}, refused(11, "LinkExists")),
            ("drop", {"a": 18, "b": 1}, refused(12, "NoLink")), ("join", {"a": 18, "b": 1}, refused(13, "DegreeFull")),
            ("confirm", {"node": 18, "epoch": 0}, refused(15, "BadEpoch")),
            ("confirm", {"node": 18, "epoch": 1}, refused(15, "BadEpoch")),
        ]
        with Serving(self.made(topology(nodes, links))) as server:
            for op, members, answer in refusals:
                self.assertEqual(server.order(1, op, **members), answer)
            # a refused order's number can be used again
            self.assertEqual(server.order(1, "remove", node=18), answered(DONE, len(nodes) + len(links) + 1))

    def test_as_many_links_as_there_may_be(self) -> None:
        """One more link is refused, and there is room for it once another one is dropped."""
        links = [(node, (node + far - 1) % 64 + 1) for far in (1, 2) for node in range(1, 65)]
        with Serving(self.made(topology([(node, 1) for node in range(1, 65)], links))) as server:
            self.assertEqual(server.order(1, "join", a=1, b=33), refused(14, "LinksFull"))
            self.assertEqual(server.order(1, "drop", a=64, b=2), answered(DONE, 193))
            self.assertEqual(server.order(2, "join", a=33, b=1), answered(DONE, 194))
            self.assertEqual(server.order(3, "join", a=64, b=2), refused(14, "LinksFull"))

    def test_lines_with_a_fault(self) -> None:
        """Each line gets its reply, and the connection continues."""
        lines = {
            b"x" * 513 + b"\n": "TooLong", b"x" * 100_000 + b"\n": "TooLong", b"\xff\n": "BadText", b"{\n": "BadJson",
            b"\n": "BadJson", b"[]\n": "BadRequest", b"{}\n": "BadRequest",
            b'{"op":1}\n': "BadRequest", b'{"op":"fly"}\n': "UnknownOp",
            b'{"op":"show","client":1}\n': "BadRequest", b'{"op":"reset","client":17,"number":1,"node":1}\n': "BadRequest",
            b'{"op":"reset","client":1,"number":1,"node":65}\n': "BadRequest",
            b'{"op":"reset","client":1,"number":-1,"node":1}\n': "BadRequest",
            b'{"op":"reset","client":1,"number":1.0,"node":1}\n': "BadRequest",
            b'{"op":"reset","client":1,"number":1}\n': "BadRequest",
            b'{"op":"show"} {}\n': "BadJson", b'{op:"show"}\n': "BadJson", b'{"op":"show",}\n': "BadJson",
            b'{"op":"reset","client":1,"number":1e999,"node":1}\n': "BadJson",
            b'{"op":"reset","client":1,"number":01,"node":1}\n': "BadJson", b"null\n": "BadRequest",
            b'{"op":"reset","client":1,"number":"1","node":1}\n': "BadRequest",
            b'{"op":"reset","client":1,"number":1e0,"node":1}\n': "BadRequest",
            b'{"op":"reset","client":1,"number":-0,"node":1}\n': "BadRequest",
            b'{"op":"reset","client":1,"number":18446744073709551616,"node":1}\n': "BadRequest",
            b'{"op":"reset","client":1,"number":1,"node":1,"node":65}\n': "BadRequest",
            b'{"op":"drop","client":1,"number":1,"a":1,"b":0}\n': "BadRequest",
            # of the bytes that are no letters, JSON accepts only four as spaces
            **{b'{"op":"show"}%c\n' % byte: "BadText" if byte > 127 else "BadJson"
               for byte in (0, 1, 8, 11, 12, 27, 31, 127, 128, 160)},
            b'\0{"op":"show"}\n': "BadJson", b'{"op":\0"show"}\n': "BadJson", b'{"op":"sh\0ow"}\n': "BadJson",
            b"\0\n": "BadJson",
            b'\xef\xbb\xbf{"op":"show"}\n': "BadJson", b'{"op":"show\\u0000"}\n': "UnknownOp",
        }
        with Serving(self.made("")) as server, server.connect() as connection:
            for line, name in lines.items():
                connection.send(line)
                self.assertEqual((line[:60], connection.line()), (line[:60], b'{"fault":"%s"}\n' % name.encode()))
            connection.send(*lines)
            self.assertEqual([connection.reply()["fault"] for _ in lines], list(lines.values()))
            connection.send({"op": "resend"})
            self.assertEqual(connection.line(), b'{"count":0,"kind":"resent"}\n')

    def test_the_limit_of_a_line(self) -> None:
        """A line of at most 512 bytes is read, whether it is an order, another request, or no JSON. A carriage return counts."""
        order, unknown = b'{"op":"reset","client":1,"number":1,"node":1}', refused(6, "UnknownNode")
        with Serving(self.made("")) as server, server.connect() as connection:
            for ending in (b"\n", b"\r\n"):
                for length, fault in ((511, None), (512, None), (513, "TooLong"), (1_025, "TooLong")):
                    room = length - len(ending) + 1
                    connection.send(order.ljust(room) + ending, b" " * (room - len(order)) + order + ending,
                                    b"[".ljust(room) + ending, b"\xff" * room + ending, b"[" * room + ending,
                                    b'{"op":"resend"}'.rjust(room) + ending)
                    replies = [connection.reply() for _ in range(6)]
                    wanted = [unknown, unknown, {"fault": "BadJson"}, {"fault": "BadText"}, {"fault": "BadJson"},
                              {"count": 0, "kind": "resent"}]
                    self.assertEqual((length, replies), (length, [{"fault": fault}] * 6 if fault else wanted))

    def test_other_spellings_of_a_line(self) -> None:
        """A carriage return is a space, an escape is its letter, and of two members with one name the last one counts."""
        shown = '{"accepted":0,"links":[],"nodes":[],"settled":0}'
        unknown, late = '{"name":"UnknownNode","refused":6}', '{"name":"OutOfTurn","refused":4}'
        lines = {b'{"op":"show"}\r\n': shown, b'{"op":"fly","op":"\\u0073how"}\n': shown,
                 b'{"op":"reset","client":1,"number":1,"node":65,"node":1}\n': unknown,
                 b'{"op":"reset","client":1,"number":18446744073709551615,"node":1}\n': late,
                 b'{"op":"confirm","client":16,"number":1,"node":64,"epoch":0}\n': unknown}
        with Serving(self.made("")) as server, server.connect() as connection:
            for line, answer in lines.items():
                connection.send(line)
                self.assertEqual((line, connection.line().decode()), (line, answer + "\n"))

    def test_the_text_of_every_answer(self) -> None:
        """It is compact, with its members in the order of their names."""
        with Serving(self.made(topology([(1, 1), (2, 1)], [(1, 2)]))) as server, server.connect() as connection:
            texts: list[tuple[Answer, str]] = [
                ({"op": "show"}, '{"accepted":3,"links":[[1,2,3]],'
                                 '"nodes":[[1,1,"ready",0,0,0],[2,1,"ready",0,0,0]],"settled":3}'),
                ({"op": "remove", "client": 1, "number": 1, "node": 1}, '{"name":"HasLinks","refused":8}'),
                ({"op": "reset", "client": 1, "number": 1, "node": 1}, '{"kind":"started","step":4}'),
                ({"op": "close"}, '{"kind":"closed"}')]
            for request, text in texts:
                connection.send(request)
                self.assertEqual(connection.line().decode(), text + "\n")
            self.assertEqual(connection.rest(), [])


class Stores(Served):
    def test_a_reset_that_was_begun_before_the_start_goes_on(self) -> None:
        """The packets that a crash may have lost are sent again, for stores of both versions."""
        for version in (1, 2):
            rows = [stores.node(1, stores.ABORT, awaits=[2], version=version), stores.node(2, version=version)]
            lane = (0, 0, [stores.abort(1, version)])
            content = stores.store(stores.world(4, rows, [stores.link(1, 2, 3, lane)]), version)
            with self.subTest(version=version), Serving(self.write(f"store{version}", content)) as server:
                server.await_quiet(1)
                self.expect_each_signal_once(server)
                self.expect_closed(server, 2)
                self.assertEqual(stores.version_of(server.store), version)

    def test_all_that_may_be_lost_is_sent_again(self) -> None:
        """There is a front on each of 256 lanes. Those to the nodes whose number is divisible by 8, which belong to one worker,
        are still to be taken. Those from them were taken, and their receipts may be lost."""
        others = [node for node in range(1, 65) if node % 8]
        pairs = sorted(tuple(sorted((8 * hub, others[(7 * hub + near) % 56]))) for hub in range(1, 9) for near in range(16))
        sent, taken = (0, 0, [stores.IS_READY]), (0, 1, [stores.IS_READY])
        for version in (1, 2):
            rows = [stores.node(at, epoch=3, version=version) for at in range(1, 65)]
            links = [stores.link(a, b, 65 + place, *((sent, taken) if b % 8 == 0 else (taken, sent)))
                     for place, (a, b) in enumerate(pairs)]
            content = stores.store(stores.world(1_000, rows, links), version)
            with self.subTest(version=version), Serving(self.write(f"store{version}", content)) as server:
                # each is taken, unless it was taken before, and its receipt clears it; nobody sends it again meanwhile
                until("each packet", lambda: bool(server.show()["settled"] == 1_000 + 128 + 256))
                self.assertEqual(server.ask({"op": "resend"}), {"count": 0, "kind": "resent"})
                self.expect_closed(server, 0)

    def test_the_longest_texts(self) -> None:
        """They have the maximum numbers of nodes and links, with numbers of 13 digits: by `show`, and over the port."""
        most, pairs = stores.MOST_STEPS, [(a, b) for a in range(1, 65) for b in range(a, 65) if b - a in (1, 2, 62, 63)]
        rows = [stores.node(at, epoch=most - at, confirmed=most - 64 - at, version=2) for at in range(1, 65)]
        links = [stores.link(a, b, most - place) for place, (a, b) in enumerate(pairs)]
        path = self.write("store", stores.store(stores.world(most, rows, links), version=2))
        nodes = [[at, 1, "ready", 0, most - at, most - 64 - at] for at in range(1, 65)]
        joined = [[a, b, most - place] for place, (a, b) in enumerate(pairs)]
        lines = [["view", most, most], *(["node", *row] for row in nodes), *(["link", *row] for row in joined)]
        self.assertEqual(ran("show", path), Ended(0, "".join(" ".join(map(str, line)) + "\n" for line in lines), ""))
        with Serving(path) as server:
            self.assertEqual(server.show(), {"accepted": most, "links": joined, "nodes": nodes, "settled": most})
            self.expect_closed(server, 0)

    def test_packets_between_any_two_nodes(self) -> None:
        """Each two of the 64 nodes are linked once, as many at a time as possible. Each lane's front is sent at the start,
        taken and cleared."""
        rows, lane = [stores.node(at, epoch=3, version=2) for at in range(1, 65)], (0, 0, [stores.IS_READY])
        # nodes at the same distance on a ring are linked together, so that no node has more than 16 links at a time
        pairs = sorted(itertools.combinations(range(1, 65), 2), key=lambda ends: min(ends[1] - ends[0], 64 + ends[0] - ends[1]))
        for first in range(0, len(pairs), 128):
            some = sorted(pairs[first:first + 128])
            links = [stores.link(a, b, 65 + place, lane, lane) for place, (a, b) in enumerate(some)]
            with Serving(self.write("store", stores.store(stores.world(1_000, rows, links), version=2))) as server:
                until("each packet", lambda: bool(server.show()["settled"] == 1_000 + 4 * len(some)), 60)
                self.expect_closed(server, 0)

    def test_a_store_that_has_served_for_long(self) -> None:
        """The numbers of steps, epochs, packets and orders are great, and a wave continues from them."""
        first, second, number, count = 2**39, 2**39 + 7, 2**36, 2**40 - 1_000
        rows = [stores.node(1, epoch=first, confirmed=first - 1, version=2), stores.node(64, epoch=second, version=2)]
        links = [stores.link(1, 64, 2**37, (2**38, 2**38, []), (2**35, 2**35, []))]
        # the last order of client 3 was a reset of node 1, which finished
        session = b"\1\3" + stores.wide(number) + b"\4\1" + stores.wide(number + 9) + b"\2"
        content = stores.store(stores.world(count, rows, links)[:-1] + session, version=2)
        with Serving(self.write("store", content)) as server:
            self.assertEqual(server.order(number, "reset", 3, node=1), answered(FINISHED, number + 9))
            self.assertEqual(server.order(number + 1, "reset", 3, node=1), answered(STARTED, count + 1))
            self.assertEqual(sorted(server.await_signals(2)), [(1, first + 1), (64, second + 1)])
            server.await_quiet()
            accepted = server.show()["accepted"]
            self.assertEqual(server.order(number + 2, "confirm", 3, node=64, epoch=second + 1), answered(DONE, accepted + 1))
            self.assertEqual([row[4:6] for row in server.show()["nodes"]], [[first + 1, first - 1], [second + 1] * 2])
            self.expect_closed(server, 2)

    def test_the_last_steps_of_a_store(self) -> None:
        """As many resets as there are steps left are carried out, although they arrive together with more. Then each order is
        refused."""
        left, more = 256, 44
        content = stores.store(stores.world(2**40 - left, [stores.node(1, version=2)]), version=2)
        with Serving(self.write("store", content)) as server:
            for _ in range(2):
                with server.connect() as connection:
                    connection.send(*({"op": "reset", "client": 1, "number": number, "node": 1}
                                      for number in range(1, left + more + 1)))
                    replies = [connection.reply() for _ in range(left + more)]
                # the first order that is refused frees its number, so the others are out of turn
                refusals = [refused(3, "Exhausted")] * more
                self.assertEqual(replies[left:], refusals)
                self.assertEqual(replies[left - 1], answered(FINISHED, 2**40))
            self.expect_closed(server, left)
        self.assertEqual(ran("show", server.store).printed, f"view {2**40} {2**40}\nnode 1 1 ready 0 {left} 0\n")

    def test_the_longest_world(self) -> None:
        """The world is shown whole, and each lane has a packet and a receipt to be sent again. It takes no further step."""
        with Serving(self.write("store", stores.store(stores.longest_world(), version=2))) as server, \
                server.connect() as connection:
            for _ in range(2):
                connection.send({"op": "show"}, {"op": "resend"}, {"op": "reset", "client": 1, "number": 1_026, "node": 1})
                shown = connection.reply()
                self.assertEqual((shown["accepted"], shown["settled"]), (2**40, 2**40))
                self.assertEqual(shown["nodes"], [[node, 1, "abort", 0, 512 + node, 256 + node] for node in range(1, 65)])
                self.assertEqual(len(shown["links"]), 128)
                self.assertEqual(connection.reply(), {"count": 512, "kind": "resent"})
                self.assertEqual(connection.reply(), refused(3, "Exhausted"))
            connection.socket.close()
            self.expect_closed(server, 0)

    def test_numbers_of_every_size(self) -> None:
        """The numbers of steps, epochs, packets, links and orders cross each power of ten and some of two in a wave over a
        link."""
        sizes = [10**power for power in range(1, 13)] + [2**power for power in (8, 12, 15, 16, 20, 24, 28, 31, 32, 33, 36)]
        for size in sizes:
            rows = [stores.node(1, epoch=size - 1, confirmed=size - 2, version=2), stores.node(64, epoch=size, version=2)]
            links = [stores.link(1, 64, size, (size - 1, size - 1, []), (size - 1, size - 1, []))]
            asked = b"\4\1"  # a reset of node 1, which was finished
            clients = [stores.client(3, size - 1, asked, size - 1, 2)]
            content = stores.store(stores.world(size + 1, rows, links, clients), version=2)
            with self.subTest(size=size), Serving(self.write("store", content), output=self.path(f"{size}")) as server:
                self.assertEqual(server.order(size, "reset", 3, node=1), answered(STARTED, size + 2))
                self.assertEqual(sorted(server.await_signals(2)), [(1, size), (64, size + 1)])
                server.await_quiet()
                self.assertEqual(server.show(), {"accepted": size + 8, "links": [[1, 64, size]], "settled": size + 8, "nodes": [
                    [1, 1, "ready", 0, size, size - 2], [64, 1, "ready", 0, size + 1, 0]]})
                self.assertEqual(server.order(size + 1, "confirm", 3, node=64, epoch=size + 1), answered(DONE, size + 9))
                self.assertEqual(server.close().status, 0)

    def test_a_store_of_version_1_stays_so(self) -> None:
        path = self.write("store", stores.store())
        with Serving(path) as server:
            for number in range(1, 400, 2):
                self.assertEqual(server.order(number, "add", node=1, group=1), answered(DONE, number))
                self.assertEqual(server.order(number + 1, "remove", node=1), answered(DONE, number + 1))
            server.close()
        self.assertEqual((stores.version_of(path), ran("check", path).printed), (1, "legal 400\n"))
