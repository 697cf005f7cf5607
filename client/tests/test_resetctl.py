"""`resetctl`, tried by its command lines."""

from __future__ import annotations

import io
import json
import os
import socket
import time
from contextlib import redirect_stderr, redirect_stdout
from unittest import mock

from case import ROOT, Case, over_both
from resetd_client.control import main, parser


class Controls(Case):
    def setUp(self) -> None:
        super().setUp()
        self.server.ring(2)

    def test_orders(self) -> None:
        status, out, _ = self.run_resetctl("reset", "1")
        self.assertEqual((status, out.split()[0]), (0, "started"))
        self.server.await_settled()
        for arguments, said in ((("confirm", "1", "1"), "done"), (("drop", "2", "1"), "done"), (("remove", "2"), "done"),
                                (("resend",), "resent"), (("--quiet", "reset", "1"), "")):
            status, out, _ = self.run_resetctl(*arguments)
            self.assertEqual((status, out.split()[:1]), (0, said.split()))
        self.assertEqual(self.run_resetctl("close")[:2], (0, "closed\n"))

    def test_what_becomes_of_the_files_of_a_node_that_is_removed(self) -> None:
        self.run_resetctl("drop", "1", "2")
        status, _, errors = self.run_resetctl("remove", "2")
        self.assertEqual(status, 0)
        self.assertIn("removed nodes: 2. If a node is removed for good", errors)
        self.run_resetctl("add", "2", "1")
        self.assertEqual(self.run_resetctl("--quiet", "remove", "2"), (0, "", ""))

    def test_a_refusal_says_what_was_found(self) -> None:
        for node in (3, 4):
            self.run_resetctl("add", str(node), str(node - 2))
        self.run_resetctl("join", "2", "3")
        self.run_resetctl("reset", "1")
        self.server.await_settled()
        self.run_resetctl("confirm", "1", "1")
        for arguments, said in (("add 1 1", "7 NodeExists: node 1 already exists, in group 1"),
                                ("reset 9", "6 UnknownNode: node 9 does not exist; the nodes are 1, 2, 3, 4"),
                                ("remove 2", "8 HasLinks: node 2 is linked with 1, 3: drop these links first"),
                                ("join 1 1", "9 SameNode: a link must join two different nodes"),
                                ("join 1 4", "10 OtherGroup: node 1 is in group 1, and node 4 is in group 2: to change a node's "
                                         "group, remove the node and add it again"),
                                ("join 1 2", "11 LinkExists: nodes 1 and 2 are already linked"),
                                ("drop 1 3", "12 NoLink: nodes 1 and 3 are not linked; node 1 is linked with 2"),
                                ("confirm 1 1", "15 BadEpoch: node 1 is at epoch 1, and its last confirmed epoch is 1")):
            self.assertEqual(self.run_resetctl(*arguments.split()), (1, "", f"resetctl: {said}\n"))

    def test_a_mistyped_number_locks_nothing(self) -> None:
        self.assertEqual(self.run_resetctl("reset", "1")[0], 0)
        self.server.await_settled()
        for arguments in ("reset 65", "reset 0", "reset -1", f"reset {'1' * 600}", f"reset {'1' * 5_000}", "add 1 17", "join 1 x",
                          f"confirm 1 {1 << 64}", "drop 1 65"):
            self.expect_wrong(*arguments.split())
        self.assertEqual(self.run_resetctl("reset", "2")[0], 0)
        self.server.await_settled()  # another reset would join one that still runs
        self.assertEqual(self.run_resetctl("reset", "2")[2], "")
        self.server.await_settled()
        self.assertEqual(self.server.row(1)[1], 3)

    def test_an_old_lock_of_a_mistyped_number_opens(self) -> None:
        folder = f"{self.folder}/{self.server.address.replace(':', '_')}/client-16"
        os.makedirs(folder)
        with open(f"{folder}/order.json", "w", encoding="utf-8") as file:
            json.dump({"number": self.server.last(16) + 1, "answered": False, "order": {"op": "reset", "node": 65}}, file)
        status, _, errors = self.run_resetctl("reset", "1")
        self.assertEqual((status, errors.count("reset 65")), (0, 2))
        self.assertEqual(self.run_resetctl("reset", "1")[2], "")

    def test_numbers_out_of_their_range(self) -> None:
        """The arguments are refused, and no request is sent."""
        for arguments in ("--seconds 0", "--seconds -1", "--seconds nan", "--seconds inf", "--seconds 1e300", "--patience -1",
                          "--patience nan", "--client 0", "--client 17", "--client x"):
            self.expect_wrong(*arguments.split(), "show")
        for arguments in ("watch --every 0", "watch --every -1", "watch --for -1", "watch --for nan", "health --steps -1",
                          "health --wave nan", "health --unconfirmed x", "count --most 0", "count --most -5", "count --most x",
                          "restored --fence x", f"restored --fence {1 << 63}"):
            self.expect_wrong(*arguments.split())
        self.assertEqual(self.run_resetctl("watch", "--for", "0"), (0, "", ""))

    def expect_wrong(self, *arguments: str) -> None:
        seen = len(self.server.seen)
        with self.subTest(arguments=arguments), self.assertRaises(SystemExit) as ended:
            self.run_resetctl(*arguments)
        self.assertEqual((ended.exception.code, len(self.server.seen)), (2, seen))

    def test_variables_of_the_environment(self) -> None:
        """An empty variable counts as absent, and an invalid client as a wrong argument."""
        names = ("RESETD_ADDRESS", "RESETD_CLIENT", "RESETCTL_STATE", "STATE_DIRECTORY", "XDG_STATE_HOME")
        with mock.patch.dict(os.environ, {"HOME": self.folder}):
            for name in names:
                os.environ.pop(name, None)
            usual = vars(parser().parse_args(["show"]))
            os.environ.update(dict.fromkeys(names, ""))
            self.assertEqual(vars(parser().parse_args(["show"])), usual)
            self.assertEqual((usual["client"], usual["state"]), (16, f"{self.folder}/.local/state/resetctl"))
            for client in ("x", "99"):
                os.environ["RESETD_CLIENT"] = client
                self.expect_wrong("show")
            os.environ["RESETD_CLIENT"] = "3"
            self.assertEqual(self.run_resetctl("count")[1], "client 3: 0\n")

    def test_two_people(self) -> None:
        for turn, person in enumerate(("alice", "bob", "alice", "alice", "bob", "bob", "alice")):
            status, out, errors = self.run_resetctl("--state", f"{self.folder}/{person}", "reset", "1")
            self.assertEqual((status, out.split()[0]), (0, "started"), errors)
            self.server.await_settled()
            self.assertEqual(self.server.row(1)[1], turn + 1)

    def test_two_people_who_order_the_same_and_something_else(self) -> None:
        self.run_resetctl("reset", "1")
        self.run_resetctl("--state", f"{self.folder}/bob", "add", "5", "1")
        self.assertEqual(self.run_resetctl("join", "2", "5")[0], 0)
        self.assertEqual(self.run_resetctl("--state", f"{self.folder}/bob", "drop", "2", "5")[0], 0)
        self.assertEqual(self.run_resetctl("remove", "5")[0], 0)

    def test_an_order_of_before_that_another_person_overtook_is_given_up(self) -> None:
        self.run_resetctl("reset", "1")
        self.server.faults = ["", "lose"]
        self.assertEqual(self.run_resetctl("reset", "2")[0], 3)
        self.run_resetctl("--state", f"{self.folder}/bob", "add", "5", "1")
        status, _, errors = self.run_resetctl("add", "6", "1")
        self.assertEqual(status, 0)
        self.assertIn("this order is not sent again", errors)
        self.server.await_settled()
        self.assertEqual(self.server.row(1)[1], 1)

    def test_the_count_of_another_person_is_found_by_hand_too(self) -> None:
        self.run_resetctl("reset", "1")
        self.run_resetctl("--state", f"{self.folder}/other", "reset", "1")
        last = self.server.last(16)
        self.assertEqual(self.run_resetctl("count")[:2], (0, f"client 16: {last}\n"))

    def test_an_order_that_had_no_answer_is_made_once(self) -> None:
        self.run_resetctl("reset", "1")
        self.server.await_settled()
        self.server.faults = ["", "mute"]
        self.assertEqual(self.run_resetctl("reset", "2")[0], 3)
        self.server.await_settled()
        status, _, errors = self.run_resetctl("confirm", "1", "1")
        self.assertEqual((status, self.server.row(1)), (0, [1, 2, 1]))
        self.assertIn("sending these orders again, because they had no answer: reset 2", errors)

    def test_no_silence(self) -> None:
        began = time.monotonic()
        status, _, errors = self.run_resetctl("--patience", "0.5", "show", address="127.0.0.1:1")
        self.assertEqual(status, 3)
        self.assertEqual(errors, "resetctl: no answer: 127.0.0.1:1: Connection refused; trying again for 0.5 s\n"
                               "resetctl: no answer: 127.0.0.1:1: Connection refused\n")
        self.assertLess(time.monotonic() - began, 25)  # without the arguments: 30

    def test_what_looks_waits_two_seconds(self) -> None:
        with socket.create_server(("127.0.0.1", 0)) as silent:
            address = f"127.0.0.1:{silent.getsockname()[1]}"
            for arguments in (["show"], ["health"], ["metrics"], ["diff", os.path.join(ROOT, "examples/ring.toml")]):
                began = time.monotonic()
                out, err = io.StringIO(), io.StringIO()
                with redirect_stdout(out), redirect_stderr(err):
                    main(["--address", address, "--state", self.folder, *arguments])
                self.assertTrue(1.5 < time.monotonic() - began < 19, arguments)  # for an order: 20 and more
                if arguments[0] == "show":
                    self.assertEqual(err.getvalue(), f"resetctl: waiting for an answer from {address}\nresetctl: no answer: {address}: "
                                     "connected, but got no answer for 2 s: another client may hold the server's only connection\n")

    def test_something_else_at_the_address(self) -> None:
        self.server.faults = ["<!DOCTYPE HTML>"] * 3
        for arguments in (["show"], ["reset", "1"]):
            status, _, errors = self.run_resetctl(*arguments)
            self.assertEqual((status, errors), (1, f"resetctl: {self.server.address} is not a coordinator: it answered "
                                                 "'<!DOCTYPE HTML>'\n"))
        self.assertEqual(self.run_resetctl("health")[:2], (3, f"resetd UNKNOWN: {self.server.address} is not a coordinator: it answered "
                                                           "'<!DOCTYPE HTML>'\n"))

    def test_files_that_cannot_be_used(self) -> None:
        for arguments, status in ((["metrics", f"{self.folder}/none/file"], 1), (["steps", f"{self.folder}/none"], 1),
                                  (["--state", "/dev/null/state", "reset", "1"], 4)):
            self.assertEqual(self.run_resetctl(*arguments)[0], status, arguments)

    def test_stopped_says_what_to_do(self) -> None:
        self.server.is_stopped = True
        self.assertEqual(self.run_resetctl("reset", "1")[2], "resetctl: the server answers Stopped: after the server's next start, send "
                                                          "the same order with the same number; `close` ends the server\n")

    def test_show(self) -> None:
        self.server.reset(1)
        self.assertIn("   2     1 ready         -     1         0* 1\n", self.run_resetctl("show")[1])
        self.assertEqual(json.loads(self.run_resetctl("show", "--json")[1])["nodes"][0], [1, 1, "ready", 0, 1, 0])

    def test_diff_and_apply(self) -> None:
        path = f"{self.folder}/want.toml"
        with open(path, "w", encoding="utf-8") as file:
            file.write("".join(f"[[node]]\nid = {n}\ngroup = 1\n" for n in (1, 3)) + "[[link]]\na = 1\nb = 3\n")
        self.assertEqual(self.run_resetctl("diff", path)[:2], (1, "add 3 1\njoin 1 3\ndrop 1 2\nremove 2\n"))
        self.assertEqual(self.run_resetctl("apply", path)[0], 0)
        self.assertEqual(self.run_resetctl("diff", path)[:2], (0, ""))
        self.assertEqual(self.server.pairs(), [(1, 3)])
        self.assertEqual(self.run_resetctl("diff", f"{self.folder}/none")[0], 2)

    def test_apply_that_was_stopped_goes_on(self) -> None:
        path = f"{self.folder}/want.toml"
        with open(path, "w", encoding="utf-8") as file:
            file.write("".join(f"[[node]]\nid = {n}\ngroup = 1\n" for n in (1, 2, 3, 4)))
        self.run_resetctl("reset", "1")
        for before in (1, 2):  # show; then the order without an answer, and show
            self.server.faults = [*[""] * before, "mute"]
            self.assertEqual(self.run_resetctl("apply", path)[0], 3)
        status, _, errors = self.run_resetctl("apply", path)
        self.assertEqual(status, 0)
        self.assertIn("sending these orders again, because they had no answer: add 4 1; drop 1 2", errors)
        self.assertEqual((sorted(self.server.nodes), self.server.pairs()), ([1, 2, 3, 4], []))

    def test_health_and_metrics(self) -> None:
        status, text, _ = self.run_resetctl("health")
        self.assertIn((status, text.split()[1][:-1]), ((0, "OK"), (1, "WARNING")))  # a slow disk warns
        self.server.is_stopped = True
        status, text, _ = self.run_resetctl("health", "--close-stopped")
        self.assertEqual((status, self.server.seen[-1]), (2, {"op": "close"}))
        self.run_resetctl("metrics", f"{self.folder}/resetd.prom")
        with open(f"{self.folder}/resetd.prom", encoding="utf-8") as file:
            self.assertIn("resetd_stopped 1\n", file.read())

    def test_watch(self) -> None:
        self.server.reset(1)
        text = self.run_resetctl("watch", "--for", "0.3", "--every", "0.1")[1]
        self.assertRegex(text, r"^\d{4}-\d\d-\d\dT\d\d:\d\d:\d\d\.\d{3}[+-]\d\d:\d\d  \[oo\] \d+ steps  1:1/0 2:1/0\n$")


load_tests = over_both
