"""Watching through a proxy, instead of polling."""

from __future__ import annotations

import select
import threading
from unittest import mock

from case import Case
from pushing import of_unix
from resetd_client import (
    Away, BadWords, Clock, Faulted, Follower, Garbled, Member, Port, Wake, Watched, views, wakes_of)

SECONDS = 60.0  # for events that take milliseconds


class Watching(Case):
    def setUp(self) -> None:
        super().setUp()
        self.server.ring(1)
        self.path = f"{self.folder}/proxy"
        self.proxy = of_unix(self.server, self.path)
        self.addCleanup(self.proxy.close)
        self.port = Port(f"unix:{self.path}", 30)
        self.watched = Watched(self.port)
        self.addCleanup(self.watched.close)

    def test_it_wakes_at_once_and_at_each_change(self) -> None:
        """It does not wake when the same view is pushed again."""
        self.assertIs(self.watched.wait(SECONDS), Wake.CAME)
        self.proxy.push()
        self.assertIs(self.watched.wait(0.3), Wake.QUIET)
        for _ in range(3):
            self.server.reset(1)
            self.proxy.push()
            self.assertIs(self.watched.wait(SECONDS), Wake.CAME)
        self.assertEqual(self.proxy.connections, 1)

    def test_it_says_what_to_wait_for(self) -> None:
        self.assertIsNone(self.watched.descriptors())
        self.assertIs(self.watched.wait(SECONDS), Wake.CAME)
        self.assertIs(self.watched.wait(0), Wake.QUIET)
        descriptors = self.watched.descriptors() or []
        self.assertEqual(select.select(descriptors, [], [], 0)[0], [])
        self.server.reset(1)
        self.proxy.push()
        self.assertEqual(select.select(descriptors, [], [], SECONDS)[0], descriptors)
        self.assertIs(self.watched.wait(0), Wake.CAME)
        self.proxy.drop()
        self.assertEqual(select.select(descriptors, [], [], SECONDS)[0], descriptors)
        self.assertIs(self.watched.wait(0), Wake.QUIET)
        self.assertIsNone(self.watched.descriptors())

    def test_all_that_came_is_one_wake_up_at_least_and_none_is_lost(self) -> None:
        self.assertIs(self.watched.wait(SECONDS), Wake.CAME)
        for _ in range(50):
            self.server.reset(1)
            self.proxy.push()
        self.assertIs(self.watched.wait(SECONDS), Wake.CAME)

    def test_a_connection_that_ends_is_made_again_and_something_is_new(self) -> None:
        self.assertIs(self.watched.wait(SECONDS), Wake.CAME)
        for _ in range(3):
            self.proxy.drop()
            self.assertIs(self.watched.wait(SECONDS), Wake.CAME)
        self.assertEqual(self.proxy.connections, 4)

    def test_a_proxy_that_is_away_is_quiet_and_then_there(self) -> None:
        watched = Watched(Port(f"unix:{self.folder}/later", 30))
        self.addCleanup(watched.close)
        self.assertIs(watched.wait(0.3), Wake.QUIET)
        self.addCleanup(of_unix(self.server, f"{self.folder}/later").close)
        self.assertIs(watched.wait(SECONDS), Wake.CAME)

    def test_the_next_proxy_is_tried(self) -> None:
        watched = Watched(Port(f"{self.server.address},unix:{self.folder}/none,unix:{self.path}", 30))
        self.addCleanup(watched.close)
        self.assertIs(watched.wait(SECONDS), Wake.CAME)

    def test_a_silent_one_is_taken_for_dead(self) -> None:
        self.assertIs(self.watched.wait(SECONDS), Wake.CAME)
        with mock.patch("resetd_client.watching.SILENCE_SECONDS", 1.0):
            self.assertIs(self.watched.wait(SECONDS), Wake.CAME)  # of the next connection
        self.assertGreater(self.proxy.connections, 1)

    def test_what_is_no_view(self) -> None:
        for answer, kind in (('{"fault":"NotAllowed"}', Faulted), ("<!DOCTYPE HTML>", Garbled), ('{"nodes":3}', Garbled)):
            self.proxy.answer = answer
            with self.subTest(answer=answer):
                self.assertRaises(kind, self.watched.wait, SECONDS)

    def test_views(self) -> None:
        pushed = views(self.port)
        self.assertEqual(next(pushed).nodes[0].epoch, 0)
        self.server.reset(1)
        self.proxy.push()
        self.proxy.push()
        self.assertEqual(next(pushed).nodes[0].epoch, 1)
        self.proxy.drop()
        with self.assertRaises(Away):
            next(pushed)

    def test_without_a_proxy(self) -> None:
        port = Port(self.server.address)
        self.assertRaises(BadWords, Watched, port)
        self.assertRaises(BadWords, next, views(port))
        self.assertIsInstance(wakes_of(port), Clock)
        self.assertIsInstance(wakes_of(port, "file"), Follower)
        self.assertIsInstance(wakes_of(self.port), Watched)

    def test_a_member_is_woken(self) -> None:
        """It learns of a reset at once, although it looks only once an hour."""
        begun: list[int] = []
        is_begun = threading.Condition()

        def begin(epoch: int) -> None:
            with is_begun:
                begun.append(epoch)
                is_begun.notify_all()

        def wait_for(epochs: list[int]) -> None:
            with is_begun:
                self.assertTrue(is_begun.wait_for(lambda: begun == epochs, SECONDS), begun)

        member = Member(self.port, self.orders(), 1, None, begin, told=self.messages.append)
        following = threading.Thread(target=member.follow, args=(self.watched, 3_600.0), daemon=True)
        following.start()
        wait_for([1])
        self.assertTrue(self.proxy.wait_for_watchers(1))
        self.server.by_somebody("reset", node=1)
        self.proxy.push()
        wait_for([1, 2])
        member.stop()
        following.join(SECONDS)
        self.assertFalse(following.is_alive())

    def test_resetctl_watch(self) -> None:
        """It looks when the proxy reports a change, and not at intervals."""
        pictures: list[str] = []

        def note(picture: list[str]) -> None:
            pictures.append(picture[0])
            if "[o]" in picture[0]:
                raise KeyboardInterrupt

        threading.Thread(target=self.change_after_the_first_view, daemon=True).start()
        with mock.patch("resetd_client.control.views.note", note), mock.patch("resetd_client.control.views.PROXY_SECONDS", 3_600.0):
            status, _, errors = self.run_resetctl("watch", "--for", str(SECONDS), address=f"unix:{self.path}")
        self.assertEqual((status, errors), (130, ""), pictures)
        self.assertIn("[·]", pictures[0])

    def change_after_the_first_view(self) -> None:
        if self.proxy.wait_for_watchers(1):
            self.server.reset(1)
            self.proxy.push()
