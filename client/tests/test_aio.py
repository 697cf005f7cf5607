"""A member in a program that runs on asyncio: its coroutines exclude each other, and nothing blocks their loop."""

from __future__ import annotations

import asyncio
import os
import threading
from collections.abc import Awaitable, Callable, Coroutine
from contextlib import suppress
from typing import Any

from case import Case, over_both
from resetd_client import Clock, Faulted, InLoop, Member, OutOfRun, Stream, aio
from resetd_client.signals import Wakes

SECONDS = 60.0  # for events that take milliseconds


class Coroutines(Case):
    def setUp(self) -> None:
        super().setUp()
        self.server.ring(1)
        self.begun: list[int] = []
        self.ends: list[int] = []

    def through(self, work: Callable[[aio.Member], Awaitable[None]], wakes: Wakes | None = None) -> None:
        """Follows with a new member until the work is done."""
        async def begin(epoch: int) -> None:
            await asyncio.sleep(0)
            self.begun.append(epoch)

        async def both() -> None:
            member = aio.Member(self.port, self.orders(), 1, None, begin, told=self.messages.append)
            following = asyncio.create_task(member.follow(wakes or Clock(), 0.2))
            working = asyncio.ensure_future(work(member))
            await asyncio.wait([following, working], return_when=asyncio.FIRST_COMPLETED)
            following.cancel()
            with suppress(asyncio.CancelledError):
                await following
            await working

        self.within(both())

    def within(self, work: Coroutine[Any, Any, None]) -> None:
        async def within_bounds() -> None:
            async with asyncio.timeout(SECONDS):
                await work
        asyncio.run(within_bounds())

    def test_three_coroutines_come_in_one_after_the_other(self) -> None:
        async def three(member: aio.Member) -> None:
            inside, most, tags = 0, 0, set[str]()

            async def body() -> None:
                nonlocal inside, most
                async with member.in_run(wait=SECONDS) as run:
                    inside += 1
                    most = max(most, inside)
                    tags.add(run.tag)
                    for _ in range(20):
                        await asyncio.sleep(0)  # lets the other coroutines run
                    inside -= 1

            await asyncio.gather(body(), body(), body())
            self.assertEqual((most, tags), (1, {self.port.show().tag(1)}))

        self.through(three)
        self.assertEqual(self.begun, [1])

    def test_a_wait_does_not_block_the_loop(self) -> None:
        """The loop turns a hundred times while a coroutine waits for a run that does not begin."""
        self.server.ring(2)  # the other member confirms nothing

        async def waits(member: aio.Member) -> None:
            waiting = asyncio.create_task(self.waits(member, 3_600))
            for _ in range(100):
                await asyncio.sleep(0)
            self.assertFalse(waiting.done())
            waiting.cancel()
            with self.assertRaises(asyncio.CancelledError):
                await waiting

        self.through(waits)

    async def waits(self, member: aio.Member, seconds: float, tag: str | None = None) -> None:
        async with member.in_run(tag, seconds):
            pass

    def test_out_of_a_run(self) -> None:
        self.server.ring(2)  # a member that is alone has no tag

        async def strange(member: aio.Member) -> None:
            while self.begun != [1]:
                await asyncio.sleep(0.01)
            await asyncio.to_thread(self.server.by_somebody, "confirm", node=2, epoch=1)
            await self.waits(member, SECONDS)
            with self.assertRaises(OutOfRun):
                await self.waits(member, 0, "another tag")
            await self.waits(member, 0, member.run.tag if member.run else "")

        self.through(strange)

    def test_one_that_is_cancelled_lets_the_next_one_in(self) -> None:
        async def cancel(member: aio.Member) -> None:
            is_in = asyncio.Event()

            async def stays() -> None:
                async with member.in_run(wait=SECONDS):
                    is_in.set()
                    await asyncio.sleep(3_600)

            staying, waiting = asyncio.create_task(stays()), asyncio.create_task(self.waits(member, SECONDS))
            await is_in.wait()
            for task in (waiting, staying):
                task.cancel()
            await asyncio.wait([waiting, staying])
            await self.waits(member, SECONDS)

        self.through(cancel)

    def test_a_begin_keeps_them_out(self) -> None:
        """A reset arrives while a coroutine is inside: the member begins only after it."""
        async def resets(member: aio.Member) -> None:
            async with member.in_run(wait=SECONDS):
                await asyncio.to_thread(self.server.by_somebody, "reset", node=1)
                await asyncio.sleep(0.3)  # never long enough for the begin, because this coroutine stays inside
                self.assertEqual(self.begun, [1])
            while self.begun != [1, 2]:
                await asyncio.sleep(0.01)

        self.through(resets)

    def test_an_exception_in_the_body_lets_the_next_one_in(self) -> None:
        async def fails(member: aio.Member) -> None:
            with self.assertRaises(ZeroDivisionError):
                async with member.in_run(wait=SECONDS):
                    raise ZeroDivisionError
            await self.waits(member, SECONDS)

        self.through(fails)

    def test_follow_ends_with_its_wake_ups_and_with_its_task(self) -> None:
        (reader, writer), (silent, end) = os.pipe(), os.pipe()
        for each in (reader, silent):
            self.addCleanup(os.close, each)

        async def follow() -> None:
            async def begin(epoch: int) -> None:
                self.begun.append(epoch)
            member = aio.Member(self.port, self.orders(), 1, None, begin, told=self.messages.append)
            os.close(writer)
            await member.follow(Stream(reader))
            following = asyncio.create_task(member.follow(Stream(silent)))
            await asyncio.sleep(0)
            following.cancel()
            ended, _ = await asyncio.wait([following], timeout=SECONDS / 2)
            os.close(end)
            self.assertEqual(ended, {following})

        before = threading.active_count()
        self.within(follow())
        self.assertLessEqual(threading.active_count(), before)

    def test_what_needs_a_person_ends_follow(self) -> None:
        async def wait(_: aio.Member) -> None:
            await asyncio.sleep(3_600)

        self.server.faults = ['{"fault":"NotAllowed"}']
        with self.assertRaises(Faulted):
            self.through(wait)


class Loops(Case):
    def test_what_would_block_a_loop_is_refused(self) -> None:
        """It is refused only in the loop's own thread."""
        self.server.ring(1)
        member = Member(self.port, self.orders(), 1, None, lambda _: None, told=self.messages.append)
        member.look()

        def enter() -> None:
            with member.in_run():
                pass

        async def tries() -> None:
            with self.assertRaisesRegex(InLoop, "resetd_client.aio"):
                enter()
            await asyncio.to_thread(enter)

        asyncio.run(tries())
        enter()


load_tests = over_both
