"""A member in a program that runs on asyncio.

    async def begin(epoch):
        ...                                              # as for a Member; it is awaited in the loop

    member = aio.Member(port, orders, 3, begun, begin)
    async with asyncio.TaskGroup() as tasks:
        tasks.create_task(member.follow(wakes_of(port, signals)))    # at the proxy: member.follow(orders)
        ...
        async with member.in_run(wait=5) as run:         # there is a run, or OutOfRun after 5 s
            writer.write(f"{run.tag}\\n".encode())
        async with member.in_run(tag_of_the_message):    # of just this run, or OutOfRun
            ...                                          # change the work: no begin and no other in_run comes between

The member follows in its own thread, and each `in_run` holds the member's lock in a thread until its body is left: so coroutines
of one loop exclude each other too, and none of them blocks the loop.
"""

from __future__ import annotations

import asyncio
import threading
from collections.abc import AsyncIterator, Awaitable, Callable, Iterable
from contextlib import asynccontextmanager, suppress

from . import LOOK_SECONDS, AtFront, Fence, Orders, Port, ResetdError, Run, Wakes, Work
from . import Member as Blocking
from .orders import warn


class Member:
    """A `resetd_client.Member` for the coroutines of the event loop that runs when it is created."""

    def __init__(self, port: Port, orders: Orders | AtFront, node: int, begun: int | None, begin: Callable[[int], Awaitable[None]], *,
                 word: str = "", told: Callable[[str], None] = warn, work: Work = Work.PARTS, generation: int = 0) -> None:
        """The arguments are those of a Member, but `begin` is a coroutine. It must not use `in_run`, because `in_run` waits for
        it. Raises Unreadable and BadWords, and RuntimeError if no event loop runs."""
        self._loop = asyncio.get_running_loop()
        self._begin = begin
        self._member = Blocking(port, orders, node, begun, self._begin_in_loop, word=word, told=told, work=work, generation=generation)

    @property
    def begun(self) -> int | None:
        """The epoch of the present work, None if there is no work."""
        return self._member.begun

    @property
    def run(self) -> Run | None:
        """The run that the group is in, None while a member is not through. It may have ended by the time you have read it."""
        return self._member.run

    @property
    def fence(self) -> Fence | None:
        """The fence of the run (see `Member.fence`)."""
        return self._member.fence

    def note_overtaken(self, nodes: Iterable[int], count: int) -> None:
        """Like `Member.note_overtaken`."""
        self._member.note_overtaken(nodes, count)

    async def follow(self, wakes: Wakes, every: float = LOOK_SECONDS) -> None:
        """Follows like a Member, until no more wake-ups will come, `stop` is called or its task is cancelled. After that it
        ends within a moment, or after the answer that it is waiting for. Raises like `Member.follow`."""
        following = asyncio.ensure_future(asyncio.to_thread(self._member.follow, wakes, every))
        try:
            await asyncio.shield(following)
        except asyncio.CancelledError:
            self.stop()
            await asyncio.wait([following])
            raise

    def stop(self) -> None:
        """Ends `follow`. May be called from any thread and from a signal handler."""
        self._member.stop()

    @asynccontextmanager
    async def in_run(self, tag: str | None = None, wait: float = 0.0) -> AsyncIterator[Run]:
        """While the body runs, no begin and no other `in_run`, of this loop or another, runs in between. Raises OutOfRun like
        `Member.in_run`. Keep the body short."""
        entered: asyncio.Future[Run] = self._loop.create_future()
        leave = threading.Event()
        threading.Thread(target=self._hold, args=(tag, wait, entered, leave), daemon=True).start()
        try:
            yield await entered
        finally:
            leave.set()

    def _hold(self, tag: str | None, wait: float, entered: asyncio.Future[Run], leave: threading.Event) -> None:
        """Runs in a thread: waits for a run, reports it, and excludes all others until the body ends. If the coroutine was
        cancelled meanwhile, or its loop is closed, it enters and leaves immediately."""
        with suppress(RuntimeError):  # the loop is closed
            try:
                with self._member.in_run(tag, wait) as run:
                    self._loop.call_soon_threadsafe(set_run, entered, run)
                    leave.wait()
            except ResetdError as fault:
                self._loop.call_soon_threadsafe(set_fault, entered, fault)

    def _begin_in_loop(self, epoch: int) -> None:
        """Runs in the following thread: makes the loop begin, and waits until it has begun."""
        async def begin() -> None:
            await self._begin(epoch)
        asyncio.run_coroutine_threadsafe(begin(), self._loop).result()


def set_run(entered: asyncio.Future[Run], run: Run) -> None:
    if not entered.done():
        entered.set_result(run)


def set_fault(entered: asyncio.Future[Run], fault: ResetdError) -> None:
    if not entered.done():
        entered.set_exception(fault)
