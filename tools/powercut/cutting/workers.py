"""Child processes that each make a call, and end together with this process."""

import ctypes
import multiprocessing
import os
import signal
import sys
from collections.abc import Callable, Iterable
from concurrent.futures import ProcessPoolExecutor
from typing import Any, TypeVar

R = TypeVar("R")
SET_SIGNAL_OF_PARENTS_DEATH = 1  # of prctl(2)


def end_once(*_: object) -> None:
    """Ends this process with all its cleanup, which no further signal interrupts."""
    signal.signal(signal.SIGTERM, signal.SIG_IGN)
    sys.exit(1)


def start_worker() -> None:
    """Makes this process end when it gets SIGTERM, or when its parent has ended. An interrupt is for the parent."""
    signal.signal(signal.SIGTERM, end_once)
    signal.signal(signal.SIGINT, signal.SIG_IGN)
    ctypes.CDLL(None).prctl(SET_SIGNAL_OF_PARENTS_DEATH, signal.SIGTERM)


def call_to_end(function: Callable[..., R], *arguments: Any) -> R:
    """Makes a call in a worker. If the call is ended, the worker ends too; otherwise it would continue with the next one."""
    try:
        return function(*arguments)
    except SystemExit:
        os._exit(1)


def call_each(function: Callable[..., R], calls: Iterable[tuple[Any, ...]], jobs: int) -> list[R]:
    """Returns the results of these calls, each made in one of `jobs` processes. If this process is interrupted or gets SIGTERM,
    it ends after these processes have ended."""
    signal.signal(signal.SIGTERM, end_once)
    with ProcessPoolExecutor(jobs, initializer=start_worker) as pool:
        try:
            results = [pool.submit(call_to_end, function, *arguments) for arguments in calls]
            return [result.result() for result in results]
        except BaseException:
            for worker in multiprocessing.active_children():
                worker.terminate()
            raise
