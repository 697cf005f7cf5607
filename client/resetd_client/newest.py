"""Keeps views from going back: determines which of several addresses of one coordinator shows the present."""

from __future__ import annotations

import threading

from .address import Address
from .answers import Away
from .view import View


class Past(Away):
    """An address shows fewer settled steps than another address has shown: it is an earlier coordinator of the same store, or
    its store went back. Ask the other address. This one counts again once it carries out an order. A program can retry by
    itself: this needs no person, unless it lasts."""


class Newest:
    """Remembers the newest view and the address that showed it, and rejects older views.

    An old coordinator, whose store another coordinator serves now, still answers `show`. But the rule of a member assumes
    that its looks are in order. So a view from another address than the last one counts only if it has at least as many
    settled steps. Otherwise the address is skipped until it carries out an order, which an old coordinator can't do. At the
    same address the count may fall: its store was restored.
    """

    def __init__(self) -> None:
        self._turn = threading.Lock()
        self._address: Address | None = None
        self._settled = 0
        self._past: dict[Address, int] = {}  # of skipped addresses: the number of steps that they had accepted

    def take(self, address: Address, view: View) -> None:
        """Accepts a view from an address, or raises Past."""
        with self._turn:
            if self._address not in (None, address) and view.settled < self._settled:
                self._past[address] = view.accepted
                raise Past(f"{address} shows {view.settled} settled steps, but {self._address} has already shown {self._settled}")
            self._note(address, view.settled)

    def note_order(self, address: Address, step: int) -> None:
        """Accepts an address that has carried out an order as this step, if no earlier order had that step: this address serves
        the store now."""
        with self._turn:
            if step > self._past.get(address, self._settled):
                self._note(address, step)

    def _note(self, address: Address, settled: int) -> None:
        self._address, self._settled = address, settled
        self._past.pop(address, None)
