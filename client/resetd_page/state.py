"""The content of the page: the last view that the proxy has pushed, and since when each node has its row."""

from __future__ import annotations

import sys
import time
from collections.abc import Callable
from datetime import datetime, timezone
from typing import Any

from resetd_client import Away, Node, NotTaken, Port, Untrusted, View, views

from .recent import Recent

RETRY_SECONDS = 1.0  # between two connections


class State:
    """The last view, and whether the connection over which it came is still there."""

    def __init__(self, recent: Recent | None) -> None:
        """`recent` reads the last orders; None: the page shows none."""
        self._view: View | None = None
        self._is_up = False
        self._since: dict[int, tuple[Node, str]] = {}
        self._recent = recent

    def follow(self, port: Port, changed: Callable[[], None]) -> None:
        """Takes each view that the proxy pushes, and calls `changed` after each change, until its thread ends with the process.
        Raises BadWords if no address of the port is one of the proxy."""
        while True:
            try:
                for view in views(port):
                    self._take(view)
                    changed()
            except Away as away:
                self._lose(str(away), changed)
            except (NotTaken, Untrusted) as refused:
                self._lose(f"{type(refused).__name__}: {refused}", changed)
            time.sleep(RETRY_SECONDS)

    def members(self) -> dict[str, Any]:
        """Returns the page's content for one update."""
        view = self._view
        return {"since": {number: since for number, (_, since) in self._since.items()}, "up": self._is_up, "view": view.members() if view else None,
                "recent": self._recent.orders() if self._recent else None}

    def _take(self, view: View) -> None:
        """Replaces the view. A node's time stays if its row is the same."""
        now = datetime.now(timezone.utc).isoformat(timespec="milliseconds")
        self._since = {node.node: (node, self._since[node.node][1] if self._since.get(node.node, (None,))[0] == node else now) for node in view.nodes}
        self._view, self._is_up = view, True

    def _lose(self, why: str, changed: Callable[[], None]) -> None:
        if self._is_up or self._view is None:
            print(f"resetd-page: {why}", file=sys.stderr, flush=True)
        self._is_up = False
        changed()
