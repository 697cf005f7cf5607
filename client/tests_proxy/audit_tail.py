"""The lines of the proxy's audit as they come, counted by node."""

from __future__ import annotations

import json
import threading
from collections import Counter


class AuditTail:
    """Reads on where it read last. Several threads may ask it."""

    def __init__(self, path: str) -> None:
        self._path = path
        self._at = 0
        self._resets = Counter[int]()
        self._lock = threading.Lock()

    def has(self, node: int, resets: int) -> bool:
        """Whether there are this many lines of resets of a node that were carried out."""
        with self._lock:
            if self._resets[node] < resets:
                self._read()
            return self._resets[node] >= resets

    def _read(self) -> None:
        with open(self._path, "rb") as file:
            file.seek(self._at)
            *lines, _ = file.read().split(b"\n")
        for line in lines:
            self._at += len(line) + 1
            self._take(json.loads(line))

    def _take(self, event: dict[str, object]) -> None:
        line, answer = event.get("line"), event.get("answer")
        if isinstance(line, dict) and line.get("op") == "reset" and isinstance(answer, dict) and "kind" in answer:
            self._resets[line["node"]] += 1
