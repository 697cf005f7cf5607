"""How long a soak waits for a group whose store may have gone back."""

import time
from collections.abc import Callable, Iterable


class ProgressTimeout:
    """Ends some seconds after the last lost epoch that was passed. A store that went back by k epochs shows parties that the members'
    histories forbid, so k resets follow, one after the other, before the members talk: on a busy machine they take minutes. Once the
    group is above the greatest epoch that was ever seen, nothing extends the wait any more."""

    def __init__(self, seconds: float, clock: Callable[[], float] = time.monotonic) -> None:
        self._seconds, self._clock = seconds, clock
        self._greatest = self._lost = self._passed = 0
        self._end = clock() + seconds

    def begin(self) -> None:
        """Begins a wait: until then the greatest epoch that was seen is one that may be lost."""
        self._lost, self._passed, self._end = self._greatest, 0, self._clock() + self._seconds

    def note(self, epochs: Iterable[int]) -> None:
        """Notes the epochs that the nodes have now."""
        seen = sorted(epochs)
        if not seen:
            return
        if self._passed < seen[0] <= self._lost and not self.is_over:
            self._end = self._clock() + self._seconds
        self._passed, self._greatest = max(self._passed, seen[0]), max(self._greatest, seen[-1])

    @property
    def is_over(self) -> bool:
        """Whether the wait has taken too long."""
        return self._clock() > self._end
