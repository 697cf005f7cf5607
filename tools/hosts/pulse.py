"""A clock that goes slower on a busy machine, so that a bound by it says something of the hosts, and not of the machine."""

import subprocess
import threading
import time

PAUSE = 0.1  # seconds between two beats


class Pulse:
    """Starts a process again and again, with a pause after each. On a machine with free processors a beat takes hardly more than
    the pause; on a busy one, also as long as a new process waits for a processor."""

    def __init__(self) -> None:
        self._beats = list[float]()
        threading.Thread(target=self._run, daemon=True).start()

    def _run(self) -> None:
        while True:
            time.sleep(PAUSE)
            subprocess.run(["true"], check=True)
            self._beats.append(time.monotonic())

    def seconds(self, since: float, until: float) -> float:
        """Returns how many seconds the beats between two moments take on a machine with free processors."""
        return PAUSE * sum(since <= beat <= until for beat in self._beats)
