"""Small services, one for each member: at a signal, a service begins again and confirms the epoch."""

import threading
import time

from .clients import OLD_EPOCH, Client, Lost
from .keeper import Keeper

LOOK = 2  # seconds between two looks at `show`


class Service:
    """Follows the lines that the coordinators of all hosts print. Looks at `show` after each `listening` and every few seconds,
    because a signal can be lost with a host."""

    def __init__(self, node: int, client: Client, keepers: list[Keeper]) -> None:
        self.node, self.client, self.keepers = node, client, keepers
        self.begun, self.read, self.looked = 0, [0] * len(keepers), 0.0
        self.fault: Exception | None = None
        self.is_on = True
        self.thread = threading.Thread(target=self.run, daemon=True)

    def run(self) -> None:
        try:
            while self.is_on:
                for place, keeper in enumerate(self.keepers):
                    self.follow(place, keeper.lines("signals"))
                if time.monotonic() > self.looked + LOOK:
                    self.look()
                time.sleep(0.02)
        except Exception as fault:  # set by `stop`
            self.fault = fault

    def follow(self, place: int, lines: list[str]) -> None:
        new, self.read[place] = lines[self.read[place]:], len(lines)
        for line in new:
            fields = line.split()
            if fields[0] == "listening":
                self.look()
            elif fields[:2] == ["signal", str(self.node)]:
                self.begin(int(fields[2]))

    def look(self) -> None:
        met = self.client.site.ask_while(lambda: self.is_on, {"op": "show"})
        if met:
            self.begin(next(row[4] for row in met[0]["nodes"] if row[0] == self.node))
        self.looked = time.monotonic()

    def begin(self, epoch: int) -> None:
        """Begins an epoch, unless it was begun before."""
        if epoch <= self.begun:
            return
        self.begun = epoch
        while self.is_on:
            mine = self.client.unanswered is None or self.client.unanswered["epoch"] == epoch
            reply = self.client.order("confirm", is_wanted=lambda: self.is_on, node=self.node, epoch=epoch)
            if reply is not None and "kind" not in reply and reply["refused"] != OLD_EPOCH:
                raise Lost(f"member {self.node} confirmed epoch {epoch} and was answered {reply}")
            if mine:
                return

    def stop(self) -> None:
        self.is_on = False
        self.thread.join()
        if self.fault:
            raise self.fault
