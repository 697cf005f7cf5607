"""Clients that number their orders, and send an order without an answer again."""

from typing import Any, Protocol

STOPPED = 1
# maximum number of bytes in a line
Json = dict[str, Any]


class Asked(Protocol):
    """What answers requests."""

    def ask(self, request: Json) -> Json: ...


class Lost(Exception):
    """A promise was violated."""


class Stopped(Lost):
    """The coordinator answers that its device failed; an order is to be sent again after the next start."""


class Client:
    """One client: its last answered order, with the reply, and one that has no answer yet."""

    def __init__(self, number: int) -> None:
        self.client = number
        self.answered: Json | None = None
        self.reply: Json | None = None
        self.unanswered: Json | None = None

    def order(self, server: Asked, op: str, **members: int) -> Json:
        """Sends the next order. Without an answer it raises Away, and `settle` sends the order again."""
        number = self.answered["number"] + 1 if self.answered else 1
        self.unanswered = {"op": op, "client": self.client, "number": number, **members}
        return self.settle(server)

    def settle(self, server: Asked) -> Json:
        assert self.unanswered
        reply = server.ask(self.unanswered)
        if reply.get("refused") == STOPPED:
            raise Stopped(f"{self.unanswered} was answered {reply}")
        if "kind" not in reply:
            raise Lost(f"{self.unanswered} was answered {reply}")
        self.answered, self.reply, self.unanswered = self.unanswered, reply, None
        return reply

    def repeat(self, server: Asked, count: int) -> None:
        """Sends the answered order again to a server that was started on a store of `count` steps. It must get the same answer,
        unless the disk has a later order, which had no answer and is settled now."""
        is_kept = False
        if self.answered:
            reply = server.ask(self.answered)
            is_kept = self.unanswered is not None and reply.get("name") == "OutOfTurn"
            if reply != self.reply and not is_kept:
                raise Lost(f"{self.answered} was answered {self.reply}, and sent again {reply}")
        if self.unanswered:
            sent, is_first = self.unanswered, self.answered is None
            reply = self.settle(server)
            if not is_first and (reply["step"] <= count) != is_kept:
                raise Lost(f"{sent} is step {reply['step']} of a store of {count} steps, and its order before was "
                           f"{'gone' if is_kept else 'there'}")
