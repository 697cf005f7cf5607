"""The answers of a coordinator to a line. Each is a reply, a refusal or a fault, as a named value."""

from __future__ import annotations

import enum
import json
from dataclasses import dataclass
from typing import Any

from .errors import ResetdError


class Refusal(enum.IntEnum):
    """The refusals of orders, by number. A refusal changes nothing, and the order's number can be used again."""

    STOPPED = 1
    OUT_OF_MEMORY = 2
    EXHAUSTED = 3
    OUT_OF_TURN = 4
    NUMBER_REUSED = 5
    UNKNOWN_NODE = 6
    NODE_EXISTS = 7
    HAS_LINKS = 8
    SAME_NODE = 9
    OTHER_GROUP = 10
    LINK_EXISTS = 11
    NO_LINK = 12
    DEGREE_FULL = 13
    LINKS_FULL = 14
    BAD_EPOCH = 15
    OLD = 16
    EARLY = 17
    DIFFERS = 18
    NOT_RELEASED = 19
    PENDING_FULL = 20
    BEHIND = 21
    STRANGER = 22


class Fault(enum.Enum):
    """The faults of a line: it is no request, it is not allowed, or memory ran out."""

    UNFINISHED = "Unfinished"
    TOO_LONG = "TooLong"
    BAD_TEXT = "BadText"
    BAD_JSON = "BadJson"
    BAD_REQUEST = "BadRequest"
    UNKNOWN_OP = "UnknownOp"
    OUT_OF_MEMORY = "OutOfMemory"
    NOT_ALLOWED = "NotAllowed"  # from the proxy, whose policy does not allow it to this client


MOST_SHOWN = 60  # characters shown of a line that is no coordinator's answer
PASSING_REFUSALS = frozenset({Refusal.STOPPED, Refusal.OUT_OF_MEMORY, Refusal.PENDING_FULL})


class Away(ResetdError):
    """No answer came, or the answer was "not now": send the same line again. The order may have been carried out; sent again
    with the same number, it is carried out only once. A program can retry by itself: this needs no person, unless it lasts."""

    needs_person = False


class NotNow(Away):
    """The coordinator answered Stopped, PendingFull or OutOfMemory, which `name` has. This needs no person, unless it lasts:
    docs/PROTOCOL.md describes what ends it."""

    def __init__(self, name: str) -> None:
        super().__init__(name)
        self.name = name


class NotTaken(ResetdError):
    """The coordinator refused an order, or does not know the line. The same line would get the same answer, so this needs a
    person, unless the program looks at `show` and sends another order."""

    name: str


class Refused(NotTaken):
    """A refusal. `refusal` is None if this library does not know its number. Needs a person, like NotTaken."""

    def __init__(self, number: int, name: str) -> None:
        super().__init__(f"{number} {name}")
        self.number = number
        self.name = name
        self.refusal = Refusal(number) if number in set(Refusal) else None


class Faulted(NotTaken):
    """The line was no request, or is not allowed, and nothing was carried out. `fault` is None if this library does not know
    its name; then the request may have been carried out. Needs a person."""

    def __init__(self, name: str) -> None:
        super().__init__(name)
        self.name = name
        self.fault = next((fault for fault in Fault if fault.value == name), None)


class Garbled(NotTaken):
    """The answer is not a coordinator's: another program listens at the address. Needs a person."""

    name = "Garbled"

    def __init__(self, line: str, where: str = "the program that answered") -> None:
        super().__init__(f"{where} is not a coordinator: it answered {line.strip()[:MOST_SHOWN]!r}")
        self.line = line


@dataclass(frozen=True)
class Reply:
    """The reply to an order that was carried out: `done`, `started`, `finished` or `joined`, and the number of its step."""

    kind: str
    step: int


CARRIED_OUT = Reply("carried out", 0)  # if the reply itself was lost with a connection
Outcome = Reply | NotTaken


def members_of(line: str, where: str = "the program that answered") -> dict[str, Any]:
    """Returns the members of an answer line that is neither a refusal nor a fault; `where` names the sender. Raises NotNow,
    Refused, Faulted and Garbled."""
    try:
        answer = json.loads(line)
    except ValueError:
        raise Garbled(line, where) from None
    if not isinstance(answer, dict):
        raise Garbled(line, where)
    if "refused" in answer:
        try:
            number, name = int(answer["refused"]), str(answer.get("name"))
        except (ValueError, TypeError):
            raise Garbled(line, where) from None
        if number in PASSING_REFUSALS:
            raise NotNow(name)
        raise Refused(number, name)
    if "fault" in answer:
        name = str(answer["fault"])
        if name == Fault.OUT_OF_MEMORY.value:
            raise NotNow(name)
        raise Faulted(name)
    return answer


def reply_of(answer: dict[str, Any]) -> Reply:
    """Returns the reply to an order. Raises Garbled."""
    try:
        return Reply(str(answer["kind"]), int(answer["step"]))
    except (KeyError, ValueError, TypeError) as missing:
        raise Garbled(json.dumps(answer)) from missing
