"""Calls the library of the members' rule for C from Python: the file that RESETD_MEMBER names, else the proved library (`make
lib`)."""

import ctypes
import os
from collections.abc import Callable
from typing import NamedTuple

from .program import ROOT

PATH = os.environ.get("RESETD_MEMBER", f"{ROOT}/lib/libresetd_member.so")
OK, NO_NODE = 0, 4
DUE = {1: "TALK", 2: "WAIT", 3: "BEGIN", 4: "RESET"}
MOST_TEXT = 8192


class Work(ctypes.Structure):
    _fields_ = [("is_there", ctypes.c_bool), ("epoch", ctypes.c_uint64)]


class Judged(ctypes.Structure):
    _fields_ = [("due", ctypes.c_uint32), ("epoch", ctypes.c_uint64), ("start_length", ctypes.c_size_t),
                ("line_length", ctypes.c_size_t), ("history_size", ctypes.c_size_t)]


class Order(ctypes.Structure):
    _fields_ = [("op", ctypes.c_uint8), ("a", ctypes.c_uint8), ("b", ctypes.c_uint8), ("epoch", ctypes.c_uint64)]


class Orders(ctypes.Structure):
    _fields_ = [("last", ctypes.c_uint64), ("in_hand", Order)]


class Judgement(NamedTuple):
    """A judgement: the due action, its epoch, the text for the start file, the line for the history, and the offset of that
    line."""

    due: str
    epoch: int
    start: bytes
    line: bytes
    history_size: int


class Refused(Exception):
    """A call failed; `status` has the reason."""

    def __init__(self, status: int) -> None:
        super().__init__(f"status {status}")
        self.status = status


def text_and_size(text: bytes) -> tuple[ctypes.c_void_p, ctypes.c_size_t]:
    """Converts a text to a pointer and a length."""
    return ctypes.cast(ctypes.c_char_p(text), ctypes.c_void_p), ctypes.c_size_t(len(text))


def word(number: int) -> ctypes.c_uint8:
    return ctypes.c_uint8(number)


class Library:
    """The functions of resetd_member.h, over bytes."""

    def __init__(self, path: str = PATH) -> None:
        self._calls = ctypes.CDLL(path)
        for name in ("is_same_run", "are_parted"):
            getattr(self._calls, f"resetd_{name}").restype = ctypes.c_bool
        self._out = ctypes.create_string_buffer(MOST_TEXT)
        self._length = ctypes.c_size_t()

    def judge(self, show: bytes, node: int, start: bytes = b"", history: bytes = b"", work: int | None = None) -> Judgement:
        judged = Judged()
        self._expect(self._calls.resetd_judge(
            *text_and_size(show), word(node), *text_and_size(start), *text_and_size(history), ctypes.byref(Work(work is not None, work or 0)),
            self._out, ctypes.c_size_t(MOST_TEXT), ctypes.byref(judged)))
        text = self._out.raw[:judged.start_length + judged.line_length]
        return Judgement(DUE[judged.due], judged.epoch, text[:judged.start_length], text[judged.start_length:], judged.history_size)

    def begun(self, node: int, epoch: int) -> bytes:
        return self._text(self._calls.resetd_begun, word(node), ctypes.c_uint64(epoch))

    def loaded(self, node: int, epoch: int, boot: bytes) -> bytes:
        return self._text(self._calls.resetd_loaded, word(node), ctypes.c_uint64(epoch), *text_and_size(boot))

    def carried(self, node: int, start: bytes, boot: bytes) -> bytes:
        return self._text(self._calls.resetd_carried, word(node), *text_and_size(start), *text_and_size(boot))

    def fence(self, node: int, start: bytes, generation: int = 0, word_of_group: bytes = b"") -> tuple[int, bytes]:
        """Returns the count and the tag of a fence."""
        count = ctypes.c_uint64()
        tag = self._text(self._calls.resetd_fence, word(node), *text_and_size(start), ctypes.c_uint32(generation), *text_and_size(word_of_group), ctypes.byref(count))
        return count.value, tag

    def tag(self, show: bytes, node: int, start: bytes, word_of_group: bytes = b"") -> bytes:
        return self._text(self._calls.resetd_tag, *text_and_size(show), word(node), *text_and_size(start), *text_and_size(word_of_group))

    def is_same_run(self, own: bytes, other: bytes) -> bool:
        return bool(self._calls.resetd_is_same_run(*text_and_size(own), *text_and_size(other)))

    def are_parted(self, own: bytes, other: bytes) -> bool:
        return bool(self._calls.resetd_are_parted(*text_and_size(own), *text_and_size(other)))

    def write_down(self, orders: Orders, order: Order) -> None:
        self._expect(self._calls.resetd_write_down(ctypes.byref(orders), ctypes.byref(order)))

    def order_line(self, orders: Orders, client: int) -> bytes:
        return self._text(self._calls.resetd_order_line, ctypes.byref(orders), word(client))

    def hear(self, orders: Orders, line: bytes) -> int:
        meaning = ctypes.c_uint32()
        self._expect(self._calls.resetd_hear(ctypes.byref(orders), *text_and_size(line), ctypes.byref(meaning)))
        return meaning.value

    def _text(self, call: Callable[..., int], *arguments: object) -> bytes:
        self._expect(call(*arguments, self._out, ctypes.c_size_t(MOST_TEXT), ctypes.byref(self._length)))
        return self._out.raw[:self._length.value]

    def _expect(self, status: int) -> None:
        if status != OK:
            raise Refused(status)
