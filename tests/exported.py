"""The exported functions of the library on plain lists. Each buffer, and each place for an answer, stands between guards that no call may touch."""

from __future__ import annotations

import ctypes
import os
import sys
from typing import Union

sys.path.insert(0, os.path.join(os.path.dirname(os.path.abspath(__file__)), "second"))

from lent_board import Call, Left  # noqa: E402

SIZE, BYTE, SHORT, ENTRY, WORD = ctypes.c_size_t, ctypes.c_uint8, ctypes.c_uint16, ctypes.c_int32, ctypes.c_int64
PATTERN = ctypes.c_uint64  # the bits of a double
GUARDS = 8  # items on each side
OUTSIDE = -1  # in place of an answer's number: the call wrote outside of a buffer
BEFORE = 77  # what the place for an answer holds before the call

# The items of the buffers that each operation on a board is lent. What Covered writes to has no length beside it.
ITEMS: dict[str, tuple[type, ...]] = {
    "open": (),
    "update": (BYTE,),
    "start": (),
    "feed": (SHORT, ENTRY),
    "read_out": (ENTRY, SHORT),
    "feed_floats": (SHORT, PATTERN),
    "read_out_floats": (PATTERN, SHORT),
    "drop": (),
    "covered": (BYTE,),
}
WITHOUT_LENGTH = ("covered",)


class Lent:
    """A buffer with these numbers, lent with its length or without."""

    def __init__(self, kind: type, numbers: list[int], counted: bool = True) -> None:
        self.kind = kind
        self.guards = list((kind * GUARDS).from_buffer_copy(b"\xa5" * (GUARDS * ctypes.sizeof(kind))))
        self.items = (kind * (len(numbers) + 2 * GUARDS))(*self.guards, *numbers, *self.guards)
        self.counted = counted

    def arguments(self) -> list[object]:
        """What a function takes of it."""
        pointer = ctypes.byref(self.items, GUARDS * ctypes.sizeof(self.kind))
        return [pointer, SIZE(len(self.items) - 2 * GUARDS)] if self.counted else [pointer]

    def content(self) -> list[int]:
        return self.items[GUARDS:-GUARDS]

    def guarded(self) -> bool:
        """Whether the guards are as they were."""
        return self.items[:GUARDS] == self.guards and self.items[-GUARDS:] == self.guards


def place_for(kind: type, number: int) -> Lent:
    """The place for an answer of one number, with what it holds before."""
    return Lent(kind, [number], counted=False)


class Exported:
    """The functions of a shared library."""

    def __init__(self, library: str) -> None:
        self.library = ctypes.CDLL(os.path.abspath(library))

    def answer(self, name: str, *arguments: Union[Lent, ctypes._SimpleCData]) -> tuple[int, int]:
        """The number and the place that a function answers."""
        function = getattr(self.library, name)
        function.restype = BYTE
        place = place_for(SIZE, BEFORE)
        lent = [argument for argument in (*arguments, place) if isinstance(argument, Lent)]
        flat = [part for argument in arguments for part in (argument.arguments() if isinstance(argument, Lent) else [argument])]
        number = function(*flat, *place.arguments())
        return number if all(buffer.guarded() for buffer in lent) else OUTSIDE, place.content()[0]

    def made(self, call: Call, words: list[int]) -> Left:
        """What a call on a board's buffer leaves."""
        board, counted = Lent(WORD, words), call.name not in WITHOUT_LENGTH
        buffers = [Lent(kind, numbers, counted) for kind, numbers in zip(ITEMS[call.name], call.buffers)]
        width, height, binned = call.sides
        sides = [SIZE(width), SIZE(height), ctypes.c_bool(binned)] if call.name == "open" else []
        answer = self.answer(f"ramp_{call.name}", board, *sides, *buffers)
        return Left(*answer, board.content(), [buffer.content() for buffer in buffers])


def difference(expected: Left, found: Left) -> str:
    """Where two answers differ, and how."""
    if found.number == OUTSIDE:
        return f"{expected}, but it wrote beside a buffer"
    return ", ".join(f"{name} {one}, found {other}" for name, one, other in zip(Left._fields, expected, found) if one != other)
