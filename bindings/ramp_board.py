"""The ramp board of a detector read-out: from the readings of an array to 15-bit words.

A board is opened with a width and a height, and is binned (one word for each square of four pixels) or not. Its settings are nine weights, a
threshold, a truncation r and a sample count N; update records change them, and the next start puts them in force. A ramp is N readings of each
pixel, fed in parts of any length into sums that the caller lends, and read out as a frame of words:

>>> from array import array
>>> import ramp_board
>>> board = ramp_board.Board(2, 1)
>>> board.update(bytes([1, 10, 1, 255, 63, 1]))        # weight 1 is 1, the threshold 16,383, N is 1
>>> board.start()
>>> sums, words = array("i", [0, 0]), array("H", [0, 0])
>>> board.feed(array("H", [0]), sums)
>>> board.covered()                                    # no sum can be too large for its word
True
>>> board.feed(array("H", [16383]), sums)
>>> board.read_out(sums, words)
>>> sums, words
(array('i', [128, 16511]), array('H', [32, 4127]))
>>> ramp_board.read_word(2, words[1])                  # r is 2
Ordinary(low=16508.0, high=16512.0)

The sums of a ramp may be 64-bit floats instead; each is then exactly the same whole number, and the words are the same:

>>> floats = array("d", [0, 0])
>>> board.start()
>>> board.feed_floats(array("H", [0, 16383]), floats)
>>> board.read_out_floats(floats, words)
>>> floats, words
(array('d', [128.0, 16511.0]), array('H', [32, 4127]))

A frame in one call, the flags of a frame, a ramp that is dropped, and a board that is kept and brought back:

>>> ramp_board.frame(2, 1, False, bytes([1, 10, 1, 255, 63, 1]), array("H", [0, 16383]), sums, words)
>>> flagged = array("H", [4127, 32753, 32767])         # a sum, saturated at sample 1, negative
>>> ramp_board.nearest_flag(flagged, 3, 1, 0, 0)
Place(row=0, column=1)
>>> ramp_board.count_flags(flagged, 3, 1, (0, 0), (0, 2))
2
>>> board.start()
>>> kept = board.words
>>> board.drop()
>>> ramp_board.Board.from_words(kept).drop()

A call that is refused raises `Refused`, which has the number and the place of docs/REFUSALS.md; the board and all buffers are then as they were:

>>> board.drop()
Traceback (most recent call last):
ramp_board.Refused: refused with 10: no ramp is running

**Buffers.** A record, readings, sums and words may be anything with the buffer protocol (bytes, bytearray, array.array, memoryview, a ctypes array, a
numpy array), and are used where they lie, without a copy; one that is only read may be read-only. The items of a record are bytes, those of readings
and words unsigned with 16 bits (`array("H")`, numpy's `uint16`), those of sums signed with 32 bits (`array("i")`, numpy's `int32`) or, where they are
floats, floats with 64 bits (`array("d")`, numpy's `float64`), in the machine's byte order. Any number of dimensions counts as its items in order, the
last dimension fastest, so a frame may be an array of rows. Plain bytes become readings by `memoryview(data).cast("H")`.

**Python's own errors** come before the call and change nothing. TypeError: an argument that must be a buffer is none, is a single item without a
dimension, has other items, or is read-only where it is written; a number isn't whole; `binned` isn't True or False; a corner isn't a row and a
column; `from_words` is given no iterable. ValueError: the items of a buffer have gaps between them or lie in another order, or begin where
such items may not; two buffers share memory and one of them is written; a number is out of range; `from_words` is given more or fewer than 29.
AttributeError: a board's `words` are set, or it was made without its `__init__`.

**Threads.** Where Python has an interpreter lock a call holds it to its end, so no other thread of Python sees a board or a buffer halfway. In a
free-threaded build the program sees to it that no other thread uses what a call is lent, or its board, until it is over.

It needs CPython 3.9 or newer, and the library libramp_board.so, which `bindings/build` makes. That is the file that the environment variable
RAMP_BOARD_LIBRARY names, if it is set; else the one beside this module; else the one in target/bindings of the repository. Where there is none the
import fails with ImportError.
"""

from __future__ import annotations

import ctypes
import operator
import os
import sys
from dataclasses import dataclass
from pathlib import Path
from typing import Any, Iterable, NamedTuple, Optional, Union

__all__ = [
    "Board",
    "Meaning",
    "Negative",
    "Ordinary",
    "Place",
    "Refused",
    "Saturated",
    "Unassigned",
    "count_flags",
    "frame",
    "nearest_flag",
    "read_word",
]

# In short what docs/REFUSALS.md says of each number.
_REASONS = {
    1: "a side is 0 or above 1,024, or a binned board has an odd side",
    2: "the update record is under two bytes",
    3: "a bit from 12 to 15 of the record's map is set",
    4: "the record's length isn't exactly what its map calls for",
    5: "a weight byte is above 31",
    6: "a threshold is above 16,383",
    7: "r isn't 1 to 3",
    8: "N isn't 1 to 9",
    9: "a ramp is running",
    10: "no ramp is running",
    11: "the sums aren't one for each pixel",
    12: "there are more readings than the ramp still wants",
    13: "a reading is above 16,383, the first at index {place}",
    14: "an entry of the sums isn't possible, the first at index {place}",
    15: "readings are still wanted",
    16: "the words aren't as many as the frame has",
    19: "a side is 0 or above 1,024, the place or a corner is outside the frame, or the first corner is past the last",
    99: "the board isn't sound",
}


class Refused(Exception):
    """A call was not taken: `number` says why, and `place` where, with 13 the index of a reading, with 14 that of an entry of the sums, else 0.

    The board and all buffers are as they were. docs/REFUSALS.md has the numbers, when each is given, and the order of each call's checks.

    >>> try:
    ...     Board(1, 1025)
    ... except Refused as refused:
    ...     print(refused.number, refused.place, refused)
    1 0 refused with 1: a side is 0 or above 1,024, or a binned board has an odd side
    """

    def __init__(self, number: int, place: int = 0) -> None:
        super().__init__(number, place)
        self.number = number
        self.place = place

    def __str__(self) -> str:
        reason = _REASONS.get(self.number, "docs/REFUSALS.md says why").format(place=self.place)
        return f"refused with {self.number}: {reason}"


@dataclass(frozen=True)
class Ordinary:
    """A word of a sum, or of a square's mean sum, from `low` up to but not including `high`."""

    low: float
    high: float


@dataclass(frozen=True)
class Saturated:
    """A word of a pixel or a square of which a reading was above the threshold, first at this sample, from 1 on."""

    sample: int


@dataclass(frozen=True)
class Negative:
    """A word of a negative sum."""


@dataclass(frozen=True)
class Unassigned:
    """A word that means nothing."""


Meaning = Union[Ordinary, Saturated, Negative, Unassigned]


class Place(NamedTuple):
    """A place in a frame of words: its row and its column, from 0."""

    row: int
    column: int


class Board:
    """A ramp board.

    It may be copied and pickled at any time. The sums of a ramp aren't in it: a board that is copied in a ramp goes on with a copy of its sums.
    """

    __slots__ = ("_words",)

    def __init__(self, width: int, height: int, binned: bool = False) -> None:
        """Open a board of 1 to 1,024 columns and as many rows, binned into squares of four or not: weights -4 to 4, threshold 13,087, r = 2, N = 9.

        Those settings wait and are in force. No ramp is running.

        Refused with 1 if a side is 0 or above 1,024, or a binned board has an odd side.

        >>> Board(1024, 768, binned=True).covered()
        True
        """
        words = _new_words()
        _call(_library.ramp_open, words, _WORDS, *_sides(width, height), _flag("binned", binned))
        self._words = words

    @classmethod
    def from_words(cls, words: Iterable[int]) -> Board:
        """The board that was kept as these 29 words.

        Nothing is refused here; every call on a board of words that no board has is refused with 99.

        >>> board = Board(2, 1)
        >>> board.start()
        >>> again = Board.from_words(board.words)
        >>> again.feed(memoryview(bytes(4)).cast("H"), memoryview(bytearray(8)).cast("i"))
        >>> Board.from_words([0] * 29).covered()
        Traceback (most recent call last):
        ramp_board.Refused: refused with 99: the board isn't sound
        """
        numbers = [_number("a word", word, -(1 << 63), (1 << 63) - 1) for word in words]
        if len(numbers) != _WORDS:
            raise ValueError(f"a board has {_WORDS} words, got {len(numbers)}")
        board = cls.__new__(cls)
        board._words = _new_words(*numbers)
        return board

    @property
    def words(self) -> tuple[int, ...]:
        """All that the board is, as 29 numbers to keep. What each of them means isn't part of what is promised.

        >>> len(Board(2, 1).words)
        29
        """
        return tuple(self._words)

    def __reduce__(self) -> tuple[Any, ...]:
        return type(self).from_words, (self.words,)

    def __repr__(self) -> str:
        return f"{type(self).__name__}.from_words({self.words})"

    def update(self, record: Any) -> None:
        """Change the waiting settings, which the next start puts in force, as this record says; at any time. A ramp that runs keeps its own.

        A record is two bytes of map, low byte first, and then the fields whose bits are set, in the order of the bits: bits 0 to 8 the weights of
        samples 1 to 9, one byte each, with its size in bits 0 to 3 and its sign in bit 4; bit 9 the threshold, two bytes, low byte first; bit 10
        the truncation r, and bit 11 the number of samples N, one byte each. What it doesn't name stays. It is taken whole or not at all.

        Refused with 99 if the board isn't sound, 2 for a record under two bytes, 3 for a bit of its map from 12 to 15, 4 for a length that isn't
        what the map calls for; then for the first bad field, 5 for a weight byte above 31, 6 for a threshold above 16,383, 7 for an r that isn't 1
        to 3, 8 for an N that isn't 1 to 9.

        >>> board = Board(2, 1)
        >>> board.update(bytes([0, 12, 3, 5]))         # r is 3, N is 5
        >>> board.update(bytes([0, 8, 10]))
        Traceback (most recent call last):
        ramp_board.Refused: refused with 8: N isn't 1 to 9
        """
        with _Buffers() as lent:
            _call(_library.ramp_update, self._words, _WORDS, *lent.read("record", record, _BYTE))

    def start(self) -> None:
        """Put the waiting settings in force and start a ramp, which runs until a read-out or a drop is taken.

        Refused with 99 if the board isn't sound, 9 if a ramp is running.

        >>> board = Board(2, 1)
        >>> board.start()
        >>> board.start()
        Traceback (most recent call last):
        ramp_board.Refused: refused with 9: a ramp is running
        """
        _call(_library.ramp_start, self._words, _WORDS)

    def feed(self, readings: Any, sums: Any) -> None:
        """Bring the next readings of the ramp, 0 to 16,383 each and any number of them, into the sums.

        In all a ramp wants N for each pixel: row by row, the whole array once for each sample. The sums are one for each pixel. What they hold at
        the first sample isn't read; after it each feed gets them as the feed before left them.

        Refused with 99 if the board isn't sound, 10 if no ramp is running, 11 if the sums aren't one for each pixel, 12 for more readings than the
        ramp still wants, 13 for a reading above 16,383, with its index in the readings as the place, 14 if an entry that an earlier feed wrote, and
        that gets a reading now, isn't possible, with its index in the sums as the place.

        >>> from array import array
        >>> board, sums = Board(2, 1), array("i", [0, 0])
        >>> board.start()
        >>> board.feed(array("H", [100, 200, 300]), sums)
        >>> sums                                       # 128 - 4 x 100 - 3 x 300, 128 - 4 x 200
        array('i', [-1172, -672])
        >>> board.feed(array("H", [400, 16384]), sums)
        Traceback (most recent call last):
        ramp_board.Refused: refused with 13: a reading is above 16,383, the first at index 1
        """
        with _Buffers() as lent:
            some = lent.read("readings", readings, _UNSIGNED_16)
            _call(_library.ramp_feed, self._words, _WORDS, *some, *lent.written("sums", sums, _SIGNED_32, (_FLOAT_64, "feed_floats")))

    def read_out(self, sums: Any, words: Any) -> None:
        """Write the frame of a ramp whose readings are all fed into the words, and end the ramp. The sums aren't changed.

        The words stand row by row: one for each pixel or, binned, one for each square of four, in half as many rows and columns.

        Refused with 99 if the board isn't sound, 10 if no ramp is running, 11 if the sums aren't one for each pixel, 15 if readings are still
        wanted, 16 if the words aren't one for each pixel or, binned, for each square, 14 if an entry of the sums isn't possible, with its index as
        the place.

        >>> from array import array
        >>> board, sums, words = Board(2, 1), array("i", [0, 0]), array("H", [0, 0])
        >>> board.start()
        >>> board.feed(array("H", [1000, 1000] * 8), sums)
        >>> board.read_out(sums, words)
        Traceback (most recent call last):
        ramp_board.Refused: refused with 15: readings are still wanted
        >>> board.feed(array("H", [1000, 14000]), sums)
        >>> board.read_out(sums, words)
        >>> [read_word(2, word) for word in words]
        [Ordinary(low=128.0, high=132.0), Saturated(sample=9)]
        """
        with _Buffers() as lent:
            kept = lent.read("sums", sums, _SIGNED_32, (_FLOAT_64, "read_out_floats"))
            _call(_library.ramp_read_out, self._words, _WORDS, *kept, *lent.written("words", words, _UNSIGNED_16))

    def feed_floats(self, readings: Any, sums: Any) -> None:
        """`feed` for a ramp that is summed in 64-bit floats: each is exactly the whole number that `feed` would store.

        A ramp keeps to one kind of sums, from its first feed to its read-out. An entry that gets no reading stays as it was, bit for bit, and before
        the first sample it may be anything.

        Refused as `feed`, with 99, 10, 11, 12, 13, 14. An entry isn't possible either if it is no number, infinite, a fraction, minus zero, or too
        large.

        >>> from array import array
        >>> board, sums = Board(2, 1), array("d", [float("nan"), 0.5])
        >>> board.start()
        >>> board.feed_floats(array("H", [100, 200, 300]), sums)
        >>> sums                                       # 128 - 4 x 100 - 3 x 300, 128 - 4 x 200
        array('d', [-1172.0, -672.0])
        >>> sums[1] = -671.5
        >>> board.feed_floats(array("H", [400]), sums)
        Traceback (most recent call last):
        ramp_board.Refused: refused with 14: an entry of the sums isn't possible, the first at index 1
        """
        with _Buffers() as lent:
            some = lent.read("readings", readings, _UNSIGNED_16)
            _call(_library.ramp_feed_floats, self._words, _WORDS, *some, *lent.written("sums", sums, _FLOAT_64, (_SIGNED_32, "feed")))

    def read_out_floats(self, sums: Any, words: Any) -> None:
        """`read_out` for a ramp that was summed in 64-bit floats: the words are those of the whole numbers.

        Refused as `read_out`, with 99, 10, 11, 15, 16, 14.

        >>> from array import array
        >>> board, sums, words = Board(2, 1), array("d", [0, 0]), array("H", [0, 0])
        >>> board.start()
        >>> board.feed_floats(array("H", [1000, 1000] * 8 + [1000, 14000]), sums)
        >>> board.read_out_floats(sums, words)
        >>> [read_word(2, word) for word in words]
        [Ordinary(low=128.0, high=132.0), Saturated(sample=9)]
        """
        with _Buffers() as lent:
            kept = lent.read("sums", sums, _FLOAT_64, (_SIGNED_32, "read_out"))
            _call(_library.ramp_read_out_floats, self._words, _WORDS, *kept, *lent.written("words", words, _UNSIGNED_16))

    def drop(self) -> None:
        """End the ramp without a frame. The settings stay as they are.

        Refused with 99 if the board isn't sound, 10 if no ramp is running.

        >>> board = Board(2, 1)
        >>> board.start()
        >>> board.drop()
        >>> board.drop()
        Traceback (most recent call last):
        ramp_board.Refused: refused with 10: no ramp is running
        """
        _call(_library.ramp_drop, self._words, _WORDS)

    def covered(self) -> bool:
        """Whether the settings in force are covered: no readings at or below the threshold can make a sum too large for its word.

        Only of a frame that was read out under covered settings every word surely means what `read_word` says.

        Refused with 99 if the board isn't sound.

        >>> board = Board(2, 1)
        >>> board.covered()
        True
        >>> board.update(bytes([0, 2, 32, 51]))        # the threshold is 13,088
        >>> board.start()
        >>> board.covered()
        False
        """
        answer = ctypes.c_uint8()
        _call(_library.ramp_covered, self._words, _WORDS, ctypes.byref(answer))
        return answer.value == 1


def read_word(truncation: int, word: int) -> Meaning:
    """What a word means: Ordinary(low, high), Saturated(sample), Negative() or Unassigned(). The truncation is the r of the word's frame.

    Refused with 7 if the truncation isn't 1 to 3.

    >>> read_word(2, 32), read_word(2, 32753), read_word(2, 32767), read_word(2, 32752)
    (Ordinary(low=128.0, high=132.0), Saturated(sample=1), Negative(), Unassigned())
    >>> read_word(4, 32)
    Traceback (most recent call last):
    ramp_board.Refused: refused with 7: r isn't 1 to 3
    """
    kind, sample = ctypes.c_uint8(), ctypes.c_uint16()
    low, high = ctypes.c_double(), ctypes.c_double()
    given = _number("truncation", truncation, 0, 65_535), _number("word", word, 0, 65_535)
    _call(_library.ramp_read_word, *given, *map(ctypes.byref, (kind, low, high, sample)))
    if kind.value == 0:
        return Ordinary(low.value, high.value)
    if kind.value == 1:
        return Saturated(sample.value)
    return Negative() if kind.value == 2 else Unassigned()


def nearest_flag(words: Any, width: int, height: int, row: int, column: int) -> Optional[Place]:
    """The place of the flag of a frame that is nearest to this row and column, or None if the frame has no flag.

    A flag is a word that reads as saturated or negative. Near is meant by squared distance; among equals the first in row order is the nearest.
    Width and height are those of the frame of words, which of a binned board are half of the board's.

    Refused with 19 if a side is 0 or above 1,024, 16 if the words aren't width x height, 19 if the place is outside the frame.

    >>> from array import array
    >>> nearest_flag(array("H", [7, 32753, 7, 32767]), 2, 2, 0, 0)
    Place(row=0, column=1)
    >>> nearest_flag(array("H", [7]), 1, 1, 0, 0) is None
    True
    >>> nearest_flag(array("H", [7]), 1, 1, 1, 0)      # doctest: +ELLIPSIS
    Traceback (most recent call last):
    ramp_board.Refused: refused with 19: ...
    """
    found, flag_row, flag_column = _size(), _size(), _size()
    place = _place("row", row), _place("column", column)
    with _Buffers() as lent:
        some = lent.read("words", words, _UNSIGNED_16)
        _call(_library.ramp_nearest_flag, *some, *_sides(width, height), *place, *map(ctypes.byref, (found, flag_row, flag_column)))
    return Place(flag_row.value, flag_column.value) if found.value else None


def count_flags(words: Any, width: int, height: int, first: tuple[int, int], last: tuple[int, int]) -> int:
    """How many flags of a frame lie in the box from its first corner, a row and a column, to its last; both are counted in.

    Refused with 19 if a side is 0 or above 1,024, 16 if the words aren't width x height, 19 if a corner is outside the frame, or the first is past the
    last in row or column.

    >>> from array import array
    >>> count_flags(array("H", [7, 32753, 7, 32767]), 2, 2, (0, 1), (1, 1))
    2
    >>> count_flags(array("H", [7, 32753, 7, 32767]), 2, 2, (0, 1), (1, 0))    # doctest: +ELLIPSIS
    Traceback (most recent call last):
    ramp_board.Refused: refused with 19: ...
    """
    flags = _size()
    corners = [
        _place(f"the {name} corner's {axis}", number)
        for name, corner in (("first", first), ("last", last))
        for axis, number in zip(("row", "column"), _pair(f"the {name} corner", corner))
    ]
    with _Buffers() as lent:
        some = lent.read("words", words, _UNSIGNED_16)
        _call(_library.ramp_count_flags, *some, *_sides(width, height), *corners, ctypes.byref(flags))
    return flags.value


def frame(width: int, height: int, binned: bool, record: Any, readings: Any, sums: Any, words: Any) -> None:
    """A whole frame in one call: open a board, update it with the record, start a ramp, feed all readings, and read the frame out into the words.

    Refused with the first refusal of these calls, as each of them says: 1, 2 to 8, 11, 12, 13, 15, 16. The sums and the words are then as they were.

    >>> from array import array
    >>> sums, words = array("i", [0] * 4), array("H", [0])
    >>> frame(2, 2, True, bytes([1, 8, 1, 1]), array("H", [0, 16, 32, 48]), sums, words)     # weight 1 is 1, N is 1
    >>> sums, words
    (array('i', [128, 144, 160, 176]), array('H', [38]))
    >>> frame(2, 2, True, bytes([1, 8, 1, 1]), array("H", [0, 16, 32]), sums, words)
    Traceback (most recent call last):
    ramp_board.Refused: refused with 15: readings are still wanted
    """
    opened = *_sides(width, height), _flag("binned", binned)
    with _Buffers() as lent:
        given = *lent.read("record", record, _BYTE), *lent.read("readings", readings, _UNSIGNED_16)
        left = *lent.written("sums", sums, _SIGNED_32), *lent.written("words", words, _UNSIGNED_16)
        _call(_library.ramp_frame, *opened, *given, *left)


# The numbers that a call is given.


def _number(name: str, value: Any, least: int, most: int) -> int:
    """A whole number that the call can take as it is."""
    try:
        number = operator.index(value)
    except TypeError:
        raise TypeError(f"{name} must be a whole number, got {_kind(value)}") from None
    if not least <= number <= most:
        raise ValueError(f"{name} must be from {least:,} to {most:,}, got {number:,}")
    return number


def _place(name: str, value: Any) -> int:
    """A side, a row or a column: any that the machine has a number for, since the call itself refuses most of them."""
    return _number(name, value, 0, (1 << 8 * ctypes.sizeof(_size)) - 1)


def _sides(width: Any, height: Any) -> tuple[int, int]:
    return _place("width", width), _place("height", height)


def _pair(name: str, value: Any) -> tuple[Any, Any]:
    try:
        row, column = value
    except (TypeError, ValueError):
        raise TypeError(f"{name} must be a row and a column, got {value!r}") from None
    return row, column


def _flag(name: str, value: Any) -> bool:
    """True or False, or what equals one of them; nothing else that Python takes for true."""
    if value not in (False, True):
        raise TypeError(f"{name} must be True or False, got {value!r}")
    return bool(value)


def _kind(value: Any) -> str:
    return type(value).__name__


# The buffers that a call is lent.


class _Item(NamedTuple):
    """What the items of a buffer must be: their codes in the struct module, their size in bytes, and in words."""

    codes: tuple[str, ...]
    size: int
    text: str


_BYTE = _Item(("B", "c"), 1, "bytes")
_UNSIGNED_16 = _Item(("H",), 2, "unsigned with 16 bits")
_SIGNED_32 = _Item(("i", "l"), 4, "signed with 32 bits")
_FLOAT_64 = _Item(("d",), 8, "floats with 64 bits")
# Items for which another call stands, and its name.
_Other = Optional[tuple[_Item, str]]
_NATIVE = ("@", "=", "<" if sys.byteorder == "little" else ">")


def _holds(view: memoryview, item: _Item) -> bool:
    """Whether these are the items of a view."""
    code = view.format[1:] if view.format.startswith(_NATIVE) else view.format
    # In Python 3.9 the items of an empty ctypes array have no size.
    return code in item.codes and view.itemsize in (item.size, 0)


class _PyBuffer(ctypes.Structure):
    """The Py_buffer of Python's C interface."""

    _fields_ = [
        ("buf", ctypes.c_void_p),
        ("obj", ctypes.c_void_p),
        ("len", ctypes.c_ssize_t),
        ("itemsize", ctypes.c_ssize_t),
        ("readonly", ctypes.c_int),
        ("ndim", ctypes.c_int),
        ("format", ctypes.c_void_p),
        ("shape", ctypes.c_void_p),
        ("strides", ctypes.c_void_p),
        ("suboffsets", ctypes.c_void_p),
        ("internal", ctypes.c_void_p),
    ]


_SIMPLE = 0  # PyBUF_SIMPLE
_get_buffer = ctypes.PYFUNCTYPE(ctypes.c_int, ctypes.py_object, ctypes.POINTER(_PyBuffer), ctypes.c_int)(
    ("PyObject_GetBuffer", ctypes.pythonapi)
)
_release_buffer = ctypes.PYFUNCTYPE(None, ctypes.POINTER(_PyBuffer))(("PyBuffer_Release", ctypes.pythonapi))
# Where a buffer of no items points to: a call takes no NULL.
_NOTHING = ctypes.c_int64()


def _address(view: memoryview) -> int:
    """Where the items of a contiguous view lie; they stay there for as long as the view is held."""
    held = _PyBuffer()
    _get_buffer(view, held, _SIMPLE)
    address = held.buf
    _release_buffer(held)
    return address or 0


class _Lent(NamedTuple):
    """A buffer that was checked: its name, and where it begins and ends."""

    name: str
    start: int
    end: int


class _Buffers:
    """The buffers of one call, held until it is over: nobody can resize or free them meanwhile. Those that the call writes come last."""

    def __init__(self) -> None:
        self.views: list[memoryview] = []
        self.lent: list[_Lent] = []

    def __enter__(self) -> _Buffers:
        return self

    def __exit__(self, *_: object) -> None:
        for view in self.views:
            view.release()

    def read(self, name: str, value: Any, item: _Item, other: _Other = None) -> tuple[int, int]:
        """The address and the number of items of a buffer that the call only reads."""
        return self.take(name, value, item, other, written=False)

    def written(self, name: str, value: Any, item: _Item, other: _Other = None) -> tuple[int, int]:
        """The address and the number of items of a buffer that the call writes."""
        return self.take(name, value, item, other, written=True)

    def take(self, name: str, value: Any, item: _Item, other: _Other, written: bool) -> tuple[int, int]:
        """The address and the number of items of a buffer, after all checks."""
        try:
            view = memoryview(value)
        except (TypeError, ValueError, BufferError) as error:
            raise TypeError(f"{name} must be a buffer whose items are {item.text}, got {_kind(value)}: {error}") from None
        self.views.append(view)
        if not _holds(view, item):
            found = f"{_kind(value)} of format {view.format!r} with {8 * view.itemsize} bits"
            hint = f": {other[1]} takes these" if other and _holds(view, other[0]) else ""
            raise TypeError(f"the items of {name} must be {item.text}, got {found}{hint}")
        if written and view.readonly:
            raise TypeError(f"{name} must be writable, got read-only {_kind(value)}")
        if view.ndim == 0:
            raise TypeError(f"{name} must have a dimension, got a single item")
        if view.nbytes == 0:
            return ctypes.addressof(_NOTHING), 0
        if not view.c_contiguous:
            raise ValueError(f"the items of {name} must lie one after the other, got {_kind(value)} with gaps or in another order: copy it first")
        start = _address(view)
        if start % item.size:
            raise ValueError(f"{name} must begin at a multiple of {item.size} bytes in memory: copy it first")
        lent = _Lent(name, start, start + view.nbytes)
        for other in self.lent:
            if written and other.start < lent.end and lent.start < other.end:
                raise ValueError(f"{other.name} and {name} share memory, and {name} is written")
        self.lent.append(lent)
        return start, view.nbytes // item.size


# The library.

_WORDS = 29  # of a board
_size = ctypes.c_size_t
_pointer = ctypes.c_void_p
_BUFFER = (_pointer, _size)
_FUNCTIONS = {
    "ramp_open": (*_BUFFER, _size, _size, ctypes.c_bool),
    "ramp_update": (*_BUFFER, *_BUFFER),
    "ramp_start": _BUFFER,
    "ramp_feed": (*_BUFFER, *_BUFFER, *_BUFFER),
    "ramp_read_out": (*_BUFFER, *_BUFFER, *_BUFFER),
    "ramp_feed_floats": (*_BUFFER, *_BUFFER, *_BUFFER),
    "ramp_read_out_floats": (*_BUFFER, *_BUFFER, *_BUFFER),
    "ramp_drop": _BUFFER,
    "ramp_covered": (*_BUFFER, _pointer),
    "ramp_read_word": (ctypes.c_uint16, ctypes.c_uint16, *(_pointer,) * 4),
    "ramp_nearest_flag": (*_BUFFER, *(_size,) * 4, *(_pointer,) * 3),
    "ramp_count_flags": (*_BUFFER, *(_size,) * 6, _pointer),
    "ramp_frame": (_size, _size, ctypes.c_bool, *_BUFFER * 4),
}
_new_words = ctypes.c_int64 * _WORDS


def _call(function: Any, *arguments: Any) -> None:
    """Make a call, whose last argument is always where its place goes."""
    place = _size()
    number = function(*arguments, ctypes.byref(place))
    if number:
        raise Refused(number, place.value)


def _found_library() -> Path:
    """The library's file."""
    named = os.environ.get("RAMP_BOARD_LIBRARY")
    if named:
        file = Path(named).resolve()
        if not file.is_file():
            raise ImportError(f"RAMP_BOARD_LIBRARY names {file}, and there is no such file: bindings/build makes the library")
        return file
    here, name = Path(__file__).resolve().parent, "libramp_board.so"
    files = [here / name, here.parent / "target" / "bindings" / name]
    for file in files:
        if file.is_file():
            return file
    tried = " or ".join(map(str, files))
    raise ImportError(f"no library at {tried}: bindings/build makes it, and RAMP_BOARD_LIBRARY may name it")


def _loaded_library() -> ctypes.PyDLL:
    """The library, with what each function takes and gives. A call of a PyDLL keeps the interpreter's lock."""
    file = _found_library()
    try:
        library = ctypes.PyDLL(str(file))
        for name, takes in _FUNCTIONS.items():
            function = getattr(library, name)
            function.argtypes = (*takes, _pointer)
            function.restype = ctypes.c_uint8
    except (OSError, AttributeError) as error:
        raise ImportError(f"{file} is no library of the ramp board: {error}") from None
    return library


_library = _loaded_library()
