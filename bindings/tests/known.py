"""Tests of the module ramp_board: its examples, every refusal, every error of Python's own, every kind of buffer, and boards that are kept.

Run as a program. It needs the library, which `bindings/build` makes.
"""

from __future__ import annotations

import copy
import ctypes
import doctest
import math
import mmap
import os
import pickle
import re
import shutil
import subprocess
import sys
import tempfile
import unittest
from array import array
from functools import partial
from itertools import permutations
from pathlib import Path
from typing import Any, Callable, Iterator, NamedTuple, Optional

BINDINGS = Path(__file__).resolve().parent.parent
sys.path.insert(0, str(BINDINGS))

import ramp_board  # noqa: E402
from ramp_board import (  # noqa: E402
    Board,
    Negative,
    Ordinary,
    Place,
    Refused,
    Saturated,
    Unassigned,
    count_flags,
    frame,
    nearest_flag,
    read_word,
)

try:
    import numpy
except ImportError:
    numpy = None

RECORD = bytes([1, 10, 1, 255, 63, 1])  # weight 1 is 1, the threshold 16,383, N is 1
MARK = 1_073_741_824
# What stands for each kind of items in ctypes.
ITEMS = {"B": ctypes.c_uint8, "H": ctypes.c_uint16, "i": ctypes.c_int32, "d": ctypes.c_double}
# Floats that no entry is after one sample.
NOT_POSSIBLE = (math.nan, math.inf, -math.inf, -0.0, 0.25, -0.5, 128.5, 245_874.0, -245_618.0, MARK, MARK + 1.5, MARK + 2, 2.0**31, 2.0**32 + 128, 1e300, 5e-324)


def load_tests(_loader: unittest.TestLoader, tests: unittest.TestSuite, _pattern: Optional[str]) -> unittest.TestSuite:
    """The module's examples beside the tests here."""
    tests.addTests(doctest.DocTestSuite(ramp_board))
    return tests


class Call(NamedTuple):
    """A call that is taken: its function, its buffers by name, which of them it writes, and its board."""

    name: str
    function: Callable[..., Any]
    buffers: dict[str, Any]
    written: tuple[str, ...] = ()
    board: Optional[Board] = None

    def content(self) -> tuple[Any, ...]:
        """All that the call could change."""
        return self.board and self.board.words, {name: bytes(memoryview(buffer)) for name, buffer in self.buffers.items()}

    def make(self, **others: Any) -> Any:
        """Make the call, with other things in place of some buffers."""
        return self.function(**{**self.buffers, **others})


def running(readings: int = 0) -> tuple[Board, array[int]]:
    """A board of two pixels in a ramp of one sample with so many readings fed, and its sums."""
    board, sums = Board(2, 1), array("i", [7, 8])
    board.update(RECORD)
    board.start()
    board.feed(array("H", [0, 16_383][:readings]), sums)
    return board, sums


def calls() -> list[Call]:
    """One taken call of each that is lent a buffer."""
    (board, sums), (full, full_sums) = running(), running(2)
    (other, _), (other_full, _) = running(), running(2)
    words = array("H", [32_753, 5])
    frame_buffers = {"record": bytearray(RECORD), "readings": array("H", [5, 6]), "sums": array("i", [7, 8]), "words": array("H", [3, 4])}
    return [
        Call("update", board.update, {"record": bytearray(RECORD)}, (), board),
        Call("feed", board.feed, {"readings": array("H", [5, 6]), "sums": sums}, ("sums",), board),
        Call("read_out", full.read_out, {"sums": full_sums, "words": array("H", [3, 4])}, ("words",), full),
        Call("feed_floats", other.feed_floats, {"readings": array("H", [5, 6]), "sums": array("d", [7, 8])}, ("sums",), other),
        Call("read_out_floats", other_full.read_out_floats, {"sums": array("d", full_sums), "words": array("H", [3, 4])}, ("words",), other_full),
        Call("nearest_flag", partial(nearest_flag, width=2, height=1, row=0, column=0), {"words": words}),
        Call("count_flags", partial(count_flags, width=2, height=1, first=(0, 0), last=(0, 1)), {"words": words}),
        Call("frame", partial(frame, 2, 1, False), frame_buffers, ("sums", "words")),
    ]


def each_buffer() -> Iterator[tuple[Call, str]]:
    """Each buffer of each call, the call made anew."""
    for number, call in enumerate(calls()):
        for name in call.buffers:
            yield calls()[number], name


def same_items(buffer: Any, store: Any) -> memoryview:
    """A view of bytes with the items of a buffer."""
    return memoryview(store).cast("B").cast(memoryview(buffer).format)


class Jobs(unittest.TestCase):
    """Taken calls."""

    def test_two_pixels(self) -> None:
        board = Board(2, 1)
        board.update(RECORD)
        board.start()
        sums, words = array("i", [0, 0]), array("H", [0, 0])
        board.feed(array("H", [0, 16_383]), sums)
        board.read_out(sums, words)
        self.assertEqual(words.tolist(), [32, 4127])
        self.assertEqual([read_word(2, word) for word in words], [Ordinary(128.0, 132.0), Ordinary(16_508.0, 16_512.0)])

    def test_the_first_settings(self) -> None:
        for last, sum_after, word in ((13_087, 128, 32), (13_088, MARK + 9, 32_761)):
            sums, words = array("i", [77]), array("H", [7])
            frame(1, 1, False, bytes(2), array("H", [13_087] * 8 + [last]), sums, words)
            self.assertEqual((sums[0], words[0]), (sum_after, word))

    def test_parts_of_every_length_leave_what_one_call_leaves(self) -> None:
        record = bytes([0, 2, 0, 48])  # the threshold is 12,288
        readings = array("H", [number * 2477 % 12_400 for number in range(72)])
        for binned in (False, True):
            whole_sums, whole_words = array("i", [0] * 8), array("H", [0] * (2 if binned else 8))
            frame(4, 2, binned, record, readings, whole_sums, whole_words)
            for part in range(1, 73):
                board, sums, words = Board(4, 2, binned), array("i", [-1] * 8), array("H", [9] * len(whole_words))
                board.update(record)
                board.start()
                for at in range(0, 72, part):
                    board.feed(readings[at : at + part], sums)
                board.read_out(sums, words)
                self.assertEqual((sums, words), (whole_sums, whole_words))

    def test_floats_are_the_same_whole_numbers(self) -> None:
        record = bytes([0, 2, 0, 48])  # the threshold is 12,288
        readings = array("H", [number * 2477 % 12_400 for number in range(72)])
        for binned in (False, True):
            whole_sums, whole_words = array("i", [0] * 8), array("H", [0] * (2 if binned else 8))
            frame(4, 2, binned, record, readings, whole_sums, whole_words)
            for part in range(1, 73):
                board, sums, words = Board(4, 2, binned), array("d", [math.nan, math.inf, -0.0, 0.5] * 2), array("H", [9] * len(whole_words))
                board.update(record)
                board.start()
                for at in range(0, 72, part):
                    board.feed_floats(readings[at : at + part], sums)
                board.read_out_floats(sums, words)
                self.assertEqual((sums, words), (array("d", whole_sums), whole_words))

    def test_no_float_is_minus_zero(self) -> None:
        board, sums = Board(2, 1), array("d", [math.nan, -0.0])
        board.update(bytes([7, 8, 24, 16, 31, 3]))  # weights -8, -0 and -15, N is 3
        board.start()
        for readings in ([16, 0], [7, 16], [0, 0]):
            board.feed_floats(array("H", readings), sums)
            self.assertEqual(sums.tobytes(), array("d", [0, 128]).tobytes())

    def test_floats_without_a_reading_stay_bit_for_bit(self) -> None:
        for pattern in (0x7FF8000000000000, 0x7FF0DEADBEEF0001, 0xFFF4000000000001, 0xFFFFFFFFFFFFFFFF, 0x8000000000000000, 1):
            board, sums = Board(2, 1), array("d", array("Q", [pattern, pattern]).tobytes())
            board.start()
            board.feed_floats(array("H", [5]), sums)
            self.assertEqual(sums[0], 108)
            self.assertEqual(array("Q", sums.tobytes())[1], pattern)

    def test_an_update_waits_for_the_next_start(self) -> None:
        board, sums, words = Board(1, 1), array("i", [0]), array("H", [0])
        board.update(bytes([0, 8, 2]))
        board.start()
        board.update(bytes([0, 12, 3, 1]))
        board.feed(array("H", [0, 0]), sums)
        board.read_out(sums, words)
        self.assertEqual(words[0], 32)
        board.start()
        board.feed(array("H", [0]), sums)
        board.read_out(sums, words)
        self.assertEqual(words[0], 16)

    def test_words(self) -> None:
        self.assertEqual(read_word(1, 32_751), Ordinary(65_502.0, 65_504.0))
        self.assertEqual([read_word(3, 32_752 + sample) for sample in range(1, 10)], [Saturated(sample) for sample in range(1, 10)])
        self.assertEqual(read_word(1, 32_767), Negative())
        for word in (32_752, 32_762, 32_766, 32_768, 65_535):
            self.assertEqual(read_word(2, word), Unassigned())
        self.assertNotEqual(Negative(), Unassigned())
        self.assertEqual(repr(read_word(2, 32_760)), "Saturated(sample=8)")

    def test_flags(self) -> None:
        words = array("H", [5, 5, 5, 5, 32_753, 5, 32_767, 5, 32_761])
        self.assertEqual(nearest_flag(words, 3, 3, 0, 0), Place(1, 1))
        self.assertEqual(nearest_flag(words, 3, 3, 2, 1), (1, 1))
        self.assertEqual(nearest_flag(words, 3, 3, row=2, column=2), Place(row=2, column=2))
        self.assertEqual(nearest_flag(words, 9, 1, 0, 0), Place(0, 4))
        self.assertIsNone(nearest_flag(words[:4], 2, 2, 1, 1))
        self.assertEqual(nearest_flag(words[4:5], 1, 1, 0, 0), Place(0, 0))
        self.assertEqual(count_flags(words, 3, 3, (0, 0), (2, 2)), 3)
        self.assertEqual(count_flags(words, 3, 3, Place(1, 0), [1, 2]), 1)
        self.assertEqual(count_flags(words, 3, 3, first=(0, 0), last=(0, 2)), 0)


class Refusals(unittest.TestCase):
    """Every number and place, and that a refused call changes nothing."""

    def refused(self, number: int, place: int, call: Callable[[], Any], *left: Any, board: Optional[Board] = None) -> None:
        """The call is refused so, and leaves the board and these buffers."""
        before = board and board.words, list(map(bytes, left))
        with self.assertRaises(Refused) as caught:
            call()
        self.assertEqual((caught.exception.number, caught.exception.place), (number, place))
        self.assertEqual((board and board.words, list(map(bytes, left))), before)

    def test_open(self) -> None:
        for sides in ((0, 1), (1, 0), (1025, 1), (1, 1025), (3, 2, True), (2, 3, True), (2**16 + 1, 1), (2**32 + 1, 1), (2**64 - 1, 2**64 - 1)):
            self.refused(1, 0, lambda: Board(*sides))
        board = Board(2, 2)
        self.refused(1, 0, lambda: board.__init__(0, 1), board=board)

    def test_update(self) -> None:
        bad = {
            2: [[], [1]],
            3: [[0, 16], [1, 128, 40]],
            4: [[1, 0], [0, 0, 0], [0, 2, 0], [1, 0, 40, 0]],
            5: [[1, 0, 32], [3, 10, 5, 255, 0, 64, 0]],
            6: [[0, 2, 0, 64], [0, 6, 0, 64, 0]],
            7: [[0, 4, 0], [0, 12, 4, 0]],
            8: [[0, 8, 0], [1, 8, 31, 10]],
        }
        for board in (Board(2, 1), running(1)[0]):
            for number, records in bad.items():
                for record in records:
                    self.refused(number, 0, lambda: board.update(bytes(record)), board=board)

    def test_start(self) -> None:
        board = running(1)[0]
        self.refused(9, 0, board.start, board=board)

    def test_without_a_ramp(self) -> None:
        board, sums, words = Board(2, 1), array("i", [7, 8]), array("H", [3, 4])
        self.refused(10, 0, lambda: board.feed(array("H", [5]), sums), sums, board=board)
        self.refused(10, 0, lambda: board.read_out(sums, words), sums, words, board=board)
        floats = array("d", [7, 8])
        self.refused(10, 0, lambda: board.feed_floats(array("H", [5]), floats), floats, board=board)
        self.refused(10, 0, lambda: board.read_out_floats(floats, words), floats, words, board=board)
        self.refused(10, 0, board.drop, board=board)

    def test_feed(self) -> None:
        board, sums = running(1)
        for count in (0, 1, 3):
            short = array("i", [7] * count)
            self.refused(11, 0, lambda: board.feed(array("H", [9] * 9), short), short, board=board)
        self.refused(12, 0, lambda: board.feed(array("H", [16_384] * 2), sums), sums, board=board)
        self.refused(13, 0, lambda: board.feed(array("H", [16_384]), sums), sums, board=board)
        board = Board(2, 1)
        board.start()
        board.feed(array("H", [5, 5, 5]), sums)
        self.refused(13, 2, lambda: board.feed(array("H", [1, 2, 16_384, 65_535]), sums), sums, board=board)
        for entries, count, place in (([128, MARK + 2], 1, 1), ([MARK + 3, MARK + 2], 2, 0), ([128, -(2**31)], 1, 1)):
            damaged = array("i", entries)
            self.refused(14, place, lambda: board.feed(array("H", [5] * count), damaged), damaged, board=board)

    def test_read_out(self) -> None:
        words = array("H", [3, 4])
        board, sums = running(1)
        self.refused(11, 0, lambda: board.read_out(sums[:1], words), words, board=board)
        self.refused(15, 0, lambda: board.read_out(sums, words[:1]), sums, board=board)
        board, sums = running(2)
        for count in (0, 1, 3):
            other = array("H", [7] * count)
            self.refused(16, 0, lambda: board.read_out(sums, other), sums, other, board=board)
        for entries, place in (([MARK, MARK + 2], 0), ([128, MARK + 2], 1), ([128, 245_874], 1)):
            damaged = array("i", entries)
            self.refused(14, place, lambda: board.read_out(damaged, words), damaged, words, board=board)

    def test_feed_floats(self) -> None:
        board, sums = running(1)[0], array("d", [128, 8])
        for count in (0, 1, 3):
            short = array("d", [7] * count)
            self.refused(11, 0, lambda: board.feed_floats(array("H", [9] * 9), short), short, board=board)
        self.refused(12, 0, lambda: board.feed_floats(array("H", [16_384] * 2), sums), sums, board=board)
        self.refused(13, 0, lambda: board.feed_floats(array("H", [16_384]), sums), sums, board=board)
        board = Board(2, 1)
        board.start()
        board.feed_floats(array("H", [5, 5]), sums)
        self.refused(13, 2, lambda: board.feed_floats(array("H", [1, 2, 16_384, 65_535]), sums), sums, board=board)
        for entry in NOT_POSSIBLE:
            for entries, count, place in (([entry, 128], 1, 0), ([128, entry], 2, 1), ([entry, entry], 2, 0)):
                damaged = array("d", entries)
                self.refused(14, place, lambda: board.feed_floats(array("H", [5] * count), damaged), damaged, board=board)

    def test_read_out_floats(self) -> None:
        words, two = array("H", [3, 4]), array("d", [128, 8])
        board = running(1)[0]
        self.refused(11, 0, lambda: board.read_out_floats(two[:1], words), words, board=board)
        self.refused(15, 0, lambda: board.read_out_floats(two, words[:1]), two, board=board)
        board = running(2)[0]
        for count in (0, 1, 3):
            other = array("H", [7] * count)
            self.refused(16, 0, lambda: board.read_out_floats(two, other), two, other, board=board)
        for entry in NOT_POSSIBLE:
            for entries, place in (([128, entry], 1), ([entry, entry], 0)):
                damaged = array("d", entries)
                self.refused(14, place, lambda: board.read_out_floats(damaged, words), damaged, words, board=board)

    def test_a_board_that_is_not_sound(self) -> None:
        sums, floats, words = array("i", [7, 8]), array("d", [7, 8]), array("H", [3, 4])
        for at, word in ((0, 0), (2, 2), (2, -1), (3, 2), (4, 1), (5, 16), (5, 2**32 + 1), (14, 16_384), (15, 65_537), (16, 0)):
            numbers = list(Board(2, 1).words)
            numbers[at] = word
            board = Board.from_words(numbers)
            self.assertEqual(board.words, tuple(numbers))
            for call in (
                lambda: board.update(b""),
                board.start,
                lambda: board.feed(array("H", [20_000]), sums),
                lambda: board.read_out(sums, words),
                lambda: board.feed_floats(array("H", [20_000]), floats),
                lambda: board.read_out_floats(floats, words),
                board.drop,
                board.covered,
            ):
                self.refused(99, 0, call, sums, floats, words, board=board)

    def test_read_word(self) -> None:
        for truncation in (0, 4, 257, 258, 65_535):
            self.refused(7, 0, lambda: read_word(truncation, 5))

    def test_flags(self) -> None:
        words = array("H", [32_767] * 6)
        for width, height in ((0, 6), (6, 0), (1025, 1), (1, 1025), (2**32 + 3, 2), (2**64 - 1, 2)):
            self.refused(19, 0, lambda: nearest_flag(words[:5], width, height, 9, 9))
            self.refused(19, 0, lambda: count_flags(words[:5], width, height, (9, 9), (0, 0)))
        for count in (0, 5):
            self.refused(16, 0, lambda: nearest_flag(words[:count], 3, 2, 9, 9))
            self.refused(16, 0, lambda: count_flags(words[:count], 3, 2, (9, 9), (0, 0)))
        for outside in ((2, 0), (0, 3), (2**32, 0), (0, 2**64 - 1)):
            self.refused(19, 0, lambda: nearest_flag(words, 3, 2, *outside))
            self.refused(19, 0, lambda: count_flags(words, 3, 2, outside, (1, 2)))
            self.refused(19, 0, lambda: count_flags(words, 3, 2, (0, 0), outside))
        self.refused(19, 0, lambda: count_flags(words, 3, 2, (1, 0), (0, 2)))
        self.refused(19, 0, lambda: count_flags(words, 3, 2, (0, 2), (1, 1)))

    def test_frame(self) -> None:
        two, sums, words = array("H", [5, 6]), array("i", [7, 8]), array("H", [3, 4])
        refused = [
            (1, 0, (0, 1, False, b"", two, sums, words)),
            (1, 0, (2, 1, True, RECORD, two, sums, words)),
            (2, 0, (2, 1, False, b"", two[:1], sums[:1], words)),
            (4, 0, (2, 1, False, RECORD[:5], two, sums, words)),
            (8, 0, (2, 1, False, bytes([0, 8, 0]), two, sums, words)),
            (11, 0, (2, 1, False, RECORD, array("H", [20_000] * 3), sums[:1], words)),
            (12, 0, (2, 1, False, RECORD, array("H", [20_000] * 3), sums, words)),
            (13, 1, (2, 1, False, RECORD, array("H", [5, 20_000]), sums, words[:1])),
            (15, 0, (2, 1, False, RECORD, two[:1], sums, words[:1])),
            (16, 0, (2, 1, False, RECORD, two, sums, words[:1])),
        ]
        for number, place, arguments in refused:
            self.refused(number, place, lambda: frame(*arguments), *arguments[4:])

    def test_the_text_says_the_reason(self) -> None:
        page = (BINDINGS.parent / "docs" / "REFUSALS.md").read_text("utf-8")
        numbers = {int(number) for number in re.findall(r"(?m)^\| (\d+) \|", page)}
        self.assertEqual(set(ramp_board._REASONS), numbers - {17, 18})  # 17 and 18 are the jig's
        self.assertEqual(str(Refused(14, 3)), "refused with 14: an entry of the sums isn't possible, the first at index 3")
        self.assertEqual(str(pickle.loads(pickle.dumps(Refused(13, 2)))), "refused with 13: a reading is above 16,383, the first at index 2")


class Errors(unittest.TestCase):
    """Python's own errors, which come before the call."""

    def fails(self, error: type[Exception], names: str, call: Call, **others: Any) -> None:
        """The call with other buffers raises this error, whose text has all these names, and changes nothing."""
        before = call.content()
        with self.assertRaises(error) as caught:
            call.make(**others)
        for name in names.split():
            self.assertIn(name, str(caught.exception))
        self.assertEqual(call.content(), before)

    def test_wrong_items(self) -> None:
        for call, name in each_buffer():
            right = memoryview(call.buffers[name]).format
            for code in "bBhHiIlLqQfd":
                other = array(code, [1, 1])
                if code != right and (code, other.itemsize, right) != ("l", 4, "i"):
                    self.fails(TypeError, f"{name} {code!r} array", call, **{name: other})
            if right != "B":
                for length in (3, 4, 8):
                    self.fails(TypeError, f"{name} 'B' bytes", call, **{name: bytes(length)})
            self.fails(TypeError, f"{name} '?'", call, **{name: memoryview(bytearray(2)).cast("?")})

    def test_sums_of_the_other_kind(self) -> None:
        """The error says which call takes them."""
        for call, name in each_buffer():
            others = {"feed": "feed_floats", "feed_floats": "feed", "read_out": "read_out_floats", "read_out_floats": "read_out"}
            if name == "sums" and call.name in others:
                other = array("d" if memoryview(call.buffers[name]).format == "i" else "i", [1, 1])
                with self.assertRaisesRegex(TypeError, f"sums must be .* bits: {others[call.name]} takes these$"):
                    call.make(sums=other)
                with self.assertRaisesRegex(TypeError, r"sums must be .* with \d+ bits$"):
                    call.make(sums=array("h", [1, 1]))

    def test_the_other_byte_order(self) -> None:
        for call, name in each_buffer():
            if name != "record":
                item = ITEMS[memoryview(call.buffers[name]).format]
                other = item.__ctype_be__ if sys.byteorder == "little" else item.__ctype_le__
                self.fails(TypeError, name, call, **{name: (other * 2)(1, 1)})

    def test_no_buffer(self) -> None:
        released = memoryview(b"11")
        released.release()
        for call, name in each_buffer():
            self.fails(TypeError, f"{name} released", call, **{name: released})
            for other in (None, [1, 1], (1, 1), "11", 1, 1.0, iter(b"11"), call.board):
                self.fails(TypeError, f"{name} {type(other).__name__}", call, **{name: other})

    def test_read_only(self) -> None:
        for call, name in each_buffer():
            read_only = memoryview(call.buffers[name]).toreadonly()
            if name in call.written:
                self.fails(TypeError, f"{name} read-only", call, **{name: read_only})
            else:
                call.make(**{name: read_only})

    def test_gaps(self) -> None:
        for call, name in each_buffer():
            twice = memoryview(call.buffers[name]).tolist() * 2
            view = memoryview(array(memoryview(call.buffers[name]).format, twice))
            self.fails(ValueError, f"{name} gaps", call, **{name: view[::2]})
            self.fails(ValueError, f"{name} gaps", call, **{name: view[: len(twice) // 2][::-1]})
            call.make(**{name: view[len(twice) // 2 :]})

    def test_a_single_item(self) -> None:
        for call, name in each_buffer():
            item = ITEMS[memoryview(call.buffers[name]).format]
            self.fails(TypeError, f"{name} dimension", call, **{name: item(1)})

    def test_items_that_do_not_begin_where_they_may(self) -> None:
        for call, name in each_buffer():
            content = bytes(call.buffers[name])
            store = bytearray(len(content) + 8)
            for shift in (1, 2, 3, 4):
                view = memoryview(store)[shift : shift + len(content)]
                view[:] = content
                moved = same_items(call.buffers[name], view)
                if shift % moved.itemsize:
                    self.fails(ValueError, f"{name} memory", call, **{name: moved})

    def test_shared_memory(self) -> None:
        pairs = set()
        for number, call in enumerate(calls()):
            for low, high in permutations(call.buffers, 2):
                if {low, high} & set(call.written):
                    pairs.add((low, high))
                    self.share(calls()[number], low, high)
        self.assertEqual(len(pairs), 10)

    def share(self, call: Call, low: str, high: str) -> None:
        """A buffer that begins in another one fails; right behind it, it doesn't."""
        first, second = bytes(call.buffers[low]), bytes(call.buffers[high])
        step = max(4, memoryview(call.buffers[high]).itemsize)
        end = -(-len(first) // step) * step
        store = memoryview(bytearray(first.ljust(end, b"\0") + second))
        for start in range(0, end + 1, step):
            some = {low: same_items(call.buffers[low], store[: len(first)])}
            some[high] = same_items(call.buffers[high], store[start : start + len(second)])
            if start < end:
                self.fails(ValueError, f"{low} {high} memory", call, **some)
                self.assertEqual(bytes(store), first.ljust(end, b"\0") + second)
            else:
                call.make(**some)

    def test_what_is_only_read_may_be_shared(self) -> None:
        record = bytes([1, 8, 1, 1])
        sums, words = array("i", [0, 0]), array("H", [0, 0])
        frame(2, 1, False, record, memoryview(record).cast("H"), sums, words)
        self.assertEqual(sums.tolist(), [128 + 0x0801, 128 + 0x0101] if sys.byteorder == "little" else [128 + 0x0108, 128 + 0x0101])

    def test_buffers_are_free_after_each_call(self) -> None:
        good, wrong, large = array("H", [5]), array("h", [5]), array("H", [20_000])
        for error, readings in ((None, good), (TypeError, wrong), (Refused, large)):
            board, sums = running()
            try:
                board.feed(readings, sums)
            except (TypeError, Refused) as found:
                self.assertIs(type(found), error)
                readings.append(1)  # while the error is still there
                sums.append(1)
            else:
                self.assertIsNone(error)
                readings.append(1)
                sums.append(1)

    def test_numbers(self) -> None:
        flags = array("H", [32_767] * 4)
        calls_by_number: dict[str, Callable[[Any], Any]] = {
            "width": lambda number: Board(number, 1),
            "height": lambda number: Board(1, number),
            "row": lambda number: nearest_flag(flags, 2, 2, number, 0),
            "column": lambda number: nearest_flag(flags, 2, 2, 0, number),
            "first": lambda number: count_flags(flags, 2, 2, (0, number), (1, 1)),
            "last": lambda number: count_flags(flags, 2, 2, (0, 0), (number, 1)),
            "truncation": lambda number: read_word(number, 5),
            "word": lambda number: read_word(1, number),
            "a word": lambda number: Board.from_words([number] * 29),
        }
        frame_buffers = calls()[-1].buffers
        for name, call in calls_by_number.items():
            outside = {"truncation": (-1, 65_536, 65_538), "word": (-1, 65_536), "a word": (2**63, -(2**63) - 1)}.get(name, (-1, 2**64, 2**64 + 1))
            for number in (*outside, 2**200):
                with self.subTest(name=name, number=number), self.assertRaisesRegex(ValueError, f"{name}.* must be from"):
                    call(number)
            for number in (1.0, "1", None, b"1", [1]):
                with self.subTest(name=name, number=number), self.assertRaisesRegex(TypeError, f"{name}.* must be a whole number"):
                    call(number)
        before = calls()[-1].content()
        for sides in ((-1, 1), (2, 2**64 + 1), (2**64 + 2, 1)):
            with self.assertRaises(ValueError):
                frame(*sides, False, **frame_buffers)
            with self.assertRaises(ValueError):
                nearest_flag(flags, *sides, 0, 0)
            with self.assertRaises(ValueError):
                count_flags(flags, *sides, (0, 0), (0, 0))
        self.assertEqual(calls()[-1]._replace(buffers=frame_buffers).content(), before)
        for corner in (None, 1, (1,), (1, 1, 1)):
            with self.assertRaisesRegex(TypeError, "corner must be a row and a column"):
                count_flags(flags, 2, 2, corner, (1, 1))

    def test_binned(self) -> None:
        for binned in (2, -1, None, "no", "", [], 0.5):
            with self.assertRaisesRegex(TypeError, "binned must be True or False"):
                Board(2, 2, binned)
            with self.assertRaisesRegex(TypeError, "binned must be True or False"):
                frame(2, 1, binned, **calls()[-1].buffers)
        self.assertEqual(Board(2, 2, 1).words, Board(2, 2, True).words)
        self.assertEqual(Board(2, 2, 0).words, Board(2, 2).words)
        self.assertNotEqual(Board(2, 2, True).words, Board(2, 2).words)


class Buffers(unittest.TestCase):
    """Every kind of buffer, where it lies."""

    def check(self, record: Any, readings: Any, sums: Any, words: Any) -> None:
        """A frame and a ramp of two pixels in these buffers."""
        memoryview(readings).cast("B")[:] = array("H", [0, 16_383]).tobytes()
        self.check_read(record, readings, sums, words)

    def check_read(self, record: Any, readings: Any, sums: Any, words: Any) -> None:
        frame(2, 1, False, record, readings, sums, words)
        found = memoryview(sums).cast("B").cast("i").tolist(), memoryview(words).cast("B").cast("H").tolist()
        self.assertEqual(found, ([128, 16_511], [32, 4127]))
        memoryview(sums).cast("B")[:] = bytes(8)
        memoryview(words).cast("B")[:] = bytes(4)
        board = Board(2, 1)
        board.update(record)
        board.start()
        board.feed(readings, sums)
        board.read_out(sums, words)
        found = memoryview(sums).cast("B").cast("i").tolist(), memoryview(words).cast("B").cast("H").tolist()
        self.assertEqual(found, ([128, 16_511], [32, 4127]))
        self.assertIsNone(nearest_flag(words, 2, 1, 0, 0))
        self.assertEqual(count_flags(words, 2, 1, (0, 0), (0, 1)), 0)

    def test_arrays(self) -> None:
        self.check(array("B", RECORD), array("H", [0, 0]), array("i", [0, 0]), array("H", [0, 0]))

    def test_bytes(self) -> None:
        readings = memoryview(array("H", [0, 16_383]).tobytes()).cast("H")
        self.check_read(RECORD, readings, memoryview(bytearray(8)).cast("i"), memoryview(bytearray(4)).cast("H"))

    def test_ctypes_arrays(self) -> None:
        record = (ctypes.c_uint8 * 6)(*RECORD)
        self.check(record, (ctypes.c_uint16 * 2)(), (ctypes.c_int32 * 2)(), (ctypes.c_uint16 * 2)())
        self.check((ctypes.c_char * 6)(*RECORD), (ctypes.c_ushort * 1 * 2)(), (ctypes.c_int * 2 * 1)(), (ctypes.c_uint16 * 2)())

    def test_mapped_memory(self) -> None:
        with mmap.mmap(-1, mmap.PAGESIZE) as pages, memoryview(pages) as view:
            record, readings, sums, words = view[:6], view[8:12].cast("H"), view[12:20].cast("i"), view[20:24].cast("H")
            record[:] = RECORD
            self.check(record, readings, sums, words)
            for part in (record, readings, sums, words):
                part.release()

    def test_floats(self) -> None:
        """A ramp of two pixels in every kind of buffer of floats, a read-only one for its frame."""
        with mmap.mmap(-1, mmap.PAGESIZE) as pages, memoryview(pages) as view, view[8:24].cast("d") as mapped:
            rows = memoryview(bytearray(16)).cast("d", (2, 1))
            for floats in (array("d", [0, 0]), memoryview(bytearray(16)).cast("d"), (ctypes.c_double * 2)(), (ctypes.c_double * 1 * 2)(), rows, mapped):
                (board, _), words = running(), array("H", [0, 0])
                memoryview(floats).cast("B")[:] = b"\xff" * 16
                board.feed_floats(array("H", [0, 16_383]), floats)
                self.assertEqual(memoryview(floats).cast("B").cast("d").tolist(), [128, 16_511])
                board.read_out_floats(memoryview(floats).toreadonly(), words)
                self.assertEqual(words.tolist(), [32, 4127])

    def test_rows(self) -> None:
        """Two-dimensional views are their items in order, the last dimension fastest."""
        for shape in ((2, 3), (3, 2), (1, 6), (6, 1), (1, 2, 3)):
            readings = memoryview(array("H", range(100, 106)).tobytes()).cast("B").cast("H", shape)
            sums = memoryview(bytearray(24)).cast("i", shape)
            words = memoryview(bytearray(12)).cast("H", shape)
            frame(3, 2, False, bytes([1, 8, 1, 1]), readings, sums, words)
            self.assertEqual(sums.cast("B").cast("i").tolist(), list(range(228, 234)))
            self.assertEqual(words.cast("B").cast("H").tolist(), [57, 57, 57, 57, 58, 58])
            store = words.cast("B").cast("H")
            store[4] = 32_767
            self.assertEqual(nearest_flag(words, 3, 2, 0, 0), Place(1, 1))

    def test_nothing_is_a_buffer_too(self) -> None:
        board, sums = running(2)
        inside = memoryview(sums).cast("B").cast("H")
        for readings in (array("H"), memoryview(b"").cast("H"), (ctypes.c_uint16 * 0)(), inside[2:2], inside[0:0:2]):
            board.feed(readings, sums)
        for record in (b"", bytearray(), array("B"), (ctypes.c_uint8 * 0)()):
            with self.assertRaisesRegex(Refused, "refused with 2:"):
                board.update(record)
        for nothing in (array("i"), memoryview(bytearray()).cast("i"), (ctypes.c_int32 * 0)()):
            with self.assertRaisesRegex(Refused, "refused with 11:"):
                board.read_out(nothing, array("H", [1, 1]))
        for nothing in (array("d"), memoryview(bytearray()).cast("d"), (ctypes.c_double * 0)()):
            with self.assertRaisesRegex(Refused, "refused with 11:"):
                board.read_out_floats(nothing, array("H", [1, 1]))
        for nothing in (array("H"), memoryview(bytearray()).cast("H"), (ctypes.c_uint16 * 0)()):
            with self.assertRaisesRegex(Refused, "refused with 16:"):
                board.read_out(sums, nothing)
            with self.assertRaisesRegex(Refused, "refused with 16:"):
                nearest_flag(nothing, 1, 1, 0, 0)
        with self.assertRaisesRegex(Refused, "refused with 2:"):
            frame(1, 1, False, b"", array("H"), array("i"), array("H"))

    def test_no_pointer_is_null(self) -> None:
        for nothing in (array("H"), memoryview(b"").cast("H"), (ctypes.c_uint16 * 0)(), memoryview(bytearray(4)).cast("H")[2:]):
            with ramp_board._Buffers() as lent:
                address, count = lent.read("readings", nothing, ramp_board._UNSIGNED_16)
                self.assertGreater(address, 0)
                self.assertEqual(count, 0)

    def test_no_float_beside_the_items_is_written(self) -> None:
        (board, _), floats = running(), array("d", [7, 0, 0, 7])
        board.feed_floats(array("H", [0, 16_383]), memoryview(floats)[1:3])
        self.assertEqual(floats.tolist(), [7, 128, 16_511, 7])

    def test_nothing_beside_the_items_is_written(self) -> None:
        sums, words = array("i", [7, 0, 0, 7]), array("H", [7, 0, 0, 7])
        frame(2, 1, False, RECORD, array("H", [0, 16_383]), memoryview(sums)[1:3], memoryview(words)[1:3])
        self.assertEqual((sums.tolist(), words.tolist()), ([7, 128, 16_511, 7], [7, 32, 4127, 7]))

    def test_the_largest_board(self) -> None:
        pixels = 1024 * 1024
        board, sums, words = Board(1024, 1024, True), array("i", [0]) * pixels, array("H", [0]) * (pixels // 4)
        board.update(bytes([1, 8, 1, 1]))
        board.start()
        board.feed(array("H", [16]) * pixels, sums)
        board.read_out(sums, words)
        self.assertEqual((set(sums), set(words)), ({144}, {36}))


@unittest.skipUnless(numpy, "numpy isn't installed")
class NumpyArrays(unittest.TestCase):
    """numpy's arrays, where they lie."""

    def test_a_frame(self) -> None:
        readings = numpy.array([[0, 16], [32, 48]], dtype=numpy.uint16)
        sums, words = numpy.zeros((2, 2), dtype=numpy.int32), numpy.zeros((1, 1), dtype=numpy.uint16)
        record = numpy.array([1, 8, 1, 1], dtype=numpy.uint8)
        readings.flags.writeable = False
        frame(numpy.int64(2), numpy.uint8(2), numpy.bool_(True), record, readings, sums, words)
        self.assertEqual((sums.tolist(), words.tolist()), ([[128, 144], [160, 176]], [[38]]))
        self.assertEqual(read_word(numpy.uint8(2), words[0, 0]), Ordinary(152.0, 156.0))

    def test_a_ramp_row_by_row(self) -> None:
        readings = numpy.arange(12, dtype="uint16").reshape(2, 3, 2)
        board, sums, words = Board(2, 3), numpy.full((3, 2), 7, dtype="int32"), numpy.zeros(6, dtype="uint16")
        board.update(bytes([3, 8, 1, 2, 2]))  # weights 1 and 2, N is 2
        board.start()
        for sample in readings:
            for row in sample:
                board.feed(row, sums)
        board.read_out(sums, words)
        self.assertEqual(sums.tolist(), (128 + readings[0] + 2 * readings[1]).tolist())
        floats, float_words = numpy.full((3, 2), numpy.nan), numpy.zeros(6, dtype="uint16")
        board.start()
        for sample in readings:
            for row in sample:
                board.feed_floats(row, floats)
        floats.flags.writeable = False
        board.read_out_floats(floats, float_words)
        self.assertEqual((floats.tolist(), float_words.tolist()), (sums.tolist(), words.tolist()))
        self.assertEqual(words.tolist(), (sums.ravel() // 4).tolist())
        self.assertEqual(pickle.loads(pickle.dumps(board)).words, board.words)
        self.assertEqual(Board.from_words(numpy.array(board.words)).words, board.words)

    def test_errors(self) -> None:
        board, sums = running()
        before = board.words
        good = numpy.array([5, 6], dtype="uint16")
        for readings in (good.astype("int16"), good.astype("float64"), good.astype("float16"), good.astype(good.dtype.newbyteorder())):
            with self.assertRaisesRegex(TypeError, "items of readings must be unsigned with 16 bits"):
                board.feed(readings, sums)
        with self.assertRaisesRegex(TypeError, "items of sums must be signed with 32 bits, .* with 64 bits: feed_floats takes these"):
            board.feed(good, numpy.zeros(2))
        for other, hint in (("int32", ": feed takes these"), ("int64", " bits$"), ("float32", " bits$"), (">f8", " bits$")):
            if other != ">f8" or sys.byteorder == "little":
                with self.assertRaisesRegex(TypeError, f"items of sums must be floats with 64 bits, .*{hint}"):
                    board.feed_floats(good, numpy.zeros(2, dtype=other))
        with self.assertRaisesRegex(ValueError, "sums"):
            board.feed_floats(good, numpy.zeros(4)[::2])
        fours = numpy.zeros((2, 2), dtype="uint16")
        for readings in (fours[:, 0], fours.T, good[::-1]):
            with self.assertRaisesRegex(ValueError, "readings"):
                board.feed(readings, sums)
        fixed = numpy.zeros(2, dtype="int32")
        fixed.flags.writeable = False
        with self.assertRaisesRegex(TypeError, "sums must be writable"):
            board.feed(good, fixed)
        store = numpy.zeros(2, dtype="int32")
        with self.assertRaisesRegex(ValueError, "readings and sums share memory"):
            board.feed(store.view("uint16")[1:3], store)
        shifted = numpy.zeros(5, dtype="uint8")[1:].view("uint16")
        if shifted.__array_interface__["data"][0] % 2:
            with self.assertRaisesRegex(ValueError, "readings must begin"):
                board.feed(shifted, sums)
        with self.assertRaisesRegex(TypeError, "readings must have a dimension"):
            board.feed(numpy.uint16(5).reshape(()), sums)
        self.assertEqual((board.words, sums.tolist()), (before, [7, 8]))
        board.feed(fours[:0], sums)
        board.feed(good, store)
        self.assertEqual(store.tolist(), [133, 134])


class Kept(unittest.TestCase):
    """Boards that are kept and brought back."""

    def ways(self, board: Board) -> Iterator[Board]:
        """The board brought back in every way."""
        yield Board.from_words(board.words)
        yield Board.from_words(list(board.words))
        yield eval(repr(board))
        yield copy.copy(board)
        yield copy.deepcopy(board)
        for protocol in range(pickle.HIGHEST_PROTOCOL + 1):
            yield pickle.loads(pickle.dumps(board, protocol))

    def test_a_ramp_goes_on(self) -> None:
        readings = array("H", [number * 2477 % 12_400 for number in range(72)])
        board, sums = Board(4, 2, True), array("i", [0] * 8)
        board.update(bytes([0, 4, 3]))
        board.start()
        board.feed(readings[:29], sums)
        board.update(bytes([0, 4, 1]))
        start, start_sums = board.words, sums[:]
        board.feed(readings[29:], sums)
        words = array("H", [0, 0])
        board.read_out(sums, words)
        brought_back = list(self.ways(Board.from_words(start)))
        self.assertEqual(len(brought_back), 6 + pickle.HIGHEST_PROTOCOL)
        for again in brought_back:
            self.assertIs(type(again), Board)
            self.assertEqual(again.words, start)
            again_sums, again_words = start_sums[:], array("H", [0, 0])
            again.feed(readings[29:], again_sums)
            again.read_out(again_sums, again_words)
            self.assertEqual((again.words, again_sums, again_words), (board.words, sums, words))

    def test_a_copy_is_a_board_of_its_own(self) -> None:
        board = Board(2, 1)
        before = board.words
        for again in self.ways(board):
            again.start()
            self.assertNotEqual(again.words, before)
            self.assertEqual(board.words, before)

    def test_words_are_any_29_numbers_of_64_bits(self) -> None:
        for word in (0, -1, 2**63 - 1, -(2**63)):
            self.assertEqual(Board.from_words(iter([word] * 29)).words, (word,) * 29)
        for count in (0, 28, 30):
            with self.assertRaisesRegex(ValueError, f"29 words, got {count}"):
                Board.from_words([1] * count)
        for nothing in (None, 29, Board(2, 1)):
            with self.assertRaises(TypeError):
                Board.from_words(nothing)

    def test_a_board_is_set_by_its_calls_alone(self) -> None:
        with self.assertRaises(AttributeError):
            Board(2, 1).words = (0,) * 29
        with self.assertRaises(AttributeError):
            Board.__new__(Board).start()


class Library(unittest.TestCase):
    """Where the library is found, and how it is called."""

    def test_a_call_keeps_the_lock(self) -> None:
        """Python says of itself, asked by a call of the same kind, that the lock is held."""
        itself = type(ramp_board._library)(None)
        self.assertEqual(itself.PyGILState_Check(), 1)

    def imported(self, module: Path, library: Optional[Path]) -> subprocess.CompletedProcess[str]:
        """Import the module in this folder, with the library named so."""
        environment = {name: value for name, value in os.environ.items() if name != "RAMP_BOARD_LIBRARY"}
        if library is not None:
            environment["RAMP_BOARD_LIBRARY"] = str(library)
        program = "import ramp_board; print(ramp_board.Board(1, 1).covered())"
        return subprocess.run([sys.executable, "-c", program], cwd=module, env=environment, capture_output=True, text=True, check=False)

    def test_where_it_is_found(self) -> None:
        library = ramp_board._found_library()
        with tempfile.TemporaryDirectory() as name:
            folder = Path(name) / "bindings"
            made = Path(name) / "target" / "bindings"
            folder.mkdir()
            made.mkdir(parents=True)
            shutil.copy(BINDINGS / "ramp_board.py", folder)
            ended = self.imported(folder, None)
            self.assertRegex(ended.stderr, r"ImportError: no library at .*/bindings/libramp_board\.so or .*/target/bindings/libramp_board\.so")
            for place in (folder, made):
                shutil.copy(library, place / "libramp_board.so")
                self.assertEqual(self.imported(folder, None).stdout, "True\n")
                (place / "libramp_board.so").unlink()
            self.assertEqual(self.imported(folder, library).stdout, "True\n")
            ended = self.imported(folder, folder / "none.so")
            self.assertRegex(ended.stderr, r"ImportError: RAMP_BOARD_LIBRARY names .*/none\.so, and there is no such file: ")
            (folder / "no_library.so").write_bytes(b"")
            ended = self.imported(folder, folder / "no_library.so")
            self.assertRegex(ended.stderr, r"ImportError: .*/no_library\.so is no library of the ramp board: ")


if __name__ == "__main__":
    if numpy is None:
        print("numpy isn't installed, so its arrays aren't tried")
    unittest.main()
