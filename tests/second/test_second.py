"""Tests of the second program: known ramps, refusals, and properties."""

from __future__ import annotations

import math
import re
import subprocess
import sys
import unittest
from pathlib import Path
from typing import Callable, NamedTuple, Optional, Union

import floats
import jig
import make_jig
import make_replay
import replay
import sound_boards
from draw_flags import (
    DENSITIES,
    FLAGS,
    NEAR_FLAGS,
    draw_box,
    draw_place,
    draw_ring,
    draw_sides,
    draw_words,
    outside,
    wrong_box,
    wrong_sides,
    wrong_words,
)
from draws import (
    FRACTIONS,
    IMPOSSIBLE,
    NOT_NUMBERS,
    Draws,
    draw_bad_float,
    draw_bad_record,
    draw_board,
    draw_not_a_number,
    draw_pattern,
    draw_ramp,
    draw_record,
    encode_record,
)
from flags import Place, count_flags, is_flag, nearest_flag
from floats import MINUS_ZERO, NOT_A_NUMBER, float_of, float_of_halves, halves_of, pattern_of
from lent_board import PARTS, WORDS, Call, Left, board_in, made
from ramp import (
    MARK,
    MAX_PRODUCT,
    NEGATIVE,
    PEDESTAL,
    SATURATED,
    Board,
    Refusal,
    Settings,
    frame_of,
    open_board,
    possible,
    read_word,
    updated,
    word_of,
)

HERE = Path(__file__).resolve().parent
JIG_EXAMPLE_OUTPUT = (
    "row col word meaning\n0 0 32 128..132\n0 1 4127 16508..16512\n"
)


class Calls(NamedTuple):
    """An engine's calls, and its entry for a whole number."""

    feed: Callable[..., Optional[Refusal]]
    read_out: Callable[..., Optional[Refusal]]
    entry: Callable[[int], Union[int, float]]


WHOLE_NUMBERS = Calls(Board.feed, Board.read_out, int)
FLOATS = Calls(floats.feed, floats.read_out, float)
ENGINES = (WHOLE_NUMBERS, FLOATS)


def opened(width: int, height: int, binned: bool = False) -> Board:
    """A board that Open must take."""
    board = open_board(width, height, binned)
    assert isinstance(board, Board)
    return board


def summed(engine: Calls, fields: dict[int, int], readings: list[int]) -> tuple[Union[int, float], int]:
    """The sum and the word of a ramp on a board of one pixel, in an engine."""
    board, sums, output = opened(1, 1), [engine.entry(0)], [0]
    assert board.update(encode_record(fields)) is None
    assert board.start() is None
    assert engine.feed(board, readings, sums) is None
    assert engine.read_out(board, sums, output) is None
    return sums[0], output[0]


def one_pixel(fields: dict[int, int], readings: list[int]) -> tuple[int, int]:
    """The sum and the word of a ramp on a board of one pixel, the same in both engines."""
    entry, word = summed(WHOLE_NUMBERS, fields, readings)
    in_floats, same_word = summed(FLOATS, fields, readings)
    assert pattern_of(in_floats) == pattern_of(float(entry)) and same_word == word
    return int(entry), word


def feed_one_by_one(
    sums: list[int], fed: int, readings: list[int], settings: Settings
) -> None:
    """The rules of a feed, reading by reading."""
    for number, reading in enumerate(readings, fed):
        sample, pixel = number // len(sums) + 1, number % len(sums)
        if sample > 1 and MARK < sums[pixel] <= MARK + 9:
            continue
        if reading > settings.threshold:
            sums[pixel] = MARK + sample
        else:
            base = PEDESTAL if sample == 1 else sums[pixel]
            sums[pixel] = base + settings.weights[sample - 1] * reading


class KnownRamps(unittest.TestCase):
    """Ramps whose words are known."""

    def test_default_ramps(self) -> None:
        self.assertEqual(one_pixel({}, [1_000] * 9), (128, 32))
        self.assertEqual(one_pixel({}, list(range(100, 1_000, 100))), (6_128, 1_532))
        self.assertEqual(one_pixel({}, list(range(900, 0, -100))), (-5_872, NEGATIVE))

    def test_saturation(self) -> None:
        readings = [13_000] * 9
        self.assertLess(one_pixel({9: 13_000}, readings)[0], MARK)
        readings[2] = readings[6] = 13_001
        self.assertEqual(one_pixel({9: 13_000}, readings), (MARK + 3, 32_755))

    def test_sign(self) -> None:
        self.assertEqual(one_pixel({0: 17, 11: 1}, [128]), (0, 0))
        self.assertEqual(one_pixel({0: 17, 11: 1}, [129]), (-1, NEGATIVE))

    def test_wrapping(self) -> None:
        largest = {**{bit: 15 for bit in range(9)}, 9: 16_383}
        full = [16_383] * 9
        self.assertEqual(one_pixel({**largest, 10: 2}, full), (2_211_833, 28_670))
        self.assertEqual(one_pixel({**largest, 10: 3}, full), (2_211_833, 14_335))
        self.assertEqual(one_pixel({0: 15, 11: 1}, [8_726]), (131_018, 32_754))
        self.assertEqual(read_word(32_754, 2), ("saturated", 2))
        self.assertEqual(word_of([32_768 * 4 + 9], 2), 2)
        for fields in ({**largest, 10: 2}, {**largest, 10: 3}, {0: 15, 11: 1}):
            settings = updated(Settings(), encode_record(fields))
            assert isinstance(settings, Settings)
            self.assertFalse(settings.covered())

    def test_squares(self) -> None:
        self.assertEqual(word_of([7, 7, 7, 3], 2), 1)
        self.assertEqual(word_of([-1, 0, 0, 0], 2), NEGATIVE)
        self.assertEqual(word_of([-1, 0, 0, 2], 2), 0)
        self.assertEqual(word_of([MARK + 5, -9, MARK + 2, -9], 2), 32_754)
        # Four columns, two rows: two squares side by side.
        self.assertEqual(frame_of([7, 7, -1, 0, 7, 3, 0, 2], 4, 2, True, 2), [1, 0])

    def test_records(self) -> None:
        record = bytes.fromhex("00 06 1F 33 03")
        expected = Settings(threshold=13_087, truncation=3)
        self.assertEqual(updated(Settings(threshold=1), record), expected)
        self.assertEqual(updated(Settings(), [0, 0]), Settings())
        for byte, weight in ((20, -4), (31, -15), (16, 0), (15, 15)):
            settings = updated(Settings(), [1, 0, byte])
            assert isinstance(settings, Settings)
            self.assertEqual(settings.weights[0], weight)

    def test_covered(self) -> None:
        self.assertTrue(Settings(threshold=13_087).covered())
        self.assertFalse(Settings(threshold=13_088).covered())

    def test_defaults(self) -> None:
        self.assertIs(opened(1, 1).covered(), True)
        readings = [13_087] * 9
        self.assertEqual(one_pixel({}, readings), (128, 32))
        readings[8] = 13_088
        self.assertEqual(one_pixel({}, readings), (MARK + 9, 32_761))

    def test_update_waits_for_the_next_start(self) -> None:
        board = opened(1, 1)
        board.update([0, 6, 0x1F, 0x33, 1])
        self.assertEqual(board.in_force, Settings())
        self.assertIs(board.covered(), True)
        board.start()
        board.update([0, 8, 1])
        self.assertEqual((board.in_force.samples, board.waiting.samples), (9, 1))
        self.assertIs(board.covered(), False)
        board.drop()
        self.assertEqual(board.in_force.truncation, 1)
        self.assertEqual(board.waiting.samples, 1)


    def test_second_ramp_starts_afresh(self) -> None:
        board, sums, output = opened(1, 1), [0], [0]
        board.start()
        board.feed([1, 2, 3], sums)
        self.assertIsNone(board.drop())
        self.assertEqual((board.running, board.fed, sums), (False, 0, [112]))
        for _ in range(2):
            self.assertIsNone(board.start())
            self.assertIsNone(board.feed([1_000] * 9, sums))
            self.assertIsNone(board.read_out(sums, output))
            self.assertEqual((sums, output, board.fed), ([128], [32], 0))


class Refusals(unittest.TestCase):
    """Numbers, places and the order of the checks."""

    def test_open(self) -> None:
        for sides in make_replay.REFUSED:
            self.assertEqual(open_board(*sides[:2], sides[2] == 1), Refusal(1))
        for sides in ((1, 1, False), (1024, 1024, True), (1023, 1, False)):
            self.assertIsInstance(open_board(*sides), Board)

    def test_update(self) -> None:
        draws = Draws(7)
        for number in range(2, 9):
            for _ in range(200):
                board = opened(1, 1)
                record = draw_bad_record(draws, number)
                self.assertEqual(board.update(record), Refusal(number))
                self.assertEqual(board, opened(1, 1))
        for _ in range(200):
            self.assertIsNone(opened(1, 1).update(draw_record(draws)))

    def test_unsound_boards(self) -> None:
        unsound = [
            Board(),
            Board(3, 2, True),
            Board(2, 2, waiting=Settings(samples=0)),
            Board(2, 2, in_force=Settings(truncation=4)),
            Board(2, 2, in_force=Settings(weights=(0,) * 8 + (16,))),
            Board(1, 1, running=False, fed=1),
            Board(1, 1, running=True, fed=10),
        ]
        for board in unsound:
            answers = [board.update([]), board.start(), board.drop(), board.covered()]
            for feed, read_out, _ in ENGINES:
                answers += [feed(board, [], []), read_out(board, [], [])]
            self.assertEqual(answers, [Refusal(99)] * 8)

    def test_order_without_a_ramp(self) -> None:
        board = opened(2, 1)
        for feed, read_out, _ in ENGINES:
            self.assertEqual(feed(board, [20_000] * 99, []), Refusal(10))
            self.assertEqual(read_out(board, [], []), Refusal(10))
        self.assertEqual(board.drop(), Refusal(10))

    def test_order_in_a_ramp(self) -> None:
        self.check_order(WHOLE_NUMBERS, MARK)
        for bad in (float(MARK), *IMPOSSIBLE):
            self.check_order(FLOATS, bad)

    def check_order(self, engine: Calls, bad: Union[int, float]) -> None:
        """The order in an engine, with an entry that no samples can leave."""
        feed, read_out, entry = engine
        board = opened(2, 1)
        board.start()
        self.assertEqual(board.start(), Refusal(9))
        self.assertEqual(feed(board, [20_000] * 99, []), Refusal(11))
        self.assertEqual(feed(board, [20_000] * 19, [bad, bad]), Refusal(12))
        sums = [bad, bad]
        self.assertIsNone(feed(board, [1, 2], sums))
        self.assertEqual(feed(board, [1, 20_000, 20_001], [bad, bad]), Refusal(13, 1))
        self.assertEqual(feed(board, [1, 2], [bad, bad]), Refusal(14, 0))
        self.assertIsNone(feed(board, [1], [entry(128), bad]))
        # Pixel 0 has two samples, pixel 1 has one; a feed of two starts at pixel 1.
        low = PEDESTAL - 2 * MAX_PRODUCT
        self.assertEqual(feed(board, [1, 2], [entry(low - 1), bad]), Refusal(14, 0))
        sums_of_one = [entry(low), entry(MARK + 2)]
        self.assertEqual(feed(board, [1, 2], sums_of_one), Refusal(14, 1))
        self.assertEqual(feed(board, [1], [bad, entry(low)]), Refusal(14, 1))
        self.assertIsNone(feed(board, [], [bad, bad]))
        self.assertEqual(read_out(board, [], []), Refusal(11))
        self.assertEqual(read_out(board, [bad, bad], []), Refusal(15))
        self.assertIsNone(feed(board, [0] * 15, sums))
        self.assertIsNone(feed(board, [], [bad, bad]))
        self.assertEqual(read_out(board, [bad, bad], [0]), Refusal(16))
        output = [9, 9]
        self.assertEqual(read_out(board, [entry(0), bad], output), Refusal(14, 1))
        self.assertEqual(output, [9, 9])
        self.assertIsNone(read_out(board, [entry(0), entry(MARK + 9)], output))
        self.assertEqual(output, [0, 32_761])

    def test_read_out_knows_its_samples(self) -> None:
        top = PEDESTAL + 2 * MAX_PRODUCT
        for feed, read_out, number in ENGINES:
            board = opened(1, 1)
            board.update([0, 8, 2])
            board.start()
            feed(board, [1, 1], [number(0)])
            for entry in (top + 1, MARK, MARK + 3, 256 - top - 1):
                self.assertEqual(read_out(board, [number(entry)], [0]), Refusal(14, 0))
            self.assertIsNone(read_out(board, [number(top)], [0]))

    def test_words(self) -> None:
        for truncation in (0, 4, 255):
            self.assertEqual(read_word(5, truncation), Refusal(7))
        kinds = [read_word(word, 3)[0] for word in range(65_536)]
        expected = ["ordinary"] * SATURATED + ["none"] + ["saturated"] * 9
        expected += ["none"] * 5 + ["negative"] + ["none"] * 32_768
        self.assertEqual(kinds, expected)
        self.assertEqual(read_word(32_751, 3), ("ordinary", 262_008.0, 262_016.0))


class Properties(unittest.TestCase):
    """What holds for every drawn ramp."""

    def test_feed_is_the_rule_reading_by_reading(self) -> None:
        draws = Draws(11)
        for _ in range(300):
            width, height = draws.between(1, 4), draws.between(1, 4)
            board = opened(width, height)
            board.update(draw_record(draws))
            board.start()
            pixels, settings = board.pixels, board.in_force
            ramp = draw_ramp(draws, pixels, settings.samples, settings.threshold)
            sums = [draws.choose((0, MARK + 1, -(2**31)))] * pixels
            naive = list(sums)
            while board.wanted > 0:
                count = draws.below(min(board.wanted, 2 * pixels) + 1)
                part = ramp[board.fed : board.fed + count]
                feed_one_by_one(naive, board.fed, part, settings)
                self.assertIsNone(board.feed(part, sums))
                self.assertEqual(sums, naive)
            self.assertTrue(all(possible(s, settings.samples) for s in sums))

    def test_frame_follows_from_the_readings(self) -> None:
        draws = Draws(12)
        for _ in range(300):
            binned = draws.chance(50)
            width, height = 2 * draws.between(1, 3), 2 * draws.between(1, 3)
            board = opened(width, height, binned)
            board.update(draw_record(draws))
            board.start()
            pixels, now = board.pixels, board.in_force
            ramp = draw_ramp(draws, pixels, now.samples, now.threshold)
            sums, output = [0] * pixels, [0] * board.words
            for at in range(0, len(ramp), 5):
                board.feed(ramp[at : at + 5], sums)
            covered = board.covered()
            self.assertIsNone(board.read_out(sums, output))
            for index, word in enumerate(output):
                members = [index]
                if binned:
                    row, column = divmod(index, width // 2)
                    corner = 2 * row * width + 2 * column
                    members = [corner, corner + 1, corner + width, corner + width + 1]
                samples = [ramp[p::pixels] for p in members]
                self.check_word(word, samples, now, covered is True)

    def check_word(
        self, word: int, samples: list[list[int]], now: Settings, covered: bool
    ) -> None:
        """A word against the exact sums of its pixels."""
        over = [
            n
            for readings in samples
            for n, reading in enumerate(readings, 1)
            if reading > now.threshold
        ]
        total = sum(
            128 + sum(w * x for w, x in zip(now.weights, readings))
            for readings in samples
        )
        meaning = read_word(word, now.truncation)
        if over:
            self.assertEqual(meaning, ("saturated", min(over)))
        elif total < 0:
            self.assertEqual(meaning, ("negative",))
        elif covered:
            self.assertEqual(meaning[0], "ordinary")
            mean = total / len(samples)
            self.assertTrue(meaning[1] <= mean < meaning[2])

    def test_covered_is_the_largest_unmarked_sum(self) -> None:
        draws = Draws(13)
        for _ in range(500):
            settings = updated(Settings(), draw_record(draws))
            assert isinstance(settings, Settings)
            high = [settings.threshold if w > 0 else 0 for w in settings.weights]
            total = 128 + sum(
                w * x
                for w, x in zip(settings.weights[: settings.samples], high)
            )
            reached = total // 2**settings.truncation >= SATURATED
            self.assertEqual(settings.covered(), not reached)

    def test_refused_feed_changes_nothing(self) -> None:
        board = opened(2, 2)
        board.start()
        sums = [1, 2, 3, 4]
        for readings in ([5] * 37, [1, 2, 16_384]):
            before = repr(board)
            self.assertIsNotNone(board.feed(readings, sums))
            self.assertEqual((sums, repr(board)), ([1, 2, 3, 4], before))


class Floats(unittest.TestCase):
    """Sums in floats."""

    def test_patterns(self) -> None:
        known = {0.0: 0, 128.0: 0x4060 << 48, -1.0: 0xBFF0 << 48, math.inf: 0x7FF0 << 48}
        for entry, pattern in known.items():
            self.assertEqual((pattern_of(entry), float_of(pattern)), (pattern, entry))
        self.assertEqual(pattern_of(-0.0), MINUS_ZERO)
        self.assertEqual(halves_of(float(MARK + 1)), (0x41D0_0000, 0x0040_0000))
        draws = Draws(30)
        for _ in range(500):
            pattern = draws.below(2**64)
            entry = float_of_halves(*divmod(pattern, 2**32))
            self.assertEqual(pattern_of(entry), NOT_A_NUMBER if math.isnan(entry) else pattern)
            self.assertTrue(math.isnan(float_of(draw_not_a_number(draws))))
        for pattern in NOT_NUMBERS:
            self.assertTrue(math.isnan(float_of(pattern)))

    def test_possible(self) -> None:
        draws = Draws(31)
        for k in range(1, 10):
            for entry in (*IMPOSSIBLE, *(draw_bad_float(draws) for _ in range(200))):
                self.assertFalse(floats.possible(entry, k), entry)
            reach = MAX_PRODUCT * k
            marks = range(MARK - 1, MARK + 11)
            for number in (PEDESTAL - reach, PEDESTAL + reach, 0, 1, -1, *marks):
                for near in (number - 1, number, number + 1):
                    self.assertEqual(floats.possible(float(near), k), possible(near, k))
                for fraction in (number - 0.5, number + 0.25, math.nextafter(number, math.inf)):
                    self.assertFalse(floats.possible(fraction, k))
        self.assertTrue(all(not entry.is_integer() for entry in FRACTIONS))

    def test_every_sum_is_the_exact_whole_number(self) -> None:
        draws = Draws(32)
        for _ in range(300):
            width, height = 2 * draws.between(1, 3), 2 * draws.between(1, 3)
            boards = [opened(width, height, draws.chance(50))]
            boards.append(opened(width, height, boards[0].binned))
            record = draw_record(draws)
            for board in boards:
                board.update(record)
                board.start()
            pixels, settings = boards[0].pixels, boards[0].in_force
            ramp = draw_ramp(draws, pixels, settings.samples, settings.threshold)
            sums, in_floats = [0] * pixels, [float_of(draw_pattern(draws)) for _ in range(pixels)]
            for (feed, _, _), board, entries in zip(ENGINES, boards, (sums, in_floats)):
                while board.wanted > 0:
                    count = draws.below(min(board.wanted, 2 * pixels) + 1)
                    self.assertIsNone(feed(board, ramp[board.fed : board.fed + count], entries))
            self.assertEqual([pattern_of(entry) for entry in in_floats], [pattern_of(float(entry)) for entry in sums])
            frames = [[0] * board.words for board in boards]
            for (_, read_out, _), board, entries, frame in zip(ENGINES, boards, (sums, in_floats), frames):
                self.assertIsNone(read_out(board, entries, frame))
            self.assertEqual(*frames)
            self.assertEqual(*boards)

    def test_no_minus_zero(self) -> None:
        # Products of minus zero: on 128, on 0 and on 128 again.
        for fields, readings, entry in (
            ({0: 16, 11: 1}, [5], 128),
            ({0: 17, 11: 1}, [0], 128),
            ({0: 17, 11: 1}, [128], 0),
            ({0: 17, 1: 17, 11: 2}, [128, 0], 0),
            ({0: 17, 1: 0, 2: 31, 11: 3}, [128, 9, 0], 0),
        ):
            self.assertEqual(pattern_of(summed(FLOATS, fields, readings)[0]), pattern_of(float(entry)))

    def test_entries_without_a_reading_stay(self) -> None:
        for pattern in (*NOT_NUMBERS, *(pattern_of(entry) for entry in IMPOSSIBLE)):
            board, entry = opened(3, 1), float_of(pattern)
            board.start()
            sums = [entry, entry, entry]
            self.assertIsNone(floats.feed(board, [1, 2], sums))
            self.assertEqual(sums[:2], [124.0, 120.0])
            self.assertIs(sums[2], entry)
            self.assertIsNone(floats.feed(board, [], sums))
            # Sample 1 of the last, sample 2 of the first, while the second may be anything.
            sums[1] = entry
            self.assertIsNone(floats.feed(board, [3, 4], sums))
            self.assertEqual((sums[0], sums[2]), (112.0, 116.0))
            self.assertIs(sums[1], entry)
            self.assertEqual(floats.feed(board, [5], sums), Refusal(14, 1))

    def test_another_engine_in_a_ramp(self) -> None:
        for (feed, _, first), (other_feed, other_read_out, other) in (ENGINES, ENGINES[::-1]):
            board, sums, output = opened(1, 1), [first(7)], [0]
            board.update(encode_record({11: 2}))
            board.start()
            self.assertIsNone(feed(board, [1_000], sums))
            for number in (PEDESTAL + MAX_PRODUCT + 1, MARK + 2, -(2**31)):
                self.assertEqual(other_feed(board, [1], [other(number)]), Refusal(14, 0))
            others = [other(MARK + 1)]
            self.assertIsNone(other_feed(board, [1], others))
            self.assertIsNone(other_read_out(board, others, output))
            self.assertEqual((sums, others, output), ([-3_872], [MARK + 1], [32_753]))

    def test_a_refused_feed_changes_nothing(self) -> None:
        board = opened(2, 2)
        board.start()
        sums = [math.nan, -0.0, 0.5, 3.0]
        before = [pattern_of(entry) for entry in sums]
        for readings in ([5] * 37, [1, 2, 16_384]):
            self.assertIsNotNone(floats.feed(board, readings, sums))
            self.assertEqual(([pattern_of(entry) for entry in sums], board.fed), (before, 0))


def drawn(rows: str) -> tuple[list[int], int, int]:
    """The words, width and height of a frame drawn as text: x is a flag."""
    lines = rows.split()
    flag = {"x": 32_767, ".": 5}
    return [flag[mark] for mark in "".join(lines)], len(lines[0]), len(lines)


def box(numbers: list[int]) -> tuple[Place, Place]:
    """The corners of a box."""
    return Place(*numbers[:2]), Place(*numbers[2:])


class Flags(unittest.TestCase):
    """The nearest flag, and the flags in a box."""

    def test_what_a_flag_is(self) -> None:
        expected = {*range(32_753, 32_762), 32_767}
        self.assertEqual({word for word in range(65_536) if is_flag(word)}, expected)
        self.assertEqual(set(FLAGS), expected)
        here = Place(0, 0)
        for word in FLAGS:
            self.assertEqual(nearest_flag([word], 1, 1, here), here)
            self.assertEqual(count_flags([word], 1, 1, here, here), 1)
        for word in (0, *NEAR_FLAGS):
            self.assertIsNone(nearest_flag([word], 1, 1, here))
            self.assertEqual(count_flags([word], 1, 1, here, here), 0)

    def nearest_in(self, rows: str, row: int, column: int) -> tuple[int, int]:
        """The nearest flag of a frame that has one."""
        found = nearest_flag(*drawn(rows), Place(row, column))
        assert isinstance(found, Place)
        return found.row, found.column

    def test_a_flag_is_its_own_nearest(self) -> None:
        self.assertEqual(self.nearest_in("xxx xxx xxx", 1, 1), (1, 1))
        self.assertEqual(self.nearest_in("x.. ..x xx.", 1, 2), (1, 2))
        self.assertEqual(self.nearest_in("x.. ..x xxx", 2, 2), (2, 2))

    def test_ties_go_to_the_first_in_row_order(self) -> None:
        # Four directions: above, left, right, below.
        self.assertEqual(self.nearest_in(".x. x.x .x.", 1, 1), (0, 1))
        self.assertEqual(self.nearest_in("... x.x .x.", 1, 1), (1, 0))
        self.assertEqual(self.nearest_in("... ..x .x.", 1, 1), (1, 2))
        self.assertEqual(self.nearest_in("... ... .x.", 1, 1), (2, 1))
        # The diagonals.
        self.assertEqual(self.nearest_in("x.x ... x.x", 1, 1), (0, 0))
        self.assertEqual(self.nearest_in("..x ... x.x", 1, 1), (0, 2))
        self.assertEqual(self.nearest_in("... ... x.x", 1, 1), (2, 0))
        # One step beats a diagonal, wherever it lies.
        self.assertEqual(self.nearest_in("x.x ... xxx", 1, 1), (2, 1))
        # Knight's moves: eight directions.
        knights = ".x.x. x...x ..... x...x .x.x."
        order = [(0, 1), (0, 3), (1, 0), (1, 4), (3, 0), (3, 4), (4, 1), (4, 3)]
        words, width, height = drawn(knights)
        for row, column in order:
            found = nearest_flag(words, width, height, Place(2, 2))
            self.assertEqual(found, Place(row, column))
            words[row * width + column] = 32_766
        self.assertIsNone(nearest_flag(words, width, height, Place(2, 2)))

    def test_distances_are_squared(self) -> None:
        # 5 straight and 3 with 4 are equally far.
        frame = ".....x ...... ...... ....x. ...... x....."
        self.assertEqual(self.nearest_in(frame, 0, 0), (0, 5))
        self.assertEqual(self.nearest_in(frame.replace("x", ".", 1), 0, 0), (3, 4))
        # 4 with 4 is farther than 5, and 3 with 3 is nearer.
        frame = "...... ...... ...... ...... ....x. x....."
        self.assertEqual(self.nearest_in(frame, 0, 0), (5, 0))
        frame = ".....x ...... ...... ...x.."
        self.assertEqual(self.nearest_in(frame, 0, 0), (3, 3))

    def test_edges_and_corners(self) -> None:
        frame = "x...x ..... ..... x...x"
        for row, column in ((0, 0), (0, 4), (3, 0), (3, 4)):
            self.assertEqual(self.nearest_in(frame, row, column), (row, column))
        self.assertEqual(self.nearest_in(frame, 0, 2), (0, 0))
        self.assertEqual(self.nearest_in(frame, 3, 2), (3, 0))
        self.assertEqual(self.nearest_in(frame, 1, 4), (0, 4))
        self.assertEqual(self.nearest_in(frame, 2, 4), (3, 4))
        # The end of a row isn't beside the beginning of the next one.
        self.assertEqual(self.nearest_in("..... x.... ....x", 0, 4), (2, 4))
        self.assertEqual(self.nearest_in("x.... ..... ....x", 2, 0), (0, 0))
        self.assertEqual(self.nearest_in("x.... ..... ....x", 0, 4), (2, 4))

    def test_one_row_and_one_column(self) -> None:
        self.assertEqual(self.nearest_in("x.....x", 0, 3), (0, 0))
        self.assertEqual(self.nearest_in("x.....x", 0, 4), (0, 6))
        self.assertEqual(self.nearest_in("x . . . . . x", 3, 0), (0, 0))
        self.assertEqual(self.nearest_in("x . . . . . x", 4, 0), (6, 0))
        for sides in ((7, 1), (1, 7), (1, 1), (1_024, 1), (1, 1_024)):
            words = [32_752] * (sides[0] * sides[1])
            self.assertIsNone(nearest_flag(words, *sides, Place(0, 0)))
            last = Place(sides[1] - 1, sides[0] - 1)
            words[-1] = 32_753
            self.assertEqual(nearest_flag(words, *sides, Place(0, 0)), last)
            self.assertEqual(count_flags(words, *sides, Place(0, 0), last), 1)

    def test_boxes(self) -> None:
        words, width, height = drawn("xx..x ..x.. x...x")
        counts = {
            (0, 0, 0, 0): 1,
            (1, 1, 1, 1): 0,
            (0, 0, 2, 4): 6,
            (0, 0, 0, 4): 3,
            (2, 0, 2, 4): 2,
            (0, 0, 2, 0): 2,
            (0, 4, 2, 4): 2,
            (1, 1, 2, 3): 1,
            (0, 1, 1, 2): 2,
            (2, 1, 2, 3): 0,
            (2, 4, 2, 4): 1,
        }
        for numbers, flags in counts.items():
            corners = box(list(numbers))
            self.assertEqual(count_flags(words, width, height, *corners), flags)

    def test_the_largest_frame(self) -> None:
        words = [7] * 1_024**2
        words[1_023] = words[-1_024] = words[-1] = 32_761
        whole = Place(0, 0), Place(1_023, 1_023)
        self.assertEqual(count_flags(words, 1_024, 1_024, *whole), 3)
        self.assertEqual(nearest_flag(words, 1_024, 1_024, whole[0]), Place(0, 1_023))

    def answers(
        self, words: list[int], sides: tuple[int, int], numbers: list[int]
    ) -> set[object]:
        """What both operations answer, for a box and each of its corners."""
        first, last = box(numbers)
        found: set[object] = {count_flags(words, *sides, first, last)}
        return found | {nearest_flag(words, *sides, place) for place in (first, last)}

    def test_refusals_of_sides(self) -> None:
        for width, height in ((0, 1), (1, 0), (0, 0), (1_025, 1), (1, 1_025)):
            for words in ([], [5], [32_767] * (width * height)):
                for numbers in ([0, 0, 0, 0], [9, 9, 9, 9], [5_000, 0, 5_000, 0]):
                    found = self.answers(words, (width, height), numbers)
                    self.assertEqual(found, {Refusal(19)})
        large = 2**32, 2**32
        self.assertEqual(self.answers([], large, [0, 0, 0, 0]), {Refusal(19)})
        # An odd side is a side as any other.
        self.assertEqual(self.answers([5] * 15, (3, 5), [4, 2, 4, 2]), {0, None})

    def test_refusals_of_the_length(self) -> None:
        for words in ([], [32_767] * 5, [32_767] * 7, [32_767] * 1_025):
            for numbers in ([0, 0, 0, 0], [1, 2, 1, 2], [2, 3, 2, 3], [5, 5, 5, 5]):
                self.assertEqual(self.answers(words, (3, 2), numbers), {Refusal(16)})
        crossed_box = count_flags([1], 3, 2, Place(1, 2), Place(0, 0))
        self.assertEqual(crossed_box, Refusal(16))

    def test_refusals_of_places(self) -> None:
        words, width, height = drawn("xxx xxx")
        for row, column in ((2, 0), (0, 3), (2, 3), (1, 3), (2, 2), (2**32, 0)):
            out = Place(row, column)
            self.assertEqual(nearest_flag(words, width, height, out), Refusal(19))
            for corners in ((out, out), (Place(0, 0), out), (out, Place(1, 2))):
                found = count_flags(words, width, height, *corners)
                self.assertEqual(found, Refusal(19))
        for numbers in ([1, 0, 0, 2], [0, 1, 1, 0], [1, 2, 0, 0], [0, 2, 0, 1]):
            found = count_flags(words, width, height, *box(numbers))
            self.assertEqual(found, Refusal(19))

    def test_the_order_of_refusals(self) -> None:
        draws = Draws(20)
        for _ in range(300):
            width, height = draw_sides(draws)
            words = draw_words(draws, width * height, draws.choose(DENSITIES))
            good = draw_place(draws, width, height), draw_box(draws, width, height)
            bad = outside(draws, good[0], width, height)
            bad_box = wrong_box(draws, good[1], width, height)
            for wrong in range(8):
                sides = (width, height)
                if wrong & 1:
                    sides = wrong_sides(draws, width, height)
                some = wrong_words(draws, words) if wrong & 2 else words
                place, corners = (bad, bad_box) if wrong & 4 else good
                found = nearest_flag(some, *sides, Place(*place))
                counted = count_flags(some, *sides, *box(corners))
                if wrong:
                    number = 16 if wrong & 3 == 2 else 19
                    self.assertEqual((found, counted), (Refusal(number),) * 2)
                else:
                    self.assertNotIsInstance(found, Refusal)
                    self.assertNotIsInstance(counted, Refusal)

    def test_nothing_is_nearer_or_as_near_and_before(self) -> None:
        draws = Draws(21)
        for _ in range(300):
            width, height = draw_sides(draws)
            words = draw_words(draws, width * height, draws.choose(DENSITIES))
            row, column = draw_place(draws, width, height)
            flags = [
                ((i // width - row) ** 2 + (i % width - column) ** 2, i)
                for i, word in enumerate(words)
                if word in FLAGS
            ]
            found = nearest_flag(words, width, height, Place(row, column))
            if flags:
                self.assertEqual(found, Place(*divmod(min(flags)[1], width)))
            else:
                self.assertIsNone(found)

    def test_rings(self) -> None:
        draws = Draws(22)
        for _ in range(200):
            width, height = draw_sides(draws)
            place = draw_place(draws, width, height)
            near = draws.choose((0, 1, 2, 4, 5, 8, 10, 25, 50, 65))
            words, ring = draw_ring(draws, width, height, place, near)
            for index in reversed(ring):
                words[index] = draws.choose(FLAGS)
                found = nearest_flag(words, width, height, Place(*place))
                self.assertEqual(found, Place(*divmod(index, width)))

    def test_boxes_side_by_side_add_up(self) -> None:
        draws = Draws(23)
        for _ in range(300):
            width, height = draw_sides(draws)
            words = draw_words(draws, width * height, draws.choose(DENSITIES))
            top, left, bottom, right = draw_box(draws, width, height)
            whole = count_flags(words, width, height, *box([top, left, bottom, right]))
            lines = [
                words[row * width + left : row * width + right + 1]
                for row in range(top, bottom + 1)
            ]
            flags = [word for line in lines for word in line if word in FLAGS]
            self.assertEqual(whole, len(flags))
            cut = draws.between(top, bottom)
            parts = [[top, left, cut, right]]
            if cut < bottom:
                parts.append([cut + 1, left, bottom, right])
            counts = [count_flags(words, width, height, *box(part)) for part in parts]
            self.assertEqual(sum(counts), whole)


class Jig(unittest.TestCase):
    """The jig and its made inputs."""

    def test_example(self) -> None:
        self.assertEqual(jig.run(make_jig.EXAMPLE), JIG_EXAMPLE_OUTPUT)
        done = subprocess.run(
            [sys.executable, str(HERE / "jig.py")],
            input=make_jig.EXAMPLE,
            capture_output=True,
            check=True,
        )
        self.assertEqual(done.stdout.decode("ascii"), JIG_EXAMPLE_OUTPUT)

    def test_every_kind_of_input(self) -> None:
        draws = Draws(14)
        for expected, maker in make_jig.KINDS:
            for _ in range(15):
                first = jig.run(maker(draws)).split("\n")[0]
                if expected == 0:
                    self.assertEqual(first, "row col word meaning", maker.__name__)
                elif expected is not None:
                    self.assertEqual(first, f"refused {expected}", maker.__name__)

    def test_all_meanings_occur(self) -> None:
        text = "".join(output for _, _, output in make_jig.make(15, 200))
        for pattern in (r"sat [1-9]\n", r"neg\n", r"none\n", r"\d\.\.\d"):
            self.assertIsNotNone(re.search(pattern, text), pattern)

    def test_same_seed_same_files(self) -> None:
        self.assertEqual(make_jig.make(16, 30), make_jig.make(16, 30))


class Replay(unittest.TestCase):
    """The replay program and its made scripts."""

    def test_described_example(self) -> None:
        page = (HERE.parent.parent / "docs" / "REPLAY.md").read_text("utf-8")
        script, output = page.split("## Example\n")[1].split("\nprints\n")
        text = replay.run(re.sub("(?m)^    ", "", script.strip("\n")).encode("ascii"))
        self.assertEqual(text, re.sub("(?m)^    ", "", output.strip("\n")) + "\n")

    def test_malformed(self) -> None:
        draws = Draws(17)
        for _ in range(300):
            script = make_replay.spoil(draws, b"open 2 2 0\nstart\nfeed 2 1 2\n")
            self.assertRegex(replay.run(script), r"\Amalformed line [123]\n\Z")
        self.assertEqual(replay.run(b"#" * 262_145), "script too long\n")
        self.assertEqual(replay.run(b"#" * 262_144), "")
        self.assertEqual(replay.run(b"\n\n# \xff\n\nfoo"), "malformed line 5\n")

    def test_each_malformed_line(self) -> None:
        for line in make_replay.MALFORMED:
            self.assertEqual(replay.run(line.encode("ascii")), "malformed line 1\n", line)

    def test_floats(self) -> None:
        script = "floats 2 1080033280 0\npoke floats 1 4294967295 4294967295\npoke floats 2 0 0\nprint floats 0 2\nswap floats\n"
        script += "print floats 0 1\nprint floats 0 0\nfloats 6 2147483648 1\nswap floats\nprint floats 0 02\nswap floats\nprint floats 0 6\n"
        expected = ["taken", "taken", "outside", "taken", "1080033280 0 2146959360 0", "taken", "outside", "taken", "taken", "taken", "taken"]
        expected += ["1080033280 0 2146959360 0", "taken", "taken", "2147483648 1 " * 4 + "2147483648 1", "2147483648 1"]
        self.assertEqual(replay.run(script.encode("ascii")).splitlines(), expected)
        # Sums and floats are apart.
        self.assertEqual(replay.run(b"sums 2 5\nfloats 1 0 0\nswap\nprint floats 0 1\nprint sums 0 1\n"), "taken\n" * 4 + "0 0\noutside\n")

    def test_the_words_and_their_flags(self) -> None:
        script = "open 4 2 1\nstart\nsums 8 0\n" + "fill 8 9\n" * 8 + "feed 8"
        script += " 9" * 8 + "\npoke 2 -999\n"
        board = replay.run(script.encode("ascii"))
        asked = "nearest 2 1 0 0\ncount 2 1 0 0 0 1\n"
        read = replay.run(f"{script}readout 2\n{asked}".encode("ascii"))
        self.assertTrue(read.startswith(board))
        self.assertTrue(read.endswith("\n32 32767\nflag 0 1\nflags 1\n"))
        # A refused read out leaves the words, and so do a new board and its sums.
        for call in ("readout 3", "swap", "open 1 1 0", "sums 2 5", "words 2 7 32753"):
            text = replay.run(f"{script}readout 2\n{call}\n{asked}".encode("ascii"))
            self.assertTrue(text.endswith("\nflag 0 1\nflags 1\n"), call)
        text = replay.run(f"{script}words 2 5 5\nreadout 8\n{asked}".encode("ascii"))
        self.assertTrue(text.endswith("\nno flag\nflags 0\n"))

    def test_numbers_of_flags(self) -> None:
        asked = "nearest 01 0000000001 -0 00\ncount 1 1 0 -000 0 0\n"
        text = replay.run(f"words 1 32767\n{asked}".encode("ascii"))
        self.assertEqual(text, "taken\nflag 0 0\nflags 1\n")
        text = replay.run(asked.encode("ascii"))
        self.assertEqual(text, "refused 16 0\nrefused 16 0\n")
        large = b"nearest 9999999999 1 0 0\ncount 1 1 0 0 0 9999999999\n"
        text = replay.run(b"words 1 32767\n" + large)
        self.assertEqual(text, "taken\nrefused 19 0\nrefused 19 0\n")
        self.assertEqual(replay.run(b"nearest 1 1 0 -1"), "malformed line 1\n")

    def test_made_scripts_reach_every_refusal(self) -> None:
        self.check_refusals([script for _, script, _ in make_replay.make(18, 64)])

    def test_the_tour_reaches_every_refusal(self) -> None:
        self.check_refusals([make_replay.tour(1)])

    def check_refusals(self, scripts: list[bytes]) -> None:
        """Every number is answered, in both engines, 14 at an entry of each kind, and all of flags."""
        seen: set[int] = set()
        seen_of_floats: set[int] = set()
        intervals: set[str] = set()
        flags: set[str] = set()
        for script in scripts:
            commands = replay.parse_script(script)
            if isinstance(commands, str):
                continue
            player = replay.Player()
            for name, numbers in commands:
                fed, pixels = player.board.fed, player.board.pixels
                line = player.play(name, numbers)[0]
                first = line.split(" ")
                if name in ("nearest", "count"):
                    kind = re.match(r"flags?|no flag|refused \d+", line)
                    flags.add(f"{name} {kind and kind[0]}")
                if first[0] == "refused":
                    in_floats = name in replay.WITH_FLOATS
                    (seen_of_floats if in_floats else seen).add(int(first[1]))
                    if first[1] == "14":
                        kind = "floats" if in_floats else "sums"
                        low = "readout" in name or int(first[2]) < fed % pixels
                        intervals.add(f"{kind} {'readout' if 'readout' in name else low}")
        self.assertEqual(seen, {*range(1, 17), 19, 99})
        self.assertEqual(seen_of_floats, {*range(10, 17), 99})
        kinds = {f"{kind} {where}" for kind in ("sums", "floats") for where in ("readout", True, False)}
        self.assertEqual(intervals, kinds)
        answers = {"nearest flag", "nearest no flag", "count flags"}
        for name in ("nearest", "count"):
            answers |= {f"{name} refused 16", f"{name} refused 19"}
        self.assertEqual(flags, answers)

    def test_given_boards(self) -> None:
        good = [2, 2, 0, 1, 3, *range(9), 5, 1, 2, *range(-9, 0), 6, 3, 4]
        line = " ".join(["board", *map(str, good)])
        self.assertEqual(replay.run(line.encode("ascii")), f"taken\n{line}\n")
        self.assertEqual(replay.board_numbers(replay.board_of(good)), good)
        for malformed in make_replay.malformed_boards():
            text = replay.run(malformed.encode("ascii"))
            self.assertEqual(text, "malformed line 1\n", malformed)

    def test_99_for_each_part_of_sound(self) -> None:
        writer = make_replay.Writer(Draws(0))
        for cases in sound_boards.PARTS:
            for sound, parts in cases():
                numbers = sound_boards.numbers_of(parts)
                answers = sound_boards.every_call(writer, numbers)
                refused = [answer == "refused 99 0" for answer in answers]
                self.assertEqual(refused, [not sound] * len(answers), parts)

    def test_drawn_boards_are_of_both_kinds(self) -> None:
        draws = Draws(24)
        sound = [replay.board_of(draw_board(draws)).sound() for _ in range(400)]
        self.assertTrue(100 < sum(sound) < 300)

    def test_same_seed_same_files(self) -> None:
        self.assertEqual(make_replay.make(19, 16), make_replay.make(19, 16))


class LentBoards(unittest.TestCase):
    """A board in a lent buffer."""

    def calls(self, board: Board) -> list[Call]:
        """Every operation but Open."""
        sums = [PEDESTAL] * board.pixels
        calls = [Call("update", ([0, 8, 2],)), Call("start"), Call("feed", ([5], sums))]
        calls += [Call("read_out", (sums, [0] * board.words)), Call("drop"), Call("covered", ([7],))]
        patterns = [pattern_of(float(PEDESTAL))] * board.pixels
        calls += [Call("feed_floats", ([5], patterns)), Call("read_out_floats", (patterns, [0] * board.words))]
        return calls

    def done(self, call: Call, board: Board, buffers: list[list[int]]) -> Optional[Refusal]:
        """The call on the board itself."""
        if call.name == "covered":
            found = board.covered()
            refusal = found if isinstance(found, Refusal) else None
            buffers[0] = [7 if refusal else int(found is True)]
            return refusal
        if not call.name.endswith("floats"):
            return getattr(board, call.name)(*buffers)
        feeds = call.name == "feed_floats"
        sums = [float_of(pattern) for pattern in buffers[1 if feeds else 0]]
        if not feeds:
            return floats.read_out(board, sums, buffers[1])
        refusal = floats.feed(board, buffers[0], sums)
        buffers[1] = [pattern_of(entry) for entry in sums]
        return refusal

    def test_a_call_does_what_it_does_on_the_board(self) -> None:
        draws = Draws(25)
        for _ in range(300):
            words = draw_board(draws)
            board = board_in(words)
            assert isinstance(board, Board)
            self.assertEqual(replay.board_numbers(board), words)
            if board.pixels > 1_024:
                continue
            for call in self.calls(board):
                other, buffers = replay.board_of(words), [list(buffer) for buffer in call.buffers]
                answer = self.done(call, other, buffers) or Refusal(0)
                left = Left(*answer, replay.board_numbers(other), buffers)
                self.assertEqual(made(call, words), left)

    def test_words_that_no_part_can_have(self) -> None:
        running = opened(2, 1)
        running.start()
        for board in (opened(2, 1), running):
            good = replay.board_numbers(board)
            for at, (low, high) in enumerate(PARTS):
                for word in (low - 1, high + 1, -(2**63), good[at] - 2**32):
                    words = [*good[:at], word, *good[at + 1 :]]
                    self.assertEqual(board_in(words), Refusal(99))
                    for call in self.calls(board):
                        self.assertEqual(made(call, words), Left(99, 0, words, list(call.buffers)))

    def test_another_length(self) -> None:
        good = replay.board_numbers(opened(2, 1))
        for words in ([], good[:-1], [*good, 0], good * 2):
            for call in (*self.calls(opened(2, 1)), Call("open", sides=(0, 0, True)), Call("open", sides=(2, 1, False))):
                self.assertEqual(made(call, words), Left(99, 0, words, list(call.buffers)))

    def test_bits_of_floats_that_are_left_alone(self) -> None:
        board = opened(3, 1)
        board.start()
        words = replay.board_numbers(board)
        for pattern in NOT_NUMBERS:
            left = made(Call("feed_floats", ([1], [pattern] * 3)), words)
            self.assertEqual((left.number, left.buffers[1]), (0, [pattern_of(124.0), pattern, pattern]))
            again = made(Call("feed_floats", ([1, 1, 1], left.buffers[1])), left.words)
            self.assertEqual((again.number, again.buffers[1]), (0, [pattern_of(float(124 - 3)), *[pattern_of(124.0)] * 2]))
            refused = made(Call("feed_floats", ([1, 1, 1], [pattern] * 3)), left.words)
            self.assertEqual(refused, Left(14, 0, left.words, [[1, 1, 1], [pattern] * 3]))

    def test_open_does_not_look(self) -> None:
        for word in (0, -1, 2**63 - 1):
            words = [word] * WORDS
            taken = Left(0, 0, replay.board_numbers(opened(4, 2, True)), [])
            self.assertEqual(made(Call("open", sides=(4, 2, True)), words), taken)
            self.assertEqual(made(Call("open", sides=(3, 2, True)), words), Left(1, 0, words, []))


if __name__ == "__main__":
    unittest.main()
