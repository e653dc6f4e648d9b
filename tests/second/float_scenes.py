"""Scenes on sums in floats: ramps in both engines, every refusal, each kind of float that no sum is, and ramps that change their engine."""

from __future__ import annotations

import math
from typing import TYPE_CHECKING, Sequence

from draws import IMPOSSIBLE, NOT_NUMBERS, encode_record
from floats import HALF, MINUS_ZERO, halves_of, pattern_of
from ramp import MARK, MAX_PRODUCT, MAX_READING, PEDESTAL

if TYPE_CHECKING:
    from make_replay import Writer

PATTERNS = (*NOT_NUMBERS, *(pattern_of(entry) for entry in IMPOSSIBLE if entry == entry))
# Three samples of eight pixels: ordinary sums, negative ones, 0, and readings at a threshold of 1,000 and above it.
FIELDS = {0: 15, 1: 31, 2: 1, 9: 1_000, 11: 3}
RAMP = (0, 1_000, 1_001, 7, 128, 9, 999, 500, 8, 1_000, 0, 16_383, 128, 20, 0, 510, 0, 1_000, 0, 1_001, 1_001, 37, 1, 22)


def start(writer: Writer, sides: tuple[int, int, int], fields: dict[int, int]) -> None:
    """A board with these settings, in a ramp."""
    writer.say("open", *sides)
    writer.say("update", *encode_record(fields))
    writer.say("start")


def poke(writer: Writer, index: int, pattern: int) -> None:
    """One entry of the floats, by its pattern."""
    writer.say("poke floats", index, *divmod(pattern, HALF))


def fill(writer: Writer, length: int, pattern: int) -> None:
    """New floats, all of this pattern."""
    writer.say("floats", length, *divmod(pattern, HALF))


def feed_all(writer: Writer, readings: Sequence[int], part: int) -> None:
    """A whole ramp in parts of so many readings, and its frame."""
    for at in range(0, len(readings), part):
        writer.with_sums("feed", *readings[at : at + part])
        writer.with_sums("print sums", 0, len(writer.sums.entries))
    writer.with_sums("readout", writer.player.board.words)


def floats_and_whole_numbers(writer: Writer) -> None:
    """The same readings in both engines, cut otherwise: squares and single pixels."""
    for binned in (0, 1):
        for r in (1, 3):
            for writer.in_floats, part in ((False, 24), (True, 24), (True, 5), (True, 1)):
                start(writer, (4, 2, binned), {**FIELDS, 10: r})
                writer.set_sums(8, writer.entry(-1))
                feed_all(writer, RAMP, part)


def floats_at_the_ends(writer: Writer) -> None:
    """The largest and the smallest sums, in both engines."""
    for weight in (15, 31):
        for r in (1, 2, 3):
            for writer.in_floats in (False, True):
                start(writer, (2, 2, 1), {**{bit: weight for bit in range(9)}, 9: MAX_READING, 10: r})
                writer.set_sums(4, writer.entry(MARK + 1))
                feed_all(writer, [MAX_READING] * 35 + [0], 12)


def floats_without_minus_zero(writer: Writer) -> None:
    """Products of minus zero: of weight 0, and of reading 0 with a negative weight, on 128, on 0 and on less."""
    writer.in_floats = True
    # Weights -1, -2, 0 and minus zero; after sample 1 the entries are 0, 128, -1 and 1.
    for weights in ({0: 17, 1: 18, 2: 0, 3: 16}, {0: 17, 1: 0, 2: 18, 3: 31}):
        start(writer, (4, 1, 0), {**weights, 10: 1, 11: 4})
        fill(writer, 4, MINUS_ZERO)
        feed_all(writer, [128, 0, 129, 127, *(0,) * 8, 0, 0, 0, 1], 4)
    # Sample 1 itself with a weight of 0.
    start(writer, (4, 1, 0), {0: 16, 11: 1})
    feed_all(writer, [0, 1, 13_087, 13_088], 3)


def floats_marked(writer: Writer) -> None:
    """Marks: at the threshold and above it, over any float, once and for all, and the smallest of a square."""
    writer.in_floats = True
    for binned in (0, 1):
        start(writer, (2, 2, binned), {9: 500, 11: 9})
        fill(writer, 4, NOT_NUMBERS[0])
        samples = [[500, 0, 1, 500], [501, 500, 2, 500], [0, 501, 3, 500], [501, 0, 16_383, 500], [0, 501, 4, 500]]
        feed_all(writer, [reading for sample in samples for reading in sample] + [500] * 16, 3)
    # Nothing above the largest reading, and everything above 0.
    for threshold in (MAX_READING, 0):
        start(writer, (4, 1, 0), {9: threshold, 11: 1})
        feed_all(writer, [MAX_READING, 0, 1, MAX_READING - 1], 4)


def floats_refused(writer: Writer) -> None:
    """Every refusal, each before the ones that come after it."""
    no_number = NOT_NUMBERS[1]

    def both(words: int, *readings: int) -> None:
        writer.say("feed floats", *readings)
        writer.say("readout floats", words)

    many = [MAX_READING + 1] * 9
    both(0, *many)
    writer.say("open", 2, 1, 0)
    writer.say("update", *encode_record({0: 1, 1: 1, 11: 2}))
    both(0, *many)
    writer.say("start")
    # The other engine's sums don't matter.
    writer.say("sums", 2, -(2**31))
    both(0, *many)
    for length in (1, 3):
        fill(writer, length, no_number)
        both(0, *many)
    fill(writer, 2, no_number)
    both(0, *many)
    writer.say("feed floats", 1, 2, MAX_READING + 1, 3, 4)
    writer.say("feed floats", 1, 2, MAX_READING + 1, MAX_READING + 2)
    writer.say("fill floats", 2, MAX_READING + 1)
    writer.say("feed floats")
    writer.say("feed floats", 1, 2)
    fill(writer, 2, no_number)
    both(0, 3, MAX_READING + 1)
    writer.say("feed floats", 3, 4)
    poke(writer, 0, pattern_of(128.0))
    writer.say("feed floats", 3, 4)
    writer.say("feed floats", 3)
    poke(writer, 0, no_number)
    writer.say("feed floats", 4)
    poke(writer, 1, pattern_of(128.0))
    writer.say("feed floats", 4)
    both(1)
    both(3, 5)
    both(2, 5)
    poke(writer, 0, pattern_of(128.0))
    poke(writer, 1, no_number)
    both(1)
    both(2)
    poke(writer, 1, pattern_of(-1.0))
    both(2)
    both(2)


def floats_impossible(writer: Writer) -> None:
    """Each kind of float that no sum is: where it is written over, where it is checked, and where it is left alone."""
    writer.in_floats = True
    start(writer, (3, 1, 0), {0: 1, 1: 17, 11: 2})
    for pattern in PATTERNS:
        fill(writer, 3, pattern)
        # Sample 1 of all, sample 2 of the first.
        writer.say("feed floats", 1, 2)
        writer.say("print floats", 0, 3)
        writer.say("feed floats", 3, 4)
        poke(writer, 1, pattern)
        writer.say("feed floats", 5)
        writer.say("feed floats")
        poke(writer, 1, pattern_of(128.0))
        poke(writer, 0, pattern)
        poke(writer, 2, pattern)
        writer.say("feed floats", 5)
        writer.say("print floats", 0, 3)
        writer.say("feed floats", 6)
        poke(writer, 2, pattern_of(128.0))
        writer.say("feed floats", 6)
        poke(writer, 2, pattern)
        writer.say("readout floats", 3)
        poke(writer, 0, pattern_of(128.0))
        writer.say("readout floats", 3)
        poke(writer, 2, pattern_of(0.0))
        writer.say("readout floats", 3)
        writer.say("start")


def edges(k: int) -> list[float]:
    """Floats on both sides of what k samples can leave."""
    top, bottom = float(PEDESTAL + MAX_PRODUCT * k), float(PEDESTAL - MAX_PRODUCT * k)
    ends = [entry + side * step for entry, side in ((top, 1), (bottom, -1)) for step in (-1, -0.5, 0, 0.5, 1)]
    ends += [math.nextafter(top, math.inf), math.nextafter(bottom, -math.inf)]
    marks = [float(MARK + n) for n in (-1, 0, 1, k, k + 1, 9, 10)]
    return [*ends, *marks, -marks[2], MARK + 1.5, math.nextafter(marks[2], 0.0), 0.0, -0.0, 1.0, -1.0]


def floats_at_the_bounds(writer: Writer) -> None:
    """Floats on both sides of what one, two and nine samples can leave, in Feed and in Read out."""
    for k in (1, 2, 9):
        writer.say("open", 1, 1, 0)
        writer.say("floats", 1, *halves_of(128.0))
        for entry in edges(k):
            # A ramp of one sample more, of which k are fed; then one of k samples.
            for samples in (k + 1, k) if k < 9 else (k,):
                writer.say("update", *encode_record({10: 3, 11: samples}))
                writer.say("start")
                writer.say("fill floats", k, 3)
                poke(writer, 0, pattern_of(entry))
                if samples > k:
                    writer.say("feed floats", 1)
                    writer.say("print floats", 0, 1)
                else:
                    writer.say("readout floats", 1)
                writer.say("drop")


def floats_and_back(writer: Writer) -> None:
    """Ramps that change their engine, both ways: taken where what the other sums hold is possible, refused with 14 where not."""
    for first in (False, True):
        for held in (128.0, 0.0, MARK + 1.0, PEDESTAL + 1.0 + MAX_PRODUCT, MARK + 2.0, -(2.0**31)):
            start(writer, (2, 1, 0), {0: 1, 1: 2, 2: 3, 9: 900, 10: 1, 11: 3})
            writer.in_floats = first
            writer.set_sums(2, writer.entry(0))
            writer.with_sums("feed", 700, 901)
            writer.in_floats = not first
            writer.set_sums(2, writer.entry(int(held)))
            writer.with_sums("feed", 600, 5)
            writer.with_sums("print sums", 0, 2)
            # Back to the first sums, which one sample wrote.
            writer.in_floats = first
            writer.with_sums("feed", *(4,) * writer.player.board.wanted)
            writer.with_sums("print sums", 0, 2)
            for writer.in_floats in (not first, first):
                writer.with_sums("readout", 2)
    # What only floats can hold.
    for pattern in PATTERNS:
        start(writer, (2, 1, 0), {11: 2})
        writer.say("sums", 2, 0)
        writer.say("feed", 1)
        fill(writer, 2, pattern)
        writer.say("feed floats", 2, 3)
        poke(writer, 0, pattern_of(128.0))
        writer.say("feed floats", 2, 3)
        writer.say("feed", 4)
        poke(writer, 0, pattern)
        writer.say("readout floats", 2)
        writer.say("sums", 2, 128)
        writer.say("readout", 2)


SCENES = (
    floats_and_whole_numbers,
    floats_at_the_ends,
    floats_without_minus_zero,
    floats_marked,
    floats_refused,
    floats_impossible,
    floats_at_the_bounds,
    floats_and_back,
)
