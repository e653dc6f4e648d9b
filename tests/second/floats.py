"""The ramp's sums in 64-bit floats: their arithmetic, which entries are possible, and the pattern of bits that stands for a float.

A step multiplies, adds 128 or the stored sum, and stores, each in floats.
"""

from __future__ import annotations

import math
import struct
from typing import Optional, Sequence

import ramp
from ramp import MARK, PEDESTAL, Board, Engine, Refusal, Settings

HALF = 2**32
MINUS_ZERO = 2**63  # the pattern
NOT_A_NUMBER = 0x7FF8_0000_0000_0000  # the pattern that is shown for all of them
MARKS = [float(MARK + n) for n in range(1, 10)]


def float_of(pattern: int) -> float:
    """The float of a pattern."""
    (entry,) = struct.unpack("<d", struct.pack("<Q", pattern))
    return entry


def pattern_of(entry: float) -> int:
    """The pattern of a float; one pattern for all that are no number."""
    if math.isnan(entry):
        return NOT_A_NUMBER
    (pattern,) = struct.unpack("<Q", struct.pack("<d", entry))
    return pattern


def float_of_halves(high: int, low: int) -> float:
    """The float of a pattern whose upper and lower 32 bits are given."""
    return float_of(high * HALF + low)


def halves_of(entry: float) -> tuple[int, int]:
    """The upper and the lower 32 bits of a float's pattern."""
    return divmod(pattern_of(entry), HALF)


def possible(entry: float, k: int) -> bool:
    """Whether k samples can leave this entry: a whole number, not minus zero, that they can leave."""
    return entry.is_integer() and pattern_of(entry) != MINUS_ZERO and ramp.possible(int(entry), k)


def step(stored: float, sample: int, reading: int, settings: Settings) -> float:
    """What a reading makes of the stored entry."""
    if sample > 1 and stored in MARKS:
        return stored
    if reading > settings.threshold:
        return float(MARK + sample)
    product = float(settings.weights[sample - 1]) * float(reading)
    return product + (float(PEDESTAL) if sample == 1 else stored)


def entry_after(entry: float, first: int, samples: Sequence[int], settings: Settings) -> float:
    """What the samples number `first` and on of one pixel make of its entry."""
    for sample, reading in enumerate(samples, first):
        entry = step(entry, sample, reading, settings)
    return entry


FLOATS = Engine(possible, entry_after)


def feed(board: Board, readings: Sequence[int], sums: list[float]) -> Optional[Refusal]:
    """Feed, with sums in floats."""
    return board.feed_in(FLOATS, readings, sums)


def read_out(board: Board, sums: Sequence[float], output: list[int]) -> Optional[Refusal]:
    """Read out, of sums in floats."""
    return board.read_out_in(FLOATS, sums, output)
