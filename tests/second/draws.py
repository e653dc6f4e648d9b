"""Pseudo-random draws that are the same for a seed on every Python version."""

from __future__ import annotations

import math
from typing import Sequence, TypeVar

from floats import HALF, pattern_of
from ramp import MARK

Item = TypeVar("Item")
MASK = (1 << 64) - 1


class Draws:
    """A 64-bit splitmix generator."""

    def __init__(self, seed: int) -> None:
        self.state = seed & MASK

    def below(self, limit: int) -> int:
        """A whole number from 0 up to but not including the limit."""
        self.state = (self.state + 0x9E3779B97F4A7C15) & MASK
        mixed = self.state
        mixed = (mixed ^ (mixed >> 30)) * 0xBF58476D1CE4E5B9 & MASK
        mixed = (mixed ^ (mixed >> 27)) * 0x94D049BB133111EB & MASK
        return (mixed ^ (mixed >> 31)) % limit

    def between(self, low: int, high: int) -> int:
        """A whole number from low to high, both included."""
        return low + self.below(high - low + 1)

    def choose(self, items: Sequence[Item]) -> Item:
        """One of the items."""
        return items[self.below(len(items))]

    def chance(self, percent: int) -> bool:
        """True in this many draws of a hundred."""
        return self.below(100) < percent


def draw_weight_byte(draws: Draws) -> int:
    """A good weight byte, minus zero and the extremes included."""
    return draws.choose((0, 1, 15, 16, 17, 20, 31, draws.below(32), draws.below(32)))


def draw_threshold(draws: Draws) -> int:
    """A good threshold: half of them anywhere, half of them special ones."""
    if draws.chance(50):
        return draws.below(16_384)
    return draws.choose((0, 1, 13_000, 13_087, 13_088, 16_382, 16_383))


def draw_fields(draws: Draws, percent: int) -> dict[int, int]:
    """Good record fields by map bit, each present in this many of a hundred."""
    fields = {bit: draw_weight_byte(draws) for bit in range(9)}
    fields[9] = draw_threshold(draws)
    fields[10] = draws.between(1, 3)
    fields[11] = draws.between(1, 9)
    return {bit: value for bit, value in fields.items() if draws.chance(percent)}


def draw_late_fields(draws: Draws) -> dict[int, int]:
    """Good fields of which only threshold, r and N may be present."""
    fields = draw_fields(draws, 70)
    return {bit: value for bit, value in fields.items() if bit >= 9}


def encode_record(fields: dict[int, int]) -> list[int]:
    """The bytes of an update record."""
    bit_map = sum(1 << bit for bit in fields)
    record = [bit_map % 256, bit_map // 256]
    for bit in sorted(fields):
        record.append(fields[bit] % 256)
        if bit == 9:
            record.append(fields[bit] // 256)
    return record


def draw_record(draws: Draws) -> list[int]:
    """A record that an update takes."""
    if draws.chance(40):
        return encode_record(draw_late_fields(draws))
    return encode_record(draw_fields(draws, draws.choose((0, 20, 50, 80, 100))))


def draw_bad_record(draws: Draws, number: int) -> list[int]:
    """A record that an update refuses with a number from 2 to 8."""
    if number == 2:
        return [draws.below(256) for _ in range(draws.below(2))]
    record = draw_record(draws)
    if number == 3:
        record[1] |= 1 << draws.between(4, 7)
        return record + [draws.below(256) for _ in range(draws.below(3))]
    if number == 4:
        if len(record) > 2 and draws.chance(50):
            return record[:-1]
        return record + [draws.below(256) for _ in range(draws.between(1, 4))]
    fields = draw_fields(draws, 50)
    bad_values = {
        5: (draws.below(9), (32, 33, 64, 128, 255, draws.between(32, 255))),
        6: (9, (16_384, 65_535, 32_768, draws.between(16_384, 65_535))),
        7: (10, (0, 4, 255, draws.between(4, 255))),
        8: (11, (0, 10, 255, draws.between(10, 255))),
    }
    for later in range(number, 9):
        bit, values = bad_values[later]
        if later == number or draws.chance(30):
            fields[bit] = draws.choose(values)
    return encode_record(fields)


def draw_pixel(draws: Draws, samples: int, threshold: int) -> list[int]:
    """The readings of one pixel: one for each sample, none above 16,383."""
    low = draws.below(threshold + 1)
    high = draws.between(low, threshold)
    ramp = [low + (high - low) * n // samples for n in range(samples)]
    kind = draws.below(6)
    if kind == 0:
        return [low] * samples
    if kind == 1:
        return ramp[::-1]
    if kind == 2:
        return [draws.below(16_384) for _ in range(samples)]
    if kind == 3:
        near = (threshold, min(threshold + 1, 16_383), max(threshold - 1, 0))
        return [draws.choose(near) for _ in range(samples)]
    if kind == 4:
        return [draws.choose((0, 16_383, threshold)) for _ in range(samples)]
    return ramp


def draw_ramp(draws: Draws, pixels: int, samples: int, threshold: int) -> list[int]:
    """The readings of a whole ramp, in the order they are fed."""
    by_pixel = [draw_pixel(draws, samples, threshold) for _ in range(pixels)]
    return [by_pixel[p][n] for n in range(samples) for p in range(pixels)]


# Three samples with weights 15, 15 and -1 reach every sum that matters exactly.
EDGE_FIELDS = {0: 15, 1: 15, 2: 17, 11: 3}


def draw_edge_ramp(draws: Draws, width: int, height: int, r: int) -> list[int]:
    """A ramp for the edge fields: each square's sums lie close around an edge."""
    step = 2**r
    edges = [0, step, 128, 32_751 * step, 32_752 * step, 32_753 * step]
    edges += [32_762 * step, 32_766 * step, 32_767 * step, 32_768 * step]
    across, down = (width + 1) // 2, (height + 1) // 2
    squares = [draws.choose(edges) for _ in range(across * down)]
    samples: tuple[list[int], list[int], list[int]] = ([], [], [])
    for row in range(height):
        for column in range(width):
            edge = squares[row // 2 * across + column // 2]
            above = edge + draws.choose((-1, -1, 0, 0, 1, 2)) - 128
            large = max(0, -(-above // 30))
            for sample, reading in zip(samples, (large, large, 30 * large - above)):
                sample.append(reading)
    return samples[0] + samples[1] + samples[2]


# Floats that no sum is.
FRACTIONS = (0.5, 0.25, 5e-324, 1 - 2.0**-53, 1 / 3, 127.5, 128.5, 128 + 2.0**-45, 2_211_832.5, MARK + 1.5, 2.0**52 - 0.5)
LARGE = (2.0**31, 2.0**32, 2.0**32 + 128, 2.0**32 + MARK + 1, 2.0**51, 2.0**52, 1.5 * 2.0**52, 2.0**53, 2.0**63, 2.0**64, 1.7976931348623157e308)
IMPOSSIBLE = (math.nan, math.inf, -math.inf, -0.0, *FRACTIONS, *LARGE, *(-entry for entry in FRACTIONS + LARGE))
# Patterns of floats that are no number: the quiet one, signalling ones, with more bits in them, and with a sign.
NOT_NUMBERS = (0x7FF8 << 48, (0x7FF0 << 48) + 1, 0x7FF4 << 48, 0x7FF8_0000_DEAD_BEEF, 0xFFF8 << 48, (0xFFF0 << 48) + HALF, 2**64 - 1)


def draw_not_a_number(draws: Draws) -> int:
    """A pattern of a float that is no number."""
    any_of_them = draws.below(2) << 63 | 0x7FF << 52 | 1 + draws.below(2**52 - 1)
    return draws.choose((*NOT_NUMBERS, any_of_them))


def draw_bad_float(draws: Draws) -> float:
    """A float that no sum is, of every kind alike."""
    near = math.ldexp(2 * draws.below(2**21) + 1, -draws.between(1, 30))
    kinds = ((math.nan,), (math.inf, -math.inf), (-0.0,), FRACTIONS, (near, -near), LARGE, IMPOSSIBLE)
    return draws.choose(draws.choose(kinds))


def draw_pattern(draws: Draws) -> int:
    """The pattern of any float, most of one that no sum is."""
    return draws.choose((draw_not_a_number(draws), pattern_of(draw_bad_float(draws)), draws.below(2**64)))


LARGEST = 9_999_999_999  # of ten digits
SIDES = (0, 1, 2, 1_023, 1_024, 1_025, 2**32, LARGEST)
WEIGHTS = (-16, -15, 15, 16, -(2**31), 2**31 - 1)
THRESHOLDS = (0, 16_383, 16_384, 65_535)
TRUNCATIONS = (0, 1, 3, 4, 65_535)
COUNTS = (0, 1, 9, 10, 65_535)
# Numbers at the edges of a board's parts, in the order of its line.
SETTINGS_EDGES = (WEIGHTS,) * 9 + (THRESHOLDS, TRUNCATIONS, COUNTS)
BOARD_EDGES = (SIDES, SIDES, (0, 1), (0, 1), (0, 1, LARGEST)) + 2 * SETTINGS_EDGES


def draw_settings(draws: Draws) -> list[int]:
    """Nine weights, threshold, r and N, each in its range."""
    weights = [draws.between(-15, 15) for _ in range(9)]
    return [*weights, draw_threshold(draws), draws.between(1, 3), draws.between(1, 9)]


def draw_board(draws: Draws) -> list[int]:
    """The numbers of a board, in the order of its line: half of them of a sound one."""
    binned, running = draws.below(2), draws.below(2)
    width, height = draws.between(1, 4), draws.between(1, 4)
    if binned:
        width, height = 2 * width, 2 * height
    waiting, in_force = draw_settings(draws), draw_settings(draws)
    most = in_force[-1] * width * height
    fed = draws.choose((0, 1, most - 1, most, draws.below(most + 1))) if running else 0
    if draws.chance(10):
        fed = most + 1
    numbers = [width, height, binned, running, fed, *waiting, *in_force]
    for _ in range(draws.choose((0, 0, 1, 1, 2))):
        part = draws.below(len(numbers))
        numbers[part] = draws.choose(BOARD_EDGES[part])
    return numbers
