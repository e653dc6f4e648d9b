"""Jig inputs and the outputs they must give."""

from __future__ import annotations

from typing import Callable, Optional

import jig
from draws import (
    EDGE_FIELDS,
    Draws,
    draw_bad_record,
    draw_edge_ramp,
    draw_ramp,
    draw_record,
    encode_record,
)
from ramp import Settings, updated

# Two pixels, threshold 16,383, one sample of weight 1, the readings 0 and 16,383.
EXAMPLE = bytes.fromhex("02 00 01 00 00 06 01 0A 01 FF 3F 01 00 00 FF 3F")

THIN = ((1, 1024), (1024, 1), (512, 2), (2, 512), (32, 32), (32, 32))


def head(width: int, height: int, binned: bool, record: list[int]) -> bytes:
    """The input up to the readings."""
    sides = [width % 256, width // 256, height % 256, height // 256]
    return bytes(sides + [int(binned), len(record)] + record)


def pack(readings: list[int]) -> bytes:
    """Two bytes to a reading, low first."""
    return b"".join(reading.to_bytes(2, "little") for reading in readings)


def draw_sides(draws: Draws) -> tuple[int, int, bool]:
    """Sides and binning of a board of at most 1,024 pixels."""
    binned = draws.chance(50)
    if draws.chance(10):
        width, height = draws.choose(THIN)
    else:
        largest = draws.choose((2, 4, 8, 8, 32))
        width, height = draws.between(1, largest), draws.between(1, largest)
        if binned:
            width, height = width + width % 2, height + height % 2
    return width, height, binned and width % 2 == 0 and height % 2 == 0


def draw_parts(draws: Draws) -> tuple[bytes, list[int], int]:
    """A good input's head and readings, and its number of pixels."""
    width, height, binned = draw_sides(draws)
    record = draw_record(draws) if draws.chance(90) else [0, 0]
    settings = updated(Settings(), record)
    assert isinstance(settings, Settings)
    pixels = width * height
    readings = draw_ramp(draws, pixels, settings.samples, settings.threshold)
    return head(width, height, binned, record), readings, pixels


def frame(draws: Draws) -> bytes:
    """An input that makes a frame."""
    start, readings, _ = draw_parts(draws)
    return start + pack(readings)


def frame_at_the_edges(draws: Draws) -> bytes:
    """A frame of sums close around the edges of signs, words and flags."""
    width, height, binned = draw_sides(draws)
    r = draws.between(1, 3)
    record = encode_record({**EDGE_FIELDS, 10: r})
    readings = draw_edge_ramp(draws, width, height, r)
    return head(width, height, binned, record) + pack(readings)


def under_six_bytes(draws: Draws) -> bytes:
    """Under six bytes."""
    return frame(draws)[: draws.below(6)]


def binned_above_1(draws: Draws) -> bytes:
    """The binned byte above 1."""
    data = bytearray(frame(draws))
    data[4] = draws.choose((2, 3, 128, 255))
    return bytes(data)


def record_past_the_end(draws: Draws) -> bytes:
    """The record runs past the end."""
    width, height, binned = draw_sides(draws)
    record = draw_record(draws) + [0] * draws.below(20)
    return head(width, height, binned, record)[: -draws.between(1, len(record))]


def odd_number_of_bytes(draws: Draws) -> bytes:
    """An odd number of bytes after the record, sometimes very many."""
    tail = bytes(draws.choose((1, 1, 1, 2_001, 40_001)))
    return frame(draws) + tail


def sides_refused(draws: Draws) -> bytes:
    """Sides that Open refuses, with whatever follows."""
    binned = draws.chance(50)
    wrong = [(0, 2), (2, 0), (0, 0), (1025, 2), (2, 1025), (65535, 65535), (1026, 2)]
    if binned:
        wrong += [(1, 2), (2, 1), (3, 3), (31, 32), (1023, 1024)]
    width, height = draws.choose(wrong)
    record = draws.choose(([], [0, 0], [0, 255], draw_record(draws)))
    return head(width, height, binned, record) + pack([70] * draws.below(40))


def too_many_pixels(draws: Draws) -> bytes:
    """Sides that Open takes, of more than 1,024 pixels."""
    sides = ((1024, 2), (2, 1024), (1024, 1024), (34, 32), (32, 34), (514, 2))
    width, height = draws.choose(sides)
    record = draws.choose(([], [0, 0], [0, 255], draw_record(draws)))
    return head(width, height, draws.chance(50), record) + pack([7] * draws.below(40))


# What is wrong with a record, by its refusal.
BAD_RECORDS = {
    2: "record_too_short",
    3: "unknown_map_bit",
    4: "record_of_another_length",
    5: "weight_byte_out_of_range",
    6: "threshold_out_of_range",
    7: "truncation_out_of_range",
    8: "sample_count_out_of_range",
}


def bad_record(number: int) -> Callable[[Draws], bytes]:
    """Inputs with a record that is refused with this number."""

    def make(draws: Draws) -> bytes:
        width, height, binned = draw_sides(draws)
        readings = pack([draws.below(65_536) for _ in range(draws.below(30))])
        return head(width, height, binned, draw_bad_record(draws, number)) + readings

    make.__name__ = BAD_RECORDS[number]
    return make


def too_many_readings(draws: Draws) -> bytes:
    """More readings than the ramp wants; some of them may be bad too."""
    start, readings, _ = draw_parts(draws)
    extra = draws.choose((1, 1, 1, 2, 12_000))
    if draws.chance(30):
        readings[draws.below(len(readings))] = 65_535
    return start + pack(readings) + bytes(2 * extra)


def reading_out_of_range(draws: Draws) -> bytes:
    """A reading above 16,383, in a full ramp or a part of one."""
    start, readings, _ = draw_parts(draws)
    if draws.chance(30):
        readings = readings[: draws.between(1, len(readings))]
    for _ in range(draws.choose((1, 1, 3))):
        readings[draws.below(len(readings))] = draws.choose((16_384, 16_384, 65_535))
    return start + pack(readings)


def too_few_readings(draws: Draws) -> bytes:
    """A ramp that still wants readings."""
    start, readings, pixels = draw_parts(draws)
    full = len(readings)
    keep = draws.choose((0, full - 1, full - pixels, draws.below(full)))
    return start + pack(readings[:keep])


def cut_short(draws: Draws) -> bytes:
    """A good input cut anywhere."""
    data = frame(draws)
    return data[: draws.below(len(data))]


def bytes_changed(draws: Draws) -> bytes:
    """A good input with a few bytes changed, most of them near the front."""
    data = bytearray(frame(draws))
    for _ in range(draws.between(1, 3)):
        reach = draws.choose((6, 16, len(data)))
        data[draws.below(min(reach, len(data)))] = draws.below(256)
    return bytes(data)


def noise(draws: Draws) -> bytes:
    """Bytes without a plan."""
    return bytes(draws.below(256) for _ in range(draws.below(60)))


# Each kind of input with its refusal; 0 for a frame, None where it varies.
KINDS: list[tuple[Optional[int], Callable[[Draws], bytes]]] = [
    (0, frame),
    (17, under_six_bytes),
    (0, frame_at_the_edges),
    (17, binned_above_1),
    (0, frame),
    (17, record_past_the_end),
    (0, frame),
    (17, odd_number_of_bytes),
    (1, sides_refused),
    (18, too_many_pixels),
    *((number, bad_record(number)) for number in BAD_RECORDS),
    (0, frame),
    (12, too_many_readings),
    (0, frame_at_the_edges),
    (13, reading_out_of_range),
    (0, frame),
    (15, too_few_readings),
    (None, cut_short),
    (12, too_many_readings),
    (None, bytes_changed),
    (13, reading_out_of_range),
    (None, noise),
]


def make(seed: int, count: int) -> list[tuple[str, bytes, str]]:
    """This many inputs with what they are called and their outputs, the kinds taken in turn."""
    draws = Draws(seed)
    makers = [KINDS[index % len(KINDS)][1] for index in range(count)]
    inputs = [(maker.__name__, maker(draws)) for maker in makers]
    return [(name, data, jig.run(data)) for name, data in inputs]
