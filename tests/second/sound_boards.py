"""Scenes on boards of given numbers: each part of a sound board, at the ends of its range and just outside."""

from __future__ import annotations

from typing import TYPE_CHECKING, Callable, Iterator

from draws import LARGEST, draw_board
from floats import halves_of
from replay import MAX_COUNT, board_numbers

if TYPE_CHECKING:
    from make_replay import Writer

# The parts of a board by their place on its line.
WIDTH, HEIGHT, BINNED, RUNNING, FED, WAITING, IN_FORCE = 0, 1, 2, 3, 4, 5, 17
THRESHOLD, TRUNCATION, SAMPLES = 9, 10, 11  # from the beginning of the settings
# A sound board of four pixels; the ramp in force wants 2 samples, the next one 3.
SOUND = (2, 2, 0, 0, 0, *(1, -2, 3, -4, 5, -6, 7, -8, 9, 900, 1, 3), *(9, 8, 7, 6, 5, 4, 3, 2, 1, 700, 3, 2))
LARGE = 2**32  # sides whose product is 0 where 64 bits are all there are

Parts = dict[int, int]
Case = tuple[bool, Parts]  # whether the board is sound, and where it differs from the one above


def numbers_of(parts: Parts) -> list[int]:
    """The numbers of the board that differs in these parts."""
    return [parts.get(place, number) for place, number in enumerate(SOUND)]


def sides() -> Iterator[Case]:
    """Sides that Open takes, and others."""
    taken = [(1, 1, 0), (1024, 1, 0), (1, 1024, 0), (3, 3, 0), (1024, 1024, 0)]
    taken += [(2, 2, 1), (1024, 2, 1), (2, 1024, 1), (1024, 1024, 1)]
    other = [(0, 2, 0), (2, 0, 0), (0, 0, 0), (1025, 1, 0), (1, 1025, 0)]
    other += [(LARGEST, 1, 0), (1, LARGEST, 0), (LARGEST, LARGEST, 0), (LARGE, LARGE, 0)]
    other += [(1, 2, 1), (2, 1, 1), (3, 2, 1), (2, 3, 1), (3, 3, 1), (1023, 2, 1), (2, 1023, 1)]
    other += [(0, 2, 1), (2, 0, 1), (1026, 2, 1), (2, 1026, 1)]
    for sound, some in ((True, taken), (False, other)):
        for width, height, binned in some:
            for running in (0, 1):
                yield sound, {WIDTH: width, HEIGHT: height, BINNED: binned, RUNNING: running}


def settings(at: int) -> Iterator[Case]:
    """Settings at the ends of the ranges that Update gives them, and just outside; by turns with a ramp."""
    ranges = {at + weight: (-15, 15, -(2**31), 2**31 - 1) for weight in range(9)}
    ranges[at + THRESHOLD] = (0, 16_383, 0, 65_535)
    ranges[at + TRUNCATION] = (1, 3, 0, 65_535)
    ranges[at + SAMPLES] = (1, 9, 0, 65_535)
    for place, (low, high, lowest, highest) in ranges.items():
        inside, outside = {low, high}, {lowest, max(low - 1, lowest), high + 1, highest}
        for number in sorted(inside | outside):
            yield number in inside, {place: number, RUNNING: (place + number) % 2}


def waiting_settings() -> Iterator[Case]:
    """The waiting settings."""
    return settings(WAITING)


def settings_in_force() -> Iterator[Case]:
    """The settings in force."""
    return settings(IN_FORCE)


def readings_fed() -> Iterator[Case]:
    """At most N times M readings, with N in force; none while no ramp runs."""
    for running, fed in ((1, 0), (1, 1), (1, 7), (1, 8), (0, 0)):
        yield True, {RUNNING: running, FED: fed}
    for running, fed in ((1, 9), (1, 12), (1, LARGE), (1, LARGEST), (0, 1), (0, 8), (0, 9), (0, LARGEST)):
        yield False, {RUNNING: running, FED: fed}
    # The waiting N says nothing of it.
    yield True, {RUNNING: 1, FED: 8, WAITING + SAMPLES: 1}
    yield False, {RUNNING: 1, FED: 9, WAITING + SAMPLES: 9}
    # One sample more, one pixel more, squares, and the most of all.
    yield True, {RUNNING: 1, FED: 12, IN_FORCE + SAMPLES: 3}
    yield False, {RUNNING: 1, FED: 13, IN_FORCE + SAMPLES: 3}
    yield True, {RUNNING: 1, FED: 12, WIDTH: 3}
    yield False, {RUNNING: 1, FED: 13, WIDTH: 3}
    yield True, {RUNNING: 1, FED: 8, BINNED: 1}
    yield False, {RUNNING: 1, FED: 9, BINNED: 1}
    most = {WIDTH: 1024, HEIGHT: 1024, RUNNING: 1, IN_FORCE + SAMPLES: 9}
    yield True, {**most, FED: 9 * 1024**2}
    yield False, {**most, FED: 9 * 1024**2 + 1}


def calls(writer: Writer) -> list[Callable[[], str]]:
    """Every operation on a board, each with what it can be taken with."""
    words = min(writer.player.board.words, MAX_COUNT)
    return [
        lambda: writer.say("covered"),
        lambda: writer.say("update", 0, 0),
        lambda: writer.say("update", 1, 0, 7),
        lambda: writer.say("feed"),
        lambda: writer.say("feed", 500),
        lambda: writer.say("readout", words),
        lambda: writer.say("feed floats", 500),
        lambda: writer.say("readout floats", words),
        lambda: writer.say("drop"),
        lambda: writer.say("start"),
    ]


def lend_sums(writer: Writer, length: int) -> None:
    """Sums and floats of this length, all 128, where they haven't got it."""
    if len(writer.player.sums.entries) != length:
        writer.say("sums", length, 128)
    if len(writer.player.floats.entries) != length:
        writer.say("floats", length, *halves_of(128.0))


def every_call(writer: Writer, numbers: list[int]) -> list[str]:
    """The answers of every operation on one board, which is set anew after a change."""
    writer.say("board", *numbers)
    lend_sums(writer, min(writer.player.board.pixels, MAX_COUNT))
    answers = []
    for call in calls(writer):
        if board_numbers(writer.player.board) != numbers:
            writer.say("board", *numbers)
        answers.append(call())
    return answers


def scene(cases: Callable[[], Iterator[Case]]) -> Callable[[Writer], None]:
    """Every operation on each board of a part."""

    def play(writer: Writer) -> None:
        for _, parts in cases():
            every_call(writer, numbers_of(parts))

    play.__name__ = f"sound_{cases.__name__}"
    return play


PARTS = (sides, waiting_settings, settings_in_force, readings_fed)
SCENES = tuple(scene(cases) for cases in PARTS)


def any_boards(writer: Writer) -> None:
    """Drawn boards, sound or just not, each with a few operations."""
    draws = writer.draws
    for _ in range(draws.between(4, 10)):
        writer.say("board", *draw_board(draws))
        pixels = writer.player.board.pixels
        lend_sums(writer, draws.choose((min(pixels, MAX_COUNT), 4)))
        for _ in range(draws.between(1, 6)):
            draws.choose((*calls(writer), writer.update, writer.ask, lambda: fill(writer)))()


def fill(writer: Writer) -> str:
    """Feed what a ramp still wants, or a little less or more."""
    draws = writer.draws
    count = min(max(writer.player.board.wanted + draws.choose((-1, 0, 0, 0, 1)), 0), MAX_COUNT)
    return writer.say("fill", count, draws.choose((0, 500, 16_383)))
