"""Damages boards in their lent buffers: boards.py LIBRARY SEED.

LIBRARY is the shared library. Boards of several kinds (fresh, in a ramp, fed in part, full, of squares, with odd settings) have every single one of
their words changed to 0, to all ones, to a random one and to others near it; others have any words at all, or another number of them. Every operation
is then made on each of them, with buffers that a sound board takes and others. Answer, place, board and buffers must be what the second program says,
and nothing may be written beside a buffer. Prints how many agreed; the exit status is 1 if any did not, or if no board was sound or all were.
"""

from __future__ import annotations

import sys
from typing import Iterator, NamedTuple

# exported.py makes the second program's folder known.
from exported import Exported, difference

from draws import NOT_NUMBERS, Draws, draw_board, encode_record
from floats import pattern_of
from lent_board import PARTS, WORDS, Call, board_in, made
from ramp import MARK, Board
from replay import board_numbers

SHOWN = 20  # of the cases that differ
MOST_PIXELS = 64  # of a board that is lent sums of its length
LARGEST, SMALLEST = 2**63 - 1, -(2**63)


class Damaged(NamedTuple):
    """A buffer, and what was done to it."""

    what: str
    words: list[int]


def in_ramp(width: int, height: int, binned: bool, record: list[int], fed: int) -> list[int]:
    """The words of a board in a ramp under a record, with so many readings fed."""
    board = Board(width, height, binned)
    assert board.update(record) is None and board.start() is None
    board.fed = fed
    assert board.sound()
    return board_numbers(board)


def kinds() -> Iterator[Damaged]:
    """A board of each kind."""
    two_samples = encode_record({0: 1, 1: 17, 11: 2})
    edges = encode_record({**{bit: 15 + 16 * (bit % 2) for bit in range(9)}, 9: 0, 10: 3, 11: 1})
    other_edges = encode_record({9: 16_383, 10: 1, 11: 9})
    yield Damaged("fresh", board_numbers(Board(2, 1)))
    yield Damaged("fresh, of squares", board_numbers(Board(4, 2, True)))
    yield Damaged("in a ramp", in_ramp(2, 1, False, two_samples, 0))
    yield Damaged("fed in part", in_ramp(3, 1, False, two_samples, 4))
    yield Damaged("fed in part, of squares", in_ramp(2, 2, True, two_samples, 3))
    yield Damaged("full", in_ramp(2, 1, False, two_samples, 4))
    yield Damaged("full, of squares", in_ramp(2, 2, True, two_samples, 8))
    yield Damaged("with settings at the edges", in_ramp(1, 1, False, edges, 1))
    waiting = Board(1, 2)
    assert waiting.update(other_edges) is None and waiting.start() is None and waiting.update(edges) is None
    yield Damaged("with other settings waiting", board_numbers(waiting))
    yield Damaged("of the largest sides", in_ramp(1_024, 1_024, True, other_edges, 9 * 1_024**2))


def other_words(word: int, draws: Draws) -> set[int]:
    """What a word is changed to: 0, all ones, any word, the words next to it, and words that differ from it in one bit or in their upper bits alone."""
    any_word = draws.below(2**64) - 2**63
    near = {word - 1, word + 1, word + 2**8, word + 2**16, word + 2**31, word + 2**32, word - 2**32, word ^ SMALLEST, -word}
    return {0, -1, 1, 2, any_word, 2**31, 2**32, LARGEST, SMALLEST, *near} - {word, 2**63}


def damaged(draws: Draws) -> Iterator[Damaged]:
    """Every damaged buffer, and each board as it was."""
    for what, words in kinds():
        yield Damaged(what, words)
        for at, word in enumerate(words):
            for other in sorted(other_words(word, draws)):
                yield Damaged(f"{what}, word {at} changed from {word} to {other}", [*words[:at], other, *words[at + 1 :]])
        for length in (0, 1, WORDS - 1, WORDS + 1, 2 * WORDS):
            yield Damaged(f"{what}, {length} words", (words * 2)[:length])
        for at in range(WORDS - 1):
            yield Damaged(f"{what}, words {at} and {at + 1} exchanged", [*words[:at], words[at + 1], words[at], *words[at + 2 :]])
    for word in (0, -1, 1, LARGEST, SMALLEST):
        yield Damaged(f"every word {word}", [word] * WORDS)
    for number in range(100):
        yield Damaged(f"any words, {number}", [draws.below(2**64) - 2**63 for _ in range(WORDS)])
        yield Damaged(f"a drawn board, {number}", draw_board(draws))
        yield Damaged(f"any words that the parts hold, {number}", [low + draws.below(high - low + 1) for low, high in PARTS])


def calls(words: list[int]) -> Iterator[Call]:
    """Every operation, with what a sound board takes and with what it refuses."""
    for sides in ((3, 2, False), (2, 2, True), (1_024, 1_024, True), (0, 1, False), (3, 2, True), (2**32 + 2, 2, False)):
        yield Call("open", sides=sides)
    for record in ([0, 0], [255, 15, *range(9), 1, 2, 3, 4], [], [1, 0, 32], [0, 8, 10]):
        yield Call("update", (record,))
    yield Call("start")
    yield Call("drop")
    yield Call("covered", ([77],))
    board = board_in(words)
    pixels, fed, words_out, wanted = 2, 0, 2, 1
    if isinstance(board, Board) and 0 < board.pixels <= MOST_PIXELS:
        pixels, fed, words_out, wanted = board.pixels, board.fed % board.pixels, board.words, min(max(board.wanted, 0), 9 * MOST_PIXELS)
    sums, output = [100 + pixel for pixel in range(pixels)], [7] * words_out
    impossible = [*sums[:fed], MARK, *sums[fed + 1 :]]
    for readings in ([], [500], [16_384], [500] * wanted, [500] * (wanted + 1)):
        yield Call("feed", (readings, sums))
    yield Call("feed", ([500], impossible))
    yield Call("feed", ([500], [*sums, 1]))
    for out in (output, [*output, 7], []):
        yield Call("read_out", (sums, out))
    yield Call("read_out", (impossible, output))
    yield Call("read_out", (sums[1:], output))
    floats = [pattern_of(float(entry)) for entry in sums]
    no_numbers = [*floats[:fed], NOT_NUMBERS[3], *floats[fed + 1 :]]
    for readings in ([], [500], [500] * wanted):
        yield Call("feed_floats", (readings, floats))
    yield Call("feed_floats", ([500], no_numbers))
    yield Call("feed_floats", ([500], [*floats, 1]))
    yield Call("read_out_floats", (floats, output))
    yield Call("read_out_floats", (no_numbers, output))
    yield Call("read_out_floats", (floats[1:], output))


def main() -> int:
    exported, draws = Exported(sys.argv[1]), Draws(int(sys.argv[2]))
    tried = wrong = boards = sound = 0
    for what, words in damaged(draws):
        boards += 1
        sound += made(Call("covered", ([77],)), words).number == 0
        for call in calls(words):
            tried += 1
            expected, found = made(call, words), exported.made(call, words)
            if expected != found:
                wrong += 1
                if wrong <= SHOWN:
                    print(f"a board {what}: {call}: expected {difference(expected, found)}")
    print(f"{tried - wrong} of {tried} calls on {boards} buffers agree, {sound} of them sound boards")
    if sound in (0, boards):
        print("there must be sound boards, and others")
        return True
    return wrong > 0


if __name__ == "__main__":
    sys.exit(main())
