"""A board in a lent buffer of 29 signed words of 64 bits, and the operations on it.

The words are the numbers of a board's line, in its order. A buffer holds a board if it has 29 words, each is one that its part can have, and the
board of these parts is sound. Every operation but Open is refused with 99 by any other buffer, Open only by one of another length.
"""

from __future__ import annotations

import math
from typing import Callable, NamedTuple, Optional, Union

import floats
from floats import float_of, pattern_of
from ramp import Board, Refusal, open_board
from replay import FLAG, SETTINGS, Range, board_numbers, board_of

COUNT: Range = (0, 2**63 - 1)
PARTS: tuple[Range, ...] = (COUNT, COUNT, FLAG, FLAG, COUNT, *SETTINGS, *SETTINGS)
WORDS = len(PARTS)


class Call(NamedTuple):
    """An operation and what it brings: the sides and the binning of Open; the buffers of the others, with what they hold.

    The buffer of Covered is one byte, which gets 1 or 0. Sums in floats are the patterns of their bits.
    """

    name: str
    buffers: tuple[list[int], ...] = ()
    sides: tuple[int, int, bool] = (0, 0, False)


class Left(NamedTuple):
    """The number and the place of an answer, 0 and 0 if taken, and what the board's buffer and the others hold after the call."""

    number: int
    place: int
    words: list[int]
    buffers: list[list[int]]


def board_in(words: list[int]) -> Union[Board, Refusal]:
    """The board that a buffer holds, sound or not; refused if no board has these words."""
    if len(words) != WORDS or not all(low <= word <= high for word, (low, high) in zip(words, PARTS)):
        return Refusal(99)
    return board_of(words)


def covered(board: Board, answer: list[int]) -> Optional[Refusal]:
    """Covered, with the answer in a buffer."""
    found = board.covered()
    if isinstance(found, Refusal):
        return found
    answer[0] = int(found)
    return None


def feed_floats(board: Board, readings: list[int], patterns: list[int]) -> Optional[Refusal]:
    """Feed in floats. What it writes is a number: an entry that is none was left alone, with all its bits."""
    sums = [float_of(pattern) for pattern in patterns]
    refusal = floats.feed(board, readings, sums)
    patterns[:] = [pattern if math.isnan(entry) else pattern_of(entry) for pattern, entry in zip(patterns, sums)]
    return refusal


def read_out_floats(board: Board, patterns: list[int], output: list[int]) -> Optional[Refusal]:
    """Read out in floats."""
    return floats.read_out(board, [float_of(pattern) for pattern in patterns], output)


def opened(_board: Board) -> None:
    """Nothing is done to a board that was just opened."""


OPERATIONS: dict[str, Callable[..., Optional[Refusal]]] = {
    "open": opened,
    "update": Board.update,
    "start": Board.start,
    "feed": Board.feed,
    "read_out": Board.read_out,
    "feed_floats": feed_floats,
    "read_out_floats": read_out_floats,
    "drop": Board.drop,
    "covered": covered,
}


def made(call: Call, words: list[int]) -> Left:
    """What a call on a buffer leaves."""
    buffers = [list(buffer) for buffer in call.buffers]
    opens = call.name == "open" and len(words) == WORDS
    board = open_board(*call.sides) if opens else board_in(words)
    refusal = board if isinstance(board, Refusal) else OPERATIONS[call.name](board, *buffers)
    if refusal:
        return Left(*refusal, list(words), buffers)
    return Left(0, 0, board_numbers(board), buffers)
