"""Compares lists of calls on a board in a lent buffer with the second program: calls.py LIBRARY SEED COUNT.

LIBRARY is the shared library. Each of COUNT lists opens a board in a buffer of any content and goes on with updates at any time, ramps that are fed
in parts, questions, refused calls, and damaged sums. After each call the answer, its place, the board's buffer and all others must be what the second
program says, and nothing may be written beside a buffer. Prints how many lists agreed; the exit status is 1 if any did not, or if no frame was read out.
"""

from __future__ import annotations

import math
import sys
from collections import Counter
from typing import Optional

# exported.py makes the second program's folder known.
from exported import BEFORE, Exported, difference

from draws import Draws, draw_bad_record, draw_pattern, draw_record
from floats import float_of, pattern_of
from lent_board import WORDS, Call, Left, board_in, made
from make_replay import REFUSED
from ramp import MARK, MAX_PRODUCT, MAX_READING, PEDESTAL, Board

LENGTH = 40  # calls in a list
# What is called in a full ramp, in another one, and where none runs, the more often the more it stands there.
FULL = ("read_out",) * 4 + ("feed", "covered", "update", "drop", "start")
RAMP = ("feed",) * 12 + ("read_out", "covered", "update", "drop", "start", "open")
NO_RAMP = ("start",) * 6 + ("update",) * 3 + ("covered", "feed", "read_out", "drop", "open")


def any_word(draws: Draws) -> int:
    """Any content of a word of 64 bits."""
    return draws.below(2**64) - 2**63


def any_entry(draws: Draws) -> int:
    """Any content of an entry of the sums, most at an edge of what is possible."""
    k = draws.between(1, 9)
    edges = [PEDESTAL + side * (MAX_PRODUCT * k + more) for side in (1, -1) for more in (0, 1)]
    return draws.choose((*edges, MARK, MARK + k, MARK + 10, -1, 2**31 - 1, -(2**31)))


def any_float(draws: Draws) -> int:
    """The pattern of any content of an entry of the sums in floats."""
    return pattern_of(float(any_entry(draws))) if draws.chance(50) else draw_pattern(draws)


class Drawn:
    """A list of calls in the making: what the board's buffer and the sums hold before the next one, those in floats as patterns."""

    def __init__(self, draws: Draws) -> None:
        self.draws = draws
        self.words = [any_word(draws) for _ in range(WORDS)]
        self.sums: list[int] = []
        self.floats: list[int] = []
        self.in_floats = False

    def board(self) -> Optional[Board]:
        """The board in the buffer, if one was opened."""
        board = board_in(self.words)
        return board if isinstance(board, Board) else None

    def call(self) -> Call:
        """The next call."""
        board = self.board()
        if board is None:
            return self.open()
        names = (FULL if board.wanted == 0 else RAMP) if board.running else NO_RAMP
        name = self.draws.choose(names)
        if name == "open":
            return self.open()
        if name == "update":
            return Call(name, (self.record(),))
        if name in ("feed", "read_out"):
            if self.draws.chance(5):
                self.change_engine()
            sums = self.sums_now()
            buffers = (self.readings(board), sums) if name == "feed" else (sums, self.output(board))
            return Call(f"{name}_floats" if self.in_floats else name, buffers)
        return Call(name, ([BEFORE],) if name == "covered" else ())

    def open(self) -> Call:
        """Open, with sides that are refused now and then."""
        draws = self.draws
        width, height, binned = draws.between(1, 5), draws.between(1, 5), draws.chance(50)
        if binned:
            width, height = 2 * width, 2 * height
        if draws.chance(20):
            width, height, binned = draws.choose(REFUSED)
        return Call("open", sides=(width, height, binned == 1))

    def record(self) -> list[int]:
        """A record, good or of each refusal."""
        if self.draws.chance(70):
            return draw_record(self.draws)
        return draw_bad_record(self.draws, self.draws.between(2, 8))

    def readings(self, board: Board) -> list[int]:
        """Readings to feed next, now and then too many or one out of range."""
        draws, wanted = self.draws, max(board.wanted, 0)
        count = draws.choose((0, 1, board.pixels, wanted, draws.below(wanted + 1), draws.below(wanted + 1)))
        count = min(count, wanted) + (draws.between(1, 3) if draws.chance(5) else 0)
        top = draws.choose((10, 1_000, board.in_force.threshold + 1, MAX_READING + 1))
        readings = [draws.below(top) for _ in range(count)]
        if readings and draws.chance(8):
            readings[draws.below(count)] = draws.between(MAX_READING + 1, 65_535)
        return readings

    def sums_now(self) -> list[int]:
        """The sums, now and then damaged or of another length."""
        draws, sums = self.draws, list(self.floats if self.in_floats else self.sums)
        if sums and draws.chance(20):
            for _ in range(draws.between(1, 2)):
                sums[draws.below(len(sums))] = any_float(draws) if self.in_floats else any_entry(draws)
        if draws.chance(5):
            return draws.choose((sums[1:], [*sums, 0], []))
        return sums

    def change_engine(self) -> None:
        """Go on in the other engine, mostly with what the sums in this one are there."""
        if self.draws.chance(70):
            if self.in_floats:
                found = [float_of(pattern) for pattern in self.floats]
                self.sums = [int(entry) if abs(entry) < 2**31 else MARK for entry in found]
            else:
                self.floats = [pattern_of(float(entry)) for entry in self.sums]
        self.in_floats = not self.in_floats

    def output(self, board: Board) -> list[int]:
        """Words to write to, now and then too many or too few."""
        draws = self.draws
        count = board.words + (draws.choose((-1, 1, 4)) if draws.chance(15) else 0)
        return [draws.below(65_536) for _ in range(count)]

    def after(self, call: Call, left: Left) -> None:
        """Go on with what a call left; after a taken Open with sums of any content."""
        self.words = left.words
        if left.number > 0:
            return
        if call.name == "feed":
            self.sums = left.buffers[1]
        if call.name == "feed_floats":
            self.floats = left.buffers[1]
        if call.name == "start":
            self.in_floats = self.draws.chance(50)
        if call.name == "open":
            width, height, _ = call.sides
            self.sums = [any_entry(self.draws) for _ in range(width * height)]
            self.floats = [any_float(self.draws) for _ in range(width * height)]


def agrees(exported: Exported, draws: Draws, seen: Counter[str]) -> bool:
    """Whether a list of calls agrees to its end; counts what was seen."""
    drawn = Drawn(draws)
    for number in range(1, LENGTH + 1):
        call = drawn.call()
        expected, found = made(call, drawn.words), exported.made(call, drawn.words)
        if expected != found:
            print(f"call {number} of a list, {call}: expected {difference(expected, found)}")
            return False
        seen["calls"] += 1
        seen["refused"] += expected.number > 0
        seen["frames"] += (call.name, expected.number) == ("read_out", 0)
        seen["frames of floats"] += (call.name, expected.number) == ("read_out_floats", 0)
        if (call.name, expected.number) == ("feed_floats", 0):
            seen["left alone"] += sum(math.isnan(float_of(pattern)) for pattern in expected.buffers[1])
        drawn.after(call, expected)
    return True


def main() -> int:
    exported, draws, count = Exported(sys.argv[1]), Draws(int(sys.argv[2])), int(sys.argv[3])
    seen: Counter[str] = Counter()
    agreed = sum(agrees(exported, draws, seen) for _ in range(count))
    print(f"{agreed} of {count} lists of calls agree, with {seen['calls']} calls, {seen['refused']} of them refused")
    kinds = ("frames", "frames of floats", "left alone")
    print(f"{seen['frames']} frames were read out and {seen['frames of floats']} of floats, and {seen['left alone']} floats that are no number were left alone")
    if not all(seen[kind] for kind in kinds):
        print("each of these must occur: more lists are needed")
        return True
    return agreed != count


if __name__ == "__main__":
    sys.exit(main())
