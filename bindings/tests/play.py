"""Plays a replay script from standard input on one board, through the module ramp_board, and prints what `replay` prints.

docs/REPLAY.md has the scripts and the answers. The script must be well-formed.
"""

from __future__ import annotations

import math
import re
import struct
import sys
from array import array
from pathlib import Path
from typing import Callable, Sequence

sys.path.insert(0, str(Path(__file__).resolve().parent.parent))

from ramp_board import Board, Negative, Ordinary, Refused, Saturated, count_flags, nearest_flag, read_word  # noqa: E402

DEFAULTS = (-4, -3, -2, -1, 0, 1, 2, 3, 4, 13_087, 2, 9)
PER_LINE = 10
NOT_A_NUMBER = (2_146_959_360, 0)


def rows(numbers: Sequence[int]) -> list[str]:
    """Numbers, ten to a line."""
    return [" ".join(map(str, numbers[at : at + PER_LINE])) for at in range(0, len(numbers), PER_LINE)]


def pattern_of(high: int, low: int) -> bytes:
    """The float of this pattern, as it stands in memory."""
    return struct.pack("=Q", high << 32 | low)


def numbers_of(entry: float) -> tuple[int, int]:
    """The pattern of a float in two numbers; all that is no number has one."""
    return NOT_A_NUMBER if math.isnan(entry) else struct.unpack(">II", struct.pack(">d", entry))


def meaning_of(word: int, truncation: int) -> str:
    """What a word means."""
    meaning = read_word(truncation, word)
    if isinstance(meaning, Ordinary):
        return f"{meaning.low:.0f}..{meaning.high:.0f}"
    if isinstance(meaning, Saturated):
        return f"sat {meaning.sample}"
    return "neg" if isinstance(meaning, Negative) else "none"


class Player:
    """A board, two buffers of sums, two of floats, and the words of a frame. Each command is a method that gives the lines it prints, or is refused."""

    def __init__(self) -> None:
        self.board = Board.from_words((0, 0, 0, 0, 0, *DEFAULTS, *DEFAULTS))
        self.sums, self.spare = array("i"), array("i")
        self.floats, self.spare_floats = array("d"), array("d")
        self.words = array("H")

    # The commands after which the board is shown.

    def open(self, width: int, height: int, binned: int) -> None:
        self.board = Board(width, height, binned == 1)

    def set_board(self, *words: int) -> None:
        self.board = Board.from_words(words)

    def update(self, _count: int, *record: int) -> None:
        self.board.update(bytes(record))

    def start(self) -> None:
        self.board.start()

    def feed(self, _count: int, *readings: int) -> None:
        self.board.feed(array("H", readings), self.sums)

    def fill(self, count: int, reading: int) -> None:
        self.board.feed(array("H", [reading]) * count, self.sums)

    def read_out(self, count: int) -> list[str]:
        words = array("H", [0]) * count
        self.board.read_out(self.sums, words)
        self.words = words
        return rows(words)

    def feed_floats(self, _count: int, *readings: int) -> None:
        self.board.feed_floats(array("H", readings), self.floats)

    def fill_floats(self, count: int, reading: int) -> None:
        self.board.feed_floats(array("H", [reading]) * count, self.floats)

    def read_out_floats(self, count: int) -> list[str]:
        words = array("H", [0]) * count
        self.board.read_out_floats(self.floats, words)
        self.words = words
        return rows(words)

    def drop(self) -> None:
        self.board.drop()

    # The others.

    def covered(self) -> list[str]:
        return ["covered" if self.board.covered() else "uncovered"]

    def word(self, word: int, truncation: int) -> list[str]:
        return [meaning_of(word, truncation)]

    def set_sums(self, length: int, entry: int) -> list[str]:
        self.sums = array("i", [entry]) * length
        return ["taken"]

    def poke(self, index: int, entry: int) -> list[str]:
        if index >= len(self.sums):
            return ["outside"]
        self.sums[index] = entry
        return ["taken"]

    def swap(self) -> list[str]:
        self.sums, self.spare = self.spare, self.sums
        return ["taken"]

    def print_sums(self, start: int, count: int) -> list[str]:
        if start + count > len(self.sums):
            return ["outside"]
        return ["taken", *rows(self.sums[start : start + count])]

    def set_floats(self, length: int, high: int, low: int) -> list[str]:
        self.floats = array("d", pattern_of(high, low) * length)
        return ["taken"]

    def poke_floats(self, index: int, high: int, low: int) -> list[str]:
        if index >= len(self.floats):
            return ["outside"]
        memoryview(self.floats).cast("B")[8 * index : 8 * index + 8] = pattern_of(high, low)
        return ["taken"]

    def swap_floats(self) -> list[str]:
        self.floats, self.spare_floats = self.spare_floats, self.floats
        return ["taken"]

    def print_floats(self, start: int, count: int) -> list[str]:
        if start + count > len(self.floats):
            return ["outside"]
        numbers = [number for entry in self.floats[start : start + count] for number in numbers_of(entry)]
        return ["taken", *rows(numbers)]

    def set_words(self, _count: int, *words: int) -> list[str]:
        self.words = array("H", words)
        return ["taken"]

    def nearest(self, width: int, height: int, row: int, column: int) -> list[str]:
        place = nearest_flag(self.words, width, height, row, column)
        return [f"flag {place.row} {place.column}" if place else "no flag"]

    def count(self, width: int, height: int, *corners: int) -> list[str]:
        return [f"flags {count_flags(self.words, width, height, corners[:2], corners[2:])}"]

    def shown(self) -> str:
        """The board on a line."""
        return " ".join(map(str, ("board", *self.board.words)))


CHANGES: dict[str, Callable[..., object]] = {
    "open": Player.open,
    "board": Player.set_board,
    "update": Player.update,
    "start": Player.start,
    "feed": Player.feed,
    "fill": Player.fill,
    "readout": Player.read_out,
    "feed floats": Player.feed_floats,
    "fill floats": Player.fill_floats,
    "readout floats": Player.read_out_floats,
    "drop": Player.drop,
}
OTHERS: dict[str, Callable[..., list[str]]] = {
    "covered": Player.covered,
    "word": Player.word,
    "sums": Player.set_sums,
    "poke": Player.poke,
    "swap": Player.swap,
    "print sums": Player.print_sums,
    "floats": Player.set_floats,
    "poke floats": Player.poke_floats,
    "swap floats": Player.swap_floats,
    "print floats": Player.print_floats,
    "words": Player.set_words,
    "nearest": Player.nearest,
    "count": Player.count,
}


def answers(player: Player, line: str) -> list[str]:
    """What a line that holds a command prints."""
    name, texts = re.fullmatch(r"([a-z]+(?: [a-z]+)?)(.*)", line).groups()
    numbers = map(int, texts.split())
    try:
        given = CHANGES[name](player, *numbers) if name in CHANGES else OTHERS[name](player, *numbers)
    except Refused as refused:
        answer, given = f"refused {refused.number} {refused.place}", []
    else:
        answer = "taken"
    return [answer, player.shown(), *(given or [])] if name in CHANGES else given or [answer]


def main() -> None:
    player = Player()
    for line in sys.stdin.buffer.read().decode("latin-1").split("\n"):
        if line and not line.startswith("#"):
            print(*answers(player, line), sep="\n")


if __name__ == "__main__":
    main()
