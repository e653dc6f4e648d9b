"""Play a script of calls from standard input and print the answers.

The format of scripts and answers is described in docs/REPLAY.md.
"""

from __future__ import annotations

import re
import sys
from dataclasses import dataclass, field
from typing import Callable, Generic, Optional, Sequence, Union

from flags import Place, count_flags, nearest_flag
from floats import FLOATS, float_of_halves, halves_of
from jig import meaning
from ramp import WHOLE_NUMBERS, Board, Engine, Entry, Refusal, Settings, open_board

MAX_SCRIPT = 262_144
MAX_COUNT = 4_096
PER_LINE = 10

Range = tuple[int, int]
COUNT: Range = (0, MAX_COUNT)
U16: Range = (0, 65_535)
BYTE: Range = (0, 255)
INDEX: Range = (0, MAX_COUNT - 1)
I32: Range = (-(2**31), 2**31 - 1)
U32: Range = (0, 2**32 - 1)
ANY: Range = (0, 10**10 - 1)  # all that ten digits can say
FLAG: Range = (0, 1)
SETTINGS: tuple[Range, ...] = (I32,) * 9 + (U16,) * 3

# The ranges of each command's numbers. A name has one word or two.
NUMBERS: dict[str, tuple[Range, ...]] = {
    "open": (U16, U16, FLAG),
    "board": (ANY, ANY, FLAG, FLAG, ANY, *SETTINGS, *SETTINGS),
    "start": (),
    "fill": (COUNT, U16),
    "readout": (COUNT,),
    "drop": (),
    "covered": (),
    "word": (U16, BYTE),
    "sums": (COUNT, I32),
    "poke": (INDEX, I32),
    "swap": (),
    "print sums": (COUNT, COUNT),
    "fill floats": (COUNT, U16),
    "readout floats": (COUNT,),
    "floats": (COUNT, U32, U32),
    "poke floats": (INDEX, U32, U32),
    "swap floats": (),
    "print floats": (COUNT, COUNT),
    "nearest": (ANY,) * 4,
    "count": (ANY,) * 6,
}

# The range of each item in the commands that carry a list.
ITEMS: dict[str, Range] = {"update": BYTE, "feed": U16, "feed floats": U16, "words": U16}

# The commands with the sums, by what they do, and those that do the same with the floats.
WITH_SUMS: dict[str, str] = {
    "feed": "feed floats",
    "fill": "fill floats",
    "readout": "readout floats",
    "sums": "floats",
    "poke": "poke floats",
    "swap": "swap floats",
    "print sums": "print floats",
}
WITH_FLOATS = {name: done for done, name in WITH_SUMS.items()}

BOARD_COMMANDS = ("open", "board", "update", "start", "feed", "fill", "readout", "drop")

Command = tuple[str, list[int]]


def parse_number(text: str, limits: Range) -> Optional[int]:
    """A number of one to ten digits within the limits, or None."""
    if re.fullmatch("-?[0-9]{1,10}", text) is None:
        return None
    return int(text) if limits[0] <= int(text) <= limits[1] else None


def parse_line(line: str) -> Optional[Command]:
    """The command on a line, or None if it is malformed."""
    parts = line.split(" ")
    two_words = " ".join(parts[:2])
    if two_words in NUMBERS or two_words in ITEMS:
        parts[:2] = [two_words]
    name, texts = parts[0], parts[1:]
    if name in ITEMS:
        count = parse_number(texts[0], COUNT) if texts else None
        if count is None or len(texts) != count + 1:
            return None
        texts = texts[1:]
        ranges = (ITEMS[name],) * count
    elif name in NUMBERS and len(texts) == len(NUMBERS[name]):
        ranges = NUMBERS[name]
    else:
        return None
    numbers = []
    for text, limits in zip(texts, ranges):
        number = parse_number(text, limits)
        if number is None:
            return None
        numbers.append(number)
    return name, numbers


def parse_script(data: bytes) -> Union[list[Command], str]:
    """The commands of a script, or the one line that says what is wrong."""
    if len(data) > MAX_SCRIPT:
        return "script too long"
    lines = data.decode("latin-1").split("\n")
    commands = []
    for number, line in enumerate(lines, 1):
        if line == "" or line[0] == "#":
            continue
        command = parse_line(line)
        if command is None:
            return f"malformed line {number}"
        commands.append(command)
    return commands


def rows(numbers: list[int]) -> list[str]:
    """Numbers, ten to a line."""
    return [
        " ".join(map(str, numbers[at : at + PER_LINE]))
        for at in range(0, len(numbers), PER_LINE)
    ]


def settings_numbers(settings: Settings) -> list[int]:
    """Nine weights, threshold, r, N."""
    last = [settings.threshold, settings.truncation, settings.samples]
    return [*settings.weights, *last]


def board_numbers(board: Board) -> list[int]:
    """All that a board is, in the order of its line."""
    numbers = [board.width, board.height, int(board.binned), int(board.running)]
    numbers += [board.fed]
    return numbers + settings_numbers(board.waiting) + settings_numbers(board.in_force)


def settings_of(numbers: list[int]) -> Settings:
    """The settings of nine weights, threshold, r, N."""
    return Settings(tuple(numbers[:9]), *numbers[9:])


def board_of(numbers: list[int]) -> Board:
    """The board of given numbers, sound or not."""
    width, height, binned, running, fed = numbers[:5]
    waiting, in_force = settings_of(numbers[5:17]), settings_of(numbers[17:])
    return Board(width, height, binned == 1, waiting, in_force, running == 1, fed)


def board_line(board: Board) -> str:
    """The whole board on one line."""
    return "board " + " ".join(map(str, board_numbers(board)))


def answer(refusal: Optional[Refusal]) -> str:
    """The line that answers a call."""
    if refusal is None:
        return "taken"
    return f"refused {refusal.number} {refusal.place}"


@dataclass
class Sums(Generic[Entry]):
    """Sums of an engine and spare ones, and the numbers by which a script says an entry."""

    engine: Engine[Entry]
    entry_of: Callable[..., Entry]
    numbers_of: Callable[[Entry], Sequence[int]]
    entries: list[Entry] = field(default_factory=list)
    spare: list[Entry] = field(default_factory=list)

    def handle(self, name: str, numbers: list[int]) -> list[str]:
        """Replace, damage, exchange or print the sums."""
        if name == "sums":
            self.entries = [self.entry_of(*numbers[1:])] * numbers[0]
        elif name == "swap":
            self.entries, self.spare = self.spare, self.entries
        elif name == "poke":
            if numbers[0] >= len(self.entries):
                return ["outside"]
            self.entries[numbers[0]] = self.entry_of(*numbers[1:])
        else:
            end = numbers[0] + numbers[1]
            if end > len(self.entries):
                return ["outside"]
            shown = self.entries[numbers[0] : end]
            return ["taken", *rows([n for entry in shown for n in self.numbers_of(entry)])]
        return ["taken"]


class Player:
    """One board, sums, floats and words, and the commands that act on them."""

    def __init__(self) -> None:
        self.board = Board()
        self.sums = Sums(WHOLE_NUMBERS, int, lambda entry: (entry,))
        self.floats = Sums(FLOATS, float_of_halves, halves_of)
        self.words: list[int] = []

    def play(self, name: str, numbers: list[int]) -> list[str]:
        """Carry out a command and give the lines it prints."""
        if name in WITH_FLOATS:
            return self.do(WITH_FLOATS[name], numbers, self.floats)
        return self.do(name, numbers, self.sums)

    def do(self, name: str, numbers: list[int], sums: Sums[Entry]) -> list[str]:
        """Carry out a command with these sums."""
        if name in BOARD_COMMANDS:
            output = [0] * numbers[0] if name == "readout" else []
            refusal = self.call(name, numbers, sums, output)
            if name == "readout" and refusal is None:
                self.words = output
            shown = rows(output) if refusal is None else []
            return [answer(refusal), board_line(self.board), *shown]
        if name == "covered":
            covered = self.board.covered()
            if isinstance(covered, Refusal):
                return [answer(covered)]
            return ["covered" if covered else "uncovered"]
        if name == "word":
            text = meaning(numbers[0], numbers[1])
            return [answer(text) if isinstance(text, Refusal) else text]
        if name == "words":
            self.words = numbers
            return ["taken"]
        if name in ("nearest", "count"):
            return [self.ask_flags(name, numbers)]
        return sums.handle(name, numbers)

    def call(
        self, name: str, numbers: list[int], sums: Sums[Entry], output: list[int]
    ) -> Optional[Refusal]:
        """Make a call that may change the board."""
        if name == "open":
            result = open_board(numbers[0], numbers[1], numbers[2] == 1)
            if isinstance(result, Refusal):
                return result
            self.board = result
            return None
        if name == "board":
            self.board = board_of(numbers)
            return None
        if name == "update":
            return self.board.update(numbers)
        if name == "start":
            return self.board.start()
        if name == "feed":
            return self.board.feed_in(sums.engine, numbers, sums.entries)
        if name == "fill":
            readings = [numbers[1]] * numbers[0]
            return self.board.feed_in(sums.engine, readings, sums.entries)
        if name == "readout":
            return self.board.read_out_in(sums.engine, sums.entries, output)
        return self.board.drop()

    def ask_flags(self, name: str, numbers: list[int]) -> str:
        """Look for the nearest flag of the words, or count those in a box."""
        width, height, *corners = numbers
        first, last = Place(*corners[:2]), Place(*corners[-2:])
        if name == "nearest":
            found = nearest_flag(self.words, width, height, first)
            if isinstance(found, Place):
                return f"flag {found.row} {found.column}"
            return "no flag" if found is None else answer(found)
        flags = count_flags(self.words, width, height, first, last)
        return answer(flags) if isinstance(flags, Refusal) else f"flags {flags}"


def run(data: bytes) -> str:
    """The whole output for a script."""
    commands = parse_script(data)
    if isinstance(commands, str):
        return commands + "\n"
    player = Player()
    lines = [line for command in commands for line in player.play(*command)]
    return "".join(line + "\n" for line in lines)


if __name__ == "__main__":
    sys.stdout.write(run(sys.stdin.buffer.read()))
