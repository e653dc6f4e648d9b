"""The ramp board: settings, sums, words, and the checks of each operation.

The board keeps a ledger: sides, binning, waiting settings, settings in force,
whether a ramp runs, and how many readings were fed in it. Operations answer None when
taken and a Refusal when not; buffers are changed in place, only when taken. Feed and
Read out are those of an engine: of whole numbers here, of floats in floats.py.
"""

from __future__ import annotations

from dataclasses import dataclass
from typing import Callable, Generic, NamedTuple, Optional, Sequence, TypeVar, Union

Entry = TypeVar("Entry", int, float)

MAX_SIDE = 1_024
MAX_READING = 16_383
MAX_PRODUCT = 245_745  # largest weight times largest reading
PEDESTAL = 128
MARK = 1_073_741_824
SATURATED = 32_752
NEGATIVE = 32_767
WORD_RANGE = 32_768


class Refusal(NamedTuple):
    """Why a call is not taken: its number and its place."""

    number: int
    place: int = 0


@dataclass(frozen=True)
class Settings:
    """Nine weights, threshold, truncation r and sample count N; the defaults."""

    weights: tuple[int, ...] = (-4, -3, -2, -1, 0, 1, 2, 3, 4)
    threshold: int = 13_087
    truncation: int = 2
    samples: int = 9

    def in_range(self) -> bool:
        """Every setting within the ranges that an update can give it."""
        return (
            len(self.weights) == 9
            and all(-15 <= weight <= 15 for weight in self.weights)
            and 0 <= self.threshold <= MAX_READING
            and 1 <= self.truncation <= 3
            and 1 <= self.samples <= 9
        )

    def covered(self) -> bool:
        """No unmarked sum reaches a flag word or the end of the word range."""
        positive = sum(w for w in self.weights[: self.samples] if w > 0)
        return PEDESTAL + positive * self.threshold < SATURATED * 2**self.truncation


FIELD_BYTES = (1,) * 9 + (2, 1, 1)  # by map bit: weights, threshold, r, N


def updated(settings: Settings, record: Sequence[int]) -> Union[Settings, Refusal]:
    """The settings with the fields of an update record put in."""
    if len(record) < 2:
        return Refusal(2)
    bit_map = record[0] + 256 * record[1]
    if bit_map >= 1 << 12:
        return Refusal(3)
    bits = [bit for bit in range(12) if bit_map >> bit & 1]
    if len(record) != 2 + sum(FIELD_BYTES[bit] for bit in bits):
        return Refusal(4)
    weights = list(settings.weights)
    threshold, truncation, samples = (
        settings.threshold,
        settings.truncation,
        settings.samples,
    )
    position = 2
    for bit in bits:
        value = record[position]
        if FIELD_BYTES[bit] == 2:
            value += 256 * record[position + 1]
        position += FIELD_BYTES[bit]
        if bit < 9:
            if value > 31:
                return Refusal(5)
            weights[bit] = value if value < 16 else 16 - value
        elif bit == 9:
            if value > MAX_READING:
                return Refusal(6)
            threshold = value
        elif bit == 10:
            if not 1 <= value <= 3:
                return Refusal(7)
            truncation = value
        else:
            if not 1 <= value <= 9:
                return Refusal(8)
            samples = value
    return Settings(tuple(weights), threshold, truncation, samples)


def is_mark(entry: int) -> bool:
    """A saturation mark of one of the samples 1 to 9."""
    return MARK + 1 <= entry <= MARK + 9


def possible(entry: int, k: int) -> bool:
    """Whether k samples can leave this entry."""
    reach = MAX_PRODUCT * k
    in_reach = PEDESTAL - reach <= entry <= PEDESTAL + reach
    return in_reach or MARK + 1 <= entry <= MARK + k


def entry_after(
    entry: int, first: int, samples: Sequence[int], settings: Settings
) -> int:
    """What the samples number `first` and on of one pixel make of its entry."""
    if first > 1 and is_mark(entry):
        return entry
    numbered = list(enumerate(samples, first))
    over = [n for n, reading in numbered if reading > settings.threshold]
    if over:
        return MARK + over[0]
    base = PEDESTAL if first == 1 else entry
    return base + sum(settings.weights[n - 1] * reading for n, reading in numbered)


@dataclass(frozen=True)
class Engine(Generic[Entry]):
    """A way to sum: which entries k samples can leave, and what samples make of one."""

    possible: Callable[[Entry, int], bool]
    entry_after: Callable[[Entry, int, Sequence[int], Settings], Entry]


WHOLE_NUMBERS = Engine(possible, entry_after)


def word_of(entries: Sequence[int], truncation: int) -> int:
    """The word of one pixel's entry, or of the four entries of a square."""
    marked = [entry - MARK for entry in entries if is_mark(entry)]
    if marked:
        return SATURATED + min(marked)
    total = sum(entries)
    if total < 0:
        return NEGATIVE
    return total // (len(entries) * 2**truncation) % WORD_RANGE


def frame_of(
    sums: Sequence[int], width: int, height: int, binned: bool, truncation: int
) -> list[int]:
    """The words of a frame, row by row."""
    if not binned:
        return [word_of([entry], truncation) for entry in sums]
    return [
        word_of(
            [
                sums[row * width + column],
                sums[row * width + column + 1],
                sums[(row + 1) * width + column],
                sums[(row + 1) * width + column + 1],
            ],
            truncation,
        )
        for row in range(0, height, 2)
        for column in range(0, width, 2)
    ]


Meaning = Union[tuple[str], tuple[str, int], tuple[str, float, float]]


def read_word(word: int, truncation: int) -> Union[Meaning, Refusal]:
    """What a word of 0 to 65,535 means with a truncation r."""
    if not 1 <= truncation <= 3:
        return Refusal(7)
    if word < SATURATED:
        step = 2**truncation
        return ("ordinary", float(word * step), float((word + 1) * step))
    if SATURATED + 1 <= word <= SATURATED + 9:
        return ("saturated", word - SATURATED)
    if word == NEGATIVE:
        return ("negative",)
    return ("none",)


def sides_allowed(width: int, height: int, binned: bool) -> bool:
    """Sides that Open takes."""
    in_range = 1 <= width <= MAX_SIDE and 1 <= height <= MAX_SIDE
    even = width % 2 == 0 and height % 2 == 0
    return in_range and (even or not binned)


@dataclass
class Board:
    """The ledger of one board. Board() has sides 0 and is not sound."""

    width: int = 0
    height: int = 0
    binned: bool = False
    waiting: Settings = Settings()
    in_force: Settings = Settings()
    running: bool = False
    fed: int = 0  # readings in the running ramp

    @property
    def pixels(self) -> int:
        """M: the number of pixels."""
        return self.width * self.height

    @property
    def wanted(self) -> int:
        """The number of readings that the ramp still wants."""
        return self.in_force.samples * self.pixels - self.fed

    @property
    def words(self) -> int:
        """The number of words in a frame."""
        return self.pixels // 4 if self.binned else self.pixels

    def sound(self) -> bool:
        """Whether the board's parts are in range and agree."""
        return (
            sides_allowed(self.width, self.height, self.binned)
            and self.waiting.in_range()
            and self.in_force.in_range()
            and self.wanted >= 0
            and (self.running or self.fed == 0)
        )

    def update(self, record: Sequence[int]) -> Optional[Refusal]:
        """Put the record's fields into the waiting settings."""
        if not self.sound():
            return Refusal(99)
        result = updated(self.waiting, record)
        if isinstance(result, Refusal):
            return result
        self.waiting = result
        return None

    def start(self) -> Optional[Refusal]:
        """Put the waiting settings in force and begin a ramp."""
        if not self.sound():
            return Refusal(99)
        if self.running:
            return Refusal(9)
        self.in_force = self.waiting
        self.running = True
        return None

    def samples_for(
        self, pixel: int, readings: Sequence[int]
    ) -> tuple[int, Sequence[int]]:
        """A pixel's samples among readings fed next, and the first one's number."""
        skipped = (pixel - self.fed) % self.pixels
        first = (self.fed + skipped) // self.pixels + 1
        return first, readings[skipped :: self.pixels]

    def feed(self, readings: Sequence[int], sums: list[int]) -> Optional[Refusal]:
        """Feed, with sums in whole numbers."""
        return self.feed_in(WHOLE_NUMBERS, readings, sums)

    def feed_in(
        self, engine: Engine[Entry], readings: Sequence[int], sums: list[Entry]
    ) -> Optional[Refusal]:
        """Bring the next readings of the ramp into the sums of an engine."""
        if not self.sound():
            return Refusal(99)
        if not self.running:
            return Refusal(10)
        if len(sums) != self.pixels:
            return Refusal(11)
        if len(readings) > self.wanted:
            return Refusal(12)
        for index, reading in enumerate(readings):
            if reading > MAX_READING:
                return Refusal(13, index)
        for pixel, entry in enumerate(sums):
            first, samples = self.samples_for(pixel, readings)
            if samples and first > 1 and not engine.possible(entry, first - 1):
                return Refusal(14, pixel)
        for pixel, entry in enumerate(sums):
            first, samples = self.samples_for(pixel, readings)
            if samples:
                sums[pixel] = engine.entry_after(
                    entry, first, samples, self.in_force
                )
        self.fed += len(readings)
        return None

    def read_out(self, sums: Sequence[int], output: list[int]) -> Optional[Refusal]:
        """Read out, of sums in whole numbers."""
        return self.read_out_in(WHOLE_NUMBERS, sums, output)

    def read_out_in(
        self, engine: Engine[Entry], sums: Sequence[Entry], output: list[int]
    ) -> Optional[Refusal]:
        """Write the frame of a full ramp into the output and end the ramp."""
        if not self.sound():
            return Refusal(99)
        if not self.running:
            return Refusal(10)
        if len(sums) != self.pixels:
            return Refusal(11)
        if self.wanted > 0:
            return Refusal(15)
        if len(output) != self.words:
            return Refusal(16)
        for pixel, entry in enumerate(sums):
            if not engine.possible(entry, self.in_force.samples):
                return Refusal(14, pixel)
        whole = [int(entry) for entry in sums]
        output[:] = frame_of(
            whole, self.width, self.height, self.binned, self.in_force.truncation
        )
        self.end_ramp()
        return None

    def drop(self) -> Optional[Refusal]:
        """End the ramp without a frame."""
        if not self.sound():
            return Refusal(99)
        if not self.running:
            return Refusal(10)
        self.end_ramp()
        return None

    def end_ramp(self) -> None:
        """No ramp, no readings; both settings stay."""
        self.running = False
        self.fed = 0

    def covered(self) -> Union[bool, Refusal]:
        """Whether the settings in force are covered."""
        if not self.sound():
            return Refusal(99)
        return self.in_force.covered()


def open_board(width: int, height: int, binned: bool) -> Union[Board, Refusal]:
    """A new board with default settings and no ramp."""
    if not sides_allowed(width, height, binned):
        return Refusal(1)
    return Board(width, height, binned)
