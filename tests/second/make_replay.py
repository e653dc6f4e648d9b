"""Replay scripts and the outputs they must give."""

from __future__ import annotations

from typing import Callable, Sequence, Union

import float_scenes
import replay
import sound_boards
from draw_flags import (
    DENSITIES,
    FAR,
    FLAGS,
    NEAR_FLAGS,
    crossed,
    draw_box,
    draw_place,
    draw_ring,
    draw_sides,
    draw_words,
    outside,
    wrong_sides,
    wrong_words,
)
from draws import (
    EDGE_FIELDS,
    Draws,
    draw_bad_float,
    draw_bad_record,
    draw_edge_ramp,
    draw_not_a_number,
    draw_pattern,
    draw_pixel,
    draw_ramp,
    draw_record,
    encode_record,
)
from floats import HALF, float_of
from ramp import MARK, MAX_PRODUCT, PEDESTAL

SMALL = ((1, 1), (2, 1), (1, 2), (2, 2), (3, 2), (4, 2), (5, 3), (4, 4), (6, 4))
LARGE = ((64, 48), (64, 64), (48, 64), (1024, 4), (2, 1024), (1, 1024), (32, 32))
REFUSED = (
    (0, 1, 0),
    (1, 0, 0),
    (1025, 1, 0),
    (1, 1025, 0),
    (65535, 65535, 0),
    (0, 0, 1),
    (3, 2, 1),
    (2, 3, 1),
    (1026, 2, 1),
    (1023, 1024, 1),
)
WORDS = (0, 1, 32, 32_751, 32_752, 32_753, 32_754, 32_761, 32_762, 32_766)
HIGH_WORDS = (32_767, 32_768, 32_769, 65_519, 65_535)


class Writer:
    """A script in the making, played along to know its board, sums and words."""

    def __init__(self, draws: Draws) -> None:
        self.draws = draws
        self.player = replay.Player()
        self.lines: list[str] = []
        self.sides = (0, 0)  # of the frame that the words are
        self.both = False  # each ramp is summed in one engine or the other
        self.in_floats = False  # the sums in use are the floats

    def say(self, name: str, *numbers: int) -> str:
        """Add a command; its first answer line."""
        values = list(numbers)
        if name in replay.ITEMS:
            shown = [len(values), *values]
        else:
            shown = values
        self.lines.append(" ".join([name, *map(str, shown)]))
        answer = self.player.play(name, values)[0]
        if name in ("readout", "readout floats") and answer == "taken":
            board = self.player.board
            step = 2 if board.binned else 1
            self.sides = board.width // step, board.height // step
        return answer

    # The commands with the sums in use.

    @property
    def sums(self) -> replay.Sums:
        """The sums in use."""
        return self.player.floats if self.in_floats else self.player.sums

    def with_sums(self, name: str, *numbers: int) -> str:
        """Add a command that does this with the sums in use."""
        return self.say(replay.WITH_SUMS[name] if self.in_floats else name, *numbers)

    def set_sums(self, length: int, entry: Union[int, float]) -> str:
        """New sums in use, all of this entry."""
        return self.with_sums("sums", length, *self.numbers_of(entry))

    def poke(self, index: int, entry: Union[int, float]) -> str:
        """One entry of the sums in use."""
        return self.with_sums("poke", index, *self.numbers_of(entry))

    def numbers_of(self, entry: Union[int, float]) -> Sequence[int]:
        """The numbers of an entry; one that is no number is said by any of its patterns."""
        if entry != entry:
            return divmod(draw_not_a_number(self.draws), HALF)
        return self.sums.numbers_of(entry)

    def bytes(self) -> bytes:
        """The script."""
        return "".join(line + "\n" for line in self.lines).encode("ascii")

    # The commands that change nothing on a board.

    def ask(self) -> None:
        """Covered, a word, a look at the sums or at the flags."""
        draws = self.draws
        kind = draws.below(4)
        if kind == 0:
            self.say("covered")
        elif kind == 1:
            word = draws.choose((*WORDS, *HIGH_WORDS, draws.below(65_536)))
            self.say("word", word, draws.choose((0, 1, 2, 2, 3, 3, 4, 255)))
        elif kind == 2:
            self.ask_flags()
        else:
            length = len(self.sums.entries)
            start = draws.below(length + 1)
            count = draws.between(0, min(length - start + 1, 12))
            self.with_sums("print sums", start, count)

    def words(self, width: int, height: int, words: list[int]) -> None:
        """The words of a frame."""
        self.say("words", *words)
        self.sides = width, height

    def ask_flags(self) -> None:
        """The nearest flag and the flags in a box, of the frame that is there."""
        draws, sides = self.draws, self.sides
        if 0 in sides:
            # There is none yet; what comes next must leave the one that now comes.
            self.say("nearest", *sides, 0, 0)
            self.say("count", *sides, 0, 0, 0, 0)
            sides = draw_sides(draws)
            self.words(*sides, draw_words(draws, sides[0] * sides[1], 20))
        self.say("nearest", *sides, *draw_place(draws, *sides))
        self.say("count", *sides, *draw_box(draws, *sides))

    def update(self) -> None:
        """An update, good or of each refusal."""
        if self.draws.chance(60):
            self.say("update", *draw_record(self.draws))
        else:
            number = self.draws.between(2, 8)
            self.say("update", *draw_bad_record(self.draws, number))

    def open(self, width: int, height: int, binned: int) -> None:
        """A new board with sums of its length, of any content."""
        self.say("open", width, height, binned)
        self.set_sums(width * height, self.any_entry())

    def any_entry(self) -> Union[int, float]:
        """Any content of an entry, old marks included."""
        draws = self.draws
        if self.in_floats and draws.chance(50):
            return float_of(draw_pattern(draws))
        entry = draws.choose((0, -1, MARK, MARK + 3, 2**31 - 1, -(2**31), 128))
        return self.entry(entry)

    def entry(self, number: int) -> Union[int, float]:
        """The entry that a whole number is in the sums in use."""
        return float(number) if self.in_floats else number

    def bad_entry(self, k: int) -> Union[int, float]:
        """An entry that k samples cannot leave."""
        if self.in_floats and self.draws.chance(70):
            return draw_bad_float(self.draws)
        top, bottom = PEDESTAL + MAX_PRODUCT * k, PEDESTAL - MAX_PRODUCT * k
        marks = (MARK, MARK + k + 1, MARK + 10, MARK - 1, -MARK - 1)
        ends = (top + 1, bottom - 1, 2**31 - 1, -(2**31))
        return self.entry(self.draws.choose(marks + ends))

    def edge_entry(self, k: int) -> Union[int, float]:
        """An entry that k samples may leave, most at an edge."""
        top, bottom = PEDESTAL + MAX_PRODUCT * k, PEDESTAL - MAX_PRODUCT * k
        return self.entry(self.draws.choose((top, bottom, MARK + 1, MARK + k, 0, -1)))

    # The ramp.

    def readings(self, count: int) -> list[int]:
        """Readings to feed next, none of them bad."""
        threshold = self.player.board.in_force.threshold
        return [draw_pixel(self.draws, 1, threshold)[0] for _ in range(count)]

    def cut(self, limit: int) -> int:
        """How many readings to feed next: any number that the ramp still takes."""
        draws, board = self.draws, self.player.board
        to_end = board.pixels - board.fed % board.pixels
        most = min(board.wanted, limit)
        sizes = (0, 1, to_end, to_end + 1, board.pixels, draws.below(most + 1))
        return min(draws.choose(sizes + sizes[1:]), most)

    def feed(self, count: int) -> str:
        """Feed this many readings; long ones are mostly filled."""
        draws, board = self.draws, self.player.board
        if count > 64 and draws.chance(90) or draws.chance(5):
            high = board.in_force.threshold
            value = draws.choose((high, min(high + 1, 16_383), draws.below(high + 1)))
            return self.with_sums("fill", count, value)
        return self.with_sums("feed", *self.readings(count))

    def damaged(
        self, call: Callable[[], str], entries: dict[int, Union[int, float]]
    ) -> None:
        """Damage entries, call, and mend them if they were not rewritten."""
        sums = self.sums
        before = {index: sums.entries[index] for index in entries}
        for index, value in entries.items():
            self.poke(index, value)
        call()
        for index, value in before.items():
            now = sums.entries[index]
            if sums.numbers_of(now) == sums.numbers_of(entries[index]):
                self.poke(index, value)

    def refused_in_ramp(self) -> None:
        """A call that a running ramp refuses, or that comes near to it."""
        draws, board = self.draws, self.player.board
        if self.both and draws.chance(20):
            self.other_engine()
            return
        kind = draws.below(10)
        if kind == 0:
            self.say("start")
        elif kind == 1:
            self.wrong_length()
        elif kind == 2 and board.wanted + 3 <= replay.MAX_COUNT:
            value = draws.choose((5, 5, 16_384))
            self.with_sums("fill", board.wanted + draws.between(1, 3), value)
        elif kind == 3 and board.wanted > 0:
            self.bad_reading()
        elif kind == 4 and board.wanted > 0:
            words = board.words + draws.choose((0, 0, 1))
            self.with_sums("readout", min(words, replay.MAX_COUNT))
        elif kind == 5:
            self.untouched_damage()
        elif kind == 6:
            self.other_sums()
        elif board.wanted > 0:
            self.touched_damage()

    def wrong_length(self) -> None:
        """Sums of another length, with a feed or a read out, then the right ones."""
        draws, board = self.draws, self.player.board
        length = draws.choose((0, board.pixels + 1, board.pixels - 1))
        self.with_sums("swap")
        self.set_sums(min(length, replay.MAX_COUNT), self.any_entry())
        if draws.chance(50):
            count = min(draws.choose((0, 1, board.wanted + 1)), replay.MAX_COUNT)
            self.with_sums("fill", count, draws.choose((9, 16_384)))
        else:
            self.with_sums("readout", draws.choose((board.words, 0)))
        self.with_sums("swap")

    def other_sums(self) -> None:
        """Sums of the right length that this ramp did not write."""
        draws, board = self.draws, self.player.board
        self.with_sums("swap")
        values = [self.entry(PEDESTAL), self.entry(MARK + 1)]
        values += [self.edge_entry(1), self.any_entry()]
        self.set_sums(board.pixels, draws.choose(values))
        refused = self.feed(self.cut(replay.MAX_COUNT)) != "taken"
        if refused or draws.chance(50):
            self.with_sums("swap")

    def other_engine(self) -> None:
        """A call with the sums of the other engine, in which the ramp goes on or not."""
        draws, board = self.draws, self.player.board
        before = self.sums.entries
        self.in_floats = not self.in_floats
        if len(self.sums.entries) != board.pixels or draws.chance(20):
            self.set_sums(board.pixels, self.any_entry())
        for index in range(min(board.pixels, 16)):
            # What the other engine has there, if this one can have it.
            if draws.chance(70) and abs(before[index]) < 2**31:
                self.poke(index, self.entry(int(before[index])))
        if draws.chance(70):
            self.feed(self.cut(replay.MAX_COUNT))
        else:
            self.with_sums("readout", min(board.words, replay.MAX_COUNT))
        if draws.chance(50):
            self.in_floats = not self.in_floats

    def bad_reading(self) -> None:
        """One or more readings above 16,383, at any place."""
        draws = self.draws
        count = min(draws.between(1, self.player.board.wanted), 40)
        readings = self.readings(count)
        for _ in range(draws.between(1, 3)):
            readings[draws.below(count)] = draws.choose((16_384, 32_768, 65_535))
        self.with_sums("feed", *readings)

    def untouched_damage(self) -> None:
        """Damage an entry that the next feed brings nothing for."""
        draws, board = self.draws, self.player.board
        count = min(draws.below(4), board.wanted, board.pixels - 1)
        index = (board.fed + count) % board.pixels
        entries = {index: self.bad_entry(9)}
        self.damaged(lambda: self.feed(count), entries)

    def touched_damage(self) -> None:
        """Damage entries that the next feed brings readings for."""
        draws, board = self.draws, self.player.board
        pixels = board.pixels
        count = min(max(self.cut(replay.MAX_COUNT), 1), board.wanted)
        if draws.chance(60):
            count = min(board.wanted, pixels, replay.MAX_COUNT)
        value = self.edge_entry if draws.chance(30) else self.bad_entry
        entries = {}
        for _ in range(draws.between(1, 3)):
            index = (board.fed + draws.below(min(count, pixels))) % pixels
            written = board.fed // pixels + (index < board.fed % pixels)
            entries[index] = value(written if written else 1)
        if draws.chance(15):
            self.damaged(lambda: self.with_sums("fill", count, 16_384), entries)
        else:
            self.damaged(lambda: self.feed(count), entries)

    def finish(self) -> None:
        """Read out a full ramp, with the calls that it refuses before."""
        draws, board = self.draws, self.player.board
        samples = board.in_force.samples
        for _ in range(draws.below(4)):
            kind = draws.below(4)
            index = draws.below(board.pixels)
            wrong = min(board.words + 1, replay.MAX_COUNT - 1)
            words = draws.choose((0, wrong, board.words - 1))
            if kind == 0:
                self.with_sums("readout", words)
            elif kind == 1:
                entries = {index: self.bad_entry(samples)}
                other = draws.below(board.pixels)
                entries[other] = self.bad_entry(samples)
                size = draws.choose((board.words, board.words, words))
                self.damaged(lambda: self.with_sums("readout", size), entries)
            elif kind == 2:
                self.poke(index, self.edge_entry(samples))
            else:
                self.wrong_length()
        # Whatever damage is left must be possible, so that the frame is read out.
        for index, entry in enumerate(list(self.sums.entries)):
            if not self.sums.engine.possible(entry, samples):
                self.poke(index, self.entry(0))
        if draws.chance(40):
            self.with_sums("feed")
        self.with_sums("readout", board.words)
        for _ in range(draws.below(3)):
            self.ask_flags()
        if draws.chance(50):
            self.with_sums("print sums", 0, min(board.pixels, 20))

    def outside_ramp(self) -> None:
        """A call that needs a ramp when there is none, with good sums or others."""
        name = self.draws.choose(("feed", "fill", "readout", "drop"))
        say = self.say if name == "drop" else self.with_sums
        words = min(self.player.board.words, replay.MAX_COUNT)
        numbers = {"fill": (1, 16_384), "readout": (words,)}
        if self.draws.chance(50):
            say(name, *numbers.get(name, ()))
        else:
            self.with_sums("swap")
            self.set_sums(0, self.entry(0))
            say(name, *numbers.get(name, ()))
            self.with_sums("swap")

    def choose_engine(self) -> None:
        """Sum in one engine or the other, with sums of the board's length."""
        self.in_floats = self.draws.chance(50)
        pixels = self.player.board.pixels
        if len(self.sums.entries) != pixels:
            self.set_sums(pixels, self.any_entry())

    def ramp(self, trouble: int) -> None:
        """A ramp from start to read out or drop; trouble is a percentage."""
        draws = self.draws
        if draws.chance(50):
            self.update()
        if draws.chance(trouble):
            self.outside_ramp()
        self.say("start")
        board = self.player.board
        if self.both:
            self.choose_engine()
        dropped = draws.chance(15)
        while board.wanted > 0:
            if draws.chance(trouble):
                self.update()
            if draws.chance(trouble):
                self.ask()
            if draws.chance(trouble):
                self.refused_in_ramp()
            if dropped and draws.chance(20):
                break
            if self.feed(self.cut(replay.MAX_COUNT)) != "taken":
                self.set_sums(board.pixels, self.entry(PEDESTAL))
        if dropped:
            self.say("drop")
        else:
            self.finish()
        if draws.chance(trouble):
            self.ask()


def before_open(writer: Writer) -> None:
    """Every call before a board is there, then refused opens."""
    draws = writer.draws
    writer.say("update", *draw_record(draws))
    writer.say("update")
    for name in ("start", "feed", "feed floats", "drop", "covered"):
        writer.say(name)
    for fill in ("fill", "fill floats"):
        writer.say(fill, 1, 16_384)
    for read_out in ("readout", "readout floats"):
        writer.say(read_out, draws.below(2))
    writer.say("word", draws.choose(WORDS), 2)
    writer.say("poke", 0, 5)
    writer.say("poke floats", 0, 0, 5)
    writer.say("swap")
    writer.say("swap floats")
    writer.say("nearest", *draw_sides(draws), 0, 0)
    writer.say("count", *draw_sides(draws), 0, 0, 0, 0)
    writer.ask_flags()
    for _ in range(3):
        writer.say("open", *draws.choose(REFUSED))
    writer.say("covered")
    small_board(writer)


def two_intervals(writer: Writer) -> None:
    """Damage on both sides of where a ramp stands, with feeds across the end."""
    draws, board = writer.draws, writer.player.board
    pixels, samples = board.pixels, draws.between(2, 9)
    writer.say("update", *encode_record({11: samples}))
    writer.say("start")
    whole, part = draws.between(0, samples - 2), draws.between(1, pixels - 1)
    while board.fed < whole * pixels:
        writer.with_sums("feed", *writer.readings(pixels))
    writer.with_sums("feed", *writer.readings(part))
    low, high = draws.below(part), draws.between(part, pixels - 1)
    reach = pixels - part + low + 1  # the shortest feed that reaches the low entry
    count = draws.between(reach, pixels)
    low_bad, high_bad = writer.bad_entry(whole + 1), writer.bad_entry(max(whole, 1))
    both = {high: high_bad, low: low_bad}
    writer.damaged(lambda: writer.feed(count), both)
    writer.damaged(lambda: writer.feed(count), {low: low_bad})
    writer.damaged(lambda: writer.feed(reach - 1), {low: low_bad})
    writer.damaged(lambda: writer.feed(1), {high: high_bad})
    writer.with_sums("print sums", 0, pixels)
    writer.say("drop")


def small_board(writer: Writer) -> None:
    """A few small boards, each with several ramps and much trouble."""
    draws = writer.draws
    for _ in range(draws.between(1, 2)):
        width, height = draws.choose(SMALL)
        binned = int(width % 2 == 0 and height % 2 == 0 and draws.chance(60))
        writer.open(width, height, binned)
        for _ in range(draws.between(1, 4)):
            writer.ramp(30)
        if width * height > 1 and draws.chance(60):
            two_intervals(writer)
        if draws.chance(30):
            writer.say("start")
            writer.with_sums("feed", *writer.readings(min(1, writer.player.board.wanted)))
        if draws.chance(50):
            writer.say("open", *draws.choose(REFUSED))
            writer.say("start")


def middle_board(writer: Writer) -> None:
    """One board of a middle size with whole drawn ramps."""
    draws = writer.draws
    width, height = draws.between(1, 12), draws.between(1, 12)
    binned = int(draws.chance(60))
    if binned:
        width, height = width + width % 2, height + height % 2
    writer.open(width, height, binned)
    for edge in (False, True):
        r = draws.between(1, 3)
        if edge:
            fields = {**EDGE_FIELDS, 9: 16_383, 10: r}
            writer.say("update", *encode_record(fields))
            ramp = draw_edge_ramp(draws, width, height, r)
        else:
            writer.update()
        writer.say("start")
        board = writer.player.board
        now = board.in_force
        if not edge:
            ramp = draw_ramp(draws, board.pixels, now.samples, now.threshold)
        while board.wanted > 0:
            if draws.chance(15):
                writer.refused_in_ramp()
            if draws.chance(15):
                writer.update()
            readings = ramp[board.fed : board.fed + writer.cut(board.wanted)]
            if writer.with_sums("feed", *readings) != "taken":
                writer.set_sums(board.pixels, writer.entry(PEDESTAL))
        writer.finish()


def large_board(writer: Writer) -> None:
    """One large board."""
    draws = writer.draws
    width, height = draws.choose(LARGE)
    binned = int(width % 2 == 0 and height % 2 == 0 and draws.chance(60))
    writer.open(width, height, binned)
    writer.say("update", *encode_record({11: draws.between(1, 4)}))
    writer.ramp(15)
    # Too large for any sums here: a feed of it is refused.
    writer.say("open", 1024, 1024, draws.below(2))
    writer.say("start")
    writer.with_sums("fill", draws.below(2), 1)
    writer.with_sums("readout", 1)
    writer.say("drop")


def both_engines(writer: Writer) -> None:
    """Small boards, each ramp summed in whole numbers or in floats, or in both by turns."""
    writer.both = True
    small_board(writer)


def middle_board_in_floats(writer: Writer) -> None:
    """One board of a middle size, summed in floats."""
    writer.in_floats = True
    middle_board(writer)


def large_board_in_floats(writer: Writer) -> None:
    """One large board, summed in floats."""
    writer.in_floats = True
    large_board(writer)


def many_words(writer: Writer) -> None:
    """The meaning of words, and what is covered."""
    draws = writer.draws
    for word in (*WORDS, *HIGH_WORDS):
        writer.say("word", word, draws.between(1, 3))
    for truncation in (0, 4, 255):
        writer.say("word", draws.choose(WORDS), truncation)
    writer.open(1, 1, 0)
    writer.say("covered")
    for threshold in (13_088, 13_087, draws.below(16_384)):
        writer.say("update", *encode_record({9: threshold}))
        writer.say("covered")
        writer.say("start")
        writer.say("covered")
        writer.say("drop")
        writer.update()
        writer.say("start")
        writer.say("covered")
        writer.say("drop")


def many_flags(writer: Writer) -> None:
    """The flags of small frames, and every refusal of both questions."""
    draws = writer.draws
    for word in (draws.choose(FLAGS), draws.choose(NEAR_FLAGS)):
        writer.words(1, 1, [word])
        writer.ask_flags()
    # The same numbers written otherwise.
    writer.lines.append("nearest 0000000001 01 -0 00")
    writer.lines.append("count 1 001 -00 0 -0000000000 0000000000")
    tied_flags(writer)
    row, column = (draws.between(2, 12), 1), (1, draws.between(2, 12))
    turn = draws.below(4)
    for at, sides in enumerate((draw_sides(draws), row, column, draw_sides(draws))):
        percent = (0, 10, 100, draws.choose(DENSITIES))[(at + turn) % 4]
        writer.words(*sides, draw_words(draws, sides[0] * sides[1], percent))
        for _ in range(draws.between(1, 3)):
            writer.ask_flags()
        boxes(writer)
        # The same words as another frame.
        turned = sides[1], sides[0]
        writer.say("nearest", *turned, *draw_place(draws, *turned))
        writer.say("count", *turned, *draw_box(draws, *turned))
    refused_flags(writer)


def tied_flags(writer: Writer) -> None:
    """Places equally near on all sides: four straight, four across, eight, and any."""
    draws = writer.draws
    for near in (draws.choose((1, 4)), draws.choose((2, 8)), 5):
        ring_of_flags(writer, (5, 5), [2, 2], near)
    width, height = draw_sides(draws)
    place, other = draw_place(draws, width, height), draw_place(draws, width, height)
    near = (place[0] - other[0]) ** 2 + (place[1] - other[1]) ** 2
    ring_of_flags(writer, (width, height), place, near)


def ring_of_flags(
    writer: Writer, sides: tuple[int, int], place: list[int], near: int
) -> None:
    """Flags on all places equally near; the first of them goes, until none is left."""
    draws = writer.draws
    words, ring = draw_ring(draws, *sides, place, near)
    for index in ring:
        words[index] = draws.choose(FLAGS)
    for index in ring:
        writer.words(*sides, words)
        writer.say("nearest", *sides, *place)
        words[index] = draws.choose(NEAR_FLAGS)
    writer.words(*sides, words)
    writer.say("nearest", *sides, *place)


def boxes(writer: Writer) -> None:
    """One place, one row, one column and the whole of a frame."""
    draws, (width, height) = writer.draws, writer.sides
    row, column = draw_place(draws, width, height)
    writer.say("count", width, height, row, column, row, column)
    writer.say("count", width, height, row, 0, row, width - 1)
    writer.say("count", width, height, 0, column, height - 1, column)
    writer.say("count", width, height, 0, 0, height - 1, width - 1)


def refused_flags(writer: Writer) -> None:
    """Each refusal of both questions, alone and with each other one."""
    draws = writer.draws
    # No words, and sides whose product is 0 where 64 bits are all there are.
    writer.words(0, 0, [])
    for sides in ((0, 0), (2**32, 2**32), (FAR, FAR), (1, 1), (1_024, 1_024)):
        writer.say("nearest", *sides, 0, 0)
        writer.say("count", *sides, 0, 0, 0, 0)
    width, height = draws.between(2, 5), draws.between(2, 5)
    words = draw_words(draws, width * height, 50)
    for some in (words, wrong_words(draws, words)):
        writer.words(width, height, some)
        place, box = draw_place(draws, width, height), draw_box(draws, width, height)
        for numbers in (place, outside(draws, place, width, height)):
            writer.say("nearest", width, height, *numbers)
            writer.say("nearest", *wrong_sides(draws, width, height), *numbers)
        past = outside(draws, box, width, height)
        for numbers in (box, past, crossed(draws, box, width, height)):
            writer.say("count", width, height, *numbers)
            writer.say("count", *wrong_sides(draws, width, height), *numbers)
    # Each number at the first value that is outside.
    writer.words(width, height, words)
    writer.say("nearest", width, height, height, 0)
    writer.say("nearest", width, height, 0, width)
    writer.say("count", width, height, 0, 0, height, 0)
    writer.say("count", width, height, 0, 0, 0, width)
    writer.say("count", width, height, height, 0, height, 0)
    writer.say("count", width, height, 0, width, 0, width)


def malformed_boards() -> list[str]:
    """Boards with a number more or less, and with each number out of its range."""
    good = [2, 2, 0, 0, 0, *2 * (*range(9), 5, 1, 1)]
    lines = [good[:-1], [*good, 0]]
    for part, limits in enumerate(replay.NUMBERS["board"]):
        for number in (limits[0] - 1, limits[1] + 1):
            lines.append([*good[:part], number, *good[part + 1 :]])
    return [" ".join(["board", *map(str, line)]) for line in lines]


# Lines that are no command, or one with numbers that it does not take.
MALFORMED = (
    "open 2 2 2",
    "open 65536 1 0",
    "open 2 2",
    "update 1 256",
    "update 2 0",
    "feed 1 65536",
    "feed 1 -1",
    "feed 4097",
    "fill 4097 1",
    "readout 4097",
    "word 65536 1",
    "word 1 256",
    "sums 1 2147483648",
    "sums 1 -2147483649",
    "sums 1 00000000001",
    "sums 1 +1",
    "sums 1 --1",
    "sums 1 -",
    "poke 4096 0",
    "print 0 0",
    "print sums 0",
    "words",
    "words 4097",
    "words 1",
    "words 0 1",
    "words 1 65536",
    "words 1 -1",
    "floats",
    "floats 1",
    "floats 1 0",
    "floats 1 0 0 0",
    "floats 4097 0 0",
    "floats 1 4294967296 0",
    "floats 1 0 4294967296",
    "floats 1 -1 0",
    "floats 1 0 -1",
    "floats floats 1 0 0",
    "poke floats 0 0",
    "poke floats 4096 0 0",
    "poke floats 0 0 4294967296",
    "poke sums 0 0",
    "swap floats 0",
    "swap sums",
    "print floats",
    "print floats 0",
    "print  floats 0 0",
    "print floats 4097 0",
    "feed floats",
    "feed floats 1",
    "feed floats 1 65536",
    "feed floats 0 1",
    "feed floats 4097",
    "feed sums 0",
    "fill floats 1",
    "fill floats 4097 1",
    "fill floats 1 65536",
    "readout floats",
    "readout floats 4097",
    "drop floats",
    "open floats 2 2 0",
    "nearest",
    "nearest 1 1 0",
    "nearest 1 1 0 0 0",
    "nearest 1 1 0 -1",
    "nearest -1 1 0 0",
    "nearest 1 1 00000000000 0",
    "nearest 10000000000 1 0 0",
    "count",
    "count 1 1 0 0",
    "count 1 1 0 0 0",
    "count 1 1 0 0 0 0 0",
    "count 1 1 0 0 0 -1",
    "count 1 1 0 0 0 10000000000",
    "board",
    *malformed_boards(),
    "feed",
    "close",
    "start # now",
)


def spoil(draws: Draws, script: bytes) -> bytes:
    """A script with one malformed line."""
    lines = script.decode("ascii").split("\n")
    spots = [at for at, line in enumerate(lines) if line and line[0] != "#"]
    at = draws.choose(spots)
    line = lines[at]
    wrong = (
        line + " ",
        " " + line,
        line + " 1",
        line + "\r",
        line + "\t",
        line.upper(),
        line.replace(" ", "  ") + " ",
        *MALFORMED,
    )
    lines[at] = draws.choose(wrong)
    return "\n".join(lines).encode("ascii")


KINDS = (
    small_board,
    before_open,
    middle_board,
    small_board,
    many_words,
    small_board,
    large_board,
    many_flags,
    sound_boards.any_boards,
    both_engines,
    middle_board_in_floats,
    both_engines,
    large_board_in_floats,
)


def played(scene: Callable[[Writer], None], draws: Draws) -> bytes:
    """The script of a scene."""
    writer = Writer(draws)
    writer.lines.append(f"# {scene.__name__.replace('_', ' ')}")
    scene(writer)
    return writer.bytes()


def make(seed: int, count: int) -> list[tuple[str, bytes, str]]:
    """This many scripts with what they are called and their outputs; after one of each kind comes a malformed one."""
    draws = Draws(seed)
    made = []
    for index in range(count):
        kind = index % (len(KINDS) + 1)
        if kind == len(KINDS):
            name, script = "malformed", spoil(draws, played(small_board, draws))
        else:
            name, script = KINDS[kind].__name__, played(KINDS[kind], draws)
        made.append((name, script, replay.run(script)))
    return made


def fixed() -> list[tuple[str, bytes, str]]:
    """Scripts without draws: boards of given numbers, by the parts of a sound board, and sums in floats."""
    scenes = (*sound_boards.SCENES, *float_scenes.SCENES)
    scripts = [(scene.__name__, played(scene, Draws(0))) for scene in scenes]
    return [(name, script, replay.run(script)) for name, script in scripts]


def sized_board(writer: Writer, width: int, height: int, binned: int) -> None:
    """A board of these sides with a ramp of two samples."""
    writer.open(width, height, binned)
    writer.say("update", *encode_record({11: 2}))
    writer.ramp(20)


def tour(seed: int) -> bytes:
    """One long script with every scene, and boards from the smallest to the largest."""
    writer = Writer(Draws(seed))
    for scene in (before_open, many_words, middle_board, large_board, many_flags, sound_boards.any_boards):
        scene(writer)
    for scene in (float_scenes.floats_and_whole_numbers, float_scenes.floats_refused):
        scene(writer)
    writer.both = True
    for _ in range(8):
        small_board(writer)
    for sides in ((1, 1, 0), (2, 2, 1), (64, 48, 0), (64, 48, 1), (64, 64, 1)):
        sized_board(writer, *sides)
    return writer.bytes()
