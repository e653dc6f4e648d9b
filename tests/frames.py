"""Compares frames in one call, the flags of frames, and the meaning of words with the second program: frames.py LIBRARY SEED COUNT.

LIBRARY is the shared library. COUNT frames are made in one call, from sides, binning, a record, readings, sums and words as a caller brings them,
good or bad; two more are large. As many frames of words are asked for the flag nearest to a place, and as many for the flags in a box, good or bad;
two more of each are large. As many words are read, and those at the edges of their kinds. Answers, places, and all that a call is lent must agree,
and nothing may be written beside it. Prints how many agreed; the exit status is 1 if any did not.
"""

from __future__ import annotations

import ctypes
import sys
from functools import partial
from itertools import product
from typing import Callable, Iterable

# exported.py makes the second program's folder known.
from exported import BEFORE, BYTE, ENTRY, SHORT, SIZE, Exported, Lent, place_for

from draw_flags import (
    DENSITIES,
    FLAGS,
    draw_box,
    draw_place,
    draw_ring,
    draw_sides,
    draw_words,
    outside,
    wrong_box,
    wrong_sides,
    wrong_words,
)
from draws import Draws, draw_record
from flags import Place, count_flags, nearest_flag
from ramp import Refusal, open_board, read_word

DOUBLE = ctypes.c_double
KINDS = ("ordinary", "saturated", "negative", "none")
EDGES = (0, 1, 32_751, 32_752, 32_753, 32_761, 32_762, 32_766, 32_767, 32_768, 65_535)
TRUNCATIONS = (0, 1, 2, 3, 4, 255, 256, 257, 65_535)
LONGEST = 300  # of what is printed of a case

Case = tuple[int, int, bool, list[int], list[int], list[int], list[int]]
Question = tuple[list[int], int, int, list[int]]
Told = tuple[int, int, list[list[int]]]  # a number, a place, and what each buffer and each place for an answer holds


def draw_case(draws: Draws) -> Case:
    """One frame's input: mostly good, often with one thing wrong."""
    wrong = draws.choose(("", "", "", "", "sides", "record", "sums", "words", "few", "many", "reading"))
    binned = draws.chance(50)
    width = draws.between(1, 12)
    height = draws.between(1, 12)
    if binned:
        width, height = 2 * width, 2 * height
    if wrong == "sides":
        width, height = draws.choose(((0, height), (width, 1_025), (width + 1, height), (1_025, 0)))
    record = draw_record(draws)
    if wrong == "record":
        record = record[: draws.below(len(record))] + [draws.below(256) for _ in range(draws.below(4))]
    samples = 9
    board = open_board(width, height, binned)
    if not isinstance(board, Refusal) and board.update(record) is None:
        samples = board.waiting.samples
    pixels = width * height if width * height <= 2_000 else 10
    count = samples * pixels
    if wrong == "few":
        count = draws.below(count)
    if wrong == "many":
        count += draws.between(1, 5)
    top = draws.choose((10, 1_000, 13_100, 16_384))
    readings = [draws.below(top) for _ in range(count)]
    if wrong == "reading" and readings:
        readings[draws.below(len(readings))] = draws.between(16_384, 65_535)
    other = draws.choose((-1, 1, 2))
    sums = [draws.between(-(2**31), 2**31 - 1) for _ in range(pixels + (other if wrong == "sums" else 0))]
    word_count = (pixels // 4 if binned else pixels) + (other if wrong == "words" else 0)
    words = [draws.below(65_536) for _ in range(word_count)]
    return width, height, binned, record, readings, sums, words


def second_frame(case: Case) -> Told:
    """What the second program makes of a frame."""
    width, height, binned, *buffers = case
    record, readings, sums, words = map(list, buffers)
    board = open_board(width, height, binned)
    refusal = board if isinstance(board, Refusal) else (
        board.update(record) or board.start() or board.feed(readings, sums) or board.read_out(sums, words)
    )
    if refusal:
        return refusal.number, refusal.place, buffers
    return 0, 0, [record, readings, sums, words]


def found_frame(exported: Exported, case: Case) -> Told:
    """What the library makes of a frame."""
    width, height, binned, *buffers = case
    lent = [Lent(kind, numbers) for kind, numbers in zip((BYTE, SHORT, ENTRY, SHORT), buffers)]
    answer = exported.answer("ramp_frame", SIZE(width), SIZE(height), ctypes.c_bool(binned), *lent)
    return (*answer, [buffer.content() for buffer in lent])


def large_case(side: int, samples: int) -> Case:
    """A large frame, of squares."""
    draws = Draws(side)
    row = [draws.below(16_384) for _ in range(4 * side)]
    readings = (row * (samples * side // 4 + 1))[: samples * side * side]
    record = [0, 8, samples]
    return side, side, True, record, readings, [0] * side**2, [0] * (side**2 // 4)


def draw_question(draws: Draws, boxed: bool) -> Question:
    """Words, their sides and a place or a box: mostly good, often with one thing wrong or two."""
    wrong = draws.choose(("", "", "", "", "", "sides", "words", "place", "sides and words", "words and place", "sides and place"))
    width, height = draw_sides(draws)
    if draws.chance(30):
        width, height = draws.between(1, 70), draws.between(1, 9)
    place, box = draw_place(draws, width, height), draw_box(draws, width, height)
    words = draw_words(draws, width * height, draws.choose((1, *DENSITIES)))
    if draws.chance(30):
        words, ring = draw_ring(draws, width, height, place, draws.choose((1, 2, 4, 5, 8, 10, 25, 50, 65)))
        for index in ring:
            words[index] = draws.choose((*FLAGS, 0, 0, 0))
    numbers = box if boxed else place
    if "place" in wrong:
        numbers = (wrong_box if boxed else outside)(draws, numbers, width, height)
    if "words" in wrong:
        words = wrong_words(draws, words)
    if "sides" in wrong:
        width, height = wrong_sides(draws, width, height)
    return words, width, height, numbers


def large_questions(boxed: bool) -> list[Question]:
    """Two questions of the largest frames: one has a flag far from the place that is asked for, the other has few flags."""
    draws, side = Draws(1_024), 1_024
    one = draw_words(draws, side, 0) * side
    few = list(one)
    one[-1] = FLAGS[0]
    for _ in range(6):
        few[draws.below(side**2)] = draws.choose(FLAGS)
    if boxed:
        return [(one, side, side, [0, 0, side - 1, side - 1]), (few, side, side, draw_box(draws, side, side))]
    return [(one, side, side, [0, 0]), (few, side, side, draw_place(draws, side, side))]


def second_flags(question: Question, boxed: bool) -> Told:
    """What the second program answers about flags."""
    words, width, height, numbers = question
    places = [Place(*numbers[at : at + 2]) for at in range(0, len(numbers), 2)]
    before = [[BEFORE]] * (1 if boxed else 3)
    answer = count_flags(words, width, height, *places) if boxed else nearest_flag(words, width, height, *places)
    if isinstance(answer, Refusal):
        return answer.number, answer.place, [words, *before]
    if isinstance(answer, Place):
        return 0, 0, [words, [1], [answer.row], [answer.column]]
    return 0, 0, [words, [answer or 0], *before[1:]]


def found_flags(exported: Exported, question: Question, boxed: bool) -> Told:
    """What the library answers about flags."""
    words, *sides, numbers = question
    buffer, told = Lent(SHORT, words), [place_for(SIZE, BEFORE) for _ in range(1 if boxed else 3)]
    name = "ramp_count_flags" if boxed else "ramp_nearest_flag"
    answer = exported.answer(name, buffer, *map(SIZE, (*sides, *numbers)), *told)
    return (*answer, [lent.content() for lent in (buffer, *told)])


def draw_word(draws: Draws) -> tuple[int, int]:
    """A truncation and a word."""
    return draws.choose((1, 2, 3, *TRUNCATIONS)), draws.below(65_536)


def second_meaning(truncation: int, word: int) -> Told:
    """What the second program reads in a word: its kind, its limits and its sample."""
    meaning = read_word(word, truncation)
    before = [BEFORE, BEFORE, BEFORE]
    if isinstance(meaning, Refusal):
        return meaning.number, meaning.place, [[number] for number in (BEFORE, *before)]
    if meaning[0] == "ordinary":
        before[:2] = meaning[1:]
    if meaning[0] == "saturated":
        before[2:] = meaning[1:]
    return 0, 0, [[number] for number in (KINDS.index(meaning[0]), *before)]


def found_meaning(exported: Exported, truncation: int, word: int) -> Told:
    """What the library reads in a word."""
    told = [place_for(kind, BEFORE) for kind in (BYTE, DOUBLE, DOUBLE, SHORT)]
    answer = exported.answer("ramp_read_word", SHORT(truncation), SHORT(word), *told)
    return (*answer, [place.content() for place in told])


def agreeing(what: str, cases: Iterable[tuple], second: Callable[..., Told], found: Callable[..., Told]) -> bool:
    """Whether all cases agree; prints how many do, and each one that doesn't."""
    tried = wrong = 0
    for case in cases:
        tried += 1
        expected, answer = second(*case), found(*case)
        if expected != answer:
            wrong += 1
            print(f"{what} {shortened(case)}: expected {shortened(expected)}, found {shortened(answer)}")
    print(f"{tried - wrong} of {tried} {what} agree")
    return wrong == 0


def shortened(value: object) -> str:
    text = repr(value)
    return text if len(text) <= LONGEST else f"{text[:LONGEST]}.."


def main() -> int:
    exported, draws, count = Exported(sys.argv[1]), Draws(int(sys.argv[2])), int(sys.argv[3])
    frames = [large_case(1_024, 1), large_case(256, 9), *(draw_case(draws) for _ in range(count))]
    words = [*product(TRUNCATIONS, EDGES), *(draw_word(draws) for _ in range(count))]
    right = [
        agreeing("frames", ((case,) for case in frames), second_frame, partial(found_frame, exported)),
        agreeing("words", words, second_meaning, partial(found_meaning, exported)),
    ]
    for boxed, what in ((False, "nearest flags"), (True, "counts of flags")):
        questions = [*large_questions(boxed), *(draw_question(draws, boxed) for _ in range(count))]
        right.append(agreeing(what, ((question, boxed) for question in questions), second_flags, partial(found_flags, exported)))
    return not all(right)


if __name__ == "__main__":
    sys.exit(main())
