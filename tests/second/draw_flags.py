"""Draws of frames with flags, and of questions about them, good and bad."""

from __future__ import annotations

from draws import Draws

FLAGS = (*range(32_753, 32_762), 32_767)
# The unassigned words beside the flags, and flags with a bit more.
NEAR_FLAGS = (32_751, 32_752, *range(32_762, 32_767), 32_768, 65_521, 65_535)
DENSITIES = (0, 5, 20, 50, 90, 100)
FAR = 9_999_999_999
CUTS = (65_536, 4_294_967_296)  # what a number loses that is cut to 16 or 32 bits


def draw_flag(draws: Draws) -> int:
    """A word that is a flag."""
    return draws.choose(FLAGS)


def draw_other(draws: Draws) -> int:
    """A word that is none; most are short."""
    return draws.choose(NEAR_FLAGS) if draws.chance(30) else draws.below(10)


def draw_words(draws: Draws, count: int, percent: int) -> list[int]:
    """Words of which this many in a hundred are flags."""
    return [
        draw_flag(draws) if draws.chance(percent) else draw_other(draws)
        for _ in range(count)
    ]


def draw_sides(draws: Draws) -> tuple[int, int]:
    """Sides of 1 to 12, now and then one of them 1."""
    width, height = draws.between(1, 12), draws.between(1, 12)
    return draws.choose(((width, height),) * 4 + ((width, 1), (1, height)))


def draw_ring(
    draws: Draws, width: int, height: int, place: list[int], near: int
) -> tuple[list[int], list[int]]:
    """Words with flags only farther from a place than near, and all places as near.

    Near is a squared distance. The places are given by their words' index, in order.
    """
    words, ring = [], []
    for index in range(width * height):
        rows, columns = index // width - place[0], index % width - place[1]
        far = rows**2 + columns**2
        words += draw_words(draws, 1, 20 if far > near else 0)
        if far == near:
            ring.append(index)
    return words, ring


def draw_at(draws: Draws, side: int) -> int:
    """A row or a column, often at an edge."""
    return draws.choose((0, side - 1, draws.below(side), draws.below(side)))


def draw_place(draws: Draws, width: int, height: int) -> list[int]:
    """The row and the column of a place."""
    return [draw_at(draws, height), draw_at(draws, width)]


def draw_span(draws: Draws, side: int) -> tuple[int, int]:
    """The first and the last row or column of a box: one, all or any."""
    one, other = draw_at(draws, side), draw_at(draws, side)
    return draws.choose(((one, one), (0, side - 1), (min(one, other), max(one, other))))


def draw_box(draws: Draws, width: int, height: int) -> list[int]:
    """The rows and columns of a box's first and last corner."""
    top, bottom = draw_span(draws, height)
    left, right = draw_span(draws, width)
    return [top, left, bottom, right]


def wrong_side(draws: Draws, side: int) -> int:
    """A side that no frame has."""
    return draws.choose((0, 1_025, draws.choose(CUTS) + side, FAR))


def wrong_sides(draws: Draws, width: int, height: int) -> tuple[int, int]:
    """Sides of which one or both are wrong."""
    wide, high = wrong_side(draws, width), wrong_side(draws, height)
    return draws.choose(((wide, height), (width, high), (wide, high)))


def wrong_words(draws: Draws, words: list[int]) -> list[int]:
    """Words of another length."""
    longer = words + draw_words(draws, draws.between(1, 3), 50)
    return draws.choose((longer, words[:-1], []))


def outside(draws: Draws, numbers: list[int], width: int, height: int) -> list[int]:
    """A place or a box with one of its numbers outside the frame."""
    at = draws.below(len(numbers))
    side = width if at % 2 else height
    past = (side, side + 1, draws.choose(CUTS) + numbers[at], FAR)
    return [*numbers[:at], draws.choose(past), *numbers[at + 1 :]]


def crossed(draws: Draws, box: list[int], width: int, height: int) -> list[int]:
    """A box whose first corner is past its last one, in a side of 2 or more."""
    wide, high = width > 1, height > 1
    axis = draws.below(2) if wide and high else int(wide)
    side = width if axis else height
    last = draws.below(side - 1)
    crossed_box = list(box)
    crossed_box[axis], crossed_box[2 + axis] = draws.between(last + 1, side - 1), last
    return crossed_box


def wrong_box(draws: Draws, box: list[int], width: int, height: int) -> list[int]:
    """A box that does not lie in the frame, or is crossed."""
    if width * height > 1 and draws.chance(50):
        return crossed(draws, box, width, height)
    return outside(draws, box, width, height)
