"""The flags of a frame: the one nearest to a place, and how many lie in a box."""

from __future__ import annotations

from dataclasses import dataclass
from typing import Optional, Sequence, Union

from ramp import MAX_SIDE, Refusal, read_word


@dataclass(frozen=True)
class Place:
    """A row and a column of a frame, from 0."""

    row: int
    column: int

    def squared_distance(self, other: Place) -> int:
        """How far apart two places are, in rows and columns, squared."""
        return (self.row - other.row) ** 2 + (self.column - other.column) ** 2


def is_flag(word: int) -> bool:
    """A word that reads as saturated or negative, whatever the truncation."""
    return read_word(word, 1)[0] in ("saturated", "negative")


def refusal_of(
    words: Sequence[int], width: int, height: int, places: Sequence[Place]
) -> Optional[Refusal]:
    """The first refusal of a frame and of places that must lie in it."""
    if not (1 <= width <= MAX_SIDE and 1 <= height <= MAX_SIDE):
        return Refusal(19)
    if len(words) != width * height:
        return Refusal(16)
    for place in places:
        if place.row >= height or place.column >= width:
            return Refusal(19)
    return None


def nearest_flag(
    words: Sequence[int], width: int, height: int, place: Place
) -> Union[Place, None, Refusal]:
    """The flag nearest to a place, the first in row order; None if there is no flag."""
    refusal = refusal_of(words, width, height, [place])
    if refusal is not None:
        return refusal
    found: Optional[Place] = None
    for row in range(height):
        for column in range(width):
            if is_flag(words[row * width + column]):
                flag = Place(row, column)
                distance = flag.squared_distance(place)
                if found is None or distance < found.squared_distance(place):
                    found = flag
    return found


def count_flags(
    words: Sequence[int], width: int, height: int, first: Place, last: Place
) -> Union[int, Refusal]:
    """How many flags lie in the box from its first corner to its last, both in it."""
    refusal = refusal_of(words, width, height, [first, last])
    if refusal is not None:
        return refusal
    if first.row > last.row or first.column > last.column:
        return Refusal(19)
    flags = 0
    for row in range(first.row, last.row + 1):
        for column in range(first.column, last.column + 1):
            if is_flag(words[row * width + column]):
                flags += 1
    return flags
