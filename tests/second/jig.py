"""The jig: one board, one record and one ramp from standard input to a frame."""

from __future__ import annotations

import sys
from typing import Union

from ramp import Board, Refusal, open_board, read_word

MAX_PIXELS = 1_024


def meaning(word: int, truncation: int) -> Union[str, Refusal]:
    """The meaning of a word as the jig prints it."""
    result = read_word(word, truncation)
    if isinstance(result, Refusal):
        return result
    if result[0] == "ordinary":
        return f"{int(result[1])}..{int(result[2])}"
    if result[0] == "saturated":
        return f"sat {result[1]}"
    return "neg" if result[0] == "negative" else "none"


def frame(data: bytes) -> Union[tuple[Board, list[int]], Refusal]:
    """The board and the words that the input makes, or the first refusal."""
    if len(data) < 6 or data[4] > 1:
        return Refusal(17)
    record_end = 6 + data[5]
    if record_end > len(data) or (len(data) - record_end) % 2 == 1:
        return Refusal(17)
    width = data[0] + 256 * data[1]
    height = data[2] + 256 * data[3]
    board = open_board(width, height, data[4] == 1)
    if isinstance(board, Refusal):
        return board
    if board.pixels > MAX_PIXELS:
        return Refusal(18)
    readings = [
        data[at] + 256 * data[at + 1] for at in range(record_end, len(data), 2)
    ]
    sums = [0] * board.pixels
    words = [0] * board.words
    refusal = (
        board.update(data[6:record_end])
        or board.start()
        or board.feed(readings, sums)
        or board.read_out(sums, words)
    )
    return refusal or (board, words)


def run(data: bytes) -> str:
    """The whole output for an input."""
    result = frame(data)
    if isinstance(result, Refusal):
        return f"refused {result.number}\n"
    board, words = result
    columns = board.width // 2 if board.binned else board.width
    lines = ["row col word meaning"]
    for index, word in enumerate(words):
        row, column = divmod(index, columns)
        text = meaning(word, board.in_force.truncation)
        lines.append(f"{row} {column} {word} {text}")
    return "\n".join(lines) + "\n"


if __name__ == "__main__":
    sys.stdout.write(run(sys.stdin.buffer.read()))
