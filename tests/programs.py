"""Compares a program with its second program: programs.py NAME PROGRAM SEED COUNT.

NAME is jig or replay, and PROGRAM the compiled one. It must print exactly what the second program prints: on the stored inputs; on every
beginning of each example; on each malformed line alone; on a megabyte of noise of two kinds; and on COUNT random inputs, good and bad. Then
it is tried at its edges (edges.py).
Prints how many agreed; the exit status is 1 if any did not.
"""

from __future__ import annotations

import importlib
import random
import subprocess
import sys
from itertools import zip_longest
from pathlib import Path
from typing import Iterator

TESTS = Path(__file__).resolve().parent
sys.path.insert(0, str(TESTS / "second"))

from edges import SECONDS, edges  # noqa: E402

MEGABYTE = 1_000_000
STORED = TESTS / "stored" / "replay"
EXAMPLES = {"jig": (TESTS.parent / "crates" / "jig" / "stdin",), "replay": (STORED / "small_board.in", STORED / "floats_refused.in")}
LONGEST = 1_500
LONGEST_LINE = 150
# An input of whole lines, and one with more output than a small pipe takes.
LINES = {"jig": b"\n", "replay": b"open 2 1 0\nstart\n"}
LONG = {"jig": bytes([0, 1, 1, 0, 0, 3, 0, 8, 1]) + bytes(512), "replay": b"words 2 5 7\n" * 2_000}


def printed_by(command: list[str], given: bytes) -> bytes:
    """What a command prints; one that ends badly, or not in time, prints nothing that agrees."""
    try:
        ran = subprocess.run(command, input=given, capture_output=True, timeout=SECONDS, check=False)
    except subprocess.TimeoutExpired:
        return b"no end within %d seconds" % SECONDS
    return ran.stdout if ran.returncode == 0 and not ran.stderr else b"ended badly: " + ran.stderr[-LONGEST_LINE:]


def difference(expected: bytes, found: bytes) -> str:
    """Where the lines that were printed first differ from those that were expected, and how."""
    pairs = zip_longest(expected.splitlines(keepends=True), found.splitlines(keepends=True), fillvalue=b"")
    number, line, other = next((number, *pair) for number, pair in enumerate(pairs, 1) if pair[0] != pair[1])
    return f"at line {number}: expected {line[:LONGEST_LINE]!r}, found {other[:LONGEST_LINE]!r}"


def stored(name: str) -> Iterator[tuple[str, bytes, bytes]]:
    """The stored inputs, each with its name and what it must give."""
    for path in sorted((TESTS / "stored" / name).glob("*.in")):
        yield f"stored input {path.stem}", path.read_bytes(), path.with_suffix(".out").read_bytes()


def beginnings(name: str) -> Iterator[tuple[str, bytes]]:
    """The beginnings of each example, from nothing on."""
    for path in EXAMPLES[name]:
        example = path.read_bytes()[:LONGEST]
        for length in range(len(example) + 1):
            yield f"{length} bytes of {path.name}", example[:length]


def noise(seed: int) -> Iterator[tuple[str, bytes]]:
    """Bytes of every value, and bytes that scripts are made of."""
    draws = random.Random(seed)
    yield "noise", draws.randbytes(MEGABYTE)
    for length in (100, 10_000, MEGABYTE):
        yield f"{length} bytes of a torn script", bytes(draws.choices(b"0123456789 -#\nabcdefnoprstuw", k=length))


def main() -> int:
    name, program, seed, count = sys.argv[1], str(Path(sys.argv[2]).resolve()), int(sys.argv[3]), int(sys.argv[4])
    second = importlib.import_module(name)
    maker = importlib.import_module(f"make_{name}")

    def cases() -> Iterator[tuple[str, bytes, bytes]]:
        yield from stored(name)
        malformed = [(f"the line {line!r}", line.encode("ascii")) for line in getattr(maker, "MALFORMED", ())]
        for given_name, given in (*beginnings(name), *malformed, *noise(seed)):
            yield given_name, given, second.run(given).encode("ascii")
        for index, (kind, given, text) in enumerate(maker.make(seed, count), 1):
            yield f"input {index} of seed {seed} ({kind})", given, text.encode("ascii")

    tried = agreed = 0
    for case, given, expected in cases():
        tried += 1
        found = printed_by([program], given)
        if found == expected:
            agreed += 1
        else:
            print(f"{case} differs {difference(expected, found)}")
    wrong = [case for case, right in edges(name, program, LINES[name], LONG[name], second.run) if not right]
    for case in wrong:
        print(f"{case}: wrong")
    print(f"{agreed} of {tried} inputs of {name} agree, {len(wrong)} wrong at its edges")
    return agreed != tried or bool(wrong)


if __name__ == "__main__":
    sys.exit(main())
