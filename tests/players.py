"""Compares players of replay scripts with the second program: players.py SEED COUNT PLAYER...

A PLAYER is a command, with its arguments in the same word, that plays a well-formed script from standard input and prints what `replay` prints:
bindings/tests has one for each language. Each plays the stored scripts, the example of `replay`, and COUNT random ones, and its output is compared
byte by byte. Prints how many agreed for each player; the exit status is 1 if any did not.
"""

from __future__ import annotations

import shlex
import sys
from concurrent.futures import ThreadPoolExecutor
from typing import Iterator

# programs.py makes the second program's folder known.
from programs import TESTS, difference, printed_by, stored

import make_replay

EXAMPLE = TESTS.parent / "crates" / "replay"
TOGETHER = 4  # scripts that are played at a time
NOT_PLAYED = (b"malformed line ", b"script too long")

Script = tuple[str, bytes, bytes]  # its name, the script, and what it must print


def random_scripts(seed: int, count: int) -> Iterator[Script]:
    """Random scripts, well-formed or not."""
    for index, (kind, script, text) in enumerate(make_replay.make(seed, count), 1):
        yield f"script {index} of seed {seed} ({kind})", script, text.encode("ascii")


def scripts(seed: int, count: int) -> list[Script]:
    """The well-formed scripts; of the random ones, one after each round of kinds isn't."""
    some = [*stored("replay"), ("the example", (EXAMPLE / "stdin").read_bytes(), (EXAMPLE / "stdout").read_bytes())]
    some += random_scripts(seed, count + count // len(make_replay.KINDS))
    return [script for script in some if not script[2].startswith(NOT_PLAYED)]


def differing(player: str, some: list[Script]) -> Iterator[str]:
    """Each script that a player answers otherwise, and how."""
    command = shlex.split(player)
    with ThreadPoolExecutor(TOGETHER) as pool:
        printed = pool.map(lambda script: printed_by(command, script[1]), some)
        for (name, _, expected), found in zip(some, printed):
            if found != expected:
                yield f"{name} differs {difference(expected, found)}"


def main() -> int:
    seed, count, players = int(sys.argv[1]), int(sys.argv[2]), sys.argv[3:]
    some, wrong = scripts(seed, count), 0
    for player in players:
        lines = list(differing(player, some))
        for line in lines:
            print(f"{player}: {line}")
        print(f"{player}: {len(some) - len(lines)} of {len(some)} scripts agree")
        wrong += len(lines)
    return not players or wrong > 0


if __name__ == "__main__":
    sys.exit(main())
