"""The stored inputs and outputs of the jig and of the replay.

stored.py          compares them with what is made here; the exit status is 1 if any differs
stored.py --write  writes them anew
"""

from __future__ import annotations

import sys
from collections import Counter
from pathlib import Path
from typing import Iterator

import jig
import make_jig
import make_replay
import replay

ROOT = Path(__file__).resolve().parent.parent.parent
SEED = 1
SCRIPTS = 28

Case = tuple[str, bytes, str]


def named(cases: list[Case]) -> Iterator[Case]:
    """The cases with names that differ: the second of a kind has a 2 at the end of its name."""
    seen: Counter[str] = Counter()
    for name, given, text in cases:
        seen[name] += 1
        yield name if seen[name] == 1 else f"{name}_{seen[name]}", given, text


def made() -> Iterator[tuple[Path, bytes]]:
    """Each stored file and what it holds."""
    for program, given in ((jig, make_jig.EXAMPLE), (replay, make_replay.tour(SEED))):
        crate = ROOT / "crates" / program.__name__
        yield crate / "stdin", given
        yield crate / "stdout", program.run(given).encode("ascii")
    inputs = make_jig.make(SEED, len(make_jig.KINDS))
    scripts = make_replay.make(SEED, SCRIPTS) + make_replay.fixed()
    for program, cases in (("jig", inputs), ("replay", scripts)):
        for name, given, text in named(cases):
            stem = ROOT / "tests" / "stored" / program / name
            yield stem.with_suffix(".in"), given
            yield stem.with_suffix(".out"), text.encode("ascii")


def write() -> None:
    """Write each file."""
    for path, content in made():
        path.parent.mkdir(parents=True, exist_ok=True)
        path.write_bytes(content)


def compare() -> int:
    """1 if a file is missing or differs, or one is there that is not made here."""
    expected = dict(made())
    folder = ROOT / "tests" / "stored"
    found = {path for path in folder.rglob("*") if path.is_file()}
    wrong = [path for path in sorted(found) if path not in expected]
    for path, content in expected.items():
        if not path.is_file() or path.read_bytes() != content:
            wrong.append(path)
    for path in wrong:
        print(f"{path.relative_to(ROOT)} is not what the second program makes")
    print(f"{len(expected)} stored files, {len(wrong)} wrong")
    return 1 if wrong else 0


if __name__ == "__main__":
    sys.exit(write() if sys.argv[1:] == ["--write"] else compare())
