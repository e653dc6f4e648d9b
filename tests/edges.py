"""A program at its edges: its argument, input that cannot be read, output that cannot be written, one end of input, output in one piece.

Each case starts the program on real file descriptors and says whether it did as it should. It must end by itself, with exit status 1 where a stream
failed, 2 where it is given an argument that it does not know, and 0 otherwise.
"""

from __future__ import annotations

import fcntl
import os
import socket
import subprocess
from typing import Callable, Iterator, Optional

SECONDS = 20  # that a program may take
PIPE = 4_096  # the smallest pipe
PIECE = 64  # a piece of the output is shorter
SET_PIPE_SIZE = 1_031  # F_SETPIPE_SZ, which Python names from 3.10 on
FAILED = 1  # the exit status where a stream failed
UNKNOWN = 2  # the exit status for an argument that is not known
END_OF_INPUT = b"\x04"  # what Ctrl-D sends
NO_FILE = subprocess.DEVNULL
Ends = tuple[int, bytes, bytes]  # exit status, standard output, standard error
ENDLESS: Ends = (-1, b"", b"")  # of a program that takes longer, as none should end


def run(program: str, *words: str, given: int = NO_FILE, out: int = subprocess.PIPE, first: Optional[Callable[[], object]] = None) -> Ends:
    """How a program ends with these arguments on these descriptors, after what is done first."""
    try:
        ran = subprocess.run([program, *words], stdin=given, stdout=out, stderr=subprocess.PIPE, preexec_fn=first, timeout=SECONDS, check=False)
    except subprocess.TimeoutExpired:
        return ENDLESS
    return ran.returncode, ran.stdout or b"", ran.stderr


def arguments(name: str, program: str) -> Iterator[tuple[str, bool]]:
    """`--help` prints how the program is used, whatever the input is, and there is no other argument."""
    status, text, errors = run(program, "--help")
    yield "--help", (status, errors) == (0, b"") and text.startswith(f"usage: {name} < ".encode("ascii")) and text.endswith(b"\n")
    folder = os.open("/", os.O_RDONLY)
    yield "--help and a directory as input", run(program, "--help", given=folder) == (0, text, b"")
    os.close(folder)
    full = os.open("/dev/full", os.O_WRONLY)
    yield "--help on a full device", run(program, "--help", out=full) == unwritten(name)
    os.close(full)
    for word in ("", "-", "-h", "--hel", "--helq", "--help ", "x" * 1_000):
        yield f"the argument {word[:9]!r}", run(program, word) == (UNKNOWN, b"", f"{name}: the only argument is --help\n".encode("ascii"))


def unread(name: str) -> Ends:
    """The one line about an input that failed."""
    return FAILED, b"", f"{name}: standard input can't be read\n".encode("ascii")


def unwritten(name: str) -> Ends:
    """The one line about an output that failed."""
    return FAILED, b"", f"{name}: standard output can't be written\n".encode("ascii")


def pipe_with(content: bytes, blocking: bool) -> tuple[int, int]:
    """A pipe that holds these bytes; its writing end stays open."""
    reading, writing = os.pipe()
    os.write(writing, content)
    os.set_blocking(reading, blocking)
    return reading, writing


def unreadable(name: str, program: str, example: bytes) -> Iterator[tuple[str, bool]]:
    """Nothing is printed where the input cannot be read, not even for the bytes that came before."""
    folder = os.open("/", os.O_RDONLY)
    yield "a directory as input", run(program, given=folder) == unread(name)
    os.close(folder)
    yield "a closed input", run(program, first=lambda: os.close(0)) == unread(name)
    sink = os.open("/dev/null", os.O_WRONLY)
    yield "an input open for writing", run(program, given=sink) == unread(name)
    os.close(sink)
    reading, writing = pipe_with(example, blocking=False)
    yield "an input that fails in the middle", run(program, given=reading) == unread(name)
    os.close(reading)
    os.close(writing)


def input_file(content: bytes) -> int:
    """A file that holds these bytes."""
    file = os.memfd_create("input")
    os.write(file, content)
    os.lseek(file, 0, os.SEEK_SET)
    return file


def unwritable(name: str, program: str, example: bytes, long: bytes, text: bytes) -> Iterator[tuple[str, bool]]:
    """One line says that the output cannot be written, and what was written before is a beginning of it."""
    given = input_file(example)
    full = os.open("/dev/full", os.O_WRONLY)
    yield "a full device", run(program, given=given, out=full) == unwritten(name)
    os.lseek(given, 0, os.SEEK_SET)
    yield "a closed output", run(program, given=given, first=lambda: os.close(1)) == unwritten(name)
    os.close(full)
    os.lseek(given, 0, os.SEEK_SET)
    reading, writing = os.pipe()
    os.close(reading)
    yield "a pipe that nobody reads", run(program, given=given, out=writing) == unwritten(name)
    os.close(writing)
    os.close(given)
    given = input_file(long)
    reading, writing = os.pipe()
    fcntl.fcntl(writing, SET_PIPE_SIZE, PIPE)
    os.set_blocking(writing, False)
    ended = run(program, given=given, out=writing)
    os.close(writing)
    with os.fdopen(reading, "rb") as file:
        found = file.read()
    os.close(given)
    yield "a pipe that takes no more", ended == unwritten(name) and text.startswith(found) and PIPE - PIECE < len(found) <= PIPE


def one_end(program: str, example: bytes, text: bytes) -> bool:
    """Whether one end of input on a terminal is enough."""
    ours, theirs = os.openpty()
    os.write(ours, example + END_OF_INPUT)
    try:
        return run(program, given=theirs) == (0, text, b"")
    finally:
        os.close(ours)
        os.close(theirs)


def one_piece(program: str, example: bytes, text: bytes) -> bool:
    """Whether a short output is written in one piece: each write is one packet."""
    given = input_file(example)
    ours, theirs = socket.socketpair(socket.AF_UNIX, socket.SOCK_SEQPACKET)
    with ours, theirs:
        ended = run(program, given=given, out=theirs.fileno())
        os.close(given)
        return ended == (0, b"", b"") and ours.recv(PIPE) == text


def edges(name: str, program: str, lines: bytes, long: bytes, run_second: Callable[[bytes], str]) -> Iterator[tuple[str, bool]]:
    """Every case, with a short input of lines and one that makes more output than a pipe takes."""
    yield from arguments(name, program)
    yield from unreadable(name, program, lines)
    yield from unwritable(name, program, lines, long, run_second(long).encode("ascii"))
    yield "one end of input on a terminal", one_end(program, b"", run_second(b"").encode("ascii"))
    yield "lines and one end of input on a terminal", one_end(program, lines, run_second(lines).encode("ascii"))
    yield "a short output in one piece", one_piece(program, lines, run_second(lines).encode("ascii"))
