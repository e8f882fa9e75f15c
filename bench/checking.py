#!/usr/bin/env python3
"""Prints the time and the memory that the program takes to check proofs: a log beside its making, lists, hostile texts.

Usage: bench/checking.py PROGRAM

First the text of many_turns.txt is proved, and its log is checked: checking is to take no longer than making it took. Then
come lists of so many terms, of which the last is one too many, and lines that grow: the time of each kind grows with its
length alone. The memory is the greatest of the run. A busy machine adds to the times.
"""
import itertools
import os
import pathlib
import sys
import tempfile
import time

BENCH = pathlib.Path(__file__).resolve().parent
MOST_TERMS = 2_097_152
TEXT = b"construction 1\nrank 3\nfree A B C D E F G H\nconclude collinear A B C\n"
HEAD = b"proof 1\nrank 3\nfree A B C D E F G H\nparams\nobject 1 step 2\nscalar A B\n"


def run(program, word, pieces):
    """How many bytes it reads, what the program writes, the seconds it takes, and its greatest memory in MB.

    The pieces go to a file one after another: what this script holds would be told as the program's memory.
    """
    with tempfile.TemporaryFile() as source, tempfile.TemporaryFile() as sink:
        source.writelines(pieces)
        size = source.tell()
        source.seek(0)
        actions = [(os.POSIX_SPAWN_DUP2, source.fileno(), 0), (os.POSIX_SPAWN_DUP2, sink.fileno(), 1)]
        start = time.monotonic()
        child = os.posix_spawn(program, [program, word], os.environ, file_actions=actions)
        _, _, usage = os.wait4(child, 0)
        seconds = time.monotonic() - start
        sink.seek(0)
        return size, sink.read(), seconds, usage.ru_maxrss / 1024


def terms(count):
    """A proof whose first list has so many terms, each a line of a hundred bytes."""
    rows = [f"[{' '.join(points)}]" for points in itertools.combinations("ABCDEFGH", 3)]
    products = itertools.islice(itertools.combinations_with_replacement(rows, 9), count)
    yield HEAD + b"start\n"
    for product in products:
        yield f"+1000000000000000000000000 {' '.join(product)}\n".encode()
    yield b"end\nzero\nproved\n"


def line(begin, piece, length):
    """A head, and then a line of so many bytes."""
    yield HEAD + begin
    for _ in range(length >> 16):
        yield piece * ((1 << 16) // len(piece))
    yield b"\n"


def proofs():
    for count in (MOST_TERMS // 4, MOST_TERMS // 2, MOST_TERMS, MOST_TERMS + 1):
        yield f"{count} terms", terms(count)
    for begin, piece, what in (
        (b"", b"A", "one word"),
        (b"object 1 step ", b"1", "digits"),
        (b"", b"[", "brackets"),
        (b"use +1 ", b"; ", "semicolons"),
        (b"+1 ", b"t^1 ", "parameters"),
        (b"+1 ", b"[A B C] ", "rows"),
        (b"scalar", b" A", "points"),
    ):
        for length in (1 << 24, 1 << 25, 1 << 26):
            yield what, line(begin, piece, length)


def tell(what, size, answer, seconds, memory):
    last = answer.splitlines()[-1].decode()
    print(f"{what:22} {size:10} bytes  {last:34} {seconds:7.2f} s  {memory:8.1f} MB", flush=True)


def main():
    if len(sys.argv) != 2:
        sys.exit(__doc__)
    program = os.path.abspath(sys.argv[1])
    text = (BENCH / "many_turns.txt").read_bytes()
    proved = run(program, "prove", [text])
    tell("proving many turns", *proved)
    tell("checking the log", *run(program, "check", [text, proved[1]]))
    del proved
    for what, proof in proofs():
        tell(what, *run(program, "check", itertools.chain([TEXT], proof)))


if __name__ == "__main__":
    main()
