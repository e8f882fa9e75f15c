#!/usr/bin/env python3
"""Prints the time and the memory that `prove` takes on the largest texts that it reads, and on the texts beside this
script, of which the runs are long; and how many turns the run makes.

Usage: bench/largest_texts.py PROGRAM
"""
import os
import pathlib
import sys
import tempfile
import time

LIMIT = 1_048_576
HEAD = b"construction 1\nrank 3\n"
PLAIN = HEAD + b"free A B C\nconclude collinear A B C\n"


def filled(text, filler):
    """The text, filled up to the limit."""
    return (text + filler * (LIMIT // len(filler) + 1))[:LIMIT]


def definitions():
    """2,000 definitions over 200 names and 64 parameters, with as many parentheses as fit a line of the text."""
    names = [b"N%031d" % number for number in range(200)]
    yield HEAD + b"free " + b" ".join(names) + b"\n"
    deep = b"(meet (join A B) " * 3
    for number in range(2000):
        a, b = names[number % 200], names[(number + 1) % 200]
        s, t = b"s%d" % (number % 32), b"t%d" % (number % 32)
        if number % 2:
            yield b"point P%d = on %s %s with %s %s\n" % (number, a, b, s, t)
        else:
            yield b"point P%d = meet %s(join %s %s)%s %s\n" % (number, deep, a, b, b")" * 3, a)
    yield b"conclude collinear P1 P3 P5\n"


def texts():
    """The largest texts of several kinds, and those beside this script."""
    names = [b"N%031d" % number for number in range(200)]
    yield "200 names of 32 bytes", HEAD + b"free " + b" ".join(names) + b"\nconclude collinear " + b" ".join(names[-3:]) + b"\n"
    yield "2,000 definitions", filled(b"".join(definitions()), b"# a comment that fills the text\n")
    yield "deep parentheses", filled(HEAD + b"point P = join ", b"(join " * 32 + b"A" + b")" * 32 + b" ")
    yield "one line of words", filled(HEAD + b"free", b" A")
    yield "one line of a word", filled(HEAD + b"free ", b"A")
    yield "comments", filled(PLAIN, b"# a comment that fills the text\n")
    yield "blank lines", filled(b"", b"\n")
    for file in sorted(pathlib.Path(__file__).resolve().parent.glob("*.txt")):
        yield file.stem, file.read_bytes()


def run(program, text):
    """The status, the seconds, the greatest memory in MB and the turns of a run."""
    with tempfile.TemporaryFile() as source, tempfile.TemporaryFile() as sink:
        source.write(text)
        source.seek(0)
        begin = time.monotonic()
        child = os.posix_spawn(
            program,
            [program, "prove"],
            os.environ,
            file_actions=[(os.POSIX_SPAWN_DUP2, source.fileno(), 0), (os.POSIX_SPAWN_DUP2, sink.fileno(), 1)],
        )
        _, status, usage = os.wait4(child, 0)
        seconds = time.monotonic() - begin
        sink.seek(0)
        turns = sum(line.startswith(b"use ") for line in sink)
        return os.waitstatus_to_exitcode(status), seconds, usage.ru_maxrss / 1024, turns


def main():
    if len(sys.argv) != 2:
        sys.exit(__doc__)
    for name, text in texts():
        status, seconds, memory, turns = run(sys.argv[1], text)
        print(f"{name:22} {len(text):8} bytes  status {status}  {seconds:6.3f} s  {memory:6.1f} MB  {turns:6} turns")


if __name__ == "__main__":
    main()
