#!/usr/bin/env python3
"""Runs the program on the largest and the most hostile inputs, and tells whether each answer is the one that is defined.

Usage: bench/hostile.py PROGRAM [BYTES]

Proofs of so many bytes (1,073,000,000, nearly the most that `check` reads), true ones and nonsense; the largest texts of each
kind; and texts whose runs pass each limit. Each line has the status, the seconds and the greatest memory. The last line
says how many answers were not the defined one, or took more memory than 8 times the input of `check`, or than 3 GB of
`prove`; the status is then 1.
"""
import itertools
import os
import sys
import tempfile
import time

import checking
import largest_texts

PROVED, REFUTED, TEXT_REFUSED, STOPPED, PROOF_REFUSED = 0, 1, 3, 4, 8
MOST_OF_CHECK, MOST_OF_PROVE = 8, 3_000_000_000
SMALL = 64_000_000

ONE_TURN = b"construction 1\nrank 3\nfree A B C D E F\nconclude concurrent (join C F) (join A B) (join D E)\n"
USE = b"use %b1 ; A B ; C D E F ;\n"


def repeated(piece, size):
    """The piece, again and again, up to so many bytes, in pieces of a megabyte."""
    block = piece * max(1, (1 << 20) // len(piece))
    for _ in range(size // len(block)):
        yield block


def run(program, words, pieces, keeps=False):
    """The bytes read, the status, the last line or the whole output, the seconds and the greatest memory of a run."""
    with tempfile.TemporaryFile() as source, tempfile.TemporaryFile() as sink:
        source.writelines(pieces)
        size = source.tell()
        source.seek(0)
        actions = [(os.POSIX_SPAWN_DUP2, source.fileno(), 0), (os.POSIX_SPAWN_DUP2, sink.fileno(), 1)]
        begin = time.monotonic()
        child = os.posix_spawn(program, [program, *words], os.environ, file_actions=actions)
        _, status, usage = os.wait4(child, 0)
        seconds = time.monotonic() - begin
        sink.seek(0 if keeps else max(0, sink.seek(0, os.SEEK_END) - 200))
        output = sink.read()
        told = output if keeps else output.splitlines()[-1:]
        return size, os.waitstatus_to_exitcode(status), told, seconds, usage.ru_maxrss * 1024


def true_proofs(program, size):
    """A proof that is true: a log with a detour of uses that come to nothing."""
    proof = run(program, ["prove"], [ONE_TURN], keeps=True)[2]
    before, use, after = proof.partition(USE % b"+")
    detour = repeated(USE % b"+" + USE % b"-", size)
    yield "a detour", REFUTED, itertools.chain([ONE_TURN, before], detour, [use, after])


def nonsense(size):
    """Proofs that are none, of so many bytes: a list that is too long, and lines with no end."""
    head = checking.TEXT + checking.HEAD
    yield "letters", PROOF_REFUSED, itertools.chain([head], repeated(b"A", size))
    yield "line feeds", PROOF_REFUSED, itertools.chain([head], repeated(b"\n", size))
    yield "bytes over 127", PROOF_REFUSED, itertools.chain([head], repeated(b"\xff", size))
    yield "points", PROOF_REFUSED, itertools.chain([head, b"scalar"], repeated(b" A", size))
    yield "rows", PROOF_REFUSED, itertools.chain([head, b"+1"], repeated(b" [A B C]", size))
    yield "parameters", PROOF_REFUSED, itertools.chain([head, b"+1"], repeated(b" t^1", size))
    yield "brackets", PROOF_REFUSED, itertools.chain([head, b"+1 "], repeated(b"[", size))
    yield "digits", PROOF_REFUSED, itertools.chain([head, b"+1"], repeated(b"0", size))
    yield "short lines", PROOF_REFUSED, itertools.chain([head], repeated(b"a b\n", size))
    yield "uses", PROOF_REFUSED, itertools.chain([head, b"start\n+1\n"], repeated(USE % b"+", size))
    yield "one term again", PROOF_REFUSED, itertools.chain([head, b"start\n"], repeated(b"+1 [A B C]\n", size))
    yield "no proof", TEXT_REFUSED, itertools.chain([checking.TEXT], repeated(b"# a comment\n", size))


def growing(count, name):
    """Points of which each is twice the one before it, by parameters of its own or by the same ones."""
    rows = [b"construction 1", b"rank 3", b"free A B C"]
    before = b"A"
    for number in range(count):
        rows.append(b"point P%d = on %b %b with %b" % (number, before, before, name(number)))
        before = b"P%d" % number
    return b"\n".join([*rows, b"conclude collinear %b B C" % before, b""])


def stopped():
    """Texts whose runs pass a limit."""
    yield "a budget of turns", ["prove", "--budget", "10"], (checking.BENCH / "many_turns.txt").read_bytes()
    yield "a large coefficient", ["prove"], growing(160, lambda number: b"s t")
    yield "many keys", ["prove"], growing(22, lambda number: b"s%d t%d" % (number, number))


def main():
    if len(sys.argv) not in (2, 3) or sys.argv[1].startswith("-"):
        print(__doc__.strip())
        return 0 if sys.argv[1:] in (["-h"], ["--help"]) else 2
    program, size = os.path.abspath(sys.argv[1]), int(sys.argv[2]) if len(sys.argv) == 3 else 1_073_000_000
    failed = 0

    def tell(what, wanted, most, answer):
        nonlocal failed
        count, status, last, seconds, memory = answer
        bound = MOST_OF_PROVE if most is None else max(SMALL, most * count)
        is_well = status in wanted and memory <= bound
        failed += not is_well
        line = last[0].decode(errors="replace")[:40] if last else ""
        print(
            f"{what:22} {count:10} bytes  status {status:2}  {line:40} {seconds:7.2f} s {memory / 1e6:8.1f} MB",
            "" if is_well else "FAILED",
            flush=True,
        )

    for what, wanted, pieces in itertools.chain(true_proofs(program, size), nonsense(size)):
        tell(what, [wanted], MOST_OF_CHECK, run(program, ["check"], pieces))
    for what, text in largest_texts.texts():
        tell(what, [PROVED, REFUTED, TEXT_REFUSED], None, run(program, ["prove"], [text]))
    for what, words, text in stopped():
        tell(what, [STOPPED], None, run(program, words, [text]))
    print(f"{failed} answers are not the defined ones, or took too much" if failed else "each answer is as defined")
    return 1 if failed else 0


if __name__ == "__main__":
    sys.exit(main())
