#!/usr/bin/env python3
"""Refuses the program each of its calls for memory in turn, on small texts, and prints how many calls were tried.

Usage: bench/refused_memory.py PROGRAM

For each row the program runs once with ample memory, and then once for each of its calls for memory, of which that one alone
is refused. Each time the answer must be the row's own, or want of memory (status 7) with a front of the row's output; any
other answer is printed, and the status is then 1. The calls are those of the C library, which a shim stands before: it is
compiled by `cc` into a folder that is removed again.
"""
import concurrent.futures
import os
import pathlib
import subprocess
import sys
import tempfile

MEMORY = 7

SHIM = r"""
#define _GNU_SOURCE
#include <dlfcn.h>
#include <errno.h>
#include <stdio.h>
#include <stdlib.h>

static unsigned long calls, refused;

/* Whether this call is the one that is refused: calls are numbered from 1, and no call has the number 0. */
static int is_refused(void) {
    return ++calls == refused;
}

__attribute__((constructor)) static void begin(void) {
    const char *text = getenv("REFUSED_CALL");
    refused = text ? strtoul(text, 0, 10) : 0;
    calls = 0;
}

__attribute__((destructor)) static void end(void) {
    const char *name = getenv("CALLS_FILE");
    FILE *file;
    refused = 0;
    if (name && (file = fopen(name, "w"))) {
        fprintf(file, "%lu\n", calls);
        fclose(file);
    }
}

#define REAL(name) \
    static __typeof__(name) *real; \
    if (!real) real = (__typeof__(real))dlsym(RTLD_NEXT, #name)

void *malloc(size_t size) {
    REAL(malloc);
    return is_refused() ? (errno = ENOMEM, NULL) : real(size);
}

void *realloc(void *old, size_t size) {
    REAL(realloc);
    return is_refused() ? (errno = ENOMEM, NULL) : real(old, size);
}

void *aligned_alloc(size_t align, size_t size) {
    REAL(aligned_alloc);
    return is_refused() ? (errno = ENOMEM, NULL) : real(align, size);
}

void *calloc(size_t count, size_t size) {
    REAL(calloc);
    return is_refused() ? (errno = ENOMEM, NULL) : real(count, size);
}

int posix_memalign(void **to, size_t align, size_t size) {
    REAL(posix_memalign);
    return is_refused() ? ENOMEM : real(to, align, size);
}
"""

REPEATED = b"""construction 1
rank 3
free A B C
conclude collinear A A B
"""

ONE_TURN = b"""construction 1
rank 3
free A B C D E F
conclude concurrent (join C F) (join A B) (join D E)
"""

THREE_LINES = b"""construction 1
rank 3
free A B C D E F
line l = join A B
line m = join C D
line n = join E F
conclude concurrent l m n
"""


def run(program, words, text, shim=None, refused=0, calls=None):
    """The status and the output of one run, of which the call with this number is refused."""
    more = {"LD_PRELOAD": shim, "REFUSED_CALL": str(refused)} if shim else {}
    more |= {"CALLS_FILE": calls} if calls else {}
    made = subprocess.run([program, *words], input=text, capture_output=True, env=os.environ | more)
    return made.returncode, made.stdout


def rows(program):
    """The words and the input of each row: proofs with and without turns, in two ways, and what checks and compares them."""
    yield "a point twice", ["prove"], REPEATED
    yield "one turn", ["prove"], ONE_TURN
    yield "one turn, contracted", ["prove", "--contract"], ONE_TURN
    yield "three lines", ["prove"], THREE_LINES
    for name, text in [("one turn", ONE_TURN), ("three lines", THREE_LINES)]:
        yield f"{name}, checked", ["check"], text + run(program, ["prove"], text)[1]
    yield "one turn twice", ["same"], ONE_TURN + b"and\n" + ONE_TURN
    yield "a sample", ["sample", "1"], b""
    yield "a fault", ["prove"], REPEATED + b"point A"


def main():
    if len(sys.argv) != 2 or sys.argv[1].startswith("-"):
        print(__doc__.strip())
        return 0 if sys.argv[1:] in (["-h"], ["--help"]) else 2
    program, failed = os.path.abspath(sys.argv[1]), 0
    with tempfile.TemporaryDirectory() as folder, concurrent.futures.ThreadPoolExecutor(os.cpu_count()) as pool:
        source, shim, calls = (f"{folder}/{name}" for name in ("shim.c", "shim.so", "calls"))
        pathlib.Path(source).write_text(SHIM)
        subprocess.run(["cc", "-O2", "-shared", "-fPIC", "-fno-builtin", "-o", shim, source, "-ldl"], check=True)
        for name, words, text in rows(program):
            status, output = run(program, words, text, shim, 0, calls)
            if (status, output) != run(program, words, text):
                print(f"{name}: the shim alone changes the answer")
                return 1
            count, wants = int(pathlib.Path(calls).read_text()), 0
            tried = pool.map(lambda call: run(program, words, text, shim, call), range(1, count + 1))
            for call, (got, wrote) in enumerate(tried, 1):
                wants += got == MEMORY
                if (got, wrote) != (status, output) and not (got == MEMORY and output.startswith(wrote)):
                    failed += 1
                    print(f"{name}: with call {call} of {count} refused, status {got} and {len(wrote)} bytes")
            print(f"{name}: {count} calls refused in turn, of which {wants} are answered by want of memory")
    print("each answer is the row's own, or want of memory" if not failed else f"{failed} answers are neither")
    return 1 if failed else 0


if __name__ == "__main__":
    sys.exit(main())
