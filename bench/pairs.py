#!/usr/bin/env python3
"""Prints the turns and the seconds that `prove` takes on pairs of texts that state one theorem, a dear and a cheap one,
most from examples/: the table of docs/GUIDE.md, which says what makes a text dear.

Usage: bench/pairs.py PROGRAM
"""
import pathlib
import re
import subprocess
import sys
import time
from dataclasses import dataclass

EXAMPLES = pathlib.Path(__file__).resolve().parent.parent / "examples"
BUDGET = "100000"

# The quadrilateral by four lines, each joined by two free points that nothing else uses.
HELPING_POINTS = """construction 1
rank 3
free A A' B B' C C' D D' P
line a = join A A'
line b = join B B'
line c = join C C'
line d = join D D'
point E = meet a c
point F = meet b d
line e = join E F
point X = meet (join (meet a b) (meet c d)) e
point Y = meet (join (meet b c) (meet d a)) e
point Q = on X P with s t
point R = meet (join E P) (join F Q)
point S = meet (join F P) (join E Q)
conclude collinear R S Y
"""


@dataclass
class Text:
    """A text of examples/, with another order of the free names or of the arguments of the claim, or a text itself."""

    name: str
    free: str = ""
    claim: str = ""
    whole: str = ""

    def bytes(self):
        text = self.whole or (EXAMPLES / f"{self.name}.txt").read_text()
        text = re.sub(r"(?m)^free .*$", f"free {self.free}", text) if self.free else text
        text = re.sub(r"(?m)^conclude (\w+) .*$", rf"conclude \1 {self.claim}", text) if self.claim else text
        return text.encode()

    def said(self):
        if self.whole:
            return self.name
        changed = f"free {self.free}" if self.free else self.claim
        return f"`{self.name}`" + (f" with `{changed}`" if changed else "")


PAIRS = [
    ("few free points", Text("quadrilateral by lines of free points", whole=HELPING_POINTS), Text("quadrilateral")),
    ("points on lines by `on`", Text("desargues"), Text("desargues_on")),
    ("points on lines by `on`", Text("pappus"), Text("pappus_on")),
    ("points of a conic by parameters", Text("pascal"), Text("pascal_on")),
    ("order of the free names", Text("newton_gauss", "Y D C B X A"), Text("newton_gauss", "X Y C B D A")),
    ("order of the free names", Text("pascal_converse", "A P C E D B"), Text("pascal_converse", "E D P C B A")),
    ("order of the free names", Text("pascal", "D A E C Q B"), Text("pascal", "C D E B Q A")),
    ("order of the arguments", Text("pascal", claim="Z Y X"), Text("pascal", claim="X Y Z")),
    ("order of the arguments", Text("newton_gauss", claim="N K M"), Text("newton_gauss", claim="K M N")),
]


def run(program, text):
    """The turns, and the seconds of the fastest of three runs, or of one that is long, as cells of the table."""
    seconds = []
    while len(seconds) < 3 and sum(seconds) < 1:
        begin = time.monotonic()
        proof = subprocess.run([program, "prove", "--budget", BUDGET], input=text, stdout=subprocess.PIPE).stdout
        seconds.append(time.monotonic() - begin)
    lines = proof.decode().split("\n")
    turns = sum(line.startswith("use ") for line in lines)
    return f"{'over ' if lines[-2].startswith('stopped') else ''}{turns:,} | {min(seconds):.3f}"


def main():
    if len(sys.argv) != 2:
        sys.exit(__doc__)
    print("| What | Dear | Turns | Seconds | Cheap | Turns | Seconds |\n|---|---|---|---|---|---|---|")
    for why, *texts in PAIRS:
        cells = (f"{text.said()} | {run(sys.argv[1], text.bytes())}" for text in texts)
        print(f"| {why} | {' | '.join(cells)} |", flush=True)


if __name__ == "__main__":
    main()
