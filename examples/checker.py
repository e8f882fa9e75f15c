#!/usr/bin/env python3
"""Checks a proof against its construction text, by docs/FORMATS.md alone and with nothing of the program.

Usage: ./linepear prove < TEXT | examples/checker.py TEXT    (Python 3.10 or later)

Prints `accepted proved` (status 0), `accepted refuted` (1), or `refused line L: ..` (8) with a line of the proof. The
text has to be a construction, as `prove` sees to. Numbers are held to their limits where they are written, not between.
"""
import re
import sys
from collections import Counter, defaultdict
from functools import reduce
from itertools import combinations, product
from operator import add

LARGEST, MOST_ROWS, MOST_REST, MOST_EXPONENT = 2**127 - 1, 64, 62, 1000
SIX_POINTS = ((1, ("012", "034", "135", "245")), (-1, ("013", "024", "125", "345")))


def need(fact, why):
    if not fact:
        raise ValueError(why)


def in_order(points):
    """The points ascending, and the sign of the sequence, which is 0 where a point comes twice."""
    falls = sum(first > second for first, second in combinations(points, 2))
    return tuple(sorted(points)), (-1) ** falls * (len(set(points)) == len(points))


def splits(points, count):
    """Each choice of the places of so many points: those there, the others, and the sign of their places in a row."""
    for chosen in combinations(range(len(points)), count):
        others = tuple(at for at in range(len(points)) if at not in chosen)
        yield tuple(points[at] for at in chosen), tuple(points[at] for at in others), in_order(chosen + others)[1]


def times(first, second, *others):
    """The product of polynomials: numbers by keys, and a key is exponents and ascending rows."""
    made = Counter()
    for ((powers, rows), number), ((more, added), by) in product(first.items(), second.items()):
        made[tuple(map(add, powers, more)), tuple(sorted(rows + added))] += number * by
    made = {key: number for key, number in made.items() if number}
    return times(made, *others) if others else made


class Checker:
    """Makes the objects of a text, each from its step and polynomials by points, and reads them in the proof."""

    def __init__(self, text, proof):
        lines = [re.findall(r"[\w']+|[()=]", line.split("#")[0], re.ASCII) for line in text.split("\n")]
        (_, (_, rank), *self.statements) = [words for words in lines if words]
        self.rank, self.lines, self.at, self.objects = int(rank), proof.split("\n"), 0, 0
        self.free = [name for word, *names in self.statements if word == "free" for name in names]
        used = [words[at : at + 2] for words in self.statements for at, word in enumerate(words, 1) if word == "with"]
        self.params = [*dict.fromkeys(name for pair in used for name in pair)]
        self.named = {name: (1, {(at,): self.number(1)}) for at, name in enumerate(self.free)}

    def number(self, number, param=None, rows=()):
        return {(tuple(int(name == param) for name in self.params), rows): number}

    def bracket(self, points, sign=1):
        row, turned = in_order(points)
        return self.number(sign * turned, rows=(row,))

    def argument(self, words):
        word = words.pop(0)
        made, _ = (self.expression(words), words.pop(0)) if word == "(" else (self.named[word], word)
        return made

    def expression(self, words):
        word, a, b = words.pop(0), self.argument(words), self.argument(words)
        if word != "pascal":
            return self.on(a, b, words[1:]) if word == "on" else self.make(word, a, b)
        c, d, e, _, q = [words.pop(0) if at == 3 else self.argument(words) for at in range(5)]
        line, first, fourth = self.make("join", a, q), self.make("join", a, b), self.make("join", d, e)
        x, third = self.make("meet", first, fourth), self.make("join", c, d)
        y, second = self.make("meet", line, third), self.make("join", b, c)
        return self.make("meet", line, self.make("join", e, self.make("meet", second, self.make("join", x, y))))

    def conclude(self, word, words):
        arguments = [self.argument(words) for _ in iter(lambda: bool(words), False)]
        if word == "conic":
            return self.conic([value for _, value in arguments])
        verb = "meet" if word == "concurrent" else "join"
        return reduce(lambda made, other: self.make(verb, made, other), arguments)

    def make(self, word, a, b):
        """A meet, or a join; where that is one bracket, it is the sum of a meet that leaves no points."""
        starts, step = defaultdict(Counter), a[0] + b[0]
        for (left, first), (right, second) in product(a[1].items(), b[1].items()):
            if word == "join" and step < self.rank:
                points, sign = in_order(left + right)
                starts[points].update(times(first, second, self.number(sign)))
                continue
            for chosen, rest, sign in splits(left, self.rank - b[0]):
                starts[rest].update(times(first, second, self.bracket(chosen + right, sign)))
        return self.object(step - self.rank if word == "meet" else step, starts)

    def on(self, a, b, params):
        starts = defaultdict(Counter)
        for (_, value), param in zip((a, b), params):
            for points, scalar in value.items():
                starts[points].update(times(scalar, self.number(1, param)))
        return self.object(1, starts)

    def conic(self, values):
        start = Counter()
        for sign, rows in SIX_POINTS:
            whole = self.number(sign)
            for row in rows:
                made = Counter()
                for (a, first), (b, second), (c, third) in product(*(values[int(it)].items() for it in row)):
                    made.update(times(first, second, third, self.bracket(a + b + c)))
                whole = times(whole, made)
            start.update(whole)
        return self.object(0, {(): start})

    def object(self, step, starts):
        """Reads an object with the sections of its starts, and returns it with their ends."""
        self.objects, ends = self.objects + 1, {}
        self.take(f"object {self.objects} step {step}")
        for points in [()] if step in (0, self.rank) else sorted(it for it in starts if any(starts[it].values())):
            self.take(" ".join(["scalar", *(self.free[point] for point in points)]))
            ends[points] = self.section(starts[points])
        return step, ends

    def section(self, total):
        """Holds a section to its start, and returns its end, which is normal and has the same value."""
        need(self.terms("start") == total, "this start is not made of the earlier ends")
        while self.lines[self.at].startswith("use "):
            total.update(self.multiple(self.take()))
        end = self.terms("end")
        need(end == total, "the start and the uses come to another end")
        need(all(a <= b for _, rows in end for pair in zip(rows, rows[1:]) for a, b in zip(*pair)), "not standard")
        return end

    def multiple(self, line):
        """What a use adds: its syzygy, which is zero, times its number, parameters and rest."""
        ((front, *lists),) = re.findall(r"^use ([^;]*) ;((?: [^ ;]+)*) ;((?: [^ ;]+)*) ;((?: [^ ;]+)*)$", line)
        alpha, beta, gamma = (tuple(map(self.free.index, names.split())) for names in lists)
        need((len(beta), len(alpha + gamma)) == (self.rank + 1, self.rank - 1), "no syzygy has so many points")
        made, (key, number) = Counter(), self.term(front, MOST_REST)
        for chosen, others, sign in splits(beta, len(alpha) + 1):
            made.update(times({key: number}, self.bracket(alpha + others, sign), self.bracket(chosen + gamma)))
        return made

    def take(self, wanted=None):
        line, self.at = self.lines[self.at], self.at + 1
        need(wanted in (None, line), f"this is not `{wanted}`")
        return line

    def terms(self, word):
        self.take(word)
        found = []
        while self.lines[self.at].startswith(("+", "-")):
            found.append(self.term(self.take(), MOST_ROWS))
        need([key for key, _ in found] == sorted({key for key, _ in found}), "the terms do not ascend")
        return Counter(dict(found if found or self.take("zero") else ()))

    def term(self, said, most_rows):
        number, *words = re.findall(r"\[[^]]*\]|[^ ]+", said)
        powers = dict(it.split("^") for it in words if it[0] != "[")
        exponents, number = tuple(int(powers.get(name, 0)) for name in self.params), int(number)
        rows = tuple(tuple(map(self.free.index, it[1:-1].split())) for it in words if it[0] == "[")
        spelled = [f" {name}^{power}" for name, power in zip(self.params, exponents) if power]
        spelled += [f" [{' '.join(self.free[point] for point in row)}]" for row in rows]
        need(said == f"{number:+d}" + "".join(spelled), "a term has one spelling")
        are_rows = all(len(row) == self.rank and in_order(row) == (row, 1) for row in rows)
        need(are_rows and list(rows) == sorted(rows), "points or rows do not ascend")
        are_small = abs(number) <= LARGEST and len(rows) <= most_rows and max(exponents, default=0) <= MOST_EXPONENT
        need(number and are_small, "zero, or a limit is passed")
        return (exponents, rows), number

    def check(self):
        """Returns the verdict, which is on the last line."""
        for words in (["proof", "1"], ["rank", str(self.rank)], ["free", *self.free], ["params", *self.params]):
            self.take(" ".join(words))
        for word, *words in self.statements:
            if word == "conclude":
                verdict = "refuted" if self.conclude(words.pop(0), words)[1][()] else "proved"
            elif word != "free":
                self.named[words[0]] = self.expression(words[2:])
        self.take(verdict)
        need(self.lines[self.at :] == [""], "the verdict is not the last line")
        return verdict


if __name__ == "__main__":
    if len(sys.argv) != 2:
        sys.exit(__doc__)
    texts = (open(file, errors="replace", newline="\n").read() for file in (sys.argv[1], 0))
    checker = Checker(*texts)
    try:
        verdict = checker.check()
    except (ValueError, IndexError) as why:
        print(f"refused line {checker.at}: {why}")
        sys.exit(8)
    print("accepted", verdict)
    sys.exit(int(verdict == "refuted"))
