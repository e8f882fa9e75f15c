#!/usr/bin/env python3
"""Works the values of crates/worked_values out by an algebra of its own, in the ranks 2, 3 and 4.

  worked_values.py      writes the lines of worked_values.txt into crates/worked_values/stdin, and with their answers into
                        stdout beside it

Nothing here is taken from the program: a bracket polynomial is a dictionary of keys, each a number of the parameter
and the sorted rows, and syzygies, turns and passes are made from their definitions in docs/FORMATS.md and in the
README of each crate. A line is a call, its rank or `-`, and what it is called with.
"""
import itertools, pathlib, re, sys

MOST = 2**127 - 1


class Limit(Exception):
    """A coefficient over the limit."""


# ---- sequences and brackets

def sign(points):
    """1 where the inversions are even in number, -1 where they are odd."""
    odd = sum(a > b for a, b in itertools.combinations(points, 2)) % 2
    return -1 if odd else 1


def sort(points):
    """The sign and the sorted points; the sign is 0 where a point comes twice."""
    repeats = len(set(points)) < len(points)
    return (0 if repeats else sign(points)), "".join(sorted(points))


def rows_of(word):
    return tuple(sorted(part[:-1] for part in word.split("[")[1:]))


def spelt(rows):
    return "".join("[%s]" % row for row in rows)


def violation(rows):
    """The first row and column in which a row falls to the next one."""
    for i in range(len(rows) - 1):
        for j, (a, b) in enumerate(zip(rows[i], rows[i + 1])):
            if a > b:
                return i, j
    return None


def within(c):
    if abs(c) > MOST:
        raise Limit
    return c


# ---- polynomials: integers by keys (exponents of the parameters, sorted rows)

def exponents(*pairs):
    listed = [0] * 64
    for i, e in pairs:
        listed[i] += e
    return tuple(listed)


def add(poly, key, c):
    """Adds, and keeps keys that come to 0, which stay met."""
    poly[key] = within(poly.get(key, 0) + c)


def times(key, other, more=()):
    return tuple(a + b for a, b in zip(key[0], other[0])), tuple(sorted(key[1] + other[1] + more))


def mul_add(poly, f, g, rows, by):
    for k, c in sorted(f.items()):
        for l, e in sorted(g.items()):
            if c and e:
                add(poly, times(k, l, rows), within(c * e) * by)


def terms(poly):
    return [(key, c) for key, c in sorted(poly.items()) if c]


def term_text(c, key):
    params = "".join("t%d^%d" % (i, e) for i, e in enumerate(key[0]) if e)
    return " %+d%s%s" % (c, params, spelt(key[1]))


def text(poly):
    return "".join(term_text(c, key) for key, c in terms(poly)) or " zero"


def read_term(word):
    front = word.split("[")[0]
    params = exponents((0, 1)) if "t" in front else exponents()
    return (params, rows_of(word)), int(front.split("t")[0])


def read(words):
    poly = {}
    for word in words.split():
        add(poly, *read_term(word))
    return poly


def count(poly):
    """How many different rows the met keys have."""
    return len({rows for _, rows in poly})


# ---- syzygies

def syzygy(alpha, beta, gamma):
    """Terms by their two sorted rows: sets of places of beta go to the second bracket, the others to the first."""
    found = {}
    size = len(alpha) + 1
    for chosen in itertools.combinations(range(len(beta)), size):
        others = [i for i in range(len(beta)) if i not in chosen]
        low = sort(alpha + "".join(beta[i] for i in others))
        high = sort("".join(beta[i] for i in chosen) + gamma)
        pair = tuple(sorted((low[1], high[1])))
        found[pair] = found.get(pair, 0) + sign(list(chosen) + others) * low[0] * high[0]
    return {pair: c for pair, c in sorted(found.items()) if c}


def at_violation(rows):
    """Alpha, beta and gamma at the first violation, the coefficient of the two rows, and the other rows."""
    i, s = violation(rows)
    a, b = rows[i], rows[i + 1]
    alpha, beta, gamma = a[:s], b[:s + 1] + a[s:], b[s + 1:]
    found = syzygy(alpha, beta, gamma)
    return alpha, beta, gamma, found[tuple(sorted((a, b)))], rows[:i] + rows[i + 2:]


def add_use(poly, use):
    m, params, rest, alpha, beta, gamma = use
    for pair, c in syzygy(alpha, beta, gamma).items():
        add(poly, (params, tuple(sorted(rest + pair))), within(m * c))


def parts_text(alpha, beta, gamma):
    return " {%s|%s|%s}" % (alpha, beta, gamma)


def uses_text(uses):
    return "".join(", use" + term_text(m, (params, rest)) + parts_text(*parts) for m, params, rest, *parts in uses)


def straighten(poly, budget):
    """Turns up to a normal polynomial or a stop: the stop, the polynomial, the uses."""
    uses = []
    while True:
        left = [(key, c) for key, c in terms(poly) if violation(key[1])]
        if not left:
            return None, poly, uses
        if len(uses) == budget:
            return "turns", poly, uses
        (params, rows), c = left[-1]
        alpha, beta, gamma, one, rest = at_violation(rows)
        use = -c * one, params, rest, alpha, beta, gamma
        after = dict(poly)
        try:
            add_use(after, use)
        except Limit:
            return "coefficient", poly, uses
        poly = after
        uses.append(use)


def next_pass(poly):
    """The use that cancels the first pair of terms that a three-term syzygy turns into one."""
    for (k, c), (l, e) in itertools.combinations(terms(poly), 2):
        first, second = list(k[1]), list(l[1])
        for row in k[1]:
            if row in second:
                first.remove(row)
                second.remove(row)
        if k[0] != l[0] or len(first) != 2 or len(second) != 2:
            continue
        shared = [p for p in first[0] if p in first[1]]
        further = sorted(p for p in first[0] + first[1] if p not in shared)
        if shared != [p for p in second[0] if p in second[1]] or len(further) != 4:
            continue
        if further != sorted(p for p in second[0] + second[1] if p not in shared):
            continue
        alike = "".join(shared)
        beta, gamma = alike + "".join(further[1:]), alike + further[0]
        found = syzygy("", beta, gamma)
        m = -c * found[tuple(first)]
        if e + m * found[tuple(second)] == 0:
            rest = list(k[1])
            for row in first:
                rest.remove(row)
            return m, k[0], tuple(rest), "", beta, gamma
    return None


def contract(poly):
    uses = []
    while len(terms(poly)) <= 200:
        use = next_pass(poly)
        if use is None:
            break
        after = dict(poly)
        try:
            add_use(after, use)
        except Limit:
            return "coefficient", poly, uses
        poly = after
        uses.append(use)
    return None, poly, uses


# ---- values: a step, and polynomials by extensors

ONE = exponents(), ()


def point(p, c):
    return 1, {p: {ONE: c}}


def collect(step, products):
    """The value that products of an extensor, two polynomials, rows and a sign add up to."""
    entries = {}
    for extensor, f, g, rows, by in products:
        mul_add(entries.setdefault(extensor, {}), f, g, rows, by)
    return step, entries


def join(rank, a, b):
    products = []
    for (i, f), (j, g) in itertools.product(sorted(a[1].items()), sorted(b[1].items())):
        by, union = sort(i + j)
        if by:
            products.append(("", f, g, (union,), by) if len(union) == rank else (union, f, g, (), by))
    return collect(a[0] + b[0], products)


def meet(rank, a, b):
    products = []
    for (i, f), (j, g) in itertools.product(sorted(a[1].items()), sorted(b[1].items())):
        for chosen in itertools.combinations(range(len(i)), rank - b[0]):
            others = [n for n in range(len(i)) if n not in chosen]
            by, row = sort("".join(i[n] for n in chosen) + j)
            if by:
                by *= sign(list(chosen) + others)
                products.append(("".join(i[n] for n in others), f, g, (row,), by))
    return collect(a[0] + b[0] - rank, products)


def on(a, b, s, t):
    products = [(i, f, {(exponents((s, 1)), ()): 1}, (), 1) for i, f in sorted(a[1].items())]
    products += [(i, f, {(exponents((t, 1)), ()): 1}, (), 1) for i, f in sorted(b[1].items())]
    return collect(1, products)


def value_text(value):
    step, entries = value
    shown = [" <%s>%s" % (i, text(f)) for i, f in sorted(entries.items()) if terms(f)]
    return "".join(shown) + " step %d" % step


def objects(rank, words):
    a, b, c = words.split()
    made = []
    for points in (a, b):
        value = point(points[0], int(c))
        for p in points[1:]:
            value = join(rank, value, point(p, 1))
        made.append(value)
    return made


# ---- answers

def answer_split(rank, words):
    n, k = map(int, words.split())
    found = ""
    for chosen in itertools.combinations(range(n), k):
        others = [i for i in range(n) if i not in chosen]
        found += " %s%s" % ("".join(str(i + 1) for i in chosen), "-+"[sign(list(chosen) + others) > 0])
    return found


def answer_join_points(rank, words):
    by, union = sort(words.replace(" ", ""))
    return " " + {0: "none", 1: "+" + union, -1: "-" + union}[by]


def answer_sort(rank, word):
    by, row = sort(word)
    return " " + {0: "zero", 1: "+[%s]" % row, -1: "-[%s]" % row}[by]


def answer_violation(rank, word):
    place = violation(rows_of(word))
    return " row %d column %d" % place if place else " standard, none"


def answer_merge(rank, words):
    a, b = map(rows_of, words.split())
    merged = tuple(sorted(a + b))
    return " %s, %s" % (spelt(merged), "less" if a < merged else "equal" if a == merged else "greater")


def answer_store(rank, words):
    kept, found = [], ""
    for word in words.split():
        rows = rows_of(word)
        found += " found" if rows in kept else " new"
        kept += [] if rows in kept else [rows]
        found += " %d" % kept.index(rows)
    return "%s, %d row lists" % (found, len(kept))


def answer_add(rank, words):
    return text(read(words))


def answer_mul_add(rank, words):
    row, a, b = words.split(";")
    product = {}
    mul_add(product, read(a), read(b), rows_of(row), -1)
    return text(product)


def answer_arena(rank, words):
    start, more = words.split(";")
    poly, found = read(start), ""
    for word in more.split():
        key, c = read_term(word)
        add(poly, key, c)
        found += " true %+d," % poly[key]
    shown = "".join(term_text(c, key) for key, c in terms(poly))
    return "%s%s,%s, %d row lists" % (found, shown, text(poly), count(poly))


def answer_join(rank, words):
    return value_text(join(rank, *objects(rank, words)))


def answer_meet(rank, words):
    return value_text(meet(rank, *objects(rank, words)))


def answer_on(rank, words):
    t, words = words.split(" ", 1)
    return value_text(on(*objects(rank, words), 0, int(t)))


def answer_bracket(rank, words):
    row, c = words.split()
    by, points = sort(row)
    return text({(exponents(), (points,)): by * within(int(c) ** 2)} if by else {})


def answer_conic(rank, words):
    points, c = words.split()
    result = {}
    for by, lists in ((1, ("012", "034", "135", "245")), (-1, ("013", "024", "125", "345"))):
        rows, all_signs = [], by
        for numbers in lists:
            one, row = sort("".join(points[int(n)] for n in numbers))
            all_signs *= one
            rows.append(row)
        if all_signs:
            add(result, (exponents(), tuple(sorted(rows))), all_signs * within(int(c) ** 12))
    return text(result)


def answer_syzygy(rank, words):
    return "".join(term_text(c, (exponents(), pair)) for pair, c in syzygy(*words.split("|")).items())


def answer_at_place(rank, word):
    alpha, beta, gamma, one, _ = at_violation(rows_of(word))
    shown = answer_syzygy(rank, "%s|%s|%s" % (alpha, beta, gamma))
    return " %+d%s:%s" % (one, parts_text(alpha, beta, gamma), shown)


def answer_add_multiple(rank, words):
    first, second = map(read, words.split(";"))
    for use in straighten(first, 1000)[2]:
        add_use(second, use)
    return text(second)


def answer_queue(rank, words):
    first, second = map(rows_of, words.split())
    found, kept = "", set()
    for rows in (first, second, first):
        found += " true" if rows not in kept else " false"
        kept.add(rows)
    for rows in (first, second, first):
        found += " %s" % (spelt(max(kept)) if kept else "none")
        found += " true" if rows in kept else " false"
        kept.discard(rows)
    return found


def run_text(run):
    stop, poly, uses = run
    return "%s, turns %d%s" % (" " + stop if stop else text(poly), len(uses), uses_text(uses))


def answer_straighten(rank, words):
    budget, words = words.split(" ", 1)
    return run_text(straighten(read(words), int(budget)))


def answer_straighten_in(rank, words):
    budget, words = words.split(" ", 1)
    stop, poly, uses = straighten(read(words), int(budget))
    return ("" if stop else " %d row lists," % count(poly)) + run_text((stop, poly, uses))


def answer_contract(rank, words):
    stop, poly, uses = contract(read(words))
    return (" %s, turns 0" % stop if stop else text(poly)) + uses_text(uses)


# ---- the lines

def main():
    if len(sys.argv) > 1:
        return print(__doc__)
    here = pathlib.Path(__file__).resolve().parent
    crate = here.parent / "crates" / "worked_values"
    lines, answers = [], []
    for line in (here / "worked_values.txt").read_text().split("\n"):
        if line.startswith("    "):
            answers[-1] = "%s:%s" % (lines[-1], line[3:])
        elif line and not line.startswith("#"):
            lines.append(re.sub(r"\bM\b", str(MOST), line))
            answers.append(lines[-1] + ":" + answer(lines[-1]))
    (crate / "stdin").write_text("".join(line + "\n" for line in lines))
    (crate / "stdout").write_text("".join(answer + "\n" for answer in answers))


def answer(line):
    """What a line is answered, and nothing where that stands below it."""
    call, rank, words = line.split(" ", 2)
    if call == "Splits::<4,2>":
        call, words = "split", "4 2"
    work = globals().get("answer_" + call)
    if work is None:
        return ""
    try:
        return work(int(rank) if rank != "-" else 0, words)
    except Limit:
        return " coefficient"


if __name__ == "__main__":
    main()
