#!/usr/bin/env python3
"""Prints the time and the memory that library calls take on large values.

Usage: bench/libraries.py

The calls are made by a program that is proved and built by `rt run`, in a folder that is removed again; this takes some
minutes. `adds` adds a million terms over an arena, whose keys are new and then met; `many` and `more` make 100,000 and
300,000 terms normal, one turn each. The milliseconds are those that passed in the calls, and for `sums` and `turns` also in
the making of their keys; a busy machine adds to them, and so the processor's time of the whole run stands beside them. The
memory is the greatest of the whole run, and no less than Python's own, about 14 MB.
"""
import os
import pathlib
import shutil
import subprocess
import sys
import tempfile

ROOT = pathlib.Path(__file__).resolve().parent.parent
NEEDS = (
    "straightening bracket_poly term_arena cayley_terms step_types construction_reader tableau_order bracket_terms cay_base"
    " bumpalo"
)
WORDS = ["sums", "adds", "turns", "many", "more", "lowering"]

PROGRAM = r"""//! Times library calls on large values.
#![tactic(auto)]

ghost use Rattle.std.specs.Prelude.{◌<◌, ◌≤◌, IfOk};
ghost use Rattle.std.specs.List.{AllByRecursion};
ghost use Rattle.bracket_poly.specs.Products.{HasDegree};

use bracket_poly::{ArenaPoly, Key, Poly, PolyError};
use bracket_terms::{Bracket, Params, Signed, sort};
use bumpalo::Bump;
use cayley_terms::lower;
use construction_reader::{LONGEST, read};
use std::alloc::Global;
use std::env;
use std::test::Fail;
use std::time::Instant;
use step_types::check;
use straightening::straighten;
use tableau_order::Tableau;
use term_arena::Store;

/// The next number of a linear congruence.
fn next(state: &mut u64) -> u64 {
    *state = state
        .wrapping_mul(6364136223846793005)
        .wrapping_add(1442695040888963407);
    *state >> 33
}

/// A row of three different points below 198.
fn row(state: &mut u64) -> [u8; 3] {
    let first = (next(state) % 66) as u8;
    let second = first.wrapping_add(1).wrapping_add((next(state) % 66) as u8);
    let third = second.wrapping_add(1).wrapping_add((next(state) % 66) as u8);
    [first, second, third]
}

/// A key of four rows.
fn key(alloc: Global, state: &mut u64) -> Result<Key<3>, Fail> {
    let mut rows: Vec<Bracket<3>> = Vec::new(alloc);
    for _ in 0..4 {
        match sort(row(state)) {
            Signed::Zero => {}
            Signed::Plus(bracket) | Signed::Minus(bracket) => rows.push(bracket)?,
        }
    }
    let tableau = Tableau::from_rows(alloc, &rows).map_err(|_| "memory")?;
    Ok(Key { params: Params::one(), tableau })
}

/// Adds terms to one polynomial.
fn sums(rt: &HostRuntime) -> Result<(), Fail> {
    let alloc = rt.alloc();
    let start = Instant::now(rt)?;
    let mut state = 1;
    let mut poly = Poly::new(alloc);
    for _ in 0..1_000_000 {
        poly.add(key(alloc, &mut state)?, 1)?;
    }
    println!(rt; "{} terms: {}", poly.len(), start.elapsed(rt)?.as_micros())?;
    Ok(())
}

/// The tableaux of random keys.
fn tableaux(alloc: Global) -> Result<Vec<Tableau<3>>, Fail> {
    let mut state = 1;
    let mut made = Vec::new(alloc);
    for _ in 0..1_000_000 {
        made.push(key(alloc, &mut state)?.tableau)?;
    }
    Ok(made)
}

fn add_one(poly: &mut ArenaPoly<'_, 3>, tableau: &Tableau<3>) -> Result<(), PolyError> {
    poly.add(Params::one(), tableau.rows(), 1)
}

fn add_all(poly: &mut ArenaPoly<'_, 3>, tableaux: &[Tableau<3>]) -> Result<(), Fail> {
    for tableau in tableaux {
        add_one(poly, tableau)?;
    }
    Ok(())
}

/// Adds terms to one polynomial over an arena, whose keys are new and then met.
fn adds(rt: &HostRuntime) -> Result<(), Fail> {
    let alloc = rt.alloc();
    let made = tableaux(alloc)?;
    let arena = Bump::new(alloc);
    let mut poly = ArenaPoly::<3>::new(alloc, Store::<3>::new(alloc, &arena));
    for pass in ["new", "met"] {
        let start = Instant::now(rt)?;
        add_all(&mut poly, &made)?;
        println!(rt; "{} {pass} keys: {}", made.len(), start.elapsed(rt)?.as_micros())?;
    }
    Ok(())
}

/// [1 10 12][2 9 11][3 6 8][4 5 7]
fn product(alloc: Global) -> Result<Poly<3>, Fail>
    ensures { IfOk result (λ poly. HasDegree 1000 poly.tracked.sum) }
{
    let mut rows: Vec<Bracket<3>> = Vec::new(alloc);
    for points in [[1, 10, 12], [2, 9, 11], [3, 6, 8], [4, 5, 7]] {
        if let Signed::Plus(bracket) = sort(points) {
            rows.push(bracket)?;
        }
    }
    let tableau = Tableau::from_rows(alloc, &rows).map_err(|_| "memory")?;
    let params = Params::one();
    let mut poly = Poly::new(alloc);
    poly.add(Key { params, tableau }, 1)?;
    Ok(poly)
}

/// Makes a product normal again and again.
fn turns(rt: &HostRuntime) -> Result<(), Fail> {
    let alloc = rt.alloc();
    let start = Instant::now(rt)?;
    let mut turns: u64 = 0;
    for _ in 0..200 {
        match straighten(alloc, product(alloc)?, 1_000_000) {
            Ok(end) => turns = turns.wrapping_add(end.turns),
            Err(_) => return Err(Fail::from("the product is not made normal")),
        }
    }
    println!(rt; "{} turns: {}", turns, start.elapsed(rt)?.as_micros())?;
    Ok(())
}

/// The parameters 0 and 1, each to a power below 1,000.
fn powers(number: u32) -> Params
    requires { number < 1000000 }
    ensures { AllByRecursion (λ e. e ≤ 1000) result }
{
    Params::one()
        .with(0, (number / 1000) as u16)
        .with(1, (number % 1000) as u16)
}

/// [1 4 5][2 3 6] with so many products of parameters
fn family(alloc: Global, terms: u32) -> Result<Poly<3>, Fail>
    requires { terms < 1000000 }
    ensures { IfOk result (λ poly. HasDegree 1000 poly.tracked.sum) }
{
    let mut rows: Vec<Bracket<3>> = Vec::new(alloc);
    for points in [[1, 4, 5], [2, 3, 6]] {
        if let Signed::Plus(bracket) = sort(points) {
            rows.push(bracket)?;
        }
    }
    let mut poly = Poly::new(alloc);
    for number in 0..terms {
        let tableau = Tableau::from_rows(alloc, &rows).map_err(|_| "memory")?;
        let params = powers(number);
        poly.add(Key { params, tableau }, 1)?;
    }
    Ok(poly)
}

/// Makes many terms normal, one turn each.
fn turns_of(rt: &HostRuntime, terms: u32) -> Result<(), Fail>
    requires { terms < 1000000 }
{
    let alloc = rt.alloc();
    let poly = family(alloc, terms)?;
    let start = Instant::now(rt)?;
    match straighten(alloc, poly, 1_000_000) {
        Ok(end) => println!(rt; "{} turns: {}", end.turns, start.elapsed(rt)?.as_micros())?,
        Err(_) => return Err(Fail::from("the terms are not made normal")),
    }
    Ok(())
}

fn construction(alloc: Global) -> Result<String, Fail> {
    let mut text = String::new(alloc);
    text.push_str("construction 1\nrank 3\nfree")?;
    for point in 0..200 {
        text.push_str(&format!(in alloc; " F{point}")?)?;
    }
    text.push('\n')?;
    for line in 0..2000 {
        let (a, b) = (line % 200, (line % 199 + line / 199 + 1) % 200);
        text.push_str(&format!(in alloc; "line L{line} = join F{a} F{b}\n")?)?;
    }
    text.push_str("conclude concurrent L0 L1 L2\n")?;
    Ok(text)
}

/// Lowers a construction.
fn lowering(rt: &HostRuntime) -> Result<(), Fail> {
    let alloc = rt.alloc();
    let text = construction(alloc)?;
    if text.len() > LONGEST {
        return Err(Fail::from("the text is too long"));
    }
    let checked = check(alloc, read(alloc, text.as_bytes())?)?;
    let start = Instant::now(rt)?;
    let program = lower(alloc, &checked)?;
    println!(rt; "{} instructions: {}", program.instrs.items().len(), start.elapsed(rt)?.as_micros())?;
    Ok(())
}

fn main(rt: HostRuntime) -> Result<(), Fail> {
    for word in env::args(&rt)?.skip(1) {
        match word.as_str() {
            "sums" => sums(&rt)?,
            "adds" => adds(&rt)?,
            "turns" => turns(&rt)?,
            "many" => turns_of(&rt, 100_000)?,
            "more" => turns_of(&rt, 300_000)?,
            "lowering" => lowering(&rt)?,
            _ => return Err(Fail::from("no such word")),
        }
    }
    Ok(())
}
"""

# That no exponent passes 1,000, as `straighten` asks.
PROOFS = {
    "product/Answers.antt": """use Rattle.std.proofs.Common.{◌≤◌, List, ℕ, replicate, sym, subst}
use Rattle.std.specs.List.{AllByRecursion}
use Rattle.bracket_poly.specs.Tracked.{Tracked}
use Rattle.bracket_poly.specs.Products.{HasDegree}
use Rattle.bracket_poly.proofs.Degrees.{degree_after}
use Rattle.bracket_terms.proofs.ExponentLaws.{all_up_to}
use Rattle.bench.proofs.product.Goals as goal

pub returns : goal.returns
returns c =
    degree_after 1000 c.new-poly.result.tracked _ _ c.in_ok-add.ensures.added
    (subst (λ (p : Tracked). HasDegree 1000 p.sum) (sym c.new-poly.ensures) tt)
    (subst (λ (es : List ℕ). AllByRecursion (λ e. e ≤ 1000) es) (sym c.one-params.ensures)
    (all_up_to 1000 (replicate 64 0) tt))
""",
    "powers/Answers.antt": """use Rattle.std.proofs.Common.{◌≤◌, List, ℕ, replicate, sym, ap, subst, ◌∙◌, arith, ◌/◌, ◌%◌}
use Rattle.std.specs.List.{AllByRecursion}
use Rattle.std.specs.Prelude.{slice_set}
use Rattle.bracket_terms.proofs.ExponentLaws.{all_up_to}
use Rattle.bench.proofs.powers.Goals as goal

abbrev Small : List ℕ → Type 0
Small es = AllByRecursion (λ e. e ≤ 1000) es

two_small : (a b : ℕ) → a ≤ 1000 → b ≤ 1000 → Small (slice_set (slice_set (replicate 64 0) 0 a) 1 b)
two_small a b h k = (h, (k, all_up_to 1000 (replicate 62 0) tt))

pub returns : goal.returns
returns c =
    let high : c.args.number / 1000 ≤ 1000 = omega (arith, c.requires) in
    let low : c.args.number % 1000 ≤ 1000 = omega (arith, c.requires) in
    subst Small
    (sym (c.with-2.ensures.exponents
    ∙ ap (λ (es : List ℕ). slice_set es 1 (c.args.number % 1000))
    (c.with.ensures.exponents ∙ ap (λ (es : List ℕ). slice_set es 0 (c.args.number / 1000)) c.one.ensures)))
    (two_small (c.args.number / 1000) (c.args.number % 1000) high low)
""",
    "family/Invariants.antt": """use Rattle.bracket_poly.specs.Products.{HasDegree}
use Rattle.bench.proofs.family.Given as goal

abbrev pub invariant-loop-number : goal.invariant-loop-number
invariant-loop-number l = HasDegree 1000 l.poly.tracked.sum
""",
    "family/Answers.antt": """use Rattle.bracket_poly.proofs.Degrees.{degree_after}
use Rattle.bench.proofs.family.Goals as goal

pub loop-number-preserved : goal.loop-number-preserved
loop-number-preserved c =
    degree_after 1000 c.loop-number.poly.tracked _ _ c.in_ok-add.ensures.added c.loop-number.invariant c.powers-params.ensures
""",
}


def write(file, text):
    file.parent.mkdir(parents=True, exist_ok=True)
    file.write_text(text, encoding="utf-8")


def build(place):
    """The program, built in the folder over a copy of the crates."""
    shutil.copytree(ROOT / "crates", place / "crates", ignore=shutil.ignore_patterns("out"))
    shutil.copy(ROOT / "HANDLES", place)
    (place / "crates.txt").write_text((ROOT / "crates.txt").read_text() + f"bench: {NEEDS}\n")
    crate = place / "crates" / "bench"
    write(crate / "src" / "main.rt", PROGRAM)
    for name, proof in PROOFS.items():
        write(crate / "proofs" / name, proof)
    made = subprocess.run(["rt", "run"], cwd=crate, stdin=subprocess.DEVNULL, stdout=subprocess.PIPE, stderr=subprocess.STDOUT)
    if made.returncode != 0:
        sys.exit(made.stdout.decode())
    return str(crate / "out" / "bench")


def run(program, word):
    """What was made and the milliseconds, line by line; the processor's milliseconds and the greatest memory in MB of a run."""
    with tempfile.TemporaryFile() as sink:
        actions = [(os.POSIX_SPAWN_DUP2, sink.fileno(), 1)]
        child = os.posix_spawn(program, [program, word], os.environ, file_actions=actions)
        _, status, usage = os.wait4(child, 0)
        if status != 0:
            sys.exit(f"{word}: status {os.waitstatus_to_exitcode(status)}")
        sink.seek(0)
        lines = [line.split(": ") for line in sink.read().decode().splitlines()]
        made = [(what, int(micros) / 1000) for what, micros in lines]
        return made, (usage.ru_utime + usage.ru_stime) * 1000, usage.ru_maxrss / 1024


def main():
    with tempfile.TemporaryDirectory() as place:
        program = build(pathlib.Path(place))
        for word in WORDS:
            made, busy, memory = run(program, word)
            for what, millis in made:
                print(f"{word:8}  {what:18}  {millis:8.1f} ms  processor {busy:8.1f} ms  {memory:6.1f} MB", flush=True)


if __name__ == "__main__":
    main()
