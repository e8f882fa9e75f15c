#!/usr/bin/env python3
"""Prints the time of passes of contraction on a start of 200 terms.

Usage: bench/contraction.py

The calls are made by a program that is proved and built by `rt run`, in a folder that is removed again; this takes some
minutes. `none` looks at all pairs among 200 products of three brackets of nine points, none of which has a pass; `pairs`
makes a hundred passes. The milliseconds are those that passed in the call; a busy machine adds to them.
"""
import pathlib
import shutil
import subprocess
import sys
import tempfile

ROOT = pathlib.Path(__file__).resolve().parent.parent
NEEDS = "contraction bracket_poly tableau_order bracket_terms cay_base"
WORDS = ["none", "pairs"]

PROGRAM = r"""//! Times passes of contraction.
#![tactic(auto)]

ghost use Rattle.std.specs.Prelude.{◌≢◌, pos, T, IfOk, OnOk};
ghost use Rattle.bracket_poly.specs.Products.{HasDegree};
ghost use Rattle.bracket_poly.specs.Tracked.{fits};

use bracket_poly::{Key, Poly};
use bracket_terms::{Bracket, Params, Signed, sort};
use contraction::contract;
use std::alloc::Global;
use std::env;
use std::test::Fail;
use std::time::Instant;
use tableau_order::Tableau;

/// The product of three brackets.
fn tableau(alloc: Global, rows: [[u8; 3]; 3]) -> Result<Tableau<3>, Fail> {
    let mut brackets: Vec<Bracket<3>> = Vec::new(alloc);
    for points in rows {
        match sort(points) {
            Signed::Zero => {}
            Signed::Plus(bracket) | Signed::Minus(bracket) => brackets.push(bracket)?,
        }
    }
    Ok(Tableau::from_rows(alloc, &brackets).map_err(|_| "memory")?)
}

/// Adds a product of three brackets.
fn add(alloc: Global, poly: &mut Poly<3>, rows: [[u8; 3]; 3], c: i128) -> Result<(), Fail>
    requires not_zero { c ≢ pos 0 }
    requires small { T (fits c) }
    requires degree { HasDegree 1000 poly.old.tracked.sum }
    ensures { OnOk result (HasDegree 1000 poly.new.tracked.sum) }
{
    let tableau = tableau(alloc, rows)?;
    let params = Params::one();
    poly.add(Key { params, tableau }, c)?;
    Ok(())
}

/// The next number of a linear congruence.
fn next(state: &mut u64) -> u64 {
    *state = state
        .wrapping_mul(6364136223846793005)
        .wrapping_add(1442695040888963407);
    *state >> 33
}

/// The points 1 to 9 in some order.
fn shuffled(state: &mut u64) -> [u8; 9] {
    let mut points = [1, 2, 3, 4, 5, 6, 7, 8, 9];
    for place in 0..9 {
        let other = (next(state) % 9) as usize;
        points.swap(place, other);
    }
    points
}

/// Two hundred products in which no point comes twice.
fn none(alloc: Global) -> Result<Poly<3>, Fail>
    ensures { IfOk result (λ poly. HasDegree 1000 poly.tracked.sum) }
{
    let mut state = 1;
    let mut poly = Poly::new(alloc);
    for _ in 0..5_000 {
        let p = shuffled(&mut state);
        let rows = [[p[0], p[1], p[2]], [p[3], p[4], p[5]], [p[6], p[7], p[8]]];
        if poly.len() < 200 {
            add(alloc, &mut poly, rows, 1)?;
        }
    }
    Ok(poly)
}

/// A hundred pairs of terms that a pass turns into one.
fn pairs(alloc: Global) -> Result<Poly<3>, Fail>
    ensures { IfOk result (λ poly. HasDegree 1000 poly.tracked.sum) }
{
    let mut poly = Poly::new(alloc);
    for point in 10..110 {
        add(alloc, &mut poly, [[1, 3, 4], [1, 5, 6], [2, point, 200]], 1)?;
        add(alloc, &mut poly, [[1, 3, 5], [1, 4, 6], [2, point, 200]], -1)?;
    }
    Ok(poly)
}

/// Contracts a start and tells how long that took.
fn timed(rt: &HostRuntime, poly: Poly<3>) -> Result<(), Fail>
    requires { HasDegree 1000 poly.tracked.sum }
{
    let terms = poly.len();
    let start = Instant::now(rt)?;
    match contract(rt.alloc(), poly) {
        Ok(end) => {
            let passes = end.uses.items().len();
            println!(rt; "{terms} terms, {passes} passes: {}", start.elapsed(rt)?.as_micros())?;
            Ok(())
        }
        Err(_) => Err(Fail::from("contraction stops")),
    }
}

fn main(rt: HostRuntime) -> Result<(), Fail> {
    for word in env::args(&rt)?.skip(1) {
        match word.as_str() {
            "none" => timed(&rt, none(rt.alloc())?)?,
            "pairs" => timed(&rt, pairs(rt.alloc())?)?,
            _ => return Err(Fail::from("no such word")),
        }
    }
    Ok(())
}
"""

# That no exponent passes 1,000, as `contract` asks.
PROOFS = {
    "add/Answers.antt": """use Rattle.std.proofs.Common.{◌≤◌, List, ℕ, replicate, sym, subst}
use Rattle.std.specs.List.{AllByRecursion}
use Rattle.bracket_poly.proofs.Degrees.{degree_after}
use Rattle.bracket_terms.proofs.ExponentLaws.{all_up_to}
use Rattle.bench.proofs.add.Goals as goal

pub returns : goal.returns
returns c =
    degree_after 1000 c.args.poly.now.tracked _ _ c.in_ok-add.ensures.added c.requires.degree
    (subst (λ (es : List ℕ). AllByRecursion (λ e. e ≤ 1000) es) (sym c.one-params.ensures)
    (all_up_to 1000 (replicate 64 0) tt))
""",
    "none/Invariants.antt": """use Rattle.bracket_poly.specs.Products.{HasDegree}
use Rattle.bench.proofs.none.Given as goal

abbrev pub invariant-loop : goal.invariant-loop
invariant-loop l = HasDegree 1000 l.poly.tracked.sum
""",
    "pairs/Invariants.antt": """use Rattle.bracket_poly.specs.Products.{HasDegree}
use Rattle.bench.proofs.pairs.Given as goal

abbrev pub invariant-loop-point : goal.invariant-loop-point
invariant-loop-point l = HasDegree 1000 l.poly.tracked.sum
""",
}


def write(file, text):
    file.parent.mkdir(parents=True, exist_ok=True)
    file.write_text(text, encoding="utf-8")


def build(place):
    """The program, built in the folder over a copy of the crates."""
    shutil.copytree(ROOT / "crates", place / "crates", ignore=shutil.ignore_patterns("out"))
    shutil.copy(ROOT / "HANDLES", place)
    (place / "crates.txt").write_text((ROOT / "crates.txt").read_text() + f"bench: {NEEDS}\n")
    crate = place / "crates" / "bench"
    write(crate / "src" / "main.rt", PROGRAM)
    for name, proof in PROOFS.items():
        write(crate / "proofs" / name, proof)
    made = subprocess.run(["rt", "run"], cwd=crate, stdin=subprocess.DEVNULL, stdout=subprocess.PIPE, stderr=subprocess.STDOUT)
    if made.returncode != 0:
        sys.exit(made.stdout.decode())
    return str(crate / "out" / "bench")


def main():
    with tempfile.TemporaryDirectory() as place:
        program = build(pathlib.Path(place))
        for word in WORDS:
            made = subprocess.run([program, word], capture_output=True, check=True)
            what, micros = made.stdout.decode().strip().split(": ")
            print(f"{word:8}  {what:24}  {int(micros) / 1000:8.2f} ms", flush=True)


if __name__ == "__main__":
    main()
