#!/usr/bin/env python3
"""Hands the sources beside this script to `rt check`, and says whether the borrow check refuses each.

Usage: bench/refused/check.py
"""
import pathlib
import shutil
import subprocess
import sys
import tempfile

HERE = pathlib.Path(__file__).resolve().parent
ROOT = HERE.parent.parent
NEEDS = "term_arena tableau_order bracket_terms coordinate_model cay_base bumpalo"


def refusal(source):
    """The line of the borrow check's error, if there is one."""
    with tempfile.TemporaryDirectory() as place:
        place = pathlib.Path(place)
        shutil.copytree(ROOT / "crates", place / "crates", ignore=shutil.ignore_patterns("out"))
        shutil.copy(ROOT / "HANDLES", place)
        (place / "crates.txt").write_text((ROOT / "crates.txt").read_text() + f"refused: {NEEDS}\n")
        crate = place / "crates" / "refused"
        (crate / "src").mkdir(parents=True)
        shutil.copy(source, crate / "src" / "lib.rt")
        made = subprocess.run(["rt", "check"], cwd=crate, stdout=subprocess.PIPE, stderr=subprocess.STDOUT)
        lines = made.stdout.decode().splitlines()
        return next((line for line in lines if "error[borrow-" in line), None) if made.returncode else None


def main():
    missed = 0
    for source in sorted(HERE.glob("*.rt.txt")):
        line = refusal(source)
        missed += line is None
        print(f"{source.name}: {line or 'NOT REFUSED'}")
    sys.exit(missed)


if __name__ == "__main__":
    main()
