#!/usr/bin/env python3
"""Brings the names that proofs of functions cite (goals, steps, their fields) to today's spelling.

usage: python3 tools/goal_names.py [FOLDER]     once, after tools/respell.py

A name from a source file keeps its underscores, and a word of Rattle's own has one: round-wide-wide is round_wide-wide,
overflow-add-sum is overflow_add-sum.
"""
import glob
import os
import re
import sys

WORD = re.compile(r"(?<![\w'-])[\w'-]*-[\w'-]*\w")
OWN = ["overflow_add", "overflow_sub", "overflow_mul", "overflow_cast", "overflow_step", "overflow_neg", "invariant_of",
       "in_default", "slice_bounds", "offset_bounds", "nonzero_div", "nonzero_rem"]
PIECES = [(re.compile(r"(?<![\w'])([Ii]n)-(ok|err)-"), r"\1_\2-")]


def main():
    top = sys.argv[1] if len(sys.argv) > 1 else "."
    names = set()
    for path in glob.glob(os.path.join(top, "crates", "*", "src", "*.rt")):
        with open(path, encoding="utf-8") as f:
            names |= {n.strip("_") for n in re.findall(r"\b[A-Za-z]\w*_\w+\b", f.read())}
    names = sorted(names | set(OWN), key=lambda n: (-len(n), n))
    turns = [(re.compile(r"(?<![\w'])" + re.escape(n.replace("_", "-")) + r"(?![\w'])"), n) for n in names]
    for path in sorted(glob.glob(os.path.join(top, "crates", "*", "proofs", "**", "*.antt"), recursive=True)):
        if os.path.basename(path) not in ("Answers.antt", "Invariants.antt"):
            continue
        with open(path, encoding="utf-8") as f:
            old = f.read()
        cited = set(re.findall(r"[\w'-]+", " ".join(re.findall(r"^use (?!.*\.Goals\.).*\{(.*)\}", old, re.M))))

        def turn(m):
            word = m.group()
            if word in cited:
                return word
            for pattern, new in turns + PIECES:
                word = pattern.sub(new, word)
            return word

        new = "\n".join(line if line.startswith("use ") and ".Goals." not in line else WORD.sub(turn, line) for line in old.split("\n"))
        if new != old:
            with open(path, "w", encoding="utf-8") as f:
                f.write(new)


main()
