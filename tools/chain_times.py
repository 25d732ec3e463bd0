#!/usr/bin/env python3
"""Measures the longest chain of crates that the program waits for: proves each crate of it from nothing, one after the other.

Run it at the top of a clone in which `rt ci` passed, with nothing else at work: `tools/chain_times.py [NAME]`, NAME being the last crate
of the chain, nl_app if left out. Which chain is the dearest is taken from the table of docs/BUILDING.md. The libraries below a crate are
there already, so what is measured is the proof of that crate alone: processor seconds and wall seconds of one check by one process that
begins with nothing kept. It asks the kit (its `rtlib.py`) for the words with which `rt` starts the prover.
"""
import os
import re
import shutil
import subprocess
import sys
import time
from pathlib import Path

sys.path.insert(0, str(Path(os.path.realpath(shutil.which("rt"))).parent))
import rtlib

TOP = Path(__file__).resolve().parent.parent


def edges():
    """What each crate of crates.txt stands on."""
    found = {}
    for line in (TOP / "crates.txt").read_text(encoding="utf-8").splitlines():
        if ":" in line and not line.startswith("#"):
            head, rest = line.split(":", 1)
            found[head.split()[0]] = rest.split()
    return found


def told():
    """The seconds of each crate's proof, as docs/BUILDING.md tells them."""
    text = (TOP / "docs/BUILDING.md").read_text(encoding="utf-8")
    return {name: float(cost) for name, cost in re.findall(r"\| `(nl_\w+)` \| (\d+) \|", text)}


def longest(name, below, seconds, known):
    """The dearest chain up to a crate. One that the table lacks counts a minute."""
    if name not in known:
        best = max((longest(it, below, seconds, known) for it in below[name] if it in below), default=(0, []))
        known[name] = best[0] + seconds.get(name, 60), [*best[1], name]
    return known[name]


def main():
    last = sys.argv[1] if len(sys.argv) > 1 else "nl_app"
    chain = longest(last, edges(), told(), {})[1]
    crates = {it.name: it for it in rtlib.crates_below(str(TOP))}
    total = 0.0
    for name in chain:
        crate = crates[name]
        before, began = os.times(), time.time()
        ran = subprocess.run([rtlib.RATTLE, "check", *crate.words(["--jobs", "1"], keeps=False)], cwd=crate.folder, capture_output=True, text=True, check=False)
        after = os.times()
        cost = after.children_user + after.children_system - before.children_user - before.children_system
        total += cost
        proved = "logic=proved" in ran.stdout + ran.stderr
        print(f"{name} {cost:.0f} processor seconds, {time.time() - began:.0f} of wall time{'' if proved else ': NOT PROVED'}", flush=True)
    print(f"{len(chain)} crates, {total / 60:.1f} processor minutes")


if __name__ == "__main__":
    main()
