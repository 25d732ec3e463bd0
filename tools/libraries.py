#!/usr/bin/env python3
"""Gives one clone of the repository the proved libraries that another one has of the same files.

`tools/libraries.py FROM TO CRATE..` looks at each crate below the named ones. Where both clones have the same files and the same line of crates.txt for it
and for all below it, and FROM has its library, as the gate leaves it in a clone, TO gets it by hard links, with the stamp by which `rt check` knows that it
is up to date. A check in TO then proves none of these crates again: it does not take what the gate keeps. Run it while no command of `rt` is at work in
TO. It prints what it gave, and what is wanting. The gate itself takes nothing from there.
"""
import os
import shutil
import subprocess
import sys
from pathlib import Path

sys.path.insert(0, "/opt/rattle/bin")
import rtlib  # the kit's own library of `rt`

PARTS = ("src", "specs", "proofs")


def lines_of(top):
    """The line of each crate in crates.txt, and the crates that it stands on, in the order of the file."""
    found = {}
    for line in (top / "crates.txt").read_text(encoding="utf-8").splitlines():
        if ":" in line and not line.startswith("#"):
            name, below = line.split(":", 1)
            found[name.split()[0]] = (line, below.split())
    return found


def files_of(top, name):
    """The files of a crate that a proof reads."""
    crate = top / "crates" / name
    return {str(it.relative_to(crate)): it.read_bytes() for part in PARTS for it in (crate / part).rglob("*") if it.is_file()}


def main():
    if len(sys.argv) < 4:
        sys.exit(__doc__)
    have, give = Path(sys.argv[1]).resolve(), Path(sys.argv[2]).resolve()
    ours, theirs = lines_of(give), lines_of(have)
    # a stamp is reckoned once a crate
    stamps, reckon = {}, rtlib.Crate.stamp

    def stamp(crate):
        if crate.folder not in stamps:
            stamps[crate.folder] = reckon(crate)
        return stamps[crate.folder]

    rtlib.Crate.stamp = stamp
    os.chdir(give)
    known, same, given, wanting = {}, {}, [], []

    def look(name):
        """Whether the crate and all below it are the same in both."""
        if name not in same:
            below = all([look(it) for it in ours[name][1] if it in ours])
            same[name] = below and ours[name] == theirs.get(name) and files_of(give, name) == files_of(have, name)
            if name not in sys.argv[3:]:
                hand_on(name)
        return same[name]

    def hand_on(name):
        library, crate = have / "crates" / name / "out" / "rlib" / f"{name}.rlib", rtlib.Crate(str(give / "crates" / name), str(give), known)
        if crate.is_built():
            return
        if not same[name] or not (library / "format").is_file():
            wanting.append(name)
            return
        to = give / "crates" / name / "out" / "rlib"
        shutil.rmtree(to, ignore_errors=True)
        to.mkdir(parents=True)
        subprocess.run(["cp", "-al", str(library), str(to / library.name)], check=True)
        (to / "stamp").write_text(crate.stamp(), encoding="utf-8")
        given.append(name)

    for name in sys.argv[3:]:
        look(name)
    print("given:", *given)
    print("wanting:", *wanting)


if __name__ == "__main__":
    main()
