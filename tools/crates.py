#!/usr/bin/env python3
"""Writes the list of crates in docs/ARCHITECTURE.md anew: a row for each line of crates.txt, with the head of the crate's lib.rt or main.rt.

Run it at the top of the repository: tools/crates.py. With --check it writes nothing, and ends with 1 where the list is not as it would be.
"""
import pathlib
import re
import sys

TOP = pathlib.Path(__file__).resolve().parent.parent
PAGE = TOP / "docs" / "ARCHITECTURE.md"
HEAD = "| Crate | What it is |\n|---|---|\n"


def head_of(name):
    """The `//!` lines with which a crate's root file begins, as one line."""
    root = next(p for p in (TOP / f"crates/{name}/src/lib.rt", TOP / f"crates/{name}/src/main.rt") if p.exists())
    lines = []
    for line in root.read_text(encoding="utf-8").splitlines():
        if not line.startswith("//!"):
            break
        lines.append(line[3:].strip())
    return " ".join(lines)


def listing():
    names = [m[1] for m in re.finditer(r"^(nl_\w+)[^:\n]*:", (TOP / "crates.txt").read_text(encoding="utf-8"), re.M)]
    return HEAD + "".join(f"| `{name}` | {head_of(name)} |\n" for name in names)


def main():
    page = PAGE.read_text(encoding="utf-8")
    found = re.search(r"\| Crate \| What it is \|.*?\n(?=\n|\Z)", page, re.S)
    made = page[: found.start()] + listing() + page[found.end() :]
    if "--check" in sys.argv:
        return 0 if made == page else 1
    PAGE.write_text(made, encoding="utf-8")
    return 0


sys.exit(main())
