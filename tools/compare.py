#!/usr/bin/env python3
"""Compares the tables of both devices on soaks, and draws how they grow.

Run it at the top of the repository, once `(cd crates/nl_compare && rt run -- 32 32 7 200 8 400 </dev/null)` has proved and built the program. On each of
three geometries it answers the soaks of three seeds, 5000 lines for each of eight workers, line after line on two volumes in memory of which one has a
device that moves pages and the other a device that leads numbers to pages by a map. It prints a table of the most pairs and the most entries, with what
both tables take of memory; `--write` puts it into docs/MEASURED.md and draws the picture docs/compare.svg, of the first geometry and seed.
"""
import argparse
import re
import subprocess
import sys
from pathlib import Path

TOP = Path(__file__).resolve().parent.parent
PROGRAM = TOP / "crates" / "nl_compare" / "out" / "nl_compare"
PAGE = TOP / "docs" / "MEASURED.md"
PICTURE = TOP / "docs" / "compare.svg"
GEOMETRIES = ((32, 32), (40, 32), (256, 64))
SEEDS = (7, 8, 9)
LINES, WORKERS, EVERY = 5000, 8, 400
# Bytes of memory. A pair is a link of two numbers in each of two lists; its callback is an entry of 56 bytes and a link of 16 in each of three lists.
PAIR = 2 * 8 + 56 + 3 * 16
# An entry of the map is the page, the owner and the stamp, which an `Option` makes 32 bytes, and a byte beside it that tells whether it is in use.
ENTRY = 32 + 1
BEGIN, END = "<!-- tables of tools/compare.py -->", "<!-- end of these tables -->"


def numbers_of(blocks, pages, seed):
    """The calls, the most pairs and the most entries, behind each so many calls of a soak."""
    words = [str(n) for n in (blocks, pages, seed, LINES, WORKERS, EVERY)]
    run = subprocess.run([PROGRAM, *words], capture_output=True, text=True, check=False)
    if run.returncode:
        sys.exit(f"compare: {' '.join(words)}: status {run.returncode} {run.stderr.strip()}")
    found = re.findall(r"^calls (\d+)\nremap most (\d+)\nmap most (\d+)$", run.stdout, re.M)
    return [tuple(int(n) for n in row) for row in found]


def table(runs):
    """The table of all runs."""
    rows = ["| Geometry | Seed | Calls | Most pairs | Most entries | Bytes of pairs | Bytes of entries |", "|---|---|---|---|---|---|---|"]
    for (blocks, pages, seed), told in runs.items():
        calls, pairs, entries = told[-1]
        rows.append(f"| {blocks} by {pages} | {seed} | {calls:,} | {pairs} | {entries} | {pairs * PAIR:,} | {entries * ENTRY:,} |")
    return "\n".join(rows)


def picture(told):
    """Both over the run: calls to the right, numbers upward."""
    wide, high, left, low = 640, 300, 60, 40
    calls = told[-1][0]
    most = max(max(row[1], row[2]) for row in told)
    top = (most // 50 + 1) * 50

    def at(call, number):
        return f"{left + (wide - left - 20) * call / calls:.1f},{high - low - (high - low - 20) * number / top:.1f}"

    lines = [
        f'<svg xmlns="http://www.w3.org/2000/svg" viewBox="0 0 {wide} {high}" font-family="sans-serif" font-size="12">',
        f'<rect width="{wide}" height="{high}" fill="white"/>',
    ]
    for number in range(0, top + 1, 50):
        y = at(0, number).split(",")[1]
        lines.append(f'<line x1="{left}" y1="{y}" x2="{wide - 20}" y2="{y}" stroke="#ddd"/>')
        lines.append(f'<text x="{left - 6}" y="{float(y) + 4:.1f}" text-anchor="end">{number}</text>')
    for which, colour, name, rise in ((2, "#c33", "most entries of the map", -8), (1, "#236", "most pairs of old names", -8)):
        points = " ".join([at(0, 0)] + [at(row[0], row[which]) for row in told])
        lines.append(f'<polyline points="{points}" fill="none" stroke="{colour}" stroke-width="2"/>')
        x, y = at(calls, told[-1][which]).split(",")
        lines.append(f'<text x="{x}" y="{float(y) + rise:.1f}" text-anchor="end" fill="{colour}">{name}: {told[-1][which]}</text>')
    lines.append(f'<text x="{(wide + left) / 2:.0f}" y="{high - 10}" text-anchor="middle">calls, up to {calls:,}</text>')
    lines.append("</svg>")
    return "\n".join(lines) + "\n"


def main():
    words = argparse.ArgumentParser(description=__doc__, formatter_class=argparse.RawDescriptionHelpFormatter)
    words.add_argument("--write", action="store_true", help="write docs/MEASURED.md and docs/compare.svg")
    asked = words.parse_args()
    if not PROGRAM.exists():
        sys.exit("compare: build the program first: (cd crates/nl_compare && rt run -- 32 32 7 200 8 400 </dev/null)")
    runs = {(b, p, s): numbers_of(b, p, s) for b, p in GEOMETRIES for s in SEEDS}
    text = table(runs)
    print(text)
    if asked.write:
        page = PAGE.read_text(encoding="utf-8")
        before, _, rest = page.partition(BEGIN)
        _, _, behind = rest.partition(END)
        PAGE.write_text(f"{before}{BEGIN}\n\n{text}\n\n{END}{behind}", encoding="utf-8")
        PICTURE.write_text(picture(runs[(*GEOMETRIES[0], SEEDS[0])]), encoding="utf-8")


if __name__ == "__main__":
    main()
