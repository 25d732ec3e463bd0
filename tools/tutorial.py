#!/usr/bin/env python3
"""Types each command of docs/TUTORIAL.md as it stands, and compares what is printed with the lines below it.

Run it at the top of the repository, once `./nameless --version` has built the proved program. The commands of all fenced blocks go to one shell, in a
folder of their own that has the repository's docs/ and nameless, so that nothing is left behind. The machine should do nothing else: where it is busy,
cleaner and handler may come in between, and other pages are moved. The order of calls that eight workers make
differs from run to run: of them the lines are compared without places, in any order. It prints each command whose output is another one, and ends
with 1 where there is one.
"""
import re
import subprocess
import sys
import tempfile
from pathlib import Path

TOP = Path(__file__).resolve().parent.parent
PAGE = TOP / "docs" / "TUTORIAL.md"
MARK = "-- end of a command --"
UNPROVED = "--unproved"
BESIDE = "docs/eight.script"


def commands(text):
    """Each typed command with the lines that the document has below it. Those for a build without a proof are left out."""
    found = []
    for block in re.finditer(r"^```\n(.*?)^```\n", text, re.S | re.M):
        for line in block.group(1).splitlines():
            if line.startswith("$ "):
                found.append((line[2:], []))
            elif found:
                found[-1][1].append(line)
    return [it for it in found if UNPROVED not in it[0]]


def typed(all_commands):
    """What the commands print, each by itself, in one shell."""
    with tempfile.TemporaryDirectory() as folder:
        for name in ("docs", "nameless", "crates", "crates.txt"):
            (Path(folder) / name).symlink_to(TOP / name)
        lines = ["shopt -s expand_aliases", f"cd {folder}"]
        for command, _ in all_commands:
            lines += [command, f"printf '\\n{MARK}\\n'"]
        shell = subprocess.run(["bash", "-c", "source /dev/stdin"], input="\n".join(lines) + "\n", text=True, stdout=subprocess.PIPE)
        return [part.strip("\n").splitlines() for part in shell.stdout.split(f"\n{MARK}\n")][:-1]


def as_set(lines):
    """The lines without places, in an order of their own."""
    return sorted(re.sub(r"@\d+", "@", line) for line in lines)


def main():
    wanted = commands(PAGE.read_text())
    got = typed(wanted)
    if len(got) != len(wanted):
        sys.exit(f"{len(got)} of {len(wanted)} commands ended")
    differ = 0
    for (command, lines), printed in zip(wanted, got):
        if printed == lines or BESIDE in command and as_set(printed) == as_set(lines):
            continue
        differ += 1
        print(f"$ {command}\nwanted", *lines, "printed", *printed, sep="\n  ")
    print(f"{len(wanted)} commands, {differ} of them with another output")
    return 1 if differ else 0


if __name__ == "__main__":
    sys.exit(main())
