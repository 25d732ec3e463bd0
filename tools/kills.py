#!/usr/bin/env python3
"""Kills the program at random moments of runs on an image file, and opens the file again each time.

tools/kills.py [N]   N kills, 1000 if it is left out. It wants the proved program, which ./nameless builds.

Each run writes a note over and over, with a sync after each write. It is killed with SIGKILL at a random moment of the time that such a run
takes. The next command looks at the note: what it prints has to be the tree after so many calls as it says that it opened with, no fewer
than had been answered when the last run ended by itself, and no more than were asked since. Which syncs of a killed run were answered
nothing tells outside, since answers are printed at the end. It prints how many kills came before the first change, within the lines and
after the last one, and ends with 1 at the first file that is otherwise.
"""
import random
import re
import subprocess
import sys
import tempfile
import time
from pathlib import Path

PROGRAM = Path(__file__).resolve().parent.parent / "crates" / "nl_app" / "out" / "nl_app"
WRITES = 200


def run(image, lines):
    """Runs a script to its end; what it prints."""
    done = subprocess.run([PROGRAM, image, "run"], input="".join(lines), text=True, stdout=subprocess.PIPE)
    if done.returncode != 0:
        sys.exit(f"a run that was not killed ended with {done.returncode}: {done.stdout}")
    return done.stdout


def saving(first):
    """A script that writes WRITES notes, and syncs after each: its lines, and the note after each line."""
    lines, notes, note = [], [], None
    for number in range(first, first + WRITES):
        note = f"{number:08x}"
        lines += [f"0 write /note 0 {note}\n", "0 sync\n"]
        notes += [note, note]
    return lines, notes


def killed(image, lines, after):
    """Kills a run so many seconds after its start."""
    process = subprocess.Popen([PROGRAM, image, "run"], stdin=subprocess.PIPE, stdout=subprocess.DEVNULL, text=True)
    process.stdin.write("".join(lines))
    process.stdin.close()
    time.sleep(after)
    process.kill()
    process.wait()


def look(image):
    """The count of calls with which the volume opened, and the note."""
    found = re.fullmatch(r"opened (\d+)\n1 @(\d+) ok ([0-9a-f]{8})\n", run(image, ["0 read /note 0 4\n"]))
    if not found or int(found[2]) != int(found[1]) + 1:
        sys.exit("the note cannot be read")
    return int(found[1]), found[3]


def main():
    count = int(sys.argv[1]) if len(sys.argv) > 1 else 1000
    if not PROGRAM.exists():
        sys.exit(f"{PROGRAM} is missing: run ./nameless --version first")
    with tempfile.TemporaryDirectory() as folder:
        image = str(Path(folder) / "kills.img")
        subprocess.run([PROGRAM, image, "format", "32", "32"], check=True, stdout=subprocess.DEVNULL)
        run(image, ["0 create /note\n", "0 write /note 0 00000000\n"])
        calls, note, number = 2, "00000000", 1
        begin = time.monotonic()
        lines, notes = saving(number)
        run(image, lines)
        length = time.monotonic() - begin
        calls, note, number = calls + len(lines), notes[-1], number + WRITES
        before = within = behind = 0
        for turn in range(1, count + 1):
            lines, notes = saving(number)
            number += WRITES
            killed(image, lines, random.uniform(0, 1.2 * length))
            opened, seen = look(image)
            more = opened - calls
            if not 0 <= more <= len(lines) or seen != ([note] + notes)[more]:
                sys.exit(f"kill {turn}: opened {opened} of {calls} to {calls + len(lines)} calls, and the note is {seen}")
            before, within, behind = before + (more == 0), within + (0 < more < len(lines)), behind + (more == len(lines))
            calls, note = opened + 1, seen
        print(f"{count} kills: {before} before the first change, {within} within the lines, {behind} after the last one")


if __name__ == "__main__":
    main()
