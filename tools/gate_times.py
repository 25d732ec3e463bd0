#!/usr/bin/env python3
"""Runs the gate and measures it: wall time and the processor time of each crate's proof, tests, check before its edits, and edits.

Run it at the top of a clone, with nothing else at work: `tools/gate_times.py` runs a plain `rt ci` (which takes over what an earlier run on this
machine kept; `--anew` has it take nothing), and `tools/gate_times.py -- COMMAND..` any other command, as `./nameless IMAGE tree`. The output of the
command goes to a file, whose name is printed. Each process is looked at once a second, so a number is right to a second or so. The table and the
sums are printed as docs/BUILDING.md has them, with the longest chain of crates that the program waits for.
"""
import os
import re
import subprocess
import sys
import tempfile
import time
from pathlib import Path

TOP = Path(__file__).resolve().parent.parent
TICK = os.sysconf("SC_CLK_TCK")
KINDS = ("proof", "tests", "check before edits", "edits")


def processes():
    """Each process: its number, its parent's, when it began, its own processor seconds and those of children that ended."""
    for name in os.listdir("/proc"):
        if name.isdigit():
            try:
                with open(f"/proc/{name}/stat", encoding="utf-8") as file:
                    text = file.read()
            except OSError:
                continue
            rest = text[text.rindex(")") + 2:].split()
            own, ended = int(rest[11]) + int(rest[12]), int(rest[13]) + int(rest[14])
            yield int(name), int(rest[1]), int(rest[19]), own / TICK, ended / TICK


def words_of(pid):
    """The words and the folder of a process, or none where it is gone."""
    try:
        with open(f"/proc/{pid}/cmdline", encoding="utf-8") as file:
            return file.read().split("\0"), os.readlink(f"/proc/{pid}/cwd")
    except OSError:
        return [], ""


def kind_of(words, folder):
    """What a run of `rattle` is for, and of which crate; or none."""
    if "--crate-name" not in words or not {"build", "check"} & set(words[:6]):
        return None
    crate = words[words.index("--crate-name") + 1]
    if "build" in words[:6]:
        return ("tests" if "--test" in words else "proof"), crate
    return ("edits" if "/rt-edit-" in folder else "check before edits"), crate


def watch(root):
    """Looks at all processes below the root until it ends. Gives what each run of `rattle` took, and the processor time of all."""
    seen, total = {}, 0.0
    began = time.time()
    while root.poll() is None:
        parents, now = {}, list(processes())
        for pid, parent, *_ in now:
            parents[pid] = parent
        for pid, _, start, own, ended in now:
            above = pid
            while above > 1 and above != root.pid:
                above = parents.get(above, 0)
            if above != root.pid:
                continue
            if pid == root.pid:
                total = max(total, own + ended)
            key = (pid, start)
            if key not in seen or seen[key]["kind"] is None:
                seen[key] = {"kind": kind_of(*words_of(pid)), "seconds": own, "end": time.time() - began}
            seen[key].update(seconds=own, end=time.time() - began)
        time.sleep(1)
    return [it for it in seen.values() if it["kind"]], time.time() - began


def edges():
    found = {}
    for line in (TOP / "crates.txt").read_text(encoding="utf-8").splitlines():
        if ":" in line and not line.startswith("#"):
            head, rest = line.split(":", 1)
            found[head.split()[0]] = rest.split()
    return found


def longest(name, seconds, below, known):
    """The dearest chain of crates up to this one, with its seconds."""
    if name not in known:
        best = max((longest(it, seconds, below, known) for it in below[name] if it in below), default=(0, []))
        known[name] = best[0] + seconds.get(name, 0), [*best[1], name]
    return known[name]


def main():
    words = sys.argv[1:]
    command = words[1:] if words[:1] == ["--"] else ["rt", "ci", *words]
    with tempfile.NamedTemporaryFile("w", prefix="gate-", suffix=".log", delete=False) as log:
        print(f"the output of {' '.join(command)} goes to {log.name}", flush=True)
        root = subprocess.Popen(command, cwd=TOP, stdout=log, stderr=subprocess.STDOUT)
        runs, wall = watch(root)
    used = os.times()
    sums, ends = {}, {}
    for run in runs:
        kind, crate = run["kind"]
        sums[crate, kind] = sums.get((crate, kind), 0) + run["seconds"]
        ends[crate, kind] = max(ends.get((crate, kind), 0), run["end"])
    crates = sorted({crate for crate, _ in sums})
    print("\n| Crate | Proof | Tests | Check before edits | Edits |\n|---|---|---|---|---|")
    for crate in crates:
        print(f"| `{crate}` | " + " | ".join(f"{sums[crate, kind]:.0f}" if (crate, kind) in sums else "" for kind in KINDS) + " |")
    for kind in KINDS:
        print(f"{kind}: {sum(value for (_, it), value in sums.items() if it == kind) / 60:.1f} processor minutes")
    print(f"all that the command used: {(used.children_user + used.children_system) / 60:.1f} processor minutes; wall time {wall / 60:.1f} minutes; status {root.returncode}")
    if "nl_app" in edges():
        seconds = {crate: value for (crate, kind), value in sums.items() if kind == "proof"}
        cost, chain = longest("nl_app", seconds, edges(), {})
        print(f"the longest chain: {cost / 60:.1f} processor minutes: " + ", ".join(f"{it} {seconds.get(it, 0):.0f}" for it in chain))
        if ("nl_app", "proof") in ends:
            print(f"nl_app was proved after {ends['nl_app', 'proof'] / 60:.1f} minutes of wall time")
    last = re.findall(r"^\d+ passed, \d+ failed$", Path(log.name).read_text(encoding="utf-8"), re.M)
    print(last[-1] if last else "the gate's last line is missing")
    return root.returncode


if __name__ == "__main__":
    sys.exit(main())
