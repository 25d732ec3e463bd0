#!/usr/bin/env python3
"""Measures the store beside a plain tree of files and beside its unproved twin, and prints the tables of docs/MEASURED.md.

Run it at the top of the repository, on a machine that does nothing else: `tools/measure.py` takes the programs that a check has left in
`crates/nl_app/out/nl_app` (`./nameless --version` builds it) and `crates/nl_bench/out/nl_bench` (`rt run -- 32 32 </dev/null` in its folder). Each script is made
here, as docs/MEASURED.md says it. Over the store it runs on a volume made for that run, after the lines that prepare it; over the plain tree behind
those lines, whose time is taken off. The twin (`tools/twin`) is built here by `rustc -O`, and each script runs over it as over the store; where there
is no `rustc`, its rows are left out. The answers of all are compared, and what the store's program says of the images that it and the twin left, and
where they differ the run ends with 1. With --write the tables take the place of those in the document, between its two marks. Programs that `rt try`
built are named as such by --unproved, and are no measure.
"""
import argparse
import hashlib
import os
import random
import shutil
import subprocess
import sys
import tempfile
import time
from pathlib import Path

TOP = Path(__file__).resolve().parent.parent
PAGE = TOP / "docs" / "MEASURED.md"
TWIN = TOP / "tools" / "twin" / "main.rs"
MARK = "<!-- tables: tools/measure.py -->"
GEOMETRIES = ((32, 32), (256, 64), (1024, 128))
PAGE_BYTES = 4096
MOST_BYTES = 65536
SOAK = ("7", "20000", "8")


def data_pages(blocks, pages):
    """How many pages the files of a volume may have, as docs/FORMATS.md says."""
    virtual_addresses = 67 + -(-blocks * pages // 256) + blocks * pages // 32
    return (blocks - (-(-virtual_addresses // pages) + 4) - 4) * pages - 160


def create(names):
    return [f"0 create /{name}" for name in names]


def write(worker, name, at, byte):
    return f"{worker} write /{name} {at} {byte:02x}" + f"{byte:02x}" * 99


def four_files():
    return create("abcd") + [f"0 fill /{name} 0 {MOST_BYTES} 61" for name in "abcd"]


def small():
    lines = []
    for number in range(2000):
        lines += [f"0 create /f{number}", write(0, f"f{number}", 0, number % 256)]
        if number >= 40:
            lines.append(f"0 unlink /f{number - 40}")
    return [], lines


def fills():
    return create("abcd"), [f"0 fill /{'abcd'[number % 4]} 0 {MOST_BYTES} {number % 256:02x}" for number in range(1000)]


def reads():
    return four_files(), [f"0 read /{'abcd'[number % 4]} {PAGE_BYTES * (number // 4 % 16)} {PAGE_BYTES}" for number in range(1000)]


def stats():
    return four_files(), [f"0 stat /{'abcd'[number % 4]}" for number in range(4000)]


def syncs():
    return create("a"), [line for number in range(300) for line in (write(0, "a", 100 * number, number % 256), "0 sync")]


def writes(workers):
    """Writes to eight files, each file by the worker of its number, or all by worker 0."""
    lines = [write(number % 8 % workers, f"f{number % 8}", 100 * (number // 8), number % 256) for number in range(4000)]
    return create(f"f{number}" for number in range(8)), lines


def lists():
    return create(f"n{number:03}" for number in range(1000)), ["0 list /"] * 200


def renames():
    moves = [(f"{old}{number}", f"{new}{number}") for old, new in ("ab", "ba") for number in range(40)]
    return create(f"a{number}" for number in range(40)), [f"0 rename /{old} /{new}" for old, new in (moves * 13)[:1000]]


def overwrites(blocks, pages):
    """Fills a volume to its last page of files, and writes pages of it again, each drawn from all of them."""
    room, most, each = data_pages(blocks, pages), 4096, MOST_BYTES // PAGE_BYTES
    prepared, drawn = create(f"f{number}" for number in range(-(-room // most))), random.Random(1)
    for page in range(0, room, each):
        length = PAGE_BYTES * min(each, room - page)
        prepared.append(f"0 fill /f{page // most} {PAGE_BYTES * (page % most)} {length} 61")
    places = [drawn.randrange(room) for _ in range(1000)]
    return prepared, [f"0 fill /f{page // most} {PAGE_BYTES * (page % most)} {PAGE_BYTES} 62" for page in places]


# Each with the nodes that it wants, and whether the order of its answers is that of its lines.
SCRIPTS = {
    "small": (lambda *_: small(), 42, True), "fills": (lambda *_: fills(), 5, True), "reads": (lambda *_: reads(), 5, True),
    "stats": (lambda *_: stats(), 5, True), "syncs": (lambda *_: syncs(), 2, True), "one": (lambda *_: writes(1), 9, True),
    "eight": (lambda *_: writes(8), 9, False), "lists": (lambda *_: lists(), 1001, True), "renames": (lambda *_: renames(), 42, True),
    "overwrites": (overwrites, 40, True), "opening": (lambda *_: (four_files(), []), 5, True),
}


class Failed(Exception):
    """A program did not end as it should, or answered otherwise than the plain tree."""


class Runner:
    def __init__(self, words, folder):
        self.words, self.folder = words, Path(folder)

    def run(self, command, lines=()):
        """Runs a command over a script. Gives milliseconds of the clock and of the processor, and what was printed."""
        script, printed = self.folder / "script", self.folder / "printed"
        script.write_text("".join(f"{line}\n" for line in lines), encoding="ascii")
        with open(script, "rb") as source, open(printed, "wb") as sink:
            began = time.perf_counter()
            process = subprocess.Popen(command, stdin=source, stdout=sink)
            _, status, used = os.wait4(process.pid, 0)
            wall = time.perf_counter() - began
        process.returncode = os.waitstatus_to_exitcode(status)
        if process.returncode != 0:
            raise Failed(f"{' '.join(map(str, command))} ended with {process.returncode}: {printed.read_text()[-200:]}")
        return (1000 * wall, 1000 * (used.ru_utime + used.ru_stime)), printed.read_text(encoding="ascii")

    def least(self, command, lines=(), before=None):
        """The run that took least by the clock, each after what has to be done before it."""
        best = None
        for _ in range(self.words.runs):
            if before:
                before()
            now = self.run(command, lines)
            best = now if best is None or now[0] < best[0] else best
        return best

    def on_store(self, program, image, geometry, prepared, lines):
        def before():
            self.run([program, image, "format", *map(str, geometry)])
            if prepared:
                self.run([program, image, "run"], prepared)

        return self.least([program, image, "run"], lines, before)

    def left(self, image):
        """What the store's program says of an image: that it is sound, and its tree."""
        return [self.run([self.words.nameless, image, command])[1] for command in ("check", "tree")]

    def on_plain(self, geometry, prepared, lines):
        """The plain tree's time for its start and the lines, behind others that prepare it."""
        command = [self.words.plain, *map(str, geometry)]
        (start, _), (less, _) = self.least(command), self.least(command, prepared)
        whole, text = self.least(command, [*prepared, *lines])
        return tuple(max(a - b + c, 0) for a, b, c in zip(whole, less, start)), text


def answers(text, count):
    """The last so many answers, without their places. No line is refused."""
    found = [line.split(" ", 2)[2] for line in text.splitlines()[1:]]
    refused = [answer for answer in found if not answer.startswith("ok")]
    if refused:
        raise Failed(f"a line was answered {refused[0]}")
    return found[-count:] if count else []


def scripts_for(geometry):
    """The scripts that a volume has nodes for: a name, the lines that prepare it, its lines, and whether the answers have their order."""
    for name, (make, nodes, ordered) in SCRIPTS.items():
        if geometry[0] * geometry[1] // 16 >= nodes:
            yield name, *make(*geometry), ordered


def row_of(geometry, *of):
    return f"{geometry[0]} by {geometry[1]}, {', '.join(of)}"


def twin_in(folder):
    """The twin, built into a folder; none where there is no compiler."""
    compiler, twin = shutil.which("rustc"), Path(folder) / "twin"
    if compiler is None:
        return None
    built = subprocess.run([compiler, "-O", "--edition", "2021", "-o", twin, TWIN], capture_output=True, text=True)
    if built.returncode != 0:
        raise Failed(f"the twin was not built: {built.stderr[-400:]}")
    return twin


def measured(runner, twin, places):
    """Rows of the tables: what each script took over the plain tree, and over the store and its twin on each place."""
    rows, expected = {}, {}
    programs = {(): runner.words.nameless, **({("twin",): twin} if twin else {})}
    for geometry in GEOMETRIES:
        row = rows.setdefault(row_of(geometry, "plain"), {})
        for name, prepared, lines, ordered in scripts_for(geometry):
            if ordered and lines:
                row[name], text = runner.on_plain(geometry, prepared, lines)
                expected[geometry, name] = answers(text, len(lines))
    rows.update({row_of(geometry, *of, place): {} for of in programs for place, _ in places for geometry in GEOMETRIES})
    for place, folder in places:
        for geometry in GEOMETRIES:
            image = Path(folder) / "measured.img"
            for name, prepared, lines, _ in scripts_for(geometry):
                left = []
                for of, program in programs.items():
                    rows[row_of(geometry, *of, place)][name], text = runner.on_store(program, image, geometry, prepared, lines)
                    told = answers(text, len(lines))
                    if told != expected.get((geometry, name), told):
                        raise Failed(f"{name} on {geometry}: the answers are not those of the plain tree")
                    left.append(runner.left(image))
                if left[0] != left[-1]:
                    raise Failed(f"{name} on {geometry}: the twin left another tree than the program")
            runner.run([runner.words.nameless, image, "format", *map(str, geometry)])
            (wall, _), _ = runner.run([runner.words.nameless, image, "soak", *SOAK])
            rows[row_of(geometry, place)]["soak"] = int(SOAK[2]) * (int(SOAK[1]) + 1) / wall * 1000
            image.unlink()
    return rows


def shown(number):
    return f"{number:.1f}" if number < 10 else f"{number:.0f}"


def table(rows, at, head, form=shown):
    text = f"{head}\n\n| | {' | '.join(SCRIPTS)} |\n|{'---|' * (len(SCRIPTS) + 1)}\n"
    for row, took in rows.items():
        text += f"| {row} | " + " | ".join(form(took[name][at]) if name in took else "" for name in SCRIPTS) + " |\n"
    return text


def ratios(rows):
    """What each script took over the store, divided by what it took over the twin, both in memory."""
    made = {}
    for geometry in GEOMETRIES:
        store, twin = rows[row_of(geometry, "memory")], rows[row_of(geometry, "twin", "memory")]
        for at, of in enumerate(("wall", "processor")):
            made[row_of(geometry, of)] = {name: (store[name][at] / twin[name][at],) for name in twin}
    return made


def report(words, twin, load, rows):
    def said(*command):
        return subprocess.run(command, cwd=TOP, capture_output=True, text=True, check=True).stdout.strip()

    sums = ", ".join(f"`{Path(it).name}` {hashlib.sha256(Path(it).read_bytes()).hexdigest()[:12]}" for it in (words.nameless, words.plain))
    built = "built WITHOUT a proof, so no measure" if words.unproved else "proved, as LLVM builds them"
    text = f"Of {time.strftime('%Y-%m-%d', time.gmtime())}, commit {said('git', 'log', '-1', '--format=%h')}, {os.cpu_count()} processors"
    text += f" with a load of {load:.1f} before, the better of {words.runs} runs by the clock. Programs {built}: {sums}"
    text += " (the fronts of their SHA-256)."
    if twin:
        text += f" Twin: built by `{said('rustc', '--version')}`.\n\n"
    else:
        text += " There is no `rustc` here, so the twin was not measured.\n\n"
    text += table(rows, 0, "Wall time in milliseconds:") + "\n" + table(rows, 1, "Processor time in milliseconds, of all threads:")
    if twin:
        text += "\n" + table(ratios(rows), 0, "The store's time over the twin's, in memory:", "{:.2f}".format)
    text += f"\n`soak {' '.join(SOAK)}`, once each:\n\n| | lines a second |\n|---|---|\n"
    return text + "".join(f"| {row} | {round(took['soak'], -2):,.0f} |\n" for row, took in rows.items() if "soak" in took)


def main():
    words = argparse.ArgumentParser(description=__doc__.split("\n", 1)[0])
    words.add_argument("--nameless", default=str(TOP / "crates/nl_app/out/nl_app"), help="the program")
    words.add_argument("--plain", default=str(TOP / "crates/nl_bench/out/nl_bench"), help="the plain tree")
    words.add_argument("--unproved", action="store_true", help="say that the programs were built without a proof")
    words.add_argument("--runs", type=int, default=3, help="how often each script runs")
    words.add_argument("--disk", default="/var/tmp", help="a folder on a disk")
    words.add_argument("--memory", default="/dev/shm", help="a folder in memory, for scripts and answers too")
    words.add_argument("--write", action="store_true", help="put the tables into docs/MEASURED.md")
    words = words.parse_args()
    with tempfile.TemporaryDirectory(dir=words.memory) as memory, tempfile.TemporaryDirectory(dir=words.disk) as disk:
        try:
            load = os.getloadavg()[0]
            twin = twin_in(disk)
            text = report(words, twin, load, measured(Runner(words, memory), twin, (("disk", disk), ("memory", memory))))
        except Failed as failed:
            print(f"measure: {failed}", file=sys.stderr)
            return 1
    print(text)
    if words.write:
        front, _, end = PAGE.read_text(encoding="utf-8").split(MARK)
        PAGE.write_text(f"{front}{MARK}\n\n{text}\n{MARK}{end}", encoding="utf-8")
    return 0


sys.exit(main())
