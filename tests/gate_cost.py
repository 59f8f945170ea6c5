#!/usr/bin/env python3
"""gate_cost.py [--write] [COMMAND ..]: runs the gate (`rt ci`, or another command) and tells what each crate cost.

While the command runs, the processor time of each of the toolchain's processes is read from /proc: a crate's proof, its
tests, or one of its must-fail edits, which are checked in folders of their own. At the end a table in Markdown is printed,
in processor minutes, the dearest crate first; --write puts it into docs/performance.md, between the two lines that
mark its place. The status is the command's own."""

import argparse
import collections
import glob
import os
import re
import subprocess
import sys
import threading
import time

ROOT = os.path.dirname(os.path.dirname(os.path.abspath(__file__)))
DOCUMENT = f"{ROOT}/docs/performance.md"
BEGIN, END = "<!-- gate_cost.py writes from here -->", "<!-- to here -->"
KINDS = ("proof", "tests", "edits")
TICKS = os.sysconf("SC_CLK_TCK")


def text_of(path):
    try:
        with open(path, "rb") as file:
            return file.read().decode(errors="replace")
    except OSError:
        return ""


def times_of(process):
    """A process's parent and its own processor seconds, or nothing where it has ended."""
    fields = text_of(f"/proc/{process}/stat").rpartition(")")[2].split()
    return (int(fields[1]), (int(fields[11]) + int(fields[12])) / TICKS) if len(fields) > 13 else None


def what_of(process):
    """The crate and the kind of work of a process of the toolchain, or nothing."""
    words = text_of(f"/proc/{process}/cmdline").split("\0")
    if "--crate-name" not in words:
        return None
    try:
        folder = os.readlink(f"/proc/{process}/cwd")
    except OSError:
        return None
    kind = "edits" if "/rt-edit" in folder else "tests" if "--test" in words else "proof"
    return words[words.index("--crate-name") + 1], kind


class Watch:
    """Reads the times of all processes below one, again and again."""

    def __init__(self, root):
        self.root, self.seen, self.whats, self.parents = root, {}, {}, {}

    def look(self):
        found = {}
        for path in glob.glob("/proc/[0-9]*"):
            process = int(path[6:])
            times = times_of(process)
            if times:
                self.parents[process], found[process] = times
        for process, seconds in found.items():
            what = self.what(process)
            if what:
                self.seen[process, what] = seconds

    def what(self, process):
        """What a process works for: its own words say it, or its parent's, as those of a compiler that is called."""
        above = []
        while process and process != self.root:
            above.append(process)
            process = self.parents.get(process, 0)
        if not process:
            return None
        for it in above:
            if it not in self.whats or self.whats[it] is None:
                self.whats[it] = what_of(it)
            if self.whats[it]:
                return self.whats[it]
        return None

    def costs(self):
        total = collections.defaultdict(lambda: dict.fromkeys(KINDS, 0.0))
        for (_, (crate, kind)), seconds in self.seen.items():
            total[crate][kind] += seconds / 60
        return total


def table(costs, wall):
    rows = sorted(costs.items(), key=lambda row: -sum(row[1].values()))
    sums = {kind: sum(row[kind] for _, row in rows) for kind in KINDS}
    lines = ["| Crate | Proof | Tests | Edits | All |", "|---|---|---|---|---|"]
    for name, row in [*rows, ("all", sums)]:
        cells = [f"{row[kind]:.1f}" if row[kind] >= 0.05 else "-" for kind in KINDS]
        lines.append(f"| {name} | {' | '.join(cells)} | {sum(row.values()):.1f} |")
    version = subprocess.run(["rt", "version"], capture_output=True, text=True).stdout.split("\n")[0]
    lines += ["", f"Measured with `{version}`: {sum(sums.values()):.0f} processor minutes, {wall / 60:.0f} minutes on {os.cpu_count()} processors."]
    return "\n".join(lines)


def write(text):
    """Puts the table into the document, between its marks."""
    with open(DOCUMENT, encoding="utf-8") as file:
        old = file.read()
    new, count = re.subn(f"{BEGIN}.*?{END}", lambda _: f"{BEGIN}\n{text}\n{END}", old, flags=re.S)
    if count != 1:
        sys.exit(f"{DOCUMENT}: the marks of the table stand there {count} times")
    with open(DOCUMENT, "w", encoding="utf-8") as file:
        file.write(new)


def main():
    words = argparse.ArgumentParser()
    words.add_argument("--write", action="store_true")
    words.add_argument("command", nargs=argparse.REMAINDER)
    asked = words.parse_args()
    began = time.time()
    running = subprocess.Popen(asked.command or ["rt", "ci"], cwd=ROOT)
    watch, ended = Watch(running.pid), threading.Event()

    def look_on():
        while not ended.wait(0.2):
            watch.look()

    looking = threading.Thread(target=look_on)
    looking.start()
    status = running.wait()
    ended.set()
    looking.join()
    text = table(watch.costs(), time.time() - began)
    print(text)
    if asked.write and status == 0:
        write(text)
    return status


sys.exit(main())
