#!/usr/bin/env python3
"""Runs the gate, or another command of the toolchain, and prints what each crate cost: processor minutes of its own proof, of its
tests' proof, and of its must-fail edits.

    bench/gate_costs.py [COMMAND ..]

The command, `.ci/run` where none is given, runs at the top of the repository, with its output on this one's standard error. Once a
second the processes below it are looked at, by Linux's /proc, so a check that ends within a second isn't seen. What is kept from
earlier runs costs nothing and isn't shown: for all costs run it in a fresh clone on a machine where nothing is kept, with nothing
else running. Where processes share processors, as with hyper-threads, minutes are more than alone."""

import collections
import os
import subprocess
import sys
import time

PAGE = os.sysconf("SC_PAGE_SIZE")
TICKS = os.sysconf("SC_CLK_TCK")
TOP = os.path.dirname(os.path.dirname(os.path.abspath(__file__)))
KINDS = ("proof", "tests", "edits")


def processes():
    """Gives each process as its number, its parent's, the time of its start, its words, its folder, seconds of processor time and
    bytes of memory."""
    for name in filter(str.isdigit, os.listdir("/proc")):
        try:
            with open(f"/proc/{name}/stat", encoding="utf-8", errors="replace") as file:
                fields = file.read().rsplit(")", 1)[1].split()
            with open(f"/proc/{name}/cmdline", encoding="utf-8", errors="replace") as file:
                words = file.read().split("\0")
            seconds = (int(fields[11]) + int(fields[12])) / TICKS
            yield int(name), int(fields[1]), fields[19], words, os.readlink(f"/proc/{name}/cwd"), seconds, int(fields[21]) * PAGE
        except OSError:
            # it ended meanwhile
            continue


def kind_of(words, folder):
    """Says whether a check is of a crate's proof, of its tests or of one of its edits."""
    if os.path.basename(folder).startswith("rt-edit-"):
        return "edits"
    return "tests" if "--test" in words else "proof"


def look(root, seen):
    """Notes each check that runs below this process."""
    found = {number: rest for number, *rest in processes()}
    for number, (parent, start, words, folder, seconds, memory) in found.items():
        if "--crate-name" not in words[:-1]:
            continue
        above = parent
        while above in found and above != root:
            above = found[above][0]
        if above == root:
            crate = words[words.index("--crate-name") + 1]
            most = max(memory, seen.get((number, start), (0, 0, 0, 0))[3])
            seen[number, start] = crate, kind_of(words, folder), seconds, most


def lines_of(crate):
    """Counts the lines of a crate's code that aren't empty."""
    count = 0
    for folder, _, names in os.walk(f"{TOP}/crates/{crate}/src"):
        for name in names:
            with open(f"{folder}/{name}", encoding="utf-8") as file:
                count += sum(1 for line in file if line.strip())
    return count


def show(seen, wall):
    """Prints the table, the dearest crate first."""
    costs, edits = collections.defaultdict(collections.Counter), collections.Counter()
    for crate, kind, seconds, _ in seen.values():
        costs[crate][kind] += seconds / 60
        edits[crate] += kind == "edits"
    print("| Crate | Code | Proof | Tests | Edits | Checks of edits | All |\n|---|---|---|---|---|---|---|")
    total, lines = collections.Counter(), 0
    for crate, of in sorted(costs.items(), key=lambda it: -sum(it[1].values())):
        total += of
        lines += lines_of(crate)
        parts = " | ".join(f"{of[kind]:.1f}" for kind in KINDS)
        print(f"| `{crate}` | {lines_of(crate)} | {parts} | {edits[crate]} | {sum(of.values()):.1f} |")
    parts = " | ".join(f"{total[kind]:.1f}" for kind in KINDS)
    every = sum(total.values())
    print(f"| all {len(costs)} | {lines} | {parts} | {sum(edits.values())} | {every:.1f} |")
    most = max((it[3] for it in seen.values()), default=0)
    print(f"\n{every:.0f} processor minutes in {wall / 60:.0f} minutes, {1000 * every / max(lines, 1):.1f} for each 1,000 lines of code;"
          f" the largest check took {most / 1e9:.1f} GB.")


def main():
    seen, begun = {}, time.time()
    with subprocess.Popen(sys.argv[1:] or [".ci/run"], cwd=TOP, stdout=sys.stderr) as running:
        while running.poll() is None:
            look(running.pid, seen)
            time.sleep(1)
    show(seen, time.time() - begun)
    return running.returncode


if __name__ == "__main__":
    sys.exit(main())
