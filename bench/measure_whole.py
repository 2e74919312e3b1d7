#!/usr/bin/env python3
"""Times `whole` on the inputs of the folder that it runs in; whole.sh calls it.

    measure_whole.py PROGRAM [OTHER_PROGRAM]

Both programs ask for large pages, as run.sh does. Times are processor time, of which other work on the machine takes little. Of
several runs in turn the shortest counts. Where a second program is given it runs in turn with the first, and both have to write
the same bytes. It ends with status 1 where they don't, or where an aim is missed.
"""
import os
import shutil
import statistics
import subprocess
import sys

RUNS = 9
# name of the input, hours, seconds of a fast step and of an ocean step (both fill the coupling step of an hour), what it is
CASES = [
    ("32", 24, 1800, 1800, "size 32, 24 steps"),
    ("48", 24, 1800, 1800, "size 48, 24 steps"),
    ("64", 24, 1800, 1800, "size 64, 24 steps"),
    ("64", 24, 180, 3600, "size 64, 20 fast steps a step"),
    ("64", 24, 3600, 3600, "size 64, one fast step a step"),
    ("64", 24, 3600, 360, "size 64, 10 ocean steps a step"),
    ("64", 0, 1800, 1800, "size 64, no step: reading and writing"),
]


class Program:
    def __init__(self, path, name):
        self.path, self.name = path, name

    def command(self, size, names):
        return [self.path, "whole", f"{size}.grid", names, f"{size}.start", self.name]

    def run(self, size, names):
        """Gives the seconds, and what came of the run: the line and the three files."""
        ran = subprocess.Popen(self.command(size, names), stdout=subprocess.PIPE)
        with ran.stdout:
            line = ran.stdout.read()
        _, status, used = os.wait4(ran.pid, 0)
        ran.returncode = os.waitstatus_to_exitcode(status)
        if ran.returncode:
            sys.exit(f"{self.path} ended with status {ran.returncode}")
        came = [line]
        for output in ("stocks", "exchanges", "restart"):
            with open(f"{self.name}.{output}", "rb") as file:
                came.append(file.read())
        return used.ru_utime + used.ru_stime, came

    def peak(self, size, names):
        """Gives the most memory in bytes, as GNU time says."""
        if not shutil.which("time"):
            return None
        ran = subprocess.run([shutil.which("time"), "-f", "%M", *self.command(size, names)], capture_output=True)
        return 1024 * int(ran.stderr.split()[-1])


def write_names(hours, fast, ocean):
    """Writes a namelist: a run of so many hours with a coupling step of one, and the seconds of a fast and an ocean step."""
    with open("names", "w") as file:
        file.write(f"&coupler_nml current_date = 2001,1,1,0,0,0, calendar = 'gregorian', hours = {hours}, dt_cpld = 3600, dt_atmos = {fast} /\n")
        file.write(f"&ocean_nml dt_ocean = {ocean} /\n")
    return "names"


def exchange_cells(size):
    """Counts the exchange cells of a grid, of both lists."""
    with open(f"{size}.grid") as file:
        return sum(line.startswith("x ") for line in file)


def cell_times(program):
    """Gives the seconds of a cell and coupling step by size, of each run. The sizes run in turn, so that a slower hour of the machine meets all."""
    names = write_names(24, 1800, 1800)
    times = {"32": [], "48": [], "64": []}
    for _ in range(RUNS):
        for size, taken in times.items():
            seconds, came = program.run(size, names)
            taken.append(seconds / int(came[0].split()[2]) / 24)
    return times


def main():
    os.environ.setdefault("GLIBC_TUNABLES", "glibc.malloc.hugetlb=1:glibc.malloc.mmap_threshold=1073741824")
    programs = [Program(path, f"out{n}") for n, path in enumerate(sys.argv[1:])]
    missed, by_fast = [], {}
    print(f"{'':40}{'seconds':>9}{'other':>9}{'ratio':>7}{'peak MB':>9}{'of files':>9}")
    for size, hours, fast, ocean, what in CASES:
        names = write_names(hours, fast, ocean)
        times = [[] for _ in programs]
        for _ in range(RUNS):
            came = []
            for program, taken in zip(programs, times):
                seconds, result = program.run(size, names)
                taken.append(seconds)
                came.append(result)
            if any(it != came[0] for it in came):
                missed.append(f"{what}: the outputs differ")
        least = [min(it) for it in times]
        # files as they are read, and the state as it is written
        files = sum(os.path.getsize(it) for it in (f"{size}.grid", f"{size}.start", f"{programs[0].name}.restart"))
        peak = programs[0].peak(size, names)
        if ocean == 3600:
            by_fast[3600 // fast] = least
        ratio = least[0] / least[1] if len(least) > 1 else None
        if ratio is not None and ratio > 1:
            missed.append(f"{what}: {ratio:.2f} times the other program's time")
        if peak is not None and peak > 3 * files:
            missed.append(f"{what}: {peak / files:.2f} times the bytes of inputs and state")
        shown = [f"{least[1]:8.3f}s{ratio:7.2f}" if ratio is not None else f"{'-':>9}{'-':>7}"]
        shown.append(f"{peak / 1e6:9.1f}{peak / files:9.2f}" if peak is not None else f"{'-':>9}{'-':>9}")
        print(f"{what:40}{least[0]:8.3f}s{''.join(shown)}")
    times = cell_times(programs[0])
    by_cell = {size: min(taken) for size, taken in times.items()}
    for size, seconds in by_cell.items():
        print(f"size {size}: {1e9 * seconds:.1f} ns a cell and coupling step of two fast and two ocean steps")
    # beside the leasts, which count: what is usual
    usual = statistics.median(large / small for small, large in zip(times["32"], times["64"]))
    print(f"size 64: {by_cell['64'] / by_cell['32']:.2f} times as long as size 32; {usual:.2f} times in the middle of the rounds")
    # the 19 fast steps that one of the cases has more, in each of 24 coupling steps
    each = [1e9 * (many - one) / (24 * 19 * exchange_cells("64")) for many, one in zip(by_fast[20], by_fast[1])]
    print(f"size 64: {each[0]:.1f} ns an exchange cell and fast step" + "".join(f", {it:.1f} in the other program" for it in each[1:]))
    if each[0] > min(each):
        missed.append(f"an exchange cell and fast step: {each[0] / each[1]:.2f} times the other program's time")
    if by_cell["64"] > 1.1 * by_cell["32"]:
        missed.append("a cell and step takes more than 1.1 times as long at size 64 as at size 32")
    print(*[f"MISSED {it}" for it in missed] or ["all aims are met"], sep="\n")
    return int(bool(missed))


if __name__ == "__main__":
    sys.exit(main())
