#!/usr/bin/env python3
"""Times the proved program and the plain one on the inputs of the folder that it runs in; solo.sh calls it.

Times are processor time, of which other work on the machine takes little. Of several runs in turn the shortest counts. Both
programs have to write the same bytes, line and fault. It ends with status 1 where they don't, or where an aim is missed.
"""
import os
import shutil
import subprocess
import sys

# name, cells, steps, runs, what it is
CASES = [
    ("single", 512 * 512, 200, 3, "one tile of 512 by 512"),
    ("wide", 512 * 512, 20, 5, "the same, products above 64 bits"),
    ("cubed", 6 * 200 * 200, 200, 3, "cubed sphere, six tiles of 200 by 200"),
    ("equal", 512 * 512, 200, 3, "one tile of 512 by 512, equal areas"),
    ("single", 512 * 512, 0, 9, "one tile of 512 by 512, reading and writing"),
    ("largest", 1 << 18, 0, 9, "the longest grid text there is, likewise"),
    ("refused", 1 << 18, 0, 9, "the same with 30 MiB, refused after its end"),
]


# The most that a case may take of the time of the plain program that takes each flow once.
BY_FACES = {"single": 0.5, "cubed": 0.6}


class Program:
    def __init__(self, path):
        self.path = path
        self.name = os.path.basename(path)

    def words(self, name, steps):
        return [f"{name}.grid", f"{name}.start", self.name, str(steps)]

    def command(self, *given):
        return [self.path, *self.words(*given)]

    def run(self, *given):
        """Gives the seconds, and all that came of the run: status, line, fault and file."""
        ran = subprocess.Popen(self.command(*given), stdout=subprocess.PIPE, stderr=subprocess.PIPE)
        with ran.stdout, ran.stderr:
            line, fault = ran.stdout.read(), ran.stderr.read()
        _, status, used = os.wait4(ran.pid, 0)
        ran.returncode = os.waitstatus_to_exitcode(status)
        file = None
        if ran.returncode == 0:
            with open(f"{self.name}.restart", "rb") as it:
                file = it.read()
        came = ran.returncode == 0, line, fault.removeprefix(self.name.encode()), file
        return used.ru_utime + used.ru_stime, came

    def peak(self, *given):
        """Gives the most memory in bytes, as GNU time says."""
        if not shutil.which("time"):
            return None
        ran = subprocess.run([shutil.which("time"), "-f", "%M", *self.command(*given)], capture_output=True)
        return 1024 * int(ran.stderr.split()[-1])


class Proved(Program):
    def command(self, *given):
        return [self.path, "solo", *self.words(*given)]


class InPieces(Proved):
    """The proved program with each tile cut into pieces."""

    def __init__(self, path, px, py):
        super().__init__(path)
        self.name, self.layout = f"{self.name}_{px}_{py}", [str(px), str(py)]

    def command(self, *given):
        return [*super().command(*given), *self.layout]


class Check(Proved):
    def command(self, name, steps):
        return [self.path, "check", f"{name}.grid"]


class ByFaces(Program):
    def command(self, *given):
        return [*super().command(*given), "faces"]


def shortest(programs, given, runs):
    times, came = [[] for _ in programs], []
    for _ in range(runs):
        for program, taken in zip(programs, times):
            seconds, result = program.run(*given)
            taken.append(seconds)
            came.append(result)
    return [min(it) for it in times], all(it == came[0] for it in came)


def seconds_of(program, runs, *given):
    return min(program.run(*given)[0] for _ in range(runs))


def measure_pieces(path, missed):
    """The run in pieces beside the undivided one, and what making the strips of 64 pieces takes beside reading the grid."""
    (whole, divided), same = shortest([Proved(path), InPieces(path, 4, 4)], ("single", 200), 5)
    if not same:
        missed.append("the run in pieces writes other bytes")
    if divided > 1.3 * whole:
        missed.append(f"the run in pieces takes {divided / whole:.2f} times that of the undivided one")
    print(f"in 4 by 4 pieces, 200 steps: {divided:.3f} s, {divided / whole:.2f} times the undivided run")
    reading = seconds_of(Check(path), 9, "single", 0)
    strips = seconds_of(InPieces(path, 8, 8), 9, "single", 0) - seconds_of(InPieces(path, 1, 1), 9, "single", 0)
    if strips > reading:
        missed.append(f"the strips of 64 pieces take {strips:.3f} s, more than reading the grid")
    print(f"64 pieces and their strips take {strips:.3f} s more than one piece, beside {reading:.3f} s for reading the grid")


def main():
    proved, plain, by_faces = Proved(sys.argv[1]), Program(sys.argv[2]), ByFaces(sys.argv[2])
    base = proved.peak("two", 1)
    missed, by_cell = [], {}
    print(f"{'':46}{'steps':>6}{'proved':>10}{'plain':>10}{'ratio':>7}{'by faces':>10}{'ratio':>7}{'peak MB':>9}{'bound MB':>9}")
    for name, cells, steps, runs, what in CASES:
        (mine, other, faces), same = shortest([proved, plain, by_faces], (name, steps), runs)
        if not same:
            missed.append(f"{what}: the outputs differ")
        if mine > (1.2 if steps else 2) * other:
            missed.append(f"{what}: {mine / other:.2f} times the plain program's time")
        if steps and mine > BY_FACES.get(name, 2) * faces:
            missed.append(f"{what}: {mine / faces:.2f} times the time of the plain program by faces")
        peak = proved.peak(name, steps)
        files = os.path.getsize(f"{name}.grid") + os.path.getsize(f"{name}.start")
        bound = None if peak is None else base + files + (4 * 8 + 2 * 16) * cells
        if peak is not None and peak > bound:
            missed.append(f"{what}: {peak} bytes of memory, more than {bound}")
        if steps:
            by_cell[name] = mine / cells / steps
        megabytes = ["-" if it is None else f"{it / 1e6:.1f}" for it in (peak, bound)]
        print(f"{what:46}{steps:6}{mine:9.3f}s{other:9.3f}s{mine / other:7.2f}{faces:9.3f}s{mine / faces:7.2f}{megabytes[0]:>9}{megabytes[1]:>9}")
    for name, seconds in by_cell.items():
        print(f"{name}: {1e9 * seconds:.1f} ns a cell and step, two quantities")
    measure_pieces(sys.argv[1], missed)
    if by_cell["cubed"] > 1.5 * by_cell["single"]:
        missed.append("the cubed sphere is more than 1.5 times slower by cell than the single tile")
    print(f"bound: {'-' if base is None else round(base / 1e6, 1)} MB at two cells, the files' bytes, four lists of eight bytes a cell, and 16 bytes a face")
    print(*[f"MISSED {it}" for it in missed] or ["the outputs are the same, and all aims are met"], sep="\n")
    return int(bool(missed))


if __name__ == "__main__":
    sys.exit(main())
