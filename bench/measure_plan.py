#!/usr/bin/env python3
"""Runs the program of bench/plan and prints what it measures; plan.sh calls it.

    measure_plan.py PROGRAM

Of nine runs the least of each number counts. It ends with status 1 where an aim is missed.
"""
import os
import subprocess
import sys

RUNS = 9
# word of the program, what it is, and the aims: most of the time of reading, and most bytes
CASES = [("coarse", "a piece for each tile", 0.05, 2_000_000), ("fine", "layouts 4,4, air 2,2, land 1,2", 0.2, None)]
MOST_NANOSECONDS = 50
# (a block of this size or more is given back to the system once it is free, so that pages that are held are in use)
EXACT = {**os.environ, "MALLOC_MMAP_THRESHOLD_": "4096", "MALLOC_TRIM_THRESHOLD_": "0"}


def numbers(program, word, env):
    return [int(it) for it in subprocess.run([program, word], check=True, stdout=subprocess.PIPE, env=env).stdout.split()]


def main():
    program, missed = sys.argv[1], []
    for word, what, share, most in CASES:
        reading, making, looking = (min(it) for it in list(zip(*(numbers(program, word, os.environ) for _ in range(RUNS))))[:3])
        held = numbers(program, word, EXACT)[3]
        print(f"{what}: reading {reading / 1000:.1f} ms, making {making / 1000:.2f} ms ({making / reading:.3f} of it), "
              f"{held / 1e6:.2f} MB; an action {looking} ns")
        if making > share * reading:
            missed.append(f"{what}: making takes more than {share} of reading")
        if most and held > most:
            missed.append(f"{what}: more than {most / 1e6} MB")
        if looking > MOST_NANOSECONDS:
            missed.append(f"{what}: an action takes more than {MOST_NANOSECONDS} ns")
    for it in missed:
        print(f"missed: {it}")
    return 1 if missed else 0


sys.exit(main())
