#!/usr/bin/python3
"""Makes a run of one column with numbers beyond 2^53: great.py FOLDER OUT copies FOLDER's grid, namelist and start to OUT.grid,
OUT.nml and OUT.start, with more water and heat in the ocean."""
import os
import shutil
import sys

sys.path.insert(0, os.path.join(os.path.dirname(os.path.abspath(__file__)), ".."))
from coupler_files import read_grid, read_state, state_bytes  # noqa: E402


def main():
    folder, out = sys.argv[1:]
    for name, end in (("grid", "grid"), ("names", "nml")):
        shutil.copy(os.path.join(folder, name), f"{out}.{end}")
    grid = read_grid(f"{out}.grid")
    state = read_state(os.path.join(folder, "start"), grid)
    state.sections["water"] = state.sections["water"] + 2**49 + 1
    state.sections["heat"] = state.sections["heat"] + 1500 * (2**49 + 1) + 1
    with open(f"{out}.start", "wb") as file:
        file.write(state_bytes(grid, state))


main()
