#!/usr/bin/python3
"""Checks the grid that was made of a true sphere's files, by other ways than the tool's: check_sphere.py FOLDER GRID.

Sides that contacts join are the same places on the sphere; areas are those of the sphere; each exchange area is its rounding.
"""
import os
import sys
from fractions import Fraction
from math import pi

import netCDF4
import numpy

sys.path.insert(0, os.path.join(os.path.dirname(os.path.abspath(__file__)), ".."))
from coupler_files import read_grid  # noqa: E402

UNIT, RADIUS = 512, 6371000.0


def points_of(path):
    with netCDF4.Dataset(path) as file:
        x, y = numpy.radians(file.variables["x"][:]), numpy.radians(file.variables["y"][:])
    return numpy.stack([numpy.cos(y) * numpy.cos(x), numpy.cos(y) * numpy.sin(x), numpy.sin(y)], axis=2)


def ends_of(points, mosaic, cell, side):
    """The two ends of a cell's side."""
    tile = int(numpy.searchsorted(mosaic.firsts, cell, "right")) - 1
    nx = mosaic.shapes[tile][0]
    i, j = 2 * (int(cell - mosaic.firsts[tile]) % nx), 2 * (int(cell - mosaic.firsts[tile]) // nx)
    corners = {0: ((i, j), (i, j + 2)), 1: ((i + 2, j), (i + 2, j + 2)), 2: ((i, j), (i + 2, j)), 3: ((i, j + 2), (i + 2, j + 2))}[side]
    return [points[tile][b, a] for a, b in corners]


def check_contacts(folder, name, files, mosaic, count):
    points = [points_of(os.path.join(folder, it)) for it in files]
    pairs = list(mosaic.joined_sides())
    assert len(pairs) == count, (name, len(pairs))
    for (cell, side), (other, its) in pairs:
        one, two = ends_of(points, mosaic, cell, side), ends_of(points, mosaic, other, its)
        apart = min(max(numpy.linalg.norm(one[0] - two[0]), numpy.linalg.norm(one[1] - two[1])),
                    max(numpy.linalg.norm(one[0] - two[1]), numpy.linalg.norm(one[1] - two[0])))
        assert apart < 1e-9, (name, cell, side, other, its, apart)


def areas_by_air(folder, kind):
    """For each cell of the air its exchange areas in the order of the files."""
    found = {}
    for tile in range(1, 7):
        for other in range(1, 7):
            path = os.path.join(folder, f"atmos_mosaic_tile{tile}X{kind}_mosaic_tile{other}.nc")
            if os.path.exists(path):
                with netCDF4.Dataset(path) as file:
                    for (i, j), area in zip(file.variables["tile1_cell"][:].tolist(), file.variables["xgrid_area"][:].tolist()):
                        found.setdefault((tile, i, j), []).append(Fraction(area) / UNIT)
    return found


def largest_remainder(areas):
    made = [int(it) for it in areas]
    extra = int(sum(areas) + Fraction(1, 2)) - sum(made)
    for n in sorted(range(len(areas)), key=lambda n: (-(areas[n] - made[n]), n))[:extra]:
        made[n] += 1
    return [it for it in made if it]


def main():
    folder, grid = sys.argv[1], read_grid(sys.argv[2], with_rows=True)
    air, land, ocean = (grid.mosaics[it] for it in ("atmos", "land", "ocean"))
    size, (nx, ny) = air.shapes[0][0], ocean.shapes[0]
    check_contacts(folder, "atmos", [f"atmos_hgrid.tile{n}.nc" for n in range(1, 7)], air, 12 * size)
    check_contacts(folder, "ocean", ["ocean_hgrid.nc"], ocean, ny + nx)
    assert abs(int(air.area.sum()) * UNIT / (4 * pi * RADIUS**2) - 1) < 1e-6
    assert int(air.area.sum()) == int(land.area.sum()) + int(ocean.area.sum()) <= 2**40
    on_land, on_sea = areas_by_air(folder, "land"), areas_by_air(folder, "ocean")
    rows = {n: [] for n in range(air.cells)}
    for of in ("land", "ocean"):
        for cell, _, area in grid.rows[of].tolist():
            rows[cell].append(area)
    for cell, found in rows.items():
        key = (cell // size**2 + 1, cell % size + 1, cell // size % size + 1)
        assert found == largest_remainder(on_land.get(key, []) + on_sea.get(key, [])), key


main()
