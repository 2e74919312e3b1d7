#!/usr/bin/python3
"""Writes the files that FMS's tools would make of a cubed sphere and a tripolar ocean, with areas of a sphere's true size.

    sphere.py CELLS COLUMNS ROWS FOLDER

The air and the land are a cubed sphere of six tiles of CELLS by CELLS cells, whose edges are great circles. The ocean has COLUMNS
by ROWS cells from 78 degrees south on: meridians and parallels up to 65 degrees north, and beyond it a cap with two poles on
land (after Murray 1996), folded along the north edge. Overlaps are clipped polygons of great circles. Land is where three round
continents lie. Of each cell of the air the land is what the wet ocean leaves, as `make_coupler_mosaic` has it.
"""
import math
import os
import sys

import numpy

sys.path.insert(0, os.path.join(os.path.dirname(os.path.abspath(__file__)), ".."))
from fms_files import write_coupler, write_exchange, write_hgrid, write_mask, write_mosaic  # noqa: E402

RADIUS = 6371000.0
SOUTH, JOIN, POLE = -78.0, 65.0, 60.0
LEAST = 1e-6
# of each tile of the cube: its middle, and where its columns and its rows go
FACES = [("+x", "+y", "+z"), ("+y", "-x", "+z"), ("+z", "-x", "-y"), ("-x", "-z", "-y"), ("-y", "-z", "+x"), ("-z", "+y", "+x")]
# contacts of a cubed sphere as FMS's tools write them; n is the number of columns of the doubled grid
CONTACTS = [
    (0, 1, "n:n,1:n::1:1,1:n"), (0, 2, "1:n,n:n::1:1,n:1"), (0, 4, "1:1,1:n::n:1,n:n"), (0, 5, "1:n,1:1::1:n,n:n"),
    (1, 2, "1:n,n:n::1:n,1:1"), (1, 3, "n:n,1:n::n:1,1:1"), (1, 5, "1:n,1:1::n:n,n:1"), (2, 3, "n:n,1:n::1:1,1:n"),
    (2, 4, "1:n,n:n::1:1,n:1"), (3, 4, "1:n,n:n::1:n,1:1"), (3, 5, "n:n,1:n::n:1,1:1"), (4, 5, "n:n,1:n::1:1,1:n"),
]
# middles of the continents in degrees east and north, and their radius in degrees
CONTINENTS = [(60, 62, 34), (240, 60, 32), (20, -5, 22)]


def axis(word):
    return numpy.eye(3)["xyz".index(word[1])] * (1 if word[0] == "+" else -1)


def turned(points, degrees):
    """Points turned about the axis of the poles."""
    c, s = math.cos(math.radians(degrees)), math.sin(math.radians(degrees))
    return points @ numpy.array([[c, s, 0], [-s, c, 0], [0, 0, 1]])


def cube(cells):
    """The points of the six doubled grids, as unit vectors."""
    at = numpy.tan(numpy.linspace(-math.pi / 4, math.pi / 4, 2 * cells + 1))
    for face in FACES:
        middle, column, row = (axis(it) for it in face)
        points = middle + at[None, :, None] * column + at[:, None, None] * row
        # as FMS's tools do, so that no edge lies along a meridian of the ocean
        yield turned(points / numpy.linalg.norm(points, axis=2, keepdims=True), 10)


def tripolar(columns, rows):
    """The points of the ocean's doubled grid. The cap has an eighth of the rows."""
    cap = max(1, rows // 8)
    turn = numpy.linspace(0, 2 * math.pi, 2 * columns + 1)
    latitude = numpy.radians(numpy.linspace(SOUTH, JOIN, 2 * (rows - cap) + 1))[:, None]
    below = numpy.stack([numpy.cos(latitude) * numpy.cos(turn), numpy.cos(latitude) * numpy.sin(turn), numpy.sin(latitude) + 0 * turn], axis=2)
    up = numpy.linspace(0, math.pi / 2, 2 * cap + 1)[1:, None]
    # a half sphere with its poles on the rim, seen from below as a disc of the cap's size
    x, y, z = numpy.cos(turn) + 0 * up, numpy.sin(turn) * numpy.cos(up), numpy.abs(numpy.sin(turn)) * numpy.sin(up)
    size = math.tan(math.radians(90 - JOIN) / 2)
    x, y = size * x / (1 + z), size * y / (1 + z)
    above = numpy.stack([2 * x, 2 * y, 1 - x * x - y * y], axis=2) / (1 + x * x + y * y)[:, :, None]
    points = numpy.concatenate([below, above])
    points[:, -1] = points[:, 0]
    # the two halves of the fold are the same points
    points[-1] = (points[-1] + points[-1, ::-1]) / 2
    return turned(points / numpy.linalg.norm(points, axis=2, keepdims=True), POLE)


def corners(points):
    """The corners of each cell of a doubled grid, counterclockwise, those that fall together once."""
    some = points[::2, ::2]
    for row in numpy.stack([some[:-1, :-1], some[:-1, 1:], some[1:, 1:], some[1:, :-1]], axis=2).reshape(-1, 4, 3):
        yield [row[k] for k in range(4) if numpy.linalg.norm(row[k] - row[k - 1]) > 1e-9]


def area_of(polygon):
    """The area of a polygon of great circles on the unit sphere, by triangles from its first corner."""
    total, a = 0.0, polygon[0] if polygon else None
    for b, c in zip(polygon[1:], polygon[2:]):
        total += 2 * math.atan2(a @ numpy.cross(b, c), 1 + a @ b + b @ c + c @ a)
    return total


def clipped(polygon, sides):
    """The part of a polygon within all sides, each the normal of a great circle."""
    for normal in sides:
        heights, made = [float(normal @ it) for it in polygon], []
        for k, (point, height) in enumerate(zip(polygon, heights)):
            if (height > 0) != (heights[k - 1] > 0):
                cut = polygon[k - 1] * height - point * heights[k - 1]
                made.append(cut / numpy.linalg.norm(cut) * (1 if height > heights[k - 1] else -1))
            if height > 0:
                made.append(point)
        polygon = made
        if len(polygon) < 3:
            return []
    return polygon


def overlaps(air, ocean):
    """Rows of (cell of the air, cell of the ocean, area) for all pairs that overlap."""
    middles = [[sum(it) / numpy.linalg.norm(sum(it)) for it in cells] for cells in (air, ocean)]
    radii = [[max(math.acos(min(1, m @ p)) for p in cell) for m, cell in zip(ms, cells)] for ms, cells in zip(middles, (air, ocean))]
    angles = numpy.arccos(numpy.clip(numpy.array(middles[0]) @ numpy.array(middles[1]).T, -1, 1))
    near = angles < numpy.array(radii[0])[:, None] + numpy.array(radii[1])[None, :]
    for a, cell in enumerate(air):
        sides = [numpy.cross(cell[k], cell[(k + 1) % len(cell)]) for k in range(len(cell))]
        for o in numpy.flatnonzero(near[a]):
            area = area_of(clipped(ocean[o], sides))
            if area > LEAST * area_of(cell):
                yield a, int(o), area


def is_land(point):
    for east, north, radius in CONTINENTS:
        lon, lat = math.radians(east), math.radians(north)
        middle = numpy.array([math.cos(lat) * math.cos(lon), math.cos(lat) * math.sin(lon), math.sin(lat)])
        if middle @ point > math.cos(math.radians(radius)):
            return True
    return False


def degrees(points):
    return numpy.degrees(numpy.arctan2(points[..., 1], points[..., 0])) % 360, numpy.degrees(numpy.arcsin(numpy.clip(points[..., 2], -1, 1)))


def small_areas(points):
    """The areas of the cells of a doubled grid itself."""
    quads = numpy.stack([points[:-1, :-1], points[:-1, 1:], points[1:, 1:], points[1:, :-1]], axis=2).reshape(-1, 4, 3)
    return numpy.array([area_of(list(it)) for it in quads]).reshape(points.shape[0] - 1, -1) * RADIUS**2


def write_tiles(folder, name, grids, contacts):
    names = [f"{name}_hgrid.tile{it + 1}.nc" if len(grids) > 1 else f"{name}_hgrid.nc" for it in range(len(grids))]
    for tile, (points, path) in enumerate(zip(grids, names)):
        write_hgrid(os.path.join(folder, path), f"tile{tile + 1}", small_areas(points), *degrees(points))
    write_mosaic(os.path.join(folder, f"{name}_mosaic.nc"), f"{name}_mosaic", names, contacts)


def write_pairs(folder, kind, names, shapes, rows):
    """A file for each pair of tiles; `shapes` are the columns and rows of a tile of each mosaic."""
    (nx, ny), (mx, my) = shapes
    made = []
    for t in range(6):
        for u in range(6 if kind == "aXl" else 1):
            own = [(a % nx + 1, a // nx % ny + 1, o % mx + 1, o // mx % my + 1, area) for a, o, area in rows
                   if a // (nx * ny) == t and o // (mx * my) == u]
            if own:
                ends = [f"{names[0]}_mosaic:tile{t + 1}", f"{names[1]}_mosaic:tile{u + 1}"]
                made.append(f"{'X'.join(it.replace(':', '_') for it in ends)}.nc")
                table = numpy.array(own)
                write_exchange(os.path.join(folder, made[-1]), "::".join(ends), table[:, 0:2], table[:, 2:4], table[:, 4] * RADIUS**2)
    return made


def main():
    cells, columns, rows, folder = int(sys.argv[1]), int(sys.argv[2]), int(sys.argv[3]), sys.argv[4]
    os.makedirs(folder, exist_ok=True)
    tiles, sea = list(cube(cells)), tripolar(columns, rows)
    air, ocean = [it for points in tiles for it in corners(points)], list(corners(sea))
    wet = [not is_land(it) for it in sea[1::2, 1::2].reshape(-1, 3)]
    water = [row for row in overlaps(air, ocean) if wet[row[1]]]
    left = [area_of(it) for it in air]
    for a, _, area in water:
        left[a] -= area
    land = [(a, a, area) for a, area in enumerate(left) if area > LEAST * area_of(air[a])]
    has_land = {a for a, _, _ in land}
    # an edge of the doubled grid, and the fold as its two halves
    n, m, k = str(2 * cells), 2 * columns, 2 * rows
    cube_contacts = [(t, u, index.replace("n", n)) for t, u, index in CONTACTS]
    sea_contacts = [(0, 0, f"{m}:{m},1:{k}::1:1,1:{k}"), (0, 0, f"1:{columns},{k}:{k}::{m}:{columns + 1},{k}:{k}")]
    write_tiles(folder, "atmos", tiles, cube_contacts)
    write_tiles(folder, "ocean", [sea], sea_contacts)
    square, sheet = (cells, cells), (columns, rows)
    names = {"aXo": write_pairs(folder, "aXo", ("atmos", "ocean"), (square, sheet), water),
             "aXl": write_pairs(folder, "aXl", ("atmos", "land"), (square, square), land),
             "lXo": write_pairs(folder, "lXo", ("land", "ocean"), (square, sheet), [it for it in water if it[0] in has_land])}
    # the land has the mosaic of the air, as is usual
    write_tiles(folder, "land", tiles, cube_contacts)
    write_coupler(os.path.join(folder, "grid_spec.nc"), {"atm": "atmos_mosaic", "lnd": "land_mosaic", "ocn": "ocean_mosaic"}, names)
    whole = [0.0] * len(ocean)
    for _, o, area in water:
        whole[o] += area
    write_mask(os.path.join(folder, "ocean_mask.nc"), numpy.array([min(1.0, got / area_of(it)) for got, it in zip(whole, ocean)]).reshape(rows, columns))


main()
