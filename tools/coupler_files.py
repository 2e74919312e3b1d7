"""Reads and writes the files of the coupler: grid texts, restarts, and the two tables.

All numbers are kept as they are, whole: arrays are numpy's int64. A file that isn't what it should be raises Wrong, with
a sentence for its user. The formats are those of docs/FORMATS.md.
"""
import argparse
import csv
import os
import sys

import numpy

SIDES = "WESN"
# heat that a unit of ice, of water and of vapour holds at freezing
ICE_HEAT, WATER_HEAT, VAPOUR_HEAT = 1092, 1426, 3926
MAGIC_AIR, MAGIC_FIRST, MAGIC_SECOND = b"CPLAIR01", b"CPLRST01", b"CPLRST02"


class Wrong(Exception):
    """A file that can't be used, and why."""


def reason(fault):
    """Why a file can't be read, without its name."""
    return fault.strerror if isinstance(fault, OSError) and fault.strerror else str(fault)


class Mosaic:
    """Tiles of cells, joined by contacts. `shapes` has (nx, ny) for each tile, `area` an array for all cells in whole order
    (by tile, then row, then column), `contacts` a tuple (tile, side, low, high, tile, side, low, high, flip) for each."""

    def __init__(self, shapes, area, contacts):
        self.shapes, self.area, self.contacts = shapes, area, contacts
        self.firsts = numpy.cumsum([0] + [nx * ny for nx, ny in shapes])

    @property
    def cells(self):
        return len(self.area)

    def tile(self, values, tile):
        """The numbers of one tile, as rows of columns."""
        nx, ny = self.shapes[tile]
        return values[self.firsts[tile]:self.firsts[tile + 1]].reshape(ny, nx)

    def cell(self, tile, i, j):
        """The number of a cell in whole order."""
        return self.firsts[tile] + j * self.shapes[tile][0] + i

    def edge_cell(self, tile, side, at):
        """The cell at this place along an edge of a tile."""
        nx, ny = self.shapes[tile]
        i = {"W": 0, "E": nx - 1}.get(side, at)
        j = {"S": 0, "N": ny - 1}.get(side, at)
        return self.cell(tile, i, j)

    def joined_sides(self):
        """The pairs of sides that contacts join, each side as (cell, number of the side)."""
        for t, s, low, high, u, r, low2, high2, flip in self.contacts:
            for k in range(high - low + 1):
                other = high2 - k if flip else low2 + k
                yield (self.edge_cell(t, s, low + k), SIDES.index(s)), (self.edge_cell(u, r, other), SIDES.index(r))

    def faces(self):
        """The faces: pairs of mated sides, each by its first side, as two arrays of cells and side numbers, in order."""
        found = set()
        for tile, (nx, ny) in enumerate(self.shapes):
            first = self.firsts[tile]
            numbers = first + numpy.arange(nx * ny).reshape(ny, nx)
            found.update((int(n), 1) for n in numbers[:, :-1].ravel())
            found.update((int(n), 3) for n in numbers[:-1, :].ravel())
        found.update((int(min(pair)[0]), min(pair)[1]) for pair in self.joined_sides())
        found = sorted(found)
        return numpy.array([it[0] for it in found], "i8"), numpy.array([it[1] for it in found], "i8")


class Grid:
    """A grid: of the air alone, or coupled, with mosaics of atmos, land and ocean, layers and ice categories. Where they were
    asked for, `rows` has the exchange cells of `land` and of `ocean` as arrays of (cell of the air, other cell, area), and
    `outlets` the ways of runoff as one of (cell of the land, cell of the ocean, weight); cells by their numbers in whole order."""

    def __init__(self, kind, mosaics, layers=0, categories=0, rows=None, outlets=None):
        self.kind, self.mosaics, self.layers, self.categories = kind, mosaics, layers, categories
        self.rows, self.outlets = rows, outlets

    def sections(self):
        """The sections of a restart: name, mosaic, and the shape of its numbers, the cells or faces as -1."""
        if self.kind == "air":
            return [("air_heat", "atmos", (-1,)), ("air_vapour", "atmos", (-1,))]
        k, layers = self.categories, self.layers
        return [
            ("air_heat", "atmos", (-1,)), ("air_vapour", "atmos", (-1,)), ("air_sun", "atmos", (-1,)),
            ("land_heat", "land", (-1,)), ("land_water", "land", (-1,)),
            ("parts", "ocean", (-1, k + 1)), ("ice", "ocean", (-1, k)), ("ice_heat", "ocean", (-1, k)),
            ("water", "ocean", (layers, -1)), ("heat", "ocean", (layers, -1)), ("salt", "ocean", (layers, -1)),
            ("faces", "faces", (layers, -1)), ("to_ice", "ocean", (-1, 5)), ("to_ocean", "ocean", (-1, 3)),
        ]

    def counts(self):
        """How many numbers each section has."""
        cells = {name: mosaic.cells for name, mosaic in self.mosaics.items()}
        if self.kind == "coupled":
            cells["faces"] = len(self.mosaics["ocean"].faces()[0])
        return [numpy.prod([cells[of] if it == -1 else it for it in shape], dtype=int) for _, of, shape in self.sections()]


class Lines:
    """The lines of a grid text, one after the other."""

    def __init__(self, path):
        try:
            with open(path, encoding="ascii") as file:
                self.lines = file.read().split("\n")
        except (OSError, UnicodeDecodeError) as fault:
            raise Wrong(f"{path}: no grid text can be read: {reason(fault)}") from None
        self.path, self.at = path, 0

    def words(self, first, count=None):
        """The words after the first of the next line, which must begin so."""
        self.at += 1
        words = self.lines[self.at - 1].split(" ") if self.at <= len(self.lines) else [""]
        if words[0] != first or (count is not None and len(words) != count + 1):
            raise Wrong(f"{self.path}: line {self.at} isn't `{first} ..` as it must be")
        return words[1:]

    def number(self, word):
        if not (word.isascii() and word.isdigit() and len(word) <= 19 and int(word) < 2**63):
            raise Wrong(f"{self.path}: line {self.at} has something else than numbers")
        return int(word)

    def numbers(self, first, count):
        return [self.number(it) for it in self.words(first, count)]

    def count(self, name, of):
        words = self.words(name, 2 if of else 1)
        if of and words[0] != of:
            raise Wrong(f"{self.path}: line {self.at} isn't `{name} {of} ..` as it must be")
        return self.number(words[-1])

    def contact(self, shapes):
        """A contact, whose ranges lie in the tiles and are equally long."""
        words = self.words("contact", 9)
        t, low, high, u, low2, high2 = (self.number(words[it]) for it in (0, 2, 3, 4, 6, 7))
        for tile, side, end in ((t, words[1], high), (u, words[5], high2)):
            if tile >= len(shapes) or len(side) != 1 or side not in SIDES or end >= shapes[tile][1 if side in "WE" else 0]:
                raise Wrong(f"{self.path}: line {self.at} has a contact outside the mosaic")
        if not 0 <= high - low == high2 - low2 or words[8] not in ("0", "1"):
            raise Wrong(f"{self.path}: line {self.at} has a contact of unequal ranges")
        return t, words[1], low, high, u, words[5], low2, high2, words[8] == "1"

    def mosaic(self, name):
        """A mosaic with its tiles, areas and contacts."""
        shapes, areas = [], []
        for _ in range(self.count("mosaic", name)):
            nx, ny = self.numbers("tile", 2)
            if not (1 <= nx <= 1024 and 1 <= ny <= 1024):
                raise Wrong(f"{self.path}: line {self.at} has a tile with a side that isn't 1 to 1,024")
            shapes.append((nx, ny))
            for _ in range(ny):
                areas += self.numbers("area", nx)
        if not shapes:
            raise Wrong(f"{self.path}: line {self.at} has a mosaic without tiles")
        contacts = [self.contact(shapes) for _ in range(self.count("contacts", ""))]
        return Mosaic(shapes, numpy.array(areas, "i8"), contacts)

    def pairs(self, count, first, one, other):
        """Lines of two cells and a number, as an array of cell, cell and number."""
        made = numpy.array([self.numbers(first, 7) for _ in range(count)], "i8").reshape(-1, 7)
        cells = []
        for columns, mosaic in ((made[:, :3], one), (made[:, 3:6], other)):
            shapes = numpy.array(mosaic.shapes)
            good = columns[:, 0] < len(shapes)
            good[good] = (columns[good, 1:] < shapes[columns[good, 0]]).all(axis=1)
            if not good.all():
                raise Wrong(f"{self.path}: line {self.at - count + 1 + int(numpy.argmin(good))} has a cell outside its mosaic")
            cells.append(mosaic.firsts[columns[:, 0]] + columns[:, 2] * shapes[columns[:, 0], 0] + columns[:, 1])
        return numpy.stack([*cells, made[:, 6]], axis=1)


def read_grid(path, with_rows=False):
    """Reads a grid text, of the air or coupled. Exchange cells and outlets are passed over where they aren't asked for."""
    lines = Lines(path)
    version, kind = lines.words("grid", 2)
    if version != "1" or kind not in ("air", "coupled"):
        raise Wrong(f"{path}: no grid text of version 1")
    mosaics = {"atmos": lines.mosaic("atmos")}
    if kind == "air":
        return Grid(kind, mosaics)
    mosaics["land"], mosaics["ocean"] = lines.mosaic("land"), lines.mosaic("ocean")
    layers, categories = lines.numbers("column", 2)
    if not (1 <= layers <= 8 and 1 <= categories <= 5):
        raise Wrong(f"{path}: line {lines.at} has no 1 to 8 layers and 1 to 5 categories")
    grid = Grid(kind, mosaics, layers, categories)
    if with_rows:
        grid.rows = {of: lines.pairs(lines.count("xgrid", of), "x", mosaics["atmos"], mosaics[of]) for of in ("land", "ocean")}
        grid.outlets = lines.pairs(lines.count("outlets", ""), "o", mosaics["land"], mosaics["ocean"])
        lines.words("end", 0)
    return grid


def places_of_cells(mosaic):
    """The tile, column and row of each cell, as three arrays."""
    tiles = numpy.repeat(numpy.arange(len(mosaic.shapes)), [nx * ny for nx, ny in mosaic.shapes])
    within, widths = numpy.arange(mosaic.cells) - mosaic.firsts[tiles], numpy.array(mosaic.shapes)[tiles, 0]
    return tiles, within % widths, within // widths


def mosaic_lines(name, mosaic):
    yield f"mosaic {name} {len(mosaic.shapes)}"
    for tile, (nx, ny) in enumerate(mosaic.shapes):
        yield f"tile {nx} {ny}"
        for row in mosaic.tile(mosaic.area, tile).tolist():
            yield "area " + " ".join(map(str, row))
    yield f"contacts {len(mosaic.contacts)}"
    for t, s, low, high, u, r, low2, high2, flip in mosaic.contacts:
        yield f"contact {t} {s} {low} {high} {u} {r} {low2} {high2} {int(flip)}"


def pair_lines(first, rows, one, other):
    columns = [it[rows[:, 0]] for it in places_of_cells(one)] + [it[rows[:, 1]] for it in places_of_cells(other)] + [rows[:, 2]]
    for row in zip(*(it.tolist() for it in columns)):
        yield f"{first} " + " ".join(map(str, row))


def grid_text(grid):
    """The text of a coupled grid whose rows and outlets are there."""
    lines = [f"grid 1 {grid.kind}"]
    for name, mosaic in grid.mosaics.items():
        lines += mosaic_lines(name, mosaic)
    lines.append(f"column {grid.layers} {grid.categories}")
    for of in ("land", "ocean"):
        lines.append(f"xgrid {of} {len(grid.rows[of])}")
        lines += pair_lines("x", grid.rows[of], grid.mosaics["atmos"], grid.mosaics[of])
    lines.append(f"outlets {len(grid.outlets)}")
    lines += pair_lines("o", grid.outlets, grid.mosaics["land"], grid.mosaics["ocean"])
    return "\n".join([*lines, "end", ""])


class State:
    """A state: its version (`air`, 1 or 2), elapsed seconds, and each section's numbers by name, shaped as in the grid."""

    def __init__(self, version, elapsed, sections):
        self.version, self.elapsed, self.sections = version, elapsed, sections


def category_of_most_ice(state):
    """The category that has the most ice, the first of equal ones."""
    return 1 + int(numpy.argmax(state.sections["ice"].sum(axis=0)))


def sum_of(numbers):
    """The sum of numbers as unsigned 64-bit numbers, which wraps."""
    return int(numpy.sum(numbers.astype(numpy.uint64), dtype=numpy.uint64))


class Numbers:
    """The numbers of a restart, one after the other."""

    def __init__(self, path, data):
        if len(data) % 8:
            raise Wrong(f"{path}: its length is no multiple of 8")
        self.path, self.numbers, self.at = path, numpy.frombuffer(data, ">i8").astype("i8"), 0

    def take(self, count):
        if self.at + count > len(self.numbers):
            raise Wrong(f"{self.path}: it ends too early")
        self.at += count
        return self.numbers[self.at - count:self.at]

    def section(self, name, count, has_sum):
        found = int(self.take(1)[0])
        if found != count:
            raise Wrong(f"{self.path}: section {name} has {found} numbers, and the grid asks for {count}")
        numbers = self.take(count)
        if has_sum and int(self.take(1).astype(numpy.uint64)[0]) != (count + sum_of(numbers)) % 2**64:
            raise Wrong(f"{self.path}: the sum of section {name} is another")
        return numbers


def read_state(path, grid):
    """Reads a restart of versions 1 and 2, or an air state."""
    try:
        with open(path, "rb") as file:
            data = file.read()
    except OSError as fault:
        raise Wrong(f"{path}: no state can be read: {reason(fault)}") from None
    versions = {MAGIC_AIR: "air"} if grid.kind == "air" else {MAGIC_FIRST: 1, MAGIC_SECOND: 2}
    version = versions.get(data[:8])
    if version is None:
        raise Wrong(f"{path}: no state of this kind of grid")
    words = Numbers(path, data[8:])
    elapsed = 0
    if version != "air":
        elapsed = int(words.take(1)[0])
        if version == 2 and int(words.take(1)[0]) != elapsed:
            raise Wrong(f"{path}: the sum of the elapsed seconds is another")
    sections = {}
    for (name, _, shape), count in zip(grid.sections(), grid.counts()):
        sections[name] = words.section(name, int(count), version == 2).reshape(shape)
    if words.at != len(words.numbers):
        raise Wrong(f"{path}: something follows the last section")
    return State(version, elapsed, sections)


def state_bytes(grid, state):
    """The bytes of a state in its version."""
    magic = {"air": MAGIC_AIR, 1: MAGIC_FIRST, 2: MAGIC_SECOND}[state.version]
    made = [magic]
    if state.version != "air":
        made.append(numpy.array([state.elapsed] * state.version, ">i8").tobytes())
    for name, _, _ in grid.sections():
        numbers = state.sections[name].ravel()
        made.append(numpy.array([len(numbers)], ">i8").tobytes())
        made.append(numbers.astype(">i8").tobytes())
        if state.version == 2:
            made.append(numpy.array([(len(numbers) + sum_of(numbers)) % 2**64], ">u8").tobytes())
    return b"".join(made)


STOCKS = "step,date,seconds,quantity,air,land,ice,ocean,to_ice,to_ocean,entered,left,total".split(",")
EXCHANGES = "step,exchange,quantity,before,gave,took,after".split(",")
QUANTITIES = ["heat", "water", "salt"]
EXCHANGE_NAMES = ["air-land", "air-ice", "land-ice", "ocean-ice", "ice-ocean"]
TEXTS = ("date", "quantity", "exchange")


def read_table(path, columns):
    """The rows of a table as dictionaries. It must have these columns."""
    try:
        with open(path, encoding="ascii", newline="") as file:
            lines = list(csv.reader(file))
    except (OSError, UnicodeDecodeError, csv.Error) as fault:
        raise Wrong(f"{path}: no table can be read: {reason(fault)}") from None
    if not lines or lines[0] != columns:
        raise Wrong(f"{path}: its columns aren't {','.join(columns)}")
    made = []
    for number, line in enumerate(lines[1:], 2):
        try:
            made.append({key: it if key in TEXTS else int(it) for key, it in zip(columns, line, strict=True)})
        except ValueError:
            raise Wrong(f"{path}: line {number} isn't a row of this table") from None
    return made


def check_rows(path, rows, keys, names, first):
    """Says which row a table lacks: each step from `first` on has one for each name, in this order."""
    for n in range(-(-len(rows) // len(names)) * len(names)):
        step, name = first + n // len(names), names[n % len(names)]
        if n >= len(rows) or (rows[n]["step"], *(rows[n][key] for key in keys)) != (step, *name):
            raise Wrong(f"{path}: the row of {' '.join(name)} of step {step} is not there")


def read_stocks(path):
    """The rows of a table of stocks: three for each step from 0 on."""
    rows = read_table(path, STOCKS)
    if not rows:
        raise Wrong(f"{path}: it has no rows")
    check_rows(path, rows, ["quantity"], [(it,) for it in QUANTITIES], 0)
    return rows


def read_exchanges(path):
    """The rows of a table of exchanges: fifteen for each step from 1 on, and none of a run of no step."""
    rows = read_table(path, EXCHANGES)
    check_rows(path, rows, ["exchange", "quantity"], [(name, it) for name in EXCHANGE_NAMES for it in QUANTITIES], 1)
    return rows


class Words(argparse.ArgumentParser):
    """The words of a tool, which are told by its help. Wrong words end it with a sentence."""

    def __init__(self, **words):
        super().__init__(formatter_class=argparse.RawDescriptionHelpFormatter, usage=argparse.SUPPRESS, **words)

    def error(self, message):
        raise Wrong(f"{message}; {os.path.basename(sys.argv[0])} --help tells the words")


def end_with(main):
    """Runs a tool, and ends it with a sentence and status 1 where a file is wrong."""
    try:
        main()
    except Wrong as wrong:
        sys.exit(f"{os.path.basename(sys.argv[0])}: {wrong}")
    except OSError as fault:
        where = f"{fault.filename}: " if fault.filename else ""
        sys.exit(f"{os.path.basename(sys.argv[0])}: {where}{reason(fault)}")
