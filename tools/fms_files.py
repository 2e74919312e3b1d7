"""Reads and writes grids in the layout of FMS's tools: what `make_coupler_mosaic`, `make_solo_mosaic` and `make_hgrid` write.

A coupler mosaic (`grid_spec.nc` or `mosaic.nc`) names the mosaics of the parts and the files of exchange cells. A mosaic names
its tiles' grids and has contacts, counted on the doubled grid: 2 by 2 of its cells are a cell of the model. Cells of exchange
files are counted from 1. A file that isn't what it should be raises Wrong, with a sentence for its user.
"""
import os
import re

import netCDF4
import numpy

from coupler_files import Mosaic, Wrong, reason

STRING = 255
INDEX = re.compile(r"(\d+):(\d+),(\d+):(\d+)::(\d+):(\d+),(\d+):(\d+)")


class Fms:
    """A file in this layout that is open for reading."""

    def __init__(self, path):
        self.path = path
        try:
            self.file = netCDF4.Dataset(path)
        except OSError as fault:
            raise Wrong(f"{path}: no NetCDF can be read: {reason(fault)}") from None
        self.file.set_auto_mask(False)
        self.file.set_auto_chartostring(False)

    def __enter__(self):
        return self

    def __exit__(self, *_):
        self.file.close()

    def has(self, name):
        return name in self.file.variables

    def variable(self, name):
        if not self.has(name):
            raise Wrong(f"{self.path}: it has no variable {name}")
        return self.file.variables[name][...]

    def texts(self, name):
        """The texts of a variable of characters, one or several."""
        found = self.variable(name)
        if found.dtype.char not in "Sc" or found.ndim not in (1, 2):
            raise Wrong(f"{self.path}: variable {name} is no text")
        rows = found.reshape(-1, found.shape[-1]) if found.size else []
        return [b"".join(row).split(b"\0")[0].decode("latin-1").strip() for row in rows]

    def text(self, name):
        return self.texts(name)[0]

    def numbers(self, name, shape, kind="f8"):
        """A variable of this shape, whose ends may be given as -1."""
        found = self.variable(name)
        if found.ndim != len(shape) or any(want not in (-1, has) for want, has in zip(shape, found.shape)) or found.dtype.char in "Sc":
            raise Wrong(f"{self.path}: variable {name} isn't of the shape that it must have")
        if not numpy.isfinite(found).all():
            raise Wrong(f"{self.path}: variable {name} has something else than numbers")
        return found.astype(kind)


def beside(path, folder, name):
    """Where a file lies that another one names: beside that one, or in the folder that is named with it."""
    own = os.path.join(os.path.dirname(path), name)
    return own if os.path.exists(own) or not folder else os.path.join(os.path.dirname(path), folder, name)


def range_of(path, text, shape, i, j):
    """A range on the doubled grid as side, first and last cell of an edge, and whether it runs down."""
    (nx, ny), along = shape, None
    if i[0] == i[1] and i[0] in (1, 2 * nx) and j[0] != j[1]:
        side, along, most = "W" if i[0] == 1 else "E", j, 2 * ny
    elif j[0] == j[1] and j[0] in (1, 2 * ny) and i[0] != i[1]:
        side, along, most = "S" if j[0] == 1 else "N", i, 2 * nx
    if along is None or min(along) % 2 != 1 or max(along) % 2 != 0 or not 1 <= min(along) < max(along) <= most:
        raise Wrong(f"{path}: contact index {text} is no range along an edge of the doubled grid")
    return side, (min(along) - 1) // 2, max(along) // 2 - 1, along[0] > along[1]


def contact_of(path, tiles, shapes, names, text):
    """A contact. Two halves of one edge that meet turned about its middle are a fold: the edge with itself, flipped."""
    ends, found = [it.split(":") for it in names.split("::")], INDEX.fullmatch(text)
    if len(ends) != 2 or any(len(it) != 2 or it[1] not in tiles for it in ends):
        raise Wrong(f"{path}: contact {names} isn't of two tiles of this mosaic")
    if not found:
        raise Wrong(f"{path}: contact index {text} isn't i:i,j:j::i:i,j:j")
    at = [int(it) for it in found.groups()]
    t, u = (tiles.index(it[1]) for it in ends)
    s, low, high, down = range_of(path, text, shapes[t], at[0:2], at[2:4])
    r, low2, high2, down2 = range_of(path, text, shapes[u], at[4:6], at[6:8])
    if high - low != high2 - low2:
        raise Wrong(f"{path}: contact index {text} joins ranges of different length")
    if (t, s) == (u, r) and down != down2 and (high + 1 == low2 or high2 + 1 == low):
        low = low2 = min(low, low2)
        high = high2 = max(high, high2)
    return t, s, low, high, u, r, low2, high2, down != down2


class FmsMosaic:
    """A mosaic of FMS's: a Mosaic with the cells' areas in square metres as its `area` and without contacts that it lacks, the
    names of its tiles, and for each tile the centres of its cells in degrees, or None."""

    def __init__(self, path):
        self.path, self.hgrids = path, []
        with Fms(path) as file:
            self.tiles, names = file.texts("gridtiles"), file.texts("gridfiles")
            folder = file.text("gridlocation") if file.has("gridlocation") else ""
            contacts = list(zip(file.texts("contacts"), file.texts("contact_index"))) if file.has("contacts") else []
        shapes, areas = [], []
        for name in names:
            self.hgrids.append(beside(path, folder, name))
            shape, area = self.hgrid(self.hgrids[-1])
            shapes.append(shape)
            areas.append(area.ravel())
        if not shapes or len(names) != len(self.tiles):
            raise Wrong(f"{path}: gridtiles and gridfiles don't name tiles alike")
        self.mosaic = Mosaic(shapes, numpy.concatenate(areas), [contact_of(path, self.tiles, shapes, *it) for it in contacts])
        self.check_mates()

    @staticmethod
    def hgrid(path):
        """A tile's shape, and the areas of its cells, each the sum of four."""
        with Fms(path) as file:
            area = file.numbers("area", (-1, -1))
        ny, nx = area.shape
        if nx % 2 or ny % 2 or not nx or not ny:
            raise Wrong(f"{path}: a doubled grid has even numbers of columns and rows, and this has {nx} and {ny}")
        return (nx // 2, ny // 2), area[::2, ::2] + area[1::2, ::2] + area[::2, 1::2] + area[1::2, 1::2]

    def check_mates(self):
        """No contact joins a side to itself, and none a side that an earlier one joins."""
        mates = {}
        for one, other in self.mosaic.joined_sides():
            if one == other:
                raise Wrong(f"{self.path}: a contact joins a side of a cell to itself")
            if mates.setdefault(one, other) != other or mates.setdefault(other, one) != one:
                raise Wrong(f"{self.path}: two contacts join the same side of a cell")

    def centres(self):
        """Unit vectors to the cells' centres, the odd points of the doubled grid."""
        found = []
        for path, (nx, ny) in zip(self.hgrids, self.mosaic.shapes):
            with Fms(path) as file:
                x, y = (numpy.radians(file.numbers(it, (2 * ny + 1, 2 * nx + 1))[1::2, 1::2].ravel()) for it in "xy")
            found.append(numpy.stack([numpy.cos(y) * numpy.cos(x), numpy.cos(y) * numpy.sin(x), numpy.sin(y)], axis=1))
        return numpy.concatenate(found)

    def cells(self, path, tile, indices):
        """The numbers in whole order of cells that are counted from 1."""
        nx, ny = self.mosaic.shapes[tile]
        bad = ((indices < 1) | (indices > (nx, ny))).any(axis=1)
        if bad.any():
            n = int(numpy.argmax(bad))
            raise Wrong(f"{path}: exchange cell {n + 1} has the cell {indices[n, 0]},{indices[n, 1]}, and tile {self.tiles[tile]} {nx} by {ny} cells")
        return self.mosaic.firsts[tile] + (indices[:, 1] - 1) * nx + indices[:, 0] - 1


def exchange_of(path, one, other):
    """The exchange cells of a file between two mosaics: arrays of cells of the one, of the other, and areas."""
    with Fms(path) as file:
        ends = [it.split(":")[-1] for it in file.text("contact").split("::")]
        if len(ends) != 2 or ends[0] not in one.tiles or ends[1] not in other.tiles:
            raise Wrong(f"{path}: its contact isn't of a tile of {os.path.basename(one.path)} and one of {os.path.basename(other.path)}")
        area = file.numbers("xgrid_area", (-1,))
        first, second = (file.numbers(it, (len(area), 2), "i8") for it in ("tile1_cell", "tile2_cell"))
    if (area < 0).any():
        raise Wrong(f"{path}: exchange cell {int(numpy.argmax(area < 0)) + 1} has an area below 0")
    return one.cells(path, one.tiles.index(ends[0]), first), other.cells(path, other.tiles.index(ends[1]), second), area


class Coupler:
    """A coupler mosaic: the mosaics of the three parts by name, and the exchange cells `aXl`, `aXo` and `lXo`."""

    def __init__(self, path):
        with Fms(path) as file:
            self.path, self.parts, self.exchanges = path, {}, {}
            for name, short in (("atmos", "atm"), ("land", "lnd"), ("ocean", "ocn")):
                folder = file.text(f"{short}_mosaic_dir") if file.has(f"{short}_mosaic_dir") else ""
                self.parts[name] = FmsMosaic(beside(path, folder, file.text(f"{short}_mosaic_file")))
            for name, one, other in (("aXl", "atmos", "land"), ("aXo", "atmos", "ocean"), ("lXo", "land", "ocean")):
                names = file.texts(f"{name}_file") if file.has(f"{name}_file") else []
                found = [exchange_of(beside(path, "", it), self.parts[one], self.parts[other]) for it in names]
                empty = [numpy.zeros(0, "i8"), numpy.zeros(0, "i8"), numpy.zeros(0)]
                self.exchanges[name] = [numpy.concatenate(it) for it in zip(*found)] if found else empty

    def mask(self):
        """The ocean's mask as a number for each cell, 0 to 1, or None where no file beside the coupler mosaic has it."""
        tiles, found = self.parts["ocean"].mosaic.shapes, []
        for tile, (nx, ny) in enumerate(tiles):
            path = beside(self.path, "", "ocean_mask.nc" if len(tiles) == 1 else f"ocean_mask_tile{tile + 1}.nc")
            if not os.path.exists(path):
                return None
            with Fms(path) as file:
                found.append(file.numbers("mask", (ny, nx)).ravel())
        return numpy.concatenate(found)


class New:
    """A file in this layout that is written."""

    def __init__(self, path):
        self.file = netCDF4.Dataset(path, "w", format="NETCDF3_64BIT_OFFSET")
        self.file.grid_version = "0.2"
        self.file.createDimension("string", STRING)

    def __enter__(self):
        return self

    def __exit__(self, *_):
        self.file.close()

    def dimensions(self, **sizes):
        for name, size in sizes.items():
            self.file.createDimension(name, size)

    def texts(self, name, texts, dimension=None, **attributes):
        """A variable of characters: one text, or a row of it for each text along a dimension."""
        made = self.file.createVariable(name, "S1", (dimension, "string") if dimension else ("string",))
        made.setncatts(attributes)
        rows = numpy.array([list(it.ljust(STRING, "\0")) for it in ([texts] if dimension is None else texts)], "S1")
        made[:] = rows if dimension else rows[0]

    def numbers(self, name, kind, dimensions, numbers, **attributes):
        made = self.file.createVariable(name, kind, dimensions)
        made.setncatts(attributes)
        made[:] = numbers


def write_hgrid(path, tile, area, x=None, y=None):
    """A tile's doubled grid: areas of its small cells, and its points in degrees where they are known."""
    ny, nx = area.shape
    with New(path) as file:
        file.dimensions(nx=nx, ny=ny, nxp=nx + 1, nyp=ny + 1)
        file.texts("tile", tile, standard_name="grid_tile_spec")
        for name, points in (("x", x), ("y", y)):
            if points is not None:
                file.numbers(name, "f8", ("nyp", "nxp"), points, standard_name="geographic_longitude" if name == "x" else "geographic_latitude",
                             units="degree_east" if name == "x" else "degree_north")
        file.numbers("area", "f8", ("ny", "nx"), area, standard_name="grid_cell_area", units="m2")


def write_mosaic(path, name, hgrids, contacts):
    """A mosaic whose tiles are tile1, tile2 and so on: their grids' files, and contacts as (tile, tile, index)."""
    with New(path) as file:
        file.dimensions(ntiles=len(hgrids), **({"ncontact": len(contacts)} if contacts else {}))
        file.texts("mosaic", name, standard_name="grid_mosaic_spec", children="gridtiles", contact_regions="contacts")
        file.texts("gridlocation", "./", standard_name="grid_file_location")
        file.texts("gridfiles", hgrids, "ntiles")
        file.texts("gridtiles", [f"tile{it + 1}" for it in range(len(hgrids))], "ntiles")
        if contacts:
            file.texts("contacts", [f"{name}:tile{t + 1}::{name}:tile{u + 1}" for t, u, _ in contacts], "ncontact",
                       standard_name="grid_contact_spec", contact_type="boundary", contact_index="contact_index")
            file.texts("contact_index", [it[2] for it in contacts], "ncontact", standard_name="starting_ending_point_index_of_contact")


def write_exchange(path, contact, first, second, area):
    """Exchange cells of a pair of tiles: their cells as rows of (i, j), counted from 1."""
    with New(path) as file:
        file.dimensions(ncells=len(area), two=2)
        file.texts("contact", contact, standard_name="grid_contact_spec", contact_type="exchange", parent1_cell="tile1_cell",
                   parent2_cell="tile2_cell", xgrid_area_field="xgrid_area")
        file.numbers("tile1_cell", "i4", ("ncells", "two"), first, standard_name="parent_cell_indices_in_mosaic1")
        file.numbers("tile2_cell", "i4", ("ncells", "two"), second, standard_name="parent_cell_indices_in_mosaic2")
        file.numbers("xgrid_area", "f8", ("ncells",), area, standard_name="exchange_grid_area", units="m2")


def write_coupler(path, mosaics, exchanges):
    """A coupler mosaic: names of the mosaics `atm`, `lnd` and `ocn`, each of a file NAME.nc, and the files of each kind of exchange."""
    with New(path) as file:
        file.dimensions(**{f"nfile_{it}": len(names) for it, names in exchanges.items() if names})
        for short, name in mosaics.items():
            file.texts(f"{short}_mosaic_dir", "./")
            file.texts(f"{short}_mosaic_file", f"{name}.nc")
            file.texts(f"{short}_mosaic", name)
        for kind, names in exchanges.items():
            if names:
                file.texts(f"{kind}_file", names, f"nfile_{kind}")


def write_mask(path, mask):
    with New(path) as file:
        file.dimensions(nx=mask.shape[1], ny=mask.shape[0])
        file.numbers("mask", "f8", ("ny", "nx"), mask, standard_name="ocean fraction at T-cell centers", units="none")
