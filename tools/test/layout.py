#!/usr/bin/python3
"""Checks that the files that `coupler-fms --back` wrote of a made grid have the layout of FMS's tools: layout.py FOLDER SIZE."""
import os
import sys

import netCDF4
import numpy

# a cubed sphere's contacts as FMS's tools write them; n is the number of columns of the doubled grid
CONTACTS = ["tile1 tile2 n:n,1:n::1:1,1:n", "tile1 tile3 1:n,n:n::1:1,n:1", "tile1 tile5 1:1,1:n::n:1,n:n", "tile1 tile6 1:n,1:1::1:n,n:n",
            "tile2 tile3 1:n,n:n::1:n,1:1", "tile2 tile4 n:n,1:n::n:1,1:1", "tile2 tile6 1:n,1:1::n:n,n:1", "tile3 tile4 n:n,1:n::1:1,1:n",
            "tile3 tile5 1:n,n:n::1:1,n:1", "tile4 tile5 1:n,n:n::1:n,1:1", "tile4 tile6 n:n,1:n::n:1,1:1", "tile5 tile6 n:n,1:n::1:1,1:n"]


def texts(file, name):
    file.set_auto_chartostring(False)
    return [b"".join(row).rstrip(b"\0").decode() for row in numpy.atleast_2d(file.variables[name][:].filled(b""))]


def main():
    folder, size = sys.argv[1], int(sys.argv[2])
    opened = lambda name: netCDF4.Dataset(os.path.join(folder, name))  # noqa: E731
    nx, ny = 6 * size + 72, 4 * size + 8
    with opened("grid_spec.nc") as file:
        assert file.data_model == "NETCDF3_64BIT_OFFSET" and file.dimensions["string"].size == 255
        assert texts(file, "atm_mosaic_file") == ["atmos_mosaic.nc"] and texts(file, "ocn_mosaic_file") == ["ocean_mosaic.nc"]
        assert texts(file, "lnd_mosaic_file") == ["land_mosaic.nc"]
        assert texts(file, "aXo_file") == [f"atmos_mosaic_tile{n}Xocean_mosaic_tile1.nc" for n in range(1, 7)]
    with opened("atmos_mosaic.nc") as file:
        wanted = [(f"atmos_mosaic:{a}::atmos_mosaic:{b}", c.replace("n", str(2 * size))) for a, b, c in (it.split() for it in CONTACTS)]
        assert list(zip(texts(file, "contacts"), texts(file, "contact_index"))) == wanted, texts(file, "contact_index")
        assert texts(file, "gridtiles") == [f"tile{n}" for n in range(1, 7)]
    with opened("ocean_mosaic.nc") as file:
        fold = f"1:{nx},{2 * ny}:{2 * ny}::{2 * nx}:{nx + 1},{2 * ny}:{2 * ny}"
        assert texts(file, "contact_index") == [f"1:1,1:{2 * ny}::{2 * nx}:{2 * nx},1:{2 * ny}", fold], texts(file, "contact_index")
    with opened("atmos_hgrid.tile1.nc") as file:
        assert file.variables["area"].shape == (2 * size, 2 * size) and (file.variables["area"][:] == nx * ny / 4).all()
    with opened("atmos_mosaic_tile1Xocean_mosaic_tile1.nc") as file:
        assert texts(file, "contact") == ["atmos_mosaic:tile1::ocean_mosaic:tile1"]
        # the first cell of the air over the first of the ocean, by the line that both divide: 6*s*s of the first are one of the other
        assert file.variables["tile1_cell"][0].tolist() == [1, 1] and file.variables["tile2_cell"][0].tolist() == [1, 1]
        assert float(file.variables["xgrid_area"][0]) == 6 * size * size and file.variables["tile1_cell"].dtype == "i4"
    with opened("ocean_mask.nc") as file:
        assert file.variables["mask"].shape == (ny, nx) and set(numpy.unique(file.variables["mask"][:])) == {0.0, 1.0}


main()
