#!/usr/bin/python3
"""Changes a NetCDF file, for tests of wrong files.

    spoil.py FILE set VARIABLE INDEX.. VALUE    sets a number, or the text of a row
    spoil.py FILE rename VARIABLE NAME          calls a variable otherwise
"""
import sys

import netCDF4


def main():
    path, kind, name, *words = sys.argv[1:]
    with netCDF4.Dataset(path, "a") as file:
        if kind == "rename":
            file.renameVariable(name, words[0])
            return
        variable, at = file.variables[name], tuple(int(it) for it in words[:-1])
        if variable.dtype.char in "Sc":
            file.set_auto_chartostring(False)
            variable[at] = [it.encode() for it in words[-1].ljust(variable.shape[-1], "\0")]
        else:
            variable[at] = float(words[-1])


main()
