"""Writes the page of a run: one file that has the numbers of the run, a style and a script, and needs nothing else.

The numbers are packed as arrays of 64 bits (planes of bytes, deflated, in base 64), which the script of tools/page unpacks.
"""
import base64
import html
import json
import os
import re
import zlib

import numpy

from coupler_files import EXCHANGE_NAMES, QUANTITIES, Wrong, category_of_most_ice, read_exchanges, read_grid, read_state, read_stocks, reason
from coupler_places import laid_out

PARTS = ["air", "land", "ice", "ocean", "to_ice", "to_ocean"]
FLOWS = ["before", "gave", "took", "after"]
SCRIPTS = ["numbers.js", "charts.js", "maps.js", "main.js"]
# sections that the maps show; the numbers of the ocean's faces aren't shown
SHOWN = ["air_heat", "air_vapour", "air_sun", "land_heat", "land_water", "parts", "ice", "ice_heat", "water", "heat", "salt", "to_ice", "to_ocean"]


def source(name):
    with open(os.path.join(os.path.dirname(os.path.abspath(__file__)), "page", name), encoding="utf-8") as file:
        return file.read()


def packed(name, numbers):
    """Whole numbers as an element of the page."""
    planes = numpy.ascontiguousarray(numbers, "<i8").view("u1").reshape(-1, 8).T.tobytes()
    return f'<script type="text/plain" id="{name}">{base64.b64encode(zlib.compress(planes, 6)).decode()}</script>'


def namelist_text(path):
    try:
        with open(path, "rb") as file:
            text = file.read(2**16 + 1).decode("utf-8", "replace")
    except OSError as fault:
        raise Wrong(f"{path}: no namelist can be read: {reason(fault)}") from None
    if not re.search(r"^[^!]*&coupler_nml\b", text, re.IGNORECASE | re.MULTILINE):
        raise Wrong(f"{path}: no namelist, since it has no group &coupler_nml")
    return text


def namelist_number(text, group, name):
    """A number of a namelist, or 10, which is the default of the two that are asked for."""
    plain = re.sub(r"'[^'\n]*'|\"[^\"\n]*\"|!.*", " ", text)
    inner = re.search(rf"&{group}\b([^/&]*)/", plain, re.IGNORECASE)
    found = re.search(rf"\b{name}\s*=\s*(?:1\*)?\+?(\d+)", inner[1] if inner else "", re.IGNORECASE)
    return int(found[1]) if found else 10


class Tables:
    """The tables of runs that went on from each other, joined. `first` has the number of steps before each run."""

    def __init__(self, outs):
        self.stocks, self.exchanges, self.first = [], [], []
        entered, left = dict.fromkeys(QUANTITIES, 0), dict.fromkeys(QUANTITIES, 0)
        for out, before in zip(outs, [None, *outs]):
            stocks, exchanges = read_stocks(f"{out}.stocks"), read_exchanges(f"{out}.exchanges")
            if len(stocks) // 3 - 1 != len(exchanges) // 15:
                raise Wrong(f"{out}.exchanges: it has {len(exchanges) // 15} steps, and {out}.stocks {len(stocks) // 3 - 1}")
            if before:
                self.check_joint(out, before, stocks)
            self.first.append(max(0, len(self.stocks) // 3 - 1))
            last = self.stocks[-3:]
            for row in stocks[3 if before else 0:]:
                row["entered"] += entered[row["quantity"]]
                row["left"] += left[row["quantity"]]
                self.stocks.append(row)
            self.exchanges += exchanges
            for row in self.stocks[-3:] or last:
                entered[row["quantity"]], left[row["quantity"]] = row["entered"], row["left"]

    def check_joint(self, out, before, stocks):
        for row, end in zip(stocks, self.stocks[-3:]):
            if any(row[key] != end[key] for key in ("seconds", *PARTS)):
                raise Wrong(f"{out}.stocks: it doesn't go on where {before}.stocks ends")

    def numbers(self):
        """The columns of both tables by the names by which the page has them."""
        yield "seconds", [row["seconds"] for row in self.stocks[::3]]
        for n, quantity in enumerate(QUANTITIES):
            for key in (*PARTS, "entered", "left", "total"):
                yield f"stocks {quantity} {key}", [row[key] for row in self.stocks[n::3]]
        for n, name in enumerate(EXCHANGE_NAMES):
            for k, quantity in enumerate(QUANTITIES):
                for key in FLOWS:
                    yield f"exchanges {name} {quantity} {key}", [row[key] for row in self.exchanges[3 * n + k::15]]


def held(state):
    """What each part of a state holds, in the order of the columns of a table of stocks, for heat, water and salt."""
    total = {name: numbers.reshape(-1, numbers.shape[-1] if numbers.ndim > 1 and name.startswith("to_") else 1).sum(axis=0).tolist()
             for name, numbers in state.sections.items()}
    one = {name: it[0] for name, it in total.items()}
    frazil_water, frazil_heat, skin_water, skin_heat, skin_salt = total["to_ice"]
    water, heat, salt = total["to_ocean"]
    return [[one["air_heat"], one["land_heat"], one["ice_heat"], one["heat"], frazil_heat + skin_heat, heat],
            [one["air_vapour"], one["land_water"], one["ice"], one["water"], frazil_water + skin_water, water],
            [0, 0, 0, one["salt"], skin_salt, salt]]


def check_state(path, state, table, rows):
    """A state must hold what the rows of its moment say."""
    if state.elapsed != rows[0]["seconds"] or held(state) != [[row[part] for part in PARTS] for row in rows]:
        raise Wrong(f"{path}: it isn't the state of step {rows[0]['step']} of {table}")


def state_numbers(name, state):
    """The numbers of a state by layer, category or kind of flight, each over the cells of its mosaic."""
    for section in SHOWN:
        numbers = state.sections[section]
        rows = [numbers] if numbers.ndim == 1 else numbers if section in ("water", "heat", "salt") else numbers.T
        for n, row in enumerate(rows):
            yield f"{name} {section} {n}", row


def description(words, grid, last, tables, namelists):
    """What the script is told of the run beside its numbers."""
    return {
        "title": "Run " + ", ".join(os.path.basename(it) for it in words.runs), "dates": [row["date"] for row in tables.stocks[::3]],
        "runs": [{"name": os.path.basename(out), "first": first} for out, first in zip(words.runs, tables.first)],
        "quantities": QUANTITIES, "parts": PARTS, "exchanges": EXCHANGE_NAMES, "layers": grid.layers, "categories": grid.categories, "category": category_of_most_ice(last),
        "ca": namelist_number(namelists[-1][1], "air_nml", "ca"), "cl": namelist_number(namelists[-1][1], "land_nml", "cl"),
        "namelists": [{"name": os.path.basename(name), "text": text} for name, text in namelists],
        "mosaics": {name: {"shapes": it.shapes, "places": laid_out(it)} for name, it in grid.mosaics.items()},
    }


def write_page(words):
    if not words.output.endswith(".html"):
        raise Wrong("the name after -o must end with .html")
    grid = read_grid(words.grid or f"{words.runs[0]}.grid")
    if grid.kind != "coupled":
        raise Wrong("the grid has air alone, and a page shows runs of all parts")
    names = [words.names] if words.names else [f"{out}.nml" for out in words.runs]
    namelists = [(name, namelist_text(name)) for name in names]
    start, last = words.start or f"{words.runs[0]}.start", f"{words.runs[-1]}.restart"
    states = [("start", read_state(start, grid)), ("last", read_state(last, grid))]
    tables = Tables(words.runs)
    check_state(start, states[0][1], f"{words.runs[0]}.stocks", tables.stocks[:3])
    check_state(last, states[1][1], f"{words.runs[-1]}.stocks", tables.stocks[-3:])
    made = [packed(*it) for it in tables.numbers()]
    made += [packed(f"area {name}", it.area) for name, it in grid.mosaics.items()]
    made += [packed(*it) for name, state in states for it in state_numbers(name, state)]
    told = description(words, grid, states[1][1], tables, namelists)
    inner = {"TITLE": html.escape(told["title"]), "STYLE": source("page.css"), "RUN": json.dumps(told).replace("<", "\\u003c"),
             "NUMBERS": "\n".join(made), "SCRIPT": '"use strict";\n' + "\n".join(source(it) for it in SCRIPTS)}
    with open(words.output, "w", encoding="utf-8") as file:
        file.write(re.sub("@([A-Z]+)@", lambda found: inner[found[1]], source("page.html")))
