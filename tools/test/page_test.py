#!/usr/bin/python3
"""Opens pages of runs in a headless browser and tries what a reader does. A line for each test: `passed NAME` or `FAILED NAME: why`.

    page_test.py CHROMIUM FOLDER

FOLDER has the pages and files of the runs that tools/test.sh made there: w (ten days), long.html (a large grid), great (numbers
beyond 2^53), lost.html (a total with a unit too much), two.html (w's first day in two runs), none.html (a run of no step).
"""
import os
import subprocess
import sys

import numpy

sys.path.insert(0, os.path.join(os.path.dirname(os.path.abspath(__file__)), ".."))
from browser import Browser  # noqa: E402
from coupler_files import EXCHANGE_NAMES, QUANTITIES, places_of_cells, read_exchanges, read_grid, read_state, read_stocks  # noqa: E402
from coupler_page import PARTS  # noqa: E402

# the fields, the group of numbers that each shows, its mosaic, and by which list it has several
FIELDS = {
    "air_temperature": ("atmos", ["air_heat", "air_vapour", "air_sun"], None), "air_vapour": ("atmos", ["air_heat", "air_vapour", "air_sun"], None),
    "air_sun": ("atmos", ["air_heat", "air_vapour", "air_sun"], None), "land_temperature": ("land", ["land_heat", "land_water"], None),
    "land_water": ("land", ["land_heat", "land_water"], None), "ocean_temperature": ("ocean", ["water", "heat", "salt"], "layer"),
    "ocean_salinity": ("ocean", ["water", "heat", "salt"], "layer"), "ocean_water": ("ocean", ["water", "heat", "salt"], "layer"),
    "ice_part": ("ocean", ["parts", "ice", "ice_heat"], "category"), "ice_water": ("ocean", ["parts", "ice", "ice_heat"], "category"),
    "ice_temperature": ("ocean", ["parts", "ice", "ice_heat"], "category"),
}
FLIGHTS = {"to_ice_frazil": ("to_ice", ["frazil_water", "frazil_heat", "skin_water", "skin_heat", "skin_salt"]),
           "to_ocean_water": ("to_ocean", ["ocean_water", "ocean_heat", "ocean_salt"])}


class Faults(AssertionError):
    pass


def same(found, wanted, what):
    if found != wanted:
        raise Faults(f"{what}: {found!r}, and not {wanted!r}")


class Page:
    """A page in the browser, as a reader sees and uses it."""

    def __init__(self, browser, folder):
        self.browser, self.folder = browser, folder

    def path(self, name):
        return os.path.join(self.folder, name)

    def open(self, name, wide=1400, high=900, scheme="light"):
        self.browser.complaints.clear()
        self.browser.size(wide, high)
        self.browser.colours(scheme)
        self.browser.open(self.path(name))
        self.quiet()

    def quiet(self):
        same(self.browser.complaints, [], "the page complains")

    def rect(self, at):
        """Where an element is seen, after it was brought into view."""
        return self.browser.ask(f"(it => {{ it.scrollIntoView({{block: 'center', behavior: 'instant'}}); const r = it.getBoundingClientRect(); "
                                f"return [r.x, r.y, r.width, r.height]; }})({at})")

    def point(self, at, part_x, part_y=0.5):
        x, y, wide, high = self.rect(at)
        self.browser.point(x + part_x * wide, y + part_y * high)

    def click(self, at):
        x, y, wide, high = self.rect(at)
        self.browser.click(x + wide / 2, y + high / 2)

    def table(self, at):
        """The rows of a table, its numbers as whole numbers where they are."""
        rows = self.browser.ask(f"[...document.querySelectorAll({at!r} + ' tr')].map(r => [...r.children].map(c => c.textContent))")
        return {row[0]: [whole(it) for it in row[1:]] for row in rows}

    def choose(self, name, value):
        """Chooses as a reader does, and waits until the map is drawn."""
        self.browser.ask(f"(() => {{ const it = document.getElementById({name!r}); it.value = {str(value)!r}; return it.onchange({{target: it}}); }})()")


def whole(text):
    plain = text.replace(",", "").replace("−", "-")
    return int(plain) if plain.lstrip("-").isdigit() else text


def chart(section, n):
    return f"document.querySelectorAll('#{section} .chart .area')[{n}]"


def opens(page, name, most):
    """Opens a page and says in what time. Its processor time, of which other work on the machine takes little, has a limit."""
    page.open(name)
    own, work = int(page.browser.ask("document.body.dataset.ready")) / 1000, page.browser.work()
    print(f"{name} has {os.path.getsize(page.path(name)):,} bytes and opens in {own:.2f} s, {work:.2f} s of processor time")
    if not 0 < work < most:
        raise Faults(f"it takes {work:.2f} s of processor time to open")


def test_opens(page):
    opens(page, "w.html", 1)


def test_charts(page):
    page.open("w.html")
    titles = page.browser.ask("[...document.querySelectorAll('.chart h3')].map(it => it.firstChild.textContent)")
    same(titles, [*QUANTITIES, *(it.replace("-", " → ") for it in EXCHANGE_NAMES)], "charts")
    for lines in page.browser.ask("[...document.querySelectorAll('.chart svg')].map(it => [...it.querySelectorAll('.curve')].map(c => c.getAttribute('d').split('L').length))"):
        if not lines or min(lines) < 240:
            raise Faults(f"a chart has curves of {lines} points")
    same(page.browser.ask("[...document.querySelectorAll('.chart .verdict')].map(it => it.textContent)"), ["exactly 0"] * 8, "missing")
    same(page.browser.ask("document.querySelectorAll('.checks li').length + document.querySelectorAll('.checks .bad').length"), 2, "checks")


def test_stocks(page):
    page.open("w.html")
    rows = read_stocks(page.path("w.stocks"))
    for shows in ("amount", "change"):
        page.click(f"document.querySelector('#stocks [data-shows={shows}]')")
        page.browser.wait("document.querySelectorAll('#stocks .area').length == 3")
        for n, quantity in enumerate(QUANTITIES):
            for step in (0, 1, 100, 240):
                page.point(chart("stocks", n), step / 240)
                found, row = page.table(".tip"), rows[3 * step + n]
                same({it: found[it.replace("_", " ")][0] for it in (*PARTS, "entered", "left", "total")},
                     {it: row[it] for it in (*PARTS, "entered", "left", "total")}, f"{quantity} at step {step}")
                same(found["missing"], [0], "missing")
                same(page.browser.ask("document.querySelector('.tip b').textContent"), f"{row['date']}, step {step}", "moment")


def test_exchanges(page):
    page.open("w.html")
    rows = read_exchanges(page.path("w.exchanges"))
    for k, quantity in enumerate(QUANTITIES):
        page.click(f"document.querySelector('#exchanges [data-shows={quantity}]')")
        page.browser.wait(f"document.querySelectorAll('#exchanges .area').length == 5 && document.querySelector('#exchanges small').textContent.includes('{quantity}')")
        for n, name in enumerate(EXCHANGE_NAMES):
            for step in (1, 2, 240):
                page.point(chart("exchanges", n), (step - 1) / 239)
                found, row = page.table(".tip"), rows[15 * (step - 1) + 3 * n + k]
                same({it: found[it][0] for it in ("before", "gave", "took", "after")}, {it: row[it] for it in ("before", "gave", "took", "after")}, f"{name} at {step}")


def test_zoom(page):
    page.open("w.html")
    x, y, wide, high = page.rect(chart("stocks", 0))
    for kind, at, held in (("mousePressed", 0.5, 0), ("mouseMoved", 0.8, 1), ("mouseReleased", 0.8, 0)):
        page.browser.call("Input.dispatchMouseEvent", type=kind, x=x + at * wide, y=y + 50, button="left", buttons=held, clickCount=1)
    same(page.browser.ask("document.querySelectorAll('.chart .curve')[0].getAttribute('d').split('L').length"), 73, "places of three days")
    page.point(chart("stocks", 0), 0)
    same(page.table(".tip")["air"], [read_stocks(page.path("w.stocks"))[3 * 120]["air"]], "air at the fifth day")
    page.click("document.querySelector('.all')")
    same(page.browser.ask("document.querySelectorAll('.chart .curve')[0].getAttribute('d').split('L').length"), 241, "places of all days")


def pixels_of(grid):
    """Where each cell of the made mosaics lies on the page, written by hand: six tiles as a cross, and the ocean as it is."""
    size = grid.mosaics["atmos"].shapes[0][0]
    # column and row of each tile on the cross, rows upward, and its turns to the left
    cross = [(1, 1, 0), (2, 1, 0), (1, 2, 1), (3, 1, 3), (0, 1, 3), (1, 0, 0)]
    tiles, i, j = places_of_cells(grid.mosaics["atmos"])
    high, made = 3 * size, []
    for t, a, b in zip(tiles.tolist(), i.tolist(), j.tolist()):
        x, y, turns = cross[t]
        for _ in range(turns):
            a, b = size - 1 - b, a
        made.append((x * size + a, high - 1 - (y * size + b)))
    _, i, j = places_of_cells(grid.mosaics["ocean"])
    ny = grid.mosaics["ocean"].shapes[0][1]
    ocean = list(zip(i.tolist(), (ny - 1 - j).tolist()))
    return {"atmos": made, "land": made, "ocean": ocean}, {"atmos": (4 * size, high), "land": (4 * size, high), "ocean": (grid.mosaics["ocean"].shapes[0][0], ny)}


def numbers_of(state, section, several, which):
    found = state.sections[section]
    if several is None:
        return found
    if several == "layer":
        return found[which]
    if section == "parts":
        return found[:, which]
    return found[:, which - 1] if which else None


class Maps:
    def __init__(self, page, name):
        self.page, self.grid = page, read_grid(page.path(f"{name}.grid"))
        self.states = [read_state(page.path(f"{name}.{end}"), self.grid) for end in ("start", "restart")]
        self.pixels, self.sizes = pixels_of(self.grid)

    def point(self, mosaic, cell, figure):
        (x, y), (wide, high) = self.pixels[mosaic][cell], self.sizes[mosaic]
        self.page.point(f"document.querySelector('#{figure} canvas')", (x + 0.5) / wide, (y + 0.5) / high)

    def cells(self, mosaic):
        """Some cells: corners, wet and dry ones."""
        area = self.grid.mosaics[mosaic].area
        return [0, len(area) - 1, int(numpy.argmax(area > 0)), int(numpy.argmin(area > 0)), *range(7, len(area), len(area) // 5)]

    def check(self, mosaic, cell, wanted):
        """The numbers under the pointer: for each name the list of a start's and a last state's."""
        found, (tile, i, j) = self.page.table(".under"), (int(it[cell]) for it in places_of_cells(self.grid.mosaics[mosaic]))
        head = self.page.browser.ask("document.querySelector('.under b').textContent")
        said = f"{mosaic}, tile {tile}, column {i}, row {j}, area {int(self.grid.mosaics[mosaic].area[cell]):,}"
        same(head[:len(said)], said, "cell")
        for name, lists in wanted.items():
            if lists[0] is None:
                same(name in found, False, f"{name} of open water")
                continue
            one, other = (int(it[cell]) for it in lists)
            same(found[name], [one, other, other - one], f"{name} of {said}")


def test_fields(page):
    page.open("w.html")
    maps = Maps(page, "w")
    same(page.browser.ask("[...document.querySelectorAll('#field option')].map(it => it.value)")[:11], list(FIELDS), "fields")
    for field, (mosaic, sections, several) in FIELDS.items():
        page.choose("field", field)
        for which in {None: [None], "layer": [0, 1], "category": [0, 1, 3]}[several]:
            if several:
                page.choose(several, which)
            wanted = {it: [numbers_of(state, it, several, which) for state in maps.states] for it in sections}
            for n, cell in enumerate(maps.cells(mosaic)):
                maps.point(mosaic, cell, ("start", "last", "difference")[n % 3])
                maps.check(mosaic, cell, wanted)
    page.quiet()


def test_flights(page):
    page.open("w.html")
    maps = Maps(page, "w")
    for field, (section, names) in FLIGHTS.items():
        page.choose("field", field)
        for cell in maps.cells("ocean"):
            maps.point("ocean", cell, "last")
            maps.check("ocean", cell, {name: [it.sections[section][:, n] for it in maps.states] for n, name in enumerate(names)})


def test_values(page):
    """The value that is drawn follows from the numbers by the formulas of the model."""
    page.open("w.html")
    maps, last = Maps(page, "w"), None
    last = maps.states[1].sections
    area = {name: it.area for name, it in maps.grid.mosaics.items()}
    cell = int(numpy.argmax(last["ice"][:, 2]))
    for field, mosaic, label, n, value in (
            ("air_temperature", "atmos", "temperature of the air", 5, lambda n: (last["air_heat"][n] - 3926 * last["air_vapour"][n]) / (10 * area["atmos"][n])),
            ("ocean_temperature", "ocean", "temperature of the ocean", cell, lambda n: max(0, last["heat"][0, n] - 334 * last["water"][0, n]) / (4 * last["water"][0, n])),
            ("ice_water", "ocean", "amount of ice", cell, lambda n: last["ice"][n, 2] / area["ocean"][n])):
        page.choose("field", field)
        page.choose("category", 3)
        maps.point(mosaic, n, "last")
        found = page.browser.ask(f"[...document.querySelectorAll('.under tr')].find(it => it.firstChild.textContent === '{label}').children[2].textContent")
        if abs(float(found.replace(",", "")) - float(value(n))) > 0.0006:
            raise Faults(f"{field} of cell {n}: {found}, and not {value(n)}")


def test_painted(page):
    page.open("w.html")
    for field in ("air_temperature", "ocean_temperature", "ice_part"):
        page.choose("field", field)
        for figure in ("start", "last", "difference"):
            shades = page.browser.ask(f"(it => new Set(new Uint32Array(it.getContext('2d').getImageData(0, 0, it.width, it.height).data.buffer)).size)(document.querySelector('#{figure} canvas'))")
            if shades < (10 if field != "ice_part" or figure != "start" else 2):
                raise Faults(f"{figure} of {field} has {shades} colours")


def test_keys(page):
    page.open("w.html")
    maps = Maps(page, "w")
    maps.point("atmos", 0, "last")
    page.browser.ask("document.querySelector('#last canvas').focus()")
    for key in ("ArrowRight", "ArrowUp", "ArrowUp"):
        page.browser.call("Input.dispatchKeyEvent", type="keyDown", key=key)
    maps.check("atmos", maps.grid.mosaics["atmos"].cell(0, 1, 2), {"air_heat": [it.sections["air_heat"] for it in maps.states]})


def brightness(page, at):
    colour = page.browser.ask(f"getComputedStyle(document.querySelector('{at[0]}')).{at[1]}")
    return sum(int(it) for it in colour[colour.index("(") + 1:-1].split(",")[:3]) / 3


def test_themes(page):
    for scheme, is_dark in (("light", False), ("dark", True)):
        for wide in (1400, 420):
            page.open("w.html", wide, 900, scheme)
            paper, ink = brightness(page, ("body", "backgroundColor")), brightness(page, ("body", "color"))
            if (paper < ink) != is_dark or abs(paper - ink) < 150:
                raise Faults(f"{scheme}: paper {paper}, ink {ink}")
    page.open("w.html")
    page.browser.colours("dark")
    page.quiet()


def test_widths(page):
    for wide, columns in ((1400, 3), (800, 2), (420, 1)):
        page.open("w.html", wide)
        same(page.browser.ask("document.documentElement.scrollWidth"), wide, "the page is as wide as the window")
        same(page.browser.ask("new Set([...document.querySelectorAll('#exchanges .chart')].map(it => it.getBoundingClientRect().x)).size"), columns, f"columns at {wide}")
        page.point(chart("stocks", 0), 0.9)
        x, _, across, _ = page.rect("document.querySelector('.tip')")
        if x < 0 or x + across > wide:
            raise Faults(f"at {wide} the numbers stand from {x} to {x + across}")
    page.open("w.html")
    page.click("document.querySelector('#maps [data-shows=large]')")
    page.browser.wait("document.querySelector('#start').getBoundingClientRect().width > 1200")


def test_namelist(page):
    page.open("w.html")
    with open(page.path("w.nml"), encoding="ascii") as file:
        same(page.browser.ask("document.querySelector('#namelist pre').textContent"), file.read(), "namelist")


def test_large(page):
    opens(page, "long.html", 3)
    page.choose("field", "ocean_temperature")
    page.quiet()


def test_great(page):
    """Numbers beyond 2^53 are shown to the last digit."""
    page.open("great.html")
    rows = read_stocks(page.path("great.stocks"))
    page.point(chart("stocks", 0), 0)
    same(page.table(".tip")["ocean"], [rows[0]["ocean"]], "ocean")
    if rows[0]["ocean"] < 2**53 or rows[0]["ocean"] % 2 == 0:
        raise Faults(f"{rows[0]['ocean']} is no odd number beyond 2^53")
    grid = read_grid(page.path("great.grid"))
    one, other = (int(read_state(page.path(f"great.{it}"), grid).sections["heat"][0, 0]) for it in ("start", "restart"))
    page.choose("field", "ocean_temperature")
    page.point("document.querySelector('#last canvas')", 0.5)
    same(page.table(".under")["heat"], [one, other, other - one], "heat")


def test_lost(page):
    page.open("lost.html")
    same(page.browser.ask("[...document.querySelectorAll('#stocks .verdict')].map(it => it.textContent)"), ["up to 1", "exactly 0", "exactly 0"], "missing")
    same(page.browser.ask("document.querySelector('.checks .bad').textContent"), "Missing from the totals: heat up to 1", "check")


def test_two(page):
    page.open("two.html")
    rows = [read_stocks(page.path(f"{it}.stocks")) for it in ("first", "second")]
    page.point(chart("stocks", 0), 1)
    found = page.table(".tip")
    same(found["air"] + found["missing"], [rows[1][-3]["air"], 0], "air at the end")
    same(found["entered"], [rows[0][-3]["entered"] + rows[1][-3]["entered"]], "entered in both runs")
    same(page.browser.ask("document.querySelector('.tip b').textContent"), f"{rows[1][-1]['date']}, step 24, step 14 of second", "moment")


def test_none(page):
    page.open("none.html")
    same(page.browser.ask("document.querySelector('#exchanges .charts').textContent"), "The run had no step, and so there is no exchange.", "exchanges")
    page.point(chart("stocks", 0), 0.5)
    same(page.table(".tip")["missing"], [0], "missing")
    page.quiet()


TESTS = [
    ("the page opens and complains of nothing", test_opens), ("each chart is there, and nothing is missing", test_charts),
    ("the stocks under the pointer are those of the file", test_stocks), ("the exchanges under the pointer are those of the file", test_exchanges),
    ("some days alone", test_zoom), ("each field, layer and category: the numbers under the pointer are those of the files", test_fields),
    ("flights under the pointer", test_flights), ("the value drawn is the formula's", test_values), ("the maps are painted", test_painted),
    ("arrow keys move the pointer", test_keys), ("light and dark", test_themes), ("wide and narrow", test_widths), ("the namelist", test_namelist),
    ("the page of a large grid", test_large), ("numbers beyond 2^53", test_great), ("a lost unit is shown", test_lost),
    ("two runs on one page", test_two), ("a run of no step", test_none),
]


def started(program):
    """The browser, which is given two tries. None where it doesn't start here."""
    for _ in range(2):
        try:
            return Browser(program)
        except (OSError, TimeoutError, subprocess.SubprocessError) as fault:
            print(f"the browser doesn't start: {fault}")
    return None


def main():
    browser = started(sys.argv[1])
    if browser is None:
        print("skipped")
        return
    with browser:
        page = Page(browser, sys.argv[2])
        for name, test in TESTS:
            try:
                test(page)
                page.quiet()
                print(f"passed {name}")
            except (AssertionError, OSError, KeyError, IndexError, ValueError, TypeError) as fault:
                print(f"FAILED {name}: {type(fault).__name__}: {fault}")


main()
