#!/usr/bin/python3
"""Takes the pictures of a page that tools/README.md shows: pictures.py CHROMIUM PAGE.html FOLDER.

page.png is wide and light, page_dark.png wide and dark, page_narrow.png and page_narrow_dark.png as on a telephone.
"""
import os
import sys

from browser import Browser

MAP = "document.getElementById('last').querySelector('canvas')"
PICTURES = [
    ("page", 1280, 1180, "light", "air_temperature", "document.querySelector('header')"),
    ("page_dark", 1280, 660, "dark", "ocean_temperature", "document.querySelector('#maps')"),
    ("page_narrow", 420, 900, "light", "air_temperature", "document.querySelector('header')"),
    ("page_narrow_dark", 420, 900, "dark", "ocean_temperature", "document.querySelector('#last')"),
]


def point(browser, at, part_x, part_y):
    """Points at a place of an element that is in view."""
    x, y, wide, high = browser.ask(f"(it => {{ const r = it.getBoundingClientRect(); return [r.x, r.y, r.width, r.height]; }})({at})")
    browser.point(x + part_x * wide, y + part_y * high)


def take(browser, page, path, wide, high, scheme, field, top):
    browser.size(wide, high)
    browser.colours(scheme)
    browser.open(page)
    browser.ask(f"(() => {{ const it = document.getElementById('field'); it.value = '{field}'; return it.onchange({{target: it}}); }})()")
    browser.ask(f"{top}.scrollIntoView({{block: 'start', behavior: 'instant'}})")
    if scheme == "dark":
        point(browser, MAP, 0.62, 0.7)
    else:
        point(browser, "document.querySelector('#stocks .area')", 0.55, 0.35)
    browser.picture(path, whole=False)


def main():
    program, page, folder = sys.argv[1:]
    with Browser(program) as browser:
        for name, wide, high, scheme, field, top in PICTURES:
            take(browser, page, os.path.join(folder, f"{name}.png"), wide, high, scheme, field, top)


main()
