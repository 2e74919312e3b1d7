#!/usr/bin/python3
"""Makes OUT.grid and OUT.start of a made input a second time, to compare them with those of `coupler make NUMBER SIZE OUT`.

    made_input.py NUMBER SIZE OUT

It was written by docs/FORMATS.md alone; the case beside it compares the bytes. Whoever wants an input takes `coupler make`.
The air and the land are a cubed sphere, the ocean a tile that is cyclic and folded. All numbers come from a mixing of
whole numbers of 64 bits. docs/FORMATS.md has the formats.
"""
import math
import struct
import sys

MASK = 2**64 - 1
SIDES = "0 E 1 W 0, 0 N 2 W 1, 0 W 4 N 1, 0 S 5 N 0, 1 N 2 S 0, 1 E 3 S 1, 1 S 5 E 1, 2 E 3 W 0, 2 N 4 W 1, 3 N 4 S 0, 3 E 5 S 1, 4 E 5 W 0"


def mix(x):
    x ^= x >> 30
    x = x * 0xBF58476D1CE4E5B9 & MASK
    x ^= x >> 27
    x = x * 0x94D049BB133111EB & MASK
    return x ^ x >> 31


def cubed_sphere(size):
    h = size - 1
    joins = [it.split() for it in SIDES.split(", ")]
    return [f"contact {t} {a} 0 {h} {u} {b} 0 {h} {flip}" for t, a, u, b, flip in joins]


def mosaic(name, tiles, contacts):
    """The lines of a mosaic: each tile is (nx, ny, areas)."""
    lines = [f"mosaic {name} {len(tiles)}"]
    for nx, ny, areas in tiles:
        lines.append(f"tile {nx} {ny}")
        lines += ["area " + " ".join(map(str, areas[j * nx:(j + 1) * nx])) for j in range(ny)]
    return [*lines, f"contacts {len(contacts)}", *contacts]


class Made:
    def __init__(self, number, size):
        self.number, self.size = number, size
        self.air, self.nx, self.ny = 6 * size * size, 6 * size + 72, 4 * size + 8
        self.ocean = self.nx * self.ny
        self.land_rows, self.ocean_rows = self.overlaps()
        self.land_area = self.sums(self.land_rows, 1, self.air)
        self.ocean_area = self.sums(self.ocean_rows, 1, self.ocean)

    def random(self, t, n):
        return mix((self.number + (t << 32) + n) & MASK)

    def overlaps(self):
        """Merges the two divisions of a line into `air` and into `ocean` equal cells; each piece is land or ocean."""
        land, ocean, a, o = [], [], 0, 0
        while a < self.air and o < self.ocean:
            low, high = max(a * self.ocean, o * self.air), min((a + 1) * self.ocean, (o + 1) * self.air)
            is_land = a >= self.size and self.random(1, a // self.size) % 3 == 0 and self.random(2, o) % 4 != 0
            (land if is_land else ocean).append((a, a if is_land else o, high - low))
            a, o = a + (high == (a + 1) * self.ocean), o + (high == (o + 1) * self.air)
        assert len(land) + len(ocean) == self.air + self.ocean - math.gcd(self.air, self.ocean)
        return land, ocean

    @staticmethod
    def sums(rows, column, cells):
        sums = [0] * cells
        for row in rows:
            sums[row[column]] += row[2]
        return sums

    def outlets(self):
        wet = [o for o in range(self.ocean) if self.ocean_area[o]]
        for a in (a for a in range(self.air) if self.land_area[a]):
            yield a, next((o for o in wet if o >= a * self.ocean // self.air), wet[0])

    def cell(self, n, nx, ny):
        return f"{n // (nx * ny)} {n % nx} {n // nx % ny}"

    def grid(self):
        s, air = self.size, lambda n: self.cell(n, self.size, self.size)
        ocean = lambda n: self.cell(n, self.nx, self.ny)
        per = s * s
        lines = ["grid 1 coupled"]
        lines += mosaic("atmos", [(s, s, [self.ocean] * per)] * 6, cubed_sphere(s))
        lines += mosaic("land", [(s, s, self.land_area[t * per:(t + 1) * per]) for t in range(6)], cubed_sphere(s))
        ends = [f"contact 0 W 0 {self.ny - 1} 0 E 0 {self.ny - 1} 0", f"contact 0 N 0 {self.nx - 1} 0 N 0 {self.nx - 1} 1"]
        lines += mosaic("ocean", [(self.nx, self.ny, self.ocean_area)], ends)
        lines.append("column 2 3")
        lines += [f"xgrid land {len(self.land_rows)}"] + [f"x {air(a)} {air(b)} {w}" for a, b, w in self.land_rows]
        lines += [f"xgrid ocean {len(self.ocean_rows)}"] + [f"x {air(a)} {ocean(o)} {w}" for a, o, w in self.ocean_rows]
        found = list(self.outlets())
        lines += [f"outlets {len(found)}"] + [f"o {air(a)} {ocean(o)} 1" for a, o in found]
        return "\n".join([*lines, "end", ""])

    def sections(self):
        r, area, wet = self.random, self.ocean, self.ocean_area
        vapour = [area * (r(4, n) % 10) // 100 for n in range(self.air)]
        heat = [area * (2700 + r(3, n) % 300) + 3926 * vapour[n] for n in range(self.air)]
        water = [50 * it for it in wet] * 2
        # inside the tile a face to the east of each cell and one to the north, and those of the two contacts
        faces = (self.nx - 1) * self.ny + self.nx * (self.ny - 1) + self.ny + self.nx // 2
        return [
            heat, vapour, [area * (r(5, n) % 8) for n in range(self.air)],
            [it * (2700 + r(6, n) % 300) for n, it in enumerate(self.land_area)],
            [it * (r(7, n) % 4) for n, it in enumerate(self.land_area)],
            [it for a in wet for it in (65536 if a else 0, 0, 0, 0)], [0] * (3 * self.ocean), [0] * (3 * self.ocean),
            water, [it * (1420 + r(8, n) % 80) for n, it in enumerate(water)], [it // 28 for it in water],
            [0] * (2 * faces), [0] * (5 * self.ocean), [0] * (3 * self.ocean),
        ]

    def start(self):
        made = [b"CPLRST02", struct.pack(">QQ", 0, 0)]
        for numbers in self.sections():
            made.append(struct.pack(f">{len(numbers) + 2}Q", len(numbers), *numbers, (len(numbers) + sum(numbers)) & MASK))
        return b"".join(made)


def main():
    if len(sys.argv) != 4 or not all(it.isascii() and it.isdigit() for it in sys.argv[1:3]) or not 1 <= int(sys.argv[2]) <= 64:
        sys.exit(__doc__)
    number, size, out = int(sys.argv[1]), int(sys.argv[2]), sys.argv[3]
    made = Made(number, size)
    with open(out + ".grid", "w", encoding="ascii") as file:
        file.write(made.grid())
    with open(out + ".start", "wb") as file:
        file.write(made.start())


main()
