#!/usr/bin/env python3
"""Makes air grids and starts for the command `solo`.

    make_inputs.py single SIZE GRID START      one tile of SIZE by SIZE cells, no contacts
    make_inputs.py equal SIZE GRID START       the same with equal areas
    make_inputs.py wide SIZE GRID START        the same with amounts and areas whose products pass 64 bits
    make_inputs.py cubed SIZE GRID START       the cubed sphere: six tiles of SIZE by SIZE cells
    make_inputs.py largest GRID START          a grid of the longest text that there is
    make_inputs.py refused BYTES GRID START    the same with bytes behind its end, of this length altogether

The numbers come from a generator of its own, so that each call makes the same files.
"""
import sys

LIMIT = 1 << 64


def numbers(seed):
    """Gives numbers of 0 to 2^32 - 1 without end (the steps are Knuth's for 64 bits)."""
    state = seed
    while True:
        state = (state * 6364136223846793005 + 1442695040888963407) % LIMIT
        yield state >> 32


def tile(nx, ny, areas):
    lines = [f"tile {nx} {ny}"]
    lines += ["area " + " ".join(str(next(areas)) for _ in range(nx)) for _ in range(ny)]
    return lines


def grid(tiles, contacts):
    """The text of an air grid of tiles, each of them its lines."""
    lines = ["grid 1 air", f"mosaic atmos {len(tiles)}"]
    lines += [line for it in tiles for line in it]
    lines += [f"contacts {len(contacts)}", *contacts, "end", ""]
    return "\n".join(lines).encode()


def start(heat, vapour):
    """The bytes of an air: a mark, and two sections, each a count and that many numbers of eight bytes."""
    words = [len(heat), *heat, len(vapour), *vapour]
    return b"CPLAIR01" + b"".join(it.to_bytes(8, "big") for it in words)


def cubed_sphere(size):
    """The twelve contacts of the six tiles."""
    h = size - 1
    sides = "0 E 1 W 0, 0 N 2 W 1, 0 W 4 N 1, 0 S 5 N 0, 1 N 2 S 0, 1 E 3 S 1, 1 S 5 E 1, 2 E 3 W 0, 2 N 4 W 1, 3 N 4 S 0, 3 E 5 S 1, 4 E 5 W 0"
    found = [it.split() for it in sides.split(", ")]
    return [f"contact {t} {a} 0 {h} {u} {b} 0 {h} {flip}" for t, a, u, b, flip in found]


def air(cells, most_heat, most_vapour, seed=3):
    given = numbers(seed)
    heat = [next(given) * most_heat >> 32 for _ in range(cells)]
    return start(heat, [next(given) * most_vapour >> 32 for _ in range(cells)])


def made(kind, size):
    given = numbers(1)
    areas = (700 if kind == "equal" else 500 + it % 1000 for it in given)
    if kind in ("single", "equal"):
        return grid([tile(size, size, areas)], []), air(size * size, 1 << 40, 1 << 30)
    if kind == "cubed":
        return grid([tile(size, size, areas) for _ in range(6)], cubed_sphere(size)), air(6 * size * size, 1 << 40, 1 << 30)
    if kind == "wide":
        areas = ((1 << 39) + it for it in given)
        return grid([tile(size, size, areas)], []), air(size * size, 1 << 43, 1 << 43)
    # areas of 13 digits each, in as many rows as there may be
    areas = ((1 << 40) - it % 1000 for it in given)
    text = grid([tile(16, 1024, areas) for _ in range(16)], many_contacts())
    behind = b"" if kind == "largest" else b"0" * (size - len(text))
    return text + behind, air(1 << 18, 1 << 43, 1 << 43)


def many_contacts():
    """As many contacts as there may be: each joins four sides at the right of a tile to four at the left of the next."""
    spans = [(4 * it, 4 * it + 3) for it in range(240, 256)]
    return [f"contact {t} E {lo} {hi} {(t + 1) % 16} W {lo} {hi} 0" for t in range(16) for lo, hi in spans]


def main():
    kind, *words = sys.argv[1:]
    size = 0 if kind == "largest" else int(words.pop(0))
    text, bytes_of_start = made(kind, size)
    for name, data in zip(words, (text, bytes_of_start)):
        with open(name, "wb") as file:
            file.write(data)


if __name__ == "__main__":
    main()
