"""Where the tiles of a mosaic lie on a picture: six tiles that close as a cube are unfolded as a cross."""
import collections

# A tile's place: where its lower left corner lies, and by how many quarter turns to the left it is turned.
Place = collections.namedtuple("Place", "x y turns")
STEP = {"E": (1, 0), "N": (0, 1), "W": (-1, 0), "S": (0, -1)}
TURN = {"E": "N", "N": "W", "W": "S", "S": "E"}
ACROSS = {"E": "W", "W": "E", "N": "S", "S": "N"}


def turned(side, turns):
    for _ in range(turns % 4):
        side = TURN[side]
    return side


def places_of(mosaic):
    """The places of tiles of one square size: the first at 0, each further one beside a tile that it touches, turned so that
    the sides that meet lie together. None where they can't be laid so."""
    if len(set(mosaic.shapes)) > 1 or mosaic.shapes[0][0] != mosaic.shapes[0][1]:
        return None
    joins = collections.defaultdict(list)
    for t, s, low, high, u, r, *_ in mosaic.contacts:
        if t != u and high - low + 1 == mosaic.shapes[0][0]:
            joins[t].append((s, u, r))
            joins[u].append((r, t, s))
    places, queue = {0: Place(0, 0, 0)}, [0]
    while queue:
        tile = queue.pop(0)
        own = places[tile]
        for side, other, its in sorted(joins[tile], key=lambda join: "ENWS".index(join[0])):
            way = turned(side, own.turns)
            x, y = own.x + STEP[way][0], own.y + STEP[way][1]
            turns = next(n for n in range(4) if turned(its, n) == ACROSS[way])
            if other not in places and all((it.x, it.y) != (x, y) for it in places.values()):
                places[other] = Place(x, y, turns)
                queue.append(other)
    return places if len(places) == len(mosaic.shapes) else None


def laid_out(mosaic):
    """A place for each tile, none below 0: as they touch, or else beside each other with a gap of two cells."""
    places = places_of(mosaic)
    if places is None:
        xs = [0]
        for nx, _ in mosaic.shapes:
            xs.append(xs[-1] + nx + 2)
        return [Place(x, 0, 0) for x, _ in zip(xs, mosaic.shapes)]
    size = mosaic.shapes[0][0]
    least_x, least_y = (min(it[k] for it in places.values()) for k in (0, 1))
    return [Place((places[tile].x - least_x) * size, (places[tile].y - least_y) * size, places[tile].turns) for tile in range(len(places))]
