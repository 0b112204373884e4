"""Pictures of tessellations: the program's replies say which tiles there are, `geometry` where.

`placed` takes the names that `ring 0`, `ring 1`, .. answer. A name is the way in the tree, a side
for each crossing, so it says where its tile lies; and each tile is listed once.
`svg` writes the picture.
"""
from __future__ import annotations

from dataclasses import dataclass
from math import sqrt
from typing import Callable, Dict, Iterable, Iterator, List, NamedTuple, Optional, Sequence, Tuple

from geometry import Move, Shapes

# The SVG counts in tenths of a pixel, so that its numbers are short and whole.
FINE = 10
COLOURS = ("#e9b44c", "#6c9bd2", "#8dbf67", "#d0706a", "#9c87c8", "#5bb0aa", "#d88fb2", "#b0a06b",
           "#7f8fa6", "#c98b4f")
LINE = "#2b2b33"
GROUND = "#f4f2ec"
RIM = "#55555f"


class Tile(NamedTuple):
    """A tile in its place: its name, its kind, the side of the file that leads to its parent."""
    name: str
    level: int
    kind: int
    home: int
    place: Move

    def corners(self, shapes: Shapes) -> List[complex]:
        """Its corners in their places, and where edges are bent their middles."""
        return [self.place.place(z) for z in shapes.outline(self.kind)]


def child(tile: Tile, name: str, side: int, shapes: Shapes) -> Tile:
    """The child across that side, which is counted from the side of the parent."""
    sides = shapes.kinds[tile.kind].sides
    across = (tile.home + side) % sides
    kind, home = shapes.crossed(tile.kind, across)
    place = tile.place.then(shapes.across[tile.kind][across])
    return Tile(name, tile.level + 1, kind, home, place)


def placed(ring: Callable[[int], Optional[Sequence[str]]], shapes: Shapes,
           root: int) -> Iterator[List[Tile]]:
    """The tiles ring by ring, from the names that `ring` answers (None where it refuses)."""
    start = Tile("-", 0, root, 0, Move(1 + 0j, 0j, shapes.curved))
    inner: Dict[str, Tile] = {}
    level, names = 0, ring(0)
    while names:
        tiles = {}
        for name in names:
            above, _, side = name.rpartition(".")
            tiles[name] = child(inner[above or "-"], name, int(side), shapes) if level else start
        yield list(tiles.values())
        inner, level = tiles, level + 1
        names = ring(level)


def in_view(ring: Callable[[int], Optional[Sequence[str]]], shapes: Shapes, view: View, root: int,
            depth: Optional[int], least: float) -> List[Tile]:
    """The tiles that lie in the picture and are at least so many pixels large.

    They are those of the rings up to `depth`, or of all rings until one has no such tile.
    """
    def is_seen(tile: Tile) -> bool:
        ends = tile.corners(shapes)
        return view.shows(ends) and view.width(ends) >= least

    found: List[Tile] = []
    for level, tiles in enumerate(placed(ring, shapes, root)):
        seen = [tile for tile in tiles if is_seen(tile)]
        found += seen
        if level == depth or (depth is None and not seen):
            break
    return found


# ---- the view ------------------------------------------------------------------------------------

@dataclass(frozen=True)
class View:
    """How points come onto the picture: its size in pixels, and the pixels of a length of 1."""
    size: int
    scale: float
    curved: bool

    @staticmethod
    def of(shapes: Shapes, size: int, tiles: Iterable[Tile] = (), across: float = 12.0) -> View:
        """The disk in the picture; or in the plane all `tiles`, where there are some, else about
        `across` tiles from one edge of the picture to the other."""
        if shapes.curved:
            return View(size, size / 2 - 2, True)
        far = max((abs(z) for tile in tiles for z in tile.corners(shapes)), default=0.0)
        if not far:
            areas = [abs(area(ends)) for ends in shapes.corners.values()]
            far = across / 2 * sqrt(sum(areas) / len(areas))
        return View(size, (size / 2 - 2) / far, False)

    def spot(self, z: complex) -> Tuple[int, int]:
        """Where a point comes to, in tenths of a pixel; the picture's y goes down."""
        middle = self.size / 2
        return (round(FINE * (middle + self.scale * z.real)),
                round(FINE * (middle - self.scale * z.imag)))

    def width(self, ends: Sequence[complex]) -> float:
        """How large a tile is, in pixels: twice the distance from its middle to a far corner."""
        centre = sum(ends) / len(ends)
        return 2 * self.scale * max(abs(z - centre) for z in ends)

    def shows(self, ends: Sequence[complex]) -> bool:
        """Whether some of the tile may lie in the picture."""
        half = self.size / 2 / self.scale
        return (min(z.real for z in ends) < half and max(z.real for z in ends) > -half
                and min(z.imag for z in ends) < half and max(z.imag for z in ends) > -half)


def area(ends: Sequence[complex]) -> float:
    """The area of a polygon in the plane."""
    return sum((a.conjugate() * b).imag for a, b in zip(ends, list(ends[1:]) + [ends[0]])) / 2


def circle_through(p: complex, q: complex) -> Optional[Tuple[complex, float]]:
    """Centre and radius of the circle in which the line through p and q lies in the disk.

    None where it is straight.
    """
    cross = 2 * (p.real * q.imag - p.imag * q.real)
    if abs(cross) < 1e-9:
        return None
    up, uq = 1 + abs(p) ** 2, 1 + abs(q) ** 2
    centre = complex(q.imag * up - p.imag * uq, p.real * uq - q.real * up) / cross
    return centre, sqrt(max(0.0, abs(centre) ** 2 - 1))


def piece(p: complex, q: complex, view: View) -> str:
    """The words of a path that go on from p to q: an arc where it can be seen to be one."""
    (x, y), (u, v) = view.spot(p), view.spot(q)
    found = circle_through(p, q) if view.curved else None
    if found is not None:
        centre, radius = found
        chord = abs(p - q)
        bow = chord * chord / 8 / radius if radius > chord else chord
        if bow * view.scale > 0.2:
            wide = round(FINE * view.scale * radius)
            bends_left = ((q - p).conjugate() * (centre - p)).imag > 0
            return f"a{wide} {wide} 0 0 {0 if bends_left else 1} {u - x} {v - y}"
    return f"l{u - x} {v - y}"


def outline(ends: Sequence[complex], view: View) -> str:
    """The path of a tile."""
    x, y = view.spot(ends[-1])
    pieces = [piece(a, b, view) for a, b in zip([ends[-1], *ends[:-2]], ends[:-1])]
    last = piece(ends[-2], ends[-1], view)
    return f"M{x} {y}" + joined(pieces + [last] * (last[0] == "a")) + "z"


def joined(pieces: Sequence[str]) -> str:
    """The pieces of a path, without letters that repeat the one before and spaces before signs.

    >>> joined(["l10 -20", "l-3 4", "a5 5 0 0 1 7 8"])
    'l10-20-3 4a5 5 0 0 1 7 8'
    """
    words, letter = "", ""
    for one in pieces:
        words += " " + one[1:] if one[0] == letter else one
        letter = one[0]
    return words.replace(" -", "-")


# ---- the picture ---------------------------------------------------------------------------------

def mixed(colour: str, other: str, part: float) -> str:
    """A colour with a part of another."""
    both = [(int(colour[i:i + 2], 16), int(other[i:i + 2], 16)) for i in (1, 3, 5)]
    return "#" + "".join(f"{round(a + (b - a) * part):02x}" for a, b in both)


def colour_of(tile: Tile, handed: bool, kinds: int) -> str:
    """By the kind in the file; mirrored tiles are paler; of one kind alone, every other ring is."""
    number = tile.kind // 2 if handed else tile.kind
    base = COLOURS[number % len(COLOURS)]
    if number >= len(COLOURS):
        base = mixed(base, "#444444", 0.15 * (number // len(COLOURS) % 4))
    if handed:
        return mixed(base, "#ffffff", 0.5) if tile.kind % 2 else base
    return mixed(base, "#ffffff", 0.3) if kinds == 1 and tile.level % 2 else base


def line_width(pixels: float) -> float:
    """How wide the line round a tile of that size is, in steps."""
    steps = ((60, 1.4), (24, 1.0), (10, 0.6), (5, 0.35))
    return next((width for least, width in steps if pixels >= least), 0.2)


@dataclass(frozen=True)
class Style:
    """How a picture is drawn.

    `labels`: with names; `handed`: every other kind is a mirrored one; `rim`: what lies further out
    in the disk is as dark as tiles that are too small.
    """
    labels: bool = False
    handed: bool = False
    rim: bool = True
    title: str = ""


def svg(tiles: Iterable[Tile], shapes: Shapes, view: View, style: Style) -> str:
    """The picture as the text of an SVG file. Tiles of one colour and line make one path."""
    paths: Dict[Tuple[str, float], List[str]] = {}
    texts = []
    for tile in tiles:
        ends = tile.corners(shapes)
        colour = colour_of(tile, style.handed, len(shapes.corners))
        paths.setdefault((colour, line_width(view.width(ends))), []).append(outline(ends, view))
        if style.labels:
            texts += label(tile, ends, view)
    full = FINE * view.size
    lines = [f'<svg xmlns="http://www.w3.org/2000/svg" width="{view.size}" height="{view.size}" '
             f'viewBox="0 0 {full} {full}">']
    if style.title:
        lines.append(f"<title>{escaped(style.title)}</title>")
    colours = [colour for (colour, _), pieces in paths.items() for _ in pieces]
    lines.append(ground(view, colours if style.rim else []))
    lines.append(f'<g stroke="{LINE}" stroke-linejoin="round">')
    for (colour, width), pieces in sorted(paths.items()):
        path = "".join(pieces)
        lines.append(f'<path fill="{colour}" stroke-width="{FINE * width:g}" d="{path}"/>')
    lines.append("</g>")
    if texts:
        lines += ['<g font-family="sans-serif" text-anchor="middle" fill="#111">', *texts, "</g>"]
    if shapes.middles:
        lines.append(f'<text x="{FINE * 4}" y="{full - FINE * 6}" font-family="sans-serif" '
                     f'font-size="{FINE * 12}" fill="#111">not to scale</text>')
    if view.curved:
        lines.append(f'<circle cx="{full // 2}" cy="{full // 2}" r="{round(FINE * view.scale)}" '
                     f'fill="none" stroke="{RIM}" stroke-width="{FINE}"/>')
    return "\n".join([*lines, "</svg>"]) + "\n"


def ground(view: View, colours: Sequence[str]) -> str:
    """What lies behind the tiles: paper, in a disk where there are colours as small tiles look."""
    full = FINE * view.size
    if not view.curved:
        return f'<rect width="{full}" height="{full}" fill="{GROUND}"/>'
    colour = mixed(mean(colours), LINE, 0.35) if colours else GROUND
    radius = round(FINE * view.scale)
    return f'<circle cx="{full // 2}" cy="{full // 2}" r="{radius}" fill="{colour}"/>'


def mean(colours: Sequence[str]) -> str:
    """The mean of colours.

    >>> mean(["#102030", "#304050"])
    '#203040'
    """
    parts = [[int(colour[i:i + 2], 16) for colour in colours] for i in (1, 3, 5)]
    return "#" + "".join(f"{round(sum(part) / len(part)):02x}" for part in parts)


def label(tile: Tile, ends: Sequence[complex], view: View) -> List[str]:
    """The name of a tile in its middle, where it is large enough to be read."""
    middle = tile.place.place(0j)
    inner = view.scale * min(abs(middle - (a + b) / 2) for a, b in zip(ends, [*ends[1:], ends[0]]))
    height = min(inner * 0.7, 2.6 * inner / max(1, len(tile.name)))
    if height < 3:
        return []
    x, y = view.spot(middle)
    low, high = round(y + 0.35 * FINE * height), round(FINE * height)
    return [f'<text x="{x}" y="{low}" font-size="{high}">{tile.name}</text>']


def escaped(text: str) -> str:
    """A text as it stands in XML."""
    return text.replace("&", "&amp;").replace("<", "&lt;").replace(">", "&gt;")
