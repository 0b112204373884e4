"""The gallery: what its page and pictures are made of, for `make` and `check`.

A tessellation of the gallery is a file NAME.tess whose first line is a remark that describes it.
NAME.json has its rules, docs/pictures/gallery/NAME.svg its picture, docs/GALLERY.md a row for it.
"""
import re
import sys
from fractions import Fraction
from pathlib import Path

FOLDER = Path(__file__).resolve().parent
TOP = FOLDER.parent
sys.path.insert(0, str(TOP / "clients/shapes"))
from files import Session, Tessellation, plain_kinds, shapes_of  # noqa: E402
from geometry import plane_of  # noqa: E402
from picture import Style, View, in_view, svg  # noqa: E402

PICTURES = TOP / "docs/pictures"
SMALL = PICTURES / "gallery"
PAGE = TOP / "docs/GALLERY.md"

# Small pictures: pixels, tiles across one of the plane, the least tile in pixels, the most bytes.
SIZE, ACROSS, LEAST, BYTES = 150, 9.0, 1.2, 14_500
# The rings whose numbers of tiles the page shows, and those that are compared with known numbers.
RINGS, COMPARED = 5, 10

# The large pictures of the pages: name, file, pixels, and the least tile that is drawn.
LARGE = (
    ("hr", "samples/hr.tess", 560, 3.0),
    ("cairo", "gallery/ds44.tess", 400, 1.5),
    ("triangle237", "samples/triangle237.tess", 480, 6.0),
    ("herringbone", "gallery/herringbone.tess", 400, 1.5),
)


def names():
    """The tessellations of the gallery, in order."""
    return sorted(path.stem for path in FOLDER.glob("*.tess"))


def described(text):
    """The remark in the first line of a file."""
    first = text.splitlines()[0]
    if not first.startswith("# "):
        raise ValueError("the first line of the file is no remark")
    return first[2:]


# ---- pictures ------------------------------------------------------------------------------------

def picture(tess, session, size, least, title):
    """The picture of a tessellation as a text."""
    shapes = shapes_of(tess)
    view = View.of(shapes, size)
    tiles = in_view(session.ring, shapes, view, 0, None, least)
    return svg(tiles, shapes, view, Style(handed=tess.version == 2, title=title))


def small_picture(tess, session, title):
    """A picture for the page: the tiles nearest to the middle, as many as its bytes allow."""
    shapes = shapes_of(tess)
    view = View.of(shapes, SIZE, across=ACROSS)
    tiles = in_view(session.ring, shapes, view, 0, None, LEAST)
    away = {tile.name: round(abs(tile.place.place(0j)), 4) for tile in tiles}
    style = Style(handed=tess.version == 2, title=title)

    def within(radius):
        return svg([tile for tile in tiles if away[tile.name] <= radius], shapes, view, style)

    radii = sorted(set(away.values()))
    low, high = 0, len(radii)   # what lies within radii[low] fits, and within radii[high] does not
    while high - low > 1:
        middle = (low + high) // 2
        low, high = (middle, high) if len(within(radii[middle])) <= BYTES else (low, middle)
    return within(radii[low])


def large_pictures(program):
    """Yields the large pictures of the pages: the name of the file, and its text."""
    for name, file, size, least in LARGE:
        tess = Tessellation.read(TOP / file)
        with Session(TOP / file, program=program) as session:
            yield f"{name}.svg", picture(tess, session, size, least, name)


NUMBER = re.compile(r"-?\d+(?:\.\d+)?")
BEND = re.compile(r" 0 0 ([01])(?=[ -])")


def looks_like(one, other, apart=2.0):
    """Whether two pictures are the same but for numbers that are at most so far apart.

    Pictures count in tenths of a pixel, so what another machine rounds otherwise is not seen.
    To which side an arc bends has to be the same.

    >>> looks_like("M5 5a9 9 0 0 1 7-7z", "M5 6a8 8 0 0 1 7-7z")
    True
    >>> looks_like("M5 5a9 9 0 0 1 7-7z", "M5 5a9 9 0 0 0 7-7z")
    False
    >>> looks_like("M5 5l9 9z", "M5 5l9 19z") or looks_like("M5 5l9 9z", "M5 5l9 9 1 1z")
    False
    """
    def worded(text):
        return BEND.sub(lambda bend: " 0 0 " + "rl"[int(bend[1])], text)

    one, other = worded(one), worded(other)
    if NUMBER.sub("0", one) != NUMBER.sub("0", other):
        return False
    pairs = zip(NUMBER.findall(one), NUMBER.findall(other))
    return all(a == b or abs(float(a) - float(b)) <= apart for a, b in pairs)


# ---- the page ------------------------------------------------------------------------------------

HEAD = """# Gallery

{count} tessellations to begin with.
Each lies in `gallery/` as NAME.tess, with its learnt rules as NAME.json, and runs as it stands:

```console
$ walker_cli check gallery/ds44.tess gallery/ds44.json
accepted {cairo}
```

`clients/draw gallery/ds44.tess cairo.svg` draws one larger.
The pictures are drawn by the program's replies; lengths and angles are found from the files
([TILINGS.md](TILINGS.md)).
*Corners* are the sorts of corner: the numbers of sides of the tiles round one,
`3^4` for four triangles in a row. A straight corner counts too, so a brick has six sides.
*Kinds* are those of the file, *states* and *types* the states and corner types of its rules.
*Rings* are the numbers of tiles 1 to 5 crossings away from a tile of kind 0.
Mirrored tiles, of files that begin with `tess 2`, are paler;
where all tiles are of one kind, every other ring is paler.

This page, the rules and the pictures are made by `gallery/make`.
`gallery/check` has the program check all rules, makes page and pictures anew and compares them,
and compares the numbers of tiles with what is known of them, see the end of this page.
"""
ROW = ("| ![{name}](pictures/gallery/{name}.svg) | **{name}** {remark} | {figures} | {kinds} "
       "| {states} | {types} | {rings} |")
TABLE = "| | Name | Corners | Kinds | States | Types | Rings |\n|---|---|---|---|---|---|---|"


TAIL = f"""## What the numbers are compared with

The numbers of tiles at distances 1 to {COMPARED} are those that are known of these tessellations.
A tile and its neighbours are a vertex and its neighbours in the dual,
so what is known as a coordination sequence of a net is said here of the dual tessellation.
"""


def figure(text):
    """A vertex figure with runs of equal numbers written as powers.

    >>> figure("3.3.3.3.6"), figure("4.6.14"), figure("3.3.4.3.4")
    ('3^4.6', '4.6.14', '3^2.4.3.4')
    """
    runs = []
    for word in text.split("."):
        if runs and runs[-1][0] == word:
            runs[-1][1] += 1
        else:
            runs.append([word, 1])
    return ".".join(word if count == 1 else f"{word}^{count}" for word, count in runs)


def row(name, tess, session, accepted):
    """The row of a tessellation in the page."""
    states, types = accepted.split()[1:]
    counts = [session.count(distance) for distance in range(1, RINGS + 1)]
    return ROW.format(
        name=name, remark=described(tess.text), figures=", ".join(map(figure, tess.figures())),
        kinds=len(tess.kinds), states=states, types=types, rings=", ".join(map(str, counts)))


def page(rows, accepted):
    """The page over its rows: a list of planes and rows, and the answers of `check` by name."""
    parts = [HEAD.format(count=len(rows), cairo=accepted["ds44"].split(" ", 1)[1])]
    for which in ("Euclidean", "hyperbolic"):
        lines = [line for where, line in rows if where == which.lower()]
        parts.append("\n".join([f"## The {which} plane\n", TABLE, *lines, ""]))
    lines = [f"| {name} | {source} |" for name, (source, _) in sorted(known().items())]
    parts.append("\n".join([TAIL, "| Name | Known from |", "|---|---|", *lines, ""]))
    return "\n".join(parts)


def plane(tess):
    """The plane that a tessellation fills."""
    return plane_of(plain_kinds(tess))


# ---- what is known -------------------------------------------------------------------------------

# Coordination sequences of the uniform nets of the plane, from distance 1, as the Encyclopedia of
# Integer Sequences has them. Each stands at the dual of its net.
NETS = {
    "dr36": ("A008579", "3.6.3.6", (4, 8, 14, 18, 22, 28, 30, 38, 38, 48)),
    "ds36": ("A250120", "3^4.6", (5, 9, 15, 19, 24, 29, 33, 39, 43, 48)),
    "ds44": ("A219529", "3^2.4.3.4", (5, 11, 16, 21, 27, 32, 37, 43, 48, 53)),
    "dt44": ("A008576", "4.8^2", (3, 5, 8, 11, 13, 16, 19, 21, 24, 27)),
    "dt63": ("A250122", "3.12^2", (3, 4, 6, 8, 12, 14, 15, 18, 21, 22)),
    "dtr36": ("A072154", "4.6.12", (3, 5, 7, 9, 12, 15, 17, 19, 21, 24)),
}
# Those that are one number times the distance.
EVEN_NETS = {
    "reg36": ("A008486", "6^3", 3),
    "reg44": ("A008574", "4^4", 4),
    "reg63": ("A008458", "3^6", 6),
    "drr36": ("A008574", "3.4.6.4", 4),
    "drows_st": ("A008706", "3^3.4^2", 5),
}


def recurrence(first, second, factor):
    """Numbers of which each is `factor` times the last, less the one before."""
    counts = [first, second]
    while len(counts) < COMPARED:
        counts.append(factor * counts[-1] - counts[-2])
    return counts


def reflections(angles):
    """How many elements of each length from 1 the group of reflections in a polygon's sides has.

    Its angles are pi / m for each m of `angles`. The growth series W has
    1 / W(1/t) = sum of (-1)^|T| / W_T(t) over the finite subgroups of T: none, one or two sides.
    """
    size = COMPARED + 1

    def times(a, b):
        return [sum(a[i] * b[n - i] for i in range(n + 1)) for n in range(size)]

    def inverse(a):
        b = [Fraction(1) / a[0]]
        while len(b) < size:
            b.append(-sum(a[i] * b[len(b) - i] for i in range(1, len(b) + 1)) / a[0])
        return b

    def series(coefficients):
        return [Fraction(coefficients.get(n, 0)) for n in range(size)]

    one = series({0: 1, 1: 1})
    total = series({0: 1})
    for m in angles:
        side = times(series({1: 1}), inverse(one))
        pair = times(series({m: 1}), inverse(times(one, series(dict.fromkeys(range(m), 1)))))
        total = [a - b + c for a, b, c in zip(total, side, pair)]
    return [int(n) for n in inverse(total)[1:]]


def known():
    """By name: where numbers of tiles are known from, and these numbers from distance 1."""
    found = {}
    for name, (sequence, net, counts) in NETS.items():
        found[name] = f"OEIS {sequence}, the coordination sequence of the net {net}", list(counts)
    for name, (sequence, net, factor) in EVEN_NETS.items():
        counts = [factor * n for n in range(1, COMPARED + 1)]
        source = f"OEIS {sequence}, the coordination sequence of the net {net}: {factor} n"
        found[name] = source, counts
    for name, p, grid in (("reg54", 5, "pentagrid"), ("reg73", 7, "heptagrid")):
        source = f"{p} F(2n), with Fibonacci numbers F: M. Margenstern's tree of the {grid}"
        found[name] = source, recurrence(p, 3 * p, 3)
    source = "a(n) = 4 a(n - 1) - a(n - 2) from 8, 32: the factor is p - 4 for {p,3}"
    found["reg83"] = source, recurrence(8, 32, 4)
    for name in names():
        if name.startswith("mirrors"):
            angles = [int(digit) for digit in name[len("mirrors"):]]
            source = "the growth series of the group of its reflections, by R. Steinberg's formula"
            found[name] = source, reflections(angles)
    return found
