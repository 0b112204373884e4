"""Recipes: the uniform tessellations that come from a regular one, and their duals, as kinds.

{p,q} has p sides to a tile and q tiles round a corner. All of these have one sort of corner, round
which lie, in this order:

    t   truncated       q, 2p, 2p           tr  omnitruncated   2p, 2q, 4
    r   rectified       p, q, p, q          s   snub            p, 3, q, 3, 3
    rr  rhombi-         p, 4, q, 4

and the dual has a tile for each corner and a corner for each tile.

>>> [kind.sides for kind in recipe("t", 5, 4)]
[4, 10]
>>> cairo, = recipe("ds", 4, 4)
>>> cairo.sides, cairo.valence
(5, (3, 3, 4, 3, 4))
"""
from __future__ import annotations

from typing import Callable, Dict, List, Sequence, Tuple

from geometry import Kind, Type, vertices

# The most sides of a tile and the most tiles round a corner that a tessellation file may have.
MOST = 64


def regular(p: int, q: int) -> List[Kind]:
    """{p,q} itself."""
    return [Kind(p, 1, ((0, 0),), (q,))]


def truncated(p: int, q: int) -> List[Kind]:
    """Each corner cut off by a tile of q sides; what is left of a tile has 2p sides."""
    return [Kind(q, 1, ((1, 0),), (3,)), Kind(2 * p, 2, ((0, 0), (1, 1)), (3, 3))]


def rectified(p: int, q: int) -> List[Kind]:
    """Corners cut off as far as the middles of edges."""
    return [Kind(p, 1, ((1, 0),), (4,)), Kind(q, 1, ((0, 0),), (4,))]


def rhombi(p: int, q: int) -> List[Kind]:
    """Tiles moved apart, with a square for each edge and a tile of q sides for each corner."""
    return [Kind(p, 1, ((2, 0),), (4,)), Kind(q, 1, ((2, 1),), (4,)),
            Kind(4, 2, ((0, 0), (1, 0)), (4, 4))]


def omnitruncated(p: int, q: int) -> List[Kind]:
    """A tile of 2p sides for each tile, of 2q for each corner, and a square for each edge."""
    return [Kind(2 * p, 2, ((1, 0), (2, 0)), (3, 3)), Kind(2 * q, 2, ((0, 0), (2, 1)), (3, 3)),
            Kind(4, 2, ((0, 1), (1, 1)), (3, 3))]


def snub(p: int, q: int) -> List[Kind]:
    """Tiles moved apart and turned, with two triangles for each edge."""
    return [Kind(p, 1, ((2, 0),), (5,)), Kind(q, 1, ((2, 1),), (5,)),
            Kind(3, 3, ((0, 0), (1, 0), (2, 2)), (5, 5, 5))]


NAMES: Dict[str, Tuple[str, Callable[[int, int], List[Kind]]]] = {
    "regular": ("regular", regular),
    "t": ("truncated", truncated),
    "r": ("rectified", rectified),
    "rr": ("rhombi-", rhombi),
    "tr": ("omnitruncated", omnitruncated),
    "s": ("snub", snub),
}


def dual(kinds: Sequence[Kind]) -> List[Kind]:
    """The dual: a kind for each cycle of corners, with a side for each edge that meets there.

    >>> dual(regular(5, 4)) == regular(4, 5)
    True
    """
    cycles = [backwards(cycle) for cycle in vertices(kinds, range(len(kinds)))]
    place = {at: (number, side)
             for number, cycle in enumerate(cycles) for side, at in enumerate(cycle)}
    duals = []
    for cycle in cycles:
        # A side of the dual tile crosses the edge that the walker faces; at its left end lies the
        # tile across.
        partner = tuple(place[crossed(kinds, at)] for at in cycle)
        valence = tuple(kinds[crossed(kinds, at)[0]].sides for at in cycle)
        kind, side = cycle[0]
        duals.append(Kind(kinds[kind].valence[side], len(cycle), partner, valence))
    return duals


def crossed(kinds: Sequence[Kind], at: Type) -> Type:
    """The type across a side."""
    return kinds[at[0]].partner[at[1]]


def backwards(cycle: Sequence[Type]) -> List[Type]:
    """A cycle round a corner the other way, in which sides count: `LX` goes against it."""
    return [cycle[0], *reversed(cycle[1:])]


def recipe(name: str, p: int, q: int) -> List[Kind]:
    """The kinds of a recipe: `regular`, `t`, `r`, `rr`, `tr` or `s`, with a `d` before it its dual.

    Raises ValueError where there is no such recipe or the tessellation is too large for a file.

    >>> recipe("dt", 40, 3)
    Traceback (most recent call last):
    ValueError: a corner of dt{40,3} would have 80 tiles, and a file has at most 64
    """
    base, is_dual = (name, False) if name in NAMES else (name[1:], name[:1] == "d")
    if base not in NAMES:
        raise ValueError(f"there is no recipe {name}")
    if p < 3 or q < 3 or (p - 2) * (q - 2) < 4:
        raise ValueError(f"{{{p},{q}}} does not fill a plane: (P - 2)(Q - 2) has to be at least 4")
    kinds = NAMES[base][1](p, q)
    if is_dual:
        kinds = dual(kinds)
    for what, most in (("tile", max(kind.sides for kind in kinds)),
                       ("corner", max(v for kind in kinds for v in kind.valence))):
        if most > MOST:
            counted = "sides" if what == "tile" else "tiles"
            raise ValueError(f"a {what} of {name}{{{p},{q}}} would have {most} {counted}, "
                             f"and a file has at most {MOST}")
    return kinds


def description(name: str, p: int, q: int) -> str:
    """A recipe in words.

    >>> description("drr", 3, 7)
    'drr{3,7}: the dual of rhombi-{3,7}'
    """
    base, is_dual = (name, False) if name in NAMES else (name[1:], True)
    if base == "regular":
        p, q = (q, p) if is_dual else (p, q)
        return f"{{{p},{q}}}: tiles of {p} sides, {q} round each corner"
    word = NAMES[base][0]
    words = f"{word}{{{p},{q}}}" if word.endswith("-") else f"{word} {{{p},{q}}}"
    return f"{name}{{{p},{q}}}: " + ("the dual of " if is_dual else "") + words
