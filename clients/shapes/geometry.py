"""What the tiles of a tessellation look like: lengths and angles, found from the file alone.

A tessellation is given as its plain kinds, those that the answers of the program speak of
(for a file of version 2 its expansion). `shapes(kinds)` answers a `Shapes`: for each kind the
corners of its tile, and for each side the move from the tile to the one across.
A tile lies where a `Move` puts it.

>>> heptagons = [Kind(7, 1, ((0, 0),), (3,))]
>>> found = shapes(heptagons)
>>> found.plane, found.how
('hyperbolic', 'equal edges')
>>> print(f"{found.edge(0, 0):.6f} {abs(found.corners[0][0]):.6f}")
0.566256 0.300743

Nothing of this enters the program: it decides by its rules which tiles are one.
In the hyperbolic plane, of curvature -1, that fixes all lengths; in the Euclidean plane the first
kind has an inscribed circle of radius 1, or lengths are those of the file's shape lines.
"""
from __future__ import annotations

import cmath
from dataclasses import dataclass, field
from fractions import Fraction
from math import asin, asinh, cos, cosh, pi, sin, sinh, sqrt, tan
from typing import Callable, Dict, List, Optional, Sequence, Tuple

from circles import Polygons, bent_edges, inscribed_corners, touching_corners
from kinds import Kind, Type, characteristic, met_from, plane_of, turns_of, vertices
from plane import Move, along, distance, point, shift

__all__ = ["Kind", "Move", "NoShape", "Shapes", "Type", "along", "characteristic", "distance",
           "met_from", "plane_of", "point", "shapes", "shift", "vertices"]

# Lengths and angles that are off by less are equal, and those that are off by more do not close.
EQUAL, APART = 1e-8, 1e-6

Found = Optional[Polygons]


class NoShape(Exception):
    """The tiles cannot be drawn so; the text says why."""


@dataclass
class Shapes:
    """What each kind looks like, with the centre of its tile at the origin and side 0 ahead.

    `corners[k][s]` is the corner at the left end of side s of kind k, and `across[k][s]` the move
    from this tile to the one across side s. Both have an entry for each side, not for each residue.
    `how` is 'equal edges' (and regular polygons), 'inscribed circles' (each edge touches the circle
    in its tile), 'touching circles', 'given' by shape lines, or 'bent edges, not to scale': then
    `middles[k][s]` is where side s is bent, and else `middles` is empty.
    """
    kinds: Sequence[Kind]
    plane: str
    how: str
    corners: Polygons = field(default_factory=dict)
    across: Dict[int, List[Move]] = field(default_factory=dict)
    middles: Polygons = field(default_factory=dict)

    @property
    def curved(self) -> bool:
        """Whether the plane is the hyperbolic one."""
        return self.plane == "hyperbolic"

    def outline(self, kind: int) -> List[complex]:
        """The points of a tile in order: its corners, or by turns middles and corners."""
        if not self.middles:
            return self.corners[kind]
        return [z for both in zip(self.middles[kind], self.corners[kind]) for z in both]

    def edge(self, kind: int, side: int) -> float:
        """The length of a side, or where it is bent of its half at the left end."""
        ends = self.corners[kind]
        start = self.middles[kind][side] if self.middles else ends[side - 1]
        return distance(start, ends[side], self.curved)

    def angle(self, kind: int, side: int) -> float:
        """The angle of the tile at the left end of a side."""
        outline, times = self.outline(kind), 2 if self.middles else 1
        return angle_between(outline, times * side + times - 1, self.curved)

    def crossed(self, kind: int, side: int) -> Tuple[int, int]:
        """The kind across a side, and the residue of the side that is faced there."""
        return self.kinds[kind].partner[side % self.kinds[kind].repeat]


def angle_between(outline: Sequence[complex], place: int, curved: bool) -> float:
    """The angle inside a polygon at one of its points."""
    at, following = outline[place], outline[(place + 1) % len(outline)]
    turn = cmath.phase(along(at, following, curved).back().place(outline[place - 1]))
    return turn if turn > EQUAL else 2 * pi + turn


def shapes(kinds: Sequence[Kind], start: int = 0,
           given: Optional[Dict[Type, Tuple[float, float]]] = None) -> Shapes:
    """The shapes of all kinds that are met from a tile of kind `start`.

    Where lengths and angles are `given` these are taken. Else are tried in turn: edges of one
    length with regular polygons; tiles with inscribed circles that touch at the edges; circles
    round centres and corners that touch each other; and these with edges that are bent.
    Raises NoShape where the tiles close up, where what is given does not close, and where nothing
    is found.
    """
    plane = plane_of(kinds, start)
    if plane == "closed":
        raise NoShape("the tiles close up: there are finitely many, and no plane to draw them in")
    among = met_from(kinds, start)
    curved = plane == "hyperbolic"
    if given:
        found = Shapes(kinds, plane, "given", given_corners(kinds, among, given, curved))
        off = close(found, among)
        if off > APART:
            raise NoShape(f"the lengths and angles that are given do not close: off by {off:.2g}")
        return found
    for how, find in WAYS:
        polygons = find(kinds, among, curved)
        if polygons is not None:
            found = Shapes(kinds, plane, how, polygons)
            if find is bent_edges:
                found.middles = {kind: points[0::2] for kind, points in polygons.items()}
                found.corners = {kind: points[1::2] for kind, points in polygons.items()}
            if close(found, among) <= APART:
                return found
    raise NoShape("no lengths and angles were found: some tile meets itself")


def close(found: Shapes, among: Sequence[int]) -> float:
    """Works out the moves across sides, and answers how far the shapes are from closing."""
    for kind in among:
        found.across[kind] = []
        for side in range(found.kinds[kind].sides):
            other, back = found.crossed(kind, side)
            here, there = found.corners[kind], found.corners[other]
            if found.middles:
                near = along(found.middles[kind][side], here[side], found.curved)
                far = along(found.middles[other][back], there[back - 1], found.curved)
            else:
                near = along(here[side], here[side - 1], found.curved)
                far = along(there[back - 1], there[back], found.curved)
            found.across[kind].append(near.then(far.back()))
    return closing_error(found, among)


def closing_error(found: Shapes, among: Sequence[int]) -> float:
    """How far angles round corners are from a full turn, and joined sides from each other."""
    worst = 0.0
    for cycle in vertices(found.kinds, among):
        total = sum(found.angle(k, s) for k, s in cycle)
        worst = max(worst, abs(total * turns_of(found.kinds, cycle) - 2 * pi))
    for kind in among:
        for side in range(found.kinds[kind].sides):
            other, back = found.crossed(kind, side)
            theirs = [found.across[kind][side].place(z) for z in found.corners[other]]
            ends = found.corners[kind]
            for mine, there in ((ends[side], theirs[back - 1]), (ends[side - 1], theirs[back])):
                worst = max(worst, distance(mine, there, found.curved))
    return worst


# ---- edges of one length -------------------------------------------------------------------------

def regular_angle(sides: int, edge: float) -> float:
    """The angle of a regular polygon in the hyperbolic plane."""
    return 2 * asin(cos(pi / sides) / cosh(edge / 2))


def equal_edge(kinds: Sequence[Kind], among: Sequence[int]) -> Optional[float]:
    """The length with which regular polygons close round each corner in the hyperbolic plane.

    None where there is no such length.
    """
    edge = None
    for cycle in vertices(kinds, among):
        turns = float(turns_of(kinds, cycle))
        low, high = 0.0, 40.0
        for _ in range(200):
            middle = (low + high) / 2
            total = sum(regular_angle(kinds[k].sides, middle) for k, _ in cycle) * turns
            low, high = (middle, high) if total > 2 * pi else (low, middle)
        if low == 0.0 or (edge is not None and abs(low - edge) > EQUAL):
            return None
        edge = low
    return edge


def equal_corners(kinds: Sequence[Kind], among: Sequence[int], curved: bool) -> Found:
    """The corners of regular polygons with one length of edge, where they close."""
    if curved:
        edge = equal_edge(kinds, among)
        if edge is None:
            return None
        radius = {k: asinh(sinh(edge / 2) / sin(pi / kinds[k].sides)) for k in among}
    else:
        for cycle in vertices(kinds, among):
            total = sum(Fraction(1, 2) - Fraction(1, kinds[k].sides) for k, _ in cycle)
            if total * turns_of(kinds, cycle) != 1:
                return None
        edge = 2 * tan(pi / kinds[among[0]].sides)
        radius = {k: edge / 2 / sin(pi / kinds[k].sides) for k in among}
    polygons = {}
    for k in among:
        sides = kinds[k].sides
        polygons[k] = [point(radius[k], pi * (2 * s + 1) / sides, curved) for s in range(sides)]
    return polygons


WAYS: Tuple[Tuple[str, Callable[[Sequence[Kind], Sequence[int], bool], Found]], ...] = (
    ("equal edges", equal_corners),
    ("inscribed circles", inscribed_corners),
    ("touching circles", touching_corners),
    ("bent edges, not to scale", bent_edges),
)


# ---- given shapes --------------------------------------------------------------------------------

def given_corners(kinds: Sequence[Kind], among: Sequence[int],
                  given: Dict[Type, Tuple[float, float]], curved: bool) -> Polygons:
    """The corners of tiles whose lengths, and angles at left ends in radians, are given.

    Raises NoShape where a tile lacks some or does not close.
    """
    polygons = {}
    for number in among:
        kind = kinds[number]
        if any((number, s) not in given for s in range(kind.repeat)):
            raise NoShape(f"kind {number} has no shape line for each side below its repeat")
        at, ends = Move(1 + 0j, 0j, curved), []
        for side in range(kind.sides):
            length, angle = given[number, side % kind.repeat]
            at = at.then(Move.forward(length, curved))
            ends.append(at.place(0j))
            at = at.then(Move.turn(pi - angle, curved))
        if abs(ends[-1]) > 1e-5:
            raise NoShape(f"the sides of kind {number} do not close: off by {abs(ends[-1]):.2g}")
        polygons[number] = centred(ends, curved)
    return polygons


def centred(ends: List[complex], curved: bool) -> List[complex]:
    """The polygon moved so that its centre is the origin and side 0 lies ahead."""
    if curved:      # the mean of the points on the hyperboloid, seen in the disk again
        weights = [1 / (1 - abs(z) ** 2) for z in ends]
        mean = sum(w * z for w, z in zip(weights, ends)) / (sum(weights) - len(ends) / 2)
        mean = mean / (1 + sqrt(max(0.0, 1 - abs(mean) ** 2)))
    else:
        mean = sum(ends) / len(ends)
    back = shift(mean, curved).back()
    ends = [back.place(z) for z in ends]
    # The way ahead meets side 0 at a right angle.
    right, left = ends[-1], ends[0]
    if curved:
        ahead = -1j * (left * (1 + abs(right) ** 2) - right * (1 + abs(left) ** 2))
    else:
        ahead = -1j * (left - right)
    turn = Move.turn(-cmath.phase(ahead), curved)
    return [turn.place(z) for z in ends]
