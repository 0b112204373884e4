"""Polygons for tiles from circles: radii with which angles round every point sum to a full turn.

Three ways, each of which finds polygons for more tessellations than the one before:
circles inscribed in the tiles that touch at the edges, with circles round the corners through these
points; circles round centres and corners that touch; and circles round centres, corners and middles
of edges that touch, where an edge is bent in its middle.
"""
from __future__ import annotations

from dataclasses import dataclass
from math import acosh, atan2, cosh, exp, hypot, log, pi, sinh, sqrt, tanh
from typing import Callable, Dict, List, Optional, Sequence, Tuple

from kinds import Kind, Type, turns_of, vertices
from plane import point

Polygons = Dict[int, List[complex]]

# Sums of angles that are off by less count as right.
NOTHING = 1e-11
# Radii whose logarithms are further from 0 are signs that there are none.
FAR = 18.0


@dataclass
class Circles:
    """The circles: one for each kind, each cycle of corners, and, where it is asked, each edge.

    `weights` says how often the angles at a circle that belong to types make up a full turn there.
    """
    kinds: Sequence[Kind]
    among: Sequence[int]
    curved: bool
    of_kind: Dict[int, int]
    of_corner: Dict[Type, int]
    of_edge: Dict[Type, int]
    weights: List[float]

    @staticmethod
    def of(kinds: Sequence[Kind], among: Sequence[int], curved: bool, edges: bool) -> Circles:
        """The circles of these kinds, those of edges where `edges` says so."""
        weights = [kinds[k].sides / kinds[k].repeat for k in among]
        of_kind = {kind: number for number, kind in enumerate(among)}
        of_corner: Dict[Type, int] = {}
        of_edge: Dict[Type, int] = {}
        for cycle in vertices(kinds, among):
            of_corner.update(dict.fromkeys(cycle, len(weights)))
            weights.append(float(turns_of(kinds, cycle)))
        for at in [(k, side) for k in among for side in range(kinds[k].repeat)] if edges else []:
            across = kinds[at[0]].partner[at[1]]
            if across in of_edge:
                of_edge[at] = of_edge[across]
            else:
                of_edge[at] = len(weights)
                weights.append(2.0 if across == at else 1.0)
        return Circles(kinds, among, curved, of_kind, of_corner, of_edge, weights)

    def ends(self, kind: int, side: int) -> Tuple[int, int]:
        """The circles at the right and the left end of a side."""
        repeat = self.kinds[kind].repeat
        return self.of_corner[kind, (side - 1) % repeat], self.of_corner[kind, side % repeat]


# ---- angles --------------------------------------------------------------------------------------

def leg_angle(near: float, far: float, curved: bool) -> float:
    """The angle between the leg `near` and the longest side of a triangle with a right angle."""
    return atan2(tanh(far), sinh(near)) if curved else atan2(far, near)


def touching_angle(x: float, y: float, z: float, curved: bool) -> float:
    """The angle at the first of three centres of circles that touch, from their radii."""
    a, b, c = x + y, x + z, y + z
    if curved:
        value = (cosh(a) * cosh(b) - cosh(c)) / (sinh(a) * sinh(b))
    else:
        value = (a * a + b * b - c * c) / (2 * a * b)
    value = max(-1.0, min(1.0, value))
    return atan2(sqrt(1 - value * value), value)


def inscribed_sums(circles: Circles, radii: Sequence[float]) -> List[float]:
    """The sum of angles about each circle, where edges touch the circles in both their tiles."""
    total = [0.0] * len(circles.weights)
    for corner, at in circles.of_corner.items():
        kind = circles.of_kind[corner[0]]
        total[kind] += 2 * leg_angle(radii[kind], radii[at], circles.curved)
        total[at] += 2 * leg_angle(radii[at], radii[kind], circles.curved)
    return [a * b for a, b in zip(total, circles.weights)]


def touching_sums(circles: Circles, radii: Sequence[float]) -> List[float]:
    """The sum of angles about each circle, where the circles of each triangle touch each other.

    The triangles are those of a centre and an edge, halved where edges have circles of their own.
    """
    total = [0.0] * len(circles.weights)
    for kind, side in circles.of_corner:
        at, (right, left) = circles.of_kind[kind], circles.ends(kind, side)
        middle = circles.of_edge.get((kind, side))
        halves = [(at, right, middle), (at, middle, left)]
        for a, b, c in [(at, right, left)] if middle is None else halves:
            for x, y, z in ((a, b, c), (b, c, a), (c, a, b)):
                total[x] += touching_angle(radii[x], radii[y], radii[z], circles.curved)
    return [a * b for a, b in zip(total, circles.weights)]


# ---- solving -------------------------------------------------------------------------------------

def solved(circles: Circles, sums: Callable[[Circles, Sequence[float]], List[float]]
           ) -> Optional[List[float]]:
    """The radii with which each sum of angles is a full turn, by Newton's way with shortened steps.

    The sums are the slopes of a convex function of radii that are measured well, so each whole step
    points downwards. None where no radii are found.
    """
    fixed = 0 if circles.curved else 1      # in the Euclidean plane one radius is the unit
    logs = [log(0.5) if circles.curved else 0.0] * len(circles.weights)

    def missing(at: Sequence[float]) -> List[float]:
        return [total - 2 * pi for total in sums(circles, [exp(x) for x in at])]

    now = missing(logs)
    for _ in range(200):
        size = hypot(*now)
        if size < NOTHING * len(logs):
            return [exp(x) for x in logs]
        step = newton_step(logs, now, missing, fixed)
        if step is None:
            return None
        scale = min(1.0, 2.0 / max(1e-9, max(abs(x) for x in step)))
        while scale > 1e-6:
            tried = [x - scale * d for x, d in zip(logs, step)]
            if max(abs(x) for x in tried) < FAR:
                then = missing(tried)
                if hypot(*then) < size * (1 - scale / 10):
                    break
            scale /= 2
        else:       # no step is downwards any more: what is left is rounding, or there are none
            return [exp(x) for x in logs] if size < 1e-8 else None
        logs, now = tried, then
    return None


def newton_step(logs: List[float], now: List[float],
                missing: Callable[[Sequence[float]], List[float]],
                fixed: int) -> Optional[List[float]]:
    """The step that would mend the sums if they were linear; the first `fixed` logs stay."""
    free = range(fixed, len(logs))
    columns = []
    for j in free:
        moved = list(logs)
        moved[j] += 1e-6
        above = missing(moved)
        moved[j] -= 2e-6
        below = missing(moved)
        columns.append([(a - b) / 2e-6 for a, b in zip(above, below)])
    rows = [[column[i] for column in columns] + [now[i]] for i in free]
    answer = eliminated(rows)
    return None if answer is None else [0.0] * fixed + answer


def eliminated(rows: List[List[float]]) -> Optional[List[float]]:
    """The solution of linear equations, each row with its right side last; None if there is none.

    >>> eliminated([[1.0, 1.0, 3.0], [1.0, -1.0, 1.0]])
    [2.0, 1.0]
    """
    count = len(rows)
    for at in range(count):
        best = max(range(at, count), key=lambda i: abs(rows[i][at]))
        if abs(rows[best][at]) < 1e-14:
            return None
        rows[at], rows[best] = rows[best], rows[at]
        first = rows[at]
        for row in rows[at + 1:]:
            if row[at]:
                factor = row[at] / first[at]
                for j in range(at, count + 1):
                    row[j] -= factor * first[j]
    answer = [0.0] * count
    for at in reversed(range(count)):
        behind = sum(rows[at][j] * answer[j] for j in range(at + 1, count))
        answer[at] = (rows[at][count] - behind) / rows[at][at]
    return answer


# ---- polygons ------------------------------------------------------------------------------------

def inscribed_corners(kinds: Sequence[Kind], among: Sequence[int],
                      curved: bool) -> Optional[Polygons]:
    """The corners of tiles with inscribed circles, two of which touch at each edge.

    By the theorem of Koebe, Andreev and Thurston there is one such picture, but for moves, of each
    tessellation in which no two tiles share more than an edge or a corner. So it has all its
    symmetries, mirrors too. None where there are no such tiles.
    """
    circles = Circles.of(kinds, among, curved, False)
    radii = solved(circles, inscribed_sums)
    if radii is None:
        return None
    polygons = {}
    for kind in among:
        inner, at = radii[circles.of_kind[kind]], 0.0
        ends = []
        for side in range(kinds[kind].sides):
            outer = radii[circles.ends(kind, side)[1]]
            half = leg_angle(inner, outer, curved)
            far = acosh(cosh(inner) * cosh(outer)) if curved else hypot(inner, outer)
            ends.append(point(far, at + half, curved))
            at += 2 * half
        polygons[kind] = ends
    return polygons


def touching_points(kinds: Sequence[Kind], among: Sequence[int], curved: bool,
                    edges: bool) -> Optional[Polygons]:
    """The corners of tiles round whose centres and corners circles touch.

    Where `edges` says so there are circles round the middles of edges too, and before each corner
    stands the middle of its side. None where there are no such tiles.
    """
    circles = Circles.of(kinds, among, curved, edges)
    radii = solved(circles, touching_sums)
    if radii is None:
        return None
    polygons = {}
    for kind in among:
        inner = radii[circles.of_kind[kind]]
        outer = []
        for side in range(kinds[kind].sides):
            middle = circles.of_edge.get((kind, side % kinds[kind].repeat))
            outer += [] if middle is None else [radii[middle]]
            outer.append(radii[circles.ends(kind, side)[1]])
        # Side 0 lies ahead: in the direction of its middle, or halfway between its ends.
        wide = [touching_angle(inner, a, b, curved) for a, b in zip(outer[-1:] + outer, outer)]
        at = -wide[0] if edges else -wide[0] / 2
        polygons[kind] = []
        for far, angle in zip(outer, wide):
            at += angle
            polygons[kind].append(point(inner + far, at, curved))
    return polygons


def touching_corners(kinds: Sequence[Kind], among: Sequence[int],
                     curved: bool) -> Optional[Polygons]:
    """The corners of tiles round whose centres and corners circles touch."""
    return touching_points(kinds, among, curved, False)


def bent_edges(kinds: Sequence[Kind], among: Sequence[int], curved: bool) -> Optional[Polygons]:
    """The same with circles round the middles of edges; before each corner stands the middle."""
    return touching_points(kinds, among, curved, True)
