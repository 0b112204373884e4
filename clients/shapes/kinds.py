"""Kinds of tile as they meet: corners as cycles, and which plane the tiles fill."""
from __future__ import annotations

from fractions import Fraction
from typing import List, NamedTuple, Sequence, Tuple

Type = Tuple[int, int]


class Kind(NamedTuple):
    """A kind of tile: for each residue below its repeat the type across and the valence."""
    sides: int
    repeat: int
    partner: Tuple[Type, ...]
    valence: Tuple[int, ...]


def met_from(kinds: Sequence[Kind], start: int = 0) -> List[int]:
    """The kinds that walks from a tile of kind `start` meet, in increasing order."""
    met, todo = {start}, [start]
    for kind in todo:
        for other, _ in kinds[kind].partner:
            if other not in met:
                met.add(other)
                todo.append(other)
    return sorted(met)


def vertices(kinds: Sequence[Kind], among: Sequence[int]) -> List[List[Type]]:
    """The corners of the tessellation: each as the cycle of types that `LX` meets round it.

    >>> vertices([Kind(7, 1, ((1, 0),), (3,)), Kind(6, 2, ((0, 0), (1, 1)), (3, 3))], [0, 1])
    [[(0, 0), (1, 0), (1, 1)]]
    """
    cycles, seen = [], set()
    for start in ((kind, side) for kind in among for side in range(kinds[kind].repeat)):
        cycle, at = [], start
        while at not in seen:
            seen.add(at)
            cycle.append(at)
            kind = kinds[at[0]]
            at = kind.partner[(at[1] + 1) % kind.repeat]
        if cycle:
            cycles.append(cycle)
    return cycles


def characteristic(kinds: Sequence[Kind], start: int = 0) -> Fraction:
    """The Euler characteristic of the tessellation by its moves.

    Below 0 the plane is hyperbolic, at 0 Euclidean, above it the tiles close up.

    >>> characteristic([Kind(7, 1, ((0, 0),), (3,))]), characteristic([Kind(4, 1, ((0, 0),), (4,))])
    (Fraction(-1, 42), Fraction(0, 1))
    """
    among = met_from(kinds, start)
    total = Fraction(0)
    for number in among:
        kind = kinds[number]
        total += Fraction(kind.repeat, kind.sides) - Fraction(kind.repeat, 2)
    return total + sum(1 / turns_of(kinds, cycle) for cycle in vertices(kinds, among))


def turns_of(kinds: Sequence[Kind], cycle: Sequence[Type]) -> Fraction:
    """How often a cycle is gone through in one turn round its corner."""
    kind, side = cycle[0]
    return Fraction(kinds[kind].valence[side], len(cycle))


def plane_of(kinds: Sequence[Kind], start: int = 0) -> str:
    """'hyperbolic', 'euclidean', or 'closed' where the tiles close up."""
    sign = characteristic(kinds, start)
    return "hyperbolic" if sign < 0 else "closed" if sign > 0 else "euclidean"
