"""Walks and names as texts: letters `L`, `R` and `X`, and names such as `0.4` or `-`."""

from __future__ import annotations

from typing import Iterator, List, Sequence

#: The most bytes that a line may have.
LINE_LIMIT = 8192

BACK = str.maketrans("LR", "RL")


def backwards(walk: str) -> str:
    """The walk that undoes a walk: its letters in reverse, with L and R exchanged.

    >>> backwards("XLLLLX")
    'XRRRRX'
    """
    return walk[::-1].translate(BACK)


def sides_of(name: str) -> List[int]:
    """The child sides of a name, the one next to the root first.

    >>> sides_of("0.4"), sides_of("-")
    ([0, 4], [])
    """
    return [] if name == "-" else [int(side) for side in name.split(".")]


def name_of(sides: Sequence[int]) -> str:
    """The name with these child sides.

    >>> name_of([0, 4]), name_of([])
    ('0.4', '-')
    """
    return ".".join(map(str, sides)) or "-"


def way_to(name: str) -> str:
    """The walk from side 0 of the root to the tile of a name, whose side of spin 0 it faces then.

    >>> way_to("0.4")
    'XLLLLX'
    """
    return "".join("L" * side + "X" for side in sides_of(name))


def way_between(here: str, there: str) -> str:
    """A walk along the tree, from spin 0 of the tile of one name to spin 0 of that of another.

    >>> way_between("0.4.3", "0.2")
    'XRRRXRRRRLLX'
    >>> way_between("-", "0.4") == way_to("0.4")
    True
    """
    mine, other = sides_of(here), sides_of(there)
    shared = 0
    while shared < min(len(mine), len(other)) and mine[shared] == other[shared]:
        shared += 1
    up = "".join("X" + "R" * side for side in reversed(mine[shared:]))
    return up + "".join("L" * side + "X" for side in other[shared:])


def pieces(walk: str, head: int) -> Iterator[str]:
    """A walk in pieces, each short enough for a line that has `head` bytes before its letters.

    >>> [len(piece) for piece in pieces("L" * 10_000, 5)]
    [8187, 1813]
    >>> list(pieces("", 5))
    ['-']
    """
    size = LINE_LIMIT - head
    for start in range(0, len(walk) or 1, size):
        yield walk[start : start + size] or "-"
