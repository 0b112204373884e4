"""Between tessellation files and shapes: plain kinds, shape lines, and the texts of new files.

A shape line is a comment, so the program passes it over:

    # shape K S LENGTH ANGLE

Side S of kind K is LENGTH long, and the tile's angle at its left end, at corner S, has ANGLE
degrees. A file with such lines for all sides below their repeats is drawn with tiles of these
shapes; without any, lengths and angles are found by `geometry`.
Bricks and hexagons are one tessellation, and only these lines tell which of the two is meant.
"""
from __future__ import annotations

import re
import sys
from math import degrees, radians
from pathlib import Path
from typing import Dict, List, Optional, Sequence, Tuple

from geometry import Kind, NoShape, Shapes, Type, shapes

sys.path.insert(0, str(Path(__file__).resolve().parent.parent / "python"))
from wagbirelu import (  # noqa: E402  (the package lies beside this folder)
    Refusal, Session, Tessellation, WagbireluError, call)

SHAPE_LINE = re.compile(r"#\s*shape\s+(\d+)\s+(\d+)\s+(\S+)\s+(\S+)\s*$")


def plain_kinds(tess: Tessellation) -> List[Kind]:
    """The kinds of the expansion: those that the program's answers speak of."""
    return [Kind(kind.sides, kind.repeat, tuple((side.kind, side.side) for side in kind.partner),
                 kind.valence)
            for kind in tess.expanded.kinds]


def shape_lines(text: str) -> Dict[Type, Tuple[float, float]]:
    """The lengths and angles (in radians) that a file gives, by kind and side of the file.

    >>> shape_lines("tess 1\\n# shape 0 1 2.5 90\\n")
    {(0, 1): (2.5, 1.5707963267948966)}
    """
    found = {}
    for line in text.splitlines():
        match = SHAPE_LINE.match(line.strip())
        if match:
            kind, side, length, angle = match.groups()
            try:
                found[int(kind), int(side)] = float(length), radians(float(angle))
            except ValueError:
                raise NoShape(f"no shape line: {line.strip()}") from None
    return found


def given_shapes(tess: Tessellation) -> Optional[Dict[Type, Tuple[float, float]]]:
    """The shape lines of a file for the kinds of its expansion, None where it has none."""
    lines = shape_lines(tess.text)
    if not lines or tess.version == 1:
        return lines or None
    given = {}
    for (kind, side), (length, angle) in lines.items():
        if kind >= len(tess.kinds):
            continue
        repeat = tess.kinds[kind].repeat
        given[2 * kind, side] = length, angle
        # Seen with the other hand, side S has number -S, and its left end is corner S - 1.
        before = lines.get((kind, (side - 1) % repeat), (0.0, 0.0))[1]
        given[2 * kind + 1, -side % repeat] = length, before
    return given


def shapes_of(tess: Tessellation, root: int = 0) -> Shapes:
    """The shapes of a tessellation file. Raises NoShape."""
    return shapes(plain_kinds(tess), root, given_shapes(tess))


def text_of(kinds: Sequence[Kind], remark: str = "") -> str:
    """The text of a file of version 1 with these kinds, with a remark as its first line."""
    lines = [f"# {remark}"] * bool(remark) + ["tess 1"]
    lines += [f"kind {number} {kind.sides} {kind.repeat}" for number, kind in enumerate(kinds)]
    for number, kind in enumerate(kinds):
        for side, across in enumerate(kind.partner):
            if across >= (number, side):
                lines.append(f"join {number} {side} {across[0]} {across[1]}")
    for number, kind in enumerate(kinds):
        lines += [f"corner {number} {side} {valence}" for side, valence in enumerate(kind.valence)]
    return "\n".join(lines) + "\n"


def shape_text(given: Dict[Type, Tuple[float, float]]) -> str:
    """The shape lines for lengths and angles."""
    return "".join(f"# shape {kind} {side} {length:.12g} {degrees(angle):.12g}\n"
                   for (kind, side), (length, angle) in sorted(given.items()))
