"""What the tests share: where the samples are, and tessellations made at random."""

import random
import sys
from pathlib import Path

TOP = Path(__file__).resolve().parents[3]
SAMPLES = TOP / "samples"
sys.path.insert(0, str(TOP / "clients/python"))


def sample(name):
    return str(SAMPLES / name)


def random_file(source: random.Random) -> str:
    """A file in the grammar or nearly so, of few kinds, whose corners seldom close."""
    version = source.choice([1, 2])
    kinds = []
    for _ in range(source.randint(1, 3)):
        sides = source.choice([3, 4, 4, 5, 6, 6, 8])
        repeat = source.choice([n for n in range(1, sides + 1) if sides % n == 0])
        kinds.append((sides, repeat))
    rows = [f"tess {version}"] + [
        f"kind {number} {sides} {repeat}" for number, (sides, repeat) in enumerate(kinds)
    ]
    free = [(kind, side) for kind, (_, repeat) in enumerate(kinds) for side in range(repeat)]
    corners = [
        f"corner {kind} {side} {source.choice([3, 4, 4, 6, 6, 8, 12])}" for kind, side in free
    ]
    source.shuffle(free)
    while free:
        one = free.pop()
        other = free.pop() if free and source.random() < 0.6 else one
        word = "mirror" if version == 2 and source.random() < 0.5 else "join"
        rows.append(f"{word} {one[0]} {one[1]} {other[0]} {other[1]}")
    rows += corners
    return "\n".join(spoilt(rows, source)) + source.choice(["\n", "\n", ""])


def spoilt(rows, source):
    """The rows, with a fault of form in one file of three."""
    if source.random() < 0.35:
        at = source.randrange(len(rows))
        how = source.randrange(6)
        if how == 0:
            del rows[at]
        elif how == 1:
            rows.insert(at, rows[at])
        elif how == 2:
            rows[at] += source.choice([" 1", " # remark", "\r", " x", "\t"])
        elif how == 3:
            rows[at] = rows[at].replace(" ", source.choice(["  ", "\t", " 0", " 3"]), 1)
        elif how == 4:
            words = rows[at].split(" ")
            words[-1] = source.choice(
                ["0", "2", "7", "64", "65", "255", "256", "0000000003", "000000003", "-1", "+3"]
            )
            rows[at] = " ".join(words)
        else:
            rows[at] = source.choice(
                ["", "# only a remark", "hop", "tess 1", "kind", "mirror 0 0 0 0"]
            )
    return rows


def closing(source: random.Random, tess_of):
    """A random file whose corners all close, by trying valences that fit; None where none does."""
    tess = None
    for _ in range(50):
        text = random_file(source)
        try:
            tess = tess_of(text)
        except Exception:
            continue
        rows = [row for row in text.splitlines() if not row.startswith("corner")]
        if tess.fault() and tess.fault().word != "corner":
            continue
        given = {}
        for corner in tess.corners():
            base = corner.length
            valence = next(n for n in range(max(3, base), 200) if n % base == 0)
            for side in corner.cycle:
                kind = tess.kinds[side.kind]
                given[
                    side.kind, (side.side - 1) % kind.repeat if side.mirrored else side.side
                ] = valence
        rows += [
            f"corner {kind} {side} {valence}" for (kind, side), valence in sorted(given.items())
        ]
        try:
            tess = tess_of("\n".join(rows) + "\n")
        except Exception:
            continue
        if not tess.fault():
            return tess
    return None
