"""Points, distances and moves of the Euclidean plane and of the Poincaré disk.

`curved` says that the plane is the hyperbolic one, whose points are those of the disk.
"""
from __future__ import annotations

import cmath
from math import acosh, cosh, pi, sinh, sqrt, tanh
from typing import NamedTuple, Sequence


class Move(NamedTuple):
    """A move of the plane without mirrors.

    In the Poincaré disk it takes z to (a z + b) / (conj(b) z + conj(a)), with |a|^2 - |b|^2 = 1;
    in the Euclidean plane it takes z to a z + b, with |a| = 1.

    >>> half = Move.turn(pi, True)
    >>> step = Move.forward(2.0, True)
    >>> back = step.then(half).then(step).then(half)
    >>> abs(back.place(0j)) < 1e-12
    True
    """
    a: complex
    b: complex
    curved: bool

    @staticmethod
    def turn(angle: float, curved: bool) -> Move:
        """The turn about the origin, leftwards."""
        return Move(cmath.exp(0.5j * angle) if curved else cmath.exp(1j * angle), 0j, curved)

    @staticmethod
    def forward(length: float, curved: bool) -> Move:
        """The move along the real axis."""
        if curved:
            return Move(complex(cosh(length / 2)), complex(sinh(length / 2)), True)
        return Move(1 + 0j, complex(length), False)

    def then(self, other: Move) -> Move:
        """First `self`, then `other` as it is seen from there."""
        if not self.curved:
            return Move(self.a * other.a, self.a * other.b + self.b, False)
        a = self.a * other.a + self.b * other.b.conjugate()
        b = self.a * other.b + self.b * other.a.conjugate()
        size = sqrt(abs(a) ** 2 - abs(b) ** 2) if abs(a) < 1e4 else 1.0
        return Move(a / size, b / size, True)

    def back(self) -> Move:
        """The move that undoes this one."""
        if self.curved:
            return Move(self.a.conjugate(), -self.b, True)
        return Move(self.a.conjugate(), -self.b * self.a.conjugate(), False)

    def place(self, z: complex) -> complex:
        """Where the point z comes to."""
        if self.curved:
            return (self.a * z + self.b) / (self.b.conjugate() * z + self.a.conjugate())
        return self.a * z + self.b


def point(length: float, angle: float, curved: bool) -> complex:
    """The point at that distance from the origin, in that direction."""
    return cmath.rect(tanh(length / 2) if curved else length, angle)


def distance(p: complex, q: complex, curved: bool) -> float:
    """The distance of two points.

    >>> abs(distance(point(1, 0, True), point(2, pi, True), True) - 3) < 1e-12
    True
    """
    if not curved:
        return abs(p - q)
    apart = 2 * abs(p - q) ** 2 / ((1 - abs(p) ** 2) * (1 - abs(q) ** 2))
    return acosh(1 + apart)


def shift(p: complex, curved: bool) -> Move:
    """The move that takes the origin to p without a turn."""
    if not curved:
        return Move(1 + 0j, p, False)
    size = sqrt(1 - abs(p) ** 2)
    return Move(1 / size + 0j, p / size, True)


def along(p: complex, q: complex, curved: bool) -> Move:
    """The move that takes the origin to p and the real axis to the line towards q."""
    to = shift(p, curved)
    seen = to.back().place(q)
    return to.then(Move.turn(cmath.phase(seen), curved))
