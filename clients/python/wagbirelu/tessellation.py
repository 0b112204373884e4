"""Tessellation files of both versions: kinds, sides, joins, corners, types, and why a corner does
not close.
"""

from __future__ import annotations

import os
from pathlib import Path
from typing import Callable, Dict, Iterator, List, NamedTuple, Optional, Sequence, Tuple, Union

from wagbirelu.errors import TessError


class Side(NamedTuple):
    """What a walker sees: the kind of its tile, the residue of the side it faces, and whether the
    tile is mirrored.

    Only files of version 2 have mirrored tiles. Left of side S lies S + 1 in a plain tile, and S -
    1 in a mirrored one.
    """

    kind: int
    side: int
    mirrored: bool = False

    def __str__(self) -> str:
        return f"{self.kind}/{self.side}" + ("m" if self.mirrored else "")


class Kind(NamedTuple):
    """A kind of tile. `partner` and `valence` have an entry for each side below the repeat.

    A partner is the side across; it is marked mirrored where the tile across is seen with the other
    hand. Valence S is the number of tiles round the corner between sides S and S + 1.
    """

    sides: int
    repeat: int
    partner: Tuple[Side, ...]
    valence: Tuple[int, ...]


class Corner(NamedTuple):
    """A corner, walked round by LX: the sides faced, once round, and for each the valence that its
    tile gives the corner.

    `sizes` are the numbers of sides of these tiles. The corner closes where all valences are one
    number, and the cycle leads back after so many tiles, or after a part of so many.
    """

    cycle: Tuple[Side, ...]
    valences: Tuple[int, ...]
    sizes: Tuple[int, ...]

    @property
    def length(self) -> int:
        return len(self.cycle)

    @property
    def valence(self) -> int:
        """The number of tiles round it, as its first tile says."""
        return self.valences[0]

    @property
    def closes(self) -> bool:
        return len(set(self.valences)) == 1 and self.valence % self.length == 0

    @property
    def around(self) -> Tuple[int, ...]:
        """The numbers of sides of all the tiles round it, where it closes."""
        return self.sizes * (self.valence // self.length)

    @property
    def figure(self) -> str:
        """Its vertex figure, from the tile from which it comes first in order, in either sense; `?`
        where it does not close.

        >>> octagons = Tessellation.read("samples/octagons.tess")
        >>> octagons.corner(0, 0).figure
        '4.8.8'
        """
        if not self.closes:
            return "?"
        ring = self.around
        turns = [seen[i:] + seen[:i] for seen in (ring, ring[::-1]) for i in range(len(ring))]
        return ".".join(map(str, min(turns)))

    @property
    def why(self) -> str:
        """What one has to know to mend it: its cycle, its length, and the valences that its tiles
        give it.
        """
        cycle = " ".join(map(str, self.cycle))
        said = f"going round by LX meets {cycle} and is back after {counted(self.length, 'tile')}"
        if len(set(self.valences)) > 1:
            given = ", ".join(
                f"{side} gives {valence}" for side, valence in zip(self.cycle, self.valences)
            )
            return f"{said}; its tiles give it different valences: {given}"
        if not self.closes:
            return f"{said}; the valence {self.valence} is no multiple of {self.length}"
        return f"{said}; {counted(self.valence, 'tile')} close round it"


class Fault(NamedTuple):
    """The first check of a file that fails: its word, and the kind and the side where it does."""

    word: str
    kind: int
    side: int
    why: str

    @property
    def answer(self) -> str:
        """The line that the program answers."""
        return f"tess {self.word} {self.kind} {self.side}"


class Tessellation:
    """What a tessellation file says.

    >>> hr = Tessellation.read("samples/hr.tess")
    >>> [(kind.sides, kind.repeat) for kind in hr.kinds]
    [(7, 1), (6, 2)]
    >>> hr.walk(Side(0, 0), "LX")
    Side(kind=1, side=0, mirrored=False)
    >>> hr.figures()
    ['6.6.7']

    A file whose lines are good but whose corners do not close can be read too, so that one can ask
    why:

    >>> wrong = Tessellation.parse("tess 1\\nkind 0 7 1\\nkind 1 6 2\\n"
    ...     "join 0 0 1 0\\njoin 1 1 1 1\\ncorner 0 0 3\\ncorner 1 0 4\\ncorner 1 1 3\\n")
    >>> wrong.fault().answer
    'tess corner 0 0'
    >>> print(wrong.corner(0, 0).why)
    going round by LX meets 0/0 1/0 1/1 and is back after 3 tiles; \
its tiles give it different valences: 0/0 gives 3, 1/0 gives 4, 1/1 gives 3
    """

    def __init__(self, version: int, kinds: Sequence[Kind], text: str = "") -> None:
        self.version = version
        self.kinds: Tuple[Kind, ...] = tuple(kinds)
        self.text = text or _print(version, self.kinds)
        self._expanded: Optional[Tessellation] = None

    # --- reading and printing ---

    @classmethod
    def read(cls, path: "Union[str, os.PathLike[str]]") -> "Tessellation":
        """The tessellation of a file. Raises TessError where a line of it is bad, and OSError where
        it cannot be read.
        """
        return cls.parse(Path(path).read_bytes())

    @classmethod
    def parse(cls, text: Union[str, bytes]) -> "Tessellation":
        """The tessellation of the text of a file. Raises TessError where a line is bad; `check`
        tries the rest.

        >>> Tessellation.parse("tess 1\\nkind 0 5 1\\njoin 0 0 0 0\\n")
        Traceback (most recent call last):
        wagbirelu.errors.TessError: tess line 4: side 0 of kind 0 has no corner
        """
        raw = text.encode("utf-8", "surrogateescape") if isinstance(text, str) else text
        reader = _Reader()
        lines = raw.split(b"\n")
        if not lines[-1]:
            lines.pop()
        for number, line in enumerate(lines, 1):
            reader.line(number, line)
        version, kinds = reader.end(len(lines) + 1)
        return cls(version, kinds, raw.decode("utf-8", "surrogateescape"))

    def canonical(self) -> str:
        """The canonical text of the tessellation, which is of version 1: of its expansion where the
        file is of version 2.

        >>> print(Tessellation.read("samples/p54.tess").canonical(), end="")
        tess 1
        kind 0 5 1
        join 0 0 0 0
        corner 0 0 4
        """
        return _print(1, self.expanded.kinds)

    # --- the checks ---

    def fault(self) -> Optional[Fault]:
        """The first check that fails, as the program finds it, or None where this is a
        tessellation.
        """
        for word, why in (("sides", _sides_fault), ("repeat", _repeat_fault)):
            for number, kind in enumerate(self.kinds):
                if why(kind):
                    return Fault(word, number, 0, why(kind))
        for number, kind in enumerate(self.kinds):
            for residue, valence in enumerate(kind.valence):
                if not 3 <= valence <= 64:
                    return Fault(
                        "valence", number, residue, f"{valence} tiles, and there have to be 3 to 64"
                    )
        for side in self._file_sides():
            back = self.cross(self.cross(side))
            if back != side:
                return Fault("involution", side.kind, side.side, f"crossing twice leads to {back}")
        for side in self._file_sides():
            for seen in (side, side._replace(mirrored=True)) if self.version == 2 else (side,):
                corner = self.corner_at(seen)
                # As the program has it: the next tile gives the same valence, and so many steps
                # lead back.
                if (
                    corner.valences[1 % corner.length] != corner.valence
                    or corner.valence % corner.length
                ):
                    return Fault("corner", side.kind, side.side, corner.why)
        return None

    def check(self) -> "Tessellation":
        """The tessellation itself; raises TessError where a check fails, and says why."""
        fault = self.fault()
        if fault:
            raise TessError(fault.answer, fault.why)
        return self

    # --- sides and walks, in the numbers of the file ---

    def left(self, side: Side, turns: int = 1) -> Side:
        """The side on the left; for a negative number, that many to the right."""
        turned = side.side - turns if side.mirrored else side.side + turns
        return side._replace(side=turned % self.kinds[side.kind].repeat)

    def cross(self, side: Side) -> Side:
        """The side across, from which one faces back."""
        across = self.kinds[side.kind].partner[side.side]
        return Side(across.kind, across.side, side.mirrored != across.mirrored)

    def valence(self, side: Side) -> int:
        """How many tiles are round the corner at the left end of a side."""
        kind = self.kinds[side.kind]
        return kind.valence[(side.side - 1) % kind.repeat if side.mirrored else side.side]

    def walk(self, start: Side, letters: str) -> Side:
        """The side that is faced after a walk: its type.

        >>> flags = Tessellation.read("samples/flags.tess")
        >>> flags.walk(Side(0, 0), "LX"), flags.flat(flags.walk(Side(0, 0), "LX"))
        (Side(kind=0, side=1, mirrored=True), (1, 3))
        """
        for letter in letters:
            if letter == "X":
                start = self.cross(start)
            elif letter in "LR":
                start = self.left(start, 1 if letter == "L" else -1)
            elif letters != "-":
                raise ValueError(f"no walk: {letters!r}")
        return start

    def sides(self) -> List[Side]:
        """All sides below their repeats, seen plain, and in version 2 mirrored ones behind them."""
        plain = list(self._file_sides())
        return (
            plain + [side._replace(mirrored=True) for side in plain] if self.version == 2 else plain
        )

    def _file_sides(self) -> Iterator[Side]:
        return (
            Side(number, side)
            for number, kind in enumerate(self.kinds)
            for side in range(kind.repeat)
        )

    # --- corners ---

    def corner(self, kind: int, side: int, mirrored: bool = False) -> Corner:
        """The corner at the left end of a side: between sides S and S + 1, seen from a plain
        tile.
        """
        return self.corner_at(Side(kind, side % self.kinds[kind].repeat, mirrored))

    def corner_at(self, start: Side) -> Corner:
        cycle = [start]
        while True:
            following = self.cross(self.left(cycle[-1]))
            if following == start:
                break
            cycle.append(following)
        valences = tuple(map(self.valence, cycle))
        return Corner(tuple(cycle), valences, tuple(self.kinds[side.kind].sides for side in cycle))

    def corners(self) -> List[Corner]:
        """Each corner once, seen plain where it can be.

        >>> for corner in Tessellation.read("samples/octagons.tess").corners():
        ...     print(corner.why)
        going round by LX meets 0/0 0/1 1/0 and is back after 3 tiles; 3 tiles close round it
        """
        seen: Dict[Side, None] = {}
        found = []
        for side in self._file_sides():
            if side not in seen:
                corner = self.corner_at(side)
                found.append(corner)
                for met in corner.cycle:
                    seen[met] = None
                    # In a mirrored tile the same corner lies at the left end of the side before it.
                    seen[self.left(met)._replace(mirrored=not met.mirrored)] = None
        return found

    def figures(self) -> List[str]:
        """The vertex figures of its corners, each once, in order of length and numbers."""
        figures = {corner.figure for corner in self.corners()}
        return sorted(figures, key=lambda figure: [int(n) for n in figure.split(".") if n != "?"])

    # --- the expansion, in whose numbers the program answers ---

    @property
    def expanded(self) -> "Tessellation":
        """The tessellation that the program speaks of: of version 1 and itself, or one with twice
        the kinds.

        Kind 2K is kind K seen plain, and kind 2K + 1 is kind K seen mirrored.

        >>> [kind.sides for kind in Tessellation.read("samples/triangle237.tess").expanded.kinds]
        [3, 3]
        """
        if self.version == 1:
            return self
        if self._expanded is None:
            kinds = []
            for number, kind in enumerate(self.kinds):
                for mirrored in (False, True):
                    seen = [
                        self._file_side(2 * number + mirrored, side) for side in range(kind.repeat)
                    ]
                    partners = tuple(Side(*self.flat(self.cross(side))) for side in seen)
                    kinds.append(
                        Kind(kind.sides, kind.repeat, partners, tuple(map(self.valence, seen)))
                    )
            self._expanded = Tessellation(1, kinds)
        return self._expanded

    def flat(self, side: Side) -> Tuple[int, int]:
        """The kind and the residue in the numbers of the program, as `kind` prints them behind
        `type`.
        """
        if self.version == 1:
            return side.kind, side.side
        residue = -side.side % self.kinds[side.kind].repeat if side.mirrored else side.side
        return 2 * side.kind + side.mirrored, residue

    def _file_side(self, kind: int, residue: int) -> Side:
        """The side of the file that a kind and a residue of the program are."""
        if self.version == 1:
            return Side(kind, residue)
        mirrored = kind % 2 == 1
        return Side(
            kind // 2, -residue % self.kinds[kind // 2].repeat if mirrored else residue, mirrored
        )

    def file_side(self, kind: int, residue: int) -> Side:
        """The side of the file that a kind and a residue of the program are: `flat` backwards.

        >>> Tessellation.read("samples/flags.tess").file_side(1, 3)
        Side(kind=0, side=1, mirrored=True)
        """
        return self._file_side(kind, residue % self.expanded.kinds[kind].repeat)

    def sides_of(self, kind: int) -> int:
        """How many sides a tile has whose kind `at` answers."""
        return self.kinds[kind // 2 if self.version == 2 else kind].sides

    def __eq__(self, other: object) -> bool:
        return isinstance(other, Tessellation) and (self.version, self.kinds) == (
            other.version,
            other.kinds,
        )

    def __hash__(self) -> int:
        return hash((self.version, self.kinds))

    def __repr__(self) -> str:
        return f"<Tessellation of {counted(len(self.kinds), 'kind')}: {', '.join(self.figures())}>"


def counted(number: int, what: str) -> str:
    """A number with its noun.

    >>> counted(1, "tile"), counted(3, "tile")
    ('1 tile', '3 tiles')
    """
    return f"{number} {what}" + ("" if number == 1 else "s")


def _sides_fault(kind: Kind) -> str:
    return "" if 3 <= kind.sides <= 64 else f"{kind.sides} sides, and there have to be 3 to 64"


def _repeat_fault(kind: Kind) -> str:
    if kind.repeat >= 1 and kind.sides % kind.repeat == 0:
        return ""
    return f"the repeat {kind.repeat} does not divide {kind.sides}, the number of sides"


def _print(version: int, kinds: Sequence[Kind]) -> str:
    lines = [f"tess {version}"]
    lines += [f"kind {number} {kind.sides} {kind.repeat}" for number, kind in enumerate(kinds)]
    for number, kind in enumerate(kinds):
        for side, across in enumerate(kind.partner):
            if (across.kind, across.side) >= (number, side):
                word = "mirror" if across.mirrored else "join"
                lines.append(f"{word} {number} {side} {across.kind} {across.side}")
    for number, kind in enumerate(kinds):
        lines += [f"corner {number} {side} {valence}" for side, valence in enumerate(kind.valence)]
    return "\n".join(lines) + "\n"


class _Reader:
    """Reads a file line by line, as the grammar says, and raises TessError with the number of the
    first bad line.
    """

    def __init__(self) -> None:
        self.version = 0
        self.kinds: List[Tuple[int, int]] = []
        self.partner: Dict[Tuple[int, int], Side] = {}
        self.valence: Dict[Tuple[int, int], int] = {}

    def line(self, number: int, raw: bytes) -> None:
        words = [
            word
            for word in raw.split(b"#")[0].replace(b"\t", b" ").replace(b"\r", b" ").split(b" ")
            if word
        ]
        if not words:
            return
        if self.version == 0:
            if words[0] != b"tess" or len(words) != 2 or words[1] not in (b"1", b"2"):
                why = (
                    " (the file begins with a byte order mark)"
                    if words[0].startswith(b"\xef\xbb\xbf")
                    else ""
                )
                self._bad(number, f"the first line with words has to be `tess 1` or `tess 2`{why}")
            self.version = int(words[1])
            return
        readers: Dict[bytes, Tuple[int, Callable[..., str]]] = {
            b"kind": (3, self._kind),
            b"join": (4, self._join),
            b"corner": (3, self._corner),
        }
        if self.version == 2:
            readers[b"mirror"] = (4, self._mirror)
        count, read = readers.get(words[0], (0, self._kind))
        shown = words[0].decode("utf-8", "replace")
        if not count:
            late = words[0] == b"mirror"
            self._bad(
                number,
                "`mirror` stands in files that begin with `tess 2` alone"
                if late
                else f"no line begins with `{shown}`",
            )
        if len(words) != count + 1:
            self._bad(number, f"`{shown}` has {count} numbers behind it, and not {len(words) - 1}")
        why = read(*(self._number(number, word) for word in words[1:]))
        if why:
            self._bad(number, why)

    def end(self, number: int) -> Tuple[int, List[Kind]]:
        if self.version == 0:
            self._bad(number, "there is no line `tess 1` or `tess 2`")
        if not self.kinds:
            self._bad(number, "there is no kind")
        kinds = []
        for kind, (sides, repeat) in enumerate(self.kinds):
            for side in range(repeat):
                for what, known in (
                    ("join", (kind, side) in self.partner),
                    ("corner", (kind, side) in self.valence),
                ):
                    if not known:
                        self._bad(number, f"side {side} of kind {kind} has no {what}")
            partner = tuple(self.partner[kind, side] for side in range(repeat))
            kinds.append(
                Kind(
                    sides,
                    repeat,
                    partner,
                    tuple(self.valence[kind, side] for side in range(repeat)),
                )
            )
        return self.version, kinds

    def _bad(self, number: int, why: str) -> None:
        raise TessError(f"tess line {number}", why)

    def _number(self, line: int, word: bytes) -> int:
        if not (word.isdigit() and len(word) <= 9 and int(word) <= 255):
            self._bad(line, f"`{word.decode('utf-8', 'replace')}` is no number from 0 to 255")
        return int(word)

    def _no_side(self, kind: int, side: int) -> str:
        if kind >= len(self.kinds):
            return f"no line before gives kind {kind}"
        if side >= self.kinds[kind][1]:
            return f"side {side} of kind {kind} is not below its repeat {self.kinds[kind][1]}"
        return ""

    def _kind(self, kind: int, sides: int, repeat: int) -> str:
        if kind != len(self.kinds):
            return f"the next kind is kind {len(self.kinds)}"
        if self.version == 2 and kind > 127:
            return "a file that begins with `tess 2` has at most 128 kinds"
        self.kinds.append((sides, repeat))
        return ""

    def _join(self, kind: int, side: int, kind2: int, side2: int, mirrored: bool = False) -> str:
        for one in ((kind, side), (kind2, side2)):
            why = self._no_side(*one)
            if why or one in self.partner:
                return why or f"side {one[1]} of kind {one[0]} has a join already"
        self.partner[kind, side] = Side(kind2, side2, mirrored)
        self.partner[kind2, side2] = Side(kind, side, mirrored)
        return ""

    def _mirror(self, kind: int, side: int, kind2: int, side2: int) -> str:
        return self._join(kind, side, kind2, side2, True)

    def _corner(self, kind: int, side: int, valence: int) -> str:
        why = self._no_side(kind, side)
        if why or (kind, side) in self.valence:
            return why or f"corner {side} of kind {kind} is given already"
        self.valence[kind, side] = valence
        return ""
