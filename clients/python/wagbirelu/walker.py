"""A walker as an object: it goes, looks round, writes, and finds its way."""

from __future__ import annotations

from types import TracebackType
from typing import Dict, List, NamedTuple, Optional, Tuple, Type

from wagbirelu import lines as line_of
from wagbirelu.lines import Place
from wagbirelu.session import Session
from wagbirelu.tessellation import Side
from wagbirelu.walks import backwards, sides_of, way_between


#: No tile that a walker comes to is more crossings from the root.
DEEPEST = 4000


class Seen(NamedTuple):
    """A tile of a view. `way` leads from where the walker stands to it, and comes in through its
    side of spin `entered`.

    `across` has a place for each side of spin 0, 1, 2 ..: the tile across, and the side of it that
    faces back. It is empty for the tiles at the view's edge, which were not walked round.
    None stands for a tile over 4,000 crossings from the root.
    """

    name: str
    kind: int
    way: str
    entered: int
    across: Tuple[Optional[Place], ...]


class Walker:
    """A walker of a session, made by `Session.walker`.

    >>> with Session("samples/hr.tess") as session:
    ...     ann, bob = session.walker(), session.walker()
    ...     ann.left().cross()
    ...     ann.put("camp")
    ...     bob.go("LXLXLX").go("LX")
    ...     print(bob.get(), bob.same(ann), bob.level(), bob.place())
    <Walker 0 at Place(name='1', spin=0, kind=1)>
    <Walker 1 at Place(name='1', spin=0, kind=1)>
    camp True 1 Place(name='1', spin=0, kind=1)

    In a block `with session.walker() as walker` it is let go at the end, and its number is free
    again.
    """

    def __init__(self, session: Session, number: int) -> None:
        self.session = session
        self.number = number

    # --- moving ---

    def go(self, letters: str) -> "Walker":
        """Walks letters. Raises Deep, and has not moved then."""
        self.session.go(self.number, letters)
        return self

    def left(self, turns: int = 1) -> "Walker":
        return self.go("L" * turns if turns >= 0 else "R" * -turns)

    def right(self, turns: int = 1) -> "Walker":
        return self.left(-turns)

    def cross(self) -> "Walker":
        """Crosses the faced side, and faces back through it."""
        return self.go("X")

    def go_to(self, name: str) -> "Walker":
        """Goes along the tree to the tile of a name, and faces its side of spin 0. The name is one
        that `at` answered.
        """
        here = self.place()
        return self.go("R" * here.spin + way_between(here.name, name))

    def go_home(self) -> "Walker":
        """Goes to the root, and faces its side 0."""
        return self.go_to("-")

    def follow(self, other: "Walker") -> "Walker":
        """Goes a shortest walk to the tile of another walker. Raises Deep."""
        return self.go(self.path_to(other))

    # --- asking ---

    def place(self) -> Place:
        return self.session.at(self.number)

    @property
    def name(self) -> str:
        """The name of its tile."""
        return self.place().name

    def side(self) -> Side:
        """The side of the tessellation file that it faces, and the kind of its tile.

        >>> with Session("samples/flags.tess") as session:
        ...     walker = session.walker().go("LX")
        ...     print(walker.side(), walker.place())
        0/1m Place(name='1', spin=0, kind=1)
        """
        here = self.place()
        kinds = self.session.tessellation.expanded.kinds
        kind, residue = self.session.kind, 0
        for turns in sides_of(here.name):
            kind, residue, _ = kinds[kind].partner[(residue + turns) % kinds[kind].repeat]
        return self.session.tessellation.file_side(kind, residue + here.spin)

    def level(self) -> int:
        """The least number of crossings from the root."""
        return self.session.level(self.number)

    def same(self, other: "Walker") -> bool:
        return self.session.same(self.number, other.number)

    def distance_to(self, other: "Walker") -> int:
        """The least number of crossings to the tile of another walker. Raises Deep."""
        return self.session.dist(self.number, other.number)

    def path_to(self, other: "Walker") -> str:
        """The letters of a shortest walk to the tile of another walker. Raises Deep."""
        return self.session.path(self.number, other.number)

    # --- texts ---

    def put(self, text: str) -> None:
        """Writes a text of at most 64 bytes on its tile."""
        self.session.put(self.number, text)

    def get(self) -> Optional[str]:
        """The text on its tile; None where none was ever written."""
        return self.session.get(self.number)

    # --- looking ---

    def around(self) -> List[Optional[Place]]:
        """The places across the sides of its tile, from the faced side leftwards. It does not move.

        None stands for a tile over 4,000 crossings from the root.

        >>> with Session("samples/hr.tess") as session:
        ...     [place.name for place in session.walker().around()]
        ['0', '1', '2', '3', '4', '5', '6']
        """
        here = self.place()
        across = self.look(steps=1)[here.name].across
        return list(across[here.spin :] + across[: here.spin])

    def look(self, steps: int = 3, tiles: int = 100_000) -> Dict[str, Seen]:
        """The tiles within some steps, by their names, nearest first, with what lies round each. It
        does not move.

        With `tiles` it stops walking round more tiles once so many are seen.

        >>> with Session("samples/hr.tess", rules="samples/hr.json") as session:
        ...     view = session.walker().look(steps=2)
        ...     print(len(view), view["0.4"].way, [place.name for place in view["0"].across])
        22 XLLLLX ['-', '6', '6.4', '0.3', '0.4', '1']
        """
        here, level = self.session.send([line_of.at(self.number), line_of.level(self.number)])
        seen = {here.name: Seen(here.name, here.kind, "", here.spin, ())}
        edge = [here.name]
        for step in range(1, steps + 1):
            edge = self._look_on(seen, edge[: max(0, tiles - len(seen))], level + step > DEEPEST)
        return seen

    def _look_on(self, seen: Dict[str, Seen], edge: List[str], careful: bool) -> List[str]:
        """Walks round the tiles at the edge, all in one call, and gives the new edge."""
        new = []
        counts = [self.session.tessellation.sides_of(seen[name].kind) for name in edge]
        data = b"".join(
            self._round(seen[name].way, count, careful) for name, count in zip(edge, counts)
        )
        step = 4 if careful else 2
        replies = self.session.ask_bytes(data, sum(step * count + 2 for count in counts))
        start = 1
        for name, count in zip(edge, counts):
            tile = seen[name]
            across: List[Optional[Place]] = []
            end = start + step * count
            for side, moved, said in zip(
                range(count), replies[start:end:step], replies[start + 1 : end : step]
            ):
                if moved != b"ok":
                    across.append(None)
                    continue
                _, other, spin, kind = said.split(b" ")
                place = Place(other.decode(), int(spin), int(kind))
                across.append(place)
                if place.name not in seen:
                    seen[place.name] = Seen(
                        place.name, place.kind, f"{tile.way}{'L' * side}X", place.spin, ()
                    )
                    new.append(place.name)
            first = -tile.entered % count
            seen[name] = tile._replace(across=tuple(across[first:] + across[:first]))
            start = end + 2
        return new

    def _round(self, way: str, sides: int, careful: bool) -> bytes:
        """The lines that go a way, across each side and back, and return."""
        head = b"go %d " % self.number
        ask = b"\nat %d\n" % self.number
        there, back = (way.encode() or b"-"), (backwards(way).encode() or b"-")
        if careful:
            # A crossing may be refused; then the same crossing back is refused too, and the walker
            # has not moved.
            turns = (head + b"X" + ask + head + b"X\n" + head + b"L\n") * sides
        else:
            turns = head + b"X" + ask + (head + b"XLX" + ask) * (sides - 1)
            back = b"XL" + back.strip(b"-")
        return head + there + b"\n" + turns + head + back + b"\n"

    # --- the end ---

    def let_go(self) -> None:
        """Gives its number back to the session."""
        self.session.let_go(self.number)

    def __enter__(self) -> "Walker":
        return self

    def __exit__(
        self,
        kind: Optional[Type[BaseException]],
        error: Optional[BaseException],
        trace: Optional[TracebackType],
    ) -> None:
        self.let_go()

    def __repr__(self) -> str:
        return f"<Walker {self.number} at {self.place()}>"
