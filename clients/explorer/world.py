"""What the page shows: a player on a map, the tiles around, and what is written on them.

The tiles around are not asked for at the player's place, where names may be thousands of sides
long. Around each tile of a kind the tessellation looks alike, so they are those round the root of
the tree of that kind, whose names are short: each is a walk from the player's tile, and says where
to draw the tile.
"""

from __future__ import annotations

import sys
from cmath import phase
from pathlib import Path
from typing import Any, Dict, Iterator, List, NamedTuple, Optional, Tuple

CLIENTS = Path(__file__).resolve().parent.parent
sys.path[:0] = [str(CLIENTS / "python"), str(CLIENTS / "shapes")]

from files import NoShape, shapes_of  # noqa: E402  (the folders stand beside this one)
from geometry import Move  # noqa: E402
from picture import View, in_view  # noqa: E402
from wagbirelu import (  # noqa: E402
    Deep,
    Map,
    Refusal,
    Session,
    WagbireluError,
    Walker,
    backwards,
    lines,
    sides_of,
    way_between,
    way_to,
)
from wagbirelu.program import held  # noqa: E402

__all__ = ["Map", "NoShape", "WagbireluError", "World"]

#: Tiles of the disk that are smaller are not drawn, in hundredths of its radius.
LEAST = 1.8
#: In the plane about so many tiles lie from one edge of the view to the other.
ACROSS = 16.0
#: Tiles that are smaller show no text.
TEXT_LEAST = 4.0
#: No tile that a walker comes to is more crossings from the root.
DEEPEST = 4000
PLAYER, EYE, START = range(3)
#: What the eye asks at each tile: its text, and whether it is the one to go back to.
ASKED = (lines.get(EYE), lines.same(EYE, START))


class Near(NamedTuple):
    """A tile around: its name in the tree of the kind, where it lies seen from the middle, and
    whether it is large enough to show a text."""

    name: str
    kind: int
    place: Move
    readable: bool


class World:
    """A map with three walkers: the player, an eye that reads the texts around, and one that stands
    where to go back to.

    >>> with Map("samples/hr.tess", rules="samples/hr.json") as map:
    ...     world = World(map)
    ...     _ = world.do({"do": "go", "letters": "LXLLX"})
    ...     state = world.do({"do": "put", "text": "camp"})
    ...     print(state["name"], state["level"], state["distance"], state["text"])
    0.4 2 2 camp
    """

    def __init__(self, found: Map, file: Optional[str] = None, title: str = "") -> None:
        self.map = found
        self.file = file
        self.title = title
        self.shapes = shapes_of(found.tessellation.check(), found.kind)
        self.kinds = found.tessellation.expanded.kinds
        while not all(number in found.walkers for number in (PLAYER, EYE, START)):
            found.walker()
        self.player, self.eye, self.start = (
            Walker(found, number) for number in (PLAYER, EYE, START)
        )
        place = self.player.place()
        self.eye.go_to(place.name).left(place.spin)
        self._near: Dict[int, List[Near]] = {}
        self._tours: Dict[int, Tuple[List[int], bytes]] = {}

    # --- what the page asks for ---

    def tables(self) -> Dict[str, Any]:
        """Kinds with what they look like, and the move across each side: all that the page needs to
        place tiles.
        """
        kinds = [self._table(number) for number in range(len(self.kinds))]
        return {
            "curved": self.shapes.curved,
            "scale": self._view().scale,
            "kinds": kinds,
            "title": self.title,
        }

    def _table(self, kind: int) -> Dict[str, Any]:
        """The outline of a kind, the direction in which each side lies, and what lies across it."""
        sides = range(self.kinds[kind].sides)
        table = {"sides": len(sides), "repeat": self.kinds[kind].repeat}
        if kind in self.shapes.corners:  # those that walks from the root meet
            ends = self.shapes.corners[kind]
            middles = (
                self.shapes.middles[kind]
                if self.shapes.middles
                else [ends[side - 1] + ends[side] for side in sides]
            )
            table["outline"] = [pair(z) for z in self.shapes.outline(kind)]
            table["ahead"] = [round(phase(z), 9) for z in middles]
            table["across"] = [move(self.shapes.across[kind][side]) for side in sides]
            table["crossed"] = [self.shapes.crossed(kind, side) for side in sides]
        return table

    def around(self, kind: int) -> List[Any]:
        """The tiles around a tile of a kind: kind and place of each."""
        return [[near.kind, move(near.place)] for near in self.near(kind)]

    def do(self, asked: Dict[str, Any]) -> Dict[str, Any]:
        """Does one thing, and tells the state. What is refused is told as `refused`, and nothing
        has changed then.
        """
        refused = ""
        try:
            {
                "look": lambda: None,
                "go": lambda: self._go(str(asked["letters"])),
                "visit": lambda: self._visit(int(asked["tile"])),
                "back": self._back,
                "put": lambda: self.player.put(str(asked["text"])),
                "mark": lambda: self.start.go_to(self.player.name),
                "save": self._save,
            }[asked["do"]]()
        except (Refusal, WagbireluError, OSError, ValueError) as error:
            refused = error.reply if isinstance(error, Refusal) else str(error)
        return {**self.state(), "refused": refused}

    def state(self) -> Dict[str, Any]:
        """Where the player is, what is written on the tiles around, and the way back."""
        place, level, text, distance, back = self.map.send(
            [
                lines.at(PLAYER),
                lines.level(PLAYER),
                lines.get(PLAYER),
                lines.dist(PLAYER, START),
                lines.path(PLAYER, START),
            ],
            keep=True,
        )
        side = self.player.side()
        kind, residue = self.map.tessellation.flat(side)
        texts, start = self._read_around(kind, residue, level)
        return {
            "name": place.name,
            "spin": place.spin,
            "kind": kind,
            "side": residue,
            "level": level,
            "text": text,
            "distance": None if isinstance(distance, Refusal) else distance,
            "back": None if isinstance(back, Refusal) else back[:200],
            "texts": texts,
            "start": start,
            "written": len(self.map.texts),
        }

    # --- what it does ---

    def _go(self, letters: str) -> None:
        self.player.go(letters)
        self.eye.go(letters)

    def _visit(self, tile: int) -> None:
        """Goes to a tile around, and faces away from where it came from."""
        kind, residue = self.map.tessellation.flat(self.player.side())
        near = self.near(kind)[tile]
        turned = "L" * (self.kinds[near.kind].sides // 2) if near.name != "-" else ""
        self._go("R" * residue + way_to(near.name) + turned)

    def _back(self) -> None:
        """One crossing of a shortest way back."""
        way = self.player.path_to(self.start)
        self._go(way[: way.index("X") + 1] if "X" in way else "")

    def _save(self) -> None:
        if not self.file:
            raise WagbireluError("start explore with --map FILE to keep the map")
        self.map.save(self.file)

    # --- the tiles around ---

    def near(self, kind: int) -> List[Near]:
        """The tiles round a tile of a kind which are large enough to be drawn, in the order of
        names.
        """
        if kind not in self._near:
            view = self._view()
            least = LEAST * view.scale / 100 if self.shapes.curved else 0.0
            with held(self.map.rules, "rules.json") as rules:
                with Session(
                    self.map.tessellation, kind, rules, program=self.map.program
                ) as session:
                    tiles = in_view(session.ring, self.shapes, view, kind, None, least)
            tiles.sort(key=lambda tile: sides_of(tile.name))
            self._near[kind] = [
                Near(
                    tile.name,
                    tile.kind,
                    tile.place,
                    view.width(tile.corners(self.shapes)) >= TEXT_LEAST * view.scale / 100
                    or not self.shapes.curved,
                )
                for tile in tiles
            ]
        return self._near[kind]

    def _view(self) -> View:
        return View.of(self.shapes, 800, across=ACROSS)

    def _read_around(
        self, kind: int, residue: int, level: int
    ) -> Tuple[Dict[int, str], Optional[int]]:
        """The texts on the tiles around, by their numbers, and the number of the tile to go back
        to, if it is there.
        """
        near = self.near(kind)
        farthest = max(len(sides_of(tile.name)) for tile in near)
        turn = "R" * residue
        self.eye.go(turn)
        if level + farthest > DEEPEST:
            found = list(self._read_with_care(near))
        else:
            read, data = self._tour(kind)
            replies = self.map.ask_bytes(data, 3 * len(read) + 1)
            found = list(zip(read, replies[1::3], replies[2::3]))
        self.eye.go(backwards(turn))
        get = lines.get(EYE).read
        texts = {number: get([text]) for number, text, _ in found if text != b"none"}
        starts = [number for number, _, same in found if same == b"yes"]
        return texts, starts[0] if starts else None

    def _tour(self, kind: int) -> Tuple[List[int], bytes]:
        """The lines with which the eye goes to all tiles around that can show a text, asks at each,
        and returns.
        """
        if kind not in self._tours:
            here, read, sent = "-", [], []
            for number, tile in enumerate(self.near(kind)):
                if tile.readable:
                    read.append(number)
                    sent += [lines.go(EYE, way_between(here, tile.name)), *ASKED]
                    here = tile.name
            sent.append(lines.go(EYE, way_between(here, "-")))
            self._tours[kind] = read, b"".join(line.text + b"\n" for line in sent)
        return self._tours[kind]

    def _read_with_care(self, near: List[Near]) -> Iterator[Tuple[int, bytes, bytes]]:
        """The same where some of the tiles may be too deep: they are left out."""
        here = "-"
        for number, tile in enumerate(near):
            if tile.readable:
                try:
                    self.eye.go(way_between(here, tile.name))
                except Deep:
                    continue
                here = tile.name
                text, same = self.map.ask_bytes(b"".join(line.text + b"\n" for line in ASKED), 2)
                yield number, text, same
        self.eye.go(way_between(here, "-"))


def pair(z: complex) -> List[float]:
    return [round(z.real, 9), round(z.imag, 9)]


def move(found: Move) -> List[float]:
    return pair(found.a) + pair(found.b)
