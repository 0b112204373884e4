"""A map: a session that remembers what is written, is saved with its tessellation and rules, and
comes back.
"""

from __future__ import annotations

import json
import os
from pathlib import Path
from typing import Any, Dict, Iterable, List, Optional, Sequence, Tuple

from wagbirelu.errors import WagbireluError
from wagbirelu.lines import decoded, encoded
from wagbirelu.pipe import Pipe
from wagbirelu.program import PathLike, Tess, held, learn
from wagbirelu.session import WALKERS, Session
from wagbirelu.tessellation import Tessellation
from wagbirelu.walker import Walker
from wagbirelu.walks import pieces, sides_of, way_between, way_to

#: The walker that brings texts back. `walker` makes the others.
HELPER = WALKERS - 1
#: The member of a saved map that tells that it is one, with its version.
MARK, VERSION = "wagbirelu map", 1
#: Kept free at the end of the input for the questions where the walkers are.
SPARE = 2048


class Map(Session):
    """A session whose texts and walkers can be saved. Names belong to a tessellation, its rules and
    the kind of the root, so all of these are saved too.

    >>> import os, tempfile
    >>> file = os.path.join(tempfile.mkdtemp(), "hr.map")
    >>> with Map("samples/hr.tess", rules="samples/hr.json") as map:
    ...     ann = map.walker().go("LXLLX")
    ...     ann.put("camp")
    ...     map.save(file)
    >>> with Map.load(file) as map:
    ...     print(map.texts, map.walkers[0].get())
    {'0.4': 'camp'} camp

    `texts` has what is written, by the names of tiles. A map keeps walker 63 for itself.
    Where the input comes to its limit of 268,435,456 bytes the map starts the program anew
    and brings walkers and texts to their tiles; nobody notices but by the time that it takes.
    """

    walkers_at_most = HELPER

    def __init__(
        self,
        tess: Tess,
        kind: int = 0,
        rules: Optional[PathLike] = None,
        cells: Optional[int] = None,
        program: Optional[PathLike] = None,
    ) -> None:
        self.rules = Path(rules).read_bytes() if rules is not None else learn(tess, cells, program)
        self.texts: Dict[str, str] = {}
        #: The walkers that were made, by their numbers.
        self.walkers: Dict[int, Walker] = {}
        self._renewing = False
        with held(self.rules, "rules.json") as path:
            super().__init__(tess, kind, path, None, program)
        super()._raw([b"new %d" % HELPER])

    # --- saving and loading ---

    def save(self, path: PathLike) -> None:
        """Writes the map to a file, which has the old contents or the new ones at each moment."""
        saved = {
            MARK: VERSION,
            "kind": self.kind,
            "texts": self.texts,
            "walkers": [[number, *place] for number, place in self._places()],
            "tess": self.tessellation.text,
            "rules": decoded(self.rules),
        }
        new = Path(f"{os.fspath(path)}.new")
        new.write_text(json.dumps(saved), encoding="ascii")
        os.replace(new, path)

    @classmethod
    def load(cls, path: PathLike, program: Optional[PathLike] = None) -> "Map":
        """The map that a file holds. Raises WagbireluError where it holds none, or where a name in
        it is no tile.
        """
        try:
            saved = json.loads(Path(path).read_text(encoding="ascii"))
            if saved[MARK] != VERSION:
                raise WagbireluError(f"{os.fspath(path)}: a map of version {saved[MARK]}")
            tess, rules = Tessellation.parse(saved["tess"]), encoded(saved["rules"])
            texts, walkers = dict(saved["texts"]), [
                (int(n), (str(at), int(spin))) for n, at, spin in saved["walkers"]
            ]
            kind = int(saved["kind"])
        except (ValueError, KeyError, TypeError) as error:
            raise WagbireluError(f"{os.fspath(path)}: no map: {error!r}") from None
        with held(rules, "rules.json") as file:
            found = cls(tess, kind, file, None, program)
        found.texts = texts
        try:
            found._bring_back(walkers)
        except BaseException:
            found.close()
            raise
        return found

    def _places(self) -> List[Tuple[int, Tuple[str, int]]]:
        """The walkers, and for each the name of its tile and its spin."""
        numbers = sorted(self.walkers)
        replies = super()._raw([b"at %d" % number for number in numbers])
        found = (reply[0].split(b" ") for reply in replies)
        return [
            (number, (name.decode(), int(spin)))
            for number, (_, name, spin, _) in zip(numbers, found)
        ]

    def _bring_back(self, walkers: Iterable[Tuple[int, Tuple[str, int]]]) -> None:
        """Makes walkers where they were, and writes all texts again, in a session that has only the
        helper.
        """
        asked: List[bytes] = []
        for number, (name, spin) in walkers:
            asked.append(b"new %d" % number)
            asked += _going(number, way_to(name) + "L" * spin)
            self.walkers[number] = Walker(self, number)
        here = "-"
        for name in sorted(self.texts, key=sides_of):
            asked += _going(HELPER, way_between(here, name))
            asked += [b"put %d %s" % (HELPER, encoded(self.texts[name])), b"at %d" % HELPER]
            here = name
        asked += _going(HELPER, way_between(here, "-"))
        replies = super()._raw(asked)
        names = iter(sorted(self.texts, key=sides_of))
        for line, reply in zip(asked, replies):
            if line.startswith(b"at "):
                name = next(names)
                if reply[0].split(b" ")[1] != name.encode():
                    raise WagbireluError(
                        f"the map has a text at {name!r}, and its tessellation has no such tile"
                    )
            elif reply[0] != b"ok":
                raise WagbireluError(
                    f"the map does not come back: {decoded(reply[0])!r} to {decoded(line)!r}"
                )

    # --- remembering ---

    def _raw(self, texts: Sequence[bytes]) -> List[List[bytes]]:
        """Sends lines, and behind each `put` an `at`, so that the map knows which tile got the
        text.
        """
        if not any(text.startswith((b"put ", b"new ")) for text in texts):
            return super()._raw(texts)
        asked: List[bytes] = []
        for text in texts:
            asked.append(text)
            if text.startswith(b"put "):
                asked.append(b"at " + text.split(b" ")[1])
        replies = iter(super()._raw(asked))
        answers = []
        for text in texts:
            answer = next(replies)
            answers.append(answer)
            place = next(replies) if text.startswith(b"put ") else None
            if answer[0] == b"ok" and place:
                self.texts[place[0].split(b" ")[1].decode()] = decoded(text.split(b" ", 2)[2])
            elif answer[0] == b"ok" and text.startswith(b"new "):
                number = int(text.split(b" ")[1])
                self.walkers[number] = Walker(self, number)
        return answers

    def ask_bytes(self, data: bytes, count: int) -> List[bytes]:
        if data.startswith((b"put ", b"new ")) or b"\nput " in data or b"\nnew " in data:
            return [reply[0] for reply in self._raw(data.splitlines())]
        return super().ask_bytes(data, count)

    # --- the limit of the input ---

    def _open(self, size: int) -> Pipe:
        if self._pipe and not self._renewing and size + SPARE > self._pipe.room:
            self._renew()
        return super()._open(size)

    def _renew(self) -> None:
        """Starts the program anew, with all walkers and texts where they were."""
        self._renewing = True
        try:
            places = self._places()
            self.close()
            with held(self.rules, "rules.json") as rules, held(
                encoded(self.tessellation.text), "map.tess"
            ) as tess:
                self._start(tess, rules)
            super()._raw([b"new %d" % HELPER])
            self._bring_back(places)
        finally:
            self._renewing = False


def _going(walker: int, walk: str) -> List[bytes]:
    """The lines of a walk, none where it is empty."""
    head = b"go %d " % walker
    return [head + piece.encode() for piece in pieces(walk, len(head))] if walk else []
