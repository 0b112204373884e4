"""A session: the program behind a pipe, every line as a method, and many lines at once."""

from __future__ import annotations

import os
from types import TracebackType
from typing import TYPE_CHECKING, Any, Iterable, List, Optional, Sequence, Type, TypeVar

from wagbirelu import lines as line_of
from wagbirelu.errors import Ended, NoRoom, Refusal, WagbireluError, refusal
from wagbirelu.lines import COUNTED, Line, Place, Unreadable, decoded
from wagbirelu.pipe import Pipe, PipeEnded
from wagbirelu.program import PathLike, Tess, explained, find_program, tess_file
from wagbirelu.tessellation import Tessellation
from wagbirelu.walks import backwards, pieces

if TYPE_CHECKING:
    from wagbirelu.walker import Walker

S = TypeVar("S", bound="Session")
T = TypeVar("T")

#: Walkers are numbered from 0 below this.
WALKERS = 64


class Session:
    """The program, which answers lines about walkers on one tessellation. It is a context manager.

    >>> with Session("samples/hr.tess") as session:
    ...     session.new(0)
    ...     session.go(0, "LX")
    ...     print(session.at(0))
    ...     session.put(0, "camp")
    ...     print(session.get(0), session.level(0), session.count(2))
    Place(name='1', spin=0, kind=1)
    camp 1 14

    A line that is refused raises the exception of its refusal, and has changed nothing:

    >>> with Session("samples/hr.tess") as session:
    ...     session.at(5)
    Traceback (most recent call last):
    wagbirelu.errors.NoWalker: 'no walker' to 'at 5'

    A call that is refused raises Ended, with the program's status and line:

    >>> Session("no_such.tess")
    Traceback (most recent call last):
    wagbirelu.errors.Ended: status 3: file fault tess: a file could not be read

    `tess` is the path of a tessellation file or a Tessellation, `rules` the path of a rules file;
    where it is None the rules are made or learnt, from at most `cells` cells if that is named. The
    root is a tile of kind `kind`. One thread at a time may call a session.
    """

    #: So many walkers `walker` makes.
    walkers_at_most = WALKERS

    def __init__(
        self,
        tess: Tess,
        kind: int = 0,
        rules: Optional[PathLike] = None,
        cells: Optional[int] = None,
        program: Optional[PathLike] = None,
    ) -> None:
        self.kind = kind
        self.program = find_program(program)
        self._pipe: Optional[Pipe] = None
        self._status = 0
        self._spare: List[int] = []
        self._made = 0
        with tess_file(tess) as path:
            self._start(path, rules, cells)
        self.tessellation = tess if isinstance(tess, Tessellation) else Tessellation.read(tess)

    def _start(self, tess: str, rules: Optional[PathLike], cells: Optional[int] = None) -> None:
        """Starts the program, and waits until it has read its files and has its rules."""
        words = [self.program, "run", tess, str(self.kind)]
        if rules is not None:
            words += ["--rules", os.fspath(rules)]
        if cells is not None:
            words += ["--cells", str(cells)]
        self._pipe = Pipe(words)
        self._pipe.write(b"count 0\n")
        # A refusal of the words or the files comes in the place of the first answer.
        answer = decoded(self._lines(self._pipe, 1)[0])
        if answer != "count 1":
            raise Ended(self.close(), answer, explained(tess, answer))

    # --- each line as a method ---

    def new(self, walker: int) -> None:
        """Makes a walker at the root, facing side 0. Raises Taken where it exists."""
        self.send_one(line_of.new(walker))

    def go(self, walker: int, letters: str) -> None:
        """Walks letters, however many: a long walk goes in pieces. Raises Deep, and then the walker
        has not moved.
        """
        gone: List[str] = []
        for piece in pieces(letters, len(b"go %d " % walker)):
            try:
                self.send_one(line_of.go(walker, piece))
            except Refusal:
                for earlier in reversed(gone):
                    self.send_one(line_of.go(walker, backwards(earlier)))
                raise
            gone.append(piece)

    def at(self, walker: int) -> Place:
        """Where a walker stands: the name of its tile, its spin, and the kind of the tile."""
        return self.send_one(line_of.at(walker))

    def same(self, walker: int, other: int) -> bool:
        """Whether two walkers stand on one tile."""
        return self.send_one(line_of.same(walker, other))

    def level(self, walker: int) -> int:
        """The least number of crossings from the root to the tile of a walker."""
        return self.send_one(line_of.level(walker))

    def dist(self, walker: int, other: int) -> int:
        """The least number of crossings from the tile of one walker to that of another. Raises
        Deep.
        """
        return self.send_one(line_of.dist(walker, other))

    def path(self, walker: int, other: int) -> str:
        """The letters of a shortest walk from where a walker stands to the tile of another. Raises
        Deep.
        """
        return self.send_one(line_of.path(walker, other))

    def put(self, walker: int, text: str) -> None:
        """Writes a text on the tile of a walker. Raises LongText where it has over 64 bytes in
        UTF-8.
        """
        self.send_one(line_of.put(walker, text))

    def get(self, walker: int) -> Optional[str]:
        """The text that was last written on the tile of a walker, by whichever; None where none
        ever was.
        """
        return self.send_one(line_of.get(walker))

    def ring(self, distance: int) -> List[str]:
        """The names of the tiles at a distance from the root, in their order. Raises Far, TooBig or
        TooMany.
        """
        return self.send_one(line_of.ring(distance))

    def count(self, distance: int) -> int:
        """How many tiles lie at a distance from the root. Raises Far or TooBig."""
        return self.send_one(line_of.count(distance))

    # --- many lines at once ---

    def send_one(self, line: "Line[T]") -> T:
        """Sends a line and reads its reply. Raises the refusal that it may be."""
        return self._value(line, self._raw([line.text])[0])

    def send(self, lines: "Sequence[Line[Any]]", keep: bool = False) -> List[Any]:
        """Sends many lines at once, and gives what each answers, as its method would.

        Raises the first refusal, after all lines were answered; with `keep` refusals stand in the
        list in place of that.

        >>> from wagbirelu import lines
        >>> with Session("samples/hr.tess") as session:
        ...     session.send([lines.new(0), lines.go(0, "LX"), lines.at(0), lines.at(1)], keep=True)
        [None, None, Place(name='1', spin=0, kind=1), NoWalker("'no walker' to 'at 1'")]
        """
        replies = self._raw([line.text for line in lines])
        values: List[Any] = []
        first: Optional[Refusal] = None
        for line, reply in zip(lines, replies):
            try:
                values.append(self._value(line, reply))
            except Refusal as refused:
                values.append(refused)
                first = first or refused
        if first and not keep:
            raise first
        return values

    def ask(self, line: str) -> str:
        """Sends a line as it stands and gives its reply as it stands, also where that is a refusal.

        >>> with Session("samples/hr.tess") as session:
        ...     session.ask("new 0"), session.ask("hop"), session.ask("ring 1")
        ('ok', 'bad', 'tiles 7\\n0\\n1\\n2\\n3\\n4\\n5\\n6')
        """
        return self.ask_many([line])[0]

    def ask_many(self, lines: Iterable[str]) -> List[str]:
        """Sends many lines at once, and gives a reply for each."""
        asked = [line_of.plain(line) for line in lines]
        return [
            line.read(reply) for line, reply in zip(asked, self._raw([line.text for line in asked]))
        ]

    def ask_bytes(self, data: bytes, count: int) -> List[bytes]:
        """Sends whole lines as bytes, `count` of them, each with a reply of one line, and gives the
        replies.

        This is the fastest way: nothing is looked at. No line may be empty, and none may be `ring`.
        """
        pipe = self._open(len(data))
        pipe.write(data)
        return self._lines(pipe, count)

    # --- walkers ---

    def walker(self) -> "Walker":
        """A new walker at the root, with a number of its own: one that was let go, or the next that
        is free.
        """
        from wagbirelu.walker import Walker

        if self._spare:
            walker = Walker(self, self._spare.pop())
            walker.go_home()
            return walker
        while self._made < self.walkers_at_most:
            self._made += 1
            reply = self._raw([b"new %d" % (self._made - 1)])[0][0]
            if reply == b"ok":
                return Walker(self, self._made - 1)
        raise WagbireluError(f"there are {self.walkers_at_most} walkers; let one go")

    def let_go(self, walker: int) -> None:
        """Gives the number of a walker back; the next `walker` may take it."""
        if walker not in self._spare:
            self._spare.append(walker)

    # --- the pipe ---

    @property
    def room(self) -> int:
        """How many bytes the session still reads; it answers no line that goes past them."""
        return self._pipe.room if self._pipe else 0

    def _open(self, size: int) -> Pipe:
        if self._pipe is None:
            raise WagbireluError("the session is closed")
        if size > self._pipe.room:
            raise NoRoom(
                f"{size} bytes more are past the limit of the input; "
                f"there is room for {self._pipe.room}"
            )
        return self._pipe

    def _raw(self, texts: Sequence[bytes]) -> List[List[bytes]]:
        """Sends lines and reads the reply to each: a list of lines, of one but where the program
        says how many follow.
        """
        data = b"\n".join(texts) + b"\n" if texts else b""
        pipe = self._open(len(data))
        pipe.write(data)
        if not any(text.startswith(tuple(COUNTED)) for text in texts):
            return [[reply] for reply in self._lines(pipe, len(texts))]
        replies = []
        for text in texts:
            reply = self._lines(pipe, 1)
            said = reply[0].split(b" ")
            if said[0] == COUNTED.get(text.split(b" ")[0]):
                reply = reply + self._lines(pipe, int(said[1]))
            replies.append(reply)
        return replies

    def _lines(self, pipe: Pipe, count: int) -> List[bytes]:
        try:
            return pipe.lines(count)
        except PipeEnded as ended:
            last = decoded(ended.lines[-1]) if ended.lines else ""
            raise Ended(self.close(), last, replies=ended.lines) from None

    @staticmethod
    def _value(line: "Line[T]", reply: List[bytes]) -> T:
        try:
            return line.read(reply)
        except Unreadable:
            said = decoded(reply[0])
            raise refusal(said, decoded(line.text)) or WagbireluError(
                f"{line.text!r} was answered {said!r}"
            ) from None

    # --- the end ---

    def close(self) -> int:
        """Ends the program, and gives its status: 0 where all is answered. It may be called
        again.
        """
        if self._pipe is not None:
            self._status, self._pipe = self._pipe.end(), None
        return self._status

    def __enter__(self: "S") -> "S":
        return self

    def __exit__(
        self,
        kind: Optional[Type[BaseException]],
        error: Optional[BaseException],
        trace: Optional[TracebackType],
    ) -> None:
        self.close()
