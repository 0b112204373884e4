"""The lines that the program answers, and how their replies are read. A new line of the program is
one function here (and one method of Session that sends it)."""

from __future__ import annotations

from typing import Any, Callable, Generic, List, NamedTuple, Optional, TypeVar

T = TypeVar("T")

#: The lines whose reply is a word and a number, and then so many lines: the line's first word, and
#: the reply's.
COUNTED = {b"ring": b"tiles"}


class Line(Generic[T]):
    """A line, without its line feed, and what reads its reply, which is a list of lines."""

    __slots__ = ("text", "read")

    def __init__(self, text: bytes, read: Callable[[List[bytes]], T]) -> None:
        if b"\n" in text or not text or text.endswith(b"\r"):
            raise ValueError(
                f"a line has some bytes, no line feed and no carriage return at its end: {text!r}"
            )
        self.text = text
        self.read = read

    def __repr__(self) -> str:
        return f"<Line {self.text!r}>"


class Place(NamedTuple):
    """Where a walker stands: the name of its tile, the side that it faces, counted leftwards from
    the side of the parent, and the number of the tile's kind."""

    name: str
    spin: int
    kind: int


class Unreadable(Exception):
    """A reply that is not of the form of its line. Session turns it into a refusal, or into an
    end.
    """


def encoded(text: str) -> bytes:
    """The bytes of a text as the program gets them. Bytes that are no UTF-8 come and go as lone
    surrogates.
    """
    return text.encode("utf-8", "surrogateescape")


def decoded(text: bytes) -> str:
    return text.decode("utf-8", "surrogateescape")


def _ok(reply: List[bytes]) -> None:
    if reply[0] != b"ok":
        raise Unreadable


def _yes(reply: List[bytes]) -> bool:
    if reply[0] not in (b"yes", b"no"):
        raise Unreadable
    return reply[0] == b"yes"


def _place(reply: List[bytes]) -> Place:
    words = reply[0].split(b" ")
    if words[0] != b"at" or len(words) != 4:
        raise Unreadable
    return Place(words[1].decode(), int(words[2]), int(words[3]))


def _behind(word: bytes) -> Callable[[List[bytes]], bytes]:
    """Reads what stands behind a word and a space."""
    head = word + b" "

    def read(reply: List[bytes]) -> bytes:
        if not reply[0].startswith(head):
            raise Unreadable
        return reply[0][len(head) :]

    return read


def _number(word: bytes) -> Callable[[List[bytes]], int]:
    behind = _behind(word)
    return lambda reply: int(behind(reply))


def _letters(reply: List[bytes]) -> str:
    walk = _behind(b"path")(reply).decode()
    return "" if walk == "-" else walk


def _text(reply: List[bytes]) -> Optional[str]:
    return None if reply[0] == b"none" else decoded(_behind(b"text")(reply))


def _names(reply: List[bytes]) -> List[str]:
    _behind(b"tiles")(reply)
    return [name.decode() for name in reply[1:]]


def new(walker: int) -> "Line[None]":
    return Line(b"new %d" % walker, _ok)


def go(walker: int, letters: str) -> "Line[None]":
    return Line(b"go %d %s" % (walker, letters.encode() or b"-"), _ok)


def at(walker: int) -> "Line[Place]":
    return Line(b"at %d" % walker, _place)


def same(walker: int, other: int) -> "Line[bool]":
    return Line(b"same %d %d" % (walker, other), _yes)


def level(walker: int) -> "Line[int]":
    return Line(b"level %d" % walker, _number(b"level"))


def dist(walker: int, other: int) -> "Line[int]":
    return Line(b"dist %d %d" % (walker, other), _number(b"dist"))


def path(walker: int, other: int) -> "Line[str]":
    return Line(b"path %d %d" % (walker, other), _letters)


def put(walker: int, text: str) -> "Line[None]":
    return Line(b"put %d %s" % (walker, encoded(text)), _ok)


def get(walker: int) -> "Line[Optional[str]]":
    return Line(b"get %d" % walker, _text)


def ring(distance: int) -> "Line[List[str]]":
    return Line(b"ring %d" % distance, _names)


def count(distance: int) -> "Line[int]":
    return Line(b"count %d" % distance, _number(b"count"))


def plain(text: str) -> "Line[Any]":
    """Any line, whose reply is read as text: its lines, joined by line feeds."""
    return Line(encoded(text), lambda reply: decoded(b"\n".join(reply)))
