"""What can go wrong, each with a name: a file that is no tessellation, a line that is refused, a
program that ends.
"""

from __future__ import annotations

from typing import Dict, List, Type


class WagbireluError(Exception):
    """All errors of this package."""


class TessError(WagbireluError):
    """A tessellation file that is refused. `answer` is the program's line, as `tess line 4` or
    `tess corner 0 0`.
    """

    def __init__(self, answer: str, why: str = "") -> None:
        super().__init__(f"{answer}: {why}" if why else answer)
        self.answer = answer
        self.why = why


class ProgramMissing(WagbireluError):
    """The built program was not found."""


#: What the statuses of the program mean, in a few words.
STATUSES = {
    2: "the words are in no form, or K is no kind of the tessellation",
    3: "a file could not be read",
    4: "a file is too long",
    5: "the tessellation file is refused",
    6: "the rules file holds no rules",
    7: "the rules are not good for this tessellation",
    8: "the tiles close up to a ball, and no rules are made for it",
    9: "the tessellation has finitely many tiles, and there are no rules for it",
    10: "no rules were found among so many cells; try more",
    11: "memory ran out",
    12: "the program could not read its input",
    13: "the program could not write its output",
    14: "the rules could not be stored",
    15: "the input has over 268,435,456 bytes",
    16: "the two walks are not related",
    17: "the log is bad, or does not lead from the one walk to the other",
    18: "a walk goes too far from the first tile",
}


class Ended(WagbireluError):
    """The program has ended. `status` is its exit status, `answer` the line that it wrote last, or
    the empty text.

    `replies` are the replies to the lines of the same call which came before the end.
    """

    def __init__(
        self, status: int, answer: str = "", why: str = "", replies: "List[bytes] | None" = None
    ) -> None:
        meaning = why or STATUSES.get(status, "")
        parts = [f"status {status}", answer, meaning]
        super().__init__(": ".join(part for part in parts if part))
        self.status = status
        self.answer = answer
        self.replies = replies or []


class NoRoom(WagbireluError):
    """The lines would make the input longer than the program reads. Nothing was sent, and the
    session goes on.
    """


class Refusal(WagbireluError):
    """A line that the program refused, which changed nothing. `reply` is its answer and `line` what
    was sent.
    """

    def __init__(self, reply: str, line: str = "") -> None:
        super().__init__(f"{reply!r} to {shown(line)!r}" if line else repr(reply))
        self.reply = reply
        self.line = line


class Bad(Refusal):
    """`bad`: the line is no command."""


class TooLong(Refusal):
    """`too long`: the line has over 8,192 bytes."""


class NoWalker(Refusal):
    """`no walker`: a walker of the line was never made."""


class Taken(Refusal):
    """`taken`: a walker of this number exists."""


class Deep(Refusal):
    """`deep`: the walk would come to a tile over 4,000 crossings from the root, or the two walkers
    are too far apart.
    """


class LongText(Refusal):
    """`long`: the text has over 64 bytes."""


class Far(Refusal):
    """`far`: the ring lies over 4,000 crossings out."""


class TooBig(Refusal):
    """`too big R`: over 2^128 - 1 tiles lie at distance R, which is `number`."""

    @property
    def number(self) -> int:
        return int(self.reply.split()[-1])


class TooMany(Refusal):
    """`too many N`: the ring has N tiles, over 100,000; N is `number`."""

    @property
    def number(self) -> int:
        return int(self.reply.split()[-1])


#: The refusals by their words, without the number that may stand behind. A new refusal is a class
#: and a row here.
REFUSALS: Dict[str, Type[Refusal]] = {
    "bad": Bad,
    "too long": TooLong,
    "no walker": NoWalker,
    "taken": Taken,
    "deep": Deep,
    "long": LongText,
    "far": Far,
    "too big": TooBig,
    "too many": TooMany,
}


def refusal(reply: str, line: str = "") -> "Refusal | None":
    """The refusal that a reply is, or None where it is none.

    >>> refusal("too many 123456", "ring 30")
    TooMany("'too many 123456' to 'ring 30'")
    >>> refusal("ok") is None
    True
    """
    words = reply.rsplit(" ", 1)[0] if reply[-1:].isdigit() else reply
    kind = REFUSALS.get(words)
    return kind(reply, line) if kind else None


def shown(line: str) -> str:
    """A line as a message shows it: long ones are cut."""
    return line if len(line) <= 60 else f"{line[:57]}..."
