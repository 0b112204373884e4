"""Walks on periodic tessellations of the plane, from Python: the program behind a pipe, and its
files.

`Tessellation` reads a file and tells what it says, `Session` asks the program, `Walker` is one that
walks there, and `Map` is saved with its texts and comes back.
"""

from wagbirelu import lines
from wagbirelu.errors import (
    Bad,
    Deep,
    Ended,
    Far,
    LongText,
    NoRoom,
    NoWalker,
    ProgramMissing,
    Refusal,
    Taken,
    TessError,
    TooBig,
    TooLong,
    TooMany,
    WagbireluError,
)
from wagbirelu.lines import Line, Place
from wagbirelu.maps import Map
from wagbirelu.program import call, find_program, learn
from wagbirelu.session import Session
from wagbirelu.tessellation import Corner, Fault, Kind, Side, Tessellation
from wagbirelu.walker import Seen, Walker
from wagbirelu.walks import backwards, name_of, sides_of, way_between, way_to

__all__ = [
    "Bad",
    "Corner",
    "Deep",
    "Ended",
    "Far",
    "Fault",
    "Kind",
    "Line",
    "LongText",
    "Map",
    "NoRoom",
    "NoWalker",
    "Place",
    "ProgramMissing",
    "Refusal",
    "Seen",
    "Session",
    "Side",
    "Taken",
    "TessError",
    "Tessellation",
    "TooBig",
    "TooLong",
    "TooMany",
    "WagbireluError",
    "Walker",
    "backwards",
    "call",
    "find_program",
    "learn",
    "lines",
    "name_of",
    "sides_of",
    "way_between",
    "way_to",
]
