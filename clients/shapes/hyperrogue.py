"""Reads tessellations as HyperRogue's files describe them, and makes tessellation files of them.

What is read, in a file of lines with remarks behind `#`:

    e2.  h2.  s2.                   the plane: Euclidean, hyperbolic, or the sphere
    angleunit(X)  distunit(X)       what an angle or a length of 1 is, as in angleunit(deg)
    let(NAME = X)                   a name for a number
    tile(L, A, L, A, ..)            a tile: each edge's length, and the angle behind it
    unittile(A, A, ..)              a tile whose edges all have length 1
    repeat(N)                       the last tile's edges come N times, and are alike
    conway("..")                    which edges meet, see below
    c(T, E, T2, E2, M)              edge E of tile T meets edge E2 of tile T2; mirrored where M is 1

In a list of a tile, `*N` as its last word is `repeat(N)`. A number X is reckoned from numbers,
names, pi, deg, + - * / ^ and functions such as sin, sqrt, acosh, and edge(p, q), the length of the
edges of the regular tessellation {p,q}.

The joins of `conway` come in either of two forms.
With brackets, `(0 1)` says that edges 0 and 1 of tile 0 meet, and `(2)` that edge 2 meets edges
like itself; `[0 1]` and `[2]` say the same where the tile across is mirrored, and so does `'`
behind a number; `0@1` is edge 0 of tile 1. Edges count through all repeats of a tile, and those
that are alike need one join.
Without brackets there is a word for each edge below the repeats, tile by tile: two edges with one
number meet, an edge whose number no other has meets edges like itself, `'` behind a number says
that the tile across is mirrored, and `W*N` is the word W for N edges.

>>> print(tess_text('e2. angleunit(deg) unittile(90) repeat(4) conway("(0)")'), end="")
tess 1
kind 0 4 1
join 0 0 0 0
corner 0 0 4
# shape 0 0 1 90
"""
from __future__ import annotations

import ast
import math
import operator
import re
from dataclasses import dataclass, field
from typing import Callable, Dict, Iterator, List, NamedTuple, Tuple

from files import Tessellation, plain_kinds, shape_text, shapes_of
from geometry import NoShape, Type, plane_of
from wagbirelu import Kind, Side

EQUAL = 1e-6
PLANES = {"e2": "euclidean", "h2": "hyperbolic", "s2": "closed"}


class NotRead(Exception):
    """What the file says cannot be made a tessellation file; the text says why."""


@dataclass
class Tile:
    """A tile: lengths of its edges below the repeat, and the angles behind them in radians."""
    lengths: List[float]
    angles: List[float]
    times: int = 1


class Join(NamedTuple):
    """Two edges that meet."""
    one: Type
    other: Type
    mirrored: bool


@dataclass
class Description:
    """What a file says."""
    plane: str = ""
    angle_unit: float = 1.0
    length_unit: float = 1.0
    names: Dict[str, float] = field(default_factory=dict)
    tiles: List[Tile] = field(default_factory=list)
    joins: List[Join] = field(default_factory=list)
    conways: List[str] = field(default_factory=list)


# ---- words and numbers ---------------------------------------------------------------------------

def commands(text: str) -> Iterator[Tuple[int, str, List[str]]]:
    """The commands of a file: the line of each, its word, and what stands between its commas."""
    text = re.sub(r"#[^\n]*", "", text)
    at = 0
    while True:
        at += len(text[at:]) - len(text[at:].lstrip())
        if at == len(text):
            return
        line = text.count("\n", 0, at) + 1
        match = re.compile(r"([A-Za-z_]\w*)\s*([.(])").match(text, at)
        if not match:
            raise NotRead(f"line {line}: no command begins with {text[at:at + 20].split()[0]!r}")
        at = match.end()
        given: List[str] = []
        if match[2] == "(":
            end = closing(text, at, line)
            given, at = split(text[at:end]), end + 1
        yield line, match[1], given


def closing(text: str, at: int, line: int) -> int:
    """Where the bracket that was opened before `at` is closed."""
    depth, quoted = 1, False
    while at < len(text):
        quoted ^= text[at] == '"'
        depth += 0 if quoted else (text[at] == "(") - (text[at] == ")")
        if depth == 0:
            return at
        at += 1
    raise NotRead(f"line {line}: a bracket is not closed")


def split(text: str) -> List[str]:
    """The parts between commas outside of brackets and quotes.

    >>> split('edge(7, 3), 120, "a, b"')
    ['edge(7, 3)', '120', '"a, b"']
    """
    parts, depth, quoted, last = [], 0, False, 0
    for at, letter in enumerate(text):
        quoted ^= letter == '"'
        depth += 0 if quoted else (letter == "(") - (letter == ")")
        if letter == "," and depth == 0 and not quoted:
            parts.append(text[last:at].strip())
            last = at + 1
    return [*parts, text[last:].strip()] if text.strip() else []


def regular_edge(p: float, q: float) -> float:
    """The length of the edges of {p,q} in the hyperbolic plane."""
    return 2 * math.acosh(math.cos(math.pi / p) / math.sin(math.pi / q))


OPERATORS: Dict[type, Callable[[float, float], float]] = {
    ast.Add: operator.add, ast.Sub: operator.sub, ast.Mult: operator.mul, ast.Div: operator.truediv,
    ast.Pow: operator.pow}
FUNCTIONS: Dict[str, Callable[..., float]] = {name: getattr(math, name) for name in (
    "sin cos tan asin acos atan atan2 sinh cosh tanh asinh acosh atanh sqrt exp log").split()}
FUNCTIONS["edge"] = regular_edge
NUMBERS = {"pi": math.pi, "deg": math.pi / 180, "tau": 2 * math.pi}


def number(text: str, names: Dict[str, float]) -> float:
    """The number that an expression comes to.

    >>> number("2 * a^2 - sqrt(4)", {"a": 3.0})
    16.0
    """
    def value(node: ast.expr) -> float:
        if isinstance(node, ast.Constant) and isinstance(node.value, (int, float)):
            return float(node.value)
        if isinstance(node, ast.Name) and node.id in {**NUMBERS, **names}:
            return {**NUMBERS, **names}[node.id]
        if isinstance(node, ast.UnaryOp) and isinstance(node.op, (ast.USub, ast.UAdd)):
            return -value(node.operand) if isinstance(node.op, ast.USub) else value(node.operand)
        if isinstance(node, ast.BinOp) and type(node.op) in OPERATORS:
            return OPERATORS[type(node.op)](value(node.left), value(node.right))
        if isinstance(node, ast.Call) and isinstance(node.func, ast.Name):
            if node.func.id in FUNCTIONS:
                return FUNCTIONS[node.func.id](*map(value, node.args))
        raise NotRead(f"no number: {ast.unparse(node)}")
    try:
        return value(ast.parse(text.replace("^", "**").strip(), mode="eval").body)
    except (SyntaxError, ValueError, ArithmeticError, TypeError):
        raise NotRead(f"no number: {text}") from None


def whole(text: str, names: Dict[str, float]) -> int:
    """The same for a whole number."""
    found = number(text, names)
    if found != int(found) or found < 0:
        raise NotRead(f"no whole number: {text}")
    return int(found)


# ---- the commands --------------------------------------------------------------------------------

def described(text: str) -> Description:
    """What a file says. Raises NotRead at the first thing that is not read."""
    said = Description()
    for line, word, given in commands(text):
        try:
            obey(said, word, given)
        except NotRead as error:
            raise NotRead(f"line {line}: {error}") from None
    for conway in said.conways:
        has_brackets = re.search(r"[(\[]", conway)
        said.joins += bracketed(conway) if has_brackets else labelled(conway, said.tiles)
    return said


def obey(said: Description, word: str, given: List[str]) -> None:
    """What one command says."""
    if word in PLANES and not given:
        said.plane = PLANES[word]
    elif word in ("angleunit", "distunit", "repeat") and len(given) == 1:
        if word == "angleunit":
            said.angle_unit = number(given[0], said.names)
        elif word == "distunit":
            said.length_unit = number(given[0], said.names)
        elif not said.tiles:
            raise NotRead("repeat stands before the first tile")
        else:
            said.tiles[-1].times = whole(given[0], said.names)
    elif word == "let" and len(given) == 1 and "=" in given[0]:
        name, _, value = given[0].partition("=")
        said.names[name.strip()] = number(value, said.names)
    elif word in ("tile", "unittile"):
        said.tiles.append(tile(said, given, word == "unittile"))
    elif word == "conway" and len(given) == 1 and re.fullmatch(r'"[^"]*"', given[0]):
        said.conways.append(given[0][1:-1])
    elif word == "c" and len(given) in (4, 5):
        one, edge, other, back, *rest = (whole(part, said.names) for part in given)
        said.joins.append(Join((one, edge), (other, back), bool(rest and rest[0])))
    else:
        raise NotRead(f"{word}({', '.join(given)}) is not known here")


def tile(said: Description, given: List[str], is_unit: bool) -> Tile:
    """A tile of what stands between its commas."""
    times = 1
    if given and given[-1].startswith("*"):
        times = whole(given.pop()[1:], said.names)
    numbers = [number(part, said.names) for part in given]
    if is_unit:
        lengths, angles = [1.0] * len(numbers), numbers
    else:
        lengths, angles = numbers[0::2], numbers[1::2]
        if len(lengths) != len(angles):
            raise NotRead("a tile has an angle behind each length")
    return Tile([length * said.length_unit for length in lengths],
                [angle * said.angle_unit for angle in angles], times)


def bracketed(text: str) -> List[Join]:
    """The joins of a `conway` with brackets.

    >>> bracketed("(0 1@2)[3]")
    [Join(one=(0, 0), other=(2, 1), mirrored=False), Join(one=(0, 3), other=(0, 3), mirrored=True)]
    """
    joins = []
    rest = text
    while rest.strip():
        match = re.match(r"\s*([(\[])([^()\[\]]*)([)\]])", rest)
        if not match or match[1] + match[3] not in ("()", "[]"):
            raise NotRead(f"conway: not read from {rest.strip()[:20]!r} on")
        words = match[2].replace(",", " ").split()
        edges = [re.fullmatch(r"(\d+)(?:@(\d+))?('?)", word) for word in words]
        if not 1 <= len(edges) <= 2 or not all(edges):
            raise NotRead(f"conway: no join: {match[0].strip()}")
        found = [(int(edge[2] or 0), int(edge[1])) for edge in edges if edge]
        marks = sum(edge[3] == "'" for edge in edges if edge)
        joins.append(Join(found[0], found[-1], (match[1] == "[") != (marks == 1)))
        rest = rest[match.end():]
    return joins


def labelled(text: str, tiles: List[Tile]) -> List[Join]:
    """The joins of a `conway` without brackets.

    >>> labelled("1 2' 1", [Tile([1, 1, 1], [1, 1, 1])])
    [Join(one=(0, 0), other=(0, 2), mirrored=False), Join(one=(0, 1), other=(0, 1), mirrored=True)]
    """
    words: List[str] = []
    for word in text.replace(",", " ").split():
        name, _, times = word.partition("*")
        if not re.fullmatch(r"\d+'?", name) or (times and not times.isdecimal()):
            raise NotRead(f"conway: no word for an edge: {word}")
        words += [name] * int(times or 1)
    edges = [(at, edge) for at, tile_ in enumerate(tiles) for edge in range(len(tile_.lengths))]
    if len(words) != len(edges):
        raise NotRead(f"conway: {len(words)} words for {len(edges)} edges below the repeats")
    met: Dict[str, List[Tuple[Type, bool]]] = {}
    for word, edge in zip(words, edges):
        met.setdefault(word.rstrip("'"), []).append((edge, word.endswith("'")))
    joins = []
    for name, those in met.items():
        if len(those) > 2:
            raise NotRead(f"conway: {len(those)} edges have the number {name}")
        joins.append(Join(those[0][0], those[-1][0], any(mark for _, mark in those)))
    return joins


# ---- the tessellation ----------------------------------------------------------------------------

def tessellation(said: Description) -> Tessellation:
    """The tessellation of a description, its valences from the angles. Raises NotRead."""
    if not said.tiles:
        raise NotRead("there is no tile")
    if said.plane == "closed":
        raise NotRead("the file speaks of the sphere, where tiles close up: it has no rules")
    partner = partners(said)
    kinds = []
    for number_, tile_ in enumerate(said.tiles):
        count = len(tile_.lengths)
        missing = [edge for edge in range(count) if (number_, edge) not in partner]
        if missing:
            raise NotRead(f"edge {missing[0]} of tile {number_} has no join")
        kinds.append(Kind(count * tile_.times, count,
                          tuple(partner[number_, edge] for edge in range(count)), (3,) * count))
    version = 2 if any(side.mirrored for side in partner.values()) else 1
    return with_valences(said, Tessellation(version, kinds))


def partners(said: Description) -> Dict[Type, Side]:
    """What lies across each edge that has a join."""
    partner: Dict[Type, Side] = {}
    for join in said.joins:
        one, other, mirrored = below(said, join.one), below(said, join.other), join.mirrored
        for here, there in ((one, other), (other, one)):
            if partner.setdefault(here, Side(*there, mirrored)) != Side(*there, mirrored):
                raise NotRead(f"edge {here[1]} of tile {here[0]} has two joins")
    for (kind, edge), side in sorted(partner.items()):
        mine, theirs = said.tiles[kind].lengths[edge], said.tiles[side.kind].lengths[side.side]
        if abs(mine - theirs) > EQUAL:
            raise NotRead(f"edge {edge} of tile {kind} is {mine:g} long, and edge {side.side} of "
                          f"tile {side.kind}, which it meets, {theirs:g}")
    return partner


def below(said: Description, at: Type) -> Type:
    """An edge of a tile as the one below its repeat that it is like."""
    kind, edge = at
    if kind >= len(said.tiles):
        raise NotRead(f"there is no tile {kind}")
    count = len(said.tiles[kind].lengths)
    if edge >= count * said.tiles[kind].times:
        raise NotRead(f"tile {kind} has no edge {edge}")
    return kind, edge % count


def with_valences(said: Description, tess: Tessellation) -> Tessellation:
    """The tessellation with as many tiles round each corner as its angles fill a full turn."""
    kinds = []
    for number_, kind in enumerate(tess.kinds):
        valences = []
        for edge in range(kind.repeat):
            cycle = tess.corner(number_, edge).cycle
            total = sum(angle_at(said, side) for side in cycle)
            turns = 2 * math.pi / total if total > 0 else 0.0
            where = f"angle {edge} of tile {number_}"
            if round(turns) < 1 or abs(turns - round(turns)) > EQUAL * max(1, turns):
                raise NotRead(f"{where}: going round its corner {len(cycle)} angles sum to "
                              f"{math.degrees(total):.6g} degrees, no part of a full turn")
            valences.append(len(cycle) * round(turns))
            if valences[-1] < 3:
                raise NotRead(f"{where}: 2 tiles meet there, and a corner has at least 3; "
                              "the edges on both sides of it have to be one, a straight one")
        kinds.append(kind._replace(valence=tuple(valences)))
    found = Tessellation(tess.version, kinds)
    fault = found.fault()
    if fault:
        raise NotRead(f"{fault.answer}: {fault.why}")
    fills = plane_of(plain_kinds(found))
    if said.plane and fills != said.plane:
        raise NotRead(f"the file says {said.plane}, and its tiles are {fills}")
    return found


def angle_at(said: Description, side: Side) -> float:
    """The angle at the left end of a side; in a mirrored tile it is that behind the edge before."""
    angles = said.tiles[side.kind].angles
    return angles[(side.side - side.mirrored) % len(angles)]


def tess_text(text: str) -> str:
    """The tessellation file of a description, with its lengths and angles as shape lines.

    Raises NotRead where something is not read, or the tiles do not close.
    """
    said = described(text)
    tess = tessellation(said)
    given = {(number_, edge): (length, angle) for number_, tile_ in enumerate(said.tiles)
             for edge, (length, angle) in enumerate(zip(tile_.lengths, tile_.angles))}
    written = tess.text + shape_text(given)
    try:
        shapes_of(Tessellation.parse(written))
    except NoShape as error:
        raise NotRead(str(error)) from None
    return written
