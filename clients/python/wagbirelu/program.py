"""The built program: where it lies, and its calls that answer one line."""

from __future__ import annotations

import os
import shutil
import subprocess
import tempfile
from contextlib import contextmanager
from pathlib import Path
from typing import Iterator, List, Optional, Sequence, Tuple, Union

from wagbirelu.errors import Ended, ProgramMissing, TessError
from wagbirelu.tessellation import Tessellation

PathLike = Union[str, "os.PathLike[str]"]
#: What names a tessellation: the path of a file, or a Tessellation.
Tess = Union[PathLike, Tessellation]

#: Where the build leaves the program, seen from the top of the repository.
BUILT = Path("crates/walker_cli/out/walker_cli")


def find_program(program: Optional[PathLike] = None) -> str:
    """The path of the program: the one that is named, or that of the variable WALKER_CLI, or
    `walker_cli` on the path, or the one that this checkout has built. Raises ProgramMissing where
    there is none.

    >>> find_program("/no/such/program")
    Traceback (most recent call last):
    wagbirelu.errors.ProgramMissing: there is no program /no/such/program
    """
    named = program or os.environ.get("WALKER_CLI")
    if named:
        found = shutil.which(os.fspath(named))
        if not found:
            raise ProgramMissing(f"there is no program {os.fspath(named)}")
        return found
    here = Path(__file__).resolve()
    built = [above / BUILT for above in here.parents if (above / BUILT).is_file()]
    found = shutil.which("walker_cli") or (str(built[0]) if built else None)
    if not found:
        raise ProgramMissing(
            "there is no walker_cli on the path: "
            "build it by `rt run` in crates/walker_cli, or name it in WALKER_CLI"
        )
    return found


def call(words: Sequence[PathLike], program: Optional[PathLike] = None) -> Tuple[int, str]:
    """Calls the program with words, without input, and gives its status and its line.

    >>> call(["kind", "samples/hr.tess", "0", "LX"])
    (0, 'type 1 0')
    >>> call(["hop"])
    (2, 'usage')
    """
    called = [find_program(program)] + [os.fspath(word) for word in words]
    done = subprocess.run(called, stdin=subprocess.DEVNULL, stdout=subprocess.PIPE)
    return done.returncode, done.stdout.decode("utf-8", "surrogateescape").rstrip("\n")


def learn(tess: Tess, cells: Optional[int] = None, program: Optional[PathLike] = None) -> bytes:
    """The rules that are made or learnt for a tessellation: the text of a rules file.

    Store them where a map is to come back: its names belong to these rules.

    >>> learn("samples/p54.tess") == open("samples/p54.json", "rb").read()
    True
    """
    with tempfile.TemporaryDirectory() as folder, tess_file(tess) as path:
        out = Path(folder) / "rules.json"
        words: List[PathLike] = ["learn", path, "--out", out]
        words += ["--cells", str(cells)] if cells else []
        status, answer = call(words, program)
        if status != 0:
            raise Ended(status, answer, explained(tess, answer))
        return out.read_bytes()


@contextmanager
def tess_file(tess: Tess) -> Iterator[str]:
    """The path of a file with a tessellation: its own, or one that is there as long as the block
    runs.
    """
    if not isinstance(tess, Tessellation):
        yield os.fspath(tess)
        return
    with held(tess.text.encode("utf-8", "surrogateescape"), "map.tess") as path:
        yield path


@contextmanager
def held(data: bytes, name: str) -> Iterator[str]:
    """The path of a file with these bytes, which is there as long as the block runs."""
    with tempfile.TemporaryDirectory() as folder:
        path = Path(folder) / name
        path.write_bytes(data)
        yield str(path)


def explained(tess: Tess, answer: str) -> str:
    """What this package can add to a line that refuses a tessellation, or the empty text."""
    if not answer.startswith("tess "):
        return ""
    try:
        (tess if isinstance(tess, Tessellation) else Tessellation.read(tess)).check()
    except TessError as error:
        return error.why if error.answer == answer else ""
    except OSError:
        pass
    return ""
