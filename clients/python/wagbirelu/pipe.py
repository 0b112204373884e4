"""The program behind a pipe: bytes out, lines back, and no deadlock however many lines are sent at
once.
"""

from __future__ import annotations

import os
import selectors
import subprocess
import threading
from typing import List, Optional, Sequence

#: So many bytes a pipe takes without being read, on every system.
SMALL = 4096
#: So many bytes the program reads of its input in all.
STREAM_LIMIT = 268_435_456


class PipeEnded(Exception):
    """The program has ended. `lines` are those that were read before, of the ones that were asked
    for.
    """

    def __init__(self, lines: List[bytes]) -> None:
        super().__init__()
        self.lines = lines


class Pipe:
    """A running program, its input and its output."""

    def __init__(self, words: Sequence[str]) -> None:
        self._process = subprocess.Popen(
            words, stdin=subprocess.PIPE, stdout=subprocess.PIPE, bufsize=0
        )
        assert self._process.stdin is not None and self._process.stdout is not None
        self._input, self._output = self._process.stdin, self._process.stdout
        self._ready: List[bytes] = []
        self._next = 0
        self._partial = b""
        self._writer: Optional[threading.Thread] = None
        self.sent = 0
        # Where a pipe can be told so, a write takes what there is room for and does not wait.
        self._never_waits = os.name == "posix"
        if self._never_waits:
            os.set_blocking(self._input.fileno(), False)

    @property
    def room(self) -> int:
        """So many bytes may still be sent."""
        return STREAM_LIMIT - self.sent

    def write(self, data: bytes) -> None:
        """Sends bytes: at once as many as the pipe takes, and the rest by a thread, so that the
        replies can be read meanwhile.

        The replies to all that was sent before have to be read, or be read before the next call.
        """
        self._join_writer()
        self.sent += len(data)
        rest = memoryview(data)
        if self._never_waits or len(data) <= SMALL:
            rest = self._write_some(rest)
        if rest:
            self._writer = threading.Thread(target=self._write_all, args=(rest,), daemon=True)
            self._writer.start()

    def _write_some(self, rest: memoryview) -> memoryview:
        """What is left of some bytes after one write."""
        try:
            return rest[os.write(self._input.fileno(), rest) :]
        except BlockingIOError:
            return rest
        except (OSError, ValueError):
            return rest[:0]  # The program has ended, and the read that follows tells how.

    def _write_all(self, rest: memoryview) -> None:
        if not self._never_waits:
            while rest:
                rest = self._write_some(rest[: 1 << 16])
            return
        with selectors.DefaultSelector() as selector:
            selector.register(self._input, selectors.EVENT_WRITE)
            while rest:
                selector.select()
                rest = self._write_some(rest)

    def _join_writer(self) -> None:
        if self._writer:
            self._writer.join()
            self._writer = None

    def lines(self, count: int) -> List[bytes]:
        """The next lines of the output. Raises PipeEnded where the program ends before."""
        while len(self._ready) - self._next < count:
            chunk = os.read(self._output.fileno(), 1 << 18)
            if not chunk:
                raise PipeEnded(self._taken(len(self._ready) - self._next))
            pieces = (self._partial + chunk).split(b"\n")
            self._partial = pieces.pop()
            self._ready += pieces
        return self._taken(count)

    def _taken(self, count: int) -> List[bytes]:
        if self._next == 0 and count == len(self._ready):
            taken, self._ready = self._ready, []
            return taken
        taken = self._ready[self._next : self._next + count]
        self._next += count
        if self._next == len(self._ready):
            self._ready, self._next = [], 0
        return taken

    def end(self) -> int:
        """Closes the input, reads what is left, and gives the exit status."""
        closing = threading.Thread(target=self._close_input, daemon=True)
        closing.start()
        if not self._output.closed:
            while os.read(self._output.fileno(), 1 << 18):
                pass
            self._output.close()
        closing.join()
        return self._process.wait()

    def _close_input(self) -> None:
        # A writer may still wait for the output to be read, which `end` does meanwhile.
        self._join_writer()
        self._input.close()
