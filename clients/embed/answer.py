#!/usr/bin/env python3
"""The same in Python, by ctypes: a session is a context manager, and its answers are bytes.

usage: answer.py LIBRARY TESS KIND ROOM [RULES], as answer.c; LIBRARY is the library linked as a shared one.
"""
import ctypes
import sys
from pathlib import Path

MOST = 2 ** 64 - 64


class Refusal(Exception):
    """Why there is no session or no answer: the status and the line of the program."""

    def __init__(self, status, line=b""):
        super().__init__(f"status {status}")
        self.status, self.line = status, line


class Session:
    """A session over the bytes of files. One thread at a time uses it."""

    def __init__(self, library, tess, rules=None, kind=0, cells=50_000, room=65_536):
        self.handle = ctypes.c_void_p()
        self.library = library = ctypes.CDLL(library)
        text, size, number = ctypes.c_char_p, ctypes.c_size_t, ctypes.c_uint32
        library.wagbirelu_open.argtypes = [text, size, text, size, number, text, size, ctypes.POINTER(ctypes.c_void_p)]
        library.wagbirelu_learn.argtypes = [text, size, number, number, text, size, ctypes.POINTER(ctypes.c_void_p)]
        library.wagbirelu_answer.argtypes = [ctypes.c_void_p, text, size, text, size]
        library.wagbirelu_answer.restype = ctypes.c_uint64
        library.wagbirelu_close.argtypes = [ctypes.c_void_p]
        library.wagbirelu_close.restype = None
        self.room, self.size = ctypes.create_string_buffer(room + 1), room
        line = ctypes.create_string_buffer(64)
        if rules is None:
            status = library.wagbirelu_learn(tess, len(tess), cells, kind, line, 64, self.handle)
        else:
            status = library.wagbirelu_open(tess, len(tess), rules, len(rules), kind, line, 64, self.handle)
        if status:
            raise Refusal(status, line.value)

    def answer(self, line):
        """What a line is answered with."""
        parts = []
        while True:
            waited = self.library.wagbirelu_answer(self.handle, line, len(line), self.room, self.size)
            if waited > MOST:
                raise Refusal(2 ** 64 - waited)
            parts.append(ctypes.string_at(self.room, min(waited, self.size)))
            if waited <= self.size:
                return b"".join(parts)
            line = b""

    def close(self):
        """Frees the session. It answers nothing afterwards."""
        if self.handle:
            self.library.wagbirelu_close(self.handle)
            self.handle = ctypes.c_void_p()

    def __enter__(self):
        return self

    def __exit__(self, *_):
        self.close()


def main(words):
    if len(words) not in (5, 6):
        sys.exit(__doc__)
    rules = Path(words[5]).read_bytes() if len(words) == 6 else None
    try:
        with Session(words[1], Path(words[2]).read_bytes(), rules, int(words[3]), room=int(words[4])) as session:
            for line in sys.stdin.buffer:
                sys.stdout.buffer.write(session.answer(line))
    except Refusal as refusal:
        sys.stdout.buffer.write(refusal.line)
        sys.exit(refusal.status)


main(sys.argv)
