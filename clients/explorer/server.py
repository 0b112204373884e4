"""The page's server: on the loopback address alone, and for nobody but who knows the address that
it prints.
"""

from __future__ import annotations

import json
import secrets
import threading
from http.server import BaseHTTPRequestHandler, ThreadingHTTPServer
from pathlib import Path
from typing import Any, Dict, Tuple
from urllib.parse import parse_qs, urlsplit

from world import WagbireluError, World

HERE = Path(__file__).resolve().parent
LOOPBACK = "127.0.0.1"
#: The files of the page, and what they are.
FILES = {
    "": ("page.html", "text/html; charset=utf-8"),
    "page.js": ("page.js", "text/javascript; charset=utf-8"),
    "plane.js": ("plane.js", "text/javascript; charset=utf-8"),
    "page.css": ("page.css", "text/css; charset=utf-8"),
}
#: No request of the page is longer.
LONGEST = 65_536


class Server(ThreadingHTTPServer):
    """Serves a world. Its paths begin with a word that other pages of the browser cannot know."""

    daemon_threads = True

    def __init__(self, world: World, port: int) -> None:
        super().__init__((LOOPBACK, port), Handler)
        self.world = world
        self.turn = threading.Lock()
        self.word = secrets.token_urlsafe(12)

    @property
    def address(self) -> str:
        return f"http://{LOOPBACK}:{self.server_port}/{self.word}/"


class Handler(BaseHTTPRequestHandler):
    """Answers one request. `server` is the Server."""

    server: Server

    def do_GET(self) -> None:
        known, path, words = self._asked()
        if known and path in FILES:
            name, kind = FILES[path]
            self._answer(200, (HERE / name).read_bytes(), kind)
        elif known and path == "tables":
            self._tell(lambda: self.server.world.tables())
        elif known and path == "around":
            self._tell(lambda: self.server.world.around(int(words["kind"][0])))
        else:
            self._answer(404, b"nothing is here\n", "text/plain")

    def do_POST(self) -> None:
        known, path, _ = self._asked()
        size = int(self.headers.get("Content-Length") or 0)
        if not known or path != "do" or size > LONGEST:
            self._answer(404, b"nothing is here\n", "text/plain")
            return
        asked = self.rfile.read(size)
        self._tell(lambda: self.server.world.do(json.loads(asked)))

    def _asked(self) -> Tuple[bool, str, Dict[str, Any]]:
        """Whether the request knows the word and comes to this host, the path behind the word, and
        what it asks with.
        """
        url = urlsplit(self.path)
        _, _, rest = url.path.partition("/")
        word, _, path = rest.partition("/")
        known = secrets.compare_digest(word.encode(), self.server.word.encode())
        host = self.headers.get("Host") == f"{LOOPBACK}:{self.server.server_port}"
        return known and host, path, parse_qs(url.query)

    def _tell(self, what: Any) -> None:
        """Answers with a value, which one thread at a time finds."""
        try:
            with self.server.turn:
                value = what()
        except (KeyError, IndexError, TypeError, ValueError) as error:
            self._answer(400, f"{error!r}\n".encode(), "text/plain")
            return
        except WagbireluError as error:
            self._answer(500, f"{error}\n".encode(), "text/plain; charset=utf-8")
            return
        self._answer(200, json.dumps(value).encode(), "application/json")

    def _answer(self, status: int, data: bytes, kind: str) -> None:
        self.send_response(status)
        self.send_header("Content-Type", kind)
        self.send_header("Content-Length", str(len(data)))
        self.send_header("Cache-Control", "no-store")
        self.send_header("Content-Security-Policy", "default-src 'self'; img-src data:")
        self.send_header("Referrer-Policy", "no-referrer")
        self.end_headers()
        self.wfile.write(data)

    def log_message(self, *_: Any) -> None:
        """Nothing is logged."""


def serve(world: World, port: int = 0) -> Server:
    """A server on the loopback address, which is closed at the end of a `with` block."""
    return Server(world, port)
