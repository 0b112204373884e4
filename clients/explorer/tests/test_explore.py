"""`explore`, by its own address and in headless Chromium where that is there."""

import http.client
import json
import os
import re
import signal
import socket
import subprocess
import sys
import tempfile
import time
import unittest
from pathlib import Path

HERE = Path(__file__).resolve().parent
TOP = HERE.parents[2]
sys.path[:0] = [str(HERE), str(HERE.parent), str(TOP / "clients/python")]

import browser  # noqa: E402  (it lies beside this file)
import pictures  # noqa: E402
from wagbirelu import Map, backwards  # noqa: E402

SCREENSHOT = HERE / "hundred_steps.png"
#: Pictures that differ less, by the mean colour of squares, are alike: other fonts and another
#: smoothing of edges.
ALIKE = 4.0


class Explore:
    """A running `explore`."""

    def __init__(self, *words):
        self.process = subprocess.Popen(
            [sys.executable, str(TOP / "clients/explore"), *map(str, words), "--no-browser"],
            stdout=subprocess.PIPE,
            text=True,
        )
        self.address = self.process.stdout.readline().split()[0]
        self.host, self.port, self.word = re.fullmatch(
            r"http://([\d.]+):(\d+)/([\w-]+)/", self.address
        ).groups()

    def fetch(self, method, path, body=None, host=None):
        """The status and the bytes of an answer."""
        link = http.client.HTTPConnection(self.host, int(self.port), timeout=60)
        try:
            link.request(method, path, body, {"Host": host or f"{self.host}:{self.port}"})
            reply = link.getresponse()
            return reply.status, reply.read()
        finally:
            link.close()

    def do(self, what, **more):
        status, data = self.fetch("POST", f"/{self.word}/do", json.dumps({"do": what, **more}))
        assert status == 200, (status, data)
        return json.loads(data)

    def __enter__(self):
        return self

    def __exit__(self, *_):
        self.process.send_signal(signal.SIGINT)
        self.status = self.process.wait(20)
        self.process.stdout.close()


def sample(name):
    return TOP / "samples" / name


class ByAddress(unittest.TestCase):
    def test_walking_writing_and_coming_back(self):
        with tempfile.TemporaryDirectory() as folder:
            file = Path(folder) / "a.map"
            words = (sample("hr.tess"), "--rules", sample("hr.json"), "--map", file)
            with Explore(*words) as page:
                there = page.do("go", letters="LXLLLXLLX")
                self.assertEqual(
                    (there["level"], there["distance"], there["text"], there["refused"]),
                    (3, 3, None, ""),
                )
                self.assertEqual(page.do("put", text="camp <b>é")["text"], "camp <b>é")
                page.do("mark")
                away = page.do("go", letters="LLXLLLXLLX")
                self.assertEqual(away["distance"], 3)
                self.assertEqual([page.do("back")["distance"] for _ in range(4)], [2, 1, 0, 0])
                here = page.do("look")
                self.assertEqual(
                    (here["name"], here["text"], here["start"]), (there["name"], "camp <b>é", 0)
                )
                self.assertEqual(page.do("put", text="x" * 65)["refused"], "long")
                self.assertTrue(page.do("go", letters="hop")["refused"])
                self.assertTrue(page.do("put", text="a\nput 0 b")["refused"])
                self.assertEqual(page.do("look")["text"], "camp <b>é")
                self.assertEqual(page.do("save")["refused"], "")
            self.assertEqual(page.status, 0)
            with Map.load(file) as found:
                self.assertEqual(found.texts, {there["name"]: "camp <b>é"})
            with Explore(*words) as page:
                again = page.do("look")
                self.assertEqual(
                    (again["name"], again["text"], again["distance"]),
                    (there["name"], "camp <b>é", 0),
                )

    def test_a_map_that_was_made_elsewhere(self):
        with tempfile.TemporaryDirectory() as folder:
            file = Path(folder) / "a.map"
            with Map(sample("hr.tess")) as found:
                ann, bob = found.walker().go("LXLLXL"), found.walker().go("LLLX")
                ann.put("ann was here")
                bob.put("and bob")
                found.save(file)
            with Explore(sample("hr.tess"), "--map", file) as page:
                state = page.do("look")
                self.assertEqual((state["text"], state["level"]), ("ann was here", 2))
                self.assertEqual(state["texts"]["0"], "ann was here")
                self.assertEqual(sorted(state["texts"].values()), ["and bob", "ann was here"])

    def test_texts_lie_where_they_were_written(self):
        for name in ("hr", "flags", "bricks", "triangle237"):
            with Explore(sample(f"{name}.tess")) as page:
                state = page.do("go", letters="LXLLX")
                for tile in range(0, 40, 3):
                    home = page.do("visit", tile=tile)
                    if not home["text"]:
                        page.do("put", text=f"{name} {tile}")
                    text = page.do("look")["text"]
                    page.do("mark")
                    there = page.do("look")["name"]
                    self.assertEqual(page.do("look")["texts"]["0"], text)
                    moved = page.do("go", letters="LX")
                    self.assertIsNotNone(moved["start"])
                    self.assertEqual(moved["texts"][str(moved["start"])], text)
                    self.assertEqual(page.do("visit", tile=moved["start"])["name"], there)
                self.assertGreater(state["level"], 0)

    def test_the_view_is_the_same_everywhere(self):
        with Explore(sample("hr.tess"), "--rules", sample("hr.json")) as page:
            walk = "X" + "LLLX" * 3899
            state = page.do("go", letters=walk)
            self.assertEqual((state["level"], state["distance"]), (3900, 3900))
            page.do("put", text="deep")
            start = time.perf_counter()
            state = page.do("go", letters="LLX")
            print(
                f"a step at level {state['level']}: {1000 * (time.perf_counter() - start):.0f} ms"
            )
            self.assertEqual(list(state["texts"].values()), ["deep"])
            self.assertEqual(page.do("go", letters=backwards(walk + "LLX"))["name"], "-")
            deepest = page.do("go", letters="X" + "LLLX" * 3999)
            self.assertEqual(deepest["level"], 4000)
            self.assertEqual(page.do("put", text="the end")["texts"]["0"], "the end")
            refusals = [
                page.do("go", letters=letters)["refused"] for letters in ("LLX", "LLLX", "LLLLX")
            ]
            self.assertIn("deep", refusals)

    def test_who_does_not_know_the_word_gets_nothing(self):
        with Explore(sample("p54.tess")) as page:
            self.assertEqual(page.fetch("GET", f"/{page.word}/")[0], 200)
            for path in (
                "/",
                "/page.js",
                "/wrong/",
                "/wrong/tables",
                f"/{page.word}",
                f"/{page.word}/../world.py",
                f"/{page.word}/world.py",
                f"/{page.word}/etc/passwd",
            ):
                self.assertEqual(page.fetch("GET", path)[0] == 200, path == f"/{page.word}", path)
            self.assertEqual(page.fetch("POST", "/wrong/do", '{"do": "look"}')[0], 404)
            self.assertEqual(
                page.fetch("GET", f"/{page.word}/tables", host="elsewhere.example")[0], 404
            )
            for body in (
                "",
                "[]",
                "{",
                '{"do": "hop"}',
                '{"do": "visit", "tile": 99999}',
                '{"do": "go"}',
            ):
                self.assertIn(page.fetch("POST", f"/{page.word}/do", body)[0], (200, 400), body)
            self.assertEqual(page.do("look")["level"], 0)

    def test_it_listens_on_the_loopback_alone(self):
        with Explore(sample("p54.tess")) as page:
            self.assertEqual(page.host, "127.0.0.1")
            listening = (
                [
                    line.split()[1]
                    for line in Path("/proc/net/tcp").read_text().splitlines()[1:]
                    if line.split()[3] == "0A"
                ]
                if os.path.exists("/proc/net/tcp")
                else []
            )
            mine = [where for where in listening if int(where.split(":")[1], 16) == int(page.port)]
            self.assertIn(mine, ([], ["0100007F:%04X" % int(page.port)]))
            with socket.socket() as other:
                self.assertNotEqual(other.connect_ex(("127.0.0.2", int(page.port))), 0)

    def test_what_cannot_be_shown(self):
        with tempfile.TemporaryDirectory() as folder:
            path = Path(folder) / "a.tess"
            path.write_text(
                sample("octagons.tess").read_text().replace("corner 0 1 3", "corner 0 1 4")
            )
            done = subprocess.run(
                [sys.executable, str(TOP / "clients/explore"), str(path)],
                capture_output=True,
                text=True,
            )
            self.assertEqual(done.returncode, 1)
            self.assertIn("explore: status 5: tess corner 0 0: going round by LX", done.stderr)

    def test_nothing_is_fetched_from_elsewhere(self):
        for name in ("page.html", "page.js", "plane.js", "page.css"):
            text = (HERE.parent / name).read_text()
            self.assertNotRegex(text, r"https?://|@import|//[a-z]+\.", name)


@unittest.skipUnless(browser.find_chromium(), "there is no chromium")
class InTheBrowser(unittest.TestCase):
    def test_a_hundred_steps(self):
        with Explore(
            sample("hr.tess"), "--rules", sample("hr.json")
        ) as page, browser.Browser() as window:
            self.window, self.turns = window, 0
            window.open(f"{page.address}?still")
            self.await_turn(1)
            for step in range(100):
                self.press(
                    "ArrowLeft" if step % 3 == 0 else "ArrowUp" if step % 5 else "ArrowRight"
                )
            far = self.field("name")
            self.assertGreater(int(self.field("level")), 20)
            self.assertEqual(self.field("distance"), self.field("level"))
            window.press("t")
            window.write("camp")
            self.press("Enter")
            self.press("m")
            self.assertEqual((self.field("text"), self.field("distance")), ("camp", "0"))
            # Round a corner and on: another way than the one that led here.
            for key in (
                "ArrowUp",
                "ArrowLeft",
                "ArrowUp",
                "ArrowLeft",
                "ArrowUp",
                "ArrowUp",
                "ArrowRight",
                "ArrowUp",
            ):
                self.press(key)
            away = int(self.field("distance"))
            self.assertGreater(away, 1)
            self.assertEqual(self.field("text"), "none")
            elsewhere = window.picture(0, 0, 700, 700)
            for _ in range(away):
                self.press("b")
            self.assertEqual(
                (self.field("name"), self.field("text"), self.field("distance")), (far, "camp", "0")
            )
            self.assertEqual(page.do("look")["texts"], {"0": "camp"})
            self.compare(window.picture(0, 0, 700, 700))
            self.assertGreater(
                pictures.difference(elsewhere, SCREENSHOT.read_bytes()),
                2 * ALIKE,
                "another picture is told apart",
            )
            self.clicks(window)

    def clicks(self, window):
        """A click on the tile ahead goes there, and one step back is the mark again."""
        wide, high = window.value(
            "(({clientWidth, clientHeight}) => [clientWidth, clientHeight])"
            "(document.querySelector('canvas'))"
        )
        window.click(wide / 2, high / 2 - min(wide, high) / 8)
        self.await_turn(self.turns + 1)
        self.assertEqual(self.field("distance"), "1")
        self.press("b")
        self.assertEqual((self.field("distance"), self.field("text")), ("0", "camp"))

    def compare(self, picture):
        if os.environ.get("MAKE_PICTURES"):
            SCREENSHOT.write_bytes(picture)
        apart = pictures.difference(picture, SCREENSHOT.read_bytes())
        print(f"the picture differs from {SCREENSHOT.name} by {apart:.2f} of 255")
        if apart >= ALIKE:
            Path(tempfile.gettempdir(), SCREENSHOT.name).write_bytes(picture)
        self.assertLess(
            apart, ALIKE, f"the picture is {Path(tempfile.gettempdir(), SCREENSHOT.name)}"
        )

    def test_the_moves_are_shown(self):
        with Explore(sample("octagons.tess")) as page, browser.Browser() as window:
            self.window, self.turns = window, 0
            window.open(page.address)
            self.await_turn(1)
            for key in ("ArrowUp", "ArrowUp", "ArrowLeft", "ArrowUp", "x", "ArrowDown", "ArrowUp"):
                self.press(key)
            self.assertGreater(int(self.field("level")), 0)
            moved = window.picture(0, 0, 600, 600)
            window.open(f"{page.address}?still")
            window.wait("location.search === '?still'")
            self.await_turn(1)
            self.assertLess(
                pictures.difference(moved, window.picture(0, 0, 600, 600)),
                0.5,
                "a move ends where it should",
            )

    def press(self, key):
        self.window.press(key)
        self.await_turn(self.turns + 1)

    def await_turn(self, turn):
        self.window.wait(f"Number((document.body && document.body.dataset.turn) || 0) >= {turn}")
        self.turns = turn

    def field(self, name):
        return self.window.value(f"document.getElementById({name!r}).textContent")


if __name__ == "__main__":
    unittest.main()
