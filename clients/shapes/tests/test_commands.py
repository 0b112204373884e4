"""The commands draw, recipe and from_hyperrogue, as they are called."""
import re
import subprocess
import sys
import tempfile
import unittest
import xml.etree.ElementTree as ET
from pathlib import Path

HERE = Path(__file__).resolve().parent
CLIENTS = HERE.parent.parent
TOP = CLIENTS.parent
sys.path.insert(0, str(HERE.parent))
from files import Session, Tessellation  # noqa: E402
from wagbirelu import ProgramMissing, call, find_program  # noqa: E402

try:
    PROGRAM = find_program()
except ProgramMissing:
    PROGRAM = ""


def run(name, *words):
    """What a command writes, with its status."""
    done = subprocess.run([CLIENTS / name, *map(str, words)], capture_output=True, text=True)
    return done.returncode, done.stdout, done.stderr


class Case(unittest.TestCase):
    def setUp(self):
        folder = tempfile.TemporaryDirectory()
        self.addCleanup(folder.cleanup)
        self.folder = Path(folder.name)

    def file(self, name, text):
        path = self.folder / name
        path.write_text(text)
        return path


class WithoutTheProgram(Case):
    def test_usage(self):
        for name, words in (("recipe", ()), ("recipe", ("t", "5")), ("recipe", ("t", "5", "x")), ("from_hyperrogue", ())):
            status, out, err = run(name, *words)
            self.assertEqual((status, out), (1, ""))
            self.assertIn("usage: ", err)
        status, out, err = run("draw")
        self.assertEqual((status, out), (2, ""))
        self.assertIn("usage: draw TESS", run("draw", "--help")[1])

    def test_recipe(self):
        status, out, err = run("recipe", "t", 5, 4)
        self.assertEqual((status, err), (0, ""))
        self.assertEqual(Tessellation.parse(out).figures(), ["4.10.10"])
        status, out, err = run("recipe", "t", 3, 3)
        self.assertEqual((status, out), (1, ""))
        self.assertIn("{3,3} does not fill a plane", err)

    def test_from_hyperrogue(self):
        status, out, err = run("from_hyperrogue", HERE / "tes/bricks.tes")
        self.assertEqual((status, out, err), (0, (HERE / "tes/bricks.tess").read_text(), ""))
        status, out, err = run("from_hyperrogue", self.file("x.tes", "e2. slide(1)"))
        self.assertEqual((status, out), (1, ""))
        self.assertIn("slide(1) is not known", err)
        self.assertIn("No such file", run("from_hyperrogue", self.folder / "none.tes")[2])

    def test_draw_tells_why_a_corner_does_not_close(self):
        text = (TOP / "samples/octagons.tess").read_text()
        wrong = self.file("wrong.tess", text.replace("corner 0 1 3", "corner 0 1 4"))
        status, out, err = run("draw", wrong, self.folder / "out.svg")
        self.assertEqual((status, out), (1, ""))
        self.assertIn("tess corner 0 0", err)
        self.assertIn("0/0 0/1 1/0 and is back after 3 tiles", err)
        self.assertFalse((self.folder / "out.svg").exists())

    def test_draw_says_that_tiles_close_up(self):
        ball = self.file("ball.tess", "tess 1\nkind 0 5 1\njoin 0 0 0 0\ncorner 0 0 3\n")
        status, out, err = run("draw", ball, self.folder / "out.svg")
        self.assertEqual((status, out), (1, ""))
        self.assertIn("the tiles close up", err)

    def test_draw_keeps_the_tessellation(self):
        text = (TOP / "samples/hr.tess").read_text()
        path = self.file("hr.tess", text)
        self.assertIn("written over", run("draw", path, path)[2])
        self.assertEqual(path.read_text(), text)

    def test_draw_takes_no_odd_numbers(self):
        for words in (("--depth", -1), ("--size", 3), ("--root", "x")):
            status, out, err = run("draw", TOP / "samples/hr.tess", *words, self.folder / "out.svg")
            self.assertEqual((status, out), (2, ""))
            self.assertIn("is no whole number", err)

    def test_draw_says_where_there_is_no_such_kind(self):
        status, out, err = run("draw", TOP / "samples/hr.tess", "--root", 2, self.folder / "out.svg")
        self.assertEqual((status, out), (1, ""))
        self.assertIn("there is no kind 2", err)


@unittest.skipUnless(PROGRAM, "the program is not built")
class WithTheProgram(Case):
    def drawn(self, tess, *words):
        out = self.folder / "out.svg"
        status, said, err = run("draw", tess, *words, out)
        self.assertEqual((status, err), (0, ""), err)
        root = ET.fromstring(out.read_text())
        tiles = sum(path.get("d").count("z") for path in root.iter("{http://www.w3.org/2000/svg}path"))
        self.assertEqual(int(said.split()[0]), tiles)
        return said, tiles, out.read_text()

    def test_depth_says_how_many_tiles(self):
        for name in ("hr", "octagons", "triangle237", "bricks"):
            path = TOP / f"samples/{name}.tess"
            with Session(path, program=PROGRAM) as session:
                tiles = sum(session.count(distance) for distance in range(4))
            said, drawn, _ = self.drawn(path, "--depth", 3, "--least", 0)
            self.assertEqual(drawn, tiles, said)

    def test_a_picture_may_be_empty(self):
        _, tiles, _ = self.drawn(TOP / "samples/hr.tess", "--least", 1000)
        self.assertEqual(tiles, 0)

    def test_bent_edges_are_said_to_be(self):
        path = self.file("joined.tess", "tess 1\nkind 0 3 3\nkind 1 7 1\nkind 2 3 3\njoin 0 0 2 2\njoin 0 1 0 1\n"
                         "join 0 2 2 1\njoin 1 0 2 0\ncorner 0 0 3\ncorner 0 1 3\ncorner 0 2 12\ncorner 1 0 12\n"
                         "corner 2 0 12\ncorner 2 1 3\ncorner 2 2 12\n")
        said, _, text = self.drawn(path, "--depth", 2)
        self.assertIn("not to scale", said)
        self.assertIn(">not to scale</text>", text)

    def test_names_are_those_of_the_program(self):
        path = TOP / "samples/hr.tess"
        _, _, text = self.drawn(path, "--depth", 2, "--labels", "--size", 1000, "--rules", TOP / "samples/hr.json")
        with Session(path, rules=TOP / "samples/hr.json", program=PROGRAM) as session:
            names = {name for distance in range(3) for name in session.ring(distance)}
        self.assertEqual(set(re.findall(r">([-.\d]+)</text>", text)), names)

    def test_large_polygons_end_where_rings_are_too_long(self):
        path = self.file("p.tess", "tess 1\nkind 0 64 1\njoin 0 0 0 0\ncorner 0 0 64\n")
        out = self.folder / "out.svg"
        status, said, err = run("draw", path, "--depth", 4, out)
        self.assertEqual(status, 0)
        self.assertIn("no tiles from distance", err)
        self.assertTrue(out.exists())

    def test_the_program_takes_all_that_is_made(self):
        for path in sorted((HERE / "tes").glob("*.tess")):
            self.assertEqual(call(["kind", path, "0", "-"], PROGRAM), (0, "type 0 0"), path.name)
        for name in ("regular", "t", "r", "rr", "tr", "s", "dt", "dr", "drr", "dtr", "ds"):
            made = self.file("made.tess", run("recipe", name, 5, 4)[1])
            self.assertEqual(call(["learn", made], PROGRAM)[0], 0, name)

    def test_learnt_files_have_as_many_tiles_as_they_should(self):
        for name, counts in (("squares", [4, 8, 12]), ("bricks", [6, 12, 18]), ("flags", [4, 8, 12]),
                             ("glides", [4, 8, 12]), ("cairo", [5, 11, 16]), ("rhombs", [4, 8, 14]),
                             ("pentagons", [5, 15, 40]), ("triangle237", [3, 5, 7]),
                             ("heptagons_hexagons", [7, 14])):
            with Session(HERE / f"tes/{name}.tess", program=PROGRAM) as session:
                self.assertEqual([session.count(n + 1) for n in range(len(counts))], counts, name)


if __name__ == "__main__":
    unittest.main()
