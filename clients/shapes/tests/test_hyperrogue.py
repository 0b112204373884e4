"""Files of HyperRogue's kind: those of tests/tes become the files beside them, and faults are named."""
import re
import sys
import unittest
from pathlib import Path

HERE = Path(__file__).resolve().parent
sys.path.insert(0, str(HERE.parent))
from files import Tessellation, shapes_of  # noqa: E402
from hyperrogue import NotRead, tess_text  # noqa: E402

SAMPLES = sorted((HERE / "tes").glob("*.tes"))
WORD = re.compile(r"\S+")


def close(one, other):
    """Whether two texts are the same, lengths and angles up to what is rounded otherwise elsewhere."""
    words = WORD.findall(one), WORD.findall(other)
    return len(words[0]) == len(words[1]) and all(
        a == b or ("." in a + b and abs(float(a) - float(b)) < 1e-9) for a, b in zip(*words))


class Samples(unittest.TestCase):
    def test_each_becomes_the_file_beside_it(self):
        self.assertGreaterEqual(len(SAMPLES), 8)
        for path in SAMPLES:
            with self.subTest(path=path.name):
                made = f"# {path.stem}, made of {path.name}\n" + tess_text(path.read_text())
                self.assertTrue(close(made, path.with_suffix(".tess").read_text()), made)

    def test_each_is_drawn_as_it_says(self):
        for path in SAMPLES:
            with self.subTest(path=path.name):
                tess = Tessellation.read(path.with_suffix(".tess"))
                self.assertIsNone(tess.fault())
                self.assertEqual(shapes_of(tess).how, "given")

    def test_both_forms_of_conway_say_the_same(self):
        square = "e2. angleunit(deg) unittile(90,90,90,90) "
        with_brackets = tess_text(square + 'conway("(0 2)[1][3]")')
        self.assertEqual(tess_text(square + "conway(\"0 1' 0 3'\")"), with_brackets)
        self.assertEqual(tess_text(square + "conway(\"(0 2)(1')(3')\")"), with_brackets)
        self.assertEqual(tess_text(square + "c(0,0,0,2) c(0,1,0,1,1) c(0,3,0,3,1)"), with_brackets)


    def test_edges_count_through_repeats(self):
        brick = "e2. angleunit(deg) tile(1,90,1,180,1,90,*2) "
        self.assertEqual(tess_text(brick + 'conway("(0 3)(1 4)(2 5)")'), tess_text(brick + 'conway("0 1 2")'))
        self.assertEqual(tess_text(brick + 'conway("(3)(1 4)(5 2)")'), tess_text(brick + 'conway("0 1 2")'))


class Faults(unittest.TestCase):
    HEAD = "e2. angleunit(deg) "

    def refused(self, text, says):
        with self.assertRaisesRegex(NotRead, says):
            tess_text(text)

    def test_what_is_not_read_is_named_with_its_line(self):
        self.refused("e2.\nslide(3)\n", r"line 2: slide\(3\) is not known")
        self.refused("e2.\n\n???", "line 3: no command")
        self.refused("e2. unittile(90", "line 1: a bracket is not closed")
        self.refused("e2. unittile(2 +)", "no number: 2 \\+")
        self.refused("e2. unittile(foo)", "no number: foo")
        self.refused('e2. unittile(open("x"))', "no number")
        self.refused("e2. unittile(1/0)", "no number")
        self.refused("repeat(3)", "before the first tile")
        self.refused("e2. tile(1, 90, 1)", "an angle behind each length")
        self.refused("e2.", "there is no tile")

    def test_joins(self):
        square = self.HEAD + "unittile(90,90,90,90) "
        self.refused(square + 'conway("(0 2)(1)")', "edge 3 of tile 0 has no join")
        self.refused(square + 'conway("(0 2)(0)(1)(3)")', "edge 0 of tile 0 has two joins")
        self.refused(square + 'conway("(0 4)(1)(2)(3)")', "no edge 4")
        self.refused(square + 'conway("(0 1@1)(1)(2)(3)")', "there is no tile 1")
        self.refused(square + 'conway("(0 1 2)(3)")', "no join")
        self.refused(square + 'conway("(0 1) 2")', "not read from '2'")
        self.refused(square + 'conway("0 1 2")', "3 words for 4 edges")
        self.refused(square + 'conway("0 0 0 1")', "3 edges have the number 0")
        self.refused(square + 'conway("0 a 0 1")', "no word for an edge: a")

    def test_lengths_and_angles(self):
        self.refused(self.HEAD + 'unittile(80) repeat(4) conway("(0)")', "sum to 80 degrees, no part")
        self.refused(self.HEAD + 'tile(1,90,2,90) repeat(2) conway("(0 1)")', "edge 0 of tile 0 is 1 long")
        halves = "tile(1,90, 1/2,180, 1/2,90) repeat(2) "
        self.refused(self.HEAD + halves + 'conway("(0)(1 2)")', "angle 1 of tile 0: 2 tiles meet there")
        self.refused(self.HEAD + 'tile(1,90,1,90,1,90,2,90) conway("(0)(1)(2)(3)")', "do not close")
        self.refused("h2. angleunit(deg) tile(1, 90) repeat(5) conway(\"(0)\")", "do not close")

    def test_planes(self):
        self.refused("s2. angleunit(deg) unittile(120,*4) conway(\"(0)\")", "sphere")
        self.refused("h2. angleunit(deg) unittile(90,*4) conway(\"(0)\")", "says hyperbolic, and its tiles are euclidean")


if __name__ == "__main__":
    unittest.main()
