"""Recipes: each is a tessellation with the corners that it says."""
import re
import sys
import unittest
from pathlib import Path

HERE = Path(__file__).resolve().parent
sys.path.insert(0, str(HERE.parent))
from files import Tessellation, text_of  # noqa: E402
from recipes import description, dual, recipe  # noqa: E402

PAIRS = [(p, q) for p in range(3, 9) for q in range(3, 9) if (p - 2) * (q - 2) >= 4]
CORNERS = {
    "regular": lambda p, q: [p] * q,
    "t": lambda p, q: [q, 2 * p, 2 * p],
    "r": lambda p, q: [p, q, p, q],
    "rr": lambda p, q: [p, 4, q, 4],
    "tr": lambda p, q: [2 * p, 2 * q, 4],
    "s": lambda p, q: [p, 3, q, 3, 3],
}


def turned(ring):
    """A ring of numbers as it is read from everywhere, in both senses."""
    both = (list(ring), list(ring)[::-1])
    return sorted(seen[i:] + seen[:i] for seen in both for i in range(len(seen)))


def read(kinds):
    """The tessellation of the text of kinds, as the file's readers see it."""
    return Tessellation.parse(text_of(kinds, "a remark"))


class Recipes(unittest.TestCase):
    def test_all_corners_are_as_told(self):
        for name, corner in CORNERS.items():
            for p, q in PAIRS:
                with self.subTest(name=name, p=p, q=q):
                    tess = read(recipe(name, p, q))
                    self.assertIsNone(tess.fault())
                    for found in tess.corners():
                        self.assertEqual(turned(found.around), turned(corner(p, q)))

    def test_the_tiles_of_a_dual_are_the_corners(self):
        for name, corner in CORNERS.items():
            for p, q in PAIRS:
                with self.subTest(name=name, p=p, q=q):
                    kinds = recipe("d" + name, p, q)
                    self.assertIsNone(read(kinds).fault())
                    for kind in kinds:
                        valences = kind.valence * (kind.sides // kind.repeat)
                        self.assertEqual(turned(valences), turned(corner(p, q)))

    def test_the_dual_of_the_dual_has_the_same_corners(self):
        for name in CORNERS:
            kinds = recipe(name, 5, 4)
            again = dual(dual(kinds))
            self.assertEqual(sorted(kind.sides for kind in kinds), sorted(kind.sides for kind in again))
            self.assertEqual(read(kinds).figures(), read(again).figures())

    def test_what_is_no_recipe(self):
        for name, p, q, says in (("x", 5, 4, "no recipe"), ("dd", 5, 4, "no recipe"), ("t", 3, 3, "fill a plane"),
                                 ("t", 2, 9, "fill a plane"), ("t", 33, 3, "at most 64"), ("regular", 3, 65, "at most 64")):
            with self.assertRaisesRegex(ValueError, says):
                recipe(name, p, q)

    def test_descriptions(self):
        self.assertEqual(description("dregular", 5, 4), "{4,5}: tiles of 4 sides, 5 round each corner")
        self.assertEqual(description("ds", 4, 4), "ds{4,4}: the dual of snub {4,4}")


class Table(unittest.TestCase):
    """The tables of docs/TILINGS.md, with numbers put in for p and q."""
    PAGE = HERE.parent.parent.parent / "docs/TILINGS.md"
    P, Q = 5, 7

    def numbers(self, text):
        """A text with the numbers of its words such as p and 2q."""
        text = re.sub(r"(\d?)p\b", lambda m: str(int(m[1] or 1) * self.P), text)
        return re.sub(r"(\d?)q\b", lambda m: str(int(m[1] or 1) * self.Q), text)

    def test_the_page_tells_what_recipes_are(self):
        rows = [line.strip("| \n").split(" | ") for line in self.PAGE.read_text().splitlines()
                if re.match(r"\| `d?[a-z]+` \|", line)]
        if not rows:
            self.skipTest("docs/TILINGS.md has no table of recipes")
        self.assertEqual(len(rows), 11)
        for row in rows:
            name = row[0].strip("`")
            with self.subTest(name=name):
                lines = text_of(recipe(name, self.P, self.Q)).splitlines()[1:]
                told = re.findall(r"`(.*?)`", self.numbers(" ".join(row[-3:-1])))
                corners = [line.split()[-1] for line in lines if line.startswith("corner")]
                self.assertEqual(told, [line for line in lines if not line.startswith("corner")])
                valences = re.findall(r"\d+", self.numbers(row[-1]))
                if len(valences) == 1:      # one number for all corners
                    valences *= len(corners)
                self.assertEqual(valences, corners)


if __name__ == "__main__":
    unittest.main()
