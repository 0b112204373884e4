"""Pictures, drawn from rings that a table answers in the program's place."""
import re
import sys
import unittest
import xml.etree.ElementTree as ET
from math import pi
from pathlib import Path

HERE = Path(__file__).resolve().parent
sys.path.insert(0, str(HERE.parent))
from geometry import Move, Shapes, distance, point, shapes  # noqa: E402
from picture import (FINE, Style, View, area, circle_through, in_view, outline, piece, placed,  # noqa: E402
                     svg)
from recipes import recipe  # noqa: E402

# The first rings of two trees: pentagons, four at each corner, and squares.
PENTAGONS = [["-"], ["0", "1", "2", "3", "4"],
             [f"{a}.{b}" for a in range(5) for b in (2, 3, 4)]]
SQUARES = [["-"], ["0", "1", "2", "3"], ["0.2", "0.3", "1.2", "1.3", "2.2", "2.3", "3.2", "3.3"]]


def ring_of(rings):
    """What answers a ring, and None behind the last one."""
    return lambda level: rings[level] if level < len(rings) else None


def tiles_of(found, rings):
    """All the tiles of these rings."""
    return [tile for tiles in placed(ring_of(rings), found, 0) for tile in tiles]


def moved(path):
    """The corners of a path, in the picture's units, and how each is reached."""
    spots, ways = [], []
    for word, text in re.findall(r"([Mla])([-\d ]+)", path):
        numbers = [int(number) for number in re.findall(r"-?\d+", text)]
        size = 7 if word == "a" else 2
        for at in range(size - 2, len(numbers), size):
            before = spots[-1] if spots else (0, 0)
            spots.append((before[0] + numbers[at], before[1] + numbers[at + 1]))
            ways.append(word)
    return spots, ways


class Places(unittest.TestCase):
    def test_names_say_where_tiles_lie(self):
        found = shapes(recipe("regular", 4, 4))
        tiles = {tile.name: tile for tile in tiles_of(found, SQUARES)}
        self.assertEqual(len(tiles), 13)
        spots = {name: tile.place.place(0j) / 2 for name, tile in tiles.items()}
        # Side 0 of the root lies ahead, and sides count leftwards.
        where = {"-": 0, "0": 1, "1": 1j, "2": -1, "3": -1j, "0.2": 2, "0.3": 1 + 1j, "1.3": -1 + 1j}
        for name, spot in where.items():
            self.assertLess(abs(spots[name] - spot), 1e-9)

    def test_children_lie_across_their_sides(self):
        found = shapes(recipe("regular", 5, 4))
        tiles = {tile.name: tile for tile in tiles_of(found, PENTAGONS)}
        self.assertEqual(len(tiles), 21)
        for name, tile in tiles.items():
            if name == "-":
                continue
            above = tiles[name.rpartition(".")[0] or "-"]
            shared = [z for z in tile.corners(found)
                      if min(abs(z - w) for w in above.corners(found)) < 1e-9]
            self.assertEqual(len(shared), 2, name)

    def test_no_two_tiles_in_one_place(self):
        found = shapes(recipe("regular", 5, 4))
        middles = [tile.place.place(0j) for tile in tiles_of(found, PENTAGONS)]
        apart = [distance(p, q, True) for i, p in enumerate(middles) for q in middles[:i]]
        self.assertGreater(min(apart), 1.0)

    def test_a_refused_ring_ends_the_picture(self):
        found = shapes(recipe("regular", 5, 4))
        view = View.of(found, 100)
        self.assertEqual(len(in_view(ring_of(PENTAGONS[:2]), found, view, 0, None, 1.0)), 6)
        self.assertEqual(len(in_view(ring_of(PENTAGONS), found, view, 0, 1, 0.0)), 6)


class Lines(unittest.TestCase):
    def test_arcs_lie_on_the_line_between_their_ends(self):
        view = View(800, 398.0, True)
        for a, b in ((0.1, 2.0), (1.0, 4.0), (5.0, 3.5)):
            p, q = point(1.5, a, True), point(2.0, b, True)
            centre, radius = circle_through(p, q)
            self.assertAlmostEqual(abs(p - centre), radius, 9)
            self.assertAlmostEqual(abs(q - centre), radius, 9)
            self.assertAlmostEqual(abs(centre) ** 2, radius ** 2 + 1, 9)
            there = Move(1 + 0j, 0j, True)
            self.assertEqual(there.place(p), p)
            word = piece(p, q, view)
            self.assertTrue(word.startswith("a"), word)
            # Sweep 1 goes with the clock on the screen, where y goes down: then the centre lies on the right.
            sweep = int(word[1:].split()[4])
            right = ((q - p).conjugate() * (centre - p)).imag < 0
            self.assertEqual(sweep, int(right))

    def test_a_line_through_the_middle_is_straight(self):
        self.assertIsNone(circle_through(-0.5 + 0j, 0.5 + 0j))
        self.assertEqual(piece(-0.5 + 0j, 0.5 + 0j, View(100, 50.0, True)), "l500 0")

    def test_outlines_close(self):
        found = shapes(recipe("t", 3, 7))
        view = View.of(found, 600)
        for kind, ends in found.corners.items():
            spots, ways = moved(outline(ends, view))
            self.assertEqual(spots[0], view.spot(ends[-1]))
            self.assertIn(view.spot(ends[0]), spots)
            self.assertEqual(len(set(spots)), len(ends))
            self.assertGreaterEqual(len(ways), len(ends))


class Pictures(unittest.TestCase):
    def test_a_picture_is_xml_with_a_path_of_each_colour(self):
        found = shapes(recipe("regular", 5, 4))
        view = View.of(found, 300)
        text = svg(tiles_of(found, PENTAGONS), found, view, Style(labels=True, title="a < b"))
        root = ET.fromstring(text)
        space = "{http://www.w3.org/2000/svg}"
        self.assertEqual(root.find(f"{space}title").text, "a < b")
        closed = sum(path.get("d").count("z") for path in root.iter(f"{space}path"))
        self.assertEqual(closed, 21)
        names = [node.text for node in root.iter(f"{space}text")]
        self.assertIn("-", names)
        self.assertIn("4", names)
        self.assertEqual(len({path.get("fill") for path in root.iter(f"{space}path")}), 2)

    def test_tiles_of_the_plane_fill_it_once(self):
        found = shapes(recipe("regular", 4, 4))
        tiles = tiles_of(found, SQUARES)
        self.assertAlmostEqual(sum(area(tile.corners(found)) for tile in tiles), 13 * 4.0, 9)
        view = View.of(found, 200, tiles)
        for tile in tiles:
            for x, y in map(view.spot, tile.corners(found)):
                self.assertTrue(0 <= x <= FINE * 200 and 0 <= y <= FINE * 200)

    def test_all_of_the_disk_lies_in_the_picture(self):
        found = Shapes([], "hyperbolic", "equal edges")
        view = View.of(found, 200)
        for k in range(8):
            x, y = view.spot(point(40.0, k * pi / 4, True))
            self.assertTrue(0 <= x <= FINE * 200 and 0 <= y <= FINE * 200)


if __name__ == "__main__":
    unittest.main()
