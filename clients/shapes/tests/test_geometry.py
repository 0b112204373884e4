"""The shapes of tiles, against what is known of them."""
import cmath
import sys
import unittest
from math import asin, cos, cosh, degrees, pi, sqrt
from pathlib import Path

HERE = Path(__file__).resolve().parent
TOP = HERE.parent.parent.parent
sys.path.insert(0, str(HERE.parent))
import geometry  # noqa: E402
from files import Tessellation, plain_kinds, shapes_of  # noqa: E402
from geometry import Kind, Move, NoShape, distance, shapes  # noqa: E402
from recipes import recipe  # noqa: E402

UNIFORM = [(name, p, q) for name in ("regular", "t", "r", "rr", "tr", "s")
           for p, q in ((3, 6), (6, 3), (4, 4), (3, 7), (7, 3), (4, 5), (5, 4), (3, 8), (8, 3), (12, 12), (3, 30))]


def degrees_of(found, kind=0):
    """The angles of a tile, in whole degrees."""
    return [round(degrees(found.angle(kind, side))) for side in range(found.kinds[kind].sides)]


class EqualEdges(unittest.TestCase):
    def test_one_length_and_regular_angles(self):
        for name, p, q in UNIFORM:
            with self.subTest(name=name, p=p, q=q):
                found = shapes(recipe(name, p, q))
                self.assertEqual(found.how, "equal edges")
                edge = found.edge(0, 0)
                for kind in found.corners:
                    for side in range(found.kinds[kind].sides):
                        sides = found.kinds[kind].sides
                        self.assertAlmostEqual(found.edge(kind, side), edge, 9)
                        wide = 2 * asin(cos(pi / sides) / (cosh(edge / 2) if found.curved else 1))
                        self.assertAlmostEqual(found.angle(kind, side), wide, 9)

    def test_inscribed_circles_find_the_same(self):
        for name, p, q in UNIFORM:
            with self.subTest(name=name, p=p, q=q):
                kinds = recipe(name, p, q)
                among = geometry.met_from(kinds)
                curved = geometry.plane_of(kinds) == "hyperbolic"
                one = geometry.equal_corners(kinds, among, curved)
                other = geometry.inscribed_corners(kinds, among, curved)
                for kind in among:
                    for a, b in zip(one[kind], other[kind]):
                        self.assertLess(abs(a - b), 1e-7)


class KnownShapes(unittest.TestCase):
    def test_pentagons_of_cairo(self):
        found = shapes(recipe("ds", 4, 4))
        self.assertEqual(sorted(degrees_of(found)), [90, 90, 120, 120, 120])
        edges = sorted(found.edge(0, side) for side in range(5))
        self.assertAlmostEqual(edges[0] / edges[1], sqrt(3) - 1, 9)
        self.assertAlmostEqual(edges[1], edges[4], 9)

    def test_kites_florets_and_rhombs(self):
        self.assertEqual(sorted(degrees_of(shapes(recipe("drr", 3, 6)))), [60, 90, 90, 120])
        self.assertEqual(sorted(degrees_of(shapes(recipe("ds", 3, 6)))), [60, 120, 120, 120, 120])
        self.assertEqual(sorted(degrees_of(shapes(recipe("dr", 3, 6)))), [60, 60, 120, 120])
        self.assertEqual(sorted(degrees_of(shapes(recipe("dtr", 3, 6)))), [30, 60, 90])

    def test_hyperbolic_kites_share_their_corners(self):
        found = shapes(recipe("drr", 3, 7))
        wide = sorted(found.angle(0, side) for side in range(4))
        for angle, parts in zip(wide, (7, 4, 4, 3)):
            self.assertAlmostEqual(angle, 2 * pi / parts, 9)

    def test_triangles_by_mirrors(self):
        found = shapes_of(Tessellation.read(TOP / "samples/triangle237.tess"))
        self.assertEqual([round(pi / found.angle(0, side), 6) for side in range(3)], [7, 2, 3])
        self.assertEqual([round(pi / found.angle(1, side), 6) for side in range(3)], [3, 2, 7])

    def test_plane(self):
        planes = {(3, 6): "euclidean", (3, 7): "hyperbolic", (5, 3): "closed", (4, 4): "euclidean"}
        for (p, q), plane in planes.items():
            self.assertEqual(geometry.plane_of([Kind(p, 1, ((0, 0),), (q,))]), plane)


class Closing(unittest.TestCase):
    def test_every_file_of_the_gallery_closes(self):
        for path in sorted((TOP / "gallery").glob("*.tess")):
            with self.subTest(path=path.name):
                found = shapes_of(Tessellation.read(path))
                self.assertLess(geometry.closing_error(found, list(found.corners)), 1e-9)

    def test_walks_round_corners_come_back(self):
        for name in ("hr.tess", "triangle237.tess", "flags.tess", "bricks.tess"):
            tess = Tessellation.read(TOP / "samples" / name)
            found = shapes_of(tess)
            for kind in found.corners:
                for side in range(found.kinds[kind].sides):
                    place, at = Move(1 + 0j, 0j, found.curved), (kind, side)
                    for _ in range(found.kinds[kind].valence[side % found.kinds[kind].repeat]):
                        left = (at[1] + 1) % found.kinds[at[0]].sides
                        place = place.then(found.across[at[0]][left])
                        at = found.crossed(at[0], left)
                    self.assertLess(abs(place.place(0j)), 1e-9)

    def test_tiles_on_both_sides_of_a_mirror_are_mirror_images(self):
        found = shapes_of(Tessellation.read(TOP / "samples/triangle237.tess"))
        ends = found.corners[0]
        seen = geometry.along(ends[0], ends[-1], True).back()   # the shared side on the real axis
        plain = [seen.place(z).conjugate() for z in ends]
        there = [seen.place(found.across[0][0].place(z)) for z in found.corners[1]]
        for z in plain:
            self.assertLess(min(abs(z - w) for w in there), 1e-9)


class OtherWays(unittest.TestCase):
    TWICE = [Kind(3, 3, ((1, 0), (0, 1), (1, 2)), (3, 3, 6)),
             Kind(6, 3, ((0, 0), (1, 1), (0, 2)), (6, 6, 3))]
    JOINED = [Kind(3, 3, ((2, 2), (0, 1), (2, 1)), (3, 3, 12)), Kind(7, 1, ((2, 0),), (12,)),
              Kind(3, 3, ((1, 0), (0, 2), (0, 0)), (12, 3, 12))]

    def test_tiles_that_share_two_edges_have_touching_circles(self):
        found = shapes(self.TWICE)
        self.assertEqual(found.how, "touching circles")
        self.assertLess(geometry.closing_error(found, [0, 1]), 1e-9)

    def test_corners_that_two_edges_join_have_bent_edges(self):
        found = shapes(self.JOINED)
        self.assertEqual(found.how, "bent edges, not to scale")
        self.assertLess(geometry.closing_error(found, [0, 1, 2]), 1e-9)
        for kind in range(3):
            self.assertEqual(len(found.outline(kind)), 2 * found.kinds[kind].sides)
            for side in range(found.kinds[kind].sides):     # the middles are shared too
                other, back = found.crossed(kind, side)
                there = found.across[kind][side].place(found.middles[other][back])
                self.assertLess(abs(there - found.middles[kind][side]), 1e-9)

    def test_tiles_that_close_up(self):
        with self.assertRaisesRegex(NoShape, "close up"):
            shapes([Kind(5, 1, ((0, 0),), (3,))])

    def test_shape_lines(self):
        tess = Tessellation.read(TOP / "gallery/bricks.tess")
        found = shapes_of(tess)
        self.assertEqual(found.how, "given")
        self.assertEqual(degrees_of(found), [90, 180, 90, 90, 180, 90])
        self.assertEqual(shapes(plain_kinds(tess)).how, "equal edges")

    def test_side_0_lies_ahead(self):
        for path in (HERE / "tes").glob("*.tess"):
            found = shapes_of(Tessellation.read(path))
            for kind, ends in found.corners.items():
                # Mirrored in the way ahead the line through side 0 is itself: its ends stay on it.
                line = geometry.along(ends[-1], ends[0], found.curved).back()
                for z in (ends[-1], ends[0]):
                    self.assertAlmostEqual(line.place(z.conjugate()).imag, 0, 9, f"{path.name} {kind}")

    def test_shape_lines_that_do_not_close(self):
        text = (TOP / "gallery/bricks.tess").read_text()
        for was, now, says in (("# shape 0 0 1 90", "# shape 0 0 1 80", "do not close"),
                               ("# shape 0 0 1 90\n", "", "no shape line for"),
                               ("# shape 0 0 1 90", "# shape 0 0 one 90", "no shape line: ")):
            self.assertIn(was, text)
            with self.assertRaisesRegex(NoShape, says):
                shapes_of(Tessellation.parse(text.replace(was, now)))

    def test_shape_lines_of_mirrored_files(self):
        text = ("tess 2\nkind 0 4 4\njoin 0 0 0 2\nmirror 0 1 0 1\nmirror 0 3 0 3\n"
                + "".join(f"corner 0 {side} 4\n" for side in range(4))
                + "# shape 0 0 1 60\n# shape 0 1 2 120\n# shape 0 2 1 60\n# shape 0 3 2 120\n")
        found = shapes_of(Tessellation.parse(text))
        self.assertEqual(degrees_of(found, 0), [60, 120, 60, 120])
        self.assertEqual(degrees_of(found, 1), [120, 60, 120, 60])
        self.assertAlmostEqual(found.edge(1, 3), 2)


class Moves(unittest.TestCase):
    def test_back_undoes(self):
        for curved in (True, False):
            move = Move.forward(0.7, curved).then(Move.turn(1.1, curved)).then(Move.forward(2.0, curved))
            z = cmath.rect(0.3, 2.0)
            self.assertLess(abs(move.then(move.back()).place(z) - z), 1e-12)
            self.assertLess(abs(move.back().place(move.place(z)) - z), 1e-12)

    def test_moves_keep_distances(self):
        move = Move.turn(0.4, True).then(Move.forward(1.5, True))
        p, q = 0.2 + 0.1j, -0.3 + 0.4j
        self.assertAlmostEqual(distance(move.place(p), move.place(q), True), distance(p, q, True), 12)


if __name__ == "__main__":
    unittest.main()
