"""Tessellation against the program: what is refused and how, and what walks lead to."""

import random
import tempfile
import unittest
from pathlib import Path

from common import SAMPLES, TOP, closing, random_file, sample

from wagbirelu import Side, TessError, Tessellation, call


def answer_of(text):
    """What Tessellation says of a text: the program's line, or the empty text."""
    try:
        tess = Tessellation.parse(text)
    except TessError as error:
        return error.answer
    fault = tess.fault()
    return fault.answer if fault else ""


class Reading(unittest.TestCase):
    def setUp(self):
        self.folder = tempfile.TemporaryDirectory()
        self.path = Path(self.folder.name) / "a.tess"
        self.addCleanup(self.folder.cleanup)

    def said(self, text):
        self.path.write_bytes(text.encode())
        status, line = call(["kind", self.path, "0", "-"])
        return line if status == 5 else ""

    def test_refusals_are_those_of_the_program(self):
        source = random.Random(34)
        words = set()
        for _ in range(400):
            text = random_file(source)
            said = self.said(text)
            self.assertEqual(answer_of(text), said, text)
            words.add(" ".join(said.split()[:2]))
        self.assertLessEqual({"", "tess line", "tess corner"}, words)

    def test_each_check_of_a_kind(self):
        for row, line in (
            ("kind 0 2 1", "tess sides 0 0"),
            ("kind 0 65 1", "tess sides 0 0"),
            ("kind 0 4 3", "tess repeat 0 0"),
            ("kind 0 4 0", "tess repeat 0 0"),
        ):
            repeat = int(row.split()[-1])
            text = (
                "\n".join(
                    ["tess 1", row] + [f"join 0 {s} 0 {s}\ncorner 0 {s} 4" for s in range(repeat)]
                )
                + "\n"
            )
            self.assertEqual(answer_of(text), line)
            self.assertEqual(self.said(text), line)
        text = "tess 1\nkind 0 4 1\njoin 0 0 0 0\ncorner 0 0 65\n"
        self.assertEqual(
            (answer_of(text), self.said(text)), ("tess valence 0 0", "tess valence 0 0")
        )

    def test_a_corner_that_closes_plain_and_not_mirrored(self):
        text = "tess 2\nkind 0 4 4\nmirror 0 0 0 1\nmirror 0 2 0 3\n" + "".join(
            f"corner 0 {side} {valence}\n" for side, valence in enumerate((4, 8, 8, 4))
        )
        self.assertEqual((answer_of(text), self.said(text)), ("tess corner 0 0", "tess corner 0 0"))

    def test_bytes_that_are_no_text(self):
        for text in (
            b"\xef\xbb\xbftess 1\n",
            b"",
            b"\n\n",
            b"tess 1\n",
            b"tess 1 # \xff\xfe\nkind 0 5 1\njoin 0 0 0 0\ncorner 0 0 4",
        ):
            self.path.write_bytes(text)
            status, line = call(["kind", self.path, "0", "-"])
            self.assertEqual(answer_of(text), line if status == 5 else "")

    def test_the_text_comes_back(self):
        text = b"tess 1 # \xff\xfe\nkind 0 5 1\njoin 0 0 0 0\ncorner 0 0 4"
        self.assertEqual(Tessellation.parse(text).text.encode("utf-8", "surrogateescape"), text)


class Walking(unittest.TestCase):
    def test_walks_of_samples(self):
        source = random.Random(5)
        for path in sorted(SAMPLES.glob("*.tess")):
            self.compare(Tessellation.read(path), path, source)

    def test_walks_of_random_files(self):
        source = random.Random(8)
        versions = []
        with tempfile.TemporaryDirectory() as folder:
            path = Path(folder) / "a.tess"
            for _ in range(40):
                tess = closing(source, Tessellation.parse)
                path.write_text(tess.text)
                self.compare(tess, path, source)
                versions.append(any(side.mirrored for kind in tess.kinds for side in kind.partner))
                path.write_text(tess.canonical())
                self.compare(tess.expanded, path, source)
        self.assertGreater(sum(versions), 5)

    def compare(self, tess, path, source):
        for number in range(len(tess.expanded.kinds)):
            letters = "".join(source.choice("LRX") for _ in range(source.randint(0, 60)))
            start = tess.file_side(number, 0)
            kind, residue = tess.flat(tess.walk(start, letters))
            self.assertEqual(
                call(["kind", path, str(number), letters or "-"]), (0, f"type {kind} {residue}")
            )
            self.assertEqual(
                tuple(tess.expanded.walk(Side(number, 0), letters))[:2], (kind, residue)
            )


class Corners(unittest.TestCase):
    def test_figures(self):
        for name, figures in (
            ("p54", ["5.5.5.5"]),
            ("hr", ["6.6.7"]),
            ("octagons", ["4.8.8"]),
            ("bricks", ["6.6.6"]),
            ("flags", ["4.4.4.4"]),
            ("triangle237", ["3.3.3.3", "3.3.3.3.3.3", ".".join("3" * 14)]),
        ):
            self.assertEqual(Tessellation.read(sample(f"{name}.tess")).figures(), figures)

    def test_a_mirrored_file_has_the_corners_of_its_plain_one(self):
        mirrored, plain = (
            Tessellation.read(sample(f"triangle237{end}.tess")) for end in ("", "_plain")
        )
        self.assertEqual(mirrored.figures(), plain.figures())
        self.assertEqual(len(mirrored.corners()), 3)
        self.assertEqual(len(plain.corners()), 3)

    def test_why_not(self):
        tess = Tessellation.parse(
            (TOP / "samples/octagons.tess").read_text().replace("corner 0 1 3", "corner 0 1 4")
        )
        self.assertEqual(tess.fault().answer, "tess corner 0 0")
        self.assertIn("0/0 gives 3, 0/1 gives 4, 1/0 gives 3", tess.fault().why)
        tess = Tessellation.parse(
            (TOP / "samples/triangle237.tess").read_text().replace("corner 0 1 4", "corner 0 1 5")
        )
        self.assertIn("the valence 5 is no multiple of 2", tess.fault().why)
        self.assertRaisesRegex(TessError, "tess corner 0 1: going round", tess.check)


if __name__ == "__main__":
    unittest.main()
