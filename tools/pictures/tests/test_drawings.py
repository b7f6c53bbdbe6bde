"""The drawings of stored reports: the text is the one kept beside them, and the SVG is one that can be read."""

import subprocess
import tempfile
import unittest
import xml.etree.ElementTree as ElementTree
from collections import Counter
from pathlib import Path

from pictures import svg, text
from pictures.places import text_width
from pictures.report import Kind, read_names, read_report
from pictures.tests import ACTS, ALIKE, NAMED, NUMBERED, PICTURE, REPOSITORY, STORED
from pictures.widths import columns

SVG = "{http://www.w3.org/2000/svg}"
# Names that are hard to place, as many as there may be acts: long ones, wide ones, marks on characters, and short ones.
HARD = ["x" * 40, "W" * 40, "聞く" * 20, "q\u0301" * 40, "👂👂", "ｘ", "話す（ゆっくり）", "i"]


def stored(name):
    """A stored report, and the names that it is drawn with."""
    report = read_report((STORED / f"{name}.report").read_text("utf-8"))
    names = read_names(ACTS.read_text("utf-8"), report.A) if name in NAMED else [str(a) for a in range(report.A)]
    return report, names


def box(element):
    """Where a text stands: left, right, top, bottom."""
    size, x, y = (float(element.get(name)) for name in ("font-size", "x", "y"))
    width = text_width(element.text, size)
    left = x - {"start": 0, "middle": width / 2, "end": width}[element.get("text-anchor")]
    return left, left + width, y - 0.75 * size, y


def overlap(one, other):
    return one[0] < other[1] and other[0] < one[1] and one[2] < other[3] and other[2] < one[3]


class Drawings(unittest.TestCase):
    def each(self):
        for name in NAMED + NUMBERED:
            with self.subTest(name):
                yield name, *stored(name)

    def test_the_stored_ones_count_what_a_report_counts(self):
        """The rows of each tree together count the acts from D+1 on (request E3), a shared row those of both samples."""
        for _, report, _ in self.each():
            counted = sum(length - report.D for length in (report.n, report.m))
            self.assertEqual(sum(row.total for row in report.rows), counted)

    def test_text_is_the_stored_one(self):
        for name, report, names in self.each():
            self.assertEqual(text.drawing(report, names), (STORED / f"{name}.drawing").read_text("utf-8"))

    def test_text_of_hard_names_stands_as_that_of_letters(self):
        """Each line takes as many columns as where names are letters, each a column."""
        for _, report, _ in self.each():
            for names in (HARD[: report.A], HARD[-report.A :]):
                letters = [letter * columns(name) for letter, name in zip("abcdefgh", names)]
                hard, plain = (text.drawing(report, drawn).splitlines() for drawn in (names, letters))
                self.assertEqual(*([columns(line) for line in lines] for lines in (hard, plain)))

    def test_svg_is_well_formed_and_tells_every_row(self):
        for _, report, names in self.each():
            root = ElementTree.fromstring(svg.drawing(report, names))
            self.assertEqual(root.tag, f"{SVG}svg")
            self.assertEqual(root.find(f"{SVG}title").text, svg.title(report))
            told = Counter(element.text for element in root.iter(f"{SVG}text"))
            labels = Counter(row.label(names) for row in report.rows)
            self.assertEqual(labels - told, Counter())
            totals = Counter(str(row.total) for row in report.rows if row.total)
            self.assertEqual(totals - told, Counter())

    def test_kinds_have_their_colour_and_shape(self):
        shapes = {Kind.SHARED: "circle", Kind.FIRST: "rect", Kind.SECOND: "path"}
        self.assertEqual(len(set(svg.COLOURS.values())), len(shapes))
        for kind, shape in shapes.items():
            element = ElementTree.fromstring(svg.mark(kind, 0, 0))
            self.assertEqual((element.tag, element.get("fill")), (shape, svg.COLOURS[kind]))

    def test_no_text_stands_on_another_or_outside(self):
        for _, report, names in self.each():
            for drawn in (names, HARD[: report.A], HARD[-report.A :]):
                self.check_places(ElementTree.fromstring(svg.drawing(report, drawn, "drawn from a report")))

    def check_places(self, root):
        width, height = float(root.get("width")), float(root.get("height"))
        texts = list(root.iter(f"{SVG}text"))
        straight = [box(element) for element in texts if not element.get("transform")]
        for place, one in enumerate(straight):
            self.assertTrue(0 <= one[0] and one[1] <= width and 0 <= one[2] and one[3] <= height)
            self.assertFalse(any(overlap(one, other) for other in straight[place + 1 :]))
        for element in texts:
            if element.get("transform"):
                along = 0.71 * text_width(element.text, float(element.get("font-size")))
                self.assertLessEqual(float(element.get("x")) + along, width)
                self.assertGreaterEqual(float(element.get("y")) - along, max(one[3] for one in straight[:10]))

    def test_documents_quote_the_drawing(self):
        command = ["tools/picture", "samples/one_habit.sitting", "--names", "samples/acts.names"]
        drawn = subprocess.run(command, cwd=REPOSITORY, capture_output=True, text=True, check=True).stdout
        for document in ("README.md", "samples/README.md"):
            told = (REPOSITORY / document).read_text("utf-8")
            self.assertIn(f"    {' '.join(command)} --svg one_habit.svg\n", told)
            self.assertIn(f"```\n{drawn}```\n", told)

    def test_sitting_files_are_drawn_and_the_drawing_says_by_whom(self):
        with tempfile.TemporaryDirectory() as folder:
            picture = Path(folder, "picture.svg")
            words = [PICTURE, ALIKE, "--names", ACTS, "--svg", picture]
            drawn = subprocess.run(words, capture_output=True, text=True, check=True).stdout
            self.assertTrue(drawn.startswith("A 3  D 2  n 60  m 60  rows 3  score -1044904\n"))
            said = "drawn from the report of the independent second program (reference/), not of the proved program"
            self.assertTrue(drawn.endswith(f"\n\n{said}\n"))
            self.assertIn(said, picture.read_text("utf-8"))
            program = Path(folder, "program")
            program.write_text("#!/bin/sh\necho '2 1 2 2 1 -8192'; echo '0 0 0 2 0'\n")
            program.chmod(0o755)
            words = [PICTURE, ALIKE, "--program", program]
            drawn = subprocess.run(words, capture_output=True, text=True, check=True).stdout
            self.assertTrue(drawn.startswith("A 2  D 1  n 2  m 2  rows 1  score -8192\n"))
            self.assertTrue(drawn.endswith(f"\ndrawn from the report that {program} printed\n"))


if __name__ == "__main__":
    unittest.main()
