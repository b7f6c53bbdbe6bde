"""The kept cases are what their text makes them, with every refusal that the program can print among them."""

import re
import unittest

from reference.cases import CRATE, HERE, cases, file_of, printed
from reference.counts import counts_by_place
from reference.estimate import Recursion, Sitting
from reference.program import output
from reference.rows import rows_of
from reference.sitting_file import read, samples_of
from reference.tests.test_estimate import OldScale

TEXT = HERE / "cases.txt"


def contexts_held(file):
    """The contexts that either sample has seen."""
    shape = read(file)
    first, second = (counts_by_place(sample, shape.D) for sample in samples_of(file, shape))
    return len({*first, *second})


def old_output(file):
    """What the program printed before request E5, with its score taken four times."""
    shape = read(file)
    scale = OldScale(Sitting(shape.A, shape.D, samples_of(file, shape)))
    triple = Recursion(scale).triple()
    rows = [row[: 3 + shape.A] for row in rows_of(scale, triple)]
    lines = [[*shape, len(rows), 4 * scale.score(triple)], *rows]
    return "".join(" ".join(map(str, numbers)) + "\n" for numbers in lines)


class Cases(unittest.TestCase):
    def test_text_of_a_file(self):
        self.assertEqual(file_of("bytes", "02 ff*3".split()).hex(), "02ffffff")
        self.assertEqual(file_of("sitting", "2 1 / 01*2 / 0 then 80".split()).hex(), "0201040100010001" "00" "80")
        self.assertEqual(file_of("sitting", "2 1 / /".split()).hex(), "02010000")

    def test_kept_files_come_from_their_text(self):
        files = cases()
        self.assertEqual({path.name: path.read_bytes() for path in (CRATE / "data").iterdir()}, files)
        self.assertEqual((CRATE / "args").read_text().split(), list(files))
        self.assertEqual((CRATE / "stdout").read_text(), printed(files))

    def test_longest(self):
        sizes = {name: len(file) for name, file in cases().items() if name.startswith(("longest", "46"))}
        self.assertEqual(set(sizes.values()), {4102, 4607, 4608, 4609})
        self.assertIn("longest\n2 1 2048 2048 3 -135168\n", printed(cases()))

    def test_reports_are_as_before_the_weight_with_four_times_the_score(self):
        outputs = [(name, file, output(file)) for name, file in cases().items()]
        reports = [(name, file, report) for name, file, report in outputs if not report.startswith("refused")]
        self.assertGreater(len(reports), 15)
        for name, file, report in reports:
            self.assertEqual(report, old_output(file), name)

    def test_each_refusal_is_among_them(self):
        text = printed(cases())
        for number in (10, 11, 13, 14, 15, 16, 24):
            self.assertIn(f"refused {number}\n", text)

    def test_names_say_the_contexts_held(self):
        named = {name: file for name, file in cases().items() if name.startswith("held-")}
        self.assertGreater(len(named), 2)
        for name, file in named.items():
            self.assertEqual(contexts_held(file), int(name.split("-")[1]), name)

    def test_the_text_says_how_many_rows(self):
        """Of the report with the most rows, and how many contexts that sitting holds."""
        rows, held = map(int, re.search(r"^# many rows: (\d+) of (\d+) contexts", TEXT.read_text(), re.MULTILINE).groups())
        file = cases()["many-rows"]
        self.assertEqual((int(output(file).split()[4]), contexts_held(file)), (rows, held))

    def test_names_say_the_refusal(self):
        for name, file in cases().items():
            number = name.split("-")[0]
            if number in ("10", "11", "13", "14", "15", "16", "24"):
                self.assertEqual(printed({name: file}), f"{name}\nrefused {number}\n")
