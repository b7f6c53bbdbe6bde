"""The samples are what their sources make them, and their explanations quote the real reports."""

import os
import re
import shutil
import subprocess
import sys
import tempfile
import unittest
from importlib.machinery import SourceFileLoader
from importlib.util import module_from_spec, spec_from_loader
from pathlib import Path

from reference import salvage
from reference.counts import total
from reference.inputs import spoilt_at
from reference.program import output
from reference.sitting_file import read, samples_of, write

REPOSITORY = Path(__file__).resolve().parents[2]
SAMPLES = REPOSITORY / "samples"
LISTENS = 1


def maker():
    """samples/make as a module."""
    loader = SourceFileLoader("samples_make", str(SAMPLES / "make"))
    module = module_from_spec(spec_from_loader("samples_make", loader))
    loader.exec_module(module)
    return module


class Samples(unittest.TestCase):
    def test_files_come_from_their_sources(self):
        sources = sorted(SAMPLES.glob("*.txt"))
        self.assertEqual(len(sources), 4)
        for source in sources:
            made = maker().sitting_file(source.read_text())
            self.assertEqual(source.with_suffix(".sitting").read_bytes(), made, source.name)

    def test_all_are_written_anew(self):
        """In a copy of the folder without its sitting files."""
        with tempfile.TemporaryDirectory() as folder:
            copy = Path(folder, "samples")
            shutil.copytree(SAMPLES, copy, ignore=shutil.ignore_patterns("*.sitting"))
            settings = {"env": {**os.environ, "PYTHONPATH": str(REPOSITORY)}, "check": True}
            subprocess.run([sys.executable, copy / "make"], **settings)
            made = {file.name: file.read_bytes() for file in copy.glob("*.sitting")}
        self.assertEqual(made, {file.name: file.read_bytes() for file in SAMPLES.glob("*.sitting")})
        self.assertEqual(len(made), 5)

    def test_text_of_one_line(self):
        made = maker().sitting_file("alphabet 2\ndepth 1\n0 1 0 1 / 0 0 1 0\n")
        self.assertEqual(made.hex(), "020104040001000100000100")

    def test_explanations_quote_the_reports(self):
        readme = (SAMPLES / "README.md").read_text()
        for file in SAMPLES.glob("*.sitting"):
            self.assertIn(f"## `{file.name}`\n\n```\n{output(file.read_bytes())}```\n", readme)

    def test_too_few_with_an_act_less_is_refused(self):
        """As its section says, of either string or of both."""
        section = (SAMPLES / "README.md").read_text().partition("## `too_few.sitting`")[2].partition("\n## ")[0]
        file = (SAMPLES / "too_few.sitting").read_bytes()
        shape = read(file)
        first, second = samples_of(file, shape)
        for n, m in [(2, 3), (3, 2), (2, 2)]:
            printed = output(write(shape.A, shape.D, first[:n], second[:m]))
            self.assertEqual(printed, "refused 24\n")
            self.assertIn(f"\n```\n{printed}```\n", section)


class Damaged(unittest.TestCase):
    """The section about damaged.sitting: each number in it, by the second program."""

    def setUp(self):
        self.words = (SAMPLES / "README.md").read_text().partition("## `damaged.sitting`")[2]
        self.sentences = " ".join(self.words.split())
        self.damaged = (SAMPLES / "damaged.sitting").read_bytes()
        self.saved, self.line = salvage.output(self.damaged)
        self.lost = list(map(int, self.line.split()))
        self.whole = self.samples((SAMPLES / "one_habit.sitting").read_bytes())
        self.kept = self.samples(self.saved)

    def samples(self, file):
        return samples_of(file, read(file))

    def test_it_is_damaged_as_the_section_says(self):
        said = r"learner's act (\d+) is spoilt, and the file ends after (\d+) of the reference's"
        act, acts = map(int, re.search(said, self.sentences).groups())
        whole = (SAMPLES / "one_habit.sitting").read_bytes()
        header = len(whole) - sum(map(len, self.whole))
        spoilt = spoilt_at(whole, header + act - 1, 0xFF)
        self.assertEqual(self.damaged, spoilt[: header + len(self.whole[0]) + acts])

    def test_the_line(self):
        self.assertIn(f"\n```\n{self.line}```\n", self.words)
        self.assertEqual([int(number) for number in re.findall(r"^\| (\d+) \|", self.words, re.MULTILINE)], self.lost)

    def test_the_numbers_in_words(self):
        first, second = map(len, self.whole)
        dropped, missing = self.lost[1:3]
        self.assertIn(f"none of the learner's {first} acts is missing", self.sentences)
        self.assertIn(f"{dropped} were dropped: the spoilt one and the {dropped - 1} after it", self.sentences)
        self.assertIn(f"of the reference's {second} acts, {missing} are missing", self.sentences)
        first, second = map(len, self.kept)
        self.assertIn(f"is kept: {first} of the learner's acts and {second} of the reference's", self.sentences)

    def test_the_crate_runs_on_it(self):
        crate = REPOSITORY / "crates" / "salvaging"
        self.assertEqual((crate / "stdin").read_bytes(), (SAMPLES / "damaged.sitting").read_bytes())
        self.assertEqual((crate / "stdout").read_bytes(), salvage.output((crate / "stdin").read_bytes())[0])

    def test_what_is_saved_of_a_shorter_file(self):
        """With no more acts of the learner than the depth it gets 24, and with none 11."""
        depth = self.damaged[1]
        for kept, number in [(0, 11), (1, 24), (depth, 24)]:
            saved = salvage.output(spoilt_at(self.damaged, 4 + kept, 0xFF))[0]
            self.assertEqual((len(self.samples(saved)[0]), output(saved)), (kept, f"refused {number}\n"))
            self.assertIn(f"`refused {number}`", self.words)

    def test_the_report_of_what_is_saved(self):
        report = output(self.saved)
        self.assertIn(f"\n```\n{report}```\n", self.words)
        rows = [row.split() for row in report.splitlines()[1:]]
        self.assertEqual([row[0] for row in rows], ["0", "0", "0"], "all three rows are shared")
        A, D = read(self.saved)[:2]
        before, left = ([total(sample, (LISTENS,), A, D) for sample in samples] for samples in (self.whole, self.kept))
        said = f"{left[0]} of the learner's {before[0]} and {left[1]} of the reference's {before[1]} are left"
        self.assertIn(f"of the acts that came after listening, {said}", self.sentences)
