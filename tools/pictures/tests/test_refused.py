"""What is no report is refused in words, and nothing is drawn."""

import subprocess
import tempfile
import unittest
from pathlib import Path

from pictures.report import Malformed, read_names, read_report
from pictures.tests import ALIKE, PICTURE
from pictures.trees import trees_of

GOOD = "2 1 8 8 3 -80704\n1 1 0 0 4\n2 1 0 3 2\n0 1 1 5 0\n"

MALFORMED = [
    ("", "empty"),
    ("# a source\nalphabet 2\n", "samples/make"),
    ("alphabet 2\n", "samples/make"),
    ("refused 10\n", "the program refused 10"),
    ("2 1 8 8 3\n", "line 1 should be 6 whole numbers"),
    ("2 1 8 8 3 -80704 \n", "line 1 should be 6 whole numbers"),
    ("9 1 8 8 0 0\n", "A is 2 to 8"),
    ("2 1 8 0 0 0\n", "n and m are above D"),
    ("2 1 1 8 1 0\n0 0 0 7 0\n", "n and m are above D"),
    ("2 6 8 6 1 0\n0 0 0 2 0\n", "n and m are above D"),
    ("2 1 8 8 3 5\n", "never above 0"),
    (GOOD.replace("8 3 -", "8 4 -"), "announces 4 rows, and 3 follow"),
    (GOOD.replace("5 0", "5 0 0"), "line 4 should be 5 whole numbers"),
    (GOOD.replace("5 0", "5 x"), "line 4 should be 5 whole numbers"),
    (GOOD.replace("5 0", "5 -1"), "no count is below 0"),
    (GOOD.replace("0 1 1 5 0", "3 1 1 5 0"), "a kind is 0 to 2"),
    (GOOD.replace("0 1 1 5 0", "0 2 1 5 0"), "a length 0 to 1"),
    (GOOD.replace("0 1 1 5 0", "0 1 2 5 0"), "2 is not the code of 1 symbols below 2"),
    (GOOD.replace("0 1 1 5 0", "0 1 9 5 0"), "9 is not the code"),
    ("2 1 8 8 2 0\n0 1 1 5 0\n0 1 0 0 4\n", "not in their order"),
    ("2 1 8 8 2 0\n0 1 1 5 0\n0 1 1 5 0\n", "not in their order"),
]

NO_TREES = [
    ("2 1 8 8 0 0\n", "first sample"),
    ("2 1 8 8 1 0\n1 0 0 5 0\n", "second sample"),
    ("2 1 8 8 1 0\n0 1 0 5 0\n", "first sample"),
    ("2 1 8 8 3 0\n0 0 0 5 0\n0 1 0 5 0\n0 1 1 5 0\n", "first sample"),
]


NO_NAMES = [
    ("asks\n", "the report has 2 symbols, and the file of names has 1 names"),
    ("a\nb\nc\n", "has 3 names"),
    ("asks\n" + "x" * 41, "line 2 of the names has 41 characters, and a name has at most 40"),
    ("asks\n" + "聞" * 41, "line 2 of the names has 41 characters"),
    ("asks\na\tb", "line 2 of the names has a tab in it"),
    ("asks\t\nb", "line 1 of the names has a tab in it"),
    ("asks\n\t", "line 2 of the names has a tab in it"),
    ("# acts\nasks\na\x07b", r"line 3 of the names has the character U\+0007 \(a control character\) in it"),
    ("asks\na\x0bb", r"U\+000B"),
    ("asks\na\u2028b", r"U\+2028 \(LINE SEPARATOR\)"),
    ("asks\na\u200bb", r"U\+200B \(ZERO WIDTH SPACE\)"),
    ("asks\n\u0301a", r"line 2 of the names begins with the character U\+0301 \(COMBINING ACUTE ACCENT\)"),
    ("asks\nasks\n", "two acts have one name, 'asks': acts 0 and 1"),
    ("asks\n  asks \n", "two acts have one name"),
    ("caf\xe9\ncafe\u0301\n", "two acts have one name"),
]
# What is given as a file: the report, or the names of its acts.
NO_FILES = [(b"", "empty"), (b"\xff\xfe", "no text in UTF-8, since byte 0 is 0xff")]
NO_FILES += [(b"3 1\xe9", "no text in UTF-8, since byte 3 is 0xe9")]


def run(*words, given=""):
    """What the command prints, what it says went wrong, and its status."""
    done = subprocess.run([PICTURE, *words], input=given, capture_output=True, text=True)
    return done.stdout, done.stderr, done.returncode


class Refused(unittest.TestCase):
    def test_malformed_reports(self):
        trees_of(read_report(GOOD))
        for given, reason in MALFORMED:
            with self.subTest(given), self.assertRaisesRegex(Malformed, reason):
                read_report(given)

    def test_rows_that_are_no_complete_trees(self):
        for given, which in NO_TREES:
            with self.subTest(given), self.assertRaisesRegex(Malformed, f"the {which} are no complete tree"):
                trees_of(read_report(given))

    def test_names(self):
        self.assertEqual(read_names("# acts\nasks\n\n listens \n", 2), ["asks", "listens"])
        longest = ["x" * 40, "聞" * 40, "q\u0301" * 40]
        self.assertEqual(read_names("\n".join(longest), 3), longest)
        for given, reason in NO_NAMES:
            with self.subTest(given), self.assertRaisesRegex(Malformed, reason):
                read_names(given, 2)

    def refused(self, reason, *words, given=""):
        """The command says why in one line and fails, and nothing is drawn."""
        printed, said, status = run(*words, given=given)
        with self.subTest(words):
            self.assertEqual((printed, status), ("", 1))
            self.assertRegex(said, f"^tools/picture: .*{reason}.*\n$")

    def test_the_command_says_why_and_fails(self):
        self.refused("there is nothing to draw: refused 13: The file ends too early. ", given="refused 13\n")
        with tempfile.TemporaryDirectory() as folder:
            file = Path(folder, "file")
            for path, reason in ((file, "No such file"), (Path(folder), "Is a directory")):
                self.refused(f"{path}: {reason}", path)
                self.refused(f"{path}: {reason}", "--names", path, given=GOOD)
            self.refused(f"{folder}: Is a directory", "--svg", folder, given=GOOD)
            for content, reason in NO_FILES:
                file.write_bytes(content)
                self.refused(reason, file)
                self.refused(reason if content else "has 0 names", "--names", file, given=GOOD)

    def test_sitting_files(self):
        for program in ("/nowhere/sitting", "/bin/false"):
            self.refused(program, ALIKE, "--program", program)
        self.refused("the text is empty", ALIKE, "--program", "/bin/true")
        self.refused("a report was given", "--program", "/bin/cat", given=GOOD)
        with tempfile.TemporaryDirectory() as folder:
            Path(folder, "short").write_bytes(ALIKE.read_bytes()[:-1])
            self.refused("there is nothing to draw: refused 13: The file ends too early. ", Path(folder, "short"))
            Path(folder, "few").write_bytes(bytes([2, 1, 1, 2, 0, 0, 1]))
            self.refused("there is nothing to draw: refused 24: ", Path(folder, "few"))


if __name__ == "__main__":
    unittest.main()
