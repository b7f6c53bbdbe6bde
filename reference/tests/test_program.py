"""What the program prints."""

import subprocess
import sys
import unittest
from functools import cache
from itertools import product
from unittest.mock import patch

from reference import program
from reference.answers import Refused
from reference.counts import counts_by_place
from reference.inputs import de_bruijn, fixed_files
from reference.program import output
from reference.sitting_file import read, samples_of, write
from reference.store import Store

EXAMPLE = bytes.fromhex("02 01 08 08 00 01 00 01 00 01 00 01 00 00 01 00 00 01 00 00")
PRINTED = "2 1 8 8 3 -80704\n1 1 0 0 4\n2 1 0 3 2\n0 1 1 5 0\n"


def refused_feed(file):
    """The sample and the place of the feed that is refused, and the depth."""
    shape = read(file)
    answers = program.played(Store(), shape, samples_of(file, shape))
    feed = next(number for number, answer in enumerate(answers, start=-1) if isinstance(answer, Refused))
    return (0, feed, shape.D) if feed <= shape.n else (1, feed - shape.n, shape.D)


@cache
def fixed_outputs():
    """The fixed files, each with what the program prints."""
    return [(file, output(file)) for file in fixed_files()]


class Program(unittest.TestCase):
    def test_example(self):
        self.assertEqual(output(EXAMPLE), PRINTED)

    def test_example_as_a_command(self):
        command = [sys.executable, "-m", "reference.program"]
        run = subprocess.run(command, input=EXAMPLE, capture_output=True, check=True)
        self.assertEqual(run.stdout.decode(), PRINTED)

    def test_reader_refusals(self):
        self.assertEqual(output(b""), "refused 13\n")
        self.assertEqual(output(b"\x80\x00"), "refused 14\n")
        self.assertEqual(output(b"\x09"), "refused 15\n")
        self.assertEqual(output(EXAMPLE + b"\x00"), "refused 16\n")

    def test_empty_samples(self):
        for first, second in [((), ()), ((0,), ()), ((), (0,))]:
            self.assertEqual(output(write(2, 1, first, second)), "refused 11\n")

    def test_samples_no_longer_than_the_depth(self):
        """11 where a sample is empty, then 24 where one is too short; else the report."""
        for D in range(7):
            for n, m in product(range(D + 3), repeat=2):
                printed = output(write(2, D, (0, 1, 0, 1, 0, 1, 0, 1)[:n], (1,) * m))
                expected = "refused 11\n" if not n or not m else "refused 24\n" if min(n, m) <= D else f"2 {D} {n} {m} "
                self.assertTrue(printed.startswith(expected), (D, n, m, printed))

    def test_256_contexts_and_one_more(self):
        """The second's place 6, the first that counts, adds none to those of the first; with no such place 10 still goes first."""
        many = de_bruijn(3, 5)
        self.assertEqual([len(counts_by_place(many[:length], 5)) for length in (154, 155)], [256, 257])
        self.assertTrue(output(write(3, 5, many[:154], many[:6])).startswith("3 5 154 6 "))
        self.assertEqual(output(write(3, 5, many[:155], many[:6])), "refused 10\n")
        self.assertEqual(output(write(3, 5, many[:154], (0,))), "refused 24\n")
        self.assertEqual(output(write(3, 5, many[:155], (0,))), "refused 10\n")
        self.assertEqual(output(write(3, 5, (0,), many[:155])), "refused 10\n")
        self.assertEqual(output(write(3, 5, many, ())), "refused 10\n")

    def test_the_second_samples_first_place_that_counts(self):
        """It adds five contexts at once to the first's 251, or to one more; the place before it adds none, so that no feed
        gets 10 and the report 24."""
        many = de_bruijn(3, 5)
        self.assertEqual([len(counts_by_place(many[:length], 5)) for length in (150, 151)], [251, 252])
        self.assertTrue(output(write(4, 5, many[:150], (3,) * 6)).startswith("4 5 150 6 "))
        self.assertEqual(output(write(4, 5, many[:151], (3,) * 5)), "refused 24\n")
        self.assertEqual(output(write(4, 5, many[:151], (3,) * 6)), "refused 10\n")

    def test_fixed_files_show_where_10_comes(self):
        """In each sample, and where the second's first place that counts adds several contexts at once."""
        feeds = {refused_feed(file) for file, printed in fixed_outputs() if printed == "refused 10\n"}
        self.assertTrue({(0, 155, 5), (1, 155, 5), (1, 15, 5), (1, 6, 5)} <= feeds, feeds)

    def test_fixed_files_show_where_24_comes(self):
        """In each sample alone and in both, with one symbol and with as many as the depth; one more of each is enough."""
        shapes = {}
        for file, printed in fixed_outputs():
            shape = read(file)
            if not isinstance(shape, Refused):
                shapes.setdefault(printed if printed.startswith("refused") else "report", set()).add(shape[1:])
        short = {(6, 1, 7), (6, 6, 7), (6, 7, 1), (6, 7, 6), (6, 6, 6), (1, 1, 1), (1, 1, 2), (1, 2, 1), (5, 154, 1)}
        self.assertEqual(short - shapes["refused 24\n"], set())
        self.assertEqual({(6, 0, 1), (6, 6, 0), (1, 1, 0)} - shapes["refused 11\n"], set())
        self.assertEqual({(5, 155, 1), (5, 1, 247)} - shapes["refused 10\n"], set())
        self.assertEqual({(6, 7, 7), (1, 2, 2), (0, 1, 1), (5, 154, 6)} - shapes["report"], set())

    def test_longer_input_shows_a_fault(self):
        self.assertEqual(output(EXAMPLE + bytes(5000)), "refused 16\n")
        longest = write(2, 0, (0,) * 2048, (1,) * 2048)
        self.assertEqual(output(longest), "2 0 2048 2048 2 -90112\n1 0 0 2048 0\n2 0 0 0 2048\n")
        for more in (505, 506, 507):
            self.assertEqual(output(longest + bytes(more)), "refused 16\n")

    def test_4608_bytes_are_judged(self):
        for length, judged in [(4607, 4607), (4608, 4608), (4609, 4608), (70000, 4608)]:
            with patch.object(program, "read", return_value=Refused(16)) as reader:
                output(bytes(length))
            reader.assert_called_once_with(bytes(judged))

    def test_fixed_files_show_every_answer(self):
        refusals = {printed for _, printed in fixed_outputs() if printed.startswith("refused")}
        self.assertEqual(refusals, {f"refused {number}\n" for number in (10, 11, 13, 14, 15, 16, 24)})
