"""A report of more rows than the program's sheet has: many_rows.txt has two strings that go round, so that nearly every context
of five or six symbols has one next symbol, and another one in each. And one of more rows than the first sheet that report lends."""

import unittest
from array import array
from itertools import cycle, islice

from sobumikeyo import PLAIN_WEIGHT, ROW_WIDTH, Kind, Refusal, Sample, Store
from tests import REPOSITORY

DEPTH = 6
LONGEST = 2048
PROGRAM_ROWS = 512
FIRST_SHEET_ROWS = 1024
PERIODS = (REPOSITORY / "bindings" / "many_rows.txt").read_text().split()


def sitting(alphabet, weight):
    store = Store(4096)
    store.open(0, alphabet, DEPTH, weight, 4096)
    for sample, period in zip(Sample, PERIODS):
        store.feed_all(0, sample, islice(cycle(map(int, period)), LONGEST))
    return store


class Reports(unittest.TestCase):
    def short(self, store, rows):
        """A sheet of so many rows, for which the report gets 12."""
        sheet = array("I", bytes(4 * ROW_WIDTH * rows))
        with self.assertRaises(Refusal) as refused:
            store.report_on(0, sheet, 0)
        self.assertEqual(refused.exception.number, 12)
        return sheet

    def test_more_rows_than_the_program_has(self):
        store = sitting(3, PLAIN_WEIGHT)
        sheet = self.short(store, PROGRAM_ROWS)
        sheet.extend([0] * 17 * ROW_WIDTH)
        self.assertEqual(store.report_on(0, sheet, 0), (529, -47955968))
        report = store.report(0)
        self.assertEqual((len(report.rows), report.score), (529, -47955968))
        self.assertEqual(sum(row.kind is Kind.SHARED for row in report.rows), 35)
        self.assertEqual((len(report.first_tree()), len(report.second_tree())), (281, 283))

    def test_more_rows_than_the_first_sheet(self):
        """With weight 0 and eight symbols, of which three are fed, each split adds five leaves or more that no sample saw."""
        store = sitting(8, 0)
        self.short(store, FIRST_SHEET_ROWS)
        report = store.report(0)
        self.assertGreater(len(report.rows), FIRST_SHEET_ROWS)
        for tree in (report.first_tree(), report.second_tree()):
            shares = [8 ** (DEPTH - row.context.length) for row in tree]
            self.assertEqual(sum(shares), 8**DEPTH, "a complete tree: a context of length k has a share of 8^-k")
        self.assertEqual(sum(sum(row.counts) for row in report.rows), 2 * (LONGEST - DEPTH))


if __name__ == "__main__":
    unittest.main()
