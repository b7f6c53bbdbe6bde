"""Places are counted from D+1 on: samples of no more than D symbols hold no context and get no report, and the first that is
counted adds a context of every length."""

import unittest
from array import array
from itertools import product

from sobumikeyo import PLAIN_WEIGHT, ROW_WIDTH, Chart, Context, Kind, Refusal, Sample, Stopped, Store, store_size

HEADER = store_size(0)
DEPTH = 18  # of desk 0, among a store's numbers (crates/store/specs/Layout)
DEEPEST = 6
ACTS = (0, 1, 1, 0, 2, 1, 0)  # one more than the largest depth: the last is counted at every depth
BOTH = Chart(1.0, 1.0, 0.0)


def sitting(depth, reservation, first, second=None):
    """A sitting with so many contexts reserved, both of whose samples are fed the same symbols where no others are named."""
    store = Store(reservation)
    store.open(0, alphabet=3, depth=depth, weight=PLAIN_WEIGHT, reservation=reservation)
    store.feed_all(0, Sample.FIRST, first)
    store.feed_all(0, Sample.SECOND, first if second is None else second)
    return store


def charts(store, before, symbol):
    """The chart answers for every context that the symbols end in, the longest first and the empty one last."""
    return [store.chart(0, Context.of(before[start:]), symbol) for start in range(len(before) + 1)]


def reported(store):
    """Kinds, lengths and totals of a report's rows, and its score."""
    report = store.report(0)
    return [(row.kind, row.context.length, sum(row.counts)) for row in report.rows], report.score


class Counted(unittest.TestCase):
    def refused(self, number, store, sheet_length=4 * ROW_WIDTH):
        """A report that must be refused with that number and write nothing, neither to the sheet nor to the store."""
        before, blank = store.numbers(), array("I", [7] * sheet_length)
        sheet = array("I", blank)
        with self.assertRaises(Refusal) as refused:
            store.report_on(0, sheet, 1)
        self.assertEqual((refused.exception.number, sheet), (number, blank))
        self.assertTrue(store.numbers() == before, "a refused report leaves the store")

    def test_no_more_symbols_than_the_depth(self):
        for depth in range(1, DEEPEST + 1):
            before = ACTS[:depth]
            store = sitting(depth, 1, before)
            for symbol in range(3):
                self.assertEqual(charts(store, before, symbol), [Chart()] * (depth + 1))
            self.refused(24, store)

    def test_reports_by_the_lengths_of_both_samples(self):
        """24 with one symbol and with as many as the depth, in either sample; before it 11 where one is empty, and after it 12."""
        for depth in range(DEEPEST + 1):
            for first, second in product(sorted({0, 1, depth, depth + 1}), repeat=2):
                store = sitting(depth, depth + 1, ACTS[:first], ACTS[:second])
                shortest = min(first, second)
                with self.subTest(depth=depth, first=first, second=second):
                    if shortest > depth:
                        self.refused(12, store, sheet_length=0)
                        self.assertEqual(sum(total for *_, total in reported(store)[0]), 2, "one act of each is counted")
                    else:
                        self.refused(24 if shortest else 11, store)
                        self.refused(24 if shortest else 11, store, sheet_length=0)

    def test_costs_go_by_the_whole_lengths(self):
        """Three acts of each at depth 2, of which one counts, with A 3."""
        # a shared context at 4 * 2 L(6) costs less than two own ones at 4 * 2 L(3)
        self.assertEqual(reported(sitting(2, 3, [0, 1, 0])), ([(Kind.SHARED, 0, 2)], -21176))
        rows = [(Kind.FIRST, 0, 1), (Kind.SECOND, 0, 1)]
        self.assertEqual(reported(sitting(2, 3, [0, 1, 2], [0, 1, 0])), (rows, -25968))

    def test_the_first_that_is_counted(self):
        for depth in range(DEEPEST + 1):
            store = sitting(depth, depth + 1, ACTS[: depth + 1])
            told = charts(store, ACTS[:depth], ACTS[depth])
            self.assertEqual(told, [BOTH] * (depth + 1), "the second sample adds no context")
        for depth in range(1, DEEPEST + 1):
            with self.assertRaises(Stopped) as stopped:
                sitting(depth, depth, ACTS)
            self.assertEqual((stopped.exception.accepted, stopped.exception.number), (depth, 10))

    def test_each_sample_by_itself(self):
        store = sitting(2, 3, [0, 1])
        store.feed(0, Sample.FIRST, 2)
        self.assertEqual(charts(store, [0, 1], 2), [Chart(first=1.0)] * 3)
        # the 1 at place 2 is not counted
        self.assertEqual(charts(store, [0], 1), [Chart(), Chart(first=0.0)])

    def test_lengths_decide_where_counts_are_of_no_string(self):
        """A sound store may have counts that no sample of its lengths has, as where its depth is raised by hand: a symbol with fewer
        before it is only kept."""
        numbers = list(sitting(1, 3, ACTS[:3]).numbers())
        numbers[DEPTH] = DEEPEST
        store = Store.of_numbers(numbers)
        self.assertTrue(store.is_sound())
        told = [charts(store, ACTS[:1], symbol) for symbol in range(3)]
        self.assertIn([BOTH, BOTH], told)
        store.feed(0, Sample.FIRST, 2)
        self.assertEqual([charts(store, ACTS[:1], symbol) for symbol in range(3)], told)
        self.assertEqual(store.numbers()[HEADER:], tuple(numbers[HEADER:]))
        self.refused(24, store)


if __name__ == "__main__":
    unittest.main()
