"""Document 01's marked examples, J2 as request E3 works it anew, since places are counted from D+1 on, and J5 as request E8
does: samples no longer than D get no report. Scores are those of request E5 at the plain weight."""

import unittest

from sobumikeyo import PLAIN_WEIGHT, Chart, Context, Kind, Refusal, Sample, Stopped, Store

SHARED, FIRST, SECOND = Kind


def sitting(depth, first, second):
    store = Store(3)
    store.open(0, 2, depth, PLAIN_WEIGHT, 3)
    store.feed_all(0, Sample.FIRST, first)
    store.feed_all(0, Sample.SECOND, second)
    return store


def report(depth, first, second):
    return sitting(depth, first, second).report(0)


class Marked(unittest.TestCase):
    def check(self, told, rows, score):
        """The rows by kind, symbols and the counts of the two symbols."""
        expected = tuple((kind, Context.of(symbols), counts + (0,) * 6) for kind, symbols, counts in rows)
        self.assertEqual(told.rows, expected)
        self.assertEqual(told.score, score)

    def test_j1_two_shared_contexts(self):
        told = report(1, [0, 1, 0, 1], [0, 1, 0, 1])
        self.check(told, [(SHARED, [0], (0, 4)), (SHARED, [1], (2, 0))], -24576)
        self.assertEqual(told.first_tree(), told.second_tree())

    def test_j1_empty_context(self):
        store = sitting(1, [0, 1, 0, 1], [0, 1, 0, 1])
        self.assertEqual(store.chart(0, Context.of([]), 0), Chart(1 / 3, 1 / 3, 0.0))
        self.assertEqual(store.chart(0, Context.of([]), 1), Chart(2 / 3, 2 / 3, 0.0))

    def test_j1_needs_three_contexts(self):
        store = Store(2)
        store.open(0, 2, 1, PLAIN_WEIGHT, 2)
        with self.assertRaises(Stopped) as stopped:
            store.feed_all(0, Sample.FIRST, [0, 1, 0, 1])
        self.assertEqual((stopped.exception.accepted, stopped.exception.number), (2, 10))

    def test_j2_all_their_own(self):
        told = report(1, [0, 1, 0, 1], [0, 0, 0, 0])
        self.check(told, [(SECOND, [], (3, 0)), (FIRST, [0], (0, 2)), (FIRST, [1], (1, 0))], -24576)
        self.assertEqual((len(told.first_tree()), len(told.second_tree())), (2, 1))

    def test_j3_one_habit_shared(self):
        told = report(1, [0, 1, 0, 1, 0, 1, 0, 1], [0, 0, 1, 0, 0, 1, 0, 0])
        self.check(told, [(FIRST, [0], (0, 4)), (SECOND, [0], (3, 2)), (SHARED, [1], (5, 0))], -80704)
        self.assertEqual([row.kind for row in told.first_tree()], [FIRST, SHARED])
        self.assertEqual([row.kind for row in told.second_tree()], [SECOND, SHARED])

    def test_j4_no_memory(self):
        self.check(report(0, [0, 1, 0, 1], [0, 1, 0, 1]), [(SHARED, [], (4, 4))], -77824)

    def test_j5_no_longer_than_the_depth(self):
        with self.assertRaises(Refusal) as refused:
            report(1, [0], [0])
        self.assertEqual(refused.exception.number, 24)

    def test_equal_samples_need_not_be_shared(self):
        """Of one symbol each, at depth 0: L(1) is 0, so that contexts of their own cost nothing."""
        self.check(report(0, [0], [0]), [(FIRST, [], (1, 0)), (SECOND, [], (1, 0))], 0)


if __name__ == "__main__":
    unittest.main()
