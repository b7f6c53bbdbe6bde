"""The weight of the penalty: J3's samples have another triple at each of the weights 0, 4 and 16, worked out by hand. L(2) is
1024, L(3) 1623, L(5) 2377, L(6) 2647, L(8) 3072, L(14) 3898 and L(16) 4096."""

import unittest
from math import floor, log2

from sobumikeyo import LARGEST_WEIGHT, PLAIN_WEIGHT, Kind, Refusal, Sample, Store

SHARED, FIRST, SECOND = Kind
LEARNER, REFERENCE = (0, 1, 0, 1, 0, 1, 0, 1), (0, 0, 1, 0, 0, 1, 0, 0)
ROOM, RESERVATION = 24, 3
WEIGHT = 19  # of desk 0, among a store's numbers (crates/store/specs/Layout)

# Eightfold: after 0 the reference had three 0 and two 1. No other context of the two trees of depth 1 has two symbols after it.
FIT_AFTER_0 = 8 * (3 * 1623 + 2 * 1024 - 5 * 2377)
# Both trees of depth 1 cost nothing and fit as well apart as with a shared context, and two separate trees go before a split
# of both.
AT_0 = [(FIRST, (0,), (0, 4)), (SECOND, (0,), (3, 2)), (FIRST, (1,), (3, 0)), (SECOND, (1,), (2, 0))], FIT_AFTER_0
# Two contexts of their own at 4 L(8) and a shared one at 4 L(16).
AT_4 = [(FIRST, (0,), (0, 4)), (SECOND, (0,), (3, 2)), (SHARED, (1,), (5, 0))], FIT_AFTER_0 - 4 * (2 * 3072 + 4096)
# One context at 16 L(16), which loses less by its fit than any other would cost.
AT_16 = [(SHARED, (), (8, 6))], 8 * (8 * 3072 + 6 * 2647 - 14 * 3898) - 16 * 4096

# Every admissible triple of depth 1: the counts of its contexts with both symbols after them, how many of its contexts are
# shared, and how many are own.
TRIPLES = [
    ([(8, 6)], 1, 0),  # shared {empty}
    ([(3, 4), (5, 2)], 0, 2),  # own {empty} and {empty}
    ([(5, 2)], 0, 3),  # own {0, 1} and {empty}
    ([(3, 4), (3, 2)], 0, 3),  # own {empty} and {0, 1}
    ([(3, 2)], 0, 4),  # own {0, 1} and {0, 1}
    ([(3, 6)], 1, 2),  # shared {0}
    ([(3, 2)], 1, 2),  # shared {1}
    ([(3, 6)], 2, 0),  # shared {0, 1}
]


def L(n):
    """By its rule; floating point is exact enough for numbers as small as these."""
    return floor(1024 * log2(n))


def score(triple, weight):
    mixed, shared, own = triple
    fits = [8 * (sum(c * L(c) for c in counts) - sum(counts) * L(sum(counts))) for counts in mixed]
    return sum(fits) - weight * (shared * L(16) + own * L(8))


def sit(store, desk, weight):
    store.open(desk, alphabet=2, depth=1, weight=weight, reservation=RESERVATION)
    store.feed_all(desk, Sample.FIRST, LEARNER)
    store.feed_all(desk, Sample.SECOND, REFERENCE)


def reported(store, desk=0):
    """The rows by kind, symbols and the counts of the two symbols, and the score."""
    report = store.report(desk)
    return [(row.kind, row.context.symbols(), row.counts[:2]) for row in report.rows], report.score


class Weights(unittest.TestCase):
    def test_one_sitting_at_three_weights(self):
        for weight, expected in ((0, AT_0), (PLAIN_WEIGHT, AT_4), (LARGEST_WEIGHT, AT_16)):
            store = Store(ROOM)
            sit(store, 0, weight)
            self.assertEqual(reported(store), expected, f"weight {weight}")

    def test_each_desk_by_its_own(self):
        """Neighbours have other weights, and a desk that is closed and opened again has the weight of its last opening."""
        store = Store(ROOM)
        for desk, weight in enumerate((0, PLAIN_WEIGHT, LARGEST_WEIGHT)):
            sit(store, desk, weight)
        self.assertEqual([reported(store, desk) for desk in range(3)], [AT_0, AT_4, AT_16])
        for desk, weight in ((1, LARGEST_WEIGHT), (2, 0)):
            store.close(desk)
            sit(store, desk, weight)
        self.assertEqual([reported(store, desk) for desk in range(3)], [AT_0, AT_16, AT_0])

    def test_the_score_is_the_best_of_all_triples(self):
        for weight in range(LARGEST_WEIGHT + 1):
            store = Store(ROOM)
            sit(store, 0, weight)
            self.assertEqual(reported(store)[1], max(score(triple, weight) for triple in TRIPLES), f"weight {weight}")

    def test_the_soundness_test_asks_for_its_limits(self):
        store = Store(ROOM)
        sit(store, 0, PLAIN_WEIGHT)
        numbers = store.numbers()
        for weight in (LARGEST_WEIGHT + 1, 2**32 - 1):
            other = Store.of_numbers([*numbers[:WEIGHT], weight, *numbers[WEIGHT + 1 :]])
            self.assertFalse(other.is_sound())
            with self.assertRaises(Refusal) as refused:
                other.report(0)
            self.assertEqual(refused.exception.number, 1)
        other = Store.of_numbers([*numbers[:WEIGHT], LARGEST_WEIGHT, *numbers[WEIGHT + 1 :]])
        self.assertTrue(other.is_sound())
        self.assertEqual(reported(other), AT_16)


if __name__ == "__main__":
    unittest.main()
