"""Document 01's marked examples, worked anew by requests E3, E5 and E8, and its limits."""

import unittest
from math import floor, log2

from reference.answers import Both, Done, Refused, Report
from reference.counts import N
from reference.estimate import Sitting
from reference.logarithm import L, follows_rule
from reference.rows import estimate
from reference.store import Store


def row(kind, length, code, *counts):
    return (kind, length, code, *counts, *[0] * (8 - len(counts)))


def estimate_of(D, first, second, weight=4):
    return estimate(Sitting(2, D, (tuple(map(int, first)), tuple(map(int, second)))), weight)


class Logarithm(unittest.TestCase):
    def test_marked_values(self):
        marked = {0: 0, 1: 0, 3: 1623, 5: 2377, 9: 3246, 1023: 10238, 1024: 10240, 4096: 12288}
        self.assertEqual({n: L(n) for n in marked}, marked)

    def test_rule_holds_everywhere(self):
        self.assertTrue(all(follows_rule(n, L(n)) for n in range(1, 4097)))

    def test_near_the_floating_logarithm(self):
        self.assertTrue(all(abs(L(n) - floor(1024 * log2(n))) <= 1 for n in range(1, 4097)))

    def test_range(self):
        for n in (-1, 4097):
            self.assertRaises(ValueError, L, n)


class Examples(unittest.TestCase):
    def test_j1(self):
        self.assertEqual(estimate_of(1, "0101", "0101"), ([row(0, 1, 0, 0, 4), row(0, 1, 1, 2, 0)], -24576))

    def test_j1_shows_the_empty_context(self):
        """Its counts are (1,2) in each sample: place 1 does not count."""
        store = self.fed_store("0101", "0101", reservation=3)
        self.assertEqual([seen[()][:2] for seen in store.desks[0].seen], [(1, 2)] * 2)
        self.assertEqual([N((0, 1, 0, 1), (), a, 1) for a in (0, 1)], [1, 2])
        self.assertEqual([store.chart(0, 0, 0, a) for a in (0, 1)], [Both(1 / 3, 1 / 3, 0.0), Both(2 / 3, 2 / 3, 0.0)])

    def fed_store(self, first, second, reservation):
        store = Store()
        store.make(16, 2432)
        store.open(0, 2, 1, 4, reservation)
        for sample, symbols in enumerate((first, second)):
            for symbol in symbols:
                store.feed(0, sample, int(symbol))
        return store

    def test_j1_needs_three_contexts(self):
        self.assertEqual(self.fed_0101(reservation=3), [Done()] * 4)
        self.assertEqual(self.fed_0101(reservation=2), [Done(), Done(), Refused(10), Refused(10)])

    def fed_0101(self, reservation):
        store = Store()
        store.make(16, 2432)
        store.open(0, 2, 1, 4, reservation)
        return [store.feed(0, 0, symbol) for symbol in (0, 1, 0, 1)]

    def test_j2(self):
        rows = [row(2, 0, 0, 3, 0), row(1, 1, 0, 0, 2), row(1, 1, 1, 1, 0)]
        self.assertEqual(estimate_of(1, "0101", "0000"), (rows, -24576))

    def test_j3(self):
        rows = [row(1, 1, 0, 0, 4), row(2, 1, 0, 3, 2), row(0, 1, 1, 5, 0)]
        self.assertEqual(estimate_of(1, "01010101", "00100100"), (rows, -80704))

    def test_j4(self):
        self.assertEqual(estimate_of(0, "0101", "0101"), ([row(0, 0, 0, 4, 4)], -77824))

    def test_j5(self):
        """A case of refusal 24: neither sample is longer than the depth. With one symbol more of each there is a report."""
        sheet = [7] * 22
        self.assertEqual(self.fed_store("0", "0", reservation=3).report(0, sheet, 0), Refused(24))
        self.assertEqual(sheet, [7] * 22)
        self.assertEqual(self.fed_store("00", "00", reservation=3).report(0, sheet, 0), Report(1, -8192))

    def test_equal_samples_need_not_be_shared(self):
        """L(1) is 0, so that contexts of their own cost nothing."""
        self.assertEqual(estimate_of(0, "0", "0"), ([row(1, 0, 0, 1), row(2, 0, 0, 1)], 0))


class OtherWeights(unittest.TestCase):
    """The examples worked by hand where nothing is paid for a context, and where it costs four times the plain penalty."""

    def test_j1_where_nothing_costs(self):
        """Split, neither sample has any loss, shared or not: two separate trees go before a split of both."""
        own = [row(kind, 1, code, *counts) for code, counts in [(0, (0, 2)), (1, (1, 0))] for kind in (1, 2)]
        self.assertEqual(estimate_of(1, "0101", "0101", weight=0), (own, 0))

    def test_j2_where_nothing_costs(self):
        """The second's single habit has no loss as a leaf, and a leaf goes before a split: the rows are those at weight 4."""
        self.assertEqual(estimate_of(1, "0101", "0000", weight=0), (estimate_of(1, "0101", "0000")[0], 0))

    def test_j3_where_nothing_costs(self):
        """After 1 both have no loss, shared or not. So a split of both scores no more than two separate trees, which go first
        and leave nothing shared."""
        rows = [row(1, 1, 0, 0, 4), row(2, 1, 0, 3, 2), row(1, 1, 1, 3, 0), row(2, 1, 1, 2, 0)]
        self.assertEqual(estimate_of(1, "01010101", "00100100", weight=0), (rows, 8 * (3 * 1623 + 2 * 1024 - 5 * 2377)))

    def test_j4_where_nothing_costs(self):
        """L(8) is 3072, L(4) 2048 and L(2) 1024: added or apart the counts have one fit, and the shared leaf goes first."""
        together, apart = 8 * (2 * 4 * 2048 - 8 * 3072), 8 * (2 * 2 * 1024 - 4 * 2048)
        self.assertEqual(together, 2 * apart)
        self.assertEqual(estimate_of(0, "0101", "0101", weight=0), ([row(0, 0, 0, 4, 4)], together))

    def test_j1_at_the_greatest_weight(self):
        """Two shared contexts would cost 2·16·L(8) and lose nothing; the one shared root costs half of it."""
        score = 8 * (2 * 1024 + 4 * 2048 - 6 * 2647) - 16 * 3072
        self.assertGreater(score, -2 * 16 * 3072)
        self.assertEqual(estimate_of(1, "0101", "0101", weight=16), ([row(0, 0, 0, 2, 4)], score))

    def test_j3_at_every_weight(self):
        """Four descriptions, each with the fit of its counts and what a quarter of the weight costs: L(8) is 3072, L(16) 4096."""
        split = 8 * (3 * 1623 + 2 * 1024 - 5 * 2377)  # after 0 the second sample has (3,2), the other contexts no loss
        described = {
            "four own contexts": (4, split, 4 * 3072),
            "after 1 a shared one": (3, split, 2 * 3072 + 4096),
            "the second a leaf": (3, 8 * (5 * 2377 + 2 * 1024 - 7 * 2874), 3 * 3072),
            "one shared leaf": (1, 8 * (8 * 3072 + 6 * 2647 - 14 * 3898), 4096),
        }
        best = []
        for weight in range(17):
            rows, score = estimate_of(1, "01010101", "00100100", weight)
            scores = {name: fit - weight * cost for name, (_, fit, cost) in described.items()}
            best.append(max(scores, key=scores.get))
            self.assertEqual((len(rows), score), (described[best[-1]][0], scores[best[-1]]), weight)
        changes = [weight for weight in range(1, 17) if best[weight] != best[weight - 1]]
        self.assertEqual((changes, list(dict.fromkeys(best))), ([1, 10, 13], list(described)))


class Limits(unittest.TestCase):
    def setUp(self):
        self.store = Store()
        self.assertEqual(self.store.make(8, 2048 + 24 * 8), Done())

    def test_depth(self):
        self.assertEqual(self.store.open(0, 2, 6, 4, 1), Done())
        self.assertEqual(self.store.open(1, 2, 7, 4, 1), Refused(5))

    def test_weight(self):
        self.assertEqual(self.store.open(0, 2, 1, 0, 1), Done())
        self.assertEqual(self.store.open(1, 2, 1, 16, 1), Done())
        self.assertEqual(self.store.open(2, 2, 1, 17, 1), Refused(20))

    def test_sample(self):
        self.store.open(0, 2, 0, 4, 1)
        self.assertEqual([self.store.feed(0, 1, 0) for _ in range(2049)], [Done()] * 2048 + [Refused(9)])
        self.assertEqual(self.store.feed(0, 0, 0), Done())
        # L(2048) and L(2049) are both 11264: a tie, and the shared leaf goes first
        self.assertEqual(self.store.report(0, [0] * 22, 0), Report(1, -4 * 11264))

    def test_both_samples(self):
        self.store.open(0, 2, 0, 4, 1)
        for sample in (0, 1):
            self.assertEqual([self.store.feed(0, sample, 0) for _ in range(2049)], [Done()] * 2048 + [Refused(9)])
        sheet = [0] * 11
        self.assertEqual(self.store.report(0, sheet, 0), Report(1, -4 * 12288))
        self.assertEqual(tuple(sheet), row(0, 0, 0, 4096))

    def test_room_left(self):
        self.assertEqual(self.store.open(0, 2, 0, 4, 9), Refused(6))
        self.assertEqual(self.store.open(0, 2, 0, 4, 3), Done())
        self.assertEqual(self.store.open(1, 2, 0, 4, 6), Refused(7))
        self.assertEqual(self.store.open(1, 2, 0, 4, 5), Done())
        self.assertEqual(self.store.open(2, 2, 0, 4, 1), Refused(7))
