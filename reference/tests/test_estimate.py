"""Counts, trees, triples, the recursion, the weight and the rows."""

import unittest
from collections import Counter
from itertools import product
from random import Random

from reference.checks import DrawnScale
from reference.contexts import children, code, string_of, strings_up_to
from reference.counts import N, counts_by_place, total
from reference.estimate import KINDS, Recursion, Scale, Sitting, Triple, fit
from reference.inputs import drawn_sample, drawn_sitting
from reference.limits import WEIGHTS
from reference.logarithm import L
from reference.rows import estimate, rows_of
from reference.triples import (
    admissible_triples,
    best_triples,
    complete_trees,
    first_by_ties,
    is_admissible,
    is_complete,
    subsets,
)


def sitting(A, D, first, second):
    return Sitting(A, D, (tuple(map(int, first)), tuple(map(int, second))))


class Counts(unittest.TestCase):
    def test_every_context_counts_the_same_places(self):
        """Document 01's sample 0101 at depth 1: place 1 counts for no context, the empty one too."""
        sample = (0, 1, 0, 1)
        self.assertEqual([N(sample, (), a, 1) for a in (0, 1)], [1, 2])
        self.assertEqual([N(sample, (0,), a, 1) for a in (0, 1)], [0, 2])
        self.assertEqual([N(sample, (1,), a, 1) for a in (0, 1)], [1, 0])
        self.assertEqual([total(sample, s, 2, 2) for s in ((), (1,), (0, 1))], [2, 1, 1])

    def test_depth_0_counts_every_place(self):
        sample = (0, 1, 1, 2)
        self.assertEqual([N(sample, (), a, 0) for a in range(3)], [1, 2, 1])
        self.assertEqual(counts_by_place(sample, 0), {(): (1, 2, 1) + (0,) * 5})

    def test_a_sample_no_longer_than_the_depth_has_no_counts(self):
        for length in range(4):
            self.assertEqual(counts_by_place((0,) * length, 3), {})
            self.assertEqual(total((0,) * length, (), 2, 3), 0)
        self.assertEqual(set(counts_by_place((0, 1, 0, 1), 3)), {(), (0,), (1, 0), (0, 1, 0)})

    def test_a_count_by_hand(self):
        """Each place from D+1 on is looked at once, and every beginning of its past is noted with its symbol."""
        random = Random("by hand")
        for A, D, length in [(2, 6, 40), (3, 3, 3), (3, 3, 4), (8, 1, 60), (5, 0, 9)]:
            sample = drawn_sample(random, A, length)
            noted = Counter((sample[i - k : i], sample[i]) for i in range(D, length) for k in range(D + 1))
            for s, a in product(strings_up_to(A, D), range(A)):
                self.assertEqual(N(sample, s, a, D), noted[s, a])

    def test_children_add_up(self):
        """The counts of a context shorter than D are those of its children together."""
        sample, D = drawn_sample(Random("children"), 3, 50), 3
        counts = counts_by_place(sample, D)
        for s in strings_up_to(3, D - 1):
            self.assertEqual(total(sample, s, 3, D), sum(total(sample, child, 3, D) for child in children(s, 3)))
            self.assertEqual(s in counts, any(child in counts for child in children(s, 3)))

    def test_oldest_first(self):
        self.assertEqual(N((0, 0, 1, 1), (0, 1), 1, 2), 1)
        self.assertEqual(N((0, 0, 1, 1), (1, 0), 1, 2), 0)

    def test_fit(self):
        self.assertEqual(fit((0, 4)), 0)
        self.assertEqual(fit((0,) * 8), 0)
        self.assertEqual(fit((3, 2)), 8 * (3 * 1623 + 2 * 1024 - 5 * 2377))


class Codes(unittest.TestCase):
    def test_most_recent_symbol_is_lowest(self):
        self.assertEqual(code((2, 0, 1)), 1 + 8 * 0 + 64 * 2)

    def test_codes_of_strings_and_no_others(self):
        for A, length in [(2, 3), (3, 2), (8, 2), (5, 0)]:
            codes = {code(s): s for s in product(range(A), repeat=length)}
            for number in range(8**length + 10):
                self.assertEqual(string_of(length, number, A), codes.get(number))


class Trees(unittest.TestCase):
    def test_complete(self):
        self.assertTrue(is_complete({()}, 2))
        self.assertTrue(is_complete({(0,), (1,)}, 2))
        self.assertTrue(is_complete({(0,), (0, 1), (1, 1)}, 2))
        self.assertFalse(is_complete(set(), 2))
        self.assertFalse(is_complete({(0,)}, 2))
        self.assertFalse(is_complete({(), (0,), (1,)}, 2))
        self.assertFalse(is_complete({(0,), (0, 1)}, 2))
        self.assertFalse(is_complete({(0,), (1, 0), (1, 1)}, 2))

    def test_numbers_of_trees(self):
        """One leaf, or A trees one shorter."""
        self.assertEqual([len(complete_trees(2, D)) for D in range(4)], [1, 2, 5, 26])
        self.assertEqual([len(complete_trees(3, D)) for D in range(3)], [1, 2, 9])

    def test_triples_are_the_admissible_ones(self):
        for A, D in [(2, 0), (2, 1), (3, 1)]:
            sets = list(subsets(strings_up_to(A, D)))
            admissible = {Triple(*sets) for sets in product(sets, repeat=3) if is_admissible(Triple(*sets), A)}
            listed = admissible_triples(A, D)
            self.assertEqual(len(listed), len(set(listed)))
            self.assertEqual(set(listed), admissible)


class Ties(unittest.TestCase):
    def test_enumeration_and_recursion_agree(self):
        """At every weight, over drawn worths too. At weight 0 most sittings have several best triples."""
        random = Random("ties")
        several = Counter()
        for A, D in [(2, 1), (2, 2), (3, 1), (8, 1)] * 20:
            short = self.short_sitting(random, A, D)
            several.update(weight for weight in WEIGHTS if self.compared(Scale(short, weight)) > 1)
            self.compared(DrawnScale(random, A, D))
        self.assertGreater(several[0], 40, several)
        self.assertTrue(all(several[weight] for weight in WEIGHTS), several)

    def compared(self, scale):
        """How many best triples there are; the recursion finds the one that keeps the tie rules."""
        best, triples = best_triples(scale)
        recursion = Recursion(scale, whole=True)
        self.assertEqual(recursion.joint(())[0], best)
        self.assertEqual(recursion.triple(), first_by_ties(triples, scale.A, scale.D))
        return len(triples)

    def test_deeper_trees_where_nothing_costs(self):
        """Longer samples at weight 0, where the trees reach the depth."""
        random = Random("nothing costs")
        for A, D in [(2, 2), (2, 3), (3, 2)] * 2:
            sitting = Sitting(A, D, tuple(drawn_sample(random, A, random.randrange(9, 60)) for _ in range(2)))
            self.compared(Scale(sitting, 0))

    def short_sitting(self, random, A, D):
        return Sitting(A, D, tuple(drawn_sample(random, A, random.randrange(1, 9)) for _ in range(2)))

    def test_shared_leaf_before_two_leaves_and_they_before_a_split(self):
        """All worths are 0: every admissible triple is best, and the shared root comes first."""
        scale = DrawnScale(Random(0), 2, 2)
        scale.worths = dict.fromkeys(scale.worths, 0)
        self.assertEqual(Recursion(scale, whole=True).triple(), Triple({()}, set(), set()))
        scale.worths[0, ()] = -1
        self.assertEqual(Recursion(scale, whole=True).triple(), Triple(set(), {()}, {()}))

    def test_separate_trees_before_a_split_with_shared_contexts(self):
        scale = DrawnScale(Random(0), 2, 1)
        scale.worths = dict.fromkeys(scale.worths, 0)
        for kind in range(3):
            scale.worths[kind, ()] = -1
        own = {(0,), (1,)}
        self.assertEqual(Recursion(scale, whole=True).triple(), Triple(set(), own, own))


class OldScale(Scale):
    """Fits and costs as document 01 has them, before request E5: 2 times (sum of c·L(c), less t·L(t)), and (A-1)·L."""

    def __init__(self, sitting):
        super().__init__(sitting, weight=0)
        n, m = map(len, sitting.samples)
        self.old_costs = [(sitting.A - 1) * L(length) for length in (n + m, n, m)]

    def worth(self, kind, s):
        counts = self.counts(kind, s)
        return 2 * sum(c * L(c) for c in counts) - 2 * sum(counts) * L(sum(counts)) - self.old_costs[kind]


class Weights(unittest.TestCase):
    def test_four_quarters_pick_the_old_triple(self):
        """And score four times as much, of sittings of every shape and length."""
        random = Random("four quarters")
        for _ in range(200):
            sitting = drawn_sitting(random)
            old = OldScale(sitting)
            triple = Recursion(old).triple()
            expected = rows_of(old, triple), 4 * old.score(triple)
            self.assertEqual(estimate(sitting, 4), expected, sitting)

    def test_four_quarters_score_every_triple_fourfold(self):
        random = Random("every triple")
        for A, D in [(2, 1), (2, 2), (3, 1)] * 5:
            sitting = drawn_sitting(random, [(A, D)])
            old, new = OldScale(sitting), Scale(sitting, 4)
            for triple in admissible_triples(A, D):
                self.assertEqual(new.score(triple), 4 * old.score(triple))

    def test_a_cost_grows_with_the_weight_and_a_fit_does_not(self):
        scales = [Scale(sitting(3, 1, "0120", "01"), weight) for weight in WEIGHTS]
        for kind, logarithm in zip(KINDS, (2647, 2048, 1024)):  # L(6), L(4) and L(2)
            unseen = [scale.worth(kind, (0, 0)) for scale in scales]
            self.assertEqual(unseen, [-weight * 2 * logarithm for weight in range(17)])
            seen = [scale.worth(kind, ()) for scale in scales]
            self.assertEqual([worth - seen[0] for worth in seen], unseen)

    def test_the_more_a_context_costs_the_fewer_there_are(self):
        """Two equal strings, in which each act follows from the two before it. Eight own contexts that cost nothing; four
        shared ones, each of 4·L(24); one for all, which has a loss, where L(12) is 3671 and L(20) is 4425."""
        one_leaf = 8 * (8 * 3072 + 12 * 3671 - 20 * 4425) - 16 * 4695
        self.assertEqual(self.shape(0), (0, 4, 4, 0))
        self.assertEqual(self.shape(4), (4, 0, 0, -4 * 4 * 4695))
        self.assertEqual(self.shape(16), (1, 0, 0, one_leaf))

    def shape(self, weight):
        """How many contexts of each kind the report has, and its score."""
        rows, score = estimate(sitting(2, 2, "0011" * 3, "0011" * 3), weight)
        kinds = [row[0] for row in rows]
        return *(kinds.count(kind) for kind in KINDS), score


class Rows(unittest.TestCase):
    def test_depth_six_over_every_string(self):
        """The full tree of 3^6 leaves, each string visited, where contexts cost something and where they do not."""
        random = Random("whole")
        samples = tuple(drawn_sample(random, 3, 90) for _ in range(2))
        for weight in (0, 4):
            scale = Scale(Sitting(3, 6, samples), weight)
            rows = rows_of(scale, Recursion(scale, whole=True).triple())
            self.assertEqual((rows, scale.score(Recursion(scale).triple())), estimate(Sitting(3, 6, samples), weight))

    def test_three_symbols(self):
        """After 0 comes 1 and after 1 comes 2 in both; after 2 the first goes to 0, the second to 1."""
        rows, score = estimate(sitting(3, 1, "012012012012", "012121212121"), weight=4)
        expected = [(0, 1, 0, 0, 5, 0), (0, 1, 1, 0, 0, 9), (1, 1, 2, 3, 0, 0), (2, 1, 2, 0, 5, 0)]
        self.assertEqual([row[:6] for row in rows], expected)
        cost_shared, cost_own = 4 * 2 * 4695, 4 * 2 * 3671  # L(24) and L(12)
        self.assertEqual(score, -(2 * cost_shared + 2 * cost_own))

    def test_eight_symbols(self):
        """A circle of eight acts against one act again and again: the first's tree has all eight children."""
        rows, score = estimate(sitting(8, 1, "01234567" * 8, "7" * 64), weight=4)
        expected = [(2, 0, 0) + (0,) * 7 + (63,)]
        for symbol in range(8):
            follower = (symbol + 1) % 8
            count = 7 if symbol == 7 else 8
            expected.append((1, 1, symbol) + tuple(count if a == follower else 0 for a in range(8)))
        self.assertEqual(rows, expected)
        self.assertEqual(score, -9 * 4 * 7 * 6144)  # L(64)

    def test_lengths_in_the_costs_are_whole(self):
        """Three acts of each at depth 2, of which one counts: two own leaves cost 4·2·L(3) each."""
        rows, score = estimate(sitting(3, 2, "012", "010"), weight=4)
        self.assertEqual([row[:6] for row in rows], [(1, 0, 0, 0, 0, 1), (2, 0, 0, 1, 0, 0)])
        self.assertEqual(score, -2 * 4 * 2 * 1623)

    def test_unseen_children_have_rows_of_zeros(self):
        rows, _ = estimate(sitting(3, 1, "010101010101", "010101010101"), weight=4)
        self.assertEqual(rows[2], (0, 1, 2) + (0,) * 8)

    def test_order(self):
        """Contexts from the most recent symbol backwards, the shorter first, then kind."""
        triple = Triple({(1, 0)}, {(0, 0), (1,)}, {(0, 0), (0, 1), (1, 1)})
        rows = rows_of(Scale(sitting(2, 2, "0", "0"), weight=4), triple)
        self.assertEqual([row[:3] for row in rows], [(1, 2, 0), (2, 2, 0), (0, 2, 8), (1, 1, 1), (2, 2, 1), (2, 2, 9)])
