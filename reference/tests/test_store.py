"""Refusals 1 to 12, 17, 18, 20 and 24, the weight, the sheet and the chart."""

import unittest
from fractions import Fraction
from itertools import product

from reference.answers import Both, Done, First, Neither, Refused, Report, Room, Second
from reference.contexts import code, strings_up_to
from reference.store import Store


def store_with(K=100, **desk):
    """A made store, with desk 0 open."""
    store = Store()
    store.make(K, 2048 + 24 * K)
    opening = {"A": 2, "D": 1, "weight": 4, "reservation": 10, **desk}
    store.open(0, **opening)
    return store


def feed_all(store, sample, symbols, desk=0):
    return [store.feed(desk, sample, int(symbol)) for symbol in symbols]


class Refusals(unittest.TestCase):
    def test_1_where_nothing_was_made(self):
        store = Store()
        calls = [store.open(9, 9, 9, 17, 0), store.feed(9, 9, 9), store.close(9), store.room()]
        calls += [store.report(9, [], 0), store.chart(9, 9, 9, 9)]
        self.assertEqual(calls, [Refused(1)] * 6)

    def test_2_desk_above_seven(self):
        store = store_with()
        calls = [store.open(8, 9, 9, 17, 0), store.feed(8, 9, 9), store.close(8), store.report(8, [], 0)]
        self.assertEqual(calls + [store.chart(8, 9, 9, 9)], [Refused(2)] * 5)

    def test_3_and_4(self):
        store = store_with()
        self.assertEqual(store.open(0, 9, 9, 17, 0), Refused(3))
        calls = [store.feed(1, 9, 9), store.close(1), store.report(1, [], 0), store.chart(1, 9, 9, 9)]
        self.assertEqual(calls, [Refused(4)] * 4)

    def test_5_20_6_7_in_order(self):
        """Room is left for 7 of 12 contexts. Whatever the others are, the first of the four that applies is given."""
        alphabets = {0: 5, 1: 5, 2: 0, 8: 0, 9: 5}
        depths = {0: 0, 6: 0, 7: 5}
        weights = {0: 0, 4: 0, 16: 0, 17: 20, 256: 20, 2**32 - 1: 20}
        reservations = {0: 6, 1: 0, 7: 0, 8: 7, 12: 7, 13: 6}
        for numbers in product(alphabets, depths, weights, reservations):
            store = store_with(K=12, reservation=5)
            applying = [of[number] for of, number in zip((alphabets, depths, weights, reservations), numbers)]
            first = next(filter(None, applying), None)
            self.assertEqual(store.open(1, *numbers), Refused(first) if first else Done(), numbers)
            self.assertEqual((store.desks[1] is None, store.room()), (bool(first), Room(7 if first else 7 - numbers[3])))

    def test_20_at_an_opening_alone(self):
        """At a desk that cannot be opened it is not asked."""
        store = store_with()
        self.assertEqual([store.open(desk, 2, 1, 17, 1) for desk in (8, 0, 1)], [Refused(2), Refused(3), Refused(20)])
        self.assertEqual(Store().open(1, 2, 1, 17, 1), Refused(1))

    def test_8_at_a_feed(self):
        store = store_with()
        self.assertEqual([store.feed(0, 2, 0), store.feed(0, 0, 2)], [Refused(8)] * 2)

    def test_8_at_a_chart_question(self):
        store = store_with(A=3, D=2)
        wrong = [(0, 0, 3), (3, 0, 0), (0, 1, 0), (1, 3, 0), (1, 8, 0), (2, 24, 0), (2, 64, 0), (2**32 - 1, 0, 0)]
        self.assertEqual([store.chart(0, *question) for question in wrong], [Refused(8)] * len(wrong))
        self.assertEqual([store.chart(0, 0, 0, 2), store.chart(0, 2, 18, 0)], [Neither()] * 2)

    def test_8_before_9_before_10(self):
        store = store_with(D=0, reservation=1)
        self.assertEqual(feed_all(store, 0, "0" * 2048), [Done()] * 2048)
        self.assertEqual([store.feed(0, 0, 2), store.feed(0, 0, 0)], [Refused(8), Refused(9)])
        self.assertEqual(store.feed(0, 1, 0), Done())

    def test_10_leaves_the_sample(self):
        store = store_with(reservation=2)
        self.assertEqual(feed_all(store, 0, "010"), [Done(), Done(), Refused(10)])
        self.assertEqual(store.chart(0, 1, 0, 1), First(1.0))
        self.assertEqual(feed_all(store, 1, "000"), [Done()] * 3)

    def test_10_may_add_several_at_once(self):
        """Place 4 adds 000, 00, 0 and the empty context; place 5 adds 001, 01 and 1."""
        store = store_with(D=3, reservation=7)
        self.assertEqual(feed_all(store, 0, "00010"), [Done()] * 5)
        self.assertEqual(len(store.desks[0].held), 7)
        tight = store_with(D=3, reservation=6)
        self.assertEqual(feed_all(tight, 0, "00010")[4], Refused(10))

    def test_10_at_the_first_place_that_counts(self):
        """Place D+1 adds D+1 contexts at once, whichever sample comes to it first; the places before it add none."""
        for D in range(7):
            symbols = "0101010"[: D + 1]
            store, tight = store_with(D=D, reservation=D + 1), store_with(D=D, reservation=max(D, 1))
            for sample in (1, 0):
                self.assertEqual(feed_all(store, sample, symbols), [Done()] * (D + 1))
                self.assertEqual(len(store.desks[0].held), D + 1)
                self.assertEqual(feed_all(tight, sample, symbols), [Done()] * D + [Refused(10) if D else Done()])
                self.assertEqual(len(tight.desks[0].samples[sample]), max(D, 1))
            self.assertEqual(tight.chart(0, 0, 0, 0), Neither() if D else Both(1.0, 1.0, 0.0))

    def test_10_looks_at_the_contexts_of_both_samples(self):
        """The second's place 4 adds three: the empty context is held."""
        for reservation, answer in [(7, Done()), (6, Refused(10))]:
            store = store_with(D=3, reservation=reservation)
            feed_all(store, 0, "0000")
            self.assertEqual(feed_all(store, 1, "1110"), [Done()] * 3 + [answer])

    def test_a_sample_no_longer_than_the_depth_holds_nothing(self):
        store = store_with(D=3, reservation=1)
        feed_all(store, 0, "010")
        feed_all(store, 1, "01")
        self.assertEqual(store.desks[0].held, set())
        asked = [(s, store.chart(0, len(s), code(s), 1)) for s in strings_up_to(2, 3)]
        self.assertEqual(asked, [(s, Neither()) for s in strings_up_to(2, 3)])

    def test_24_by_the_lengths_of_both_samples(self):
        """11 where one is empty, then 24 where one has no more symbols than the depth; with one more of each there is a report."""
        for D in range(7):
            for lengths in product(range(D + 3), repeat=2):
                store = store_with(D=D)
                for sample, length in enumerate(lengths):
                    feed_all(store, sample, "0" * length)
                sheet = [7] * 22
                answer = store.report(0, sheet, 0)
                if min(lengths) > D:
                    self.assertIsInstance(answer, Report)
                else:
                    number = 11 if min(lengths) == 0 else 24
                    self.assertEqual((answer, sheet), (Refused(number), [7] * 22), (D, lengths))

    def test_24_is_told_of_one_sample(self):
        sitting = store_with(D=2).desks[0]
        told = []
        for _ in range(4):
            told.append([sitting.too_short(sample) for sample in (0, 1)])
            sitting.feed(1, 0)
        self.assertEqual(told, [[False, False], [False, True], [False, True], [False, False]])

    def test_24_goes_before_12(self):
        store = store_with(D=2)
        feed_all(store, 0, "010")
        feed_all(store, 1, "01")
        self.assertEqual([store.report(0, [], 0), store.report(0, [7] * 10, 99)], [Refused(24)] * 2)
        feed_all(store, 1, "0")
        self.assertEqual([store.report(0, [], 0), store.report(0, [7] * 10, 99)], [Refused(12)] * 2)
        self.assertIsInstance(store.report(0, [7] * 22, 0), Report)

    def test_24_is_for_reports_alone(self):
        store = store_with(D=2)
        self.assertEqual(feed_all(store, 0, "01") + feed_all(store, 1, "0"), [Done()] * 3)
        self.assertEqual(store.report(0, [7] * 22, 0), Refused(24))
        self.assertEqual([store.chart(0, 0, 0, 0), store.room(), store.close(0)], [Neither(), Room(90), Done()])

    def test_11_goes_before_12(self):
        store = store_with()
        self.assertEqual(store.report(0, [], 0), Refused(11))
        feed_all(store, 0, "01")
        self.assertEqual(store.report(0, [], 99), Refused(11))

    def test_17_goes_before_18_and_the_store_goes_on(self):
        store = store_with()
        self.assertEqual([store.make(K, 0) for K in (0, 4097)], [Refused(17)] * 2)
        self.assertEqual([store.make(4096, 100351), store.make(1, 2071)], [Refused(18)] * 2)
        self.assertEqual(store.room(), Room(90))
        self.assertEqual([store.make(4096, 100352), store.room()], [Done(), Room(4096)])

    def test_closed_room_serves_any_opening(self):
        store = Store()
        store.make(12, 2336)
        for desk in range(3):
            store.open(desk, 2, 1, 4, 4)
        store.close(0)
        store.close(2)
        self.assertEqual([store.open(5, 2, 1, 4, 9), store.open(5, 2, 1, 4, 8)], [Refused(7), Done()])


class Weight(unittest.TestCase):
    """The weight is the sitting's from its opening to its closing, and only reports know it."""

    def test_each_desk_reports_by_its_own(self):
        """J1 at three desks, fed by turns; the scores are those that test_marked works out."""
        store = store_with(weight=0)
        store.open(1, 2, 1, 4, 10)
        store.open(2, 2, 1, 16, 10)
        for sample, symbol in product((0, 1), "0101"):
            for desk in range(3):
                feed_all(store, sample, symbol, desk)
        reports = [Report(4, 0), Report(2, -24576), Report(1, -94288)]
        self.assertEqual([store.report(desk, [0] * 44, 0) for desk in range(3)], reports)
        self.assertEqual([store.report(desk, [0] * 44, 0) for desk in range(3)], reports)

    def test_every_weight_opens_and_is_kept(self):
        for weight in range(17):
            store = store_with(weight=weight)
            for sample in (0, 1):
                feed_all(store, sample, "00")
            self.assertEqual(store.desks[0].weight, weight)
            self.assertEqual(store.report(0, [0] * 22, 0), Report(1, -weight * 2048))

    def test_feeds_and_charts_do_not_know_it(self):
        told = []
        for weight in (0, 4, 16):
            store = store_with(weight=weight, D=2, reservation=5)
            told.append([feed_all(store, 0, "0110100"), feed_all(store, 1, "111"), store.room(), store.desks[0].held])
            told[-1] += [store.chart(0, len(s), code(s), a) for s in strings_up_to(2, 2) for a in (0, 1)]
        self.assertIn(Refused(10), told[0][0])
        self.assertEqual(told[1:], [told[0]] * 2)

    def test_a_desk_opened_again_has_its_new_weight(self):
        store = store_with(weight=16)
        store.close(0)
        store.open(0, 2, 0, 1, 1)
        for sample in (0, 1):
            feed_all(store, sample, "00")
        self.assertEqual(store.report(0, [0] * 22, 0), Report(1, -2048))


class Sheet(unittest.TestCase):
    def setUp(self):
        self.store = store_with()
        feed_all(self.store, 0, "0101")
        feed_all(self.store, 1, "0101")

    def test_rows_at_their_place(self):
        sheet = list(range(100, 150))
        self.assertEqual(self.store.report(0, sheet, 1), Report(2, -24576))
        self.assertEqual(sheet[11:33], [0, 1, 0, 0, 4] + [0] * 6 + [0, 1, 1, 2, 0] + [0] * 6)
        self.assertEqual(sheet[:11] + sheet[33:], list(range(100, 111)) + list(range(133, 150)))

    def test_12(self):
        for length, place, fits in [(22, 0, True), (21, 0, False), (32, 1, False), (33, 1, True), (0, 0, False)]:
            sheet = [7] * length
            answer = self.store.report(0, sheet, place)
            self.assertEqual(isinstance(answer, Report), fits)
            if not fits:
                self.assertEqual((answer, sheet), (Refused(12), [7] * length))

    def test_12_at_a_huge_place(self):
        self.assertEqual(self.store.report(0, [0] * 5632, 2**32 - 1), Refused(12))
        self.assertEqual(self.store.report(0, [0] * 5632, 510), Report(2, -24576))
        self.assertEqual(self.store.report(0, [0] * 5632, 511), Refused(12))


class Chart(unittest.TestCase):
    def test_which_samples_saw_it(self):
        store = store_with(A=3)
        feed_all(store, 0, "0010")
        feed_all(store, 1, "0221")
        self.assertEqual(store.chart(0, 1, 1, 0), First(1.0))
        self.assertEqual(store.chart(0, 1, 2, 1), Second(0.5))
        self.assertEqual(store.chart(0, 1, 0, 1), Both(0.5, 0.0, 0.5))
        self.assertEqual(store.chart(0, 0, 0, 0), Both(2 / 3, 0.0, 2 / 3))
        self.assertEqual(store.desks[0].share(1, (1,), 0), None)

    def test_places_up_to_the_depth_have_no_share(self):
        """The third symbol is the first that counts at depth 2; the two before it are its contexts alone."""
        store = store_with(D=2)
        feed_all(store, 0, "00")
        self.assertEqual(store.chart(0, 0, 0, 0), Neither())
        feed_all(store, 0, "1")
        asked = [store.chart(0, *context, 1) for context in [(0, 0), (1, 0), (2, 0), (1, 1)]]
        self.assertEqual(asked, [First(1.0)] * 3 + [Neither()])

    def test_shares_are_rounded_once(self):
        store = store_with(D=0, reservation=1)
        feed_all(store, 0, "0" + "1" * 2)
        feed_all(store, 1, "0" + "1" * 48)
        point = store.chart(0, 0, 0, 0)
        self.assertEqual((point.first, point.second), (float(Fraction(1, 3)), float(Fraction(1, 49))))
        self.assertEqual(point.gap, float(Fraction(point.first) - Fraction(point.second)))

    def test_equal_shares_have_gap_plus_zero(self):
        store = store_with(D=0, reservation=1)
        feed_all(store, 0, "011")
        feed_all(store, 1, "011011")
        self.assertEqual(str(store.chart(0, 0, 0, 0).gap), "0.0")
