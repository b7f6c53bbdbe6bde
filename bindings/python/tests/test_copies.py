"""Copies, also those by pickle: a store's is a store of its own, and a refusal's says the same."""

import copy
import pickle
import unittest

from sobumikeyo import PLAIN_WEIGHT, Refusal, Sample, Stopped, Store
from sobumikeyo.refusals import WORDS


def by_pickle(protocol):
    return lambda value: pickle.loads(pickle.dumps(value, protocol))


COPIES = [copy.copy, copy.deepcopy, *map(by_pickle, range(pickle.HIGHEST_PROTOCOL + 1))]


class Own(Store):
    """A store of a class of its own, which its copies keep."""


class Copies(unittest.TestCase):
    def test_stores(self):
        for made in COPIES:
            for kind in (Store, Own):
                store = kind(8)
                store.open(0, 2, 1, PLAIN_WEIGHT, 8)
                store.feed_all(0, Sample.FIRST, [0, 1, 0])
                before = store.numbers()
                other = made(store)
                self.assertIs(type(other), kind)
                self.assertEqual(other.numbers(), before)
                other.feed_all(0, Sample.SECOND, [0, 1])
                self.assertTrue(store.numbers() == before, "a copy's feeds are its own")
                store.close(0)
                self.assertEqual((store.room_left(), other.room_left()), (8, 0))
                self.assertEqual(sum(sum(row.counts) for row in other.report(0).rows), 3)

    def test_numbers_that_are_no_store(self):
        for made in COPIES:
            for numbers in ((), (7,) * 50):
                self.assertEqual(made(Store.of_numbers(numbers)).numbers(), numbers)

    def test_refusals(self):
        for made in COPIES:
            for number in [*WORDS, 0, 99, 2**32 - 1]:
                one = made(Refusal(number))
                self.assertEqual((type(one), one.number, str(one)), (Refusal, number, str(Refusal(number))))
                run = made(Stopped(number, 5))
                self.assertEqual((type(run), run.number, run.accepted), (Stopped, number, 5))
                self.assertEqual(str(run), f"after 5 symbols: {one}")

    def test_refusals_that_are_not_known(self):
        words = "refused 99: This is no refusal that is known here. See that the library is the one of this module."
        self.assertEqual(str(Refusal(99)), words)
        self.assertEqual((repr(Refusal(99)), repr(Stopped(99, 5))), ("Refusal(99)", "Stopped(99, 5)"))

    def test_what_calls_raise(self):
        store = Store(2)
        store.open(0, 2, 1, PLAIN_WEIGHT, 2)
        with self.assertRaises(Stopped) as stopped:
            store.feed_all(0, Sample.FIRST, [0, 1, 0, 1])
        one = pickle.loads(pickle.dumps(stopped.exception))
        self.assertEqual((one.accepted, one.number, one.advice), (2, 10, stopped.exception.advice))


if __name__ == "__main__":
    unittest.main()
