"""Each refusal by its number, at its limit; a refused call leaves every number as it was."""

import re
import unittest
from array import array

from sobumikeyo import LARGEST_WEIGHT, PLAIN_WEIGHT, ROW_WIDTH
from sobumikeyo import Chart, Context, Kind, Refusal, Row, Sample, Stopped, Store, read, store_size
from sobumikeyo.refusals import WORDS
from tests import REPOSITORY

EMPTY = Context.of([])
LONGEST = 2048
TOO_LONG = (0x81, 0x10)  # 2,049 in a file


def opened():
    """A store of room 12 with desk 0 open: three symbols, depth 2, five contexts reserved."""
    store = Store(12)
    store.open(0, 3, 2, PLAIN_WEIGHT, 5)
    return store


class Refusals(unittest.TestCase):
    def refused(self, number, store, call, *arguments):
        """Makes a call that must be refused with that number and write nothing."""
        before = store.numbers()
        with self.assertRaises(Refusal) as refused:
            getattr(store, call)(*arguments)
        self.assertEqual(refused.exception.number, number)
        self.assertTrue(store.numbers() == before, "a refused call writes nothing")

    def test_numbers_that_are_no_store(self):
        store = Store.of_numbers([7] * 3000)
        self.assertFalse(store.is_sound())
        self.refused(1, store, "open", 9, 9, 9, 17, 0)
        self.refused(1, store, "feed", 0, Sample.FIRST, 0)
        self.refused(1, store, "feed_all", 0, Sample.FIRST, [0])
        self.refused(1, store, "close", 0)
        self.refused(1, store, "room_left")
        self.refused(1, store, "report", 0)
        self.refused(1, store, "chart", 0, EMPTY, 0)
        none = Store.of_numbers([])
        self.refused(1, none, "room_left")
        self.refused(18, none, "make", 1)

    def test_desks(self):
        store = opened()
        self.refused(2, store, "open", 8, 3, 2, PLAIN_WEIGHT, 1)
        self.refused(2, store, "close", 2**32 - 1)
        self.refused(3, store, "open", 0, 3, 2, PLAIN_WEIGHT, 1)
        self.refused(4, store, "close", 1)
        self.refused(4, store, "report", 7)
        store.open(7, 3, 2, PLAIN_WEIGHT, 1)
        store.close(7)

    def test_openings(self):
        store = opened()
        for alphabet, depth in ((1, 0), (9, 0), (2, 7)):
            self.refused(5, store, "open", 1, alphabet, depth, PLAIN_WEIGHT, 1)
        self.refused(6, store, "open", 1, 8, 6, PLAIN_WEIGHT, 0)
        self.refused(6, store, "open", 1, 8, 6, PLAIN_WEIGHT, 13)
        self.refused(7, store, "open", 1, 8, 6, PLAIN_WEIGHT, 8)
        store.open(1, 8, 6, PLAIN_WEIGHT, 7)
        self.assertEqual(store.room_left(), 0)

    def test_weights(self):
        """20 goes after 2, 3 and 5, and before 6 and 7."""
        store = opened()
        for weight in (LARGEST_WEIGHT + 1, LARGEST_WEIGHT + 16, 2**8, 2**16, 2**31, 2**32 - 1):
            self.refused(2, store, "open", 8, 8, 6, weight, 1)
            self.refused(3, store, "open", 0, 8, 6, weight, 1)
            self.refused(5, store, "open", 1, 9, 6, weight, 1)
            self.refused(5, store, "open", 1, 8, 7, weight, 1)
            for reservation in (0, 1, 7, 8, 13):
                self.refused(20, store, "open", 1, 8, 6, weight, reservation)
        for weight in range(LARGEST_WEIGHT + 1):
            self.refused(6, store, "open", 1, 8, 6, weight, 0)
            store.open(1, 8, 6, weight, 7)
            store.close(1)

    def test_samples_symbols_and_contexts(self):
        store = opened()
        self.refused(8, store, "feed", 0, 2, 0)
        self.refused(8, store, "feed", 0, Sample.FIRST, 3)
        for length, code in ((3, 0), (1, 3), (1, 8), (2, 24), (0, 1)):
            self.refused(8, store, "chart", 0, Context(length, code), 0)
        self.refused(8, store, "chart", 0, EMPTY, 3)
        for symbols in ([0] * 7, [8], [2**32 - 1]):
            with self.assertRaises(Refusal) as refused:
                Context.of(symbols)
            self.assertEqual(refused.exception.number, 8)
        store.feed(0, Sample.SECOND, 2)

    def test_longest_sample(self):
        store = Store(1)
        store.open(0, 2, 0, PLAIN_WEIGHT, 1)
        with self.assertRaises(Stopped) as stopped:
            store.feed_all(0, Sample.FIRST, [1] * (LONGEST + 1))
        self.assertEqual((stopped.exception.accepted, stopped.exception.number), (LONGEST, 9))
        self.refused(9, store, "feed", 0, Sample.FIRST, 0)
        store.feed_all(0, Sample.SECOND, [1] * LONGEST)
        rows, score = store.report(0)
        self.assertEqual((rows, score), ((Row(Kind.SHARED, EMPTY, (0, 2 * LONGEST, 0, 0, 0, 0, 0, 0)),), -49152))

    def test_past_the_reservation(self):
        store = opened()
        store.feed_all(0, Sample.FIRST, [0, 1, 0, 2])
        self.refused(10, store, "feed", 0, Sample.FIRST, 2)
        self.refused(10, store, "feed_all", 0, Sample.FIRST, [2, 2])

    def test_reports(self):
        store = opened()
        store.feed(0, Sample.FIRST, 0)
        self.refused(11, store, "report", 0)
        store.feed(0, Sample.SECOND, 0)
        self.refused(24, store, "report", 0)
        self.refused(24, store, "report_on", 0, array("I"), 0)
        for sample in Sample:
            self.refused(24, store, "report", 0)
            store.feed_all(0, sample, [0, 0])
        rows = len(store.report(0).rows)
        blank = array("I", [7] * (ROW_WIDTH * (2 + rows) + ROW_WIDTH - 1))
        sheet = array("I", blank)
        self.refused(12, store, "report_on", 0, sheet, 3)
        self.assertEqual(sheet, blank, "a refused report leaves the sheet")
        store.report_on(0, sheet, 2)
        outside = sheet[: 2 * ROW_WIDTH] + sheet[(2 + rows) * ROW_WIDTH :]
        self.assertEqual(set(outside), {7}, "only the rows are written")
        self.refused(12, store, "report_on", 0, array("I"), 0)

    def test_makings(self):
        for room in (0, 4097, 2**32 - 1):
            with self.assertRaises(Refusal) as refused:
                Store(room)
            self.assertEqual(refused.exception.number, 17)
        self.assertEqual(Store(4096).room_left(), 4096)
        short = Store.of_numbers([0] * (store_size(5) - 1))
        self.refused(17, short, "make", 0)
        self.refused(18, short, "make", 5)
        short.make(4)
        self.assertTrue(short.is_sound())

    def test_files(self):
        faults = [(13, []), (13, [2, 1, 1, 1, 0]), (14, [2, 0x80, 0]), (15, [9]), (15, [2, 1, 1, 1, 0, 2])]
        faults += [(15, [2, 0, *TOO_LONG, 1]), (15, [2, 0, 1, *TOO_LONG])]
        for number, file in [*faults, (16, [2, 1, 1, 1, 0, 1, 0])]:
            with self.assertRaises(Refusal) as refused:
                read(file)
            self.assertEqual(refused.exception.number, number)
        file = read(bytes([2, 0, 0x80, 0x10, 1]) + b"\1" * LONGEST + b"\0")
        self.assertEqual(file, (2, 0, b"\1" * LONGEST, b"\0"))

    def test_charts_and_kept_stores(self):
        store = Store(8)
        store.open(0, 2, 1, PLAIN_WEIGHT, 8)
        zero = Context.of([0])
        self.assertEqual(store.chart(0, zero, 1), Chart())
        store.feed_all(0, Sample.SECOND, [0, 1, 0, 0])
        self.assertEqual(store.chart(0, zero, 1), Chart(second=0.5))
        store.feed_all(0, Sample.FIRST, [0, 0])
        self.assertEqual(store.chart(0, zero, 1), Chart(0.0, 0.5, -0.5))
        self.assertEqual(Store.of_numbers(store.numbers()).report(0), store.report(0))

    def test_numbers_are_never_cut(self):
        store = opened()
        for desk in (2**32, -1):
            with self.assertRaises(ValueError):
                store.feed(desk, Sample.FIRST, 0)
        with self.assertRaises(ValueError):
            store.feed_all(0, Sample.FIRST, [256])
        for sheet in (bytes(44), array("d", [0.0] * 11), array("f", [0.0] * 11)):
            with self.assertRaises(TypeError):
                store.report_on(0, sheet, 0)

    def test_words_are_the_tables(self):
        table = (REPOSITORY / "docs" / "REFUSALS.md").read_text()
        rows = re.findall(r"^\| (\d+) \| (.*) \| (.*) \|$", table, re.MULTILINE)
        self.assertEqual(WORDS, {int(number): (happened, advice) for number, happened, advice in rows})
        self.assertEqual(sorted(WORDS), [*range(1, 21), 24])


if __name__ == "__main__":
    unittest.main()
