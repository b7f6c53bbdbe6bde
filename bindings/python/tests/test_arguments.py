"""What is no argument is told in words, by the argument's name, and never reaches the library; what fits goes there."""

import unittest
from array import array
from io import BytesIO, StringIO
from pathlib import Path

from sobumikeyo import PLAIN_WEIGHT, ROW_WIDTH, Context, Refusal, Sample, Store, read, salvage, store_size, write

EMPTY = Context.of([])
SHEET = array("I", [0] * ROW_WIDTH * 8)
NO_NUMBERS = (None, "0", b"0", 0.0, [0], {0: 0}, object(), EMPTY)
OUTSIDE = (-1, 2**32, 2**64, -(2**64), 10**5000)
NO_RUNS = (None, 5, 0.5, "010", Path("x"), StringIO("010"), BytesIO(b"\0\1"), {0, 1}, {0: 1}, object())


def opened():
    store = Store(12)
    store.open(0, 3, 2, PLAIN_WEIGHT, 5)
    return store


# Each call by its name, with arguments that are right, by their names; each is in turn made wrong.
CALLS = {
    "make": {"room": 12},
    "open": {"desk": 1, "alphabet": 3, "depth": 2, "weight": PLAIN_WEIGHT, "reservation": 5},
    "feed": {"desk": 0, "sample": Sample.FIRST, "symbol": 0},
    "feed_all": {"desk": 0, "sample": Sample.FIRST, "symbols": [0]},
    "close": {"desk": 0},
    "report": {"desk": 0},
    "report_on": {"desk": 0, "sheet": SHEET, "place": 0},
    "chart": {"desk": 0, "context": EMPTY, "symbol": 0},
}
WRITTEN = {"first": [0], "second": [1], "alphabet": 2, "depth": 1}
NUMBERED = [(call, name) for call, right in CALLS.items() for name in right if name not in ("symbols", "sheet", "context")]


class Arguments(unittest.TestCase):
    def wrong(self, kind, words, call, *arguments, **named):
        """A call that must raise just that, in those words."""
        with self.subTest(call=call, arguments=arguments, named=named), self.assertRaises(kind) as raised:
            call(*arguments, **named)
        self.assertIs(type(raised.exception), kind)
        self.assertRegex(str(raised.exception), f"^{words}")
        self.assertLess(len(str(raised.exception)), 120)

    def wrong_at(self, kind, words, call, name, value):
        """The same of a store's call, which leaves every number as it was."""
        store = opened()
        before = store.numbers()
        self.wrong(kind, words, getattr(store, call), **{**CALLS[call], name: value})
        self.assertTrue(store.numbers() == before, "nothing is written")

    def test_every_number_of_every_call(self):
        for call, name in NUMBERED:
            for value in NO_NUMBERS:
                self.wrong_at(TypeError, f"{name} must be a whole number, not ", call, name, value)
            for value in OUTSIDE:
                self.wrong_at(ValueError, f"{name} must be a whole number from 0 to 4294967295, not ", call, name, value)

    def test_what_fits_goes_to_the_library(self):
        for call, name in NUMBERED:
            with self.subTest(call=call, name=name), self.assertRaises(Refusal):
                getattr(opened(), call)(**{**CALLS[call], name: 2**32 - 1})

    def test_symbols(self):
        for value in NO_RUNS:
            self.wrong_at(TypeError, "symbols must be bytes or whole numbers in a row, not ", "feed_all", "symbols", value)
        for value in (["0"], [0, None], [0, 0.0], (b"\0",)):
            words = rf"symbols\[{len(value) - 1}\] must be a whole number, not "
            self.wrong_at(TypeError, words, "feed_all", "symbols", value)
        for value in ([256], [0, -1], [0, 0, 10**5000], array("I", [0, 999])):
            words = rf"symbols\[{len(value) - 1}\] must be a whole number from 0 to 255, not "
            self.wrong_at(ValueError, words, "feed_all", "symbols", value)

    def test_symbols_of_many_kinds(self):
        runs = [[0, 1], (0, 1), b"\0\1", bytearray([0, 1]), memoryview(b"\0\1"), array("I", [0, 1]), iter([0, 1]), range(2)]
        for symbols in runs:
            store = Store(1)
            store.open(0, alphabet=2, depth=0, weight=PLAIN_WEIGHT, reservation=1)
            store.feed_all(0, Sample.FIRST, symbols)
            self.assertEqual(store.chart(0, EMPTY, 1).first, 0.5)

    def test_contexts(self):
        for value in (None, 0, "00", [0, 1], (0, 0), [2, 1, 0]):
            self.wrong_at(TypeError, "context must be a Context, not ", "chart", "context", value)
        self.wrong_at(TypeError, "length must be a whole number, not ", "chart", "context", Context("0", 0))
        self.wrong_at(ValueError, "code must be a whole number from 0 to ", "chart", "context", Context(0, -1))
        for value in NO_RUNS:
            self.wrong(TypeError, "symbols must be bytes or whole numbers in a row, not ", Context.of, value)
        self.wrong(TypeError, r"symbols\[1\] must be a whole number, not ", Context.of, [0, "1"])
        self.wrong(ValueError, r"symbols\[0\] must be a whole number from 0 to ", Context.of, [-1])

    def test_sheets(self):
        released = memoryview(array("I", [0] * ROW_WIDTH))
        released.release()
        wrong = [None, 5, "sheet", [0] * ROW_WIDTH, bytes(44), bytearray(44), array("i", [0] * 11), array("Q", [0] * 11)]
        for value in [*wrong, memoryview(SHEET)[::2], memoryview(SHEET).toreadonly(), released]:
            words = "sheet must be a writable run of unsigned numbers of 32 bits, such as "
            self.wrong_at(TypeError, words, "report_on", "sheet", value)

    def test_makings_and_kept_numbers(self):
        for call in (Store, store_size):
            self.wrong(TypeError, "room must be a whole number, not a value of type str", call, "64")
            self.wrong(ValueError, "room must be a whole number from 0 to 4294967295, not -1", call, -1)
        self.wrong(TypeError, "numbers must be bytes or whole numbers in a row, not None", Store.of_numbers, None)
        self.wrong(TypeError, r"numbers\[1\] must be a whole number, not a value of type str", Store.of_numbers, [7, "7"])
        self.wrong(ValueError, r"numbers\[1\] must be a whole number from 0 to 4294967295, ", Store.of_numbers, [7, 2**32])

    def test_files(self):
        for call, name in ((read, "file"), (salvage, "damaged")):
            for value in NO_RUNS:
                self.wrong(TypeError, f"{name} must be bytes or whole numbers in a row, not ", call, value)
            self.wrong(TypeError, rf"{name}\[0\] must be a whole number, not a value of type str", call, ["2"])
            self.wrong(ValueError, rf"{name}\[1\] must be a whole number from 0 to 255, not 256", call, [2, 256])

    def test_files_to_be_written(self):
        def wrong(kind, words, name, value):
            self.wrong(kind, f"{name}{words}", write, **{**WRITTEN, name: value})

        for name in ("alphabet", "depth"):
            for value in NO_NUMBERS:
                wrong(TypeError, " must be a whole number, not ", name, value)
            for value in OUTSIDE:
                wrong(ValueError, " must be a whole number from 0 to 4294967295, not ", name, value)
            with self.assertRaises(Refusal):
                write(**{**WRITTEN, name: 2**32 - 1})
        for name in ("first", "second"):
            for value in NO_RUNS:
                wrong(TypeError, " must be bytes or whole numbers in a row, not ", name, value)
            wrong(TypeError, r"\[0\] must be a whole number, not a value of type str", name, ["0"])
            wrong(ValueError, r"\[1\] must be a whole number from 0 to 255, not 256", name, [0, 256])
            wrong(ValueError, r"\[0\] must be a whole number from 0 to 255, not -1", name, [-1])


if __name__ == "__main__":
    unittest.main()
