"""The store and its desks."""

from ctypes import byref, c_double, c_int64, c_uint8, c_uint32
from enum import IntEnum
from threading import RLock

from sobumikeyo.arguments import array_of, byte_run, instance, number, sheet_of, whole_numbers
from sobumikeyo.charts import Chart
from sobumikeyo.library import calls
from sobumikeyo.refusals import Refusal, Stopped, refuse_unless_zero
from sobumikeyo.reports import ROW_WIDTH, Context, Report, row_of

PLAIN_WEIGHT = 4  # a weight is a whole number of quarters
LARGEST_WEIGHT = 16
LARGEST_ROOM = 4096
# Twice the program's sheet, which some reports on three symbols pass. By estimate what a row costs at the plain weight keeps
# reports of strings below 600; at small weights there may be more.
SHEET_ROWS = 1024
# No report passes these, by an argument on paper: a tree has one leaf and at most seven more for each split, only contexts that
# are held are split, and there are two trees.
MOST_ROWS = 2 * (1 + 7 * LARGEST_ROOM)
SHEET_SHORT = 12


def store_size(room):
    """How many numbers a store for so many contexts has."""
    return 2048 + 24 * number(room, "room")


def named(**arguments):
    """Whole numbers by the names of their arguments, in their order."""
    return [number(value, name) for name, value in arguments.items()]


class Sample(IntEnum):
    """A sitting's two samples."""

    FIRST = 0
    SECOND = 1


class Store:
    """A store: room for contexts, shared by up to eight desks, 0 to 7. It owns its numbers.

    Every call raises Refusal where it cannot do what it was asked, and has then changed nothing. What is
    no argument at all (a text for a desk, a number below 0) is a TypeError or a ValueError.

    A store is used by one call at a time: it has a lock, and each call holds it, so that threads may
    share a store, at one desk or at several. A copy, also by pickle, is a store of its own.

    >>> store = Store(100)
    >>> store.open(0, alphabet=2, depth=1, weight=PLAIN_WEIGHT, reservation=60)
    >>> store.open(1, alphabet=3, depth=2, weight=2 * PLAIN_WEIGHT, reservation=40)
    >>> store.feed(0, Sample.FIRST, 1)
    >>> store.feed(1, Sample.FIRST, 2)
    >>> store.close(0)
    >>> store.room_left()
    60
    >>> store.close(0)
    Traceback (most recent call last):
    sobumikeyo.refusals.Refusal: refused 4: The desk is not open. Open it first.
    """

    def __init__(self, room):
        """A new store with room for so many contexts and no open desk; refusal 17."""
        # a room that will be refused needs no memory
        self._own((0,) * store_size(min(number(room, "room"), LARGEST_ROOM)))
        self.make(room)

    @classmethod
    def of_numbers(cls, numbers):
        """A store of numbers that were kept from another. Any numbers may be given: where they are no
        store, every call but make gets refusal 1."""
        store = cls.__new__(cls)
        store._own(whole_numbers(numbers, "numbers"))
        return store

    def _own(self, values):
        """From now on a store of these numbers."""
        self._lent = array_of(c_uint32, values)
        self._lock = RLock()  # a signal's handler may come just before a call, and call too

    def __reduce__(self):
        return type(self).of_numbers, (self.numbers(),)

    def numbers(self):
        """The numbers, to be kept."""
        array, many = self._lent
        with self._lock:
            return tuple(array[:many])

    def is_sound(self):
        """Whether the numbers are a store. Every store that calls have left is one."""
        return self._call("sound")

    def make(self, room):
        """Makes the store anew, whatever it was; refusals 17 and 18."""
        refuse_unless_zero(self._call("make", number(room, "room")))

    def open(self, desk, alphabet, depth, weight, reservation):
        """Opens a desk for symbols below `alphabet` and contexts of up to `depth` symbols. The sitting may
        have `reservation` contexts.

        `weight` is what a report's contexts are charged by, until the desk is closed: a whole number of
        quarters from 0 to 16 (LARGEST_WEIGHT), where 4 (PLAIN_WEIGHT) is the plain penalty; any other gets
        refusal 20. 0 makes deep splits free, and the tie rules decide then.

        >>> store = Store(6)
        >>> for desk, weight in enumerate([0, LARGEST_WEIGHT]):
        ...     store.open(desk, alphabet=2, depth=1, weight=weight, reservation=3)
        ...     store.feed_all(desk, Sample.FIRST, [0, 1, 0, 1])
        ...     store.feed_all(desk, Sample.SECOND, [0, 0, 1, 1])
        ...     len(store.report(desk).rows)
        4
        1
        """
        opening = named(desk=desk, alphabet=alphabet, depth=depth, weight=weight, reservation=reservation)
        refuse_unless_zero(self._call("open", *opening))

    def feed(self, desk, sample, symbol):
        """One more symbol of a sample. Where `depth` symbols are before it, it is counted in the depth + 1
        contexts that they end in; where fewer are, it is only kept. So a sitting holds no context until a
        sample has more than `depth` symbols: that feed adds depth + 1 at once, a later one at most `depth`.

        >>> store = Store(2)
        >>> store.open(0, alphabet=2, depth=2, weight=PLAIN_WEIGHT, reservation=2)
        >>> store.feed_all(0, Sample.FIRST, [0, 1])
        >>> store.feed(0, Sample.FIRST, 0)
        Traceback (most recent call last):
        sobumikeyo.refusals.Refusal: refused 10: The sitting would have more contexts than it reserved. Reserve more at opening, or take a smaller depth, and feed both samples again.
        """
        refuse_unless_zero(self._call("feed", *named(desk=desk, sample=sample, symbol=symbol)))

    def feed_all(self, desk, sample, symbols):
        """Feeds the symbols (bytes, or numbers below 256) in their order, up to the first that is refused;
        those before it stay fed, and Stopped says how many. Quicker than as many feeds."""
        why = c_uint32()
        run = array_of(c_uint8, byte_run(symbols, "symbols"))
        accepted = self._call("feed_all", *named(desk=desk, sample=sample), *run, byref(why))
        if why.value:
            raise Stopped(why.value, accepted)

    def close(self, desk):
        """Closes a desk. What it reserved is free for any later opening."""
        refuse_unless_zero(self._call("close", number(desk, "desk")))

    def room_left(self):
        """How many contexts are left to reserve."""
        left = c_uint32()
        refuse_unless_zero(self._call("room", byref(left)))
        return left.value

    def report(self, desk):
        """The report on a desk. Each sample must have more symbols than the depth: where one is empty the
        report is refused with 11, and where one has no more than the depth with 24.

        >>> store = Store(8)
        >>> store.open(0, alphabet=2, depth=1, weight=PLAIN_WEIGHT, reservation=8)
        >>> for sample in Sample:
        ...     store.feed(0, sample, 0)
        >>> store.report(0)
        Traceback (most recent call last):
        sobumikeyo.refusals.Refusal: refused 24: A sample has symbols, but no more than the depth, so none of them counts. Feed each of the two samples more symbols than the depth before the report, or take a smaller depth.
        >>> for sample in Sample:
        ...     store.feed(0, sample, 0)
        >>> store.report(0).score
        -8192
        """
        try:
            return self._report_within(desk, SHEET_ROWS)
        except Refusal as refusal:
            if refusal.number != SHEET_SHORT:
                raise
        return self._report_within(desk, MOST_ROWS)

    def _report_within(self, desk, sheet_rows):
        """The report on a sheet of so many rows."""
        sheet = (c_uint32 * (sheet_rows * ROW_WIDTH))()
        rows, score = self.report_on(desk, sheet, 0)
        return Report(tuple(row_of(sheet[ROW_WIDTH * row : ROW_WIDTH * (row + 1)]) for row in range(rows)), score)

    def report_on(self, desk, sheet, place):
        """Writes the report's rows on a sheet, such as an array.array("I"), from row `place` on, eleven
        numbers each; answers how many there are and the score. No number outside those rows is written."""
        rows, score = c_uint32(), c_int64()
        desk, place = named(desk=desk, place=place)
        refuse_unless_zero(self._call("report", desk, *sheet_of(sheet, "sheet"), place, byref(rows), byref(score)))
        return rows.value, score.value

    def chart(self, desk, context, symbol):
        """How often, of the times that a sample saw the context, the symbol came next: places from depth + 1 on.

        >>> from sobumikeyo import Context
        >>> store = Store(8)
        >>> store.open(0, alphabet=2, depth=1, weight=PLAIN_WEIGHT, reservation=8)
        >>> store.feed_all(0, Sample.FIRST, [0, 1, 0, 0])
        >>> store.chart(0, Context.of([0]), 1)
        Chart(first=0.5, second=None, gap=None)
        """
        seen, first, second, gap = c_uint32(), c_double(), c_double(), c_double()
        length, code = instance(context, "context", Context)
        asked = named(desk=desk, length=length, code=code, symbol=symbol)
        refuse_unless_zero(self._call("chart", *asked, byref(seen), byref(first), byref(second), byref(gap)))
        by_first, by_second = seen.value in (1, 3), seen.value in (2, 3)
        return Chart(
            first.value if by_first else None,
            second.value if by_second else None,
            gap.value if by_first and by_second else None,
        )

    def _call(self, name, *others):
        """One of the library's functions, with the store's numbers lent first and to no other call meanwhile."""
        function = calls()[name]
        with self._lock:
            return function(*self._lent, *others)
