"""Reports, their rows and contexts."""

from enum import IntEnum
from typing import NamedTuple

from sobumikeyo.arguments import whole_numbers
from sobumikeyo.refusals import Refusal

COUNTS = 8
ROW_WIDTH = 3 + COUNTS  # kind, length, code and the counts
DEEPEST = 6
CODE_BASE = 8
NOT_OF_SITTING = 8


class Context(NamedTuple):
    """A string of symbols that came just before, by its length and code: the sum of symbol times 8^j,
    where j is 0 for the most recent. Numbers that are no context of a sitting get refusal 8 there."""

    length: int
    code: int

    @classmethod
    def of(cls, symbols):
        """The context of these symbols, oldest first; refusal 8 for what no sitting can have.

        >>> Context.of([2, 1])
        Context(length=2, code=17)
        """
        symbols = whole_numbers(symbols, "symbols")
        if len(symbols) > DEEPEST or any(symbol >= CODE_BASE for symbol in symbols):
            raise Refusal(NOT_OF_SITTING)
        return cls(len(symbols), sum(symbol * CODE_BASE**j for j, symbol in enumerate(reversed(symbols))))

    def symbols(self):
        """Its symbols, oldest first.

        >>> Context(length=2, code=17).symbols()
        (2, 1)
        """
        return tuple(self.code // CODE_BASE**j % CODE_BASE for j in reversed(range(self.length)))


class Kind(IntEnum):
    """Whose context a row is: both samples treat it alike, or it is one sample's own."""

    SHARED = 0
    FIRST = 1
    SECOND = 2


class Row(NamedTuple):
    """One context of a report. The counts say how often each symbol came next, at places from depth + 1 on,
    0 for symbols outside the alphabet; a shared row has the counts of both samples added."""

    kind: Kind
    context: Context
    counts: tuple


class Report(NamedTuple):
    """The joint estimate of a sitting: rows in the order of their contexts, and the score, which is never
    above 0.

    The score is the sum of each row's fit less its cost. With counts c and total t the fit is eightfold,
    8 * (the sum of c * L(c), less t * L(t)), and the cost weight * (A-1) * L(the length of its sample, or of
    both where shared). L(n) is 1,024 times the logarithm of n to base 2, rounded down.
    """

    rows: tuple
    score: int

    def first_tree(self):
        """The complete tree of the first sample: the shared rows and its own."""
        return tuple(row for row in self.rows if row.kind in (Kind.SHARED, Kind.FIRST))

    def second_tree(self):
        """The complete tree of the second sample: the shared rows and its own."""
        return tuple(row for row in self.rows if row.kind in (Kind.SHARED, Kind.SECOND))


def row_of(numbers):
    """The row of its eleven numbers on a sheet that a report has written."""
    kind, length, code, *counts = numbers
    return Row(Kind(kind), Context(length, code), tuple(counts))
