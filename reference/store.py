"""Document 01, "Desks and the store", and requests E5 and E8: the store as an abstract machine.

Each call asks for its refusals in the order given, so that the first that applies is given, and
changes nothing before the last of them. The order is that of the numbers, but for two: 20 comes
after 5 and before 6, and 24 after 11 and before 12. Refusal 1 is about the numbers of a store,
which are not modelled: it is given exactly where no making was accepted yet.
"""

from reference.answers import Both, Done, First, Neither, Refused, Report, Room, Second
from reference.contexts import string_of
from reference.counts import N, contexts_at, count_place, total
from reference.estimate import Sitting
from reference.limits import ALPHABETS, DEPTHS, DESKS, ROOMS, ROW, SAMPLE_LIMIT, SAMPLES, WEIGHTS, store_length
from reference.rows import estimate


class OpenSitting:
    """An open desk: A, D, its weight and reservation, and two strings of symbols, both empty at first."""

    def __init__(self, A, D, weight, reservation):
        self.A, self.D, self.weight, self.reservation = A, D, weight, reservation
        self.samples = ([], [])
        self.held = set()
        self.seen = ({}, {})

    def value(self):
        """The sitting as a file has it: A, D and the two strings."""
        return Sitting(self.A, self.D, tuple(map(tuple, self.samples)))

    def held_with(self, sample, symbol):
        """The strings s with N(s) > 0 in either sample, once the symbol is fed: those seen so far
        and those for which the new place counts."""
        fed = self.samples[sample] + [symbol]
        return self.held | set(contexts_at(fed, len(fed), self.D))

    def feed(self, sample, symbol):
        """The symbol is the sample's next; the contexts held and their counts are renewed, not taken anew."""
        symbols = self.samples[sample]
        symbols.append(symbol)
        self.held.update(contexts_at(symbols, len(symbols), self.D))
        count_place(self.seen[sample], symbols, len(symbols), self.D)

    def too_short(self, sample):
        """Whether the sample has at least one symbol and no more than D, so that no place of it counts."""
        return 0 < len(self.samples[sample]) <= self.D

    def estimate(self):
        """The rows and the score of its report."""
        return estimate(self.value(), self.weight, self.seen)

    def share(self, sample, s, a):
        """N(s,a) / N(s), one division of exact whole numbers; None where the sample did not see s."""
        seen = total(self.samples[sample], s, self.A, self.D)
        return float(N(self.samples[sample], s, a, self.D)) / float(seen) if seen else None


class Store:
    """K and eight desks, each closed (None) or with its open sitting."""

    def __init__(self):
        self.K = None
        self.desks = [None for _ in DESKS]

    def room_left(self):
        """K less the reservations of the open sittings."""
        return self.K - sum(sitting.reservation for sitting in self.desks if sitting)

    def make(self, K, length):
        """A new store has no open desk; making takes any numbers, a store in use too."""
        if K not in ROOMS:
            return Refused(17)
        if length < store_length(K):
            return Refused(18)
        self.K = K
        self.desks = [None for _ in DESKS]
        return Done()

    def open(self, desk, A, D, weight, reservation):
        """Opening a desk names A, D, a weight and a reservation."""
        if self.K is None:
            return Refused(1)
        if desk not in DESKS:
            return Refused(2)
        if self.desks[desk]:
            return Refused(3)
        if A not in ALPHABETS or D not in DEPTHS:
            return Refused(5)
        if weight not in WEIGHTS:
            return Refused(20)
        if not 0 < reservation <= self.K:
            return Refused(6)
        if reservation > self.room_left():
            return Refused(7)
        self.desks[desk] = OpenSitting(A, D, weight, reservation)
        return Done()

    def feed(self, desk, sample, symbol):
        """A sitting's feeds may take it to its reservation and no further."""
        refused = self.refused_at(desk)
        if refused:
            return refused
        sitting = self.desks[desk]
        if sample not in SAMPLES or symbol >= sitting.A:
            return Refused(8)
        if len(sitting.samples[sample]) >= SAMPLE_LIMIT:
            return Refused(9)
        if len(sitting.held_with(sample, symbol)) > sitting.reservation:
            return Refused(10)
        sitting.feed(sample, symbol)
        return Done()

    def close(self, desk):
        """Closing gives the reservation back."""
        refused = self.refused_at(desk)
        if refused:
            return refused
        self.desks[desk] = None
        return Done()

    def room(self):
        """The room question answers the room left and changes nothing."""
        if self.K is None:
            return Refused(1)
        return Room(self.room_left())

    def report(self, desk, sheet, place):
        """Rows go into the part of the sheet that starts at row `place`, and every number outside
        those rows stays."""
        refused = self.refused_at(desk)
        if refused:
            return refused
        sitting = self.desks[desk]
        if not all(sitting.samples):
            return Refused(11)
        if any(sitting.too_short(sample) for sample in SAMPLES):
            return Refused(24)
        rows, score = sitting.estimate()
        if place + len(rows) > len(sheet) // ROW:
            return Refused(12)
        for row, numbers in enumerate(rows, start=place):
            sheet[ROW * row : ROW * (row + 1)] = numbers
        return Report(len(rows), score)

    def chart(self, desk, length, number, symbol):
        """The shares N(s,a) / N(s) of the samples that saw the context of that length and code."""
        refused = self.refused_at(desk)
        if refused:
            return refused
        sitting = self.desks[desk]
        if symbol >= sitting.A or length > sitting.D:
            return Refused(8)
        s = string_of(length, number, sitting.A)
        if s is None:
            return Refused(8)
        return chart_answer(*(sitting.share(sample, s, symbol) for sample in SAMPLES))

    def refused_at(self, desk):
        """Refusals 1, 2 and 4, which every call at an open desk begins with; None where none applies."""
        if self.K is None:
            return Refused(1)
        if desk not in DESKS:
            return Refused(2)
        if not self.desks[desk]:
            return Refused(4)
        return None


def chart_answer(first, second):
    """Which of the samples saw the context, with their shares; the gap is rounded once."""
    if first is None and second is None:
        return Neither()
    if second is None:
        return First(first)
    if first is None:
        return Second(second)
    return Both(first, second, first - second)
