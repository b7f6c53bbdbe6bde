"""Request E13: a sitting's samples exchanged and its symbols renamed, and what becomes of feeds, triples, rows and of
what is printed.

A sitting changed so is called the like of the one that it was made from.
"""

from typing import NamedTuple

from reference.contexts import code, row_order, string_of
from reference.estimate import FIRST, KINDS, SECOND, Triple
from reference.limits import SAMPLES

OTHER_SAMPLES_KIND = {FIRST: SECOND, SECOND: FIRST}


class Way(NamedTuple):
    """How a sitting is changed: whether its samples are exchanged, and the new name of each symbol below A, one to one and
    the same for both samples."""

    exchanged: bool
    names: tuple

    @property
    def A(self):
        return len(self.names)

    def words(self):
        """What it does, for tallies."""
        done = ["samples exchanged"] * self.exchanged + ["symbols renamed"] * (self.names != tuple(range(self.A)))
        return " and ".join(done) or "nothing changed"

    def sample(self, sample):
        """Where a sample stands; a number that is no sample's stays."""
        return 1 - sample if self.exchanged and sample in SAMPLES else sample

    def symbol(self, symbol):
        """A symbol's new name; a number that is no symbol stays."""
        return self.names[symbol] if symbol < self.A else symbol

    def string(self, s):
        return tuple(map(self.symbol, s))

    def samples(self, samples):
        renamed = tuple(map(self.string, samples))
        return renamed[::-1] if self.exchanged else renamed

    def sitting(self, sitting):
        return sitting._replace(samples=self.samples(sitting.samples))

    def feed(self, sample, symbol):
        return self.sample(sample), self.symbol(symbol)

    def kind(self, kind):
        """First's own and second's own are exchanged with the samples; what is shared stays so."""
        return OTHER_SAMPLES_KIND.get(kind, kind) if self.exchanged else kind

    def code(self, length, number):
        """The code of the renamed context."""
        return code(self.string(string_of(length, number, self.A)))

    def counts(self, counts):
        """The count of a symbol stands at its new name; those from A up stay where they are."""
        renamed = list(counts)
        for symbol, name in enumerate(self.names):
            renamed[name] = counts[symbol]
        return tuple(renamed)

    def row(self, row):
        """A row of eleven numbers; the program prints A counts of the eight."""
        kind, length, number, *counts = row
        return (self.kind(kind), length, self.code(length, number), *self.counts(counts))

    def rows(self, rows):
        """Each row changed, and all in order again."""
        return self.in_order(map(self.row, rows))

    def in_order(self, rows):
        """By the context from its most recent symbol backwards, then by kind."""
        return sorted(rows, key=lambda row: (row_order(string_of(row[1], row[2], self.A)), row[0]))

    def triple(self, triple):
        """The three sets by their new kinds, each context renamed."""
        strings = {self.kind(kind): frozenset(map(self.string, triple[kind])) for kind in KINDS}
        return Triple(*(strings[kind] for kind in KINDS))

    def head(self, head):
        """The program's first line: n and m are exchanged with the samples."""
        A, D, n, m, rows, score = head
        return (A, D, m, n, rows, score) if self.exchanged else tuple(head)

    def answer(self, lines):
        """What a player prints to a call: of a report its rows are changed, all else is the same."""
        return lines[:1] + lines_of(self.rows(map(numbers_of, lines[1:])))

    def output(self, text):
        """What the program prints: a head and rows, or a refusal, which is the same."""
        if text.startswith("refused"):
            return text
        head, *rows = map(numbers_of, text.splitlines())
        return "".join(line + "\n" for line in lines_of([self.head(head), *self.rows(rows)]))


def numbers_of(line):
    return [int(word) for word in line.split()]


def lines_of(rows):
    return [" ".join(map(str, row)) for row in rows]
