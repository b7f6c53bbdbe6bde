"""Document 01, "Report rows"."""

from reference.contexts import code, row_order
from reference.estimate import KINDS, Recursion, Scale


def rows_of(scale, triple):
    """A row is 11 numbers: kind, length, code, eight counts. Rows stand in the order of their
    contexts, then of their kinds."""
    contexts = sorted((row_order(s), kind, s) for kind in KINDS for s in triple[kind])
    return [(kind, len(s), code(s)) + scale.counts(kind, s) for _, kind, s in contexts]


def estimate(sitting, weight, seen=None):
    """The rows and the score of a sitting's joint estimate at that weight; `seen` are its counts where they are known."""
    scale = Scale(sitting, weight, seen)
    triple = Recursion(scale).triple()
    return rows_of(scale, triple), scale.score(triple)
