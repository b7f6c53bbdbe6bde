"""Document 01, "Counts and score", and request E3: what N(s,a) counts in a sitting of depth D. A sample is a tuple of
symbols."""

from reference.limits import COUNTS

UNSEEN = (0,) * COUNTS


def N(sample, s, a, D):
    """The places i from D+1 to the sample's end where the |s| symbols before place i are s
    and the symbol at i is a. Places count from 1."""
    places = range(D + 1, len(sample) + 1)
    return sum(1 for i in places if before(sample, i, len(s)) == s and sample[i - 1] == a)


def total(sample, s, A, D):
    """N(s) is the sum over a."""
    return sum(N(sample, s, a, D) for a in range(A))


def before(sample, i, length):
    """The `length` symbols before place i."""
    return tuple(sample[i - 1 - length : i - 1])


def contexts_at(sample, i, D):
    """The contexts for which place i counts: all of up to D symbols that stand before it, the empty one included. Places
    up to D count for none."""
    return [before(sample, i, length) for length in range(D + 1)] if i > D else []


def count_place(counts, sample, i, D):
    """Each context for which place i counts has been followed by its symbol once more."""
    a = sample[i - 1]
    for s in contexts_at(sample, i, D):
        row = counts.get(s, UNSEEN)
        counts[s] = row[:a] + (row[a] + 1,) + row[a + 1 :]


def counts_by_place(sample, D):
    """The counts of every context that the sample has seen, taken place by place, oldest first.

    A context that is not in the answer has N(s) = 0 (`UNSEEN`).
    """
    counts = {}
    for i in range(1, len(sample) + 1):
        count_place(counts, sample, i, D)
    return counts
