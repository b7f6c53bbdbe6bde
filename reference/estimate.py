"""Document 01, "Counts and score", and request E5: fit, cost, score, and the recursion with the tie rules.

Kinds of contexts are those of the report's rows: 0 shared, 1 first's own, 2 second's own.
"""

from typing import NamedTuple

from reference.contexts import children
from reference.counts import UNSEEN, counts_by_place
from reference.logarithm import L

SHARED, FIRST, SECOND = KINDS = range(3)

# The tie rules, in order: at a string of both trees, and within a separate tree.
SHARED_LEAF, SEPARATE_TREES, SPLIT_OF_BOTH = range(3)
LEAF, SPLIT = range(2)


class Sitting(NamedTuple):
    """What a report speaks of: the alphabet size, the depth and the two samples. The weight that it is scored with is named
    at the opening, and no file has one."""

    A: int
    D: int
    samples: tuple


class Triple(NamedTuple):
    """(shared, first's own, second's own): three sets of contexts, by kind."""

    shared: frozenset
    first: frozenset
    second: frozenset


def fit(counts):
    """8 times (sum of c·L(c), less t·L(t)); an unseen context has fit 0."""
    t = sum(counts)
    return 8 * (sum(c * L(c) for c in counts) - t * L(t))


class Scale:
    """Fits, costs and scores over the counts of one sitting, which are taken from its samples where none are given. A context
    costs weight·(A-1)·L(n+m) where it is shared, and where it is one sample's own the same of L(n) or L(m)."""

    def __init__(self, sitting, weight, seen=None):
        self.A, self.D = sitting.A, sitting.D
        self.seen = seen or [counts_by_place(sample, sitting.D) for sample in sitting.samples]
        n, m = map(len, sitting.samples)
        lengths = {SHARED: n + m, FIRST: n, SECOND: m}
        self.costs = {kind: weight * (self.A - 1) * L(lengths[kind]) for kind in KINDS}

    def counts(self, kind, s):
        """A shared context has the added counts, an own one those of its sample."""
        if kind == SHARED:
            return tuple(c + d for c, d in zip(self.counts(FIRST, s), self.counts(SECOND, s)))
        return self.seen[kind - FIRST].get(s, UNSEEN)

    def is_seen(self, kind, s):
        """Whether N(s) > 0 in the sample of that kind, or in either where it is shared."""
        return any(self.counts(kind, s))

    def worth(self, kind, s):
        """A context's fit less its cost."""
        return fit(self.counts(kind, s)) - self.costs[kind]

    def score(self, triple):
        """The sum of its contexts' fits less their costs; a context in both own sets counts once in each."""
        return sum(self.worth(kind, s) for kind in KINDS for s in triple[kind])


class Recursion:
    """The best triple by recursion over the full tree, from the root.

    Where a string is not seen, none that ends in it is: two such strings of one length are weighed
    alike, and one stands for all. With `whole` that is not used, and every string up to D is visited.
    """

    def __init__(self, scale, whole=False):
        self.scale = scale
        self.whole = whole
        self.known = {}

    def own(self, kind, s):
        """The best score of a separate tree from s on, and its choice there: leaf before split."""
        return self.once(kind, s, self.weigh_own)

    def joint(self, s):
        """The best score of both trees from s on, and their choice there: shared leaf first,
        then two separate trees, then a split of both."""
        return self.once(SHARED, s, self.weigh_joint)

    def weigh_own(self, kind, s):
        scores = [self.scale.worth(kind, s)]
        if len(s) < self.scale.D:
            scores.append(sum(self.own(kind, child)[0] for child in children(s, self.scale.A)))
        return first_best(scores)

    def weigh_joint(self, kind, s):
        scores = [self.scale.worth(kind, s), self.own(FIRST, s)[0] + self.own(SECOND, s)[0]]
        if len(s) < self.scale.D:
            scores.append(sum(self.joint(child)[0] for child in children(s, self.scale.A)))
        return first_best(scores)

    def once(self, kind, s, weigh):
        place = (kind, s if self.whole or self.scale.is_seen(kind, s) else len(s))
        if place not in self.known:
            self.known[place] = weigh(kind, s)
        return self.known[place]

    def triple(self):
        """The contexts that the choices lead to."""
        sets = (set(), set(), set())
        self.gather_joint((), sets)
        return Triple(*map(frozenset, sets))

    def gather_joint(self, s, sets):
        choice = self.joint(s)[1]
        if choice == SHARED_LEAF:
            sets[SHARED].add(s)
        elif choice == SEPARATE_TREES:
            self.gather_own(FIRST, s, sets)
            self.gather_own(SECOND, s, sets)
        else:
            for child in children(s, self.scale.A):
                self.gather_joint(child, sets)

    def gather_own(self, kind, s, sets):
        if self.own(kind, s)[1] == LEAF:
            sets[kind].add(s)
        else:
            for child in children(s, self.scale.A):
                self.gather_own(kind, child, sets)


def first_best(scores):
    """The best score and the first choice that has it: the scores stand in the order of the tie rule."""
    best = max(scores)
    return best, scores.index(best)
