"""Document 01, "Counts and score": admissible triples by enumeration, and the tie rules over them.

Only for a small A and D: every set of strings is looked at.
"""

from functools import lru_cache
from itertools import combinations

from reference.contexts import children, is_suffix, strings_up_to
from reference.estimate import SEPARATE_TREES, SHARED_LEAF, SPLIT_OF_BOTH, Triple


def subsets(members):
    """Every set of some of the members."""
    members = sorted(members)
    return (frozenset(chosen) for size in range(len(members) + 1) for chosen in combinations(members, size))


def inner_strings(tree):
    """What a member ends in, itself left out: the inner nodes, from the root."""
    return {s[start:] for s in tree for start in range(1, len(s) + 1)}


def is_complete(tree, A):
    """A complete tree has at least one member; no member is a suffix of another, and every inner
    node has all A children."""
    if not tree or any(u != s and is_suffix(u, s) for u in tree for s in tree):
        return False
    inner = inner_strings(tree)
    return all(child in tree or child in inner for s in inner for child in children(s, A))


def is_admissible(triple, A):
    """Shared with first's own is a complete tree, shared with second's own is one too, and the
    shared set meets neither own set."""
    shared, first, second = triple
    trees = is_complete(shared | first, A) and is_complete(shared | second, A)
    return trees and not shared & first and not shared & second


@lru_cache(maxsize=None)
def complete_trees(A, D):
    """Every complete tree of strings of up to D symbols, out of all sets of such strings."""
    return [tree for tree in subsets(strings_up_to(A, D)) if is_complete(tree, A)]


@lru_cache(maxsize=None)
def admissible_triples(A, D):
    """Every admissible triple: two complete trees, and some of what both hold as the shared set."""
    trees = complete_trees(A, D)
    return [
        Triple(shared, first - shared, second - shared)
        for first in trees
        for second in trees
        for shared in subsets(first & second)
    ]


def best_triples(scale):
    """The best score of all admissible triples, and those that have it."""
    worth = {(kind, s): scale.worth(kind, s) for kind in range(3) for s in strings_up_to(scale.A, scale.D)}
    triples = admissible_triples(scale.A, scale.D)
    scores = [sum(worth[kind, s] for kind in range(3) for s in triple[kind]) for triple in triples]
    best = max(scores)
    return best, [triple for triple, score in zip(triples, scores) if score == best]


def first_by_ties(triples, A, D):
    """The triple whose choices from the root come first by the tie rules."""
    strings = strings_up_to(A, D)
    return min(triples, key=lambda triple: [choice_at(triple, s) for s in strings])


def choice_at(triple, s):
    """What a triple chooses at s: for both trees, then within first's and within second's.

    Strings below a leaf are not come to, and none of the choices there differ.
    """
    for start in range(len(s), -1, -1):
        u = s[start:]
        if u in triple.shared:
            return (SHARED_LEAF, 0, 0)
        if not any(is_suffix(u, context) for context in triple.shared):
            return (SEPARATE_TREES if u == s else 0, splits_at(triple.first, s), splits_at(triple.second, s))
    return (SPLIT_OF_BOTH, 0, 0)


def splits_at(tree, s):
    """1 where the tree is split at s; 0 where s is a leaf or below one."""
    return int(any(u != s and is_suffix(s, u) for u in tree))
