"""The two trees of a report, and the lines on which their leaves stand side by side."""

from typing import NamedTuple

from pictures.report import Kind, Malformed, Row


class Leaf(NamedTuple):
    row: Row


class Split(NamedTuple):
    """A string that is no context itself: its branches go on to the older symbols, 0 first."""

    branches: tuple


def trees_of(report):
    """The trees of the first and of the second sample; each is complete."""
    trees = []
    for name, own in (("first", Kind.FIRST), ("second", Kind.SECOND)):
        tree = grown(report.of_kinds(Kind.SHARED, own), report.A, 0)
        if tree is None:
            raise Malformed(f"the contexts of the {name} sample are no complete tree")
        trees.append(tree)
    return trees


def grown(rows, A, depth):
    """The tree of the rows' contexts, which agree on their last `depth` symbols; None where it is not complete."""
    if len(rows) == 1 and len(rows[0].symbols) == depth:
        return Leaf(rows[0])
    if not rows or any(len(row.symbols) <= depth for row in rows):
        return None
    branches = tuple(grown([row for row in rows if row.symbols[-1 - depth] == a], A, depth + 1) for a in range(A))
    return None if None in branches else Split(branches)


def line_count(first, second):
    """How many lines two trees take side by side: a line for each place where neither goes on."""
    if not isinstance(first, Split) and not isinstance(second, Split):
        return 1
    return sum(line_count(*pair) for pair in branch_pairs(first, second))


def branch_pairs(first, second):
    """The branches of two trees side by side, symbol by symbol; None where a tree does not go on."""
    many = len((first if isinstance(first, Split) else second).branches)
    return list(zip(*(tree.branches if isinstance(tree, Split) else (None,) * many for tree in (first, second))))
