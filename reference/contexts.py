"""Contexts: a context s is a string of up to D symbols, oldest first (here a tuple)."""

from itertools import product


def strings_up_to(A, D):
    """Every string of up to D symbols below A, shorter ones first."""
    return [s for length in range(D + 1) for s in product(range(A), repeat=length)]


def is_suffix(u, s):
    """Whether s ends in u."""
    return len(u) <= len(s) and s[len(s) - len(u) :] == u


def children(s, A):
    """The strings one symbol longer than s: each has one older symbol before it."""
    return [(a,) + s for a in range(A)]


def code(s):
    """The sum of symbol times 8^j, where j = 0 for the most recent symbol."""
    return sum(symbol * 8**j for j, symbol in enumerate(reversed(s)))


def string_of(length, number, A):
    """The string of that length over the alphabet whose code the number is; None where there is none."""
    newest_first = []
    for _ in range(length):
        number, symbol = divmod(number, 8)
        newest_first.append(symbol)
    if number > 0 or any(symbol >= A for symbol in newest_first):
        return None
    return tuple(reversed(newest_first))


def row_order(s):
    """Contexts are compared from the most recent symbol backwards, the smaller symbol first,
    the shorter first where one begins the other: the order of tuples."""
    return tuple(reversed(s))
