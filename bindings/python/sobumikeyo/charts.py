"""What the chart question answers."""

from typing import NamedTuple, Optional


class Chart(NamedTuple):
    """How often, of the times that a sample saw a context, a symbol came next, at places from depth + 1 on: a
    share from 0 to 1.

    None stands for a sample that did not see the context. The gap, first less second, is there where
    both did.
    """

    first: Optional[float] = None
    second: Optional[float] = None
    gap: Optional[float] = None
