"""What store calls, the reader, the writer and the salvage answer. Every refusal returns its number alone."""

from typing import NamedTuple


class Done(NamedTuple):
    """An accepted making, opening, feed or closing answers only that it was done."""


class Refused(NamedTuple):
    number: int


class Room(NamedTuple):
    left: int


class Report(NamedTuple):
    """The answer is the row count and the score; the rows stand on the sheet."""

    rows: int
    score: int


class Neither(NamedTuple):
    """Neither sample saw the context."""


class First(NamedTuple):
    """Only the first saw it."""

    share: float


class Second(NamedTuple):
    """Only the second saw it."""

    share: float


class Both(NamedTuple):
    """A point that holds the two shares and their difference, first minus second."""

    first: float
    second: float
    gap: float


class Shape(NamedTuple):
    """For an accepted file the reader answers A, D, n and m."""

    A: int
    D: int
    n: int
    m: int


class Written(NamedTuple):
    """The answer is the file's length; the file stands at the beginning of the buffer."""

    length: int


class Lost(NamedTuple):
    """For each sample how many of its bytes did not exist and how many that did exist were dropped; for the file how
    many bytes after both samples were cut off."""

    first_missing: int
    first_dropped: int
    second_missing: int
    second_dropped: int
    cut_off: int


class Salvaged(NamedTuple):
    """The answer is the saved file's length and what was lost; the file stands at the beginning of the buffer."""

    length: int
    lost: Lost
