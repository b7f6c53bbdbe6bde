"""Document 01, "Sitting file and program": the reader; request E1: the writer.

The file: A, D, n, m, n symbols, m symbols. Symbols are numbers as those of the header are.
"""

from reference.answers import Refused, Shape, Written
from reference.limits import ALPHABETS, DEPTHS, SAMPLE_LIMIT

GROUP = 128  # a group has seven bits; from here up the high bit is set
LENGTHS = range(SAMPLE_LIMIT + 1)


class Fault(Exception):
    """The first fault from the left, by its refusal's number."""


class Reading:
    """A file, how many of its bytes have been read, and which lengths of samples are read."""

    def __init__(self, file, limit=SAMPLE_LIMIT):
        self.file = file
        self.lengths = range(limit + 1)
        self.place = 0

    def group(self):
        """The next byte; 13 where the file ends before its last number is complete."""
        if self.place == len(self.file):
            raise Fault(13)
        self.place += 1
        return self.file[self.place - 1]

    def number(self, limits):
        """The next number, lowest group first, judged when it has been read whole."""
        value = self.group()
        if value >= GROUP:
            value = value - GROUP + GROUP * self.second_group()
        if value not in limits:
            raise Fault(15)
        return value

    def second_group(self):
        """14, judged at that byte: the number is not in its shortest form, or the high bit is set."""
        group = self.group()
        if group == 0 or group >= GROUP:
            raise Fault(14)
        return group

    def header(self):
        return Shape(*(self.number(limits) for limits in (ALPHABETS, DEPTHS, self.lengths, self.lengths)))

    def symbols(self, shape):
        for _ in range(shape.n + shape.m):
            self.number(range(shape.A))

    def end(self):
        """16: bytes after the last symbol."""
        if self.place < len(self.file):
            raise Fault(16)


def read(file, limit=SAMPLE_LIMIT):
    """A, D, n and m of an accepted file, or the refusal of its first fault from the left. Request E2 speaks of readers
    of two sample limits: the limit is the reader's own."""
    reading = Reading(file, limit)
    try:
        shape = reading.header()
        reading.symbols(shape)
        reading.end()
    except Fault as fault:
        return Refused(fault.args[0])
    return shape


def samples_of(file, shape):
    """The symbols are an accepted file's last n + m bytes, one each."""
    symbols = tuple(file[len(file) - shape.n - shape.m :])
    return symbols[: shape.n], symbols[shape.n :]


def number_bytes(value):
    """A number below 16,384 in its shortest form."""
    if value < GROUP:
        return bytes([value])
    return bytes([GROUP + value % GROUP, value // GROUP])


def write(A, D, first, second):
    """The file of those values, whether or not they lie within the limits: for tests and samples."""
    numbers = [A, D, len(first), len(second), *first, *second]
    return b"".join(map(number_bytes, numbers))


def may_be_written(A, D, first, second):
    """Whether every value lies within its limits."""
    header = A in ALPHABETS and D in DEPTHS and len(first) in LENGTHS and len(second) in LENGTHS
    return header and all(symbol in range(A) for symbol in [*first, *second])


def write_into(A, D, first, second, buffer):
    """Writes the file into a lent buffer, whose bytes past the file's end stay. 15: bad values; after it
    19: a buffer too short."""
    if not may_be_written(A, D, first, second):
        return Refused(15)
    file = write(A, D, first, second)
    if len(buffer) < len(file):
        return Refused(19)
    buffer[: len(file)] = file
    return Written(len(file))
