"""The program's output, read back: a line with A, D, n, m, row count and score, then the rows. Anything else is refused."""

import re
from enum import IntEnum
from typing import NamedTuple
from unicodedata import name as unicode_name
from unicodedata import normalize

from pictures.widths import is_mark

ALPHABETS = range(2, 9)
DEPTHS = range(0, 7)
CODE_BASE = 8
LONGEST_NAME = 40  # characters, marks on others not counted
ANY_PAST = "any past"  # the empty context in words


class Malformed(Exception):
    """The text is no report, with the reason in words."""


class Kind(IntEnum):
    SHARED = 0
    FIRST = 1
    SECOND = 2


class Row(NamedTuple):
    """A context, its symbols oldest first, and how often each symbol came next."""

    kind: Kind
    symbols: tuple
    counts: tuple

    @property
    def total(self):
        return sum(self.counts)

    def label(self, names):
        """The context in words; between names, which may have blanks, the arrow points to the later act."""
        between = " " if all(len(name) == 1 for name in names) else " › "
        return between.join(names[symbol] for symbol in self.symbols) or ANY_PAST


class Report(NamedTuple):
    A: int
    D: int
    n: int
    m: int
    score: int
    rows: tuple

    def of_kinds(self, *kinds):
        return [row for row in self.rows if row.kind in kinds]


def read_report(text):
    """The report that the program printed."""
    lines = text.splitlines()
    if not lines:
        raise Malformed("there is nothing to draw: the text is empty")
    if lines[0].startswith(("#", "alphabet")):
        raise Malformed("this is the source of a sitting file: samples/make writes the file itself")
    if re.fullmatch(r"refused \d+", lines[0]):
        raise Malformed(f"there is nothing to draw: the program {lines[0]} (docs/REFUSALS.md says what that means)")
    A, D, n, m, many, score = numbers_of(lines[0], 1, ("A", "D", "n", "m", "row count", "score"))
    if A not in ALPHABETS or D not in DEPTHS or min(n, m) <= D or score > 0:
        raise Malformed("line 1: A is 2 to 8, D 0 to 6, n and m are above D, and the score never above 0")
    if many != len(lines) - 1:
        raise Malformed(f"line 1 announces {many} rows, and {len(lines) - 1} follow")
    rows = tuple(read_row(line, place, A, D) for place, line in enumerate(lines[1:], start=2))
    order = [(row.symbols[::-1], row.kind) for row in rows]
    if any(one >= next_one for one, next_one in zip(order, order[1:])):
        raise Malformed("the rows are not in their order: by the most recent symbol, then older ones, then kind")
    return Report(A, D, n, m, score, rows)


def read_row(line, place, A, D):
    kind, length, code, *counts = numbers_of(line, place, ("kind", "length", "code", *(f"count of {a}" for a in range(A))))
    if kind not in tuple(Kind) or not 0 <= length <= D or min(counts) < 0:
        raise Malformed(f"line {place}: a kind is 0 to 2, a length 0 to {D}, and no count is below 0")
    symbols = tuple(code // CODE_BASE**j % CODE_BASE for j in reversed(range(length)))
    if not 0 <= code < CODE_BASE**length or any(symbol >= A for symbol in symbols):
        raise Malformed(f"line {place}: {code} is not the code of {length} symbols below {A}")
    return Row(Kind(kind), symbols, tuple(counts))


def numbers_of(line, place, names):
    """The whole numbers of a line, as many as there are names."""
    words = line.split(" ")
    if len(words) != len(names) or not all(re.fullmatch(r"-?[0-9]{1,18}", word) for word in words):
        raise Malformed(f"line {place} should be {len(names)} whole numbers ({', '.join(names)}), and is {line!r:.80}")
    return [int(word) for word in words]


def read_names(text, A):
    """The names of the acts, a line each, symbol 0 first; lines that begin with # are for readers."""
    lines = [(place, line.strip(" ")) for place, line in enumerate(text.split("\n"), start=1) if not line.startswith("#")]
    names = [read_name(line, place) for place, line in lines if line]
    if len(names) != A:
        raise Malformed(f"the report has {A} symbols, and the file of names has {len(names)} names")
    for symbol, name in enumerate(names):
        if name in names[:symbol]:
            raise Malformed(f"two acts have one name, {name!r}: acts {names.index(name)} and {symbol}")
    return names


def read_name(line, place):
    """A name, as one spelling has it: characters that can be written in two ways are one."""
    name = normalize("NFC", line)
    for character in name:
        if not character.isprintable():
            raise Malformed(f"line {place} of the names has {called(character)} in it, which cannot be drawn")
    if is_mark(name[0]):
        raise Malformed(f"line {place} of the names begins with {called(name[0])}, which stands on no character")
    many = sum(not is_mark(character) for character in name)
    if many > LONGEST_NAME:
        raise Malformed(f"line {place} of the names has {many} characters, and a name has at most {LONGEST_NAME}")
    return name


def called(character):
    """A character that cannot be drawn, in words."""
    if character == "\t":
        return "a tab"
    return f"the character U+{ord(character):04X} ({unicode_name(character, 'a control character')})"
