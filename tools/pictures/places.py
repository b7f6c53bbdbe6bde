"""Where everything stands in the SVG: the first tree grows from the left edge, the second from the right, and the leaves'
details stand between them, each at its leaf's height. What is shared stands once, in the middle."""

from dataclasses import dataclass, field
from typing import Optional

from pictures.report import Kind, Row
from pictures.trees import Leaf, Split, branch_pairs, trees_of
from pictures.widths import is_mark, is_wide

# How wide a character is, as a part of its size, in a font that is rather wide.
NARROW, WIDE, DIGIT, CAPITAL, SMALL = 0.42, 1.0, 0.64, 0.76, 0.64
FULL = 1.3  # a wide character of East Asia, or an emoji
MARGIN = 24
TALL, SHORT = 42, 22  # a line with bars, and one whose contexts were never seen
NEAR = 14  # around marks
GAP = 30  # between the trees and the columns, at least
NAME_SIZE = 11
SLANT = 0.75  # how far up and to the right a tilted name goes, as a part of its width


@dataclass
class Spot:
    """A string of one tree: how many acts it has, its oldest one, and its height in the picture."""

    level: int
    symbol: Optional[int]
    y: float
    row: Optional[Row] = None
    branches: list = field(default_factory=list)


def spots(first, second, top, level=0, symbol=None):
    """The spots of two trees side by side, None where a tree has none there, and where the next line begins."""
    if not isinstance(first, Split) and not isinstance(second, Split):
        seen = any(leaf and leaf.row.total for leaf in (first, second))
        height = TALL if seen else SHORT
        y, below, bottom = top + height / 2, ([], []), top + height
    else:
        placed, bottom = [], top
        for older, pair in enumerate(branch_pairs(first, second)):
            *branches, bottom = spots(*pair, bottom, level + 1, older)
            placed.append(branches)
        heights = [(one or other).y for one, other in placed]
        y = (heights[0] + heights[-1]) / 2
        below = ([spot for spot in of_tree if spot] for of_tree in zip(*placed))
    return *(spot_of(tree, level, symbol, y, here) for tree, here in zip((first, second), below)), bottom


def spot_of(tree, level, symbol, y, branches):
    if tree is None:
        return None
    return Spot(level, symbol, y, tree.row if isinstance(tree, Leaf) else None, branches)


def all_spots(spot):
    """A spot and everything that branches off it."""
    yield spot
    for branch in spot.branches:
        yield from all_spots(branch)


def text_width(text, size=12):
    """As wide as the text may be."""
    return size * sum(map(character_width, text))


def character_width(character):
    if is_mark(character) or is_wide(character):
        return 0 if is_mark(character) else FULL
    if character in " fijlrtI.,:;|'!()":
        return NARROW
    if character in "mwMW%@":
        return WIDE
    return DIGIT if character.isdigit() else CAPITAL if character.isupper() else SMALL


class Column:
    """The details of one kind's contexts: the context in words, a bar and a count for each act, the total."""

    def __init__(self, rows, names):
        labels = ["context", *(row.label(names) for row in rows)]
        self.step = max(text_width(str(max(row.total for row in rows)), NAME_SIZE) + 8, 22)
        self.bars = max(map(text_width, labels)) + 10
        self.total = self.bars + self.step * len(names) + 10
        self.width = self.total + max(self.step, text_width("total", NAME_SIZE))
        self.left = 0

    @property
    def right(self):
        return self.left + self.width

    @property
    def bars_left(self):
        return self.left + self.bars

    @property
    def total_left(self):
        return self.left + self.total

    def middle_of(self, symbol):
        """Where the bar and the count of an act are centred."""
        return self.bars_left + self.step * (symbol + 0.5)


class Places:
    """The trees' spots, the columns and the size of the whole."""

    def __init__(self, report, names, head, least_width):
        name_width = max(text_width(name, NAME_SIZE) for name in names)
        kinds = [kind for kind in (Kind.FIRST, Kind.SHARED, Kind.SECOND) if report.of_kinds(kind)]
        self.columns = {kind: Column(report.of_kinds(kind), names) for kind in kinds}
        self.tilted = name_width > min(column.step for column in self.columns.values())
        self.slant = SLANT * name_width if self.tilted else 0
        self.lines_top = head + self.slant + 24
        *self.roots, bottom = spots(*trees_of(report), self.lines_top)
        self.step = name_width + 32
        self.height = bottom + MARGIN
        self.spread(least_width)

    def spread(self, least_width):
        """Sets the columns between the trees; a picture that would be too narrow gets wider gaps."""
        depths = [max(spot.level for spot in all_spots(root)) for root in self.roots]
        needed = 2 * MARGIN + self.step * sum(depths) + sum(column.width for column in self.columns.values())
        gaps = len(self.columns) + 1
        gap = max(GAP, (least_width - needed) / gaps)
        left = MARGIN + self.step * depths[0] + gap
        for column in self.columns.values():
            column.left = left
            left = column.right + gap
        # tilted names lean to the right, and the last ones may lean out further than the second tree is wide
        self.width = max(needed + gaps * gap, column.total_left + self.slant + MARGIN)

    def x(self, side, spot):
        """The first tree grows to the right, the second to the left."""
        along = MARGIN + self.step * spot.level
        return along if side == 0 else self.width - along
