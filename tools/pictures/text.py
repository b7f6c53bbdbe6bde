"""The drawing in text: both trees, a leaf a line; what is shared stands at the same height in both."""

from pictures.report import Kind
from pictures.trees import Split, branch_pairs, line_count, trees_of
from pictures.widths import columns, padded

MARKS = {Kind.SHARED: "○", Kind.FIRST: "■", Kind.SECOND: "▲"}
BARS = "▁▂▃▄▅▆▇█"
NO_BAR = "·"
BETWEEN = "    "


def drawing(report, names, source=None):
    """The whole drawing, line by line; the last says where the report came from, where that is known."""
    first, second = trees_of(report)
    left = ["first sample", *side(first, second, report, names)]
    right = ["second sample", *side(second, first, report, names)]
    width = max(map(columns, left))
    lines = [padded(one, width) + BETWEEN + other for one, other in zip(left, right)]
    ending = ["", source] if source else []
    return "".join(line.rstrip() + "\n" for line in [*heading(report, names), "", *lines, *ending])


def heading(report, names):
    yield f"A {report.A}  D {report.D}  n {report.n}  m {report.m}  rows {len(report.rows)}  score {report.score}"
    yield f"{MARKS[Kind.SHARED]} shared   {MARKS[Kind.FIRST]} the first's own   {MARKS[Kind.SECOND]} the second's own"
    yield f"a leaf has the acts just before, oldest first, then bars and counts of the act that came next: {', '.join(names)}"


def side(tree, other, report, names):
    """One tree's lines, as many as both take side by side: its branches, then the leaves one below the other."""
    lines = branches(tree, other, max(map(columns, names)), names)
    width = max(columns(drawn) for drawn, _ in lines)
    label_width = max(columns(row.label(names)) for row in report.rows)
    count_width = max(len(str(count)) for row in report.rows for count in row.counts)
    for drawn, leaf in lines:
        if leaf is None:
            yield drawn
        else:
            yield f"{padded(drawn, width, '─' if drawn else ' ')} {leaf_words(leaf.row, names, label_width, count_width)}"


def branches(tree, other, name_width, names):
    """Each line as what is drawn of the tree, and the leaf that ends it."""
    if not isinstance(tree, Split):
        lines = line_count(tree, other)
        return [("", tree)] + [("", None)] * (lines - 1)
    drawn = []
    pairs = branch_pairs(tree, other)
    for symbol, (branch, beside) in enumerate(pairs):
        last = symbol == len(pairs) - 1
        knot = "┬" if symbol == 0 else "└" if last else "├"
        name = padded(f"─ {names[symbol]} ", name_width + 3, "─") + "─"
        for place, (rest, leaf) in enumerate(branches(branch, beside, name_width, names)):
            before = knot + name if place == 0 else (" " if last else "│") + " " * columns(name)
            drawn.append((before + rest if place == 0 or rest else before.rstrip(), leaf))
    return drawn


def leaf_words(row, names, label_width, count_width):
    bars = "".join(bar(count, row.total) for count in row.counts)
    counts = " ".join(str(count).rjust(count_width) for count in row.counts)
    return f"{MARKS[row.kind]} {padded(row.label(names), label_width)}  {bars}  {counts}"


def bar(count, total):
    """How large a part of the total, in eighths rounded up; a dot for none."""
    return BARS[-(-count * len(BARS) // total) - 1] if count else NO_BAR
