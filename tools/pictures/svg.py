"""The drawing as SVG. Kinds are told apart by colour and by shape."""

from xml.sax.saxutils import escape

from pictures.places import MARGIN, NAME_SIZE, NEAR, Places, all_spots, text_width
from pictures.report import Kind

# Colours that remain different to colour-blind eyes (Okabe and Ito).
COLOURS = {Kind.SHARED: "#0072b2", Kind.FIRST: "#d55e00", Kind.SECOND: "#009e73"}
TITLES = {Kind.SHARED: "shared", Kind.FIRST: "the first's own", Kind.SECOND: "the second's own"}
INK, FAINT, LINE = "#1a1a1a", "#6b6b6b", "#8a8a8a"
MARK = 5.5
BAR_HEIGHT, BAR_WIDTH = 20, 14

NOTES = [
    "Each tree begins at its edge with the last act and goes on to older ones; a context is written with its oldest act first.",
    "A number says how often that act came next, a bar how large a part of the total that is; shared counts are those of both added.",
    "The score serves to choose among descriptions of these two strings. It is no mark.",
]
TITLE_BASE, LEGEND_BASE, NOTES_BASE = 34, 60, 84


def drawing(report, names, source=None):
    """The whole picture; its last note says where the report came from, where that is known."""
    notes = [*NOTES, source] if source else NOTES
    least = 2 * MARGIN + max(text_width(note, NAME_SIZE) for note in notes)
    head = NOTES_BASE + 16 * len(notes) + 8
    places = Places(report, names, head + 20, least)
    parts = [*heading(report, places, notes, head), *sides(places, names), *headers(places, names)]
    for spot in leaves_once(places):
        parts += details(places.columns[spot.row.kind], spot, names)
    size = f'width="{places.width:.0f}" height="{places.height:.0f}" viewBox="0 0 {places.width:.0f} {places.height:.0f}"'
    opening = f'<svg xmlns="http://www.w3.org/2000/svg" {size} role="img" font-family="DejaVu Sans, Verdana, sans-serif">'
    ground = '<rect width="100%" height="100%" fill="#ffffff"/>'
    return "\n".join([opening, f"<title>{escape(title(report))}</title>", ground, *parts, "</svg>"]) + "\n"


def title(report):
    rows = counted(len(report.rows), "row")
    return f"A {report.A}, D {report.D}, n {report.n}, m {report.m}: {rows}, score {report.score}"


def counted(many, what):
    return f"{many} {what}" if many == 1 else f"{many} {what}s"


def heading(report, places, notes, head):
    """The title, the legend and what to know for reading."""
    yield words(MARGIN, TITLE_BASE, title(report), size=17, weight="bold")
    x = MARGIN + MARK
    for kind, name in TITLES.items():
        yield mark(kind, x, LEGEND_BASE - 4)
        yield words(x + NEAR, LEGEND_BASE, name, size=13)
        x += text_width(name, 13) + 3 * NEAR
    for place, note in enumerate(notes):
        yield faint(MARGIN, NOTES_BASE + 16 * place, note)
    base = head + 12
    yield words(MARGIN, base, f"first sample, {counted(report.n, 'act')}", size=13, weight="bold")
    yield words(places.width - MARGIN, base, f"second sample, {counted(report.m, 'act')}", size=13, weight="bold", anchor="end")


def sides(places, names):
    """Both trees, and a line from each leaf to its details."""
    for side, root in enumerate(places.roots):
        for spot in all_spots(root):
            for branch in spot.branches:
                yield from edge(places, side, spot, branch, names)
        for spot in all_spots(root):
            if spot.row:
                yield lead(places, side, spot)
                yield mark(spot.row.kind, places.x(side, spot), spot.y)
            else:
                yield f'<circle cx="{places.x(side, spot):.1f}" cy="{spot.y:.1f}" r="3" fill="{LINE}"/>'


def edge(places, side, spot, branch, names):
    """From a string to one with an older act before it, whose name stands on the line."""
    start, end = places.x(side, spot), places.x(side, branch)
    bend, name_at, anchor = (start + 10, start + 15, "start") if side == 0 else (start - 10, start - 15, "end")
    yield path(f"M{start:.1f} {spot.y:.1f}H{bend:.1f}V{branch.y:.1f}H{end:.1f}", LINE)
    yield words(name_at, branch.y - 3, names[branch.symbol], size=NAME_SIZE, anchor=anchor)


def lead(places, side, spot):
    """From a leaf to its details."""
    column = places.columns[spot.row.kind]
    end = column.left - 6 if side == 0 else column.right
    return path(f"M{places.x(side, spot):.1f} {spot.y:.1f}H{end:.1f}", COLOURS[spot.row.kind], dash="1 4")


def headers(places, names):
    """Above each column its kind, and above each bar the act's name."""
    base = places.lines_top - 6
    for kind, column in places.columns.items():
        yield mark(kind, column.left - NEAR, base - 4)
        yield faint(column.left, base, "context")
        for symbol, name in enumerate(names):
            x = column.middle_of(symbol)
            tilt = f' transform="rotate(-45 {x:.1f} {base:.1f})"' if places.tilted else ""
            yield faint(x, base, name, anchor="start" if tilt else "middle", more=tilt)
        yield faint(column.total_left, base, "total")


def leaves_once(places):
    """Every leaf; one that is shared has two spots at one height, and is told once."""
    first, second = places.roots
    yield from (spot for spot in all_spots(first) if spot.row)
    yield from (spot for spot in all_spots(second) if spot.row and spot.row.kind == Kind.SECOND)


def details(column, spot, names):
    """A leaf's context, its bars with their counts, and its total."""
    row, base = spot.row, spot.y + 7
    yield words(column.left, spot.y + 4, row.label(names))
    if not row.total:
        yield faint(column.bars_left, spot.y + 4, "never seen")
        return
    yield path(f"M{column.bars_left:.1f} {base:.1f}H{column.total_left - 10:.1f}", "#d0d0d0")
    for symbol, count in enumerate(row.counts):
        x, height = column.middle_of(symbol), max(BAR_HEIGHT * count / row.total, 1.5)
        if count:
            box = f'x="{x - BAR_WIDTH / 2:.1f}" y="{base - height:.1f}" width="{BAR_WIDTH}" height="{height:.1f}"'
            yield f'<rect {box} fill="{COLOURS[row.kind]}"/>'
        yield words(x, base + 11, str(count), size=NAME_SIZE, anchor="middle", fill=INK if count else FAINT)
    yield faint(column.total_left, base + 11, str(row.total))


def faint(x, y, text, **more):
    return words(x, y, text, size=NAME_SIZE, fill=FAINT, **more)


def words(x, y, text, size=12, fill=INK, anchor="start", weight="normal", more=""):
    style = f'font-size="{size}" fill="{fill}" text-anchor="{anchor}" font-weight="{weight}"'
    return f'<text x="{x:.1f}" y="{y:.1f}" {style}{more}>{escape(text)}</text>'


def path(along, colour, dash="none"):
    return f'<path d="{along}" fill="none" stroke="{colour}" stroke-dasharray="{dash}"/>'


def mark(kind, x, y):
    """A circle, a square or a triangle."""
    fill = f'fill="{COLOURS[kind]}"'
    if kind == Kind.SHARED:
        return f'<circle cx="{x:.1f}" cy="{y:.1f}" r="{MARK}" {fill}/>'
    if kind == Kind.FIRST:
        return f'<rect x="{x - MARK + 0.5:.1f}" y="{y - MARK + 0.5:.1f}" width="{2 * MARK - 1}" height="{2 * MARK - 1}" {fill}/>'
    top, base = y - MARK - 0.5, y + MARK - 0.5
    return f'<path d="M{x:.1f} {top:.1f}L{x + MARK + 1:.1f} {base:.1f}H{x - MARK - 1:.1f}Z" {fill}/>'
