#!/usr/bin/env python3
"""Prints the report on a sitting file at standard input, as the repository's own program does.

    python3 bindings/python/sitting.py < samples/alike.sitting
"""

import sys
from array import array
from pathlib import Path

from sobumikeyo import PLAIN_WEIGHT, ROW_WIDTH, Refusal, Sample, Store, read

sys.path.append(str(Path(__file__).resolve().parents[2]))

from reference.command import Parser, run, standard_input  # noqa: E402 (the path comes first)

COMMAND = "bindings/python/sitting.py"
INPUT_BYTES = 4608
ROOM = 256
SHEET_ROWS = 512


def report_lines(file):
    sitting = read(file)
    store = Store(ROOM)
    store.open(0, sitting.alphabet, sitting.depth, PLAIN_WEIGHT, ROOM)
    store.feed_all(0, Sample.FIRST, sitting.first)
    store.feed_all(0, Sample.SECOND, sitting.second)
    sheet = array("I", bytes(4 * ROW_WIDTH * SHEET_ROWS))
    rows, score = store.report_on(0, sheet, 0)
    yield sitting.alphabet, sitting.depth, len(sitting.first), len(sitting.second), rows, score
    for start in range(0, rows * ROW_WIDTH, ROW_WIDTH):
        yield sheet[start : start + 3 + sitting.alphabet]


def output(file):
    """The whole output for the bytes at standard input."""
    try:
        lines = list(report_lines(file[:INPUT_BYTES]))
    except Refusal as refusal:
        lines = [("refused", refusal.number)]
    return "".join(" ".join(map(str, line)) + "\n" for line in lines)


def main():
    Parser(COMMAND, __doc__).parse_args()
    sys.stdout.write(output(standard_input(INPUT_BYTES)))


if __name__ == "__main__":
    run(COMMAND, main, ImportError)
