"""Document 01, "Sitting file and program": what the program prints, with the weight of request E5.

    python3 -m reference.program < FILE
"""

import sys

from reference.answers import Refused
from reference.command import Parser, run, standard_input
from reference.limits import ROW, SHEET_ROWS
from reference.sitting_file import read, samples_of
from reference.store import Store

INPUT_BYTES = 4608
STORE_NUMBERS = 8192
K = 256
WEIGHT = 4  # quarters: the plain penalty
COMMAND = "python3 -m reference.program"


def output(file):
    """The program's whole output for the bytes at standard input.

    Longer input is judged on its first 4,608 bytes.
    """
    lines = answer_lines(file[:INPUT_BYTES])
    return "".join(line + "\n" for line in lines)


def answer_lines(file):
    shape = read(file)
    if isinstance(shape, Refused):
        return refused_line(shape)
    store = Store()
    for answer in played(store, shape, samples_of(file, shape)):
        if isinstance(answer, Refused):
            return refused_line(answer)
    sheet = [0] * (ROW * SHEET_ROWS)
    report = store.report(0, sheet, 0)
    if isinstance(report, Refused):
        return refused_line(report)
    return report_lines(shape, report, sheet)


def played(store, shape, samples):
    """Makes the store, opens desk 0 at weight 4 with r 256, feeds the first sample and then the second."""
    yield store.make(K, STORE_NUMBERS)
    yield store.open(0, shape.A, shape.D, WEIGHT, K)
    for sample, symbols in enumerate(samples):
        for symbol in symbols:
            yield store.feed(0, sample, symbol)


def refused_line(refused):
    return [f"refused {refused.number}"]


def report_lines(shape, report, sheet):
    """A line with A, D, n, m, row count, score; then a line for each row with kind,
    length, code and A counts."""
    rows = [sheet[ROW * row : ROW * row + 3 + shape.A] for row in range(report.rows)]
    return [" ".join(map(str, numbers)) for numbers in [[*shape, *report], *rows]]


def main():
    Parser(COMMAND, __doc__).parse_args()
    sys.stdout.write(output(standard_input(INPUT_BYTES)))


if __name__ == "__main__":
    run(COMMAND, main)
