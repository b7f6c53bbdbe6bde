#!/usr/bin/env python3
"""Plays a script of store calls (the language is in reference/README.md) and prints every answer.

    python3 bindings/python/play.py < reference/scripts/marked.script
"""

import re
import struct
import sys
from array import array
from itertools import islice
from pathlib import Path

from sobumikeyo import ROW_WIDTH, Context, Refusal, Stopped, Store

sys.path.append(str(Path(__file__).resolve().parents[2]))

from reference.command import Fault, Parser, run, standard_input  # noqa: E402 (the path comes first)

COMMAND = "bindings/python/play.py"
PLAYER_NUMBERS = 100_352
LONGEST_SHEET = 5_632
BLANK = 2**32 - 1
LARGEST_BYTE = 255


class Player:
    """A store of the first of the player's numbers, and those that it does not lend."""

    def __init__(self):
        self.store, self.rest = Store.of_numbers((0,) * PLAYER_NUMBERS), ()

    def numbers(self):
        return self.store.numbers() + self.rest

    def lend(self, numbers, many):
        """From now on a store of the first so many of these numbers."""
        self.store, self.rest = Store.of_numbers(numbers[:many]), numbers[many:]

    def make(self, room, many):
        """A refused making leaves lent what was lent before."""
        if many > PLAYER_NUMBERS:
            raise Fault(f"not a script: the player has {PLAYER_NUMBERS} numbers, not {many}")
        before = self.store, self.rest
        self.lend(self.numbers(), many)
        try:
            self.store.make(room)
        except Refusal:
            self.store, self.rest = before
            raise
        return "done"

    def open(self, *numbers):
        self.store.open(*numbers)
        return "done"

    def feed(self, *numbers):
        self.store.feed(*numbers)
        return "done"

    def close(self, desk):
        self.store.close(desk)
        return "done"

    def room(self):
        return f"room {self.store.room_left()}"

    def report(self, desk, sheet_length, place):
        """The answer, the rows as they stand on the sheet, and how many numbers outside them have changed,
        where any have."""
        if sheet_length > LONGEST_SHEET:
            raise Fault(f"not a script: a sheet has up to {LONGEST_SHEET} numbers, not {sheet_length}")
        sheet = array("I", [BLANK] * sheet_length)
        try:
            rows, score = self.store.report_on(desk, sheet, place)
        except Refusal as refusal:
            return "\n".join([f"refused {refusal.number}", *outside(sheet)])
        written = slice(ROW_WIDTH * place, ROW_WIDTH * (place + rows))
        kept = sheet[written]
        del sheet[written]
        row_lines = [words(kept[start : start + ROW_WIDTH]) for start in range(0, len(kept), ROW_WIDTH)]
        return "\n".join([f"report {rows} {score}", *row_lines, *outside(sheet)])

    def chart(self, desk, length, code, symbol):
        """Shares and gaps are printed as their bits."""
        chart = self.store.chart(desk, Context(length, code), symbol)
        seen = (chart.first is not None, chart.second is not None)
        who = {(False, False): "neither", (True, False): "first", (False, True): "second", (True, True): "both"}[seen]
        return " ".join(["chart", who, *(struct.pack(">d", share).hex() for share in chart if share is not None)])

    def spoil(self, place, number):
        if place >= PLAYER_NUMBERS:
            raise Fault(f"not a script: the player has {PLAYER_NUMBERS} numbers, none at {place}")
        many, numbers = len(self.store.numbers()), self.numbers()
        self.lend(numbers[:place] + (number,) + numbers[place + 1 :], many)
        return "done"

    def feed_all(self, desk, sample, *symbols):
        """With no symbols no call is made, by the language's rule. A symbol too large for a byte is refused
        as 255 is: neither is below any alphabet's size."""
        try:
            if symbols:
                self.store.feed_all(desk, sample, [min(symbol, LARGEST_BYTE) for symbol in symbols])
        except Stopped as stopped:
            return f"fed {stopped.accepted} refused {stopped.number}"
        return f"fed {len(symbols)} whole"


# Each call at its opcode, and how many numbers follow it; those of feed_all end in how many more follow.
CALLS = [
    (Player.make, 2),
    (Player.open, 5),
    (Player.feed, 3),
    (Player.close, 1),
    (Player.room, 0),
    (Player.report, 3),
    (Player.chart, 4),
    (Player.spoil, 2),
    (Player.feed_all, 3),
]


def words(numbers):
    return " ".join(map(str, numbers))


def outside(rest):
    """A line that is printed only where numbers outside the rows have changed."""
    changed = sum(number != BLANK for number in rest)
    return [f"outside {changed}"] if changed else []


def take(script, many):
    numbers = list(islice(script, many))
    if len(numbers) < many:
        raise Fault("not a script: it ends within a call")
    return numbers


def answers(text):
    """The answer of each call of a script, as printed."""
    script = map(int, re.findall("[0-9]+", text))
    player = Player()
    for opcode in script:
        if opcode >= len(CALLS):
            raise Fault(f"not a script: no call has the number {opcode}")
        call, many = CALLS[opcode]
        numbers = take(script, many)
        if call is Player.feed_all:
            numbers += take(script, numbers.pop())
        try:
            yield call(player, *numbers)
        except Refusal as refusal:
            yield f"refused {refusal.number}"


def main():
    Parser(COMMAND, __doc__).parse_args()
    for answer in answers(standard_input().decode("ascii", "replace")):
        print(answer)


if __name__ == "__main__":
    run(COMMAND, main, ImportError, ValueError)
