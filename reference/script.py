"""Scripts of store calls, played by this program and by the built one (README.md has the language).

    python3 -m reference.script < SCRIPT
"""

import re
import struct
from itertools import islice
from typing import NamedTuple

from reference.answers import Both, Done, First, Neither, Refused, Report, Room, Second
from reference.command import Parser, run, standard_input
from reference.limits import BOTH_SAMPLES, ROOMS, ROW, SHEET_ROWS, store_length
from reference.store import Store

# Each call's name at its opcode, and the numbers that follow it.
CALLS = {
    0: ("make", ("K", "LEN")),
    1: ("open", ("DESK", "A", "D", "W", "R")),
    2: ("feed", ("DESK", "SAMPLE", "SYMBOL")),
    3: ("close", ("DESK",)),
    4: ("room", ()),
    5: ("report", ("DESK", "SHEETLEN", "PLACE")),
    6: ("chart", ("DESK", "LENGTH", "CODE", "SYMBOL")),
    7: ("spoil", ("PLACE", "NUMBER")),
    8: ("feedall", ("DESK", "SAMPLE", "COUNT")),  # and then COUNT symbols
}
OPCODES = {name: opcode for opcode, (name, _) in CALLS.items()}

LARGEST = 2**32 - 1  # of every number in a script
SCRIPT_BYTES = 65536
STORE_NUMBERS = store_length(ROOMS[-1])  # what the player lends at most: the longest store
SHEET_NUMBERS = ROW * SHEET_ROWS
FEEDALL_SYMBOLS = BOTH_SAMPLES
BLANK_SHEET = LARGEST  # the sheet is filled with it before each report

UNKNOWN = "unknown"
COMMAND = "python3 -m reference.script"


class BadScript(Exception):
    """The text is not a script; no player promises anything about it."""

    def __str__(self):
        return f"not a script: {super().__str__()}"


class Call(NamedTuple):
    """A call by its name, with its numbers; those of feedall have the symbols and no COUNT."""

    name: str
    numbers: tuple

    def line(self):
        """The call as a line of a script; its name is for readers."""
        numbers = list(self.numbers)
        if self.name == "feedall":
            numbers[2:2] = [len(numbers) - 2]
        return " ".join(map(str, [OPCODES[self.name], self.name, *numbers]))


def call(name, *numbers):
    return Call(name, numbers)


def parse(text):
    """The calls of a script: its decimal numbers in order; whatever is not a digit only parts them."""
    numbers = map(number_of, re.findall("[0-9]+", text))
    calls = []
    for opcode in numbers:
        if opcode not in CALLS:
            raise BadScript(f"no call has the number {opcode}")
        name, following = CALLS[opcode]
        taken = take(numbers, len(following))
        if name == "feedall":
            taken = taken[:2] + take(numbers, taken[2])
        calls.append(Call(name, tuple(taken)))
    return calls


def number_of(word):
    """A number of 32 bits, or one that is too large, however many digits it has."""
    return int(word) if len(word.lstrip("0")) <= len(str(LARGEST)) else LARGEST + 1


def take(numbers, count):
    taken = list(islice(numbers, count))
    if len(taken) < count or any(number > LARGEST for number in taken):
        raise BadScript("the script ends within a call, or a number has more than 32 bits")
    return taken


class Player:
    """Plays calls on one store. After a spoil only the built program knows what its numbers stand
    for: answers are `unknown` until a making is accepted, since making takes any numbers."""

    def __init__(self):
        self.store = Store()
        self.spoilt = False

    def play(self, call):
        """The printed answer of one call, a list of lines."""
        if call.name == "make":
            return self.make(*call.numbers)
        if call.name == "spoil":
            return self.spoil(*call.numbers)
        if self.spoilt:
            return [UNKNOWN]
        if call.name == "feedall":
            return self.feedall(*call.numbers[:2], call.numbers[2:])
        if call.name == "report":
            return self.report(*call.numbers)
        return [answer_line(getattr(self.store, call.name)(*call.numbers))]

    def make(self, K, length):
        if length > STORE_NUMBERS:
            raise BadScript(f"the player has {STORE_NUMBERS} numbers, not {length}")
        answer = self.store.make(K, length)
        self.spoilt = self.spoilt and isinstance(answer, Refused)
        return [answer_line(answer)]

    def spoil(self, place, number):
        if place >= STORE_NUMBERS:
            raise BadScript(f"the player has {STORE_NUMBERS} numbers, none at {place}")
        self.spoilt = True
        return [answer_line(Done())]

    def feedall(self, desk, sample, symbols):
        """Feeds one symbol after the other up to the first refusal."""
        if len(symbols) > FEEDALL_SYMBOLS:
            raise BadScript(f"{len(symbols)} symbols in one feedall")
        for count, symbol in enumerate(symbols):
            answer = self.store.feed(desk, sample, symbol)
            if isinstance(answer, Refused):
                return [f"fed {count} {answer_line(answer)}"]
        return [f"fed {len(symbols)} whole"]

    def report(self, desk, sheet_length, place):
        """The answer, then the rows as they stand on the sheet."""
        if sheet_length > SHEET_NUMBERS:
            raise BadScript(f"a sheet of {sheet_length} numbers")
        sheet = [BLANK_SHEET] * sheet_length
        answer = self.store.report(desk, sheet, place)
        if isinstance(answer, Refused):
            return [answer_line(answer)] + outside_line(sheet)
        written = slice(ROW * place, ROW * (place + answer.rows))
        rows = sheet[written]
        sheet[written] = []
        row_lines = [" ".join(map(str, rows[start : start + ROW])) for start in range(0, len(rows), ROW)]
        return [answer_line(answer)] + row_lines + outside_line(sheet)


def outside_line(rest):
    """A line that is printed only where numbers outside the rows have changed."""
    changed = sum(1 for number in rest if number != BLANK_SHEET)
    return [f"outside {changed}"] if changed else []


def answer_line(answer):
    words = {
        Done: "done",
        Refused: "refused",
        Room: "room",
        Report: "report",
        Neither: "chart neither",
        First: "chart first",
        Second: "chart second",
        Both: "chart both",
    }
    return " ".join([words[type(answer)], *map(number_word, answer)])


def number_word(number):
    """Whole numbers in decimal; a share or a gap as its 64 bits in hex."""
    return struct.pack(">d", number).hex() if isinstance(number, float) else str(number)


def answer_kind(lines):
    """An answer's kind, for tallies: its refusal, which samples a chart question found, or `answered`."""
    words = lines[0].split()
    if "refused" in words:
        return " ".join(words[words.index("refused") :])
    if words[0] == "chart":
        return words[1]
    return words[0] if words[0] == UNKNOWN else "answered"


def play(text):
    """The answers of a script, each a list of lines."""
    player = Player()
    return [player.play(call) for call in parse(text)]


def main():
    Parser(COMMAND, __doc__).parse_args()
    for lines in play(standard_input().decode("ascii", "replace")):
        print("\n".join(lines))


if __name__ == "__main__":
    run(COMMAND, main, BadScript)
