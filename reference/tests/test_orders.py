"""The orders of refusals in docs/REFUSALS.md are those of the definitions, crates/rules/specs/Orders.antt."""

import re
import unittest
from pathlib import Path

REPOSITORY = Path(__file__).resolve().parents[2]
DEFINITIONS = (REPOSITORY / "crates/rules/specs/Orders.antt").read_text("utf-8")
DOCUMENT = (REPOSITORY / "docs/REFUSALS.md").read_text("utf-8")

# Each call as the document names it, how the definition of its list begins, and the numbers that go before the list.
CALLS = {
    "making a store": ("making_order", []),
    "opening a desk": ("order_of (at_desk d (opening o))", [1]),
    "a feed, also each of a run": ("order_of (at_desk d (asking (feed i a)))", [1]),
    "a report": ("order_of (at_desk d (asking (reporting sheet place)))", [1]),
    "a chart question": ("order_of (at_desk d (asking (charting len code a)))", [1]),
    "closing a desk": ("order_of (at_desk d closing)", [1]),
    "the room question": ("order_of room_question", [1]),
    "writing a sitting file": ("writing_order", []),
}
# Of these the document has words first, for the first fault from the left, and then the list.
AFTER_WORDS = {"salvaging a sitting file": "salvage_order", "the program `sitting`": "program_order"}


def defined(name):
    """The list that the definition of that name has."""
    (written,) = re.findall(rf"^{re.escape(name)} = ((?:\d+ ∷ )*)\[\]$", DEFINITIONS, re.MULTILINE)
    return [int(number) for number in written.split(" ∷ ")[:-1]]


def rows():
    """What the document's table of orders says of each call."""
    table = DOCUMENT.partition("| Call | Its numbers, in the order given |\n|---|---|\n")[2].partition("\n\n")[0]
    return dict(line.strip("| ").split(" | ") for line in table.splitlines())


def numbers(words):
    return [int(number) for number in words.split(", ")]


class Orders(unittest.TestCase):
    def test_the_document_has_the_lists(self):
        for call, (name, before) in CALLS.items():
            self.assertEqual(numbers(rows()[call]), before + defined(name), call)
        for call, name in AFTER_WORDS.items():
            self.assertEqual(numbers(rows()[call].partition("; then ")[2]), defined(name), call)

    def test_no_call_and_no_list_is_left_out(self):
        self.assertEqual(set(rows()), {*CALLS, *AFTER_WORDS, "reading a sitting file"})
        lists = len(re.findall(r"^\S.* = (?:\d+ ∷ )*\[\]$", DEFINITIONS, re.MULTILINE))
        self.assertEqual(lists, len(CALLS) + len(AFTER_WORDS))

    def test_no_number_stands_twice_in_a_list(self):
        for name in [name for name, _ in CALLS.values()] + list(AFTER_WORDS.values()):
            self.assertEqual(len(defined(name)), len(set(defined(name))), name)


if __name__ == "__main__":
    unittest.main()
