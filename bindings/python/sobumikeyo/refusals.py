"""Refusals: a number each, with the words of docs/REFUSALS.md."""


class Refusal(Exception):
    """Why a call was refused. A refused call changes nothing. Where several refusals apply, the first
    in the order given is given; docs/REFUSALS.md has the order for each call.

    >>> Refusal(4).number
    4
    >>> print(Refusal(4))
    refused 4: The desk is not open. Open it first.
    """

    def __init__(self, number):
        super().__init__(number)
        self.number = number

    @property
    def happened(self):
        """What happened, in a sentence."""
        return self._words()[0]

    @property
    def advice(self):
        """What to do, in a sentence."""
        return self._words()[1]

    def _words(self):
        return WORDS.get(self.number, UNKNOWN)

    def __str__(self):
        return f"refused {self.number}: {self.happened} {self.advice}"


class Stopped(Refusal):
    """A run of feeds that stopped at a refusal: the symbols before it, `accepted` of them, stay fed."""

    def __init__(self, number, accepted):
        super().__init__(number)
        self.args = number, accepted  # what a copy is made of
        self.accepted = accepted

    def __str__(self):
        return f"after {self.accepted} symbols: {super().__str__()}"


def refuse_unless_zero(answer):
    """What a call's answer says: 0 is accepted."""
    if answer:
        raise Refusal(answer)


# A number that the table does not have can come from a library of another version alone.
UNKNOWN = (
    "This is no refusal that is known here.",
    "See that the library is the one of this module.",
)

# What happened and what to do, by number.
WORDS = {
    1: (
        "The store was never made, or its numbers were changed from outside.",
        "Make it anew, or go back to a copy that was kept; only the calls may write to it.",
    ),
    2: (
        "There is no such desk.",
        "Name a desk from 0 to 7.",
    ),
    3: (
        "The desk is already open.",
        "Close it first, or open another.",
    ),
    4: (
        "The desk is not open.",
        "Open it first.",
    ),
    5: (
        "The alphabet or the depth is outside its limits.",
        "Name an alphabet of 2 to 8 symbols and a depth from 0 to 6.",
    ),
    6: (
        "The reservation is 0, or more than the store has room for.",
        "Reserve at least 1 context and at most the store's room.",
    ),
    7: (
        "The reservation is more than the room left.",
        "Reserve less, or close a desk that has done its work.",
    ),
    8: (
        "The sitting has no such sample, symbol or context.",
        "Name sample 0 or 1, symbols below the alphabet's size, and contexts no longer than the depth.",
    ),
    9: (
        "The sample already has 2,048 symbols.",
        "Feed it no more; further acts need a sitting of their own.",
    ),
    10: (
        "The sitting would have more contexts than it reserved.",
        "Reserve more at opening, or take a smaller depth, and feed both samples again.",
    ),
    11: (
        "A sample is still empty.",
        "Feed each of the two samples more symbols than the depth before the report.",
    ),
    12: (
        "The report's rows do not fit the sheet.",
        "Lend a longer sheet, or begin at an earlier row.",
    ),
    13: (
        "The file ends too early.",
        "See that all of it was copied, and that it has as many symbols as its header says. "
        "Where the header is whole, a salvage keeps what is there.",
    ),
    14: (
        "A number in the file is not in its shortest form.",
        "Write it in as few bytes as it needs, which is never more than two. "
        "If it is a symbol, a salvage keeps its sample up to it.",
    ),
    15: (
        "A number of the file, read or to be written, is outside its limits.",
        "Keep the alphabet from 2 to 8, the depth to 6, each length to 2,048, and each symbol below the alphabet's size. "
        "If it is a symbol in a file, a salvage keeps its sample up to it.",
    ),
    16: (
        "The file goes on after its last symbol.",
        "Take the last bytes away, as a salvage does, or correct the lengths in its header.",
    ),
    17: (
        "The room asked for is outside its limits.",
        "Ask for room for 1 to 4,096 contexts.",
    ),
    18: (
        "Too few numbers were lent for the store.",
        "Lend at least 2,048 numbers and 24 more for each context of its room.",
    ),
    19: (
        "The bytes lent are fewer than the file to be written or saved has.",
        "Lend as many bytes as the two samples have symbols and 6 more; for a salvage, as many as the damaged file has.",
    ),
    20: (
        "The weight is outside its limits.",
        "Name a weight from 0 to 16 quarters; 4 is the plain penalty.",
    ),
    24: (
        "A sample has symbols, but no more than the depth, so none of them counts.",
        "Feed each of the two samples more symbols than the depth before the report, or take a smaller depth.",
    ),
}
