"""The limits of document 01 and of requests E2 and E5, each named once."""

ALPHABETS = range(2, 9)  # alphabet size A from 2 to 8
DEPTHS = range(0, 7)  # depth D from 0 to 6
WEIGHTS = range(0, 17)  # weight on the penalty, 0 to 16 quarters
SAMPLES = range(0, 2)  # a sitting's two samples
SAMPLE_LIMIT = 2048  # each sample holds 0 to 2,048 symbols
BOTH_SAMPLES = 2 * SAMPLE_LIMIT  # what both hold at most: L is asked up to it
DESKS = range(0, 8)  # desks 0 to 7
ROOMS = range(1, 4097)  # store room K from 1 to 4,096 contexts

COUNTS = 8  # counts of a context in one sample, 0 for symbols from A up
ROW = 3 + COUNTS  # numbers of a row: kind, length, code and the counts
SHEET_ROWS = 512  # rows of the program's sheet, and of the longest that a script lends


def store_length(K):
    """Making a store lends at least 2,048 + 24·K numbers."""
    return 2048 + 24 * K
