"""Sitting files that are written, at every limit, and damaged ones that are salvaged: by the call itself, with the bytes
lent to it, and by the binding."""

import unittest
from ctypes import byref, c_size_t, c_uint8, c_uint64
from mmap import ACCESS_WRITE, mmap
from tempfile import TemporaryFile

from sobumikeyo import Lost, Refusal, Salvaged, read, salvage, write
from sobumikeyo.arguments import array_of
from sobumikeyo.library import calls

BLANK = 0xEE
AFTER = 16  # bytes after those that are lent
UNTOLD = 2**64 - 1
LONGEST = bytes([1] * 2048)
LONGEST_FILE = 6 + 2 * len(LONGEST)

# First, second, alphabet and depth of what may be written, and the file.
GOOD = [
    ((b"", b"", 2, 0), "02 00 00 00"),
    ((b"", b"", 8, 6), "08 06 00 00"),
    ((b"\0\1\0", b"\1", 2, 1), "02 01 03 01 00 01 00 01"),
    ((b"", b"\7\0", 8, 0), "08 00 00 02 07 00"),
    ((b"\2\0", b"", 3, 6), "03 06 02 00 02 00"),
    ((LONGEST[:127], b"\0", 2, 1), "02 01 7f 01" + "01" * 127 + "00"),
    ((LONGEST[:128], b"\0", 2, 1), "02 01 80 01 01" + "01" * 128 + "00"),
    ((b"\0", LONGEST[:127], 2, 1), "02 01 01 7f 00" + "01" * 127),
    ((b"\0", LONGEST[:128], 2, 1), "02 01 01 80 01 00" + "01" * 128),
    ((LONGEST, LONGEST, 2, 6), "02 06 80 10 80 10" + "01" * 4096),
]

# The same of what gets 15, each by one value.
BAD = [(b"\0\1", b"\1", alphabet, 0) for alphabet in (0, 1, 9, 256, 258, 2**16 + 2, 2**31 + 2, 2**32 - 1)]
BAD += [(b"\0\1", b"\1", 2, depth) for depth in (7, 8, 256, 2**16, 2**31, 2**32 - 1)]
BAD += [(LONGEST + b"\1", b"\1", 2, 0), (b"\1", LONGEST + b"\1", 2, 0), (bytes(2**16), b"", 2, 0), (b"", bytes(2**16), 2, 0)]
for size in range(2, 9):
    for symbol in (size, size + 1, 128, 255):
        bad = bytes([0, symbol])
        BAD += [(bad, b"\0", size, 0), (b"\0", bad, size, 0), (bad[::-1], b"\0", size, 0), (b"\0", bad[::-1], size, 0)]

NOTHING = (0, 0, 0, 0, 0)
NONE_TOLD = (UNTOLD,) * len(NOTHING)
ONES = "01" * 128

# Damaged files; what is saved of each, and the five numbers told.
DAMAGED = [
    ("02 00 03 02", "02 00 00 00", (3, 0, 2, 0, 0)),
    ("02 01 03 01 00 01", "02 01 02 00 00 01", (1, 0, 1, 0, 0)),
    ("02 01 03 02 00 01 00 01", "02 01 03 01 00 01 00 01", (0, 0, 1, 0, 0)),
    ("02 01 03 01 00 02 00 01", "02 01 01 01 00 01", (0, 2, 0, 0, 0)),
    ("02 01 03 01 00 01 00 80", "02 01 03 00 00 01 00", (0, 0, 0, 1, 0)),
    ("02 01 03 01 00 01 00 01 07 00", "02 01 03 01 00 01 00 01", (0, 0, 0, 0, 2)),
    ("08 06 02 03 08 07 07 ff", "08 06 00 01 07", (0, 2, 1, 1, 0)),
    ("03 00 03 03 02 ff", "03 00 01 00 02", (1, 1, 3, 0, 0)),
    ("03 00 01 02 03 03 00 00", "03 00 00 00", (0, 1, 0, 2, 1)),
    ("02 06 80 10 80 10 00", "02 06 01 00 00", (2047, 0, 2048, 0, 0)),
    # a length of two groups becomes one of one group
    ("02 01 80 01 01" + ONES[2:], "02 01 7f 00" + ONES[2:], (1, 0, 1, 0, 0)),
    ("02 01 80 01 01" + ONES[2:] + "02 00", "02 01 7f 01" + ONES[2:] + "00", (0, 1, 0, 0, 0)),
    ("02 01 01 80 01 00" + ONES[2:] + "ff", "02 01 01 7f 00" + ONES[2:], (0, 0, 0, 1, 0)),
]
DAMAGED = [(bytes.fromhex(damaged), bytes.fromhex(saved), lost) for damaged, saved, lost in DAMAGED]
SOUND = [(bytes.fromhex(text), bytes.fromhex(text), NOTHING) for _, text in GOOD]

# Headers that cannot be read within limits, by refusal; what follows them is never looked at.
HEADERS = {
    13: ("", "02", "02 01", "02 01 03", "80", "02 ff", "02 01 80", "02 01 03 81"),
    14: ("80 00", "82 00 01", "02 81 00", "02 01 80 80 00", "02 01 03 80 00 00 00", "ff ff"),
    15: ("00", "01", "09 80 00", "82 01", "02 07 ff", "02 06 ff 7f", "02 06 ff 7f 00", "02 06 00 ff 7f 00 00")
    + ("02 06 81 10", "02 06 81 10 00 01", "02 06 80 10 81 10", "02 06 00 81 10 00"),  # a length of 2,049
}
HEADERS = [(number, bytes.fromhex(text)) for number, texts in HEADERS.items() for text in texts]


def told(first, second, alphabet, depth, room):
    """The call itself with so many bytes lent: its answer, those bytes, the bytes after them, and the length told."""
    lent, written = (c_uint8 * (room + AFTER))(*[BLANK] * (room + AFTER)), c_size_t(UNTOLD)
    samples = *array_of(c_uint8, first), *array_of(c_uint8, second)
    answer = calls()["write"](*samples, alphabet, depth, lent, room, byref(written))
    return answer, bytes(lent[:room]), bytes(lent[room:]), written.value


def told_salvage(damaged, room):
    """The same of a salvage: its answer, the bytes lent, the bytes after them, the length and the five numbers told."""
    return told_salvage_at(*array_of(c_uint8, damaged), room)


def told_salvage_at(damaged, many, room):
    """The same of so many bytes in memory."""
    lent, written = (c_uint8 * (room + AFTER))(*[BLANK] * (room + AFTER)), c_size_t(UNTOLD)
    lost = (c_uint64 * len(NONE_TOLD))(*NONE_TOLD)
    answer = calls()["salvage"](damaged, many, lent, room, byref(written), byref(lost))
    return answer, bytes(lent[:room]), bytes(lent[room:]), written.value, tuple(lost)


def blank(many):
    return bytes([BLANK] * many)


class Writing(unittest.TestCase):
    def refused(self, number, values, room):
        """A refused call leaves the bytes and the length."""
        self.assertEqual(told(*values, room), (number, blank(room), blank(AFTER), UNTOLD))

    def test_bytes_past_the_end_stay(self):
        for values, text in GOOD:
            file = bytes.fromhex(text)
            for more in (0, 1, 40):
                expected = (0, file + blank(more), blank(AFTER), len(file))
                self.assertEqual(told(*values, len(file) + more), expected)

    def test_too_few_bytes(self):
        for values, text in GOOD:
            length = len(bytes.fromhex(text))
            for room in {0, 1, 3, length // 2, length - 1}:
                self.refused(19, values, room)

    def test_bad_values_go_first(self):
        for values in BAD:
            for room in (0, 3, 4, LONGEST_FILE):
                self.refused(15, values, room)

    def test_files_of_the_binding(self):
        for values, text in GOOD:
            file = write(*values)
            self.assertEqual((type(file), file), (bytes, bytes.fromhex(text)))
            first, second, alphabet, depth = values
            self.assertEqual(read(file), (alphabet, depth, first, second))

    def test_refusals_of_the_binding(self):
        for values in BAD:
            with self.assertRaises(Refusal) as refused:
                write(*values)
            self.assertEqual(refused.exception.number, 15)

    def test_symbols_of_many_kinds(self):
        for run in ([0, 1], (0, 1), b"\0\1", bytearray([0, 1]), memoryview(b"\0\1"), range(2)):
            self.assertEqual(write(run, run, alphabet=2, depth=1), bytes.fromhex("02 01 02 02 00 01 00 01"))


class Salvaging(unittest.TestCase):
    def refused(self, number, damaged, room):
        """A refused call leaves the bytes, the length and the five numbers."""
        self.assertEqual(told_salvage(damaged, room), (number, blank(room), blank(AFTER), UNTOLD, NONE_TOLD))

    def test_bytes_past_the_end_stay(self):
        for damaged, file, lost in DAMAGED + SOUND:
            for more in (0, 1, 40):
                expected = (0, file + blank(more), blank(AFTER), len(file), lost)
                self.assertEqual(told_salvage(damaged, len(file) + more), expected)

    def test_too_few_bytes(self):
        for damaged, file, _ in DAMAGED + SOUND:
            for room in {0, 1, 3, len(file) // 2, len(file) - 1}:
                self.refused(19, damaged, room)

    def test_bad_headers_go_first(self):
        for number, damaged in HEADERS:
            for room in (0, 3, 4, LONGEST_FILE):
                self.refused(number, damaged, room)

    def test_files_of_the_binding(self):
        for damaged, file, lost in DAMAGED + SOUND:
            answer = salvage(damaged)
            self.assertEqual(answer, Salvaged(file, Lost(*lost)))
            self.assertEqual([type(part) for part in answer], [bytes, Lost])
            alphabet, depth, first, second = read(file)
            self.assertEqual(write(first, second, alphabet, depth), file)

    def test_refusals_of_the_binding(self):
        for number, damaged in HEADERS:
            with self.assertRaises(Refusal) as refused:
                salvage(damaged)
            self.assertEqual(refused.exception.number, number)

    def test_more_is_cut_off_than_32_bits_tell(self):
        """The end of the damaged file is a hole, which takes up no room."""
        sound = bytes([2, 1, 1, 1, 0, 1])
        with TemporaryFile() as file:
            file.write(sound)
            file.truncate(len(sound) + 2**32 + 5)
            with mmap(file.fileno(), 0, access=ACCESS_WRITE) as damaged:
                answer = told_salvage_at(byref(c_uint8.from_buffer(damaged)), len(damaged), len(sound))
        self.assertEqual(answer, (0, sound, blank(AFTER), len(sound), (0, 0, 0, 0, 2**32 + 5)))

    def test_bytes_of_many_kinds(self):
        run = [2, 1, 1, 1, 0]
        for damaged in (run, tuple(run), bytes(run), bytearray(run), memoryview(bytes(run)), iter(run)):
            self.assertEqual(salvage(damaged), (bytes([2, 1, 1, 0, 0]), (0, 0, 1, 0, 0)))


if __name__ == "__main__":
    unittest.main()
