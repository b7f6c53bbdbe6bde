"""The reader: the readings of the file rules, 1 to 9, and the limits. The writer: reading 28, and the limits."""

import unittest

from reference.answers import Refused, Shape, Written
from reference.sitting_file import read, samples_of, write, write_into


def read_hex(text):
    return read(bytes.fromhex(text))


class Readings(unittest.TestCase):
    def refused(self, number, *texts):
        for text in texts:
            self.assertEqual(read_hex(text), Refused(number), text)

    def test_1_symbols_are_numbers_too(self):
        self.refused(13, "02 01 01 01 80", "02 01 01 01 00 81")
        self.refused(14, "02 01 01 01 80 00", "02 01 01 01 81 00 00", "02 01 01 01 80 80")
        self.refused(15, "02 01 01 01 80 01", "02 01 01 01 80 7f 00")

    def test_2_two_high_groups_at_the_end(self):
        self.refused(14, "80 80", "02 80 80", "02 00 ff ff", "02 00 01 00 ff 80")

    def test_3_a_first_group_alone_is_not_judged_by_value(self):
        self.refused(13, "ff", "02 ff", "02 00 ff", "02 00 01 00 ff")

    def test_4_not_shortest_goes_before_the_limits(self):
        self.refused(14, "80 00", "89 00", "02 87 00", "02 00 80 00")

    def test_5_limits_stand_at_their_own_number(self):
        self.refused(15, "00", "01", "09", "02 07", "02 00 81 10", "02 00 00 81 10", "80 01", "02 80 01")
        self.refused(13, "02 00 80 10", "02 00 80 10 80 10", "02 00 81 04", "02 00 00 81 04")

    def test_6_a_missing_symbol_is_found_where_the_file_ends(self):
        self.refused(13, "02 00 02 00 00", "02 00 01 01 00")
        self.refused(15, "02 00 05 00 00 02")
        self.refused(14, "02 00 05 00 00 80 00")

    def test_7_more_bytes_only_after_all_symbols(self):
        self.refused(16, "02 00 01 00 01 00", "02 00 01 00 01 80", "02 00 00 00 ff ff ff")
        self.refused(15, "02 00 01 00 02 00")

    def test_8_at_most_two_groups(self):
        self.refused(14, "82 80 00", "02 00 80 80 01")
        self.refused(15, "ff 7f", "02 00 ff 7f")

    def test_9_empty_input(self):
        self.refused(13, "")


class Accepted(unittest.TestCase):
    def test_smallest_and_largest(self):
        self.assertEqual(read_hex("02 00 00 00"), Shape(2, 0, 0, 0))
        longest = (7,) * 2048
        file = write(8, 6, longest, longest)
        self.assertEqual(len(file), 4102)
        self.assertEqual(read(file), Shape(8, 6, 2048, 2048))

    def test_lengths_in_two_groups(self):
        for length in (127, 128, 129, 255, 256, 512, 513, 2047, 2048):
            file = write(2, 1, (1,) * length, (0,))
            self.assertEqual(read(file), Shape(2, 1, length, 1))
            self.assertEqual(samples_of(file, read(file)), ((1,) * length, (0,)))

    def test_empty_samples(self):
        file = write(3, 2, (), (2, 1))
        self.assertEqual(samples_of(file, read(file)), ((), (2, 1)))


class OtherLimits(unittest.TestCase):
    """Request E2: "a reader of the old limit refuses a longer file with 15 and never cuts it"."""

    def test_a_longer_file_is_refused_with_15(self):
        for first, second in [(513, 0), (0, 513), (513, 513), (2048, 2048), (1, 2048)]:
            file = write(2, 0, (0,) * first, (1,) * second)
            self.assertEqual(read(file), Shape(2, 0, first, second))
            self.assertEqual(read(file, 512), Refused(15))
            self.assertEqual(read(file, max(first, second) - 1), Refused(15))
            self.assertEqual(read(file, max(first, second)), Shape(2, 0, first, second))

    def test_whatever_follows_its_lengths(self):
        """15 stands at its own number, before a missing or bad symbol and before more bytes."""
        for text in ("02 00 04 00", "02 00 03 04", "02 00 04 00 02", "02 00 04 00 01 01 01 01 01"):
            self.assertEqual(read(bytes.fromhex(text), 3), Refused(15), text)

    def test_other_files_get_the_same_answer(self):
        for text in ("", "09", "02 07", "02 00 80 00", "02 00 03", "02 00 03 03", "02 00 01 00 02", "02 00 01 00 01 01"):
            self.assertEqual(read(bytes.fromhex(text), 3), read_hex(text), text)
        for text in ("02 00 00 00", "02 00 03 02 00 01 00 01 01"):
            self.assertEqual(read(bytes.fromhex(text), 3), read_hex(text))
            self.assertIsInstance(read_hex(text), Shape)


LONGEST = (1,) * 2048
ROOM = 4112  # more bytes than any file has
BLANK = 0xEE


class Writing(unittest.TestCase):
    def written(self, first, second, A, D, room=ROOM):
        """The file that is written into a buffer of so many bytes; those past its end stay."""
        buffer = bytearray([BLANK] * room)
        answer = write_into(A, D, first, second, buffer)
        self.assertIsInstance(answer, Written)
        self.assertEqual(buffer[answer.length :], bytes([BLANK] * (room - answer.length)))
        return bytes(buffer[: answer.length])

    def refused(self, number, first, second, A, D, room=ROOM):
        buffer = bytearray([BLANK] * room)
        self.assertEqual(write_into(A, D, first, second, buffer), Refused(number))
        self.assertEqual(buffer, bytes([BLANK] * room), "a refused call leaves the buffer")

    def test_bytes(self):
        self.assertEqual(self.written((0, 1, 0), (1,), 2, 1).hex(" "), "02 01 03 01 00 01 00 01")
        self.assertEqual(self.written((), (), 8, 6).hex(" "), "08 06 00 00")

    def test_lengths_in_their_shortest_form(self):
        forms = {0: "00", 1: "01", 127: "7f", 128: "80 01", 129: "81 01", 256: "80 02"}
        forms |= {512: "80 04", 513: "81 04", 2047: "ff 0f", 2048: "80 10"}
        for length, form in forms.items():
            symbols = (1,) * length
            self.assertEqual(self.written(symbols, (), 2, 0), bytes.fromhex(f"02 00 {form} 00") + bytes(symbols))
            self.assertEqual(self.written((), symbols, 2, 0), bytes.fromhex(f"02 00 00 {form}") + bytes(symbols))

    def test_limits_of_alphabet_and_depth(self):
        for A, D in [(2, 0), (8, 0), (2, 6)]:
            self.assertEqual(self.written((1,), (0,), A, D), bytes([A, D, 1, 1, 1, 0]))
        for A, D in [(0, 0), (1, 0), (9, 0), (2, 7), (258, 0), (2, 256), (2**32 - 1, 0), (2, 2**32 - 1)]:
            self.refused(15, (), (), A, D)

    def test_limits_of_lengths(self):
        self.assertEqual(len(self.written(LONGEST, LONGEST, 2, 0)), 4102)
        self.refused(15, LONGEST + (1,), (), 2, 0)
        self.refused(15, (), LONGEST + (1,), 2, 0)

    def test_limits_of_symbols(self):
        for A in range(2, 9):
            good, bad = (0, A - 1, 0), (0, A, 0)
            self.assertEqual(self.written(good, good, A, 0), bytes([A, 0, 3, 3, *good, *good]))
            self.refused(15, bad, good, A, 0)
            self.refused(15, good, bad, A, 0)

    def test_limits_of_the_buffer(self):
        for first, second in [((), ()), ((0, 1), (1,)), (LONGEST, ()), (LONGEST, LONGEST)]:
            file = write(2, 1, first, second)
            for room in (0, len(file) - 1):
                self.refused(19, first, second, 2, 1, room)
            for room in (len(file), len(file) + 1, len(file) + 9):
                self.assertEqual(self.written(first, second, 2, 1, room), file)

    def test_bad_values_go_before_a_short_buffer(self):
        for room in (0, 3, 5):
            self.refused(15, (0,), (1,), 1, 0, room)
            self.refused(15, (0,), (1,), 2, 7, room)
            self.refused(15, (2,), (1,), 2, 0, room)
            self.refused(15, (0,), (2,), 2, 0, room)
            self.refused(15, LONGEST + (1,), (1,), 2, 0, room)
            self.refused(19, (0,), (1,), 2, 0, room)
