"""The salvage: reading 38 by hand, refusals, lent bytes, and the program."""

import subprocess
import sys
import unittest

from reference.answers import Lost, Refused, Salvaged
from reference.inputs import fixed_files
from reference.limits import ALPHABETS, SAMPLE_LIMIT
from reference.program import INPUT_BYTES
from reference.salvage import output, salvage
from reference.sitting_file import number_bytes, read, write

ROOM = 2 * SAMPLE_LIMIT + 16  # more bytes than any file has
BLANK = 0xEE
NOTHING = (0, 0, 0, 0, 0)


class Salvaging(unittest.TestCase):
    def saved(self, damaged, room=ROOM):
        """The file that is saved into a buffer of so many bytes, and what was lost; bytes past the file's end stay."""
        buffer = bytearray([BLANK] * room)
        answer = salvage(damaged, buffer)
        self.assertIsInstance(answer, Salvaged, damaged.hex(" "))
        self.assertEqual(buffer[answer.length :], bytes([BLANK] * (room - answer.length)))
        return bytes(buffer[: answer.length]), answer.lost

    def saves(self, damaged, saved, *lost):
        """Both files in hex. What is saved is read as it stands, and salvaged once more it stays."""
        expected = bytes.fromhex(saved)
        self.assertEqual(self.saved(bytes.fromhex(damaged)), (expected, lost), damaged)
        self.assertNotIsInstance(read(expected), Refused)
        self.assertEqual(self.saved(expected), (expected, NOTHING))

    def refused(self, number, damaged, room=ROOM):
        buffer = bytearray([BLANK] * room)
        self.assertEqual(salvage(damaged, buffer), Refused(number), damaged.hex(" "))
        self.assertEqual(buffer, bytes([BLANK] * room), "a refused call leaves the buffer")


class Samples(Salvaging):
    def test_a_spoilt_byte_does_not_move_the_second_sample(self):
        self.saves("02 01 04 03 00 02 01 00 01 01 00", "02 01 01 03 00 01 01 00", 0, 3, 0, 0, 0)
        self.saves("02 01 04 03 02 01 01 00 01 01 00", "02 01 00 03 01 01 00", 0, 4, 0, 0, 0)

    def test_a_spoilt_byte_of_the_second_sample(self):
        self.saves("02 01 02 03 00 01 01 02 00", "02 01 02 01 00 01 01", 0, 0, 0, 2, 0)
        self.saves("02 01 02 03 00 01 01 00 02", "02 01 02 02 00 01 01 00", 0, 0, 0, 1, 0)

    def test_good_bytes_after_the_bad_one_are_dropped_too(self):
        self.saves("03 00 05 05 02 03 02 01 00 01 07 00 01 02", "03 00 01 01 02 01", 0, 4, 0, 4, 0)

    def test_the_file_ends_within_the_first_sample(self):
        self.saves("02 01 04 03 00 01", "02 01 02 00 00 01", 2, 0, 3, 0, 0)
        self.saves("02 01 04 03 00 02 01", "02 01 01 00 00", 1, 2, 3, 0, 0)
        self.saves("02 01 04 03 02", "02 01 00 00", 3, 1, 3, 0, 0)

    def test_the_file_ends_after_a_part(self):
        self.saves("02 01 04 03", "02 01 00 00", 4, 0, 3, 0, 0)
        self.saves("02 01 02 03 00 01", "02 01 02 00 00 01", 0, 0, 3, 0, 0)
        self.saves("02 01 02 03 02 01", "02 01 00 00", 0, 2, 3, 0, 0)

    def test_the_file_ends_within_the_second_sample(self):
        self.saves("02 01 02 03 00 01 01", "02 01 02 01 00 01 01", 0, 0, 2, 0, 0)
        self.saves("02 01 02 04 00 01 01 02 00", "02 01 02 01 00 01 01", 0, 0, 1, 2, 0)

    def test_bytes_after_both_samples_are_cut_off(self):
        self.saves("02 01 01 01 00 01 00", "02 01 01 01 00 01", 0, 0, 0, 0, 1)
        self.saves("02 01 01 01 00 01 00 ff 80", "02 01 01 01 00 01", 0, 0, 0, 0, 3)

    def test_dropped_bytes_are_not_cut_off(self):
        self.saves("02 01 02 02 02 00 01 02 01 00 01", "02 01 00 01 01", 0, 2, 0, 1, 3)

    def test_bytes_with_the_high_bit_are_dropped_and_open_no_second_group(self):
        self.saves("02 01 02 02 80 01 00 80", "02 01 00 01 00", 0, 2, 0, 1, 0)
        self.saves("02 01 02 02 00 ff 01 01", "02 01 01 02 00 01 01", 0, 1, 0, 0, 0)
        self.saves("08 01 01 01 87 07", "08 01 00 01 07", 0, 1, 0, 0, 0)

    def test_the_alphabets_limit(self):
        for A in ALPHABETS:
            good = f"0{A} 00 03 02 00 0{A - 1} 00 0{A - 1} 01"
            self.saves(good, good, *NOTHING)
            self.saves(f"0{A} 00 03 02 00 0{A} 00 0{A} 01", f"0{A} 00 01 00 00", 0, 2, 0, 2, 0)

    def test_empty_samples(self):
        for file in ("02 00 00 00", "02 00 02 00 01 00", "02 00 00 02 01 00"):
            self.saves(file, file, *NOTHING)
        self.saves("02 00 00 00 00 01", "02 00 00 00", 0, 0, 0, 0, 2)
        self.saves("02 00 00 02 02 01", "02 00 00 00", 0, 0, 0, 2, 0)
        self.saves("02 00 02 00 01", "02 00 01 00 01", 1, 0, 0, 0, 0)
        self.saves("02 00 00 02", "02 00 00 00", 0, 0, 2, 0, 0)


class Lengths(Salvaging):
    def test_two_groups_become_one(self):
        zeros = "00 " * 127
        self.saves(f"02 00 80 01 01 {zeros} 02 01", f"02 00 7f 01 {zeros} 01", 0, 1, 0, 0, 0)
        self.saves(f"02 00 80 01 00 {zeros}", f"02 00 7f 00 {zeros}", 1, 0, 0, 0, 0)
        self.saves(f"02 00 01 80 01 01 {zeros} ff", f"02 00 01 7f 01 {zeros}", 0, 0, 0, 1, 0)
        self.saves(f"02 00 80 01 80 01 {zeros} 02 {zeros}", f"02 00 7f 7f {zeros} {zeros}", 0, 1, 1, 0, 0)

    def test_two_groups_stay(self):
        zeros = "00 " * 128
        self.saves(f"02 00 81 01 01 {zeros} 02 01", f"02 00 80 01 01 {zeros} 01", 0, 1, 0, 0, 0)
        self.saves(f"02 00 80 01 01 {zeros} 02", f"02 00 80 01 00 {zeros}", 0, 0, 0, 1, 0)

    def test_a_length_that_is_too_large_takes_the_second_samples_bytes(self):
        self.saves("02 00 05 02 00 01 00 01 01", "02 00 05 00 00 01 00 01 01", 0, 0, 2, 0, 0)

    def test_the_longest_file(self):
        longest = write(8, 6, (7,) * SAMPLE_LIMIT, (0,) * SAMPLE_LIMIT)
        self.assertEqual(self.saved(longest, len(longest)), (longest, NOTHING))
        self.assertEqual(self.saved(longest + longest), (longest, (0, 0, 0, 0, len(longest))))
        header = longest[: -2 * SAMPLE_LIMIT]
        self.assertEqual(self.saved(header), (b"\x08\x06\x00\x00", (SAMPLE_LIMIT, 0, SAMPLE_LIMIT, 0, 0)))
        spoilt = header + b"\x08" * (2 * SAMPLE_LIMIT)
        self.assertEqual(self.saved(spoilt), (b"\x08\x06\x00\x00", (0, SAMPLE_LIMIT, 0, SAMPLE_LIMIT, 0)))


class SoundFiles(Salvaging):
    def test_come_out_the_same(self):
        sound = [file for file in fixed_files() if not isinstance(read(file), Refused)]
        self.assertGreater(len(sound), 20)
        for file in sound:
            self.assertEqual(self.saved(file), (file, NOTHING))

    def test_only_they_lose_nothing(self):
        """What the reader refuses behind the header has lost a byte at least, and 16 is never given."""
        for text in ("02 00 01 00", "02 00 01 00 80", "02 00 01 00 80 00", "02 00 01 00 02", "02 00 01 00 01 00"):
            self.assertIsInstance(read(bytes.fromhex(text)), Refused)
            self.assertGreater(sum(self.saved(bytes.fromhex(text))[1]), 0, text)


class Refusals(Salvaging):
    def header_refused(self, number, *texts):
        """As the reader refuses it, however many bytes are lent."""
        for text in texts:
            self.assertEqual(read(bytes.fromhex(text)), Refused(number), text)
            for room in (0, 3, ROOM):
                self.refused(number, bytes.fromhex(text), room)

    def test_13(self):
        self.header_refused(13, "", "02", "02 01", "02 01 04", "ff", "02 ff")
        self.header_refused(13, "02 01 80", "02 01 01 80", "02 01 80 01 ff")

    def test_14(self):
        self.header_refused(14, "80 00", "80 80", "02 86 00", "02 01 80 00", "02 01 01 81 00")
        self.header_refused(14, "02 01 ff ff", "02 01 80 80 01")

    def test_15(self):
        too_long = number_bytes(SAMPLE_LIMIT + 1).hex(" ")
        self.header_refused(15, "00", "01", "09", "80 01", "02 07", "02 80 01")
        self.header_refused(15, f"02 01 {too_long}", f"02 01 01 {too_long}")

    def test_the_first_fault_from_the_left(self):
        self.header_refused(15, "09 80 00", "02 07 ff", "01 01 01 01 00 00")
        self.header_refused(14, "80 00 07", "02 01 80 00 ff 7f", "02 01 01 80 00 02 02 02")

    def test_the_largest_header(self):
        limit = number_bytes(SAMPLE_LIMIT)
        self.assertEqual(self.saved(b"\x08\x06" + limit + limit)[1], (SAMPLE_LIMIT, 0, SAMPLE_LIMIT, 0, 0))

    def test_19_goes_by_the_saved_file(self):
        zeros = "00 " * 127
        for text in (
            "02 01 04 03 00 02 01 00 01 01 00",
            "02 01 04 03 00",
            "02 01 01 01 00 01 " + "05 " * 99,
            f"02 00 80 01 00 {zeros} 02",
            "02 00 00 00",
            "02 00 02 02 00 01 01 00",
        ):
            damaged = bytes.fromhex(text)
            saved, lost = self.saved(damaged)
            for room in (0, len(saved) - 1):
                self.refused(19, damaged, room)
            for room in (len(saved), len(saved) + 1):
                self.assertEqual(self.saved(damaged, room), (saved, lost))

    def test_19_by_one_byte(self):
        self.refused(19, bytes.fromhex("02 01 04 03 00 02 01 00 01 01 00"), 7)
        self.assertEqual(len(self.saved(bytes.fromhex("02 01 04 03 00 02 01 00 01 01 00"), 8)[0]), 8)


def run_program(damaged):
    """What it writes, what it says, and its status."""
    done = subprocess.run([sys.executable, "-m", "reference.salvage"], input=damaged, capture_output=True)
    return done.stdout, done.stderr.decode(), done.returncode


class Program(unittest.TestCase):
    def test_the_five_numbers_in_their_order(self):
        damaged = bytes.fromhex("02 01 04 03 00 02 01 00 01 01 02 00 00")
        self.assertEqual(run_program(damaged), (bytes.fromhex("02 01 01 02 00 01 01"), "0 3 0 1 2\n", 0))
        self.assertEqual(run_program(damaged[:7]), (bytes.fromhex("02 01 01 00 00"), "1 2 3 0 0\n", 0))

    def test_refusals(self):
        for damaged, number in [(b"", 13), (b"\x80\x00", 14), (b"\x09" * 5000, 15)]:
            self.assertEqual(run_program(damaged), (b"", f"refused {number}\n", 0))

    def test_input_of_any_length(self):
        """Those bytes that decide the file, and all that are counted after them."""
        file = bytes.fromhex("02 01 01 02 00 01 00")
        for length in (INPUT_BYTES - 1, INPUT_BYTES, INPUT_BYTES + 1, 65536, INPUT_BYTES + 65536, INPUT_BYTES + 65537, 300000):
            damaged = file + b"\xff" * (length - len(file))
            self.assertEqual(run_program(damaged), (file, f"0 0 0 0 {length - len(file)}\n", 0))
            self.assertEqual(output(damaged), (file, f"0 0 0 0 {length - len(file)}\n"))

    def test_the_longest_file(self):
        longest = write(8, 6, (7,) * SAMPLE_LIMIT, (0,) * SAMPLE_LIMIT)
        self.assertEqual(run_program(longest), (longest, "0 0 0 0 0\n", 0))
        self.assertEqual(run_program(longest + bytes(70000)), (longest, "0 0 0 0 70000\n", 0))

    def test_the_names_stand_in_that_order(self):
        order = ("first_missing", "first_dropped", "second_missing", "second_dropped", "cut_off")
        self.assertEqual(Lost._fields, order)


if __name__ == "__main__":
    unittest.main()
