"""Answers compared, in one process, with those of the independent second program on drawn runs.

For a longer comparison: python3 -m reference.compare --scripts bindings/python/play.py --program bindings/python/sitting.py
"""

import unittest
from collections import Counter
from random import Random

from play import answers
from reference.answers import Refused
from reference.built import BuiltProgram, BuiltScripts
from reference.inputs import damaged_file, drawn_file, drawn_room, drawn_values, every_cut, file_to_salvage
from reference.inputs import fixed_damages, fixed_files, spoilt_at
from reference.limits import SAMPLE_LIMIT
from reference.salvage import salvage as salvage_into
from reference.sitting_file import write as file_of
from reference.sitting_file import write_into
from sitting import output
from sobumikeyo import Lost, Refusal, Salvaged, read, salvage, write

from tests.test_files import AFTER, NONE_TOLD, NOTHING, UNTOLD, blank, told, told_salvage

ROUNDS = 2
FILES_A_ROUND = 100
WRITTEN = 500
SALVAGED = 1000
LONGEST_FILE = 6 + 2 * SAMPLE_LIMIT
# Files with lengths of one group and of two.
WHOLE = [file_of(2, 1, (0, 1) * 4, (0, 0, 1) * 3), file_of(3, 2, (2,), (0, 1) * 64)]


class Scripts(BuiltScripts):
    """The player over the binding in the place of a built one."""

    def output(self, given, shown):
        return "".join(answer + "\n" for answer in answers(given.decode()))


class Files(BuiltProgram):
    """The program over the binding in the place of a built one."""

    def output(self, given, shown):
        return output(given)


class Compared(unittest.TestCase):
    """A difference is raised as an error that shows it whole."""

    def test_fixed(self):
        Scripts(None).compare_fixed(Counter())
        Files(None).compare_fixed(Counter())

    def test_drawn_scripts(self):
        for place in range(ROUNDS):
            Scripts(None).compare_drawn(Random(f"scripts {place}"), Counter())

    def test_replayed_scripts(self):
        for place in range(ROUNDS):
            Scripts(None).compare_replay(Random(f"replay {place}"), Counter())

    def test_drawn_files(self):
        for place in range(ROUNDS * FILES_A_ROUND):
            Files(None).compare_drawn(Random(f"file {place}"), Counter())


def answer_of(call, *values):
    """What a call of the binding answers, or its refusal as the second program has it."""
    try:
        return call(*values)
    except Refusal as refusal:
        return Refused(refusal.number)


def reference_file(first, second, alphabet, depth):
    """The file that the second program writes, or its refusal."""
    buffer = bytearray(LONGEST_FILE)
    answer = write_into(alphabet, depth, first, second, buffer)
    return answer if isinstance(answer, Refused) else bytes(buffer[: answer.length])


def reference_told(first, second, alphabet, depth, room):
    """The same as `told` of the second program: number, bytes lent, bytes after them, length."""
    buffer = bytearray(blank(room))
    answer = write_into(alphabet, depth, first, second, buffer)
    number, length = (answer.number, UNTOLD) if isinstance(answer, Refused) else (0, answer.length)
    return number, bytes(buffer), blank(AFTER), length


class WrittenFiles(unittest.TestCase):
    def test_drawn_values(self):
        """The same bytes or the same refusal; what is written reads back as the same sitting."""
        tally = Counter()
        for place in range(WRITTEN):
            alphabet, depth, (first, second) = drawn_values(Random(f"values {place}"))
            file = answer_of(write, first, second, alphabet, depth)
            self.assertEqual(file, reference_file(first, second, alphabet, depth), f"values {place}")
            tally[isinstance(file, Refused)] += 1
            if not isinstance(file, Refused):
                self.assertEqual(read(file), (alphabet, depth, bytes(first), bytes(second)), f"values {place}")
        self.assertGreater(min(tally[True], tally[False]), WRITTEN // 4, "both kinds are drawn")

    def test_drawn_bytes_lent(self):
        """The call itself, with drawn numbers of bytes lent: the same number, the same bytes and the same length."""
        tally, too_long = Counter(), 0
        for place in range(WRITTEN):
            random = Random(f"lent {place}")
            alphabet, depth, samples = drawn_values(random)
            values = *map(bytes, samples), alphabet, depth, drawn_room(random, file_of(alphabet, depth, *samples))
            answer = told(*values)
            self.assertEqual(answer, reference_told(*values), f"lent {place}")
            tally[answer[0]] += 1
            too_long += max(map(len, samples)) > SAMPLE_LIMIT
        self.assertEqual(sorted(tally), [0, 15, 19])
        self.assertGreater(min(*tally.values(), too_long), WRITTEN // 20, "every answer is drawn, and lengths above the limit")

    def test_accepted_files_again(self):
        """A file that was read without a fault has the same bytes when it is written again."""
        drawn = [kind(Random(f"again {place}")) for place in range(WRITTEN) for kind in (drawn_file, damaged_file)]
        accepted = 0
        for file in [*fixed_files(), *drawn]:
            sitting = answer_of(read, file)
            if not isinstance(sitting, Refused):
                self.assertEqual(write(sitting.first, sitting.second, sitting.alphabet, sitting.depth), file, file.hex(" "))
                accepted += 1
        self.assertGreater(accepted, WRITTEN)


def reference_salvaged(damaged):
    """The file that the second program saves, and what is lost, or its refusal."""
    buffer = bytearray(LONGEST_FILE)
    answer = salvage_into(damaged, buffer)
    return answer if isinstance(answer, Refused) else (bytes(buffer[: answer.length]), answer.lost)


def reference_told_salvage(damaged, room):
    """The same as `told_salvage` of the second program."""
    buffer = bytearray(blank(room))
    answer = salvage_into(damaged, buffer)
    number, length, lost = (answer.number, UNTOLD, NONE_TOLD) if isinstance(answer, Refused) else (0, *answer)
    return number, bytes(buffer), blank(AFTER), length, lost


class SalvagedFiles(unittest.TestCase):
    def compare(self, damaged):
        """The same file saved and the same losses, or the same refusal; what is saved is read without a fault."""
        salvaged = answer_of(salvage, damaged)
        self.assertEqual(salvaged, reference_salvaged(damaged), damaged.hex(" "))
        if not isinstance(salvaged, Refused):
            read(salvaged.file)
        return salvaged

    def test_every_cut(self):
        for file in WHOLE:
            *cuts, sound = map(self.compare, every_cut(file))
            self.assertLess({Refused(13)}, set(cuts))
            self.assertEqual(sound, (file, NOTHING), "a sound file comes out the same")

    def test_every_spoilt_byte(self):
        """Each byte in turn has all 256 values."""
        for file in WHOLE:
            answers = {self.compare(spoilt_at(file, place, byte)) for place in range(len(file)) for byte in range(256)}
            self.assertLess({Refused(14), Refused(15), (file, NOTHING)}, answers)

    def test_fixed_files(self):
        self.assertEqual({type(self.compare(damaged)) for damaged in fixed_damages()}, {Refused, Salvaged})

    def test_drawn_bytes_lent(self):
        """The call itself, with drawn numbers of bytes lent: the same number, bytes, length and five numbers."""
        tally = Counter()
        for place in range(SALVAGED):
            random = Random(f"salvage {place}")
            damaged = file_to_salvage(random)
            salvaged = self.compare(damaged)
            room = drawn_room(random, damaged if isinstance(salvaged, Refused) else salvaged.file)
            answer = told_salvage(damaged, room)
            self.assertEqual(answer, reference_told_salvage(damaged, room), f"salvage {place}")
            number, *_, lost = answer
            tally.update([number] if number else [name for name, many in zip(Lost._fields, lost) if many])
        self.assertEqual(set(tally), {13, 14, 15, 19, *Lost._fields})
        self.assertGreater(min(tally.values()), SALVAGED // 200, "every refusal is drawn, and every loss")


if __name__ == "__main__":
    unittest.main()
