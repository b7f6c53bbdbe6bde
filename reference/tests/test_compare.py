"""The comparison: what it finds, and the replay of demand 3."""

import stat
import subprocess
import sys
import tempfile
import unittest
from collections import Counter
from itertools import takewhile
from pathlib import Path
from random import Random
from unittest.mock import patch

from reference import checks, counts, estimate, salvage, sitting_file, store
from reference.answers import Done, Lost, Refused, Shape, Written
from reference.built import NOT_WRITTEN, BuiltSalvage
from reference.checks import CHECKS, check_counts, check_enumeration, check_held, check_longer_input, check_opening
from reference.checks import check_replay, check_salvage, check_saved, check_short, check_smaller_limit, check_sound
from reference.checks import check_weights, header_by_forms
from reference.counts import before, contexts_at
from reference.difference import Difference
from reference.estimate import fit
from reference.inputs import drawn_file, drawn_sitting, drawn_weight, fixed_damages
from reference.limits import ALPHABETS, DEPTHS, SAMPLE_LIMIT, SAMPLES, WEIGHTS
from reference.program import INPUT_BYTES
from reference.replay import accepted, by_sitting, replay_of
from reference.salvage import losses
from reference.script import call
from reference.sitting_file import number_bytes, read, write, write_into
from reference.walks import drawn_walk

CORRECT = f"exec {sys.executable} -m reference."
README = Path(__file__).resolve().parents[1] / "README.md"


def run_compare(**built):
    """The exit status and the output of a short comparison; `built` are shell commands by option."""
    with tempfile.TemporaryDirectory() as folder:
        options = []
        for option, command in built.items():
            path = Path(folder) / option
            path.write_text(f"#!/bin/sh\n{command}\n")
            path.chmod(path.stat().st_mode | stat.S_IXUSR)
            options += [f"--{option}", str(path)]
        run = subprocess.run(
            [sys.executable, "-m", "reference.compare", "--seconds", "0", *options], capture_output=True, text=True
        )
    return run.returncode, run.stdout


class Built(unittest.TestCase):
    def test_without_a_built_program(self):
        status, printed = run_compare()
        self.assertEqual(status, 0, printed)
        self.assertIn("no difference, seed 1", printed)

    def test_a_program_that_refuses_everything(self):
        status, printed = run_compare(program="echo refused 13")
        self.assertEqual(status, 1)
        self.assertIn("difference in round 0 of seed 1\nprogram\nasked:\n02 01 04 04 00 01", printed)

    def test_a_program_that_fails(self):
        status, printed = run_compare(program="exit 3")
        self.assertEqual(status, 1)
        self.assertIn("exit status", printed)

    def test_a_player_with_one_wrong_answer(self):
        """Every room question is answered one too low."""
        wrong = CORRECT + r"script | sed 's/^room 13$/room 12/'"
        status, printed = run_compare(scripts=wrong.replace("exec ", ""))
        self.assertEqual(status, 1)
        self.assertIn("to the call 4 room", printed)
        self.assertIn("reference:\nroom 13\nbuilt:\nroom 12", printed)

    def test_a_right_player(self):
        status, printed = run_compare(scripts=CORRECT + "script")
        self.assertEqual(status, 0, printed)
        self.assertIn("scripts: runs", printed)

    def test_a_salvage_that_saves_all_and_says_nothing(self):
        status, printed = run_compare(salvage="cat")
        self.assertEqual(status, 1)
        self.assertIn("what was lost\nasked:\n\nreference:\nrefused 13\n\nbuilt:\n", printed)

    def test_a_salvage_without_a_file(self):
        status, printed = run_compare(salvage=CORRECT + "salvage >/dev/null")
        self.assertEqual(status, 1)
        self.assertIn("saved file\nasked:\n03 02 3c 3c\nreference:\n03 02 00 00\nbuilt:\n", printed)

    def test_a_salvage_that_fails(self):
        status, printed = run_compare(salvage="echo refused 13 >&2; exit 3")
        self.assertEqual(status, 1)
        self.assertIn("exit status", printed)


class Salvage(BuiltSalvage):
    """A salvage in this process in the place of a built one."""

    def __init__(self, salvaged, full=NOT_WRITTEN):
        self.salvaged, self.full = salvaged, full

    def run(self, given, shown, output=None):
        return (b"", self.full) if output else self.salvaged(given)


def keeping(kept):
    """A salvage whose samples keep other bytes."""

    def salvaged(damaged):
        with patch.object(salvage, "kept", kept):
            return salvage.output(damaged)

    return salvaged


def unless_refused(change):
    """A salvage that refuses as it should, and else changes the saved file and the five numbers."""

    def salvaged(damaged):
        saved, line = salvage.output(damaged)
        if line.startswith("refused"):
            return saved, line
        saved, lost = change(damaged, saved, Lost(*map(int, line.split())))
        return saved, " ".join(map(str, lost)) + "\n"

    return salvaged


def telling(change):
    """A salvage that saves as it should, and tells other numbers."""
    return unless_refused(lambda damaged, saved, lost: (saved, change(lost)))


def with_header(damaged, saved, *lengths):
    """The saved file's symbols after a header with these lengths as bytes."""
    shape = read(saved)
    return damaged[:2] + b"".join(lengths) + saved[len(saved) - shape.n - shape.m :]


def second_moved(damaged, saved, lost):
    """The second sample begins after the bytes that the first kept."""
    (A, D, n, m), rest = header_by_forms(damaged)
    header = damaged[:2] + number_bytes(n - lost.first_missing - lost.first_dropped) + number_bytes(m)
    return salvage.output(header + rest)[0], lost


def old_lengths(damaged, saved, lost):
    shape = header_by_forms(damaged)[0]
    return with_header(damaged, saved, number_bytes(shape.n), number_bytes(shape.m)), lost


def two_groups_stay(damaged, saved, lost):
    """A first length that had two groups has two still, though it may need one."""
    n, m = read(saved)[2:]
    first = bytes([128 + n % 128, n // 128]) if damaged[2] >= 128 else number_bytes(n)
    return with_header(damaged, saved, first, number_bytes(m)), lost


def refuses_more(damaged):
    """Bytes after both samples are refused as the reader refuses them."""
    saved, line = salvage.output(damaged)
    return (saved, line) if line.startswith("refused") or line.endswith(" 0\n") else (b"", "refused 16\n")


WRONG_SALVAGES = {
    "refuses a bad symbol": keeping(lambda sample, A: sample),
    "keeps the byte A": keeping(lambda sample, A: bytes(takewhile(lambda byte: byte <= A, sample))),
    "drops the byte A-1": keeping(lambda sample, A: bytes(takewhile(lambda byte: byte < A - 1, sample))),
    "ignores high bits": keeping(lambda sample, A: bytes(takewhile(lambda byte: byte % 128 < A, sample))),
    "keeps good bytes after a bad one": keeping(lambda sample, A: bytes(byte for byte in sample if byte < A)),
    "moves the second sample": unless_refused(second_moved),
    "keeps the old lengths": unless_refused(old_lengths),
    "keeps two groups": unless_refused(two_groups_stay),
    "says that nothing was lost": telling(lambda lost: (0, 0, 0, 0, 0)),
    "exchanges the samples' losses": telling(lambda lost: lost[2:4] + lost[:2] + lost[4:]),
    "exchanges missing and dropped": telling(lambda lost: [lost[place] for place in (1, 0, 3, 2, 4)]),
    "counts in 16 bits": telling(lambda lost: [count % 2**16 for count in lost]),
    "counts nothing after what it reads": lambda damaged: salvage.output(damaged[:INPUT_BYTES]),
    "refuses with 16": refuses_more,
    "ends no line": lambda damaged: (salvage.output(damaged)[0], salvage.output(damaged)[1].rstrip()),
    "writes a byte more": unless_refused(lambda damaged, saved, lost: (saved + b"\0", lost)),
}


class Salvages(unittest.TestCase):
    def test_a_right_one(self):
        tally = Counter()
        Salvage(salvage.output).compare_fixed(tally)
        self.assertEqual(sum(tally.values()), len(fixed_damages()) + 1)
        self.assertIn(f"\n{len(fixed_damages()):,} fixed inputs", README.read_text("utf-8"))
        for seed in range(100):
            Salvage(salvage.output).compare_drawn(Random(seed), tally)
        kinds = {kind for _, kind in tally}
        self.assertTrue({"refused 13", "refused 14", "refused 15", "nothing lost", "cut off"} <= kinds, kinds)
        self.assertTrue({"missing", "dropped", "missing and dropped", "dropped and cut off"} <= kinds, kinds)

    def test_one_that_tells_losses_of_a_file_it_could_not_write(self):
        with self.assertRaises(Difference):
            Salvage(salvage.output, full="3 0 2 0 0\n").compare_fixed(Counter())

    def test_wrong_ones_are_found_by_fixed_files(self):
        for wrong, salvaged in WRONG_SALVAGES.items():
            with self.subTest(wrong), self.assertRaises(Difference):
                Salvage(salvaged).compare_fixed(Counter())

    def test_wrong_ones_are_found_by_drawn_files(self):
        for wrong, salvaged in WRONG_SALVAGES.items():
            with self.subTest(wrong), self.assertRaises(Difference):
                for seed in range(200):
                    Salvage(salvaged).compare_drawn(Random(seed), Counter())


def written_past(A, D, first, second, buffer):
    """Every byte that is lent is written."""
    answer = write_into(A, D, first, second, buffer)
    if isinstance(answer, Written):
        buffer[answer.length :] = bytes(len(buffer) - answer.length)
    return answer


def written_into_more(A, D, first, second, buffer):
    """A byte more than the file has must be lent."""
    return write_into(A, D, first, second, buffer) if len(buffer) != len(write(A, D, first, second)) else Refused(19)


def deaf_header(reading):
    """Lengths outside their limits are read too."""
    return Shape(*(reading.number(range(2**14)) for _ in range(4)))


def cutting_header(reading):
    """Lengths above the limit are cut to it."""
    A, D, n, m = deaf_header(reading)
    return Shape(A, D, min(n, reading.lengths[-1]), min(m, reading.lengths[-1]))


def late_header(reading):
    """15 is given only where both lengths have been read and no symbol is missing."""
    A, D, n, m = deaf_header(reading)
    if max(n, m) > reading.lengths[-1] and len(reading.file) >= reading.place + n + m:
        raise sitting_file.Fault(15)
    return Shape(A, D, n, m)


def strict_header(reading):
    """A sample must be shorter than the limit."""
    return Shape(*(reading.number(limits) for limits in (ALPHABETS, DEPTHS, reading.lengths[:-1], reading.lengths[:-1])))


WRONG_HEADERS = [deaf_header, cutting_header, late_header, strict_header]

WRONG_DEFINITIONS = {
    "keeps one byte less": (salvage, "kept", lambda sample, A: bytes(takewhile(lambda byte: byte < A, sample))[:-1]),
    "drops the byte A-1": (salvage, "kept", lambda sample, A: bytes(takewhile(lambda byte: byte < A - 1, sample))),
    "keeps good bytes after a bad one": (salvage, "kept", lambda sample, A: bytes(byte for byte in sample if byte < A)),
    "exchanges missing and dropped": (salvage, "losses", lambda sample, n, A: losses(sample, n, A)[::-1]),
    "counts dropped bytes as missing": (salvage, "losses", lambda sample, n, A: (sum(losses(sample, n, A)), 0)),
    "writes all that is lent": (sitting_file, "write_into", written_past),
    "wants a byte more": (sitting_file, "write_into", written_into_more),
    "reads any length": (sitting_file.Reading, "header", deaf_header),
}


def every_place(sample, i, D):
    return [before(sample, i, length) for length in range(min(D, i - 1) + 1)]


def one_place_late(sample, i, D):
    return contexts_at(sample, i, D) if i > D + 1 else []


def one_place_early(sample, i, D):
    return contexts_at(sample, i, D) if i != D else [()]


def shorter_than_depth(sitting, sample):
    return 0 < len(sitting.samples[sample]) < sitting.D


def one_longer_too(sitting, sample):
    return 0 < len(sitting.samples[sample]) <= sitting.D + 1


def first_alone(sitting, sample):
    return sample == 0 and too_short(sitting, sample)


def both_of_them(sitting, sample):
    return all(too_short(sitting, one) for one in SAMPLES)


too_short = store.OpenSitting.too_short
WRONGLY_SHORT = [lambda sitting, sample: False, shorter_than_depth, one_longer_too, first_alone, both_of_them]

reported = store.Store.report


def before_11(made, desk, sheet, place):
    """A sample that is too short goes before an empty one."""
    short = any(made.desks[desk].too_short(sample) for sample in SAMPLES)
    return Refused(24) if short else reported(made, desk, sheet, place)


def after_12(made, desk, sheet, place):
    """Rows that do not fit go before a sample that is too short."""
    with patch.object(store.OpenSitting, "too_short", lambda *_: False):
        answer = reported(made, desk, list(sheet), place)
    return answer if answer == Refused(12) else reported(made, desk, sheet, place)


def refused_after_writing(made, desk, sheet, place):
    """The rows of a sample that is too short are written all the same."""
    answer = reported(made, desk, sheet, place)
    if answer == Refused(24):
        with patch.object(store.OpenSitting, "too_short", lambda *_: False):
            reported(made, desk, sheet, place)
    return answer


opened = store.Store.open


def before_5(made, desk, A, D, weight, reservation):
    """A wrong weight goes before a wrong alphabet or depth."""
    answer = opened(made, desk, A, D, weight, reservation)
    return Refused(20) if answer == Refused(5) and weight not in WEIGHTS else answer


def after_6(made, desk, A, D, weight, reservation):
    """A wrong reservation goes before a wrong weight."""
    right = min(weight, WEIGHTS[-1])
    answer = opened(made, desk, A, D, weight, reservation)
    again = opened(made, desk, A, D, right, reservation) if answer == Refused(20) else answer
    return again if again == Refused(6) else answer


def cut_to_16(made, desk, A, D, weight, reservation):
    """A greater weight is taken for the greatest."""
    return opened(made, desk, A, D, min(weight, WEIGHTS[-1]), reservation)


def eight_bits(made, desk, A, D, weight, reservation):
    return opened(made, desk, A, D, weight % 2**8, reservation)


def refused_after_opening(made, desk, A, D, weight, reservation):
    """The desk is opened all the same."""
    answer = opened(made, desk, A, D, weight, reservation)
    if answer == Refused(20):
        opened(made, desk, A, D, WEIGHTS[-1], reservation)
    return answer


def one_weight_for_all(made, desk, A, D, weight, reservation):
    """An opening's weight becomes that of every open desk."""
    answer = opened(made, desk, A, D, weight, reservation)
    if answer == Done():
        for sitting in filter(None, made.desks):
            sitting.weight = weight
    return answer


WRONG_OPENINGS = [before_5, after_6, cut_to_16, eight_bits, refused_after_opening]

scaled = estimate.Scale.__init__


def at_weight(change):
    """A scale over another weight than the one that is named."""
    return lambda scale, sitting, weight, seen=None: scaled(scale, sitting, change(weight), seen)


def cheaply_shared(scale, sitting, weight, seen=None):
    """A shared context costs half of what it should."""
    scaled(scale, sitting, weight, seen)
    scale.costs[estimate.SHARED] //= 2


WRONG_SCALES = {
    "the plain penalty at every weight": at_weight(lambda weight: 4),
    "no weight below one quarter": at_weight(lambda weight: max(weight, 1)),
    "no weight above fifteen quarters": at_weight(lambda weight: min(weight, 15)),
    "a whole penalty for each quarter": at_weight(lambda weight: 4 * weight),
    "shared contexts at half their cost": cheaply_shared,
}


class Checks(unittest.TestCase):
    def test_each_draws_and_compares(self):
        for check, _ in CHECKS:
            tally = Counter()
            for seed in range(3):
                check(Random(seed), tally)
            self.assertGreater(sum(tally.values()), 0, check.__name__)

    def test_wrong_limits_of_readers_are_found(self):
        for header in WRONG_HEADERS:
            wrong = patch.object(sitting_file.Reading, "header", header)
            with self.subTest(header.__name__), wrong, self.assertRaises(Difference):
                for seed in range(200):
                    check_smaller_limit(Random(seed), Counter())

    def test_both_samples_of_full_length_are_drawn(self):
        random = Random("full length")
        lengths = Counter(tuple(map(len, drawn_sitting(random).samples)) for _ in range(2000))
        self.assertGreater(lengths[SAMPLE_LIMIT, SAMPLE_LIMIT], 0)
        self.assertGreater(sum(count for pair, count in lengths.items() if max(pair) < 65), 1000)

    def test_samples_around_the_depth_are_drawn(self):
        """Most files have samples that are both longer than the depth; some have one that is too short, or just long enough."""
        random = Random("around the depth")
        shapes = [read(drawn_file(random)) for _ in range(1000)]
        shortest = Counter("short" if 0 < min(n, m) <= D else "one more" if min(n, m) == D + 1 else "" for _, D, n, m in shapes)
        self.assertGreater(shortest["short"], 30)
        self.assertLess(shortest["short"], 100)
        self.assertGreater(shortest["one more"], 30)

    def test_other_samples_too_short_are_found(self):
        for wrong in WRONGLY_SHORT:
            definition = patch.object(store.OpenSitting, "too_short", wrong)
            with self.subTest(wrong.__name__), definition, self.assertRaises(Difference):
                for seed in range(200):
                    check_short(Random(seed), Counter())

    def test_other_orders_of_11_24_and_12_are_found(self):
        for wrong in (before_11, after_12, refused_after_writing):
            with self.subTest(wrong.__name__), patch.object(store.Store, "report", wrong), self.assertRaises(Difference):
                for seed in range(200):
                    check_short(Random(seed), Counter())

    def test_other_openings_are_found(self):
        for wrong in WRONG_OPENINGS:
            with self.subTest(wrong.__name__), patch.object(store.Store, "open", wrong), self.assertRaises(Difference):
                for seed in range(200):
                    check_opening(Random(seed), Counter())

    def test_other_limits_of_the_weight_are_found(self):
        for limits in (range(16), range(1, 17), range(18)):
            with self.subTest(limits), patch.object(store, "WEIGHTS", limits), self.assertRaises(Difference):
                for seed in range(200):
                    check_opening(Random(seed), Counter())

    def test_other_costs_and_fits_are_found(self):
        wrong = {name: patch.object(estimate.Scale, "__init__", scale) for name, scale in WRONG_SCALES.items()}
        wrong["a fit four times too small"] = patch.object(estimate, "fit", lambda counts: fit(counts) // 4)
        for name, definition in wrong.items():
            with self.subTest(name), definition, self.assertRaises(Difference):
                for seed in range(30):
                    check_weights(Random(seed), Counter())

    def test_other_ties_are_found_where_nothing_costs(self):
        """The last of the best choices in the place of the first."""

        def last_best(scores):
            best = max(scores)
            return best, len(scores) - 1 - scores[::-1].index(best)

        nothing_costs = patch.object(checks, "drawn_weight", lambda random: 0)
        with nothing_costs, patch.object(estimate, "first_best", last_best), self.assertRaises(Difference):
            for seed in range(20):
                check_enumeration(Random(seed), Counter())

    def test_a_weight_that_is_not_the_sittings_own_is_found(self):
        """A walk is played again sitting by sitting, and each report must find the weight of its opening."""
        with patch.object(store.Store, "open", one_weight_for_all), self.assertRaises(Difference):
            for seed in range(20):
                check_replay(Random(seed), Counter())

    def test_all_weights_are_drawn(self):
        random = Random("weights")
        drawn = Counter(drawn_weight(random) for _ in range(1000))
        self.assertEqual(set(drawn), set(range(17)))
        self.assertGreater(min(drawn[weight] for weight in (0, 4, 16)), 100, drawn)

    def test_counts_not_renewed_by_a_feed_are_found(self):
        with patch.object(store, "count_place", lambda *_: None), self.assertRaises(Difference):
            for seed in range(20):
                check_held(Random(seed), Counter())

    def test_counts_of_other_places_are_found(self):
        """From |s|+1 on, as before request E3; from one place later; from place D on where there is one."""
        for places in (every_place, one_place_late, one_place_early):
            for check, module in [(check_held, store), (check_held, counts), (check_counts, counts)]:
                wrong = patch.object(module, "contexts_at", places)
                with self.subTest((places.__name__, module.__name__)), wrong, self.assertRaises(Difference):
                    for seed in range(20):
                        check(Random(seed), Counter())

    def test_wrong_salvages_are_found(self):
        """The second program's own, with one of its definitions changed."""
        for wrong, (module, name, definition) in WRONG_DEFINITIONS.items():
            with self.subTest(wrong), patch.object(module, name, definition), self.assertRaises(Difference):
                for seed in range(200):
                    for check in (check_salvage, check_saved, check_sound):
                        check(Random(seed), Counter())

    def test_a_wrong_beginning_of_the_input_is_found(self):
        with patch.object(checks, "INPUT_BYTES", 64), self.assertRaises(Difference):
            for seed in range(200):
                check_longer_input(Random(seed), Counter())


class Replay(unittest.TestCase):
    def test_refused_calls_and_room_questions_are_struck_out(self):
        steps = [
            (call("room"), ["room 3"]),
            (call("open", 0, 2, 1, 17, 3), ["refused 20"]),
            (call("open", 0, 2, 1, 16, 9), ["refused 7"]),
            (call("open", 0, 2, 1, 16, 3), ["done"]),
            (call("feedall", 0, 0, 0, 1, 0), ["fed 2 refused 10"]),
            (call("feedall", 1, 0, 0), ["fed 0 refused 4"]),
            (call("report", 0, 22, 0), ["refused 24"]),
        ]
        kept = [(call("open", 0, 2, 1, 16, 3), ["done"]), (call("feedall", 0, 0, 0, 1), ["fed 2 whole"])]
        self.assertEqual(accepted(steps), kept)

    def test_one_sitting_after_another(self):
        names = [("open", 1), ("open", 2), ("close", 1), ("close", 2), ("open", 1)]
        steps = [(call(name, desk), ["done"]) for name, desk in names]
        order = [(step.name, *step.numbers) for step, _ in by_sitting(steps)]
        self.assertEqual(order, [("open", 1), ("close", 1), ("open", 2), ("close", 2), ("open", 1)])

    def test_walks_interleave(self):
        """Some walk's replay has another order than the walk itself."""
        walks = [drawn_walk(Random(seed), remake=False) for seed in range(5)]
        self.assertTrue(any(replay_of(walk)[1:] != accepted(walk.steps) for walk in walks))
