"""Request E13: a sitting and its like by hand, and that the comparisons find what is not alike."""

import unittest
from collections import Counter
from random import Random
from unittest.mock import patch

from reference import alike, built, estimate, exchange_checks, program, store, triples
from reference.alike import drawn_names, drawn_way, files_alike, walk_of_pairs
from reference.answers import Refused
from reference.built import SCRIPTS, BuiltProgram, BuiltScripts
from reference.contexts import code, string_of
from reference.difference import Difference
from reference.estimate import FIRST, SECOND, SHARED, Recursion, Sitting, Triple, fit
from reference.exchange import OTHER_SAMPLES_KIND, Way, lines_of, numbers_of
from reference.exchange_checks import EXCHANGE_CHECKS, check_calls_alike, check_exchange, check_exchanged_ties
from reference.limits import ALPHABETS
from reference.logarithm import L
from reference.program import WEIGHT
from reference.rows import estimate as report_of
from reference.script import SCRIPT_BYTES, Player, parse, play
from reference.sitting_file import read, samples_of, write

RING = (1, 2, 0)  # nought is named one, one is named two, two is named nought
EIGHT = (5, 3, 7, 0, 6, 2, 1, 4)
EXCHANGED, RENAMED, BOTH = Way(True, (0, 1)), Way(False, (1, 0)), Way(True, (1, 0))
ZEROS = (0,) * 6
UNCOUNTED = (0,) * 8


def sitting(A, D, first, second):
    return Sitting(A, D, (tuple(map(int, first)), tuple(map(int, second))))


J2 = sitting(2, 1, "0101", "0000")
J3 = sitting(2, 1, "01010101", "00100100")


class ByHand(unittest.TestCase):
    def demand_rows(self, asked, score, *rows):
        """The report's rows, the counts from A up left out, and its score at weight 4."""
        self.assertEqual(report_of(asked, WEIGHT), ([row + ZEROS for row in rows], score))

    def test_a_row(self):
        """The context 2, 0, 1 is named 0, 1, 2; each count stands at its symbol's new name."""
        row = (FIRST, 3, 1 + 8 * 0 + 64 * 2, 5, 6, 7, 0, 0, 0, 0, 0)
        self.assertEqual(Way(False, RING).row(row), (FIRST, 3, 2 + 8 * 1 + 64 * 0, 7, 5, 6, 0, 0, 0, 0, 0))
        self.assertEqual(Way(True, RING).row(row), (SECOND, 3, 10, 7, 5, 6, 0, 0, 0, 0, 0))
        self.assertEqual(Way(True, (0, 1, 2)).row(row), (SECOND,) + row[1:])
        self.assertEqual(Way(True, RING).row((SHARED,) + row[1:])[0], SHARED)

    def test_a_printed_row_has_as_many_counts_as_symbols(self):
        self.assertEqual(Way(True, RING).row([2, 1, 2, 8, 9, 4]), (1, 1, 0, 4, 8, 9))

    def test_feeds(self):
        """What is no sample or no symbol stays, so that it is refused alike."""
        way = Way(True, RING)
        self.assertEqual([way.feed(0, 2), way.feed(1, 0), way.feed(2, 0), way.feed(0, 3)], [(1, 0), (0, 1), (2, 1), (1, 3)])

    def test_samples(self):
        self.assertEqual(Way(True, RING).samples(((0, 1, 2), (2, 2))), ((0, 0), (1, 2, 0)))
        self.assertEqual(Way(False, RING).samples(((0, 1, 2), (2, 2))), ((1, 2, 0), (0, 0)))

    def test_a_triple(self):
        triple = Triple(frozenset({(0,)}), frozenset({(1,)}), frozenset({(0, 1), (1, 1)}))
        self.assertEqual(BOTH.triple(triple), Triple(frozenset({(1,)}), frozenset({(1, 0), (0, 0)}), frozenset({(0,)})))

    def test_j2(self):
        """Renamed, the rows of the contexts 0 and 1 have changed places."""
        self.demand_rows(J2, -24576, (2, 0, 0, 3, 0), (1, 1, 0, 0, 2), (1, 1, 1, 1, 0))
        self.demand_rows(EXCHANGED.sitting(J2), -24576, (1, 0, 0, 3, 0), (2, 1, 0, 0, 2), (2, 1, 1, 1, 0))
        self.demand_rows(RENAMED.sitting(J2), -24576, (2, 0, 0, 0, 3), (1, 1, 0, 0, 1), (1, 1, 1, 2, 0))
        self.demand_rows(BOTH.sitting(J2), -24576, (1, 0, 0, 0, 3), (2, 1, 0, 0, 1), (2, 1, 1, 2, 0))

    def test_j3(self):
        """Exchanged, the two rows of context 0 have changed places; renamed, the shared row stands first."""
        self.demand_rows(J3, -80704, (1, 1, 0, 0, 4), (2, 1, 0, 3, 2), (0, 1, 1, 5, 0))
        self.demand_rows(EXCHANGED.sitting(J3), -80704, (1, 1, 0, 3, 2), (2, 1, 0, 0, 4), (0, 1, 1, 5, 0))
        self.demand_rows(RENAMED.sitting(J3), -80704, (0, 1, 0, 0, 5), (1, 1, 1, 4, 0), (2, 1, 1, 2, 3))
        self.demand_rows(BOTH.sitting(J3), -80704, (0, 1, 0, 0, 5), (1, 1, 1, 2, 3), (2, 1, 1, 4, 0))

    def test_their_rows_changed_and_in_order_again(self):
        for asked in (J2, J3):
            for way in (EXCHANGED, RENAMED, BOTH):
                rows, score = report_of(asked, WEIGHT)
                self.assertEqual(report_of(way.sitting(asked), WEIGHT), (way.rows(rows), score))

    def test_the_longer_context_may_stand_first(self):
        """The context 0 stands before 1, 2. Renamed they are 1 and 2, 0, of which the second ends in the smaller symbol."""
        rows = [(0, 1, 0, *UNCOUNTED), (0, 2, 8 * 1 + 2, *UNCOUNTED)]
        self.assertEqual(Way(False, RING).rows(rows), [(0, 2, 8 * 2 + 0, *UNCOUNTED), (0, 1, 1, *UNCOUNTED)])

    def test_what_is_printed(self):
        """n and m are exchanged with the samples. L(5) is 2377 and L(3) 1623: two contexts of the first and one of the second."""
        self.assertEqual(-4 * (2 * 2377 + 1623), -25508)
        file = write(2, 1, (0, 1, 0, 1, 0), (0, 0, 0))
        self.assertEqual(program.output(file), "2 1 5 3 3 -25508\n2 0 0 2 0\n1 1 0 0 2\n1 1 1 2 0\n")
        printed = "2 1 3 5 3 -25508\n1 0 0 0 2\n2 1 0 0 2\n2 1 1 2 0\n"
        self.assertEqual(BOTH.output(program.output(file)), printed)
        self.assertEqual(program.output(write(2, 1, (1, 1, 1), (1, 0, 1, 0, 1))), printed)
        self.assertEqual(BOTH.output("refused 24\n"), "refused 24\n")


class Drawn(unittest.TestCase):
    def test_ways(self):
        """Exchanged alone, renamed alone and both; each renaming is one to one, and some symbol has another name."""
        random = Random("ways")
        drawn = Counter(drawn_way(random, 3) for _ in range(3000))
        self.assertEqual(len(drawn), 1 + 5 + 5)
        self.assertEqual(drawn.keys() & {Way(False, (0, 1, 2))}, set())
        self.assertGreater(drawn[True, (0, 1, 2)], 900)
        for A in ALPHABETS:
            names = drawn_names(random, A)
            self.assertEqual(sorted(names), list(range(A)))
            self.assertNotEqual(names, tuple(range(A)))

    def test_files_and_their_likes(self):
        random = Random("files")
        for _ in range(200):
            way, (file, like) = files_alike(random)
            self.assertEqual(len(file), len(like))
            shape, like_shape = read(file), read(like)
            if shape in (Refused(13), Refused(16)):
                self.assertEqual(like_shape, shape)
            else:
                self.assertEqual(samples_of(like, like_shape), way.samples(samples_of(file, shape)))

    def test_calls_in_step_come_to_every_answer(self):
        tally = Counter()
        for seed in range(150):
            check_calls_alike(Random(seed), tally)
        kinds = {kind for _, kind in tally}
        self.assertEqual({"answered", *(f"refused {number}" for number in (8, 10, 11, 12, 24))} - kinds, set())

    def test_samples_past_their_limit_are_refused_alike(self):
        """Both are of full length, and three more symbols follow."""
        full = Sitting(2, 1, ((0, 1) * 1024, (1,) * 2048))
        longer = patch.object(alike, "longer", lambda random, samples: [sample + (0,) * 3 for sample in samples])
        tally = Counter()
        with longer, patch.object(alike, "sitting_to_report", lambda random: full):
            for seed in range(3):
                check_calls_alike(Random(seed), tally)
        self.assertIn("refused 9", {kind for _, kind in tally})

    def test_walks_of_pairs(self):
        """Feeds stand by turns, reservations are the same or not, and answers that are alike come from two desks."""
        reserved, turns = set(), 0
        for seed in range(12):
            walk, pairs = walk_of_pairs(Random(seed))
            self.assertLessEqual(len(walk.text()), SCRIPT_BYTES)
            steps = [step for step, _ in walk.steps]
            opened = {step.numbers[0]: step.numbers[4] for step in steps if step.name == "open"}
            for way, one, other in pairs:
                desks = steps[one].numbers[0], steps[other].numbers[0]
                self.assertNotEqual(*desks)
                reserved.add(opened[desks[0]] == opened[desks[1]])
            turns += sum(before.numbers[0] != after.numbers[0] for before, after in zip(steps[1:], steps[2:]))
        self.assertEqual(reserved, {False, True})
        self.assertGreater(turns, 300)


def in_place(way, rows):
    return list(rows)


def kinds_first(way, rows):
    return sorted(rows, key=lambda row: (row[0], string_of(row[1], row[2], way.A)[::-1]))


def oldest_first(way, rows):
    return sorted(rows, key=lambda row: (string_of(row[1], row[2], way.A), row[0]))


def names_backwards(way, counts):
    """The count at a symbol is that of its new name."""
    return tuple(counts[name] for name in way.names) + tuple(counts[way.A :])


def newest_alone(way, length, number):
    """Of a context only the most recent symbol is renamed."""
    s = string_of(length, number, way.A)
    return code(s[:-1] + way.string(s[-1:]))


WRONG_CHANGES = {
    "kinds not exchanged": ("kind", lambda way, kind: kind),
    "kinds exchanged by a renaming alone": ("kind", lambda way, kind: OTHER_SAMPLES_KIND.get(kind, kind)),
    "codes not renamed": ("code", lambda way, length, number: number),
    "codes renamed in part": ("code", newest_alone),
    "counts not renamed": ("counts", lambda way, counts: tuple(counts)),
    "counts renamed backwards": ("counts", names_backwards),
    "rows not in order again": ("in_order", in_place),
    "rows in order of kinds first": ("in_order", kinds_first),
    "rows in order from the oldest symbol": ("in_order", oldest_first),
}


def one_name_for_two(random, A):
    """A renaming that is not one to one."""
    names = drawn_names(random, A)
    return names[:-1] + names[:1]


def first_renamed_alone(way, samples):
    renamed = way.string(samples[0]), samples[1]
    return renamed[::-1] if way.exchanged else renamed


scaled = estimate.Scale.__init__


def dear_to_first(scale, asked, weight, seen=None):
    """A shared context costs L(n) in the place of L(n+m)."""
    scaled(scale, asked, weight, seen)
    scale.costs[SHARED] = scale.costs[FIRST]


def one_length(scale, asked, weight, seen=None):
    """Both samples' own contexts cost L(n)."""
    scaled(scale, asked, weight, seen)
    scale.costs[SECOND] = scale.costs[FIRST]


def blind_to_nought(counts):
    """The count of symbol 0 has no part in the fit."""
    return fit(counts[1:])


weighed = Recursion.weigh_own


def seconds_split_first(recursion, kind, s):
    """Within second's separate tree, where it is seen, a split goes before a leaf."""
    best, choice = weighed(recursion, kind, s)
    if kind == SECOND and len(s) < recursion.scale.D and recursion.scale.is_seen(kind, s):
        split = sum(recursion.own(kind, child)[0] for child in estimate.children(s, recursion.scale.A))
        return best, int(split == best)
    return best, choice


WRONG_ESTIMATES = {
    "a shared context costs L(n)": (estimate.Scale, "__init__", dear_to_first),
    "second's own contexts cost L(n)": (estimate.Scale, "__init__", one_length),
    "symbol 0 has no part in the fit": (estimate, "fit", blind_to_nought),
    "second's ties are other than first's": (Recursion, "weigh_own", seconds_split_first),
}

choice_at = triples.choice_at


def seconds_leaf_last(triple, s):
    """The same in the choices that triples are compared by."""
    both, first, second = choice_at(triple, s)
    return both, first, -second


fed, reported = store.Store.feed, store.Store.report
held_with = store.OpenSitting.held_with


def shorter_second(made, desk, sample, symbol):
    """The second sample holds four symbols at most."""
    return Refused(9) if sample == 1 and len(made.desks[desk].samples[1]) > 3 else fed(made, desk, sample, symbol)


def last_symbol_refused(made, desk, sample, symbol):
    return Refused(8) if symbol == made.desks[desk].A - 1 else fed(made, desk, sample, symbol)


def held_by_first(at, sample, symbol):
    """The second sample's new contexts need no room."""
    return held_with(at, sample, symbol) if sample == 0 else set()


def first_must_not_be_empty(made, desk, sheet, place):
    """11 looks at the first sample alone, and the second has then 24."""
    answer = reported(made, desk, sheet, place)
    return Refused(24) if answer == Refused(11) and made.desks[desk].samples[0] else answer


def first_too_short(at, sample):
    return sample == 0 and 0 < len(at.samples[0]) <= at.D


WRONG_STORES = {
    "9 for the second sample alone": (store.Store, "feed", shorter_second),
    "8 for the last symbol": (store.Store, "feed", last_symbol_refused),
    "10 for the first sample alone": (store.OpenSitting, "held_with", held_by_first),
    "11 for the first sample alone": (store.Store, "report", first_must_not_be_empty),
    "24 for the first sample alone": (store.OpenSitting, "too_short", first_too_short),
}


class Scripts(BuiltScripts):
    """The second program's own player in the place of a built one, which so has the same defects."""

    def __init__(self):
        pass

    def output(self, given, shown):
        return "".join(line + "\n" for lines in play(given.decode()) for line in lines)


class Files(BuiltProgram):
    """The same for the program."""

    def __init__(self):
        pass

    def output(self, given, shown):
        return program.output(given)


def drawn_scripts(random, tally):
    """A shorter script than a player takes."""
    with patch.object(built, "SCRIPT_BYTES", SCRIPT_BYTES // 4):
        Scripts().compare_exchanged(random, tally)


def drawn_files(random, tally):
    Files().compare_exchanged(random, tally)


class Found(unittest.TestCase):
    def demand_found(self, name, check, seeds=100):
        """The check meets with a difference between a sitting and its like."""
        with self.subTest((name, check.__name__)), self.assertRaisesRegex(Difference, "its like"):
            for seed in range(seeds):
                check(Random(seed), Counter())

    def test_each_draws_and_compares(self):
        for check in [check for check, _ in EXCHANGE_CHECKS] + [drawn_scripts, drawn_files]:
            tally = Counter()
            for seed in range(3):
                check(Random(seed), tally)
            self.assertGreater(sum(tally.values()), 2, check.__name__)

    def test_wrong_changes(self):
        for name, (method, wrong) in WRONG_CHANGES.items():
            with patch.object(Way, method, wrong):
                for check in (check_exchange, check_calls_alike, drawn_scripts, drawn_files):
                    self.demand_found(name, check)

    def test_n_and_m_that_stay(self):
        with patch.object(Way, "head", lambda way, head: tuple(head)):
            self.demand_found("n and m not exchanged", drawn_files)

    def test_a_renaming_that_is_not_one_to_one(self):
        with patch.object(alike, "drawn_names", one_name_for_two):
            for check in (check_exchange, check_calls_alike, drawn_scripts, drawn_files):
                self.demand_found("two symbols of one name", check)

    def test_samples_renamed_each_its_own_way(self):
        with patch.object(Way, "samples", first_renamed_alone):
            for check in (check_exchange, drawn_scripts, drawn_files):
                self.demand_found("one sample renamed", check)

    def test_wrong_estimates(self):
        """Of the second program and, with the same defect, of what is built: only a sitting and its like show it. At the
        program's weight a tie between a leaf and a split is too seldom."""
        for name, wrong in WRONG_ESTIMATES.items():
            with patch.object(*wrong):
                for check in (check_exchange, check_calls_alike, drawn_scripts):
                    self.demand_found(name, check)
                if wrong[2] != seconds_split_first:
                    self.demand_found(name, drawn_files)

    def test_the_cost_of_a_shared_context_by_hand(self):
        """One symbol eight times and twice, at depth 0: one shared leaf, which costs 4·L(10) whichever comes first."""
        asked = sitting(2, 0, "00000000", "00")
        both = asked, EXCHANGED.sitting(asked)
        self.assertEqual([report_of(each, WEIGHT)[1] for each in both], [-4 * L(10), -4 * L(10)])
        with patch.object(estimate.Scale, "__init__", dear_to_first):
            self.assertEqual([report_of(each, WEIGHT)[1] for each in both], [-4 * L(8), -4 * L(2)])

    def test_wrong_stores(self):
        for name, wrong in WRONG_STORES.items():
            with patch.object(*wrong):
                self.demand_found(name, check_calls_alike)

    def test_wrong_ties(self):
        """Of the best triples one with the most contexts of first's own, one in which the context 1 is shared rather than 0, and
        one by the tie rules but for second's separate tree."""
        keys = [lambda triple: -len(triple.first), lambda triple: ((0,) in triple.shared) - ((1,) in triple.shared)]
        picked = [lambda triples, A, D, key=key: min(triples, key=key) for key in keys]
        wrong = [patch.object(exchange_checks, "first_by_ties", pick) for pick in picked]
        for definition in [*wrong, patch.object(triples, "choice_at", seconds_leaf_last)]:
            with definition, self.assertRaisesRegex(Difference, "triple of changed worths"):
                for seed in range(100):
                    check_exchanged_ties(Random(seed), Counter())


NAMES = {2: (1, 0), 3: RING, 8: EIGHT}


def kept_reports():
    """The reports of the kept script, four of each sitting, with the words before each: the sitting, its weight, the answer."""
    player, words, reports = Player(), None, []
    for line in (SCRIPTS / "exchanged.script").read_text().splitlines():
        words = line if line[:1].isalpha() else words
        for step in parse(line):
            lines = player.play(step)
            if step.name == "report":
                at = player.store.desks[step.numbers[0]]
                reports.append((words, at.value(), at.weight, lines))
    return [reports[place : place + 4] for place in range(0, len(reports), 4)]


def kept_ways(A):
    """How the second, the third and the fourth of a sitting's reports come from the first."""
    own = tuple(range(A))
    return [Way(True, own), Way(False, NAMES[A]), Way(True, NAMES[A])]


class Kept(unittest.TestCase):
    def test_four_sittings_alike(self):
        """The one as it is, exchanged, renamed, and both: like samples, the same weight, like answers."""
        self.assertEqual(len(kept_reports()), 16)
        for (words, asked, weight, lines), *likes in kept_reports():
            alike_too = [(words, way.sitting(asked), weight, way.answer(lines)) for way in kept_ways(asked.A)]
            self.assertEqual(likes, alike_too, words)

    def test_weights_alphabets_and_refusals_are_there(self):
        reports = [report for four in kept_reports() for report in four]
        self.assertEqual({weight for _, _, weight, _ in reports}, {0, 4, 16})
        self.assertEqual({asked.A for _, asked, _, _ in reports}, {2, 3, 8})
        refused = Counter(lines[0] for *_, lines in reports if lines[0].startswith("refused"))
        self.assertEqual(refused, {"refused 11": 4, "refused 12": 4, "refused 24": 8})
        self.assertIn("fed 0 refused 10\n" * 4 + "fed 2 whole\n" * 4, (SCRIPTS / "exchanged.answers").read_text())

    def test_rows_stand_in_another_order(self):
        """Of some sittings by the exchange alone, of some by the renaming alone, of some not."""
        moved = set()
        for (_, asked, _, lines), *likes in kept_reports():
            for way, like in zip(kept_ways(asked.A)[:2], likes):
                moved.add((way.exchanged, lines_of(way.row(numbers_of(line)) for line in lines[1:]) != like[3][1:]))
        self.assertEqual(moved, {(exchanged, changed) for exchanged in (False, True) for changed in (False, True)})
