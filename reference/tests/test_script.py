"""The language of scripts, and the scripts that are kept."""

import struct
import unittest
from collections import Counter
from pathlib import Path
from random import Random
from unittest.mock import patch

from reference.answers import Done, Refused, Report
from reference.built import SCRIPTS, answers_of
from reference.contexts import children
from reference.estimate import FIRST, SECOND, SHARED, Recursion, Scale
from reference.limits import ALPHABETS, DEPTHS, DESKS, ROW, SAMPLES
from reference.logarithm import L
from reference.script import SCRIPT_BYTES, BadScript, Call, Player, answer_kind, call, parse, play
from reference.store import Store
from reference.walks import drawn_walk, every_length, spoilt_walk

PLAYER = Path(__file__).resolve().parents[2] / "crates" / "player"


class Language(unittest.TestCase):
    def test_words_only_part_numbers(self):
        self.assertEqual(parse("0 make 4 2144\n1 open 0 2 1 4 3, 4"), parse("0 4 2144 1 0 2 1 4 3 4"))

    def test_an_opening_has_its_weight_between_depth_and_reservation(self):
        with patch.object(Store, "open", return_value=Done()) as opened:
            play("1 open 5 3 2 16 40")
        opened.assert_called_once_with(5, 3, 2, 16, 40)

    def test_line_and_back(self):
        calls = [call("make", 4, 2144), call("feedall", 0, 1, 5, 6, 7), call("feedall", 0, 1), call("room")]
        self.assertEqual(calls[1].line(), "8 feedall 0 1 3 5 6 7")
        self.assertEqual(parse("\n".join(step.line() for step in calls)), calls)

    def test_what_is_no_script(self):
        for text in ("9", "0 4", "2 0 0 4294967296", "8 0 0 3 1 1"):
            self.assertRaises(BadScript, parse, text)
        for text in ("0 1 100353", "5 0 5633 0", "7 100352 0", "8 0 0 4097" + " 0" * 4097):
            self.assertRaises(BadScript, play, "0 1 9999 " + text)

    def test_the_longest_run(self):
        answers = play("0 1 9999 1 0 2 0 4 1 8 0 0 4096" + " 0" * 4096)
        self.assertEqual(answers[2], ["fed 2048 refused 9"])

    def test_feedall_stops_at_the_first_refusal(self):
        answers = play("0 9 9999 1 0 2 1 4 2 8 0 0 4 0 1 0 1 8 0 0 0 8 1 0 1 0 6 0 1 0 1")
        self.assertEqual(answers[2:5], [["fed 2 refused 10"], ["fed 0 whole"], ["fed 0 refused 4"]])
        self.assertEqual(answers[5], ["chart first " + struct.pack(">d", 1.0).hex()])

    def test_unknown_from_a_spoil_to_the_next_making(self):
        answers = play("0 9 9999 7 0 5 4 0 0 0 0 9 2000 4 0 9 9999 4")
        self.assertEqual(
            answers,
            [["done"], ["done"], ["unknown"], ["refused 17"], ["refused 18"], ["unknown"], ["done"], ["room 9"]],
        )


def choices_at_root(scale):
    """The best scores of a shared leaf, of two separate trees and, above depth 0, of a split of both at the empty context."""
    weighed = Recursion(scale)
    scores = [scale.worth(SHARED, ()), sum(weighed.own(kind, ())[0] for kind in (FIRST, SECOND))]
    return scores + ([sum(weighed.joint(child)[0] for child in children((), scale.A))] if scale.D else [])


def best_at_root(scale):
    """Which of these choices score best: 0 a shared leaf, 1 separate trees, 2 a split of both."""
    scores = choices_at_root(scale)
    return [choice for choice, score in enumerate(scores) if score == max(scores)]


def choices_within(scale, kind):
    """The best scores of a leaf and of a split at the empty context of that sample's separate tree."""
    weighed = Recursion(scale)
    return [scale.worth(kind, ()), sum(weighed.own(kind, child)[0] for child in children((), scale.A))]


def reports_in(script):
    """What a kept script's reports are weighed by, with the words before each, and the answer."""
    player = Player()
    for line in (SCRIPTS / f"{script}.script").read_text().splitlines():
        words = line if line[:1].isalpha() else words
        for step in parse(line):
            lines = player.play(step)
            if step.name == "report":
                sitting = player.store.desks[step.numbers[0]]
                yield words, Scale(sitting.value(), sitting.weight), lines


def length_word(length, D):
    """A sample's length beside a depth above 1."""
    return {0: "none", 1: "one", D: "as many", D + 1: "one more"}.get(length, "other")


def wrong_in(store, opening):
    """What is wrong with an opening's numbers, by the refusal that each gets alone."""
    _, A, D, weight, reservation = opening
    wrong = {5: A not in ALPHABETS or D not in DEPTHS, 20: weight > 16, 6: not 0 < reservation <= store.K}
    wrong[7] = store.room_left() < reservation <= store.K
    return tuple(number for number in wrong if wrong[number])


def openings_played(play_them):
    """Each opening at a closed desk of a made store while these are played: what is wrong with it, and its answer."""
    played = []

    def open_desk(store, *opening):
        closed = store.K is not None and opening[0] in DESKS and not store.desks[opening[0]]
        wrong = wrong_in(store, opening) if closed else None
        answer = opened(store, *opening)
        if closed:
            played.append((wrong, answer, opening[3]))
        return answer

    opened = Store.open
    with patch.object(Store, "open", open_desk):
        play_them()
    return played


class Kept(unittest.TestCase):
    def test_answers(self):
        scripts = sorted(SCRIPTS.glob("*.script"))
        self.assertEqual(len(scripts), 7)
        for path in scripts:
            printed = "".join(line + "\n" for lines in play(path.read_text()) for line in lines)
            self.assertEqual(printed, path.with_suffix(".answers").read_text(), path.name)

    def test_the_crate_plays_them_in_a_row(self):
        """`refusals` first, since only there no store is made yet."""
        order = ("refusals", "marked", "splits", "weights", "exchanged", "limits", "desks")
        for kind, file in [("script", "stdin"), ("answers", "stdout")]:
            in_a_row = "".join((SCRIPTS / f"{name}.{kind}").read_text() for name in order)
            self.assertEqual((PLAYER / file).read_text(), in_a_row, file)

    def test_the_greatest_logarithm_is_there(self):
        """Both samples of 2,048 symbols, and their shared root, at weight 4."""
        self.assertIn(f"report 1 {-4 * L(4096)}\n0 0 0 4096 ", (SCRIPTS / "limits.answers").read_text())

    def test_the_ties_that_splits_speaks_of(self):
        """Which choices at the empty context score best."""
        tied = {words: best_at_root(scale) for words, scale, _ in reports_in("splits") if "score" in words}
        self.assertEqual(list(tied.values()), [[0, 1], [1, 2], [0, 2], [1, 2]], tied)

    def test_a_leaf_and_a_split_tie_within_separate_trees(self):
        """In that sitting of `splits` where separate splits score as much as separate leaves, and in no other."""
        tied = [
            words
            for words, scale, _ in reports_in("splits")
            if all(leaf == split for leaf, split in (choices_within(scale, kind) for kind in (FIRST, SECOND)))
        ]
        self.assertEqual(tied, ["separate leaves, though separate splits and a split of both score as much"])

    def test_the_ties_that_weights_speaks_of(self):
        """Which choices at the empty context score best where nothing costs."""
        free = [(words, best_at_root(scale)) for words, scale, _ in reports_in("weights") if not any(scale.costs.values())]
        self.assertEqual([best for _, best in free[:8]], [[1, 2], [1, 2], [1, 2], [0, 1], [0, 1, 2], [1, 2], [1], [2]], free)

    def test_one_sitting_is_there_at_every_weight(self):
        costs = [scale.costs[FIRST] for words, scale, _ in reports_in("weights") if words == "J-three at every weight"]
        self.assertEqual(costs, [weight * L(8) for weight in range(17)])

    def test_desks_of_different_weights_are_there(self):
        """One sitting, of which a desk with the plain weight has four shared contexts, one with none eight own ones, and two with
        great weights one leaf."""
        told = [lines[0].split()[1] for words, _, lines in reports_in("weights") if words.startswith("three desks")]
        self.assertEqual(told, ["1", "8", "4", "1", "1", "4"])

    def test_places_that_do_not_count_are_there(self):
        """The first place that counts is refused with 10 at an empty sitting, and a chart finds nothing before it."""
        refusals, desks = ((SCRIPTS / f"{name}.answers").read_text() for name in ("refusals", "desks"))
        self.assertIn("done\nfed 2 refused 10\nchart neither\nchart neither\n", refusals)
        self.assertIn("done\nchart neither\ndone\nchart neither\nchart neither\ndone\nchart second ", desks)

    def test_every_refusal_is_there(self):
        text = "".join(path.read_text() for path in SCRIPTS.glob("*.answers"))
        for number in [*range(1, 13), 17, 18, 20, 24]:
            self.assertIn(f"refused {number}\n", text)

    def test_20_is_there_in_its_order(self):
        """Alone, after 5, and before 6 and 7."""
        played = openings_played(lambda: play((SCRIPTS / "refusals.script").read_text()))
        answers = {wrong: answer for wrong, answer, _ in played}
        for wrong, number in {(5, 20): 5, (5, 20, 6): 5, (20,): 20, (20, 6): 20, (20, 7): 20, (6,): 6, (7,): 7}.items():
            self.assertEqual(answers[wrong], Refused(number), wrong)
        weights = {weight for wrong, _, weight in played if wrong == (20,)}
        self.assertEqual(weights, {17, 256, 2**16 + 4, 2**32 - 1})

    def test_24_is_there_in_its_order(self):
        """For each sample alone and for both, after 11 and before 12, at the depth and one symbol more."""
        asked = set()
        for name in ("refusals", "limits"):
            player = Player()
            for step in parse((SCRIPTS / f"{name}.script").read_text()):
                lines = player.play(step)
                sitting = player.store.desks[step.numbers[0]] if step.name == "report" and step.numbers[0] in DESKS else None
                if sitting and all(len(sample) <= 7 for sample in sitting.samples):
                    asked.add((answer_kind(lines), sitting.D, *map(len, sitting.samples)))
        refused = {("refused 24", 2, n, m) for n, m in [(1, 1), (2, 2), (3, 2), (1, 4), (2, 4)]}
        refused |= {("refused 24", 1, 1, 2), ("refused 24", 1, 2, 1), ("refused 24", 6, 6, 7), ("refused 24", 6, 7, 6)}
        others = {("refused 11", 2, 2, 0), ("refused 11", 2, 0, 1), ("refused 12", 2, 3, 3), ("refused 12", 2, 3, 4)}
        answered = {("answered", D, n, m) for D, n, m in [(2, 3, 3), (2, 3, 4), (1, 2, 2), (6, 7, 7), (0, 1, 1)]}
        self.assertEqual((refused | others | answered) - asked, set())


class Walks(unittest.TestCase):
    def test_every_length_shows_the_logarithm(self):
        walks = every_length()
        self.assertTrue(all(len(walk.text()) <= SCRIPT_BYTES for walk in walks))
        reports = [lines[0] for walk in walks for step, lines in walk.steps if step.name == "report"]
        self.assertEqual(reports[0], "refused 11")
        scores = [-L(length) for length in range(4, 2049)] + [-16 * L(length) for length in range(2049, 4097)]
        self.assertEqual(reports[3:], [f"report 1 {score}" for score in scores])

    def test_played_again_from_their_text(self):
        for seed in range(6):
            walk = (drawn_walk if seed % 2 else spoilt_walk)(Random(seed))
            self.assertEqual(play(walk.text()), [lines for _, lines in walk.steps])

    def test_walks_come_to_the_first_place_that_counts(self):
        """Its feed is accepted and refused with 10, with nothing held before and with something held."""
        come = set()

        def feed(store, desk, sample, symbol):
            sitting = store.desks[desk] if desk in DESKS else None
            first = sitting and sample in SAMPLES and len(sitting.samples[sample]) == sitting.D
            held = bool(first and sitting.held)
            answer = fed(store, desk, sample, symbol)
            if first and sitting.D and answer in (Done(), Refused(10)):
                come.add((held, answer))
            return answer

        fed = Store.feed
        with patch.object(Store, "feed", feed):
            for seed in range(12):
                drawn_walk(Random(seed))
        self.assertEqual(come, {(held, answer) for held in (False, True) for answer in (Done(), Refused(10))})

    def test_walks_open_at_many_weights(self):
        """Often at 0, at the plain one and at the greatest; 20 comes alone, after 5, and before 6 and 7."""
        played = openings_played(lambda: [drawn_walk(Random(seed)) for seed in range(40)])
        weights = Counter(weight for wrong, _, weight in played if not wrong)
        self.assertGreater(len(weights), 10, weights)
        self.assertGreater(min(weights[weight] for weight in (0, 4, 16)), 0.1 * sum(weights.values()), weights)
        answers = {(wrong, answer) for wrong, answer, _ in played}
        expected = {(5, 20): 5, (5, 20, 6): 5, (5, 20, 7): 5, (20,): 20, (20, 6): 20, (20, 7): 20}
        self.assertEqual({(wrong, Refused(number)) for wrong, number in expected.items()} - answers, set())
        self.assertEqual({wrong[0] for wrong, answer in answers if answer == Refused(20)}, {20})

    def test_walks_report_on_samples_around_the_depth(self):
        """Each sample with one symbol and with as many as the depth gets 24, also where the rows would not fit, and beside
        an empty one 11; with one symbol more there are reports. A good share of all reports is given, and some get 24."""
        come, kinds = set(), Counter()

        def report(store, desk, sheet, place):
            answer = reported(store, desk, sheet, place)
            sitting = store.desks[desk] if desk in DESKS else None
            kind = "answered" if isinstance(answer, Report) else answer.number
            kinds[kind] += 1
            if sitting and sitting.D > 1:
                come.update((kind, i, length_word(len(sitting.samples[i]), sitting.D)) for i in SAMPLES)
                if answer == Refused(24) and place + len(sitting.estimate()[0]) > len(sheet) // ROW:
                    come.add("24 before 12")
            return answer

        reported = Store.report
        lengths = [(24, "one"), (24, "as many"), (11, "one"), (11, "as many"), ("answered", "one more")]
        expected = {(kind, i, length) for kind, length in lengths for i in SAMPLES} | {"24 before 12"}
        with patch.object(Store, "report", report):
            for seed in range(400):
                if expected <= come:
                    break
                drawn_walk(Random(seed))
        self.assertEqual(expected - come, set())
        self.assertGreater(kinds["answered"], 0.35 * sum(kinds.values()), kinds)
        self.assertGreater(kinds[24], 0.05 * sum(kinds.values()), kinds)

    def test_answers_are_parted_by_call(self):
        walk = drawn_walk(Random(7), unmade=True)
        printed = "".join(line + "\n" for _, lines in walk.steps for line in lines)
        self.assertEqual(answers_of(printed), [lines for _, lines in walk.steps])

    def test_outside_is_counted(self):
        self.assertEqual(answers_of("refused 12\noutside 3\ndone\n"), [["refused 12", "outside 3"], ["done"]])

    def test_calls_are_names_and_numbers(self):
        self.assertEqual(Player().play(Call("room", ())), ["refused 1"])
