"""Request E13: what is drawn in pairs, the one and its like: files, and calls at two desks."""

from typing import NamedTuple

from reference.counts import counts_by_place
from reference.exchange import Way
from reference.inputs import cut_to_depth, drawn_file, drawn_sitting, drawn_weight, less_deep
from reference.limits import DESKS, ROOMS, ROW, SAMPLES
from reference.script import SHEET_NUMBERS, STORE_NUMBERS, call
from reference.sitting_file import read, samples_of, write
from reference.walks import Walk

PAIRS = 2  # in a walk, and one desk more: a script has room for the longest samples at so many desks
MOST_RESERVED = 800  # by a desk; five such fit a store


def drawn_way(random, A):
    """The samples exchanged, the symbols renamed, or both; each as often."""
    exchanged, renamed = random.choice([(True, False), (False, True), (True, True)])
    return Way(exchanged, drawn_names(random, A) if renamed else tuple(range(A)))


def drawn_names(random, A):
    """The symbols in another order than their own."""
    names = tuple(random.sample(range(A), A))
    return names if names != tuple(range(A)) else names[1:] + names[:1]


def files_alike(random):
    """A way, and a file with its like; now and then both end too soon at one place, or go on with the same bytes."""
    file = drawn_file(random)
    shape = read(file)
    samples = samples_of(file, shape)
    way = drawn_way(random, shape.A)
    files = file, write(shape.A, shape.D, *way.samples(samples))
    ending = random.random()
    if ending < 0.05:
        cut = random.randrange(len(file))
        files = tuple(each[:cut] for each in files)
    elif ending < 0.1:
        more = random.randbytes(random.randrange(1, 9))
        files = tuple(each + more for each in files)
    return way, files


def sitting_to_report(random):
    """A sitting, mostly one whose samples are both longer than the depth; some have one that is too short or just long
    enough."""
    sitting = drawn_sitting(random)
    if random.random() < 0.8:
        sitting = less_deep(random, sitting)
    return cut_to_depth(random, sitting) if random.random() < 0.2 else sitting


class Pair(NamedTuple):
    """The calls at a desk and at the desk of its like, and which of them get like answers, by their places there."""

    way: Way
    calls: tuple
    alike: list


def merged(random, rows):
    """The members of all rows, each with its row's number, in a drawn order that keeps each row's own."""
    turns = [which for which, row in enumerate(rows) for _ in row]
    random.shuffle(turns)
    rest = list(map(iter, rows))
    return [(which, next(rest[which])) for which in turns]


def runs(random, sample):
    """The sample in up to four parts, some of them empty."""
    cuts = sorted(random.randrange(len(sample) + 1) for _ in range(random.randrange(4)))
    return [sample[begin:end] for begin, end in zip([0, *cuts], [*cuts, len(sample)])]


def feeds_of(random, desk, samples):
    """Both samples fed in runs, by turns; a run of one symbol may be one feed."""
    fed = merged(random, [runs(random, sample) for sample in samples])
    single = [len(run) == 1 and random.random() < 0.5 for _, run in fed]
    return [call("feed" if alone else "feedall", desk, sample, *run) for alone, (sample, run) in zip(single, fed)]


def held_by(sitting):
    """How many contexts the sitting holds once it is fed whole."""
    return len(set().union(*(counts_by_place(sample, sitting.D) for sample in sitting.samples)))


def pair_with_room(random, desks):
    """Each desk has room enough, a reservation of its own, and its own order of feeds; the last reports are alike."""
    sitting, weight = sitting_to_report(random), drawn_weight(random)
    way, needed = drawn_way(random, sitting.A), held_by(sitting)
    if needed > MOST_RESERVED:  # then only feeds in the same order are refused alike
        return pair_in_step(random, desks)
    calls = []
    for desk, fed in zip(desks, (sitting, way.sitting(sitting))):
        reserved = random.randrange(max(needed, 1), MOST_RESERVED + 1)
        opening = call("open", desk, sitting.A, sitting.D, weight, reserved)
        calls.append([opening, *feeds_of(random, desk, fed.samples), call("report", desk, SHEET_NUMBERS, 0)])
    return Pair(way, tuple(calls), [tuple(len(row) - 1 for row in calls)])


def pair_in_step(random, desks):
    """Every call at the one desk has its like at the other, with the same reservation: all answers are alike, 8, 9, 10, 11, 24
    and 12 too."""
    sitting, weight = sitting_to_report(random), drawn_weight(random)
    way, needed = drawn_way(random, sitting.A), held_by(sitting)
    tight = [needed, needed - 1, random.randrange(needed + 1), sitting.D + 1, MOST_RESERVED, MOST_RESERVED]
    reserved = min(max(random.choice(tight), 1), MOST_RESERVED)
    feeds = feeds_of(random, desks[0], longer(random, sitting.samples))
    beside = [drawn_report(random, desks[0]), *wrong_feeds(random, desks[0], sitting.A)]
    calls = [step for _, step in merged(random, [feeds, beside])]
    opening = call("open", desks[0], sitting.A, sitting.D, weight, reserved)
    first = [opening, *calls, drawn_report(random, desks[0]), call("report", desks[0], SHEET_NUMBERS, 0)]
    return Pair(way, (first, [like(way, desks[1], step) for step in first]), [(place, place) for place in range(len(first))])


def longer(random, samples):
    """The samples, one in three with three more symbols: past the limit where it has as many as a sample holds."""
    return [sample + (0,) * random.choice([0, 0, 3]) for sample in samples]


def drawn_report(random, desk):
    """The longest sheet, or one of a few rows; from its first row or a later one."""
    return call("report", desk, random.choice([SHEET_NUMBERS, ROW * random.randrange(6)]), random.choice([0, 0, 1]))


def wrong_feeds(random, desk, A):
    """None, or one of a symbol or a sample that there is not."""
    return random.choice([[], [call("feed", desk, random.choice(SAMPLES), A)], [call("feed", desk, len(SAMPLES), 0)]])


def like(way, desk, step):
    """The call at the desk of the like: feeds are changed, openings and reports stay but for the desk."""
    if step.name == "feed":
        return call("feed", desk, *way.feed(*step.numbers[1:]))
    if step.name == "feedall":
        return call("feedall", desk, way.sample(step.numbers[1]), *way.string(step.numbers[2:]))
    return call(step.name, desk, *step.numbers[1:])


def drawn_pair(random, desks):
    return random.choice([pair_with_room, pair_in_step])(random, desks)


def walk_of_pairs(random):
    """Pairs of desks and one desk more, with all their calls by turns. The walk, and which of its answers are alike, each as a
    way and two places."""
    walk, desks = Walk(random), random.sample(DESKS, 2 * PAIRS + 1)
    walk.play("make", ROOMS[-1], STORE_NUMBERS)
    pairs = [drawn_pair(random, desks[2 * each : 2 * each + 2]) for each in range(PAIRS)]
    rows = [row for pair in pairs for row in pair.calls] + [pair_in_step(random, desks[-1:] * 2).calls[0]]
    places = [[] for _ in rows]
    for which, step in merged(random, rows):
        places[which].append(len(walk.steps))
        walk.play(step.name, *step.numbers)
    alike = []
    for each, pair in enumerate(pairs):
        alike += [(pair.way, places[2 * each][one], places[2 * each + 1][other]) for one, other in pair.alike]
    return walk, alike
