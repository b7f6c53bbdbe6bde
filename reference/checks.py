"""Comparisons that need no built program: two ways of the reference to one answer.

Each function draws one case from `random`, raises a Difference where the ways part, and adds to
the tally what it compared.
"""

from itertools import accumulate

from reference.answers import Done, Lost, Refused, Report, Salvaged, Shape, Written
from reference.contexts import children, strings_up_to
from reference.counts import UNSEEN, N, counts_by_place, total
from reference.difference import Difference, demand_equal
from reference.estimate import Recursion, Scale, Sitting
from reference.inputs import damaged_file, drawn_file, drawn_room, drawn_sample, drawn_sitting, drawn_values, drawn_weight
from reference.inputs import file_to_salvage, smaller_limit, wrong_numbers
from reference.limits import ALPHABETS, BOTH_SAMPLES, COUNTS, DEPTHS, DESKS, ROOMS, ROW, SAMPLES, WEIGHTS, store_length
from reference.logarithm import L, follows_rule
from reference.program import INPUT_BYTES, WEIGHT
from reference.replay import CLOSING_QUESTIONS, replay_of
from reference.rows import estimate, rows_of
from reference.salvage import losses_kind, output, salvage, shown
from reference.script import BLANK_SHEET, Player, answer_kind
from reference.sitting_file import LENGTHS, number_bytes, read, samples_of, write, write_into
from reference.store import OpenSitting, Store
from reference.triples import best_triples, first_by_ties, is_admissible
from reference.walks import drawn_walk

# Where all admissible triples can be gone through: A and D.
ENUMERATED = [(2, 0), (2, 1), (2, 2), (2, 2), (2, 3), (3, 0), (3, 1), (3, 2)] + [(A, 1) for A in range(4, 9)]
WHOLE_TREE_STRINGS = 1000


def check_logarithm(random, tally):
    """The rule at one n, which L need not have been asked before."""
    n = random.randrange(1, BOTH_SAMPLES + 1)
    if not follows_rule(n, L(n)):
        raise Difference("logarithm", n, L=L(n))
    tally["logarithm: values held to the rule", ""] += 1


def counts_of(sample, s, D):
    return tuple(N(sample, s, a, D) for a in range(COUNTS))


def check_counts(random, tally):
    """N(s,a) as it is worded against the counts taken place by place, for every string up to a depth. Every tree is scored
    over the same places: a context's counts are those of its children together."""
    A, D = random.choice([(2, 6), (2, 4), (3, 3), (4, 2), (5, 2), (8, 1), (8, 0)])
    sample = drawn_sample(random, A, random.choice([D, D + 1, random.randrange(60)]))
    counts = counts_by_place(sample, D)
    for s in strings_up_to(A, D):
        worded = counts_of(sample, s, D)
        demand_equal("counts", (D, sample, s), worded=worded, by_place=counts.get(s, UNSEEN))
        if len(s) < D:
            added = tuple(map(sum, zip(*(counts.get(child, UNSEEN) for child in children(s, A)))))
            demand_equal("children's counts", (D, sample, s), worded=worded, added=added)
        tally["counts: contexts, N(s,a) as worded against place by place", ""] += 1


def check_held(random, tally):
    """The contexts held and their counts, renewed feed by feed, against the strings with N(s) > 0 and their N(s,a)."""
    A, D = random.choice([(2, 6), (2, 4), (3, 3), (4, 2), (8, 1), (8, 0)])
    sitting = OpenSitting(A, D, WEIGHT, 4096)
    for _ in range(random.choice([D, D + 1, random.randrange(50)])):
        sitting.feed(random.randrange(2), random.randrange(A))
    asked = sitting.value()
    seen = [{s for s in strings_up_to(A, D) if total(sample, s, A, D)} for sample in asked.samples]
    demand_equal("contexts held", asked, worded=seen[0] | seen[1], by_feeds=sitting.held)
    worded = [{s: counts_of(sample, s, D) for s in strings} for sample, strings in zip(asked.samples, seen)]
    demand_equal("their counts", asked, worded=worded, by_feeds=list(sitting.seen))
    tally["contexts held and their counts: sittings, feed by feed against N(s,a)", ""] += 1


def check_enumeration(random, tally):
    """The best of all admissible triples, by the tie rules, against the recursion's triple. At weight 0 ties are frequent."""
    sitting, weight = drawn_sitting(random, ENUMERATED), drawn_weight(random)
    label = f"enumeration against recursion: sittings at {'a weight above 0' if weight else 'weight 0'}"
    compare_best(Scale(sitting, weight), (sitting, weight), tally, label, whole=random.random() < 0.5)


class DrawnScale:
    """Few different worths, drawn for each context: several triples are often best."""

    def __init__(self, random, A, D):
        self.A, self.D = A, D
        least = random.choice([-3, -2, -1])
        self.worths = {(kind, s): random.randint(least, 0) for kind in range(3) for s in strings_up_to(A, D)}

    def worth(self, kind, s):
        return self.worths[kind, s]

    def score(self, triple):
        return sum(self.worth(kind, s) for kind in range(3) for s in triple[kind])


def check_ties(random, tally):
    """The same over worths that are drawn, so that the tie rules often decide."""
    scale = DrawnScale(random, *random.choice(ENUMERATED))
    compare_best(scale, scale.worths, tally, "enumeration against recursion: drawn worths", whole=True)


def compare_best(scale, asked, tally, label, whole):
    best, triples = best_triples(scale)
    recursion = Recursion(scale, whole)
    triple = recursion.triple()
    scores = {"enumeration": best, "recursion": recursion.joint(())[0], "triple": scale.score(triple)}
    demand_equal("best score", asked, **scores)
    if not is_admissible(triple, scale.A):
        raise Difference("not admissible", asked, recursion=triple)
    demand_equal("tie rules", asked, enumeration=first_by_ties(triples, scale.A, scale.D), recursion=triple)
    tally[label, "one best triple" if len(triples) == 1 else "several best triples"] += 1


def check_whole_tree(random, tally):
    """The recursion over every string up to D against the one that weighs unseen strings by length. Each place from D+1 on
    is counted in one row: that of the one context of its sample's tree that stands before it."""
    shapes = [(A, D) for A in ALPHABETS for D in DEPTHS if A**D <= WHOLE_TREE_STRINGS]
    sitting, weight = drawn_sitting(random, shapes), drawn_weight(random)
    scale = Scale(sitting, weight)
    rows = [rows_of(scale, Recursion(scale, whole).triple()) for whole in (True, False)]
    demand_equal("whole tree", (sitting, weight), every_string=rows[0], unseen_by_length=rows[1])
    places = sum(len(range(sitting.D, len(sample))) for sample in sitting.samples)
    demand_equal("places counted", sitting, rule=places, rows=sum(sum(row[3:]) for row in rows[1]))
    tally["whole tree against unseen strings by length: sittings", ""] += 1


def fit_and_penalty(sitting, rows):
    """From a report's rows alone: their fits together, and what they cost for each quarter of the weight."""
    n, m = map(len, sitting.samples)
    fit = sum(8 * (sum(c * L(c) for c in counts) - sum(counts) * L(sum(counts))) for _, _, _, *counts in rows)
    return fit, sum((sitting.A - 1) * L([n + m, n, m][kind]) for kind, *_ in rows)


def check_weights(random, tally):
    """One sitting at several weights: each report's score is that of its own rows, and at its weight the rows of no other
    report score more."""
    sitting = drawn_sitting(random)
    weights = sorted({WEIGHTS[0], WEIGHT, WEIGHTS[-1], *random.sample(WEIGHTS, 2)})
    seen = [counts_by_place(sample, sitting.D) for sample in sitting.samples]
    reports = {weight: estimate(sitting, weight, seen) for weight in weights}
    told = {weight: fit_and_penalty(sitting, rows) for weight, (rows, _) in reports.items()}
    for weight in weights:
        scores = {other: fit - weight * penalty for other, (fit, penalty) in told.items()}
        asked = sitting, f"at weight {weight}"
        demand_equal("score", asked, told=reports[weight][1], of_its_rows=scores[weight], best_of_reports=max(scores.values()))
    for less, more in zip(weights, weights[1:]):
        same = reports[less][0] == reports[more][0]
        tally["weights: reports of one sitting at two of them", "the same rows" if same else "other rows"] += 1


def check_opening(random, tally):
    """Of an opening's numbers the first from the left that is wrong decides the refusal, whatever the others are: so 5 goes
    before 20, and 20 before 6. A refused opening changes nothing."""
    K = random.choice([2, random.choice(ROOMS[1:]), ROOMS[-1]])
    store = Store()
    store.make(K, store_length(K))
    store.open(DESKS[0], 2, 1, WEIGHT, random.randrange(1, K))
    left = store.room_left()
    good = [random.choice(DESKS[1:]), random.choice(ALPHABETS), random.choice(DEPTHS), drawn_weight(random)]
    numbers = [(number, None) for number in [*good, random.randrange(1, left + 1)]]
    wrong = [[(DESKS[0], 3), (DESKS[-1] + 1, 2)], *wrong_numbers(K, left)]
    for place in random.sample(range(5), random.choice([0, 1, 2, 2, 3])):
        numbers[place] = random.choice(wrong[place])
    opening, refusals = zip(*numbers)
    before = desks_of(store)
    refusal = next((refusal for refusal in refusals if refusal), None)
    asked = opening, f"K {K}, room left {left}"
    demand_equal("opening", asked, first_wrong=Refused(refusal) if refusal else Done(), store=store.open(*opening))
    demand_equal("nothing changed", asked, rule=bool(refusal), store=desks_of(store) == before)
    tally["openings, by the first number that is wrong", f"refused {refusal}" if refusal else "done"] += 1


def reported_by_counts(sitting, weight, room):
    """What a report answers where the sheet has room for so many rows, by what is counted: 24 where a sample has symbols and
    no context has seen one of them."""
    if () in sitting.samples:
        return Refused(11)
    if {} in [counts_by_place(sample, sitting.D) for sample in sitting.samples]:
        return Refused(24)
    rows, score = estimate(sitting, weight)
    return Report(len(rows), score) if len(rows) <= room else Refused(12)


def check_short(random, tally):
    """Samples of lengths around the depth, and a sheet around the rows needed: 11, 24 and 12 in their order, and a refused
    report leaves the sheet."""
    A, D = random.choice(ALPHABETS), random.choice(DEPTHS)
    lengths = [random.choice([0, 1, D, D + 1, D + 1, D + 1, D + 2]) for _ in SAMPLES]
    sitting, weight = Sitting(A, D, tuple(drawn_sample(random, A, length) for length in lengths)), drawn_weight(random)
    store = Store()
    store.make(ROOMS[-1], store_length(ROOMS[-1]))
    store.open(0, A, D, weight, ROOMS[-1])
    for sample, symbols in enumerate(sitting.samples):
        for symbol in symbols:
            store.feed(0, sample, symbol)
    room = len(estimate(sitting, weight)[0]) + random.choice([-1, 0, 0, 1])
    sheet = [BLANK_SHEET] * (ROW * room)
    answer = store.report(0, sheet, 0)
    asked = sitting, weight, room
    demand_equal("report", asked, by_counts=reported_by_counts(*asked), by_lengths=answer)
    refused = isinstance(answer, Refused)
    demand_equal("sheet", asked, rule=refused, left=sheet == [BLANK_SHEET] * (ROW * room))
    tally["reports of samples around the depth, by what is counted", f"refused {answer.number}" if refused else "answered"] += 1


def check_written(random, tally):
    """A file that was written is read back; each part of it that ends sooner gets 13, and more bytes 16."""
    sitting = drawn_sitting(random)
    n, m = map(len, sitting.samples)
    file = write(sitting.A, sitting.D, *sitting.samples)
    shape = Shape(sitting.A, sitting.D, n, m)
    demand_equal("written file", file.hex(), written=shape, read=read(file))
    demand_equal("written symbols", file.hex(), written=sitting.samples, read=samples_of(file, shape))
    cut = random.randrange(len(file))
    demand_equal("file cut short", (file.hex(), cut), rule=Refused(13), read=read(file[:cut]))
    longer = file + random.randbytes(random.randrange(1, 9))
    demand_equal("file with more bytes", longer.hex(), rule=Refused(16), read=read(longer))
    tally["reader: files written, read, cut and lengthened", ""] += 1


def check_damaged(random, tally):
    """14, 15 and 16 stay whatever follows, 13 stands for every part that ends sooner, and the bytes that the
    program reads show the fault."""
    file = damaged_file(random)
    answer = read(file)
    asked = file.hex()
    demand_equal(f"first {INPUT_BYTES:,} bytes", asked, whole_input=answer, program=read(file[:INPUT_BYTES]))
    if answer == Refused(13):
        demand_equal("part of a file that ends", asked, rule=answer, read=read(file[: random.randrange(len(file) + 1)]))
    elif isinstance(answer, Refused):
        demand_equal("refused file with more bytes", asked, rule=answer, read=read(file + random.randbytes(3)))
    kind = f"refused {answer.number}" if isinstance(answer, Refused) else "accepted"
    tally["reader: damaged files", kind] += 1


def check_writing(random, tally):
    """15 where the reader refuses the file of those values, else 19 where the buffer is shorter than it; only
    an accepted call writes, and nothing but the file."""
    A, D, samples = drawn_values(random)
    file = write(A, D, *samples)
    shape = read(file)
    before = random.randbytes(drawn_room(random, file))
    buffer = bytearray(before)
    answer = write_into(A, D, *samples, buffer)
    rule = shape if isinstance(shape, Refused) else Refused(19) if len(before) < len(file) else Written(len(file))
    demand_equal("writer", (A, D, samples, len(before)), rule=rule, written=answer)
    end = answer.length if isinstance(answer, Written) else 0
    demand_equal("lent buffer", (A, D, samples, len(before)), rule=file[:end] + before[end:], written=bytes(buffer))
    kind = f"refused {answer.number}" if isinstance(answer, Refused) else "written"
    tally["writer: values, by what the reader says of their file", kind] += 1


def check_written_again(random, tally):
    """A file, mostly a whole one, that the reader accepts, written again from what was read."""
    file = random.choice([drawn_file, drawn_file, damaged_file])(random)
    shape = read(file)
    if isinstance(shape, Refused):
        return
    buffer = bytearray(len(file))
    answer = write_into(shape.A, shape.D, *samples_of(file, shape), buffer)
    demand_equal("length written again", file.hex(), rule=Written(len(file)), written=answer)
    demand_equal("file written again", file.hex(), read=file, written=bytes(buffer))
    tally["writer: accepted files written again", ""] += 1


def header_by_forms(file):
    """The header as one of those that the writer writes, and the bytes after it; none where the file begins with no
    such header."""
    numbers = []
    for limits in (ALPHABETS, DEPTHS, LENGTHS, LENGTHS):
        number = next((number for number in limits if file.startswith(number_bytes(number))), None)
        if number is None:
            return None
        numbers.append(number)
        file = file[len(number_bytes(number)) :]
    return Shape(*numbers), file


def check_smaller_limit(random, tally):
    """A reader of a smaller limit gives 15 where a header has a longer length, whatever follows it, and else the same
    answer. Where the header is not whole it may come to a longer length, and so to 15, before the fault."""
    file = random.choice([drawn_file, drawn_file, damaged_file])(random)
    header = header_by_forms(file)
    lengths = header[0][2:] if header else ()
    limit = smaller_limit(random, lengths)
    answer, smaller = read(file), read(file, limit)
    if header or smaller != Refused(15):
        rule = Refused(15) if max(lengths, default=0) > limit else answer
        demand_equal("reader of a smaller limit", (file.hex(), limit), rule=rule, read=smaller)
    other = "refused" if isinstance(answer, Refused) else "accepted"
    kind = f"refused {smaller.number}" if isinstance(smaller, Refused) else "accepted"
    tally["reader of a smaller limit and the reader: files", f"{kind} and {other}"] += 1


def longest_good(sample, A):
    """The longest beginning of the sample's bytes whose largest is below A."""
    return sample[: sum(largest < A for largest in accumulate(sample, max))]


def saved_of(damaged):
    """The saved file and what was lost of a file with a whole header, with more bytes lent than any file has."""
    buffer = bytearray(INPUT_BYTES)
    answer = salvage(damaged, buffer)
    if isinstance(answer, Refused):
        raise Difference("file with a whole header", shown(damaged), salvaged=answer)
    return bytes(buffer[: answer.length]), answer.lost


NOTHING_LOST = Lost(0, 0, 0, 0, 0)


def check_salvage(random, tally):
    """Refused as the reader refuses the file where no header of the writer's forms begins it, else with 19 where the
    buffer is shorter than the saved file; only an accepted call writes, and nothing but that file."""
    damaged = file_to_salvage(random)
    header = header_by_forms(damaged)
    saved, lost = saved_of(damaged) if header else (damaged, None)
    before = random.randbytes(drawn_room(random, saved))
    buffer = bytearray(before)
    answer = salvage(damaged, buffer)
    rule = Refused(19) if len(before) < len(saved) else Salvaged(len(saved), lost)
    asked = shown(damaged), f"{len(before)} bytes lent"
    demand_equal("salvage", asked, rule=rule if header else read(damaged), salvaged=answer)
    end = answer.length if isinstance(answer, Salvaged) else 0
    demand_equal("lent buffer", asked, rule=saved[:end] + before[end:], salvaged=bytes(buffer))
    kind = f"refused {answer.number}" if isinstance(answer, Refused) else "salvaged"
    tally["salvage: files and bytes lent, by the writer's headers and the reader", kind] += 1


def check_saved(random, tally):
    """What is kept, and what is said to be lost, of a file with a whole header."""
    damaged = file_to_salvage(random)
    header = header_by_forms(damaged)
    if header is None:
        tally["salvage: saved files", "header refused"] += 1
        return
    saved, lost = saved_of(damaged)
    demand_beginnings(shown(damaged), *header, saved)
    demand_sums(shown(damaged), *header, read(saved), lost)
    tally["salvage: saved files", losses_kind(lost)] += 1


def demand_beginnings(asked, header, rest, saved):
    """The saved file is read with the same A and D, and has the longest good beginning of each sample's bytes."""
    A, D, n, m = header
    shape = read(saved)
    demand_equal("saved file", asked, damaged=(A, D), read=shape[:2])
    kept = tuple(tuple(longest_good(sample, A)) for sample in (rest[:n], rest[n : n + m]))
    demand_equal("symbols kept", asked, longest=kept, read=samples_of(saved, shape))


def demand_sums(asked, header, rest, shape, lost):
    """Kept, missing and dropped make n or m; kept, dropped and cut off make the bytes after the header."""
    n, m = header.n, header.m
    missing = [sum(place >= len(rest) for place in places) for places in (range(n), range(n, n + m))]
    demand_equal("bytes that did not exist", asked, by_place=missing, told=[lost.first_missing, lost.second_missing])
    first, second = shape.n + sum(lost[:2]), shape.m + sum(lost[2:4])
    demand_equal("kept, missing and dropped", asked, header=(n, m), added=(first, second))
    existing = shape.n + shape.m + lost.first_dropped + lost.second_dropped + lost.cut_off
    demand_equal("kept, dropped and cut off", asked, bytes=len(rest), added=existing)


def check_sound(random, tally):
    """Just what the reader accepts loses nothing, and stays the same; a saved file loses nothing more. No saved file is
    longer than the damaged one."""
    damaged = file_to_salvage(random)
    answer = read(damaged)
    if header_by_forms(damaged):
        asked = shown(damaged)
        saved, lost = saved_of(damaged)
        accepted = isinstance(answer, Shape)
        demand_equal("sound file", asked, accepted=accepted, nothing_lost=lost == NOTHING_LOST, same=saved == damaged)
        demand_equal("salvaged again", asked, once=(saved, NOTHING_LOST), twice=saved_of(saved))
        demand_equal("longer than the damaged file", asked, rule=False, saved=len(saved) > len(damaged))
    kind = f"refused {answer.number}" if isinstance(answer, Refused) else "accepted"
    tally["salvage: files, by what the reader says of them", kind] += 1


def check_longer_input(random, tally):
    """The whole input against those of its bytes that the program reads and how many follow."""
    damaged = file_to_salvage(random)
    beginning, following = damaged[:INPUT_BYTES], len(damaged[INPUT_BYTES:])
    demand_equal("input", shown(damaged), whole=output(damaged), beginning=output(beginning, following))
    tally["salvage: inputs whole against their beginning", "longer" if following else "not longer"] += 1


def check_replay(random, tally):
    """A walk over eight desks against its accepted calls played sitting by sitting on a new store."""
    walk = drawn_walk(random, remake=False)
    player, text = Player(), walk.text()
    for step, lines in replay_of(walk):
        demand_equal(f"replay of {step.line()}", text, walk=lines, replay=player.play(step))
        tally["demand 3: accepted calls played again sitting by sitting", step.name] += 1
    demand_equal("desks at the end", text, walk=desks_of(walk.store), replay=desks_of(player.store))
    for question in CLOSING_QUESTIONS:
        answers = walk.player.play(question), player.play(question)
        demand_equal(f"last question {question.line()}", text, walk=answers[0], replay=answers[1])
    tally["demand 3: walks", ""] += 1
    for step, lines in walk.steps:
        tally[f"demand 3: {step.name} in the walks", answer_kind(lines)] += 1


def desks_of(store):
    return [sitting and (sitting.weight, sitting.reservation, sitting.value()) for sitting in store.desks]


# How many of each are drawn in a round.
CHECKS = [
    (check_logarithm, 10),
    (check_counts, 3),
    (check_held, 3),
    (check_enumeration, 10),
    (check_ties, 10),
    (check_whole_tree, 3),
    (check_weights, 3),
    (check_opening, 20),
    (check_short, 10),
    (check_written, 10),
    (check_damaged, 30),
    (check_smaller_limit, 20),
    (check_writing, 20),
    (check_written_again, 10),
    (check_salvage, 20),
    (check_saved, 20),
    (check_sound, 10),
    (check_longer_input, 10),
    (check_replay, 3),
]
