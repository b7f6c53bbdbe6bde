"""Request E13 by running: a sitting and its like, whose samples are exchanged or whose symbols are renamed. As in `checks`, no
built program is needed."""

from reference.alike import drawn_way, pair_in_step
from reference.checks import ENUMERATED, DrawnScale
from reference.difference import demand_equal
from reference.estimate import SHARED, Sitting
from reference.inputs import drawn_sample, drawn_sitting, drawn_weight
from reference.limits import ALPHABETS, DEPTHS, DESKS, ROOMS, SAMPLES
from reference.rows import estimate
from reference.script import STORE_NUMBERS, Player, answer_kind, call
from reference.triples import best_triples, first_by_ties


def around_depth(random):
    """A sitting with samples of about as many symbols as its depth: most of its trees are tied."""
    A, D = random.choice(ALPHABETS), random.choice(DEPTHS)
    lengths = [random.choice([0, 1, D, D + 1, D + 2, D + 4]) for _ in SAMPLES]
    return Sitting(A, D, tuple(drawn_sample(random, A, length) for length in lengths))


def check_exchange(random, tally):
    """The like has the same score, and its rows are the sitting's, changed and in order again."""
    sitting, weight = random.choice([drawn_sitting, around_depth])(random), drawn_weight(random)
    way = drawn_way(random, sitting.A)
    rows, score = estimate(sitting, weight)
    like_rows, like_score = estimate(way.sitting(sitting), weight)
    asked = sitting, f"at weight {weight}", way
    demand_equal("score of its like", asked, sitting=score, like=like_score)
    demand_equal("rows of its like", asked, sitting=way.rows(rows), like=like_rows)
    order = "rows in the same order" if like_rows == list(map(way.row, rows)) else "rows in another order"
    tally[f"exchange: sittings and their likes, {way.words()}", order] += 1


def drawn_scale(random):
    """Few different worths. Of half of them the shared contexts' are less, so that ties within separate trees decide too."""
    scale = DrawnScale(random, *random.choice(ENUMERATED))
    less = random.choice([0, 2])
    scale.worths = {(kind, s): worth - less * (kind == SHARED) for (kind, s), worth in scale.worths.items()}
    return scale


class ChangedScale:
    """Worths that were drawn, at the kinds and contexts that they are changed to."""

    def __init__(self, scale, way):
        self.A, self.D = scale.A, scale.D
        self.worths = {(way.kind(kind), way.string(s)): worth for (kind, s), worth in scale.worths.items()}

    def worth(self, kind, s):
        return self.worths[kind, s]


def check_exchanged_ties(random, tally):
    """By enumeration over drawn worths, where several triples are often best: the one that the tie rules pick is changed as the
    worths are. No recursion has a part in it."""
    scale = drawn_scale(random)
    way = drawn_way(random, scale.A)
    (best, triples), (like_best, like_triples) = best_triples(scale), best_triples(ChangedScale(scale, way))
    asked = scale.worths, way
    demand_equal("best score of changed worths", asked, worths=best, changed=like_best)
    first, like_first = (first_by_ties(each, scale.A, scale.D) for each in (triples, like_triples))
    demand_equal("triple of changed worths", asked, worths=way.triple(first), changed=like_first)
    tally["exchange: drawn worths, by enumeration", "one best triple" if len(triples) == 1 else "several best triples"] += 1


def check_calls_alike(random, tally):
    """Each call at a desk and its like, at another desk of the same store or of a second, get like answers, refusals too. After
    each, both hold like contexts and samples."""
    desks = random.sample(DESKS, 2)
    pair = pair_in_step(random, desks)
    players = [Player(), Player()] if random.random() < 0.5 else [Player()] * 2
    for player in players:
        player.play(call("make", ROOMS[-1], STORE_NUMBERS))
    for place, steps in enumerate(zip(*pair.calls)):
        one, other = (player.play(step) for player, step in zip(players, steps))
        asked = "\n".join(step.line() for step in pair.calls[0]), pair.way, f"call {place} (from 0)"
        demand_equal("answer of its like", asked, sitting=pair.way.answer(one), like=other)
        compare_held(*(player.store.desks[desk] for player, desk in zip(players, desks)), pair.way, asked)
        tally[f"exchange: {steps[0].name} at a desk and its like at another", answer_kind(one)] += 1


def compare_held(sitting, like, way, asked):
    """Both sittings as they stand after a call."""
    held = {way.string(s) for s in sitting.held}
    demand_equal("contexts held by its like", asked, sitting=held, like=like.held)
    demand_equal("samples of its like", asked, sitting=way.sitting(sitting.value()), like=like.value())


# How many of each are drawn in a round.
EXCHANGE_CHECKS = [
    (check_exchange, 20),
    (check_exchanged_ties, 30),
    (check_calls_alike, 5),
]
