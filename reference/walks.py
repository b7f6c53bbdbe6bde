"""Random walks of store calls over eight desks, played as they are drawn."""

from reference.contexts import code
from reference.inputs import drawn_length, drawn_sample, drawn_weight, weighted, wrong_numbers
from reference.limits import ALPHABETS, DEPTHS, DESKS, ROOMS, ROW, SAMPLE_LIMIT, SAMPLES, SHEET_ROWS, WEIGHTS, store_length
from reference.script import FEEDALL_SYMBOLS, LARGEST, SHEET_NUMBERS, STORE_NUMBERS, Player, call

# Numbers at and beyond the limits, put in the place of good ones.
ODD_NUMBERS = [0, 1, 2, 3, 6, 7, 8, 9, 10, 63, 64, 255, 256, 65536, 2**31, LARGEST]
ODD_NUMBERS += [limit + more for limit in (WEIGHTS[-1], SHEET_ROWS, SAMPLE_LIMIT, ROOMS[-1]) for more in (0, 1)]


class Walk:
    """The calls drawn so far, each with its printed answer."""

    def __init__(self, random):
        self.random = random
        self.player = Player()
        self.steps = []
        self.waiting = {}

    @property
    def store(self):
        return self.player.store

    def play(self, name, *numbers):
        """Plays a call, and keeps it with its answer."""
        step = call(name, *numbers)
        self.steps.append((step, self.player.play(step)))

    def text(self):
        return "".join(step.line() + "\n" for step, _ in self.steps)

    def odd(self, number, often=0.03):
        """The number, or now and then an odd one in its place."""
        return self.random.choice(ODD_NUMBERS) if self.random.random() < often else number

    def open_desks(self):
        return [desk for desk in DESKS if self.store.desks[desk]]

    def some_desk(self, wanted):
        """Mostly one of the wanted desks, now and then any number."""
        return self.odd(self.random.choice(list(wanted) or DESKS))

    def sitting_at(self, desk):
        """The sitting at that desk; None where there is none."""
        return self.store.desks[desk] if desk in DESKS else None

    def uncounted(self):
        """The open desks with those of their samples of which no place counts yet."""
        sittings = [(desk, self.store.desks[desk]) for desk in self.open_desks()]
        return [(desk, i) for desk, sitting in sittings for i in SAMPLES if len(sitting.samples[i]) <= sitting.D]


def make(walk):
    random = walk.random
    sizes = weighted(random, [(range(1, 12), 1), (range(12, 300), 3), (range(300, 4097), 4)])
    K = walk.odd(random.choice(sizes), often=0.1)
    enough = min(store_length(K), STORE_NUMBERS)
    length = random.choice([enough, enough, enough - 1, STORE_NUMBERS, random.randrange(STORE_NUMBERS + 1)])
    walk.play("make", K, length)


def open_desk(walk):
    random = walk.random
    closed = [desk for desk in DESKS if not walk.store.desks[desk]]
    desk = walk.some_desk(closed if random.random() < 0.9 else DESKS)
    A, D = walk.odd(random.choice(ALPHABETS)), walk.odd(random.choice(DEPTHS))
    walk.play("open", desk, A, D, walk.odd(drawn_weight(random)), drawn_reservation(walk))
    walk.waiting.pop(desk, None)


def wrong_opening(walk):
    """One or several numbers that an opening refuses, mostly at a desk that is closed: 5, 20, 6 and 7 beside each other."""
    random = walk.random
    numbers = [random.choice(ALPHABETS), random.choice(DEPTHS), drawn_weight(random), 1]
    wrong = wrong_numbers(walk.store.K, walk.store.room_left())
    for place in random.sample(range(4), random.choice([1, 2, 2, 3])):
        numbers[place] = random.choice(wrong[place])[0]
    desk = walk.some_desk(desk for desk in DESKS if not walk.store.desks[desk])
    walk.play("open", desk, *numbers)


def drawn_reservation(walk):
    """Some of the room left; now and then around what the first place that counts adds, all of the room, one more, none, or
    more than there is."""
    left = walk.store.room_left()
    part = walk.random.randrange(1, left + 1) if left else 1
    few = walk.random.choice(DEPTHS) + 1
    beyond = [left + 1, walk.store.K, walk.store.K + 1, 0]
    shares = [(part, 4), (max(left // 4, 1), 6), (few, 1), (left, 1), (walk.random.choice(beyond), 2)]
    return weighted(walk.random, shares)


def feed(walk):
    random = walk.random
    desk = walk.some_desk(walk.open_desks())
    sitting = walk.sitting_at(desk)
    symbol = random.randrange(sitting.A) if sitting else random.randrange(8)
    walk.play("feed", desk, walk.odd(random.randrange(2)), walk.odd(symbol))


def some_sample(walk):
    """A desk and a sample to be fed; half of them are samples of which no place counts yet, so that there is much to report on."""
    uncounted = walk.uncounted()
    if uncounted and walk.random.random() < 0.5:
        return walk.random.choice(uncounted)
    return walk.some_desk(walk.open_desks()), walk.random.randrange(2)


def feed_all(walk):
    """The next symbols of a string that belongs to that sample; the string is kept for later calls. Now and then as many as the
    depth, or one more, up to the first place that counts."""
    random = walk.random
    desk, sample = some_sample(walk)
    sitting = walk.sitting_at(desk)
    A, D = (sitting.A, sitting.D) if sitting else (random.choice(ALPHABETS), random.choice(DEPTHS))
    strings = walk.waiting.setdefault(desk, ([], []))
    if not strings[sample]:
        strings[sample][:] = drawn_sample(random, A, drawn_length(random))
    whole = len(strings[sample])
    count = random.choice([whole, whole, random.randrange(whole + 1), random.choice([3, D, D + 1])])
    symbols = [walk.odd(symbol, often=0.001) for symbol in strings[sample][:count]]
    del strings[sample][:count]
    walk.play("feedall", desk, walk.odd(sample, often=0.01), *symbols)


def feed_past_limit(walk):
    """More symbols than a sample holds."""
    desk = walk.some_desk(walk.open_desks())
    count = walk.random.choice([SAMPLE_LIMIT, SAMPLE_LIMIT + 1, FEEDALL_SYMBOLS])
    walk.play("feedall", desk, walk.random.randrange(2), *[0] * count)


def close(walk):
    desk = walk.some_desk(walk.open_desks())
    walk.play("close", desk)


def room(walk):
    walk.play("room")


def report(walk):
    """A sheet that has just the room, a little less, or plenty; mostly of a sitting that a report is given on, now and then of
    one with a sample that is too short. Where there is none to report on, as often more is fed instead."""
    random = walk.random
    desks, uncounted = walk.open_desks(), walk.uncounted()
    ready = [desk for desk in desks if desk not in dict(uncounted)]
    short = [desk for desk, sample in uncounted if walk.store.desks[desk].too_short(sample)]
    if desks and not ready and random.random() < 0.5:
        feed_all(walk)
        return
    desk = walk.some_desk(weighted(random, [(ready or desks, 8), (short or desks, 1), (desks, 1)]))
    sitting = walk.sitting_at(desk)
    place = walk.odd(random.choice([0, 0, 1, random.randrange(20)]))
    needed = len(sitting.estimate()[0]) if sitting and all(sitting.samples) else 1
    just = min(ROW * (place + needed), SHEET_NUMBERS)
    plenty = random.choice([just, min(just + 5, SHEET_NUMBERS), SHEET_NUMBERS])
    length = weighted(random, [(just, 3), (plenty, 3), (max(just - 1, 0), 1), (random.randrange(just + 1), 1)])
    walk.play("report", desk, length, place)


def chart(walk):
    """A context that ends in the symbols fed last, one that need not be seen, or no context at all."""
    random = walk.random
    desk = walk.some_desk(walk.open_desks())
    sitting = walk.sitting_at(desk)
    if sitting is None:
        walk.play("chart", desk, 0, 0, 0)
        return
    length = random.randrange(sitting.D + 1)
    symbols = random.choice(sitting.samples)
    end = random.randrange(len(symbols) + 1)
    seen = tuple(symbols[max(end - length, 0) : end])
    s = random.choice([seen, seen, tuple(random.randrange(sitting.A) for _ in range(length))])
    number = walk.odd(code(s), often=0.05)
    walk.play("chart", desk, walk.odd(len(s)), number, walk.odd(random.randrange(sitting.A)))


def wrong_context(walk):
    """A code with a symbol from A up, or a code too long for its length."""
    random = walk.random
    desk = walk.some_desk(walk.open_desks())
    sitting = walk.sitting_at(desk)
    A, D = (sitting.A, sitting.D) if sitting else (2, 1)
    length = random.randrange(D + 2)
    beyond = [8**length, 8 ** (D + 1), A, A * 8 ** max(length - 1, 0), sum(A * 8**j for j in range(length))]
    walk.play("chart", desk, length, random.choice(beyond), 0)


ACTS = [
    (open_desk, 10),
    (wrong_opening, 3),
    (feed, 6),
    (feed_all, 26),
    (feed_past_limit, 1),
    (report, 15),
    (chart, 12),
    (wrong_context, 2),
    (close, 5),
    (room, 5),
]


def drawn_walk(random, unmade=False, remake=True):
    """A walk from a making; `unmade` begins with calls before it, `remake` lets makings stand within."""
    walk = Walk(random)
    if unmade:
        play_unmade(walk)
    while walk.store.K is None:
        make(walk)
    acts = ACTS + [(make, 1)] if remake else ACTS
    for _ in range(random.choice([10, 40, 80])):
        play_some(walk, acts)
    return walk


def play_some(walk, acts):
    """One of the acts; where no desk is open, mostly an opening."""
    idle = not walk.open_desks() and walk.random.random() < 0.8
    act = open_desk if idle else weighted(walk.random, acts)
    act(walk)


def play_unmade(walk):
    """Every call on a store that was not made: all zeros."""
    walk.play("open", 0, 2, 1, 4, 3)
    walk.play("feed", 9, 0, 0)
    walk.play("close", 0)
    walk.play("room")
    walk.play("report", 0, 0, 0)
    walk.play("chart", 8, 7, 9, 9)
    walk.play("feedall", 0, 0, 0, 1)


def every_length():
    """One symbol again and again at depth 0, with a report after each feed: the scores show weight·L(n+m) for every n+m
    from 4 to 4,096. A script has room for half of them, so that a second walk goes on where the first ends. The first has
    weight 1, the second the greatest."""
    half = SAMPLE_LIMIT // 2
    return [lengths_between(0, half, weight=1), lengths_between(half, SAMPLE_LIMIT, weight=WEIGHTS[-1])]


def lengths_between(begin, end, weight):
    """Both samples from so many symbols on, up to so many."""
    walk = Walk(random=None)
    walk.play("make", 1, store_length(1))
    walk.play("open", 0, 2, 0, weight, 1)
    for sample in SAMPLES:
        walk.play("feedall", 0, sample, *[0] * begin)
    for _ in range(begin, end):
        for sample in SAMPLES:
            walk.play("feed", 0, sample, 0)
            walk.play("report", 0, 2 * ROW, 0)
    return walk


def spoilt_walk(random):
    """A walk with spoilt numbers in the midst, a few more calls, and a new making after them."""
    walk = drawn_walk(random)
    needed = store_length(walk.store.K)
    for _ in range(random.randrange(1, 4)):
        place = random.choice([random.randrange(16), random.randrange(store_length(0)), random.randrange(needed)])
        walk.play("spoil", place, random.choice([*ODD_NUMBERS, random.randrange(2**32)]))
    for _ in range(random.randrange(1, 10)):
        play_some(walk, ACTS)
    walk.play("make", walk.store.K, needed)
    walk.play("room")
    return walk
