"""Random sittings and sitting files, whole and damaged, values to be written and files to be salvaged. Everything is
drawn from the `random` given, so a seed fixes it."""

from pathlib import Path

from reference.estimate import Sitting
from reference.limits import ALPHABETS, DEPTHS, SAMPLE_LIMIT, WEIGHTS
from reference.program import INPUT_BYTES, WEIGHT
from reference.script import LARGEST
from reference.sitting_file import number_bytes, write

SAMPLES = Path(__file__).resolve().parents[1] / "samples"

# Which lengths are drawn, and how often: short ones for ties, long ones for deep trees, the longest seldom.
LENGTHS = [(range(0, 3), 4), (range(1, 9), 24), (range(9, 65), 20), (range(65, 400), 12)]
LENGTHS += [(range(400, SAMPLE_LIMIT), 2), (range(SAMPLE_LIMIT - 2, SAMPLE_LIMIT + 1), 2)]


def weighted(random, choices):
    """One of the choices, each with how often it is drawn beside it."""
    return random.choices([choice for choice, _ in choices], [often for _, often in choices])[0]


def drawn_length(random):
    return random.choice(weighted(random, LENGTHS))


def uniform(random, A, length):
    return [random.randrange(A) for _ in range(length)]


def skewed(random, A, length):
    """Some symbols are much more frequent than others, and some may not occur."""
    weights = [random.random() ** 4 for _ in range(A)]
    return random.choices(range(A), weights, k=length)


def constant(random, A, length):
    return [random.randrange(A)] * length


def periodic(random, A, length):
    """A short string again and again, some of it with slips."""
    turn = uniform(random, A, random.randrange(1, 8))
    slips = random.choice([0, 0, 0.05])
    return [
        random.randrange(A) if random.random() < slips else turn[i % len(turn)] for i in range(length)
    ]


def with_memory(random, A, length):
    """The next symbol mostly follows from the one or two before it."""
    order = random.randrange(1, 3)
    follower = {}
    symbols = []
    for _ in range(length):
        past = tuple(symbols[-order:])
        usual = follower.setdefault(past, random.randrange(A))
        symbols.append(usual if random.random() < 0.8 else random.randrange(A))
    return symbols


def blocks(random, A, length):
    """Runs of one symbol after another."""
    symbols = []
    while len(symbols) < length:
        symbols += [random.randrange(A)] * random.randrange(1, 12)
    return symbols[:length]


SOURCES = [uniform, skewed, constant, periodic, with_memory, blocks]


def drawn_sample(random, A, length):
    return tuple(random.choice(SOURCES)(random, A, length))


def changed(random, A, sample):
    """The sample with a few symbols exchanged."""
    symbols = list(sample)
    for _ in range(random.randrange(1, 4)):
        if symbols:
            symbols[random.randrange(len(symbols))] = random.randrange(A)
    return tuple(symbols)


def drawn_pair(random, A):
    """Two samples: of their own, of one source, equal, or nearly so."""
    first = drawn_sample(random, A, drawn_length(random))
    likeness = random.randrange(5)
    if likeness == 0:
        return first, first
    if likeness == 1:
        return first, changed(random, A, first)
    if likeness == 2:
        both = drawn_sample(random, A, 2 * len(first))
        return both[: len(first)], both[len(first) :]
    return first, drawn_sample(random, A, drawn_length(random))


def drawn_weight(random):
    """A weight within its limits: often 0, the plain one and the greatest, else any."""
    return weighted(random, [(0, 3), (WEIGHT, 4), (WEIGHTS[-1], 2), (random.choice(WEIGHTS), 5)])


def wrong_numbers(K, left):
    """What an opening refuses in the place of A, of D, of the weight and of the reservation, each with its refusal, where
    there is room left for so many of K contexts. Among the weights are some whose last 8 or 16 bits are within limits."""
    return [
        [(0, 5), (ALPHABETS[0] - 1, 5), (ALPHABETS[-1] + 1, 5), (LARGEST, 5)],
        [(DEPTHS[-1] + 1, 5), (LARGEST, 5)],
        [(WEIGHTS[-1] + 1, 20), (2**8, 20), (2**16 + WEIGHT, 20), (LARGEST, 20)],
        [(0, 6), (K + 1, 6), (LARGEST, 6)] + [(left + 1, 7), (K, 7)] * (left < K),
    ]


def drawn_sitting(random, shapes=None):
    """A sitting; `shapes` are the pairs of A and D to choose from, all where none are named."""
    A, D = random.choice(shapes) if shapes else (random.choice(ALPHABETS), random.choice(DEPTHS))
    return Sitting(A, D, drawn_pair(random, A))


def cut_to_depth(random, sitting):
    """The sitting with one of its samples cut to one symbol, to as many as the depth, or to one more."""
    return with_sample(random, sitting, lambda sample: sample[: random.choice([1, max(sitting.D, 1), sitting.D + 1])])


def less_deep(random, sitting):
    """The sitting at a depth that each of its samples is longer than; as it is where one has no symbol."""
    shortest = min(map(len, sitting.samples))
    return sitting._replace(D=min(sitting.D, random.randrange(shortest))) if shortest else sitting


def drawn_file(random):
    """A whole file, mostly one whose contexts the program has room for and whose samples are longer than the depth. One in
    twenty has constant samples at depth 0, so that its score shows one logarithm."""
    if random.random() < 0.05:
        return write(2, 0, *((0,) * random.randrange(2, SAMPLE_LIMIT + 1) for _ in range(2)))
    sitting = drawn_sitting(random)
    if random.random() < 0.5:
        sitting = sitting._replace(D=random.randrange(3))
    if min(map(len, sitting.samples)) <= sitting.D and random.random() < 0.9:
        sitting = less_deep(random, sitting)
    if random.random() < 0.1:
        sitting = cut_to_depth(random, sitting)
    return write(sitting.A, sitting.D, *sitting.samples)


def some_place(random, file):
    return random.randrange(len(file) + 1)


def exchanged(random, file, replacement):
    """The file with one byte, early ones more often, replaced by others."""
    if not file:
        return replacement
    place = random.randrange(min(len(file), random.choice([4, 6, 12, len(file)])))
    return file[:place] + replacement + file[place + 1 :]


def cut_short(random, file):
    return file[: some_place(random, file)]


def cut_near_end(random, file):
    return file[: max(0, len(file) - random.randrange(1, 4))]


def lengthened(random, file):
    return file + random.randbytes(random.randrange(1, 5))


def made_too_long(random, file):
    """More bytes than the program reads."""
    return file + random.randbytes(random.choice([INPUT_BYTES - 8, INPUT_BYTES, INPUT_BYTES + 1, 2 * INPUT_BYTES]))


def other_byte(random, file):
    return exchanged(random, file, random.randbytes(1))


def small_byte(random, file):
    return exchanged(random, file, bytes([random.randrange(10)]))


def high_bit(random, file):
    return exchanged(random, file, bytes([128 + random.randrange(128)]))


def longer_form(random, file):
    """A number that is not in its shortest form."""
    return exchanged(random, file, bytes([128 + random.randrange(10), 0]))


def three_groups(random, file):
    groups = [128 + random.randrange(10), 128 + random.randrange(128), random.randrange(3)]
    return exchanged(random, file, bytes(groups))


# around one group and two, and around the limit
EDGE_LENGTHS = [0, 1, *range(126, 130), 255, 256, *range(SAMPLE_LIMIT - 2, SAMPLE_LIMIT + 3), SAMPLE_LIMIT + 128]


def two_groups(random, file):
    two = [length for length in EDGE_LENGTHS if length > 127]
    return exchanged(random, file, number_bytes(random.choice([*two, 1000, 16383])))


def byte_left_out(random, file):
    return exchanged(random, file, b"")


def byte_put_in(random, file):
    place = some_place(random, file)
    return file[:place] + random.randbytes(1) + file[place:]


def any_bytes(random, file):
    return random.randbytes(random.randrange(12))


DAMAGES = [
    cut_short,
    cut_near_end,
    lengthened,
    made_too_long,
    other_byte,
    small_byte,
    high_bit,
    longer_form,
    three_groups,
    two_groups,
    byte_left_out,
    byte_put_in,
    any_bytes,
]


def damaged_file(random):
    file = drawn_file(random)
    for _ in range(random.choice([1, 1, 1, 2, 3])):
        file = random.choice(DAMAGES)(random, file)
    return file


def spoilt_symbols(random, A, sample):
    """The sample's bytes, up to three of them at the alphabet's limit or far outside it."""
    symbols = bytearray(sample)
    for _ in range(random.choice([0, 0, 1, 1, 2, 3]) if symbols else 0):
        spoilt = random.choice([A - 1, A, A + 1, 127, 128, random.randrange(128, 256), 255])
        symbols[random.randrange(len(symbols))] = spoilt
    return bytes(symbols)


def whole_samples(random, first, second):
    return first + second


def ends_in_first(random, first, second):
    return cut_short(random, first)


def ends_in_second(random, first, second):
    return first + cut_short(random, second)


def goes_on(random, first, second):
    """A few bytes more, or many more than any file has."""
    return first + second + random.randbytes(random.choice([1, 2, random.randrange(9, 2 * INPUT_BYTES), 70000]))


ENDS = [whole_samples, ends_in_first, ends_in_second, goes_on]


def damaged_samples(random):
    """A file whose header is whole: symbols of both samples may be spoilt, and it may end within one of them or go on
    after both."""
    A, D, samples = drawn_sitting(random)
    whole = write(A, D, *samples)
    header = whole[: len(whole) - sum(map(len, samples))]
    return header + random.choice(ENDS)(random, *(spoilt_symbols(random, A, sample) for sample in samples))


def file_to_salvage(random):
    """Mostly a file whose samples are damaged; also files damaged anywhere, and whole ones."""
    return weighted(random, [(damaged_samples, 4), (damaged_file, 3), (drawn_file, 1)])(random)


def other_alphabet(random, sitting):
    return sitting._replace(A=random.choice([0, 1, 2, 3, 7, 8, 9, 10, 128, 256, 258, 16383]))


def other_depth(random, sitting):
    return sitting._replace(D=random.choice([0, 5, 6, 7, 8, 128, 256, 16383]))


def with_sample(random, sitting, change):
    """The sitting with one of its samples changed."""
    samples = list(sitting.samples)
    which = random.randrange(2)
    samples[which] = change(samples[which])
    return sitting._replace(samples=tuple(samples))


def other_length(random, sitting):
    length = random.choice(EDGE_LENGTHS)
    return with_sample(random, sitting, lambda sample: ((sample or (0,)) * length)[:length])


def other_symbol(random, sitting):
    """One symbol, the first or the last as often as any other, at the alphabet's limit or far outside it."""
    symbol = random.choice([max(sitting.A - 1, 0), sitting.A, sitting.A + 1, 127, 128, 255]) % 256

    def exchanged_in(sample):
        place = random.choice([0, len(sample) - 1, random.randrange(len(sample))]) if sample else 0
        return sample[:place] + (symbol,) + sample[place + 1 :]

    return with_sample(random, sitting, exchanged_in)


CHANGES = [other_alphabet, other_depth, other_length, other_length, other_symbol]


def drawn_values(random):
    """A sitting to be written, some of whose values may lie just outside their limits."""
    sitting = drawn_sitting(random)
    for _ in range(random.choice([0, 1, 1, 1, 2, 3])):
        sitting = random.choice(CHANGES)(random, sitting)
    return sitting


def drawn_room(random, file):
    """How many bytes are lent for a file: around its length, none, or any number up to more than the longest file has."""
    return random.choice([0, max(len(file) - 1, 0), len(file), len(file) + 1, random.randrange(2 * SAMPLE_LIMIT + 80)])


def smaller_limit(random, lengths):
    """A sample limit below the one in force: mostly at one of the lengths, just below or just above it, else any."""
    near = [length + more for length in lengths for more in (-1, 0, 1)]
    limit = random.choice([*near, random.randrange(SAMPLE_LIMIT)])
    return min(max(limit, 0), SAMPLE_LIMIT - 1)


def fixed_files():
    """Files at the limits of document 01 and at each reading of its file rules."""
    marked = [
        (2, 1, (0, 1, 0, 1), (0, 1, 0, 1)),
        (2, 1, (0, 1, 0, 1), (0, 0, 0, 0)),
        (2, 1, (0, 1, 0, 1, 0, 1, 0, 1), (0, 0, 1, 0, 0, 1, 0, 0)),
        (2, 0, (0, 1, 0, 1), (0, 1, 0, 1)),
        (2, 1, (0,), (0,)),
    ]
    longest = (0,) * SAMPLE_LIMIT
    limits = [
        (2, 6, longest, longest),
        (8, 6, longest, longest),
        (2, 6, full_length(de_bruijn(2, 7)), full_length(de_bruijn(2, 6))),
        (5, 3, full_length(de_bruijn(5, 4)), longest),
        (2, 0, longest, ()),
        (2, 0, (), longest),
        (2, 0, (), ()),
        (2, 0, longest + (0,), ()),
        (2, 0, (), longest + (0,)),
        (2, 6, (0,), (1,)),
        (2, 7, (0,), (1,)),
        (1, 0, (0,), (0,)),
        (8, 0, (7,), (0,)),
        (9, 0, (0,), (0,)),
        (8, 0, (8,), (0,)),
        (8, 0, (0,), (8,)),
        (8, 0, (0,), (128,)),
    ]
    whole = [write(*values) for values in marked + limits + held_limits() + short_samples()]
    return whole + [bytes.fromhex(text) for text in FAULTS] + too_long()


# Faults by the readings of the file rules: empty; first groups alone; second groups; 14 against 13,
# 15 against 13 and 14 against 15; missing and bad symbols; bytes after the last symbol.
FAULTS = """

ff
80
8000
8080
808080
8001
09
01
0207
02
0201
020104
020101
028000
02ff
0201ff
02018104
02018110
02018010
0201800300
02018010ff
0200801000
0201010100
02010101
0201010180
020101018000
020101018100
020101018080
020101018001
02010101ff7f
0201010100ff
0201010102
02010101000000
0201010100ff00
02010101000080
0201020202
020102020080
02010202008000
020102020001
02010202000101
0201020200010100
020102020001010000
0201020200010102
02000000
0200000000
02000001
0200000100
""".split("\n")[1:-1]


def de_bruijn(A, length):
    """A string in which every string of that length over the alphabet stands once (greedy, largest first)."""
    symbols = [0] * length
    seen = {tuple(symbols)}
    while True:
        past = tuple(symbols[-(length - 1) :]) if length > 1 else ()
        new = next((a for a in reversed(range(A)) if past + (a,) not in seen), None)
        if new is None:
            return tuple(symbols)
        seen.add(past + (new,))
        symbols.append(new)


def full_length(symbols):
    """The symbols again and again, as many as a sample holds."""
    return (symbols * SAMPLE_LIMIT)[:SAMPLE_LIMIT]


def held_limits():
    """Sittings that hold just the program's 256 contexts and one more, and refusals 10 that come before 11 and 24. With many[:154]
    256 are held, and many[:6] adds none to them; the first place that counts in a second sample, its sixth, adds up to five at
    once to many[:150]'s 251."""
    many = de_bruijn(3, 5)
    filling = [(3, 5, many[:length], many[:count]) for length in range(152, 158) for count in (1, 6)]
    refilling = [(3, 5, many[:154], many[140:length]) for length in range(152, 158)]
    at_once = [(4, 5, many[:length], (3,) * count) for length in range(149, 153) for count in (5, 6, 7)]
    return filling + refilling + at_once + [(3, 5, many, ()), (3, 5, (), many), (3, 5, (0,), many)]


def short_samples():
    """Samples of none, of one symbol, of as many as the depth and of one more, each beside each: 11, 24 and reports."""
    first, second = full_length((0, 1, 1, 2)), full_length((2, 0))
    lengths = {D: sorted({0, 1, D, D + 1}) for D in (0, 1, 2, 6)}
    return [(3, D, first[:n], second[:m]) for D in lengths for n in lengths[D] for m in lengths[D]]


def too_long():
    """The longest accepted file, and bytes past it up to and past what the program reads."""
    longest = write(2, 1, full_length((0, 1)), full_length((0,)))
    longer = [longest.ljust(INPUT_BYTES + more, b"\0") for more in (-1, 0, 1)]
    return [longest, *longer, bytes(INPUT_BYTES), b"\x02" * (2 * INPUT_BYTES)]


def every_cut(file):
    """The file's beginnings of every length."""
    return [file[:length] for length in range(len(file) + 1)]


def spoilt_at(file, place, byte):
    return file[:place] + bytes([byte]) + file[place + 1 :]


def every_spoilt_byte(file):
    """The file with one byte exchanged, at every place: by symbols just within and just outside its alphabet, 0, and
    bytes with the high bit."""
    A = file[0]
    values = sorted({0, A - 1, A, 0x80, 0xFF})
    return [spoilt_at(file, place, byte) for place in range(len(file)) for byte in values if byte != file[place]]


def edges_of_two_groups():
    """Both lengths in two groups: ends and spoilt bytes around the beginning and the end of each sample."""
    first, second = (0, 1) * 64, (2, 1) * 65
    file = write(3, 1, first, second)
    middle = len(file) - len(second)
    begin = middle - len(first)
    places = [begin, begin + 1, middle - 1, middle, middle + 1, len(file) - 1]
    return [file[:place] for place in places] + [spoilt_at(file, place, 3) for place in places]


def with_long_ends(file):
    """The file with bytes after it: around what the program reads, around what it counts at a time, and far above."""
    edges = INPUT_BYTES, 2**12, INPUT_BYTES + 2**12, 2**16, INPUT_BYTES + 2**16
    lengths = [edge + more for edge in edges for more in (-1, 0, 1)] + [300000]
    return [file.ljust(length, b"\xff") for length in lengths]


def fixed_damages():
    """Each cut and each spoilt byte of two files, of which one has a length in two groups; the fixed files; inputs much
    longer than a file."""
    habit = (SAMPLES / "one_habit.sitting").read_bytes()
    whole = [habit, write(2, 1, (0, 1) * 64, (1, 1, 0))]
    damaged = [each for file in whole for each in every_cut(file) + every_spoilt_byte(file)]
    return damaged + edges_of_two_groups() + fixed_files() + with_long_ends(habit) + [bytes(70000)]
