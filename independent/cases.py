"""Cases for the probe, made from fixed seeds; each family gives kinds and arguments."""

from itertools import product

from independent import call_cases, due_cases, fall_cases, finishing_cases, head_cases
from independent import hopeless_cases, index_cases, judge, packet_cases, pattern_cases
from independent import ready_cases, step_cases, tally_cases
from independent.call_cases import readings
from independent.edges import ALL_PLACES, ANY_FALLS, ANY_SYSTEMS, EDGE_COUNTS, EDGE_LINES
from independent.edges import EDGE_PLACES, EDGE_SAMPLES, EDGE_WORDS, HIGHEST, LISTED_COUNTS
from independent.edges import LISTED_LENGTHS, LISTED_LINES, LISTED_SAMPLES, LISTED_SERIAL, SYSTEMS
from independent.edges import WRONG_SYSTEMS
from independent.judge import NO_READY, TABLE_FALL, Walk, fourth_offsets, line_after, samples_of
from independent.material import Source, changed, chosen_lines, edge_offsets, inverted, line_for
from independent.material import line_numbers, of_both, plain_and_blank_line, slice_lengths
from independent.material import stretched, turning_lines
from independent.offered import at_any_walk, every_edge_word, every_inversion, every_offset_spoilt
from independent.offered import of_any_length
from independent.protocol import (
    ACTIVE,
    CAPTURE_CORRECT,
    CAPTURE_JUDGE,
    CODE,
    CORRECT,
    DECODE,
    FRESH,
    JUDGE,
    TAKE,
    WRITE,
    Case,
    pack_slice,
)

GOOD_STATES = ((0, 0), (0, 1), (1, 0), (256, 1), (511, 0), (511, 1))
BAD_STATES = (
    (512, 0),
    (512, 1),
    (0, 2),
    (511, 2),
    (512, 2),
    (1023, 0),
    (65_536, 0),
    (65_536 + 3, 0),
    (0, 256),
    (0, 65_536),
    (3, 65_537),
    (HIGHEST, 0),
    (0, HIGHEST),
    (HIGHEST, HIGHEST),
)


def bytewise(walk, data):
    return CAPTURE_JUDGE, (*walk, data)


def write(system, line, samples, words, fall=TABLE_FALL):
    """Samples to be written, and no packets."""
    return WRITE, (system, line, fall, *samples, *NO_READY, words)


def every_word(source):
    for word in range(65_536):
        yield CORRECT, (word,)
        yield CAPTURE_CORRECT, (word,)


def wide_words(source):
    for word in (65_536, 65_536 + 628, 2**31 + 628, 2**31, HIGHEST, HIGHEST - 65_535 + 628):
        yield CAPTURE_CORRECT, (word,)
    for _ in range(2_000):
        yield CAPTURE_CORRECT, (source.random.randrange(65_536, 2**32),)


def fresh_walks(source):
    for system, line in product(ANY_SYSTEMS, EDGE_LINES):
        yield FRESH, (system, line)
    for system, line in product(SYSTEMS, range(0, 640)):
        yield FRESH, (system, line)


def listed_samples(source):
    for (system, line), sample in product(chosen_lines(), LISTED_SAMPLES):
        for place in (0, 1, 2, 701, ALL_PLACES[-1]):
            offset = judge.active_start(system) + place
            words = changed(source.written(system, line), {offset: sample})
            yield from readings(source, source.walk(system, line), words)
            part = changed(source.picture(), {place: sample})
            yield write(system, line, samples_of(part), source.junk(len(words)))


def listed_lines(source):
    for system, line in product(SYSTEMS, LISTED_LINES):
        yield FRESH, (system, line)
        words = line_for(source, system, line)
        yield from readings(source, source.walk(system, line), words)
        part = source.picture()
        yield write(system, line, samples_of(part), source.junk(len(words)))


def listed_lengths(source):
    for (system, line), length in product(chosen_lines(), LISTED_LENGTHS):
        words = stretched(source.written(system, line), length)
        yield from readings(source, source.walk(system, line), words)
        part = source.picture()
        yield write(system, line, samples_of(part), source.junk(length))


def listed_counts(source):
    for (system, line), lines_read in product(chosen_lines(), LISTED_COUNTS):
        for repairs in (0, 2 * lines_read, 2 * lines_read + 1):
            words = source.written(system, line)
            walk = Walk(system, line, lines_read, repairs, tally=source.tally(repairs))
            yield from readings(source, walk, words)


def listed_serial(source):
    for kind, length in product((CODE, DECODE), LISTED_SERIAL):
        state = source.serial_state()
        words = source.serial_words(length)
        yield kind, (*state, words, [65_535] * length)


def drawn_errors(source):
    """The errors a builder is drawn to, in their order; then a picture out of its place."""
    for walk, words in source.offered(chosen_lines()):
        eav, sav = fourth_offsets(walk.system)
        both = {eav: words[eav] ^ 4, sav: words[sav] ^ 256}
        start, last = judge.active_start(walk.system), len(words) - 1
        for changes in (
            {eav: 632},
            {sav: 632},
            {eav: 0},
            {sav: 1023},
            {eav: 631},
            {eav: words[eav] | 3, sav: words[sav] | 3},
            {last: 1023},
            {last: 1024},
            {eav: both[eav]},
            {sav: both[sav]},
            both,
            {**both, last: 3},
            dict(enumerate(source.picture(), start)),
            {offset: judge.FILL[offset % 2] for offset in range(start, last + 1)},
        ):
            yield from readings(source, walk, changed(words, changes))


def every_line(source):
    for system, line in of_both(line_numbers):
        samples = samples_of(source.picture())
        before = source.junk(judge.SYSTEMS[system].words)
        yield write(system, line, samples, before)
        words = judge.write(system, line, TABLE_FALL, *samples, *NO_READY, before)[2]
        yield from readings(source, source.walk(system, line), words)


def every_offset(source):
    for walk, offset, over, wrong in every_offset_spoilt(source):
        yield bytewise(walk, pack_slice(over))
        yield bytewise(walk, pack_slice(wrong))
        yield TAKE, (walk, wrong if offset % 2 else over, *source.junk_buffers())
        yield ACTIVE, (walk, over if offset % 2 else wrong)


def edge_words(source):
    for walk, words in every_edge_word(source):
        yield from readings(source, walk, words)


def several_faults(source):
    for _ in range(1_500):
        system = source.random.choice(SYSTEMS)
        line = source.random.choice(line_numbers(system))
        words = source.written(system, line)
        spoilt = changed(words, faults_in(source, system, line, words))
        yield from readings(source, source.walk(system, line), spoilt)


def faults_in(source, system, line, words):
    """Two to six words to be changed, at edges and elsewhere."""
    choice = source.random.choice
    faults = {}
    for _ in range(choice(range(2, 7))):
        offset = choice([choice(edge_offsets(system)), choice(range(len(words)))])
        word = words[offset]
        faults[offset] = choice(
            [
                source.over(word),
                source.wrong(system, line, offset, word),
                choice(EDGE_WORDS),
                choice(range(65_536)),
            ]
        )
    return faults


def every_pattern(source):
    """Bits 9 to 2 of each fourth word in all their patterns."""
    for walk, words in source.offered(chosen_lines()):
        for offset, pattern in product(fourth_offsets(walk.system), range(256)):
            word = pattern << 2 | source.random.randrange(4)
            yield bytewise(walk, pack_slice(changed(words, {offset: word})))


def inverted_bits(source):
    """No or one bit inverted in both codes; two and more in one of them."""
    for walk, words in every_inversion(source, (2, 3, 4, 7)):
        yield from readings(source, walk, words)


def low_bits(source):
    for system, line in chosen_lines():
        words = source.written(system, line)
        eav, sav = fourth_offsets(system)
        for bit in (0, *inverted(1)):
            for changes in ({}, {eav: words[eav] ^ bit}, {sav: words[sav] ^ bit}):
                low = source.low_bits(system, changed(words, changes))
                yield from readings(source, source.walk(system, line), low)


def foreign_lines(source):
    """A line offered where a neighbour, or one of the other system, is awaited."""
    for system in SYSTEMS:
        for turn, before, steps in product(turning_lines(system), (0, 1), (-1, 0, 1)):
            awaited = line_after(system, turn, -before)
            words = source.written(system, line_after(system, awaited, steps))
            yield from readings(source, source.walk(system, awaited), words)
    for system, other in (SYSTEMS, reversed(SYSTEMS)):
        for line in range(1, 525, 40):
            words = source.written(other, line)
            walk = source.walk(system, line)
            yield from readings(source, walk, words)
            length = judge.SYSTEMS[system].words
            yield from readings(source, walk, stretched(words, length))


def shifted_lines(source):
    """A line turned by some words, and one whose bytes are swapped."""
    for walk, words in source.offered(chosen_lines()):
        for turn in (1, 2, 4, judge.SYSTEMS[walk.system].sav, -1):
            yield from readings(source, walk, words[turn:] + words[:turn])
        swapped = [word >> 8 | (word & 255) << 8 for word in words]
        yield from readings(source, walk, swapped)


def wrong_slices(source):
    """Clean and spoilt lines in slices of all lengths, to be taken, and samples to be written."""
    for system, line in of_both(plain_and_blank_line):
        clean = source.written(system, line)
        spoilt = changed(clean, {len(clean) - 1: 1024})
        for length, *sizes in slice_lengths(system):
            buffers = [source.junk(size) for size in sizes]
            for words in (clean, spoilt):
                yield TAKE, (source.walk(system, line), stretched(words, length), *buffers)
            yield write(system, line, buffers, source.junk(length))


def wrong_lines(source):
    """Lines of wrong length, clean and spoilt, without regard to sample buffers."""
    for system, line in chosen_lines():
        clean = source.written(system, line)
        parts = judge.CODE_WORDS, judge.active_start(system), judge.ACTIVE_WORDS
        for walk, words in of_any_length(source, system, line, clean, (1, *parts, 2_000)):
            yield from readings(source, walk, words)


def wrong_bytes(source):
    """Byte counts about those of both systems."""
    for system, line in chosen_lines():
        data = pack_slice(source.written(system, line)) + pack_slice(source.junk(400))
        for length_of in SYSTEMS:
            for extra in (-2, -1, 0, 1, 2):
                size = judge.line_size(length_of) + extra
                yield bytewise(source.walk(system, line), data[:size])
        for size in (0, 1, 2, 3, 4, judge.SYSTEMS[system].words, 3_999, 4_000):
            yield bytewise(source.walk(system, line), data[:size])


def bad_walks(source):
    for walk, words in at_any_walk(source, (*LISTED_LINES, 65_537, HIGHEST)):
        yield from readings(source, walk, words)


def mixed_refusals(source):
    """Any of system, line, counts, lengths and words wrong together."""
    choice = source.random.choice
    for _ in range(1_500):
        system = choice((*SYSTEMS, *SYSTEMS, choice(WRONG_SYSTEMS)))
        line = choice((1, 23, 283, 336, choice(EDGE_LINES)))
        counts = choice((source.counts(), choice(EDGE_COUNTS)))
        words = line_for(source, system, line)
        if choice((True, False)):
            words = changed(words, {choice(range(len(words))): choice(EDGE_WORDS)})
        words = stretched(words, len(words) + choice((0, 0, 0, 1, -1)))
        y, cb, cr = source.junk_buffers()
        buffers = y[choice((0, 0, 1)) :], cb[choice((0, 0, 1)) :], cr[choice((0, 0, 1)) :]
        walk = source.bad_walk(system, line, *counts)
        yield JUDGE, (walk, words)
        yield TAKE, (walk, words, *buffers)
        yield ACTIVE, (walk, words)
        yield bytewise(walk, pack_slice(words))
        fall = choice((TABLE_FALL, choice(ANY_FALLS)))
        yield write(system, line, buffers, source.junk(len(words)), fall)


def written_samples(source):
    """One sample, at or beyond a limit, at an edge of the active part."""
    values = (*EDGE_SAMPLES, 1024, 65_535)
    for (system, line), place, value in product(chosen_lines(), EDGE_PLACES, values):
        part = changed(source.picture(), {place: value})
        yield written_into_junk(source, system, line, part)


def written_into_junk(source, system, line, part):
    """Samples to be written where any words stand."""
    before = source.junk(judge.SYSTEMS[system].words)
    return write(system, line, samples_of(part), before)


def written_faults(source):
    """Several samples beyond a limit."""
    choice = source.random.choice
    for _ in range(600):
        system = choice(SYSTEMS)
        line = choice(line_numbers(system))
        places = choice(EDGE_PLACES), *source.random.choices(ALL_PLACES, k=3)
        part = changed(source.picture(), {place: choice(EDGE_WORDS) for place in places})
        yield written_into_junk(source, system, line, part)


def written_junk(source):
    """Sample buffers of any words: refused with V = 0, not looked at with V = 1."""
    for system, line in chosen_lines():
        before = source.junk(judge.SYSTEMS[system].words)
        for _ in range(10):
            yield write(system, line, source.junk_buffers(), before)


def written_numbers(source):
    for system, line in product(ANY_SYSTEMS, EDGE_LINES):
        length = len(line_for(source, system, line))
        for part in (source.picture(), source.junk(judge.ACTIVE_WORDS)):
            yield write(system, line, samples_of(part), source.junk(length))


def serial_states(source):
    runs = ([], [0], [1], [1023], [1024], [1, 0], source.serial_words(20))
    for kind, state, words in product((CODE, DECODE), GOOD_STATES + BAD_STATES, runs):
        for size in {len(words), 0, len(words) + 1}:
            yield kind, (*state, words, source.junk(size))


def serial_single_words(source):
    """Every state with some word, and every word from some state."""
    for kind, number in product((CODE, DECODE), range(1024)):
        random = source.random.randrange(1024)
        yield kind, (number >> 1, number & 1, [random], source.junk(1))
        yield kind, (random >> 1, random & 1, [number], source.junk(1))


def serial_runs(source):
    """A run, and its coded words decoded from the same state."""
    for _ in range(150):
        state = source.serial_state()
        length = source.random.randrange(2, 300)
        plain = source.serial_words(length)
        yield DECODE, (*state, plain, source.junk(length))
        yield CODE, (*state, plain, source.junk(length))
        coded = judge.code(*state, plain, plain)[4]
        yield DECODE, (*state, coded, source.junk(length))


def serial_bad_words(source):
    """One or two words over 1023 at first, middle and last index."""
    for kind, length in product((CODE, DECODE), (1, 2, 3, 40)):
        words = source.serial_words(length)
        for first, second in product((0, length // 2, length - 1), repeat=2):
            for high in (1024, 1024 + 628, 32_768, 65_535):
                bad = changed(words, {second: 65_535, first: high})
                yield kind, (*source.random.choice(GOOD_STATES), bad, source.junk(length))


def serial_lengths(source):
    """Longest runs: equal, unequal and too long; bad words at their ends."""
    longest = judge.SERIAL_LIMIT
    words = source.serial_words(longest + 4)
    sizes = (
        (longest, longest - 1),
        (longest, longest + 1),
        (longest, 0),
        (longest + 1, longest),
        (longest + 1, longest + 1),
        (longest + 1, 0),
        (longest + 4, longest + 4),
        (longest - 1, longest),
        (0, longest + 1),
        (10, 9),
        (10, 11),
        (0, 1),
    )
    for kind, (length, size) in product((CODE, DECODE), sizes):
        for state in ((0, 0), (512, 0)):
            yield kind, (*state, words[:length], [7] * size)
        if length:
            bad = changed(words[:length], {length - 1: 1024})
            yield kind, (0, 0, bad, [7] * size)
    for kind, index in product((CODE, DECODE), (0, longest // 2, longest - 1)):
        bad = changed(words[:longest], {index: 1024})
        yield kind, (511, 1, bad, [7] * longest)


def serial_round_trip(source):
    """The longest run there and back."""
    plain = source.serial_words(judge.SERIAL_LIMIT)
    coded = judge.code(341, 1, plain, plain)[4]
    yield DECODE, (341, 1, coded, [7] * len(plain))


FAMILIES = (
    every_word,
    wide_words,
    fresh_walks,
    listed_samples,
    listed_lines,
    listed_lengths,
    listed_counts,
    listed_serial,
    drawn_errors,
    every_line,
    every_offset,
    edge_words,
    several_faults,
    every_pattern,
    inverted_bits,
    low_bits,
    foreign_lines,
    shifted_lines,
    wrong_slices,
    wrong_lines,
    wrong_bytes,
    bad_walks,
    mixed_refusals,
    written_samples,
    written_faults,
    written_junk,
    written_numbers,
    serial_states,
    serial_single_words,
    serial_runs,
    serial_bad_words,
    serial_lengths,
    serial_round_trip,
    *call_cases.FAMILIES,
    *due_cases.FAMILIES,
    *step_cases.FAMILIES,
    *packet_cases.FAMILIES,
    *ready_cases.FAMILIES,
    *head_cases.FAMILIES,
    *index_cases.FAMILIES,
    *finishing_cases.FAMILIES,
    *fall_cases.FAMILIES,
    *tally_cases.FAMILIES,
    *hopeless_cases.FAMILIES,
    *pattern_cases.FAMILIES,
)


def cases(seed, kinds, choice, families=FAMILIES):
    """The chosen cases of each family, as far as their kind is asked for."""
    for family in families:
        name = family.__name__
        for index, (kind, arguments) in enumerate(family(Source(seed, name))):
            if kind in kinds and choice.takes(index):
                yield Case(kind, name, index, arguments)
