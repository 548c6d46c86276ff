"""Cases of what is due in a line: at each of its offsets, and in lines that are written by it."""

from itertools import cycle, product

from independent import judge, protocol
from independent.edges import ALL_PLACES, ANY_SYSTEMS, EDGE_PLACES, EDGE_SAMPLES, EDGE_WORDS
from independent.edges import HIGHEST, HIGHEST_WIDE, SYSTEMS
from independent.judge import NO_READY, Due, samples_of, system_of
from independent.material import changed, edge_offsets, slice_lengths, word_lengths
from independent.protocol import Wide


def any_dues(source):
    """F and V of every system, named or not, with right and any fill."""
    for system, f, v in product(ANY_SYSTEMS, (0, 1), (0, 1)):
        yield Due(system, f, v, *judge.FILL)
        yield Due(system, f, v, *source.junk(2))


def every_due(source):
    """Each system, F and V with right and any fill, at every offset."""
    for system, f, v in product(SYSTEMS, (0, 1), (0, 1)):
        length = judge.SYSTEMS[system].words
        far = (base + offset for base in (2**16, 2**32, 2**63) for offset in edge_offsets(system))
        offsets = (*range(length + 9), *far, HIGHEST, HIGHEST_WIDE)
        right = Due(system, f, v, *judge.FILL)
        for h in (0, 1):
            yield protocol.DUE_FLAGS, (right, h)
        for offset in offsets:
            yield protocol.DUE_AT, (right, Wide(offset))
        for offset in (*edge_offsets(system), *offsets[length:], *range(100, length, 97)):
            yield protocol.DUE_AT, (right._replace(even=offset % 65_536, odd=0), Wide(offset))
            yield protocol.DUE_AT, (Due(system, f, v, *source.junk(2)), Wide(offset))


def dues_by_number(source):
    """What is due at edges of the parts of both systems, by any system's number."""
    offsets = sorted({offset for system in SYSTEMS for offset in edge_offsets(system)})
    for due in any_dues(source):
        for h in (0, 1):
            yield protocol.DUE_FLAGS, (due, h)
        for offset in offsets:
            yield protocol.DUE_AT, (due, Wide(offset))


def room(source, due):
    """Any words where a line of this system may be written."""
    return source.junk(judge.SYSTEMS[system_of(due.system)].words)


def writings(source, due, part):
    """An active part to be written as samples and as a whole."""
    yield protocol.WRITE_LINE, (due, *samples_of(part), *NO_READY, room(source, due))
    yield protocol.WRITE_PART, (due, part, *NO_READY, room(source, due))


def dues_written(source):
    """Samples, and words that are none, where anything is due."""
    for due in any_dues(source):
        yield from writings(source, due, source.picture())
        yield from writings(source, due, source.junk(judge.ACTIVE_WORDS))
        fill = source.random.choice(EDGE_WORDS), source.random.choice(EDGE_WORDS)
        yield from writings(source, due._replace(even=fill[0], odd=fill[1]), source.picture())


def places_outside(source):
    """A sample outside at every place, then another behind it."""
    outside = cycle((3, 1_020, 0, 1_023, 1_024, 32_768 + 512, 65_535))
    for place, system in product(ALL_PLACES, SYSTEMS):
        due = Due(system, source.random.randrange(2), 0, *source.junk(2))
        faults = {source.random.choice(ALL_PLACES[place:]): next(outside), place: next(outside)}
        yield from writings(source, due, changed(source.picture(), faults))


def samples_at_edges(source):
    """A sample at or beyond a limit, with V = 0 and with V = 1."""
    values = (*EDGE_SAMPLES, 1_024, 65_535)
    for system, v, place, value in product(SYSTEMS, (0, 1), EDGE_PLACES, values):
        due = Due(system, source.random.randrange(2), v, *judge.FILL)
        yield from writings(source, due, changed(source.picture(), {place: value}))


def written_lengths(source):
    """Slices of all lengths, of samples and of words that are none."""
    for system, v in product(SYSTEMS, (0, 1)):
        due = Due(system, source.random.randrange(2), v, *source.junk(2))
        for length, *sizes in slice_lengths(system):
            pictures = zip(samples_of(source.picture() * 2), sizes)
            samples = [samples[:size] for samples, size in pictures]
            for lent in (samples, list(map(source.junk, sizes))):
                yield protocol.WRITE_LINE, (due, *lent, *NO_READY, source.junk(length))


def part_lengths(source):
    """Words and parts of all lengths, in every system, named or not."""
    active = judge.ACTIVE_WORDS
    sizes = (active, 0, 1, judge.Y_SAMPLES, active - 1, active + 1, 1_716, 1_728)
    for system, v, size in product(ANY_SYSTEMS, (0, 1), sizes):
        for length in word_lengths(system_of(system)):
            due = Due(system, source.random.randrange(2), v, *source.junk(2))
            picture, words = source.picture() * 2, source.junk(length)
            for part in (picture[:size], source.junk(size)):
                yield protocol.WRITE_PART, (due, part, *NO_READY, words)


FAMILIES = (
    every_due,
    dues_by_number,
    dues_written,
    places_outside,
    samples_at_edges,
    written_lengths,
    part_lengths,
)
