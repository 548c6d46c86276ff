"""Cases of lines on their way into a finished file, and of its index beside that of its lines."""

from itertools import islice, product

from independent import judge, protocol
from independent.call_cases import any_runs, run_at
from independent.edges import ANY_SYSTEMS, EDGE_LINES, EDGE_NUMBERS, HIGHEST, SYSTEMS
from independent.finished import SAME, Finishing, Meeting
from independent.index import Entry, index_bytes
from independent.judge import LINES_LIMIT, Judgement, PacketWords, Report, Walk, fourth_offsets
from independent.judge import line_after
from independent.material import changed, chosen_lines, inverted, line_for, line_numbers
from independent.protocol import pack_slice
from independent.recordings import line_bytes

ROOMS = (0, 1, 5, 6, 7, 11, 12, 13, 18, 24, 288)
COUNTS = (0, 1, 255, 65_535, 2**31, HIGHEST - 1, HIGHEST)


def with_repairs(source, system, words, count):
    """A clean line with one bit inverted in so many of its two codes."""
    codes = source.random.sample(fourth_offsets(system), count)
    masks = {offset: source.random.choice(inverted(1)) for offset in codes}
    return changed(words, {offset: words[offset] ^ mask for offset, mask in masks.items()})


def lines_at(source, walk, repairs, written=None):
    """The bytes of lines as a walk awaits them, each with so many codes repaired."""
    lines = []
    for steps, count in enumerate(repairs):
        line = line_after(walk.system, walk.line, steps)
        words = (written or type(source).written)(source, walk.system, line)
        lines.append(pack_slice(with_repairs(source, walk.system, words, count)))
    return b"".join(lines)


def some_repairs(source, count):
    return source.random.choices(range(3), k=count)


def at(source, walk):
    """Lines on their way that have come to a walk."""
    return Finishing(run_at(walk), source.random.choice((*COUNTS, source.random.randrange(2**32))))


def followed(source, finishing, data, room):
    return protocol.FINISHING_FOLLOW, (finishing, data, source.junk_bytes(room))


def every_repair(source):
    """One to three lines, clean and repaired in every way."""
    for (system, line), count in product(chosen_lines(), range(1, 4)):
        walk = source.walk(system, line)
        for repairs in product(range(3), repeat=count):
            data = lines_at(source, walk, repairs)
            yield followed(source, at(source, walk), data, source.random.choice((24, 288)))


def every_room(source):
    """Lines and what is left of one, with room for all, some and no entries."""
    for (system, line), count, room in product(chosen_lines(), range(5), ROOMS):
        walk = source.walk(system, line)
        size = line_bytes(walk)
        data = lines_at(source, walk, some_repairs(source, count + 1))
        for left in (0, 1, size // 2, size - 1):
            yield followed(source, at(source, walk), data[: count * size + left], room)


def finished_ends(source):
    """The end of the input, with nothing, a part of a line, a line, and more."""
    for system, line in chosen_lines():
        walk = source.walk(system, line)
        size = line_bytes(walk)
        data = lines_at(source, walk, (1, 2))
        for end in (0, 1, size // 2, size - 1, size, size + 1, 2 * size):
            yield protocol.FINISHING_CLOSE, (at(source, walk), data[:end])


def captioned_finishes(source):
    """Lines with packets."""
    for system, line in chosen_lines():
        walk = source.walk(system, line)
        data = lines_at(source, walk, some_repairs(source, 4), type(source).captioned)
        yield followed(source, at(source, walk), data, 288)


def refused_finishes(source):
    """A fault in one of several lines, among others that are clean and repaired."""
    for _ in range(400):
        system = source.random.choice(SYSTEMS)
        walk = source.walk(system, source.random.choice(line_numbers(system)))
        count = source.random.randrange(1, 5)
        data = bytearray(lines_at(source, walk, some_repairs(source, count)))
        for _ in range(source.random.choice((1, 1, 2))):
            data[source.random.randrange(len(data))] ^= 1 << source.random.randrange(8)
        yield followed(source, at(source, walk), bytes(data), source.random.choice(ROOMS))


def two_bits_in_a_code(source):
    """A line with a code that is refused behind one that is repaired: it has no entry."""
    for system, line in chosen_lines():
        walk = source.walk(system, line)
        eav, sav = fourth_offsets(system)
        words = source.written(system, line)
        for first, second in product(inverted(1)[::3], inverted(2)[::5]):
            for one, two in ((eav, sav), (sav, eav)):
                spoilt = changed(words, {one: words[one] ^ first, two: words[two] ^ second})
                yield followed(source, at(source, walk), pack_slice(spoilt), 12)


def finishes_at_the_limit(source):
    """So many lines judged that a line, or a byte, more is refused."""
    counts = (LINES_LIMIT - 2, LINES_LIMIT - 1, LINES_LIMIT, LINES_LIMIT + 1, HIGHEST)
    for (system, line), lines in product(chosen_lines(), counts):
        walk = Walk(system, line, lines, 5, tally=source.tally(5))
        data = lines_at(source, walk, (1, 2, 1))
        size = line_bytes(walk)
        yield protocol.FINISHING_TRAILER, (at(source, walk),)
        for end in (0, 1, size - 1, size, size + 1, 2 * size, 2 * size + 1, 3 * size):
            for room in (0, 5, 6, 12, 18):
                yield followed(source, at(source, walk), data[:end], room)
            yield protocol.FINISHING_CLOSE, (at(source, walk), data[:end])


def any_finishes(source):
    """Lines in any state, with no byte, a byte, and a line."""
    for number, run in enumerate(any_runs(source)):
        finishing = Finishing(run, source.random.choice(COUNTS))
        yield protocol.FINISHING_OF, (run,)
        yield protocol.FINISHING_TRAILER, (finishing,)
        if number % 20 == 0:
            words = line_for(source, run.walk.system, run.walk.line)
            system = min(SYSTEMS, key=lambda each: judge.SYSTEMS[each].words != len(words))
            line = pack_slice(with_repairs(source, system, words, source.random.randrange(3)))
            for data, room in product((b"", b"\0", line, line + line), (0, 6, 12)):
                yield followed(source, finishing, data, room)
            for data in (b"", b"\0", line):
                yield protocol.FINISHING_CLOSE, (finishing, data)


def ended_trailers(source):
    """Trailers behind lines of every size, and behind any numbers."""
    for system, entries in product(ANY_SYSTEMS, COUNTS):
        for lines in (0, 1, 2, 1_242_756, 1_242_757, 1_251_450, LINES_LIMIT, 2**31, HIGHEST):
            run = run_at(source.bad_walk(system, 1, lines, 0))
            yield protocol.FINISHING_TRAILER, (Finishing(run, entries),)


def meeting_lists(source):
    """Entries of lines, and others in their place: the same, changed, left out, put in."""
    ours = [Entry(ordinal, 1 + ordinal % 2) for ordinal in (0, 1, 5, 300, 9_999_999)]
    yield ours, ours
    for place, entry in enumerate(ours):
        yield ours, ours[:place]
        yield ours, ours[:place] + ours[place + 1 :]
        for other in (
            entry._replace(repairs=3 - entry.repairs),
            entry._replace(ordinal=entry.ordinal + 1),
            entry._replace(ordinal=entry.ordinal ^ 2**24),
            Entry(HIGHEST, 65_535),
        ):
            yield ours, [*ours[:place], other, *ours[place + 1 :]]
            yield ours, [*ours[:place], other, *ours[place:]]
    for _ in range(500):
        count = source.random.randrange(6)
        some = [Entry(*source.random.choices(range(3), k=2)) for _ in range(count)]
        yield some, source.random.choice((some, some[::-1], some[1:], [Entry(1, 1), *some]))


def met_indices(source):
    """Both ways round, in whole entries and not, after no difference and after one."""
    for lists in meeting_lists(source):
        ours, theirs = map(index_bytes, lists)
        for meeting in (SAME, Meeting(0, 7), Meeting(1, 0), Meeting(1, HIGHEST)):
            yield protocol.MEET, (meeting, ours, theirs)
            yield protocol.MEET, (meeting, theirs, ours)
        for cut in (1, 3, 5, 6):
            yield protocol.MEET, (SAME, ours, theirs[:-cut])
            yield protocol.MEET, (SAME, ours[:-cut], theirs)
            yield protocol.MEET, (SAME, ours + bytes(cut), theirs)
    for sizes in product(range(14), repeat=2):
        yield protocol.MEET, (SAME, *map(bytes, sizes))


def theirs_or_not(source):
    for run in islice(any_runs(source), 0, None, 4):
        for number, meeting in product((0, run.number), (SAME, Meeting(0, 9), Meeting(1, 0))):
            yield protocol.IS_THEIRS, (run._replace(number=number), meeting)
        lines = run.walk.lines_read
        for number, differs in product((0, run.number), (0, 1)):
            for ordinal in {0, max(lines - 1, 0), lines, min(lines + 1, HIGHEST)}:
                met = Meeting(differs, ordinal)
                yield protocol.DIFFERS_BEFORE, (run._replace(number=number), met)


def fresh_runs(source):
    for system, start in product(ANY_SYSTEMS, EDGE_LINES):
        yield protocol.RUN_FRESH, (system, start)
    for system, start in product(SYSTEMS, range(640)):
        yield protocol.RUN_FRESH, (system, start)


def judged_runs(source):
    """Any run whose next line was judged in any way."""
    for run in any_runs(source):
        walk = source.walk(*source.random.choice(((625, 7), (0, 0), (525, HIGHEST))))
        report = Report(*source.random.choice(((0, 0, 0, 0), (1, 2, 0, 0), (1, 8, 1, 3))))
        number = source.random.choice((0, *EDGE_NUMBERS))
        place = source.random.choice((0, 3, 1_727, HIGHEST))
        packets = PacketWords(*source.random.choices((0, 7, 268, HIGHEST), k=2))
        yield protocol.RUN_JUDGED, (run, Judgement(number, place, report, walk, packets))


FAMILIES = (
    every_repair,
    every_room,
    finished_ends,
    captioned_finishes,
    refused_finishes,
    two_bits_in_a_code,
    finishes_at_the_limit,
    any_finishes,
    ended_trailers,
    met_indices,
    theirs_or_not,
    fresh_runs,
    judged_runs,
)
