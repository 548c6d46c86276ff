"""Cases of the index and the trailer that end a finished file, and of what is asked of them."""

from itertools import product

from independent import protocol
from independent.edges import ANY_SYSTEMS, EDGE_LINES, HIGHEST, HIGHEST_WIDE, SYSTEMS
from independent.index import ENTRY, TRAILER, Entry, Question, Trailer, begin_question, feed
from independent.index import index_bytes, index_of, trailer_bytes
from independent.judge import LINES_LIMIT, line_size, system_of
from independent.protocol import Wide

ORDINALS = (
    0, 1, 2, 255, 256, 65_535, 65_536, 2**24, LINES_LIMIT - 1, LINES_LIMIT, 2**31, HIGHEST,
)  # fmt: skip
REPAIRS = (0, 1, 2, 3, 255, 256, 257, 258, 512, 65_535)
OFFSETS = (0, 1, 255, 2**16, 2**31, HIGHEST, 2**32, 2**33 + 7, 2**63, HIGHEST_WIDE)

# How far an offset is from the one due, and a length from the sum due.
FAR = (-1, 1, -6, 6, -16, 16, 2**31, 2**32, 2**33, 2**48, 2**62, 2**63, -(2**32))

# From so many lines of either system on, their bytes are more than 32 bits hold.
OVER_32_BITS = 1_251_450


def parts(system, lines, entries, told=None):
    """The trailer, the index and the length of a file of so many lines, with these entries."""
    offset = lines * line_size(system_of(system))
    told = len(entries) if told is None else told
    trailer = trailer_bytes(offset, told, lines)
    return trailer, index_bytes(entries), Wide(offset + ENTRY.size * told + TRAILER.size)


def asking(system, start, trailer, index, length, a, b):
    return protocol.ASK, (system, start, trailer, index, length, a, b)


def asked(system, start, lines, entries, a, b):
    return asking(system, start, *parts(system, lines, entries), a, b)


def some_range(source, lines):
    """Lines of a file, or, at times, lines that it has not."""
    a, b = (source.random.randrange(lines + 1) for _ in range(2))
    return source.random.choice(((min(a, b), max(a, b)), (a, a), (a, b), (0, max(lines, 1) - 1)))


def put_entries(source):
    """Entries at each limit, from six bytes and into them, and into others."""
    for ordinal, repairs in product(ORDINALS, (*REPAIRS, 65_536, 65_537, 2**31, HIGHEST)):
        entry = Entry(ordinal, repairs)
        yield protocol.PUT_ENTRY, (entry, source.junk_bytes(ENTRY.size))
        if repairs < 65_536:
            yield protocol.ENTRY_OF, (index_bytes([entry]),)
    for size in range(40):
        entry = Entry(source.random.randrange(2**32), source.random.randrange(2**32))
        yield protocol.PUT_ENTRY, (entry, source.junk_bytes(size))
    for _ in range(300):
        yield protocol.ENTRY_OF, (source.junk_bytes(ENTRY.size),)


def put_trailers(source):
    """Trailers at each limit, from sixteen bytes and into them, from others and into others."""
    for offset, entries, lines in product(OFFSETS, ORDINALS, ORDINALS):
        trailer = Trailer(Wide(offset), entries, lines)
        yield protocol.TRAILER_OF, (trailer_bytes(*trailer),)
        yield protocol.PUT_TRAILER, (trailer, source.junk_bytes(TRAILER.size))
    for size in range(40):
        numbers = source.random.choices(range(2**32), k=2)
        trailer = Trailer(Wide(source.random.randrange(2**64)), *numbers)
        yield protocol.TRAILER_OF, (source.junk_bytes(size),)
        yield protocol.PUT_TRAILER, (trailer, source.junk_bytes(size))


def every_range(source):
    """Every range about files of no to four lines, clean and repaired in every way."""
    for system, lines in product(SYSTEMS, range(5)):
        for repairs in product(range(3), repeat=lines):
            entries = index_of(repairs)
            for a, b in product((*range(lines + 2), HIGHEST), repeat=2):
                yield asked(system, 1 + lines, lines, entries, a, b)


def ranges_at_the_limit(source):
    """Ranges about both ends of long files, and about entries at both ends."""
    for system, lines in product(SYSTEMS, (OVER_32_BITS, LINES_LIMIT - 1, LINES_LIMIT)):
        last = lines - 1
        for entries in ([], [0], [last], [0, last], [1, last - 1], [2**16, 2**20]):
            index = [Entry(ordinal, 1 + ordinal % 2) for ordinal in entries]
            ends = (0, 1, 2**16, 2**20, last - 1, last, lines, HIGHEST)
            for a, b in product(ends, repeat=2):
                yield asked(system, 7, lines, index, a, b)


def wrong_entries(source):
    """Ordinals that are equal, fall, or are not below lines; repairs other than 1 and 2."""
    lines = 300
    for ordinals in (
        (0,), (299,), (300,), (301,), (HIGHEST,), (2**31,), (65_536 + 5,), (0, 0), (5, 5), (6, 5),
        (299, 299), (299, 0), (5, 300), (300, 5), (HIGHEST, 0), (0, HIGHEST), (5, 6), (5, 7, 6),
        (5, 7, 7), (5, 5, 6), (5, 6, 7), (256, 1), (1, 256), (255, 256), (0, 1, 0), (0, 299, 299),
    ):  # fmt: skip
        for a, b in ((0, 299), (0, 4), (5, 6), (7, 7), (8, 299), (6, 5), (0, 300)):
            entries = [Entry(ordinal, 1 + n % 2) for n, ordinal in enumerate(ordinals)]
            for system in SYSTEMS:
                yield asked(system, 1, lines, entries, a, b)
    for place, repairs, (a, b) in product(range(3), REPAIRS, ((0, 299), (8, 9), (300, 0))):
        entries = [Entry(ordinal, 2) for ordinal in (0, 7, 299)]
        entries[place] = entries[place]._replace(repairs=repairs)
        yield asked(625, 1, lines, entries, a, b)
    for lines, ordinal in product((0, 1, 2), range(4)):
        yield asked(525, 1, lines, [Entry(ordinal, 1)], 0, 0)


def wrong_parts(source):
    """A right file, but for its trailer's numbers, its length, or how long its parts are."""
    for system, lines in product(SYSTEMS, (0, 1, 700, OVER_32_BITS, LINES_LIMIT)):
        entries = [Entry(ordinal, 2) for ordinal in (0, 5, 699) if ordinal < lines]
        trailer, index, length = parts(system, lines, entries)
        offset, count, _ = TRAILER.unpack(trailer)
        for a, b in ((0, 0), (6, 600), (1, 0)):
            yield asking(system, 2, trailer, index, length, a, b)
            for far in FAR:
                other = Wide((length + far) % 2**64)
                moved = trailer_bytes((offset + far) % 2**64, count, lines)
                yield asking(system, 2, trailer, index, other, a, b)
                yield asking(system, 2, moved, index, length, a, b)
                yield asking(system, 2, moved, index, other, a, b)
            low = trailer_bytes(offset % 2**32, count, lines)
            yield asking(system, 2, low, index, length, a, b)
            yield asking(system, 2, low, index, Wide(length - offset + offset % 2**32), a, b)
            for more in (-1, 1, -2, 2**16, 2**31, 3 * 2**30):
                told = (count + more) % 2**32
                yield asking(system, 2, trailer_bytes(offset, told, lines), index, length, a, b)
                fit = parts(system, lines, entries, told)
                yield asking(system, 2, fit[0], index, fit[2], a, b)
            for more in (-1, 1, -lines, 2**31):
                told = trailer_bytes(offset, count, (lines + more) % 2**32)
                yield asking(system, 2, told, index, length, a, b)
            for size in (0, 1, 15, 17, 32):
                cut = (trailer + trailer)[:size]
                yield asking(system, 2, cut, index, length, a, b)
                yield asking(system, 2, cut, index, Wide(length - TRAILER.size + size), a, b)
            for cut in (index[:-1], index[1:], index + b"\0", index + bytes(5), index + bytes(6)):
                yield asking(system, 2, trailer, cut, length, a, b)
                moved = Wide(length - len(index) + len(cut))
                yield asking(system, 2, trailer, cut, moved, a, b)


def most_lines(source):
    """As many lines as there may be, one more and many more, all else being right."""
    counts = (LINES_LIMIT - 1, LINES_LIMIT, LINES_LIMIT + 1, 2**24, 2**31, HIGHEST)
    for system, lines in product((*SYSTEMS, 0), counts):
        for entries in ([], [Entry(5, 1)], [Entry(lines - 1, 2)]):
            for a, b in ((0, 4), (0, lines - 1), (lines, lines), (lines - 1, lines - 1)):
                yield asked(system, 1, lines, entries, a, b)


def names_first(source):
    """1 before 2 before 19 before 20, at any system and start."""
    good, bad = [Entry(1, 1)], [Entry(1, 3)]
    for system, start in product(ANY_SYSTEMS, EDGE_LINES):
        for entries, (a, b) in product((good, bad), ((0, 0), (0, 2), (3, 0), (0, 3))):
            yield asked(system, start, 3, entries, a, b)
        trailer, index, length = parts(system, 3, good)
        yield asking(system, start, trailer[1:], index, length, 0, 0)
        question = begin_question(system, start, trailer, length, 0, 2)
        yield protocol.QUESTION_BEGIN, (system, start, trailer, length, 0, 2)
        yield protocol.QUESTION_REFUSAL, (question,)
        yield protocol.QUESTION_CLOSE, (question,)


def in_steps(system, start, trailer, pieces, length, a, b):
    """A question, its pieces one after the other, and its end."""
    begun = system, start, trailer, length, a, b
    yield protocol.QUESTION_BEGIN, begun
    question = begin_question(*begun)
    for piece in pieces:
        yield protocol.QUESTION_FEED, (question, piece)
        question = feed(question, piece)
    yield protocol.QUESTION_REFUSAL, (question,)
    yield protocol.QUESTION_CLOSE, (question,)


def every_cutting(source):
    """Indices in every two pieces, and byte by byte: right, too short, too long, and wrong."""
    for ordinals in ((), (0,), (1, 4), (4, 1), (0, 2, 4), (2, 2, 3), (0, 1, 2, 3, 5)):
        entries = [Entry(ordinal, 1 + n % 2) for n, ordinal in enumerate(ordinals)]
        trailer, index, length = parts(625, 5, entries)
        a, b = source.random.choice(((0, 4), (3, 3), (1, 2)))
        for bytes_of_index in (index, index[:-1], index + b"\7", index + index):
            for cut in range(len(bytes_of_index) + 1):
                pieces = bytes_of_index[:cut], bytes_of_index[cut:]
                yield from in_steps(625, 1, trailer, pieces, length, a, b)
            single = [bytes([byte]) for byte in bytes_of_index]
            yield from in_steps(625, 1, trailer, single, length, a, b)


def some_entries(source, count, lines):
    """Rising entries, or, at times, entries with a fault among them."""
    ordinals = sorted(source.random.sample(range(lines), min(count, lines)))
    entries = [Entry(ordinal, source.random.choice((1, 2))) for ordinal in ordinals]
    if entries and source.random.randrange(3) == 0:
        place = source.random.randrange(len(entries))
        near = entries[place - 1].ordinal
        wrong = (near, 0), (near, 1), (lines, 1), (entries[place].ordinal, 3), (HIGHEST, 2)
        entries[place] = Entry(*source.random.choice(wrong))
    return entries


def any_indices(source):
    """Indices of any size, at once and in pieces of any sizes."""
    for count in [*range(30)] * 40 + [200, 1_000, 10_000]:
        system = source.random.choice(SYSTEMS)
        lines = source.random.choice((count + 1, 3 * count + 1, 100_000, LINES_LIMIT))
        entries = some_entries(source, count, lines)
        trailer, index, length = parts(system, lines, entries)
        a, b = some_range(source, lines)
        yield asking(system, 9, trailer, index, length, a, b)
        cuts = sorted(source.random.randrange(len(index) + 1) for _ in range(3))
        pieces = [index[p:q] for p, q in zip((0, *cuts), (*cuts, None))]
        yield from in_steps(system, 9, trailer, pieces, length, a, b)


def any_question(source):
    """A question of any numbers, or of numbers about each other."""
    choice, any_of = source.random.choice, source.random.randrange
    near = any_of(2**32)

    def number():
        return choice((near, near, 0, 1, 7, HIGHEST, any_of(2**32)))

    place = choice((0, 0, 1, 2, 3, 4, 5, 6, HIGHEST, any_of(2**32)))
    left = choice((0, 1, 5, 6, 7, 12, 13, 6 * any_of(2**32), HIGHEST_WIDE, any_of(2**64)))
    least = choice((0, near, near + 1, 2**32, HIGHEST_WIDE, any_of(2**64)))
    system = choice((*SYSTEMS, *SYSTEMS, number()))
    held = tuple(choice((near.to_bytes(5, "little"), source.junk_bytes(5))))
    return Question(
        system, choice((1, 300, number())), number(), number(), number(), Wide(left), place,
        held, Wide(least), any_of(2), any_of(2),
    )  # fmt: skip


def pieces_for(source, question):
    """Bytes of entries about a question's numbers, and any bytes."""
    numbers = {question.a, question.b, question.lines - 1, question.least, question.least + 1}
    ordinals = [number for number in sorted(numbers) if 0 <= number < 2**32]
    entries = [Entry(ordinal, source.random.choice((1, 2, 2, 3))) for ordinal in ordinals]
    index = index_bytes(entries)
    return index, index[source.random.randrange(6) :], source.junk_bytes(6), b""


def any_questions(source):
    """Questions in any state, at their end and before any bytes."""
    for _ in range(2_000):
        question = any_question(source)
        yield protocol.QUESTION_REFUSAL, (question,)
        yield protocol.QUESTION_CLOSE, (question,)
        for piece in pieces_for(source, question):
            yield protocol.QUESTION_FEED, (question, piece)
        ended = question._replace(left=Wide(0), wrong=0)
        yield protocol.QUESTION_CLOSE, (ended,)
        yield protocol.QUESTION_CLOSE, (ended._replace(system=625, start=1),)


FAMILIES = (
    put_entries,
    put_trailers,
    every_range,
    ranges_at_the_limit,
    wrong_entries,
    wrong_parts,
    most_lines,
    names_first,
    every_cutting,
    any_indices,
    any_questions,
)
