"""Cases of the library's further calls: those that its crates share, and those for programmes."""

from itertools import chain, cycle, product, starmap

from independent import judge, protocol
from independent.due_cases import any_dues
from independent.edges import ANY_FALLS, ANY_SYSTEMS, EDGE_COUNTS, EDGE_LINES, EDGE_NUMBERS
from independent.edges import EDGE_SAMPLES, EDGE_SUMS, EDGE_WORDS, FALLS, HIGHEST, HIGHEST_WIDE
from independent.edges import MOSTS, SYSTEMS, WRONG_SYSTEMS
from independent.judge import CLEAN_REPORT, CODE_BITS, LINES_LIMIT, NO_READY, PacketWords
from independent.judge import Report, Walk, line_after
from independent.material import Source, changed, chosen_lines, inverted, line_for
from independent.material import line_numbers, of_both, word_lengths
from independent.offered import at_any_walk, every_edge_word, every_inversion, every_offset_spoilt
from independent.offered import of_any_length
from independent.protocol import Wide, pack_slice
from independent.recordings import Outcome, Run, header, line_bytes
from independent.rows import ROW_BYTES, ROW_WORDS, row_of, with_word
from independent.tapes import Tape
from independent.totals import Totals, no_totals
from independent.words import FIRST_SAMPLE, LAST_SAMPLE, REFUSALS

BITS = (0, *CODE_BITS, 9, 32, 2**31, HIGHEST)

CODE_REPORTS = ((judge.CLEAN, 0), *((judge.REPAIRED, bit) for bit in BITS))
REPORTS = [Report(*eav, *sav) for eav, sav in product(CODE_REPORTS, CODE_REPORTS)]

# Fourth words of all F, V, H, clean and repaired, and words that are none.
FOURTHS = (
    *judge.FOURTH_WORDS, *(word ^ 4 for word in judge.FOURTH_WORDS), 0, 116, 632, 1_023, 1_024,
    65_535,
)  # fmt: skip

# Counts at which 32 bits have no room, or just enough.
FULL_COUNTS = (
    (0, 0), (HIGHEST - 1, HIGHEST - 2), (HIGHEST, HIGHEST), (HIGHEST, 0), (0, HIGHEST),
    (2**31 - 1, HIGHEST - 1),
)  # fmt: skip

# Lengths about those of both lines, as words and as bytes, and with them in the low half.
LENGTHS = (
    0, 1, 1_715, 1_716, 1_717, 1_727, 1_728, 1_729, 3_432, 3_456, 2**31, HIGHEST, 2**32,
    2**32 + 1_716, 2**32 + 1_728, 2**63, 2**63 + 1_716, HIGHEST_WIDE - 1, HIGHEST_WIDE,
)  # fmt: skip

# How many words of the two spaces may be packets, and any other counts.
PACKET_COUNTS = [PacketWords(*pair) for pair in product((0, 1, 7, 268, 1_440, HIGHEST), repeat=2)]

# Frames about those of the longest recording, and those whose lines pass 32 bits.
EDGE_FRAMES = sorted(
    frames
    for lines in (judge.SYSTEMS[system].lines for system in SYSTEMS)
    for limit in (0, LINES_LIMIT, 2**31, 2**32)
    for frames in range(max(limit // lines - 4, 0), limit // lines + 5)
)


def every_line_number(source):
    """Line numbers of both systems, some outside and any others."""
    yield from range(0, 640)
    yield from EDGE_LINES
    yield from (65_536 + line for line in range(1, 640, 7))
    yield from (source.random.randrange(2**32) for _ in range(200))


def any_walks(source):
    """Walks that are taken, and with any of system, line and counts wrong, after either V."""
    for system, line, counts in product(ANY_SYSTEMS, (*EDGE_LINES, 11, 20, 23), EDGE_COUNTS):
        yield source.bad_walk(system, line, *counts)
    for system, line in of_both(line_numbers):
        yield source.walk(system, line)
        yield Walk(system, line, 0, 0)
    for _ in range(300):
        yield Walk(*(source.random.randrange(2**32) for _ in Walk._fields))


def fourth_words(source):
    numbers = chain(range(1_024), (2**16, 2**31 + 5, HIGHEST))
    for fvh in (*numbers, *(source.random.randrange(2**32) for _ in range(200))):
        yield protocol.FOURTH, (fvh,)


def expected_words(source):
    """Every word: those near ten bits with all F, V, H, the others with some."""
    fvhs = (*range(10), 2**31, HIGHEST)
    for word in range(65_536):
        few = source.random.sample(fvhs, 2)
        for fvh in fvhs if word < 2_048 else few:
            yield protocol.EXPECTING, (word, fvh)
            yield protocol.FOURTH_FAULT, (word, fvh)


def code_reports(source):
    values = (0, 1, 7, 8, 14, HIGHEST)
    tags = (judge.CLEAN, judge.REPAIRED, judge.REFUSED)
    for tag, fvh, bit, number in product(tags, values, BITS, values):
        yield protocol.CODE_REPORT, (tag, fvh, bit, number)


def flags_of_lines(source):
    for line in every_line_number(source):
        yield protocol.FLAGS, (line,)
        for system in SYSTEMS:
            yield protocol.SYSTEM_FLAGS, (system, line)
            yield protocol.OWN_FRESH, (system, line)
            fall = source.random.choice(ANY_FALLS)
            yield protocol.DUE_OF, (system, line, fall)
            yield protocol.V_WRITTEN, (system, line, fall)


def figures(source):
    yield protocol.STATE_FRESH, ()
    for system in SYSTEMS:
        yield protocol.FIGURES, (system,)
    for number in (*WRONG_SYSTEMS, *every_line_number(source)):
        yield protocol.SYSTEM_OF, (number,)
        yield protocol.SYSTEM_NAMED, (number,)


def counted_repairs(source):
    for report in REPORTS:
        yield protocol.REPAIRS, (report,)


def walks(source):
    """Any walk, in each call that looks at it, with any other numbers."""
    choice, dues = source.random.choice, list(any_dues(source))
    for walk in any_walks(source):
        yield protocol.WALK_REFUSAL, (walk,)
        yield protocol.WALK_DUE, (walk, choice(FOURTHS))
        yield protocol.MOVED, (walk, choice(dues), choice(REPORTS))
        yield protocol.ACCEPTED, (walk, choice(dues), choice(REPORTS), choice(PACKET_COUNTS))
        yield protocol.REFUSED, (walk, choice(EDGE_NUMBERS), choice(EDGE_LINES))
        given, due = choice(LENGTHS), choice(LENGTHS)
        yield protocol.STANDING, (walk, Wide(given), Wide(due))
        yield protocol.STANDING, (walk, Wide(due), Wide(due))
        yield protocol.TAKES_ROW, (walk, choice(ANY_FALLS))
        yield protocol.ENDS_FRAME, (walk, choice(ANY_FALLS))
        yield protocol.LINE_BYTES, (walk,)


def every_report(source):
    for report, (system, line) in product(REPORTS, chosen_lines()):
        due = judge.due_of(system, line)
        yield protocol.MOVED, (source.walk(system, line), due, report)
        packets = source.random.choice(PACKET_COUNTS)
        yield protocol.ACCEPTED, (source.walk(system, line), due, report, packets)


def full_counts(source):
    """Counts that pass 32 bits, at lines about the last, in any system."""
    one_code = Report(judge.REPAIRED, 8, judge.CLEAN, 0), Report(judge.CLEAN, 0, judge.REPAIRED, 2)
    reports = CLEAN_REPORT, *one_code, Report(judge.REPAIRED, 2, judge.REPAIRED, 8)
    for due, line, counts in product(list(any_dues(source)), EDGE_LINES, FULL_COUNTS):
        walk = source.bad_walk(source.random.choice(ANY_SYSTEMS), line, *counts)
        yield protocol.MOVED, (walk, due, source.random.choice(reports))
        packets = source.random.choice(PACKET_COUNTS)
        yield protocol.ACCEPTED, (walk, due, source.random.choice(reports), packets)


def walk_dues(source):
    """Every line number with its own fourth word and another; some with many."""
    for system, line in product(SYSTEMS, every_line_number(source)):
        own = judge.FOURTH_WORDS[judge.due_flags(judge.due_of(system, line), 1)]
        for fourth in (own, source.random.choice(FOURTHS), source.random.randrange(65_536)):
            yield protocol.WALK_DUE, (source.any_walk(system, line), fourth)
    for (system, line), fourth in product(chosen_lines(), (*FOURTHS, *range(0, 65_536, 257))):
        yield protocol.WALK_DUE, (source.walk(system, line), fourth)


def named_numbers(source):
    for system, line in product(ANY_SYSTEMS, every_line_number(source)):
        yield protocol.NAMED, (system, line)
        yield protocol.WRITTEN_REFUSAL, (system, line, source.random.choice(ANY_FALLS))


def standing_lengths(source):
    """Any two lengths at walks that are taken, and at those of each refusal."""
    refused = (
        Walk(0, 1, 0, 0), Walk(HIGHEST, 0, HIGHEST, HIGHEST), Walk(525, 0, 0, 0),
        Walk(525, 526, 0, 0), Walk(625, 626, 0, 1), Walk(625, 625, LINES_LIMIT, 0),
        Walk(525, 525, 0, 1), Walk(625, 1, LINES_LIMIT - 1, 2 * LINES_LIMIT - 1),
        Walk(525, 266, 7, 3, tally=4),
    )  # fmt: skip
    taken = *starmap(source.walk, chosen_lines()), Walk(625, 625, LINES_LIMIT - 1, 0)
    for given, due, walk in product(LENGTHS, LENGTHS, (*taken, *refused)):
        yield protocol.STANDING, (walk, Wide(given), Wide(due))


def buffer_lengths(source):
    y, c = judge.Y_SAMPLES, judge.C_SAMPLES
    far = (0, 1, 2**32, HIGHEST_WIDE)
    y_lengths = (y, y - 1, y + 1, c, y + 2**32, y + 2**63, *far)
    c_lengths = (c, c - 1, c + 1, y, c + 2**32, c + 2**63, *far)
    for lengths in product(y_lengths, c_lengths, c_lengths):
        yield protocol.BUFFER_REFUSAL, tuple(map(Wide, lengths))


# Calls that judge a line; each takes it as words or as bytes.


def run_at(walk):
    """A run that has come to a walk."""
    return Run(walk.system % 65_536, walk.line % 65_536, walk, *judge.ACCEPTED)


def tape_at(source, walk, fall):
    """A tape that has come to a walk."""
    return Tape(walk, source.random.choice(MOSTS), fall, *judge.ACCEPTED)


def judge_words(source, walk, words):
    return protocol.JUDGE, (walk, words)


def judge_bytes(source, walk, words):
    return protocol.BYTEWISE_JUDGE, (walk, pack_slice(words))


def judge_in_c(source, walk, words):
    return protocol.CAPTURE_JUDGE, (*walk, pack_slice(words))


def take_samples(source, walk, words):
    return protocol.TAKE, (walk, words, *source.junk_buffers())


def lend_active(source, walk, words):
    return protocol.ACTIVE, (walk, words)


def lend_between_packets(source, walk, words):
    return protocol.BETWEEN_PACKETS, (walk, words)


def lend_active_packets(source, walk, words):
    return protocol.ACTIVE_PACKETS, (walk, words)


def extract_line(source, walk, words):
    return protocol.EXTRACT, (walk, pack_slice(words), source.junk_bytes(ROW_BYTES))


def extract_next_line(source, walk, words):
    return protocol.EXTRACT_NEXT, (run_at(walk), pack_slice(words), source.junk_bytes(ROW_BYTES))


def next_line(source, walk, words):
    return protocol.NEXT, (run_at(walk), pack_slice(words))


def follow_line(source, walk, words):
    return protocol.FOLLOW, (run_at(walk), pack_slice(words))


def close_with_line(source, walk, words):
    return protocol.CLOSE, (run_at(walk), pack_slice(words))


JUDGING = (
    judge_words,
    judge_bytes,
    extract_line,
    extract_next_line,
    next_line,
    follow_line,
    close_with_line,
)
READING = (judge_words, take_samples, lend_active, judge_in_c)
LENDING = (lend_between_packets, lend_active_packets)


def judgings(source, walk, words):
    """One line through every call that judges it, in a run or at a walk."""
    for judging in JUDGING:
        yield judging(source, walk, words)


def readings(source, walk, words):
    """One line judged, taken, as its active part and by the byte judge."""
    for reading in READING:
        yield reading(source, walk, words)


def judged_lines(source):
    """Every line, clean and with inverted bits."""
    for walk, words in source.offered(of_both(line_numbers)):
        yield from judgings(source, walk, words)
        mask = inverted(source.random.choice((1, 1, 1, 2)))
        spoilt = source.with_inversions(walk.system, words, mask)
        yield from judgings(source, walk, source.low_bits(walk.system, spoilt))


def judged_offsets(source):
    """A fault at every offset, the calls in turn."""
    judging = cycle(JUDGING)
    for walk, _, over, wrong in every_offset_spoilt(source):
        yield next(judging)(source, walk, over)
        yield next(judging)(source, walk, wrong)


def judged_edges(source):
    """Words about each limit at the edges of each part, the calls in turn."""
    for (walk, words), judging in zip(every_edge_word(source), cycle(JUDGING)):
        yield judging(source, walk, words)


def judged_codes(source):
    """No or one bit inverted in both codes, and every two in one of them."""
    for walk, words in every_inversion(source, (2,)):
        for judging in (judge_words, judge_bytes, extract_line, extract_next_line):
            yield judging(source, walk, words)


def judged_walks(source):
    """A good line, and a good row, at any walk."""
    lines = (0, 1, 23, 525, 526, 625, 626, 65_537, HIGHEST)
    for walk, words in at_any_walk(source, lines):
        yield from judgings(source, walk, words)
        before = source.junk_bytes(2 * len(words))
        yield from recordings_in(source, walk, row_of(source.picture()), before)


def judged_lengths(source):
    """Lines of wrong length, clean and spoilt; byte counts one off."""
    for system, line in chosen_lines():
        clean = source.written(system, line)
        lengths = 1, judge.ACTIVE_WORDS, 2_000
        for walk, words in of_any_length(source, system, line, clean, lengths):
            yield from judgings(source, walk, words)
        for size in (0, 1, 2 * len(clean) - 1, 2 * len(clean) + 1, 4_000):
            data = (pack_slice(clean) + source.junk_bytes(600))[:size]
            walk, row = source.walk(system, line), source.junk_bytes(ROW_BYTES)
            yield protocol.BYTEWISE_JUDGE, (walk, data)
            yield protocol.EXTRACT, (walk, data, row)
            yield protocol.EXTRACT_NEXT, (run_at(walk), data, row)
            yield protocol.NEXT, (run_at(walk), data)
            yield protocol.CLOSE, (run_at(walk), data)


def reserved_words(source):
    for word in range(65_536):
        yield protocol.RESERVED, (word,)


def joined_words(source):
    """Every byte as the low and as the high one, and words at edges and any."""
    choice, edges = source.random.choice, (0, 1, 127, 128, 254, 255)
    halves = (0, 1, 255, 256, 257, 1_023, 1_024, 32_767, 32_768, 65_534, 65_535)
    for byte, other in product(range(256), edges):
        words = choice(halves), source.random.randrange(65_536)
        yield protocol.WORD_OF, (byte, other, *words)
        yield protocol.WORD_OF, (other, byte, *reversed(words))
    for first, second in product(halves, halves):
        yield protocol.WORD_OF, (*source.random.choices(range(256), k=2), first, second)


def words_over(source):
    """Every word alone; words over 1023 at every place of short runs and at edges of long ones."""
    yield protocol.FIRST_OVER, ([],)
    for word in (*range(2_048), *EDGE_WORDS, *range(2_048, 65_536, 61)):
        yield protocol.FIRST_OVER, ([word],)
    for length in (*range(2, 20), 31, 32, 33, 63, 64, 65, 1_440, 1_716, 1_728, 2_000):
        words, last = source.serial_words(length), length - 1
        yield protocol.FIRST_OVER, (words,)
        yield protocol.FIRST_OVER, ([judge.LAST_WORD] * length,)
        yield protocol.FIRST_OVER, (source.junk(length),)
        near = {0, 1, 7, 8, 15, 16, length // 2, last - 8, last - 1, last}
        places = range(length) if length <= 65 else sorted(near)
        for place, high in product(places, (1_024, 2_048, 1_024 + 628, 32_768, 65_535)):
            one = changed(words, {place: high})
            yield protocol.FIRST_OVER, (one,)
            second = source.random.randrange(place, length)
            yield protocol.FIRST_OVER, (changed(one, {second: 1_024}),)


def reasons(source):
    """Every row of the table at edges and any place, and none."""
    for row in range(len(REFUSALS) + 1):
        for place in (0, 1, 1_439, HIGHEST, source.random.randrange(HIGHEST)):
            yield protocol.REASONED, (row, place)


def fill_words(source):
    offsets = 0, 1, 4, 271, 1_727, 2**32, 2**64 - 2, 2**64 - 1
    for even, odd in ((512, 64), (64, 512), (0, 65_535), (source.random.randrange(65_536), 7)):
        for offset in offsets:
            yield protocol.FILL_WORD, (even, odd, Wide(offset))


def runs_of_samples(source):
    """Every word alone; one word that is none at every place of short runs and at edges of long ones."""
    yield protocol.ALL_SAMPLES, ([],)
    for word in (*range(1_100), *EDGE_WORDS, *range(1_100, 65_536, 257)):
        yield protocol.ALL_SAMPLES, ([word],)
    for length in (2, 3, 8, 16, 17, 255, 1_440, 2_000):
        words = source.random.choices(range(FIRST_SAMPLE, LAST_SAMPLE + 1), k=length)
        yield protocol.ALL_SAMPLES, (words,)
        for place in {0, 1, length // 2, length - 1}:
            for none in (0, 3, 1_020, 1_023, 65_535):
                yield protocol.ALL_SAMPLES, (changed(words, {place: none}),)


def words_as_bytes(source):
    for count in (*range(6), *(figures.words for figures in judge.SYSTEMS.values()), 2_000):
        for size in {0, 1, 2, count, 2 * count - 2, 2 * count - 1, 2 * count, 2 * count + 1}:
            if 0 <= size <= 4_000:
                words, data = source.junk(count), source.junk_bytes(size)
                yield protocol.TO_WORDS, (data, words)
                yield protocol.TO_BYTES, (words, data)
    for first in range(0, 65_536, 2_000):
        words = list(range(first, min(first + 2_000, 65_536)))
        yield protocol.TO_BYTES, (words, bytes(2 * len(words)))
        yield protocol.TO_WORDS, (pack_slice(words), [0] * len(words))


def row_lengths(source):
    rows = (ROW_BYTES, 0, 1, ROW_BYTES - 1, ROW_BYTES + 1, 2 * ROW_BYTES)
    counts = (judge.ACTIVE_WORDS, 0, 1, judge.ACTIVE_WORDS - 1, judge.ACTIVE_WORDS + 1)
    for size, count in product(rows, counts):
        good_row, picture = row_of(source.picture()) * 2, source.picture() * 2
        yield protocol.UNPACK, (good_row[:size], source.junk(count))
        yield protocol.UNPACK, (source.junk_bytes(size), source.junk(count))
        yield protocol.PACK, (picture[:count], source.junk_bytes(size))
        yield protocol.PACK, (source.junk(count), source.junk_bytes(size))


def row_faults(source):
    """One fault at every place, and a second one somewhere."""
    choice = source.random.choice
    for index in range(ROW_WORDS):
        row = row_of(source.serial_words(judge.ACTIVE_WORDS))
        for word in (1 << 30, 1 << 31, 3 << 30 | 5, source.random.randrange(2**32)):
            yield protocol.UNPACK, (with_word(row, index, word), source.junk(judge.ACTIVE_WORDS))
        twice = with_word(with_word(row, choice(range(ROW_WORDS)), 1 << 31), index, 1 << 30)
        yield protocol.UNPACK, (twice, source.junk(judge.ACTIVE_WORDS))
    for place in range(judge.ACTIVE_WORDS):
        samples = source.serial_words(judge.ACTIVE_WORDS)
        for sample in (1_023, choice((1_024, source.over(5), 65_535))):
            one = changed(samples, {place: sample})
            yield protocol.PACK, (one, source.junk_bytes(ROW_BYTES))


def recordings_in(source, walk, row, line):
    """A row offered at a walk and on a tape, with these bytes for its line."""
    fall = source.random.choice(FALLS)
    yield protocol.RECORD, (walk, fall, row, *NO_READY, line)
    yield protocol.TAPE_NEXT, (tape_at(source, walk, fall), row, *NO_READY, line)


def recordings(source, walk, row):
    """A row offered to a walk that may be right, with room for its line."""
    yield from recordings_in(source, walk, row, source.junk_bytes(line_bytes(walk)))


def recorded_lines(source):
    """Every line with a row, and with bytes that are none."""
    for system, line in of_both(line_numbers):
        walk = source.walk(system, line)
        yield from recordings(source, walk, row_of(source.picture()))
        size = source.random.choice((ROW_BYTES, 7))
        yield from recordings(source, walk, source.junk_bytes(size))


def recorded_rows(source):
    """Spare bits and samples beyond a limit, one and several, at edges and elsewhere."""
    choice, places, lines = source.random.choice, range(judge.ACTIVE_WORDS), list(chosen_lines())
    for (system, line), place in product(chosen_lines(), (*places[:7], *places[-7:], 721)):
        for value in EDGE_SAMPLES:
            row = row_of(changed(source.picture(), {place: value}))
            yield from recordings(source, source.walk(system, line), row)
    for _ in range(600):
        system, line = choice(lines)
        faults = {choice(places): choice(EDGE_SAMPLES) for _ in range(choice((1, 2, 3)))}
        row = row_of(changed(source.picture(), faults))
        if choice((True, False)):
            row = with_word(row, choice(range(ROW_WORDS)), choice((1, 2, 3)) << 30)
        yield from recordings(source, source.walk(system, line), row)


def recorded_lengths(source):
    """Rows and lines of wrong lengths, to be recorded and to be extracted."""
    rows = (ROW_BYTES, 0, 1, ROW_BYTES - 1, ROW_BYTES + 1, 2 * ROW_BYTES)
    for system, line in chosen_lines():
        words = source.written(system, line)
        spoilt = pack_slice(changed(words, {len(words) - 1: 1024}))
        lengths = [2 * length for length in word_lengths(system)] + [1, 2 * len(words) - 1]
        for row_size, size in product(rows, lengths):
            walk = source.walk(system, line)
            good_row, good_line = row_of(source.picture()) * 2, pack_slice(words) * 2
            row, data = good_row[:row_size], good_line[:size]
            yield from recordings_in(source, walk, row, source.junk_bytes(size))
            for offered in (data, spoilt):
                yield protocol.EXTRACT, (walk, offered, source.junk_bytes(row_size))
                yield protocol.EXTRACT_NEXT, (run_at(walk), offered, source.junk_bytes(row_size))


def pieces_of_programmes(source):
    random = source.random.randrange
    frames = (*range(40), *EDGE_FRAMES, HIGHEST, *(random(2**32) for _ in range(300)))
    for system, count in product(ANY_SYSTEMS, frames):
        yield protocol.PIECE_LINES, (system, count)


def full_pieces(source):
    """Walks and most lines: a frame more is at, one below and one over them."""
    counts = (0, 1, 525, 625, 9_999_375, 9_999_376, 9_999_475, LINES_LIMIT, 2**32 - 626, HIGHEST)
    for system, line, lines in product(ANY_SYSTEMS, (0, 1, 2, 65_537, HIGHEST), counts):
        after = lines + judge.SYSTEMS[judge.system_of(system)].lines
        for most in {0, 1, lines, after - 1, after, after + 1, LINES_LIMIT, HIGHEST}:
            if most < 2**32:
                yield source.bad_walk(system, line, lines, min(lines, 7)), most


def ends_of_pieces(source):
    for walk, most in full_pieces(source):
        yield protocol.ENDS_PIECE, (walk, most)
    for walk in any_walks(source):
        yield protocol.ENDS_PIECE, (walk, source.random.choice((LINES_LIMIT, 2**32 - 1, 625)))


def begun_runs(source):
    numbers = (*SYSTEMS, 0, 1, 22, 524, 526, 624, 626, 13_330, 29_186, 65_535)
    for system, start in product(numbers, numbers):
        data = header(system, start)
        yield protocol.BEGIN, (data,)
        for size in range(4):
            yield protocol.BEGIN, (data[:size],)
        for size in (1, 2, 4, 100):
            yield protocol.BEGIN, (data + source.junk_bytes(size),)
    for system in SYSTEMS:
        for start in range(640):
            yield protocol.BEGIN, (header(system, start),)


def lines_from(source, walk, count, written=Source.written):
    """The bytes of lines as a walk awaits them, one code of some repaired."""
    lines = []
    for steps in range(count):
        words = written(source, walk.system, line_after(walk.system, walk.line, steps))
        masks = (0, *inverted(1)) if source.random.randrange(2) else (0,)
        lines.append(pack_slice(source.with_inversions(walk.system, words, masks)))
    return b"".join(lines)


def followed_runs(source):
    """Lines and what is left of one, judged as they lie ready and at the end."""
    for (system, line), count in product(chosen_lines(), range(5)):
        walk = source.walk(system, line)
        size = line_bytes(walk)
        data = lines_from(source, walk, count + 1)
        for left in (0, 1, 2, 3, size // 2, size - 1):
            yield protocol.FOLLOW, (run_at(walk), data[: count * size + left])
            yield protocol.CLOSE, (run_at(walk), data[: count * size + left])


def refused_runs(source):
    """A fault in one of several lines."""
    for _ in range(400):
        system = source.random.choice(SYSTEMS)
        walk = source.walk(system, source.random.choice(line_numbers(system)))
        data = bytearray(lines_from(source, walk, source.random.randrange(1, 5)))
        for _ in range(source.random.choice((1, 1, 2))):
            data[source.random.randrange(len(data))] ^= 1 << source.random.randrange(8)
        yield protocol.FOLLOW, (run_at(walk), bytes(data))


def runs_at_the_limit(source):
    """So many lines read that a line, or a byte, more is refused."""
    counts = (LINES_LIMIT - 2, LINES_LIMIT - 1, LINES_LIMIT, LINES_LIMIT + 1, HIGHEST)
    for (system, line), lines in product(chosen_lines(), counts):
        walk = Walk(system, line, lines, 5, tally=source.tally(5))
        data = lines_from(source, walk, 3)
        size = line_bytes(walk)
        for end in (0, 1, size - 1, size, size + 1, 2 * size, 2 * size + 1, 3 * size):
            yield protocol.FOLLOW, (run_at(walk), data[:end])
            yield protocol.CLOSE, (run_at(walk), data[:end])
        for end in (0, 1, size - 1, size, size + 1):
            yield protocol.NEXT, (run_at(walk), data[:end])
            row = source.junk_bytes(ROW_BYTES)
            yield protocol.EXTRACT_NEXT, (run_at(walk), data[:end], row)


def any_runs(source):
    """Runs of any numbers, ended and not, at walks that are taken and at others."""
    for walk, number in zip(any_walks(source), cycle(EDGE_NUMBERS)):
        place = source.random.choice((0, 3, 287, 1_727, HIGHEST))
        system = source.random.choice((walk.system, *SYSTEMS, 0))
        start = source.random.choice((walk.line, 1, 22, HIGHEST))
        yield Run(system, start, walk, number, place)


def ended_runs(source):
    """Any run with no byte, a byte, and a line."""
    for index, run in enumerate(any_runs(source)):
        yield protocol.OUTCOME, (run,)
        if index % 5 == 0:
            line = pack_slice(line_for(source, run.walk.system, run.walk.line))
            for data in (b"", b"\0", line):
                yield protocol.FOLLOW, (run, data)
                yield protocol.CLOSE, (run, data)
                yield protocol.NEXT, (run, data)
                size = source.random.choice((ROW_BYTES, ROW_BYTES, 7))
                yield protocol.EXTRACT_NEXT, (run, data, source.junk_bytes(size))


def runs_in_row(source):
    """A run behind another: following, or another in number, system or line."""
    for before in any_runs(source):
        awaited = before.system, before.walk.line
        others = (before.walk.system, before.walk.line), (before.system, before.start)
        starts = {awaited, *others, (before.system, before.walk.line ^ 1), (before.system ^ 8, 1)}
        for system, start in sorted(starts):
            run = begun(source, system, start)
            yield protocol.FOLLOWS_ON, (before, run)
            yield protocol.FOLLOWS_ON, (before._replace(number=0), run)


def begun(source, system, start):
    """A run of these numbers, itself accepted or not."""
    refusals = (judge.NO_LINE, 0), (judge.NOT_DUE, 3)
    number, place = source.random.choice((judge.ACCEPTED, judge.ACCEPTED, *refusals))
    return Run(system, start, Walk(system, start, 0, 0), number, place)


def any_totals(source):
    for _ in range(600):
        numbers = source.random.choices(EDGE_SUMS, k=6)
        yield Totals(*map(Wide, numbers))
        yield Totals(*(Wide(number ^ source.random.randrange(2**20)) for number in numbers))
        yield Totals(*(Wide(source.random.randrange(2**64)) for _ in range(6)))


def any_outcome(source):
    choice = source.random.choice
    system = choice((*SYSTEMS, *SYSTEMS, *WRONG_SYSTEMS))
    counts = choice((*EDGE_COUNTS, source.counts(), (HIGHEST, HIGHEST)))
    result = choice((0, 0, *EDGE_NUMBERS)), choice(EDGE_LINES), choice((0, 3, 1_727))
    return Outcome(system, choice(EDGE_LINES), *counts, *result)


def sums(source):
    yield protocol.NO_TOTALS, ()
    for totals in any_totals(source):
        yield protocol.WITH_READ, (totals, any_outcome(source))
        yield protocol.WITH_READ, (totals, any_outcome(source))
        yield protocol.WITH_UNREAD, (totals,)
        yield protocol.TOTAL_LINES, (totals,)
        yield protocol.HOURS, (totals,)


def hours_of_lines(source):
    """Lines about each half of a ten-thousandth of an hour, and exact halves of both systems."""
    near = [(n, more) for n in range(1, 60) for more in (-1, 0, 1)]
    of525 = [5_670_000 * n // 2_002 + more for n, more in near]
    of625 = [5_625 * n // 2 + more for n, more in near]
    halves = [(2_808 - 144 * n, 24 + 143 * n + 5_625 * n) for n in range(20)]
    one_system = *product(of525, (0,)), *product((0,), of625)
    for lines525, lines625 in (*one_system, *zip(of525, of625), *halves):
        totals = no_totals()._replace(lines525=Wide(lines525), lines625=Wide(lines625))
        yield protocol.HOURS, (totals,)
        yield protocol.TOTAL_LINES, (totals,)


FAMILIES = (
    fourth_words,
    expected_words,
    code_reports,
    flags_of_lines,
    figures,
    counted_repairs,
    walks,
    every_report,
    full_counts,
    walk_dues,
    named_numbers,
    standing_lengths,
    buffer_lengths,
    judged_lines,
    judged_offsets,
    judged_edges,
    judged_codes,
    judged_walks,
    judged_lengths,
    reserved_words,
    joined_words,
    reasons,
    fill_words,
    runs_of_samples,
    words_over,
    words_as_bytes,
    row_lengths,
    row_faults,
    recorded_lines,
    recorded_rows,
    recorded_lengths,
    pieces_of_programmes,
    ends_of_pieces,
    begun_runs,
    followed_runs,
    refused_runs,
    runs_at_the_limit,
    ended_runs,
    runs_in_row,
    sums,
    hours_of_lines,
)
