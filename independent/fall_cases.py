"""Cases of the line at which V falls in 525: lines read after either V, and written by each."""

from itertools import product

from independent import judge, protocol, ready_cases
from independent.call_cases import FOURTHS, extract_next_line, judge_in_c, judge_words, run_at
from independent.call_cases import tape_at
from independent.edges import ANY_FALLS, ANY_SYSTEMS, EDGE_LINES, EDGE_RECORDS, FALLS, HIGHEST
from independent.edges import SYSTEMS
from independent.finished import finishing_of
from independent.judge import NO_READY, fourth_offsets, line_after, v_written
from independent.material import LEGAL, changed, inverted, other_code
from independent.packet_cases import CALLS
from independent.protocol import pack_slice
from independent.recordings import line_bytes
from independent.rows import ROW_BYTES, row_of
from independent.tapes import NEVER_FULL, begin_tape, tape_next

# The lines at which V may fall and those beside them; the same with others about them.
FALLING = (*range(9, 21), *range(272, 284))
NEAR = (*range(1, 31), *range(260, 291))

# The first and the last lines at which the record is looked at, and those beside them.
EDGES = (10, 11, 19, 20, 273, 274, 282, 283)

# Lines of 625 with the numbers of those lines, and those where its own V turns.
OF_625 = (
    1, 9, 10, 11, 15, 19, 20, 21, 22, 23, 24, 263, 264, 273, 274, 282, 283, 310, 311, 335, 336,
    623, 624, 625,
)  # fmt: skip

# Fall lines, the nearest numbers that are none, and some far from them.
TOLD = (0, 9, *FALLS, 21, HIGHEST)

# What a walk records where its last line had V = 0.
YES = EDGE_RECORDS[1:]


def offered(source, lines, system=525):
    """Walk and clean line: each line with either V, after either."""
    for line, v, after in product(lines, (0, 1), (0, 1)):
        due = judge.due_of(system, line)._replace(v=v)
        record = 0 if after else source.random.choice(YES)
        yield source.any_walk(system, line)._replace(fallen=record), source.of_due(due)


def some_calls(source, walk):
    """One of the calls that judge a line; where V may fall it is judged by its words too."""
    judged = (judge_words,) if walk.line in FALLING else ()
    return *judged, source.random.choice(CALLS)


def either_v(source):
    """Either V after either, through every call where V may fall."""
    for walk, words in offered(source, NEAR):
        few = judge_words, judge_in_c, *source.random.sample(CALLS, 2)
        for call in CALLS if walk.line in FALLING else few:
            yield call(source, walk, words)


def either_v_of_625(source):
    for walk, words in offered(source, OF_625, 625):
        for call in (judge_words, judge_in_c, source.random.choice(CALLS)):
            yield call(source, walk, words)


def one_bit_inverted(source):
    """Each bit of each code inverted, and one in both with any low bits."""
    for walk, words in offered(source, NEAR):
        for offset, mask in product(fourth_offsets(525), inverted(1)):
            for call in some_calls(source, walk):
                yield call(source, walk, changed(words, {offset: words[offset] ^ mask}))
        both = source.with_inversions(525, words, inverted(1))
        yield judge_words(source, walk, source.low_bits(525, both))


def two_bits_inverted(source):
    """Every two bits of each code inverted."""
    for walk, words in offered(source, NEAR):
        for offset, mask in product(fourth_offsets(525), inverted(2)):
            call = source.random.choice(CALLS)
            yield call(source, walk, changed(words, {offset: words[offset] ^ mask}))


def with_other_code(words, offset, mask):
    return changed(words, {offset: other_code(words[offset], mask)})


def another_code(source):
    """A SAV of another V, clean and damaged; at the edges every other code in place of each."""
    _, sav = fourth_offsets(525)
    others = [*product(fourth_offsets(525), range(1, 8))]
    for walk, words in offered(source, NEAR):
        line = with_other_code(words, sav, 2)
        lines = [line, source.with_inversions(525, line, inverted(1))]
        if walk.line in EDGES:
            lines += [with_other_code(words, *other) for other in others]
        for line in lines:
            for call in some_calls(source, walk):
                yield call(source, walk, line)


def another_active_part(source):
    """Samples, packets, fill and a reserved word behind codes of either V."""
    active = judge.active_start(525)
    for walk, words in offered(source, FALLING):
        packet = source.packet(source.random.randrange(9))
        place = source.random.randrange(active, len(words))
        behind = source.captioned(525, 1)[active:]
        for part in (source.picture(), packet, behind, [*judge.FILL] * judge.Y_SAMPLES):
            spoilt = changed(words, dict(enumerate(part, active)))
            yield source.random.choice(CALLS)(source, walk, spoilt)
        for word in (3, 1_020, source.random.choice(LEGAL)):
            yield source.random.choice(CALLS)(source, walk, changed(words, {place: word}))


def falls_by_number(source):
    """What is written at each line by any fall line, and what refuses its numbers."""
    lines = (*range(32), *range(258, 294), 524, 525, 526, *range(620, 628), *EDGE_LINES)
    for system, line, fall in product(SYSTEMS, lines, ANY_FALLS):
        yield protocol.V_WRITTEN, (system, line, fall)
        yield protocol.DUE_OF, (system, line, fall)
        yield protocol.WRITTEN_REFUSAL, (system, line, fall)
        walk = source.any_walk(system, line)
        for asked in (walk, walk._replace(lines_read=0, repairs=0, tally=0)):
            yield protocol.ENDS_FRAME, (asked, fall)
        yield protocol.TAKES_ROW, (walk, fall)
    # About the highest number, beyond which a fall line of the second field would be.
    for more, less in product(range(270), (0, 1, 262, 263, 264, 265)):
        line, fall = HIGHEST - more, HIGHEST - less
        yield protocol.V_WRITTEN, (525, line, fall)
        yield protocol.TAKES_ROW, (source.any_walk(525, line), fall)
    for system, line, fall in product(ANY_SYSTEMS, EDGE_LINES, ANY_FALLS):
        yield protocol.WRITTEN_REFUSAL, (system, line, fall)


def due_by_words(source):
    """What is due by any fourth word, after either V."""
    for line, record, fourth in product(NEAR, EDGE_RECORDS, FOURTHS):
        yield protocol.WALK_DUE, (source.any_walk(525, line)._replace(fallen=record), fourth)
    words = (*range(512, 1_024), *range(0, 512, 5), *range(1_024, 65_536, 509))
    for line, after, fourth in product((10, 11, 19, 20, 274), (0, 1), words):
        record = 0 if after else source.random.choice(YES)
        yield protocol.WALK_DUE, (source.any_walk(525, line)._replace(fallen=record), fourth)
    for line, fourth in product(OF_625, FOURTHS):
        yield protocol.WALK_DUE, (source.any_walk(625, line), fourth)


def written_by_fall(source):
    """Every fall line where it matters: without packets, and with some, also where V is 0."""
    for line, fall in product((*FALLING, 1, 263, 264, 525), TOLD):
        for call in (ready_cases.write, ready_cases.record):
            yield call(source, 525, line, NO_READY, fall)
        due = judge.due_of(525, line, fall)
        ready = source.ready(source.random.choice((due, due._replace(v=1))))
        yield source.random.choice(ready_cases.CALLS)(source, 525, line, ready, fall)


def written_in_625(source):
    """Any fall line, which 625 ignores."""
    for line, fall in product((1, 10, 15, 22, 23, 273, 283, 336), ANY_FALLS):
        call = source.random.choice(ready_cases.CALLS)
        yield call(source, 625, line, source.ready(judge.due_of(625, line)), fall)


def samples_by_fall(source):
    """Samples and rows that are none: refused with V = 0, not looked at with V = 1."""
    for line, fall in product(FALLING, (10, 13, 17, 20)):
        words, walk = source.junk(judge.SYSTEMS[525].words), source.any_walk(525, line)
        yield protocol.WRITE, (525, line, fall, *source.junk_buffers(), *NO_READY, words)
        row = source.junk_bytes(source.random.choice((7, ROW_BYTES)))
        yield protocol.RECORD, (walk, fall, row, *NO_READY, pack_slice(words))


def tapes_by_fall(source):
    """Tapes of any fall line; rows taped about where V falls."""
    for system, start, fall in product((*SYSTEMS, 0), (0, 1, 15, 525, 526, 625, 626), ANY_FALLS):
        yield protocol.TAPE_BEGIN, (system, start, NEVER_FULL, fall)
    for fall, start in product(FALLS, (8, 271)):
        tape = begin_tape(525, start, NEVER_FULL, fall)
        for _ in range(14):
            yield protocol.TAPE_ENDS, (tape,)
            yield protocol.TURNED, (tape,)
            room = source.junk_bytes(line_bytes(tape.walk))
            given = tape, row_of(source.picture()), *NO_READY, room
            yield protocol.TAPE_NEXT, given
            tape = tape_next(*given)[0]
    for line, fall in product(NEAR, ANY_FALLS):
        yield protocol.TAPE_ENDS, (tape_at(source, source.any_walk(525, line), fall),)


def turns_of_v(source):
    """Start and V of lines in turn: falling at each line, then rising again, and any."""
    for start, fall in product((8, 271), FALLS):
        vs = [v_written(525, line, fall) for line in range(start, start + 14)]
        yield start, vs
        yield start, changed(vs, {source.random.randrange(fall - 7, 14): 1})
    for start in (258, 520):
        lines = [line_after(525, start, steps) for steps in range(20)]
        yield start, [v_written(525, line, source.random.choice(FALLS)) for line in lines]
    for _ in range(40):
        start = source.random.choice((8, 9, 10, 12, 15, 271, 272, 273, 278))
        before = source.random.randrange(6)
        yield start, [1] * before + [source.random.randrange(2) for _ in range(6)]


def runs_by_fall(source):
    """Lines in a run and into a finished file, as they are and with bits inverted in codes."""
    for start, vs in turns_of_v(source):
        lines = source.in_turn(start, vs)
        damaged = [source.with_inversions(525, words, (0, *inverted(1))) for words in lines]
        run = run_at(source.any_walk(525, start))
        for each in (lines, damaged):
            yield protocol.FOLLOW, (run, b"".join(map(pack_slice, each)))
        given = finishing_of(run), b"".join(map(pack_slice, damaged)), source.junk_bytes(72)
        yield protocol.FINISHING_FOLLOW, given


def rows_by_fall(source):
    """Lines extracted in turn; where one is refused the walk stands."""
    for start, vs in source.random.sample([*turns_of_v(source)], 12):
        walk = source.any_walk(525, start)
        for words in source.in_turn(start, vs):
            yield extract_next_line(source, walk, words)
            walk = judge.judged(walk, words).walk


FAMILIES = (
    either_v,
    either_v_of_625,
    one_bit_inverted,
    two_bits_inverted,
    another_code,
    another_active_part,
    falls_by_number,
    due_by_words,
    written_by_fall,
    written_in_625,
    samples_by_fall,
    tapes_by_fall,
    runs_by_fall,
    rows_by_fall,
)
