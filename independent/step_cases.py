"""Cases of tapes, onto which a programme goes line by line, and of reads, by which bytes arrive."""

from itertools import cycle, product

from independent import calls, judge, protocol
from independent.call_cases import any_walks, full_pieces, tape_at
from independent.calls import Filled, Told
from independent.edges import ANY_FALLS, ANY_SYSTEMS, EDGE_LINES, EDGE_NUMBERS, EDGE_SUMS
from independent.edges import FALLS, HIGHEST, MOSTS, SYSTEMS
from independent.judge import LINES_LIMIT, NO_READY
from independent.material import chosen_lines
from independent.protocol import Wide
from independent.recordings import line_bytes
from independent.rows import ROW_BYTES, row_of
from independent.tapes import Tape, begin_tape, tape_next, turned, turns

PLACES = (0, 1, 3, 1_439, HIGHEST)
ROOMS = (0, 1, 2, 7, 8, 3_456, 4_000)

# Counts that a read may tell, far from any room.
FAR_COUNTS = (
    -(2**63), -(2**63) + 1, -(2**62), -(2**32) - 1, -(2**32), -(2**31), -7, -2, -1, 0, 1, 2,
    2**16, 2**31, 2**32 - 1, 2**32, 2**32 + 1, 2**62, 2**63 - 2, 2**63 - 1,
)  # fmt: skip


def begun_tapes(source):
    for system, start, most in product(ANY_SYSTEMS, EDGE_LINES, MOSTS):
        yield protocol.TAPE_BEGIN, (system, start, most, source.random.choice(ANY_FALLS))
    for system, start in product(SYSTEMS, range(640)):
        most, fall = source.random.choice(MOSTS), source.random.choice(ANY_FALLS)
        yield protocol.TAPE_BEGIN, (system, start, most, fall)


def asked(tape):
    """Every call that looks at a tape alone."""
    yield protocol.TURNS, (tape,)
    yield protocol.TURNED, (tape,)
    yield protocol.TAPE_ENDS, (tape,)


def any_tapes(source):
    """Tapes at any walk, refused and not."""
    numbers = cycle(EDGE_NUMBERS)
    for walk in any_walks(source):
        tape = tape_at(source, walk, source.random.choice(ANY_FALLS))
        yield from asked(tape)
        if source.random.randrange(3) == 0:
            place = source.random.choice(PLACES)
            yield from asked(tape._replace(number=next(numbers), place=place))


def turning_tapes(source):
    """A frame more at, one below and one over the most lines."""
    for walk, most in full_pieces(source):
        refusals = (judge.WRONG_LENGTH, 1), (judge.NOT_A_SAMPLE, 1_439)
        number, place = source.random.choice((judge.ACCEPTED, judge.ACCEPTED, *refusals))
        tape = Tape(walk, most, source.random.choice(ANY_FALLS), number, place)
        yield protocol.TURNS, (tape,)
        yield protocol.TURNED, (tape,)


def ending_tapes(source):
    """Every line: behind none, one and as many lines as there may be, and where a refusal was."""
    counts = ((0, 0), (1, 0), (1, 3), (LINES_LIMIT - 1, 5), (LINES_LIMIT, 0))
    for system in SYSTEMS:
        lines = judge.SYSTEMS[system].lines
        for line in range(lines + 2):
            fall = source.random.choice(FALLS)
            for lines_read, repairs in counts:
                walk = source.walk_with(system, line, lines_read, repairs)
                tape = Tape(walk, LINES_LIMIT, fall, 0, 0)
                yield protocol.TAPE_ENDS, (tape,)
            yield protocol.TAPE_ENDS, (tape._replace(number=judge.WRONG_COUNTS),)
            refused = Tape(source.bad_walk(system, line, 7, 3), 0, fall, judge.NOT_A_SAMPLE, 9)
            yield protocol.TAPE_ENDS, (refused,)
            full = Tape(source.bad_walk(system, line, lines, 3), 2 * lines - 1, fall, 0, 0)
            yield protocol.TURNS, (full,)
            yield protocol.TURNED, (full,)


def ended_tapes(source):
    """A row and room for its line, right and not, where a refusal was."""
    for (system, line), number in product(chosen_lines(), EDGE_NUMBERS):
        walk, place = source.walk(system, line), source.random.choice(PLACES)
        fall = source.random.choice(ANY_FALLS)
        tape = tape_at(source, walk, fall)._replace(number=number, place=place)
        size = line_bytes(walk)
        for row in (row_of(source.picture()), source.junk_bytes(ROW_BYTES), b""):
            for room in (size, size - 1, 0):
                yield protocol.TAPE_NEXT, (tape, row, *NO_READY, source.junk_bytes(room))


def tapes_at_the_limit(source):
    """So many lines written that a line more is refused, or is the last."""
    counts = (LINES_LIMIT - 2, LINES_LIMIT - 1, LINES_LIMIT, LINES_LIMIT + 1, HIGHEST)
    for system, lines_read in product(SYSTEMS, counts):
        ends = (1, 22, 23, judge.SYSTEMS[system].lines)
        for line, most in product(ends, (0, LINES_LIMIT, HIGHEST)):
            fall = source.random.choice(FALLS)
            tape = Tape(source.walk_with(system, line, lines_read, 3), most, fall, *judge.ACCEPTED)
            yield from asked(tape)
            row, room = row_of(source.picture()), line_bytes(tape.walk)
            yield protocol.TAPE_NEXT, (tape, row, *NO_READY, source.junk_bytes(room))


def rows_on_tapes(source):
    """A row offered at each of some lines in turn, over the end of a frame and of a recording."""
    for system, before, frames in product(SYSTEMS, (0, 1, 5), (0, 1, 2)):
        lines = judge.SYSTEMS[system].lines
        fall = source.random.choice(FALLS)
        tape = begin_tape(system, lines - before, frames * lines, fall)
        for _ in range(40):
            yield from asked(tape)
            tape = turned(tape) if turns(tape) else tape
            row, room = row_of(source.picture()), line_bytes(tape.walk)
            offered = tape, row, *NO_READY, source.junk_bytes(room)
            yield protocol.TAPE_NEXT, offered
            tape = tape_next(*offered)[0]


def told_counts(source):
    """Counts about each room, far from it, and with its number in the low half."""
    for size in ROOMS:
        near = [size + more for more in (-1, 0, 1)]
        halves = [half + count for half in (2**32, -(2**32), -(2**63)) for count in near]
        drawn = [source.random.randrange(-(2**63), 2**63) for _ in range(20)]
        for count in (*FAR_COUNTS, *range(-9, 10), *near, *halves, *drawn):
            yield protocol.TELLS, (Wide(count % 2**64), source.junk_bytes(size))


def filled_so_far(source):
    for have in (*EDGE_SUMS, *(source.random.randrange(2**64) for _ in range(100))):
        yield protocol.SO_FAR, (Wide(have),)


def filled_buffers(source):
    """Every answer of a read, at edges of what was filled and of the room."""
    told = [Told(calls.BYTES, Wide(count)) for count in (0, 1, 7, 2**32, 2**63, 2**64 - 1)]
    told += [Told(calls.FAILED, Wide(0)), Told(calls.ENDED, Wide(0))]
    for have, done, failed, read in product(EDGE_SUMS, (0, 1), (0, 1), told):
        rooms = {0, read.count, read.count + 1, read.count - 1, read.count ^ 2**32, 2**64 - 1}
        for room in sorted(rooms):
            if 0 <= room < 2**64:
                yield protocol.FILLED_AFTER, (Filled(Wide(have), done, failed), read, Wide(room))


FAMILIES = (
    begun_tapes,
    any_tapes,
    turning_tapes,
    ending_tapes,
    ended_tapes,
    tapes_at_the_limit,
    rows_on_tapes,
    told_counts,
    filled_so_far,
    filled_buffers,
)
