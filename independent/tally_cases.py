"""Cases of the tally: lines about each change of F at every tally, and whole frames in turn."""

from itertools import cycle, product

from independent import finished, judge, protocol, recordings
from independent.call_cases import FULL_COUNTS, JUDGING, PACKET_COUNTS, judge_in_c, judge_words
from independent.call_cases import run_at, tape_at
from independent.edges import ANY_SYSTEMS, EDGE_COUNTS, EDGE_LINES, EDGE_RECORDS, FALLS, HIGHEST
from independent.edges import SYSTEMS
from independent.finishing_cases import with_repairs
from independent.judge import CLEAN_REPORT, LINES_LIMIT, NO_READY, Due, Report, Walk, line_after
from independent.material import changed, edge_offsets, of_both
from independent.packet_cases import CALLS
from independent.protocol import Wide, pack_slice
from independent.recordings import line_bytes
from independent.rows import row_of

# Lines about each change of F, and over the end of a frame.
FIELD_LINES = {525: (525, 1, 2, 3, 4, 5, 265, 266, 267), 625: (312, 313, 314, 625, 1, 2)}

# The lines at which F changes, and those at which V alone does, with some beside them.
FIELD_STARTS = {525: (4, 266), 625: (1, 313)}
V_LINES = {525: (19, 20, 21, 263, 264, 282, 283), 625: (22, 23, 24, 310, 311, 336, 623, 624)}

# Numbers of no line, those behind the last lines among them.
NO_LINES = (0, 526, 527, 626, 627, HIGHEST)

# Reports of none, one and two repaired codes.
ONE_CODE = Report(judge.REPAIRED, 8, judge.CLEAN, 0), Report(judge.CLEAN, 0, judge.REPAIRED, 2)
REPORTS = CLEAN_REPORT, *ONE_CODE, Report(judge.REPAIRED, 2, judge.REPAIRED, 8)

# Lines read and repairs, at edges and between them.
COUNTS = (*EDGE_COUNTS, (1, 1), (7, 3), (65_536, 65_536), (LINES_LIMIT - 1, LINES_LIMIT))

# Every call that judges a line and tells the walk, and the byte judge, which takes its numbers.
IN_TURN = (*JUDGING, judge_in_c)

# Lines that are handed over at a time.
AT_A_TIME = 12


def tallies(repairs):
    """None, one, all repairs, one over them and far over."""
    return sorted({0, 1, repairs, min(repairs + 1, HIGHEST), HIGHEST})


def many_and_few(source, system, line):
    """A walk of any counts, and one of few repairs or none."""
    walk, few = source.walk(system, line), source.random.randrange(4)
    return walk, walk._replace(lines_read=few, repairs=few)


def tallied(source, lines):
    """Walk and line: none, one and two repaired codes, at every tally of many and few repairs."""
    for (system, line), count in product(lines, range(3)):
        clean = source.written(system, line)
        for walk in many_and_few(source, system, line):
            for tally in tallies(walk.repairs):
                words = with_repairs(source, system, clean, count)
                yield walk._replace(tally=tally), words


def tallies_by_field(source):
    """Where F changes and beside it, through every call."""
    for walk, words in tallied(source, of_both(FIELD_LINES.get)):
        for call in CALLS:
            yield call(source, walk, words)


def tallies_by_v(source):
    """Where V alone changes and beside it."""
    for walk, words in tallied(source, of_both(V_LINES.get)):
        for call in (judge_words, source.random.choice(CALLS)):
            yield call(source, walk, words)


def tallies_standing(source):
    """A line that is refused, for a word over 1023 or for its F: the walk stands."""
    for (system, line), call in product(of_both(FIELD_LINES.get), JUDGING):
        words = with_repairs(source, system, source.written(system, line), 1)
        offset = source.random.choice(edge_offsets(system))
        spoilt = changed(words, {offset: source.over(words[offset])})
        due = judge.due_of(system, line)
        other_field = source.of_due(due._replace(f=1 - due.f))
        for offered in (spoilt, other_field):
            yield call(source, source.walk(system, line), offered)


def far_tallies(lines_read, repairs):
    """Tallies about the repairs and about twice the lines read, and with either in the low half."""
    near = [count + more for count in (repairs, 2 * lines_read) for more in (-1, 0, 1)]
    far = (repairs ^ 65_536, repairs ^ 2**31, HIGHEST - 1, HIGHEST)
    return sorted({tally for tally in (0, 1, *near, *far) if 0 <= tally <= HIGHEST})


def tallies_refused(source):
    """Any tally beside any counts, at walks right and wrong otherwise, with any lengths."""
    numbers = (525, 266), (625, 1), (625, 626), (524, 4)
    for (system, line), counts in product(numbers, COUNTS):
        for tally in far_tallies(*counts):
            walk = Walk(system, line, *counts, source.random.choice(EDGE_RECORDS), tally)
            yield protocol.WALK_REFUSAL, (walk,)
            given, due = source.random.choices((1_716, 1_728, 3_432, 3_456), k=2)
            yield protocol.STANDING, (walk, Wide(given), Wide(due))


def tallies_in_order(source):
    """A tally over the repairs with every other refusal, before it and behind it."""
    for system, line in of_both(FIELD_STARTS.get):
        walk, clean = source.walk(system, line), source.written(system, line)
        over = walk._replace(tally=walk.repairs + 1)
        others = {"system": system + 1}, {"line": 0}, {"lines_read": LINES_LIMIT}
        walks = walk, over, *(over._replace(**other) for other in others)
        lines = clean, clean[:-1], changed(clean, {0: 1_024})
        for offered, words, call in product(walks, lines, CALLS):
            yield call(source, offered, words)


def moving(source, walk, due, report):
    """The call that moves a walk, or the one that accepts a line."""
    packets = source.random.choice(PACKET_COUNTS)
    calls = (protocol.MOVED, ()), (protocol.ACCEPTED, (packets,))
    kind, more = source.random.choice(calls)
    return kind, (walk, due, report, *more)


def tallies_moved(source):
    """Every line number of any walk, where either F is due."""
    numbers = (*range(640), *EDGE_LINES)
    for system, line, f in product(SYSTEMS, numbers, (0, 1)):
        of_walk = source.random.choice((system, *ANY_SYSTEMS))
        walk = source.bad_walk(of_walk, line, *source.random.choice((*FULL_COUNTS, (5, 5))))
        due = Due(system, f, source.random.randrange(2), *judge.FILL)
        yield moving(source, walk, due, source.random.choice(REPORTS))


def tallies_over_32_bits(source):
    """Every report at tallies for which 32 bits have no room, or just enough."""
    full = (0, 1, 2**31, HIGHEST - 2, HIGHEST - 1, HIGHEST)
    lines = (*of_both(FIELD_LINES.get), *product(SYSTEMS, NO_LINES))
    for (system, line), f, report, tally in product(lines, (0, 1), REPORTS, full):
        walk = source.any_walk(system, line)._replace(tally=tally)
        due = Due(system, f, source.random.randrange(2), *judge.FILL)
        yield moving(source, walk, due, report)


def tallies_recorded(source):
    """A row recorded at every tally, into as many bytes as its line has, and one less."""
    lines = *of_both(FIELD_LINES.get), *of_both(V_LINES.get)
    for system, line in lines:
        walk = source.any_walk(system, line)
        for tally, less in product(tallies(walk.repairs), (0, 1)):
            at, fall = walk._replace(tally=tally), source.random.choice(FALLS)
            room = source.junk_bytes(line_bytes(walk) - less)
            given = row_of(source.picture()), *NO_READY, room
            yield protocol.RECORD, (at, fall, *given)
            yield protocol.TAPE_NEXT, (tape_at(source, at, fall), *given)


def tallies_on_tapes(source):
    """Tapes at every tally: whether they end or turn, and turned."""
    lines = *of_both(FIELD_LINES.get), *of_both(V_LINES.get)
    for system, line in lines:
        for walk in many_and_few(source, system, line):
            for tally in tallies(walk.repairs):
                at = walk._replace(tally=tally)
                tape = tape_at(source, at, source.random.choice(FALLS))
                for kind in (protocol.TAPE_ENDS, protocol.TURNS, protocol.TURNED):
                    yield kind, (tape,)


def awaited(source, walk, fall):
    """The line that a walk awaits, where V falls at this line; none to two codes repaired."""
    due = judge.due_of(walk.system, walk.line, fall)
    count = source.random.choice((0, 0, 1, 2))
    return with_repairs(source, walk.system, source.of_due(due), count)


def lines_in_turn(source, walk, count):
    """Walk and line: so many lines, each at the walk behind the last; some are refused first."""
    fall = source.random.choice(FALLS)
    for _ in range(count):
        words = awaited(source, walk, fall)
        offset = source.random.randrange(len(words))
        offered = [words]
        if source.random.randrange(16) == 0:
            offered = [changed(words, {offset: source.over(words[offset])}), words]
        for each in offered:
            yield walk, each
            walk = judge.judged(walk, each).walk


def fresh_walk(source, system):
    """A fresh walk from any line."""
    start = source.random.randrange(judge.SYSTEMS[system].lines) + 1
    return judge.fresh(system, start)[2]


def frame_and_more(system):
    return judge.SYSTEMS[system].lines + 60


def frames_line_by_line(source):
    """A frame and more from a fresh walk on, the calls in turn."""
    calls = cycle(IN_TURN)
    for system in SYSTEMS:
        walk = fresh_walk(source, system)
        for at, words in lines_in_turn(source, walk, frame_and_more(system)):
            yield next(calls)(source, at, words)


def fields_line_by_line(source):
    """Some lines over a change of F, from a walk that is fresh or at any tally."""
    for (system, first), before in product(of_both(FIELD_STARTS.get), range(1, 6)):
        line = line_after(system, first, -before)
        for walk in (judge.fresh(system, line)[2], source.walk(system, line)):
            for at, words in lines_in_turn(source, walk, before + 4):
                yield source.random.choice((judge_words, *IN_TURN))(source, at, words)


def bytes_in_turn(source, walk, count):
    """The bytes of so many lines, a few at a time."""
    fall = source.random.choice(FALLS)
    lines = []
    for steps in range(count):
        at = walk._replace(line=line_after(walk.system, walk.line, steps))
        lines.append(pack_slice(awaited(source, at, fall)))
    return [b"".join(lines[at : at + AT_A_TIME]) for at in range(0, count, AT_A_TIME)]


def frames_in_runs(source):
    """A frame and more, a few lines at a time, in a run and into a finished file."""
    for system in SYSTEMS:
        run = run_at(fresh_walk(source, system))
        finishing = finished.finishing_of(run)
        for data in bytes_in_turn(source, run.walk, frame_and_more(system)):
            room = source.junk_bytes(6 * AT_A_TIME)
            yield protocol.FOLLOW, (run, data)
            yield protocol.FINISHING_FOLLOW, (finishing, data, room)
            run = recordings.follow(run, data)[0]
            finishing = finished.follow(finishing, data, room)[0]


FAMILIES = (
    tallies_by_field,
    tallies_by_v,
    tallies_standing,
    tallies_refused,
    tallies_in_order,
    tallies_moved,
    tallies_over_32_bits,
    tallies_recorded,
    tallies_on_tapes,
    frames_line_by_line,
    fields_line_by_line,
    frames_in_runs,
)
