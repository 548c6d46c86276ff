"""Cases of ready packet words: written into lines and recorded with rows, right and refused."""

from functools import reduce
from itertools import combinations, cycle, product
from typing import NamedTuple

from independent import judge, protocol
from independent.call_cases import tape_at
from independent.due_cases import any_dues, room
from independent.edges import FALLS, HIGHEST
from independent.judge import LINES_LIMIT, TABLE_FALL, Due, Walk, line_after, samples_of
from independent.material import changed, chosen_lines, line_numbers, of_both
from independent.material import plain_and_blank_line
from independent.packet_cases import blank_and_plain_spaces, filled, other_words, packets_of
from independent.packet_cases import ready_layouts
from independent.packets import LEAST_WORDS, START
from independent.recordings import line_bytes
from independent.rows import row_of, with_word
from independent.tapes import NEVER_FULL, Tape, begin_tape, tape_next


class Write(NamedTuple):
    """What is given to write a line by its number."""

    system: int
    line: int
    fall: int
    y: list
    cb: list
    cr: list
    between: list
    active: list
    words: list


class WriteLine(NamedTuple):
    """What is given to write a line by what is due in it."""

    due: Due
    y: list
    cb: list
    cr: list
    between: list
    active: list
    words: list


class WritePart(NamedTuple):
    """What is given to write a line of an active part."""

    due: Due
    part: list
    between: list
    active: list
    words: list


class Record(NamedTuple):
    """What is given to record a row at a walk."""

    walk: Walk
    fall: int
    row: bytes
    between: list
    active: list
    data: bytes


class Taped(NamedTuple):
    """What is given to record a row on a tape."""

    tape: Tape
    row: bytes
    between: list
    active: list
    data: bytes


# Calls that take ready packet words; each gets those of both spaces.


def write(source, system, line, ready, fall=TABLE_FALL):
    words = source.junk(judge.SYSTEMS[system].words)
    return protocol.WRITE, Write(system, line, fall, *samples_of(source.picture()), *ready, words)


def write_line(source, system, line, ready, fall=TABLE_FALL):
    due = judge.due_of(system, line, fall)
    given = WriteLine(due, *samples_of(source.picture()), *ready, room(source, due))
    return protocol.WRITE_LINE, given


def write_part(source, system, line, ready, fall=TABLE_FALL):
    due = judge.due_of(system, line, fall)
    return protocol.WRITE_PART, WritePart(due, source.picture(), *ready, room(source, due))


def record(source, system, line, ready, fall=TABLE_FALL):
    walk = source.any_walk(system, line)
    data = source.junk_bytes(line_bytes(walk))
    return protocol.RECORD, Record(walk, fall, row_of(source.picture()), *ready, data)


def record_on_tape(source, system, line, ready, fall=TABLE_FALL):
    _, (walk, _, *given) = record(source, system, line, ready)
    return protocol.TAPE_NEXT, Taped(tape_at(source, walk, fall), *given)


CALLS = (write, write_line, write_part, record, record_on_tape)


def written_captions(source):
    """Every line with packets, the calls in turn."""
    for (system, line), call in zip(of_both(line_numbers), cycle(CALLS)):
        ready = source.ready(judge.due_of(system, line))
        for each in (write, record, call):
            yield each(source, system, line, ready)


def written_layouts(source):
    """Packets that leave no, a few and many words of each space."""
    for system, line in chosen_lines():
        for ready in ready_layouts(source, judge.due_of(system, line)):
            for call in CALLS:
                yield call(source, system, line, ready)


def captions_by_due(source):
    """Packets where anything is due, also fill that is none."""
    for due in any_dues(source):
        ready = source.ready(due._replace(system=judge.system_of(due.system)))
        part, words = source.picture(), room(source, due)
        yield protocol.WRITE_LINE, (due, *samples_of(part), *ready, words)
        yield protocol.WRITE_PART, (due, part, *ready, words)


def spaces_with(source, readies):
    """A line with each of some ready words in each of its spaces, and any in the other."""
    for system, line, start, _ in blank_and_plain_spaces(source):
        due = judge.due_of(system, line)
        place = int(start == judge.active_start(system))
        for words in readies(source, start):
            yield system, line, changed(source.ready(due), {place: words})


def packets_changed(source, start):
    """Two packets, every word in turn with all that may stand in its place."""
    words = packets_of(source, (1, 0))
    for offset, word in enumerate(words):
        for other in other_words(word):
            yield changed(words, {offset: other})


def packets_and_more(source, start):
    """Packets with fill, a part of a packet or other words behind them."""
    parts = [source.packet(3)[:size] for size in range(1, 10)]
    others = [1_024], [65_535], [0, 1_024], [0, 1_023, 1_024], [64, 1_024], START * 3
    for ready in ([], source.packet(0), source.packet(1), source.packets(60)):
        fill = filled(start, ready, 8)[len(ready) :]
        for more in (*(fill[:size] for size in range(1, 9)), fill[1:], *parts, *others):
            yield ready + more


def ready_words_changed(source):
    calls = cycle(CALLS)
    for system, line, ready in spaces_with(source, packets_changed):
        yield next(calls)(source, system, line, ready)


def ready_words_behind(source):
    calls = cycle(CALLS)
    for system, line, ready in spaces_with(source, packets_and_more):
        for _ in range(2):
            yield next(calls)(source, system, line, ready)


def ready_of(source, size):
    """So many ready words: packets, or any words where they are too few for one."""
    return source.packets(size) if size >= LEAST_WORDS else source.junk(size)


def ready_lengths(source):
    """As many ready words as each space holds, one less and more, and any with V = 0."""
    calls = cycle(CALLS)
    for system, line in of_both(plain_and_blank_line):
        ends = judge.spaces(judge.due_of(system, line))
        holds = [end - start for start, end in ends]
        sizes = [{0, 1, LEAST_WORDS, most, most + 1, abs(most - 1), 2_000} for most in holds]
        for pair in product(*map(sorted, sizes)):
            ready = [ready_of(source, size) for size in pair]
            for _ in range(3):
                yield next(calls)(source, system, line, ready)


def shortened(lent):
    return lent[:-1]


def of_bad_parity(ready):
    """Ready words with a bit of the first identifier inverted, if there are any."""
    return changed(ready, {3: ready[3] ^ 1}) if ready else ready


def faults_in(source):
    """What may be wrong with each thing that is given, each to be refused by itself."""
    return (
        ("system", lambda system: system + 1),
        ("line", lambda line: 0),
        ("fall", lambda fall: fall + 1),
        ("walk", lambda walk: walk._replace(system=0)),
        ("walk", lambda walk: walk._replace(line=0)),
        ("walk", lambda walk: walk._replace(lines_read=LINES_LIMIT)),
        ("walk", lambda walk: walk._replace(repairs=2 * walk.lines_read + 1)),
        ("walk", lambda walk: walk._replace(tally=walk.repairs + 1)),
        ("tape", lambda tape: tape._replace(number=judge.NOT_A_SAMPLE, place=9)),
        ("tape", lambda tape: tape._replace(walk=tape.walk._replace(line=0))),
        ("tape", lambda tape: tape._replace(walk=tape.walk._replace(tally=HIGHEST))),
        ("tape", lambda tape: tape._replace(fall=tape.fall + 1)),
        ("words", shortened),
        ("data", shortened),
        ("y", shortened),
        ("cb", shortened),
        ("cr", shortened),
        ("part", shortened),
        ("row", shortened),
        ("row", lambda row: with_word(row, 400, 1 << 30)),
        ("between", lambda ready: ready + source.junk(300)),
        ("active", lambda ready: ready + source.junk(1_500)),
        ("between", of_bad_parity),
        ("between", lambda ready: ready + [judge.FILL[len(ready) % 2]]),
        ("active", of_bad_parity),
        ("y", lambda y: changed(y, {1: 1_020})),
        ("part", lambda part: changed(part, {3: 1_020})),
        ("row", lambda row: with_word(row, 1, 1_020)),
    )


def with_fault(given, fault):
    name, change = fault
    return given._replace(**{name: change(getattr(given, name))})


def some_of(faults):
    """None, one and two of them; and all from each one on."""
    for count in range(3):
        yield from combinations(faults, count)
    for first in range(len(faults)):
        yield faults[first:]


def refusals_at_once(source):
    """Two refusals at once, and more: which of them is told."""
    for (system, line), call in product(chosen_lines(), CALLS):
        blank = judge.table_v(system, line)
        ready = packets_of(source, (1, 0)), packets_of(source, (2,)) if blank else []
        kind, given = call(source, system, line, ready)
        faults = [fault for fault in faults_in(source) if fault[0] in given._fields]
        for chosen in some_of(faults):
            yield kind, reduce(with_fault, chosen, given)


def captions_on_tapes(source):
    """A row and packets offered at each of some lines in turn, some of them refused."""
    for system, line in chosen_lines():
        fall = source.random.choice(FALLS)
        tape = begin_tape(system, line_after(system, line, -9), NEVER_FULL, fall)
        for _ in range(30):
            ready = source.ready(judge.due_of(system, tape.walk.line, fall))
            if source.random.randrange(5) == 0:
                ready = [of_bad_parity(ready[0]), ready[1]]
            data = source.junk_bytes(line_bytes(tape.walk))
            offered = Taped(tape, row_of(source.picture()), *ready, data)
            yield protocol.TAPE_NEXT, offered
            # A tape that was refused is offered a line more, and then goes on.
            is_ended, after = tape.number, tape_next(*offered)[0]
            tape = after._replace(number=0, place=0) if is_ended else after


FAMILIES = (
    written_captions,
    written_layouts,
    captions_by_due,
    ready_words_changed,
    ready_words_behind,
    ready_lengths,
    refusals_at_once,
    captions_on_tapes,
)
