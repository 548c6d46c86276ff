"""Lines of a programme: a row into a line's bytes and back, and tapes, onto which rows go in turn.

Sentences between quotation marks are of the comments above the library's calls,
of README.md and of docs/DECISIONS.md; those on the line at which V falls are of
request L1 of document 02.
"""

from typing import NamedTuple

from independent import judge
from independent.judge import (
    ACCEPTED,
    CLEAN_REPORT,
    LINES_LIMIT,
    NO_WALK,
    TABLE_FALL,
    Judgement,
    PacketWords,
    Walk,
    refused,
    system_of,
)
from independent.recordings import judged_on
from independent.rows import row_length_refusal, row_of, row_refusal, samples_of_row

# So many lines that no recording ever has them.
NEVER_FULL = 2**32 - 1


def due_written(walk, fall):
    """What is due in the line that is written at a walk, whatever the walk records."""
    return judge.due_of(system_of(walk.system), walk.line, fall)


def takes_row(walk, fall):
    # "its V is 0"
    return 1 - due_written(walk, fall).v


def row_part(walk, fall, row):
    # "a V = 0 line of the row's samples, a V = 1 line as fill, whatever the row"
    return samples_of_row(row) if takes_row(walk, fall) else ()


def written_walk_refusal(walk, fall):
    """What refuses every line that is written at a walk: 1, 2, 4."""
    # "outside 10 to 20 is refusal 2"
    return judge.numbers_refusal(*walk[:2], fall) or judge.counts_refusal(walk)


def record_refusal(walk, fall, row, between, active, line):
    # "Refused are 1, 2, 4, 3 at 0 for the line's bytes, and of a row that is due
    # 3 at 1 for its length, 5 at its first word with a spare bit set"; then what the
    # writer refuses: ready packet words, and "12 at its first sample outside 4 to 1019".
    refusal = written_walk_refusal(walk, fall) or judge.bytes_refusal(walk.system, line)
    refusal = refusal or (row_refusal(row) if takes_row(walk, fall) else None)
    if refusal:
        return refusal
    due, part = due_written(walk, fall), row_part(walk, fall, row)
    return judge.written_refusal(due, part, between, active)


def record(walk, fall, row, between, active, line):
    # "A refusal leaves the line's bytes as they were."
    refusal = record_refusal(walk, fall, row, between, active, line)
    if refusal:
        return (*refused(walk, *refusal), line)
    due, packets = due_written(walk, fall), PacketWords(len(between), len(active))
    judgement = judge.accepted(walk, due, CLEAN_REPORT, packets)
    words = judge.line_of(due, row_part(walk, fall, row), between, active)
    return (*judgement, judge.bytes_of(words))


def holds_row(walk, data):
    """Whether the V of an accepted line is 0, so that its active part is a row."""
    return not judge.due_in(walk, judge.words_of(data)).v


def extract(walk, data, row):
    # "Refused as the byte judge refuses it, then with 3 at 1 for the row's length;
    # the walk then stands and the row stays as it was."
    judgement = judge.judge_bytes(walk, data)
    refusal = judgement[:2] if judgement.number else row_length_refusal(row)
    if refusal:
        return (*refused(walk, *refusal), row)
    # "where it is accepted and its V is 0, packs its active part into the row"
    if holds_row(walk, data):
        row = row_of(judge.active_part(walk.system, judge.words_of(data)))
    return (*judgement, row)


def ends_frame(walk, fall):
    # "after the last row, the line that a walk awaits belongs to a frame that has
    # begun: its V is 1, and it is not line 1"; before the first line none has.
    return int(walk.lines_read > 0 and walk.line != 1 and not takes_row(walk, fall))


def frame_rows(system, start=1, fall=TABLE_FALL):
    """How many rows there are from a line to the end of its frame."""
    lines = range(start, judge.SYSTEMS[system].lines + 1)
    return sum(not judge.v_written(system, line, fall) for line in lines)


def piece_lines(system, frames=None):
    """The most lines of a recording of many: whole frames, if so many are asked for."""
    if frames is None:
        return LINES_LIMIT
    # "no more than any recording may have"
    return min(frames * judge.SYSTEMS[system_of(system)].lines, LINES_LIMIT)


def ends_piece(walk, most):
    # "that is line 1, and the frame has no room"; "never empty, only where a
    # frame more would be over"
    after = walk.lines_read + judge.SYSTEMS[system_of(walk.system)].lines
    return int(walk.line == 1 and walk.lines_read > 0 and after > most)


def extract_next(run, data, row):
    """The run, whether it gave a row, and the row."""
    # "A run that has ended stays as it is."
    if run.number:
        return run, 0, row
    *judgement, row = extract(run.walk, data, row)
    after = judged_on(run, Judgement(*judgement))
    return after, int(not after.number and holds_row(run.walk, data)), row


# "A walk over the lines that are written, the most lines of a recording", "the first
# field's fall line", "and the refusal that ended it, or 0."
class Tape(NamedTuple):
    walk: Walk
    most: int
    fall: int
    number: int
    place: int


def begin_tape(system, start, most, fall):
    # "a fresh walk, or its refusal"; "outside 10 to 20 is refusal 2"
    refusal = judge.numbers_refusal(system, start, fall)
    if refusal:
        return Tape(NO_WALK, most, fall, *refusal)
    return Tape(judge.fresh(system, start)[2], most, fall, *ACCEPTED)


def turns(tape):
    # "Whether a next recording begins before the awaited line."
    return ends_piece(tape.walk, tape.most)


def turned(tape):
    # "begins with the awaited line. Its lines are counted from none again."
    return tape._replace(walk=judge.fresh(tape.walk.system, tape.walk.line)[2])


def tape_next(tape, row, between, active, line):
    # "recorded as `record` does. A tape that was refused stays as it is."
    if tape.number:
        return tape, line
    number, place, _, walk, _, line = record(tape.walk, tape.fall, row, between, active, line)
    return tape._replace(walk=walk, number=number, place=place), line


def tape_ends(tape):
    # "the awaited line still belongs to a frame that has begun, and the walk takes one more"
    is_refused = tape.number or judge.walk_refusal(tape.walk)
    return 0 if is_refused else ends_frame(tape.walk, tape.fall)
