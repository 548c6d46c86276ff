"""Finished files: finishing a recording, and the full check of a finished file.

Sentences between quotation marks are of request L10 of document 02; where that
does not speak of a call, of the comment above the call.
"""

from typing import NamedTuple, Optional

from independent import index, judge, recordings
from independent.index import ENTRY, TRAILER, Entry, Trailer
from independent.protocol import Wide
from independent.recordings import HEADER_BYTES, Run, fresh_run, header, header_of, line_bytes


# "Lines on their way into a finished file, or under its check: the run over them, and how
# many of them were not clean."
class Finishing(NamedTuple):
    run: Run
    entries: int


def finishing_of(run):
    # "Before the first line."
    return Finishing(run, 0)


def line_entries(walk, judgement):
    """The entry of a line that was judged at a walk, or none where it was clean or refused."""
    repairs = judge.repairs(judgement.report)
    return [Entry(walk.lines_read, repairs)] if repairs else []


def with_line(finishing, line):
    """The state after a line was judged, and the entries that it adds."""
    run, count = finishing
    judgement = judge.judge_bytes(run.walk, line)
    added = line_entries(run.walk, judgement)
    count = judge.counted(count, len(added))
    return Finishing(recordings.judged_on(run, judgement), count), added


def follow(finishing, data, room):
    """The state, how many bytes were taken, how many of index were put, and the room."""
    taken, entries = 0, []
    # "at most one line for each six bytes of room"
    for _ in range(len(room) // ENTRY.size):
        run = finishing.run
        # "Judges every whole line of the bytes that lie ready, up to the first refusal"
        if run.number or taken == len(data):
            break
        if judge.walk_refusal(run.walk):
            ended = recordings.with_line(run, data[taken:])
            finishing = finishing._replace(run=ended)
            break
        end = taken + line_bytes(run.walk)
        if len(data) < end:
            break
        # "and puts the entries of those that were not clean"
        finishing, added = with_line(finishing, data[taken:end])
        entries, taken = entries + added, end
    put = index.index_bytes(entries)
    return finishing, taken, len(put), put + room[len(put) :]


def close(finishing, data):
    # "At the end of the input, with the bytes that were left."
    return finishing._replace(run=recordings.close(finishing.run, data))


def trailer_behind(finishing):
    # "The trailer behind the index of these lines."
    walk = finishing.run.walk
    offset = Wide(walk.lines_read * line_bytes(walk))
    return Trailer(offset, finishing.entries, walk.lines_read)


# "Whether the two differ, and the first ordinal where they do."
class Meeting(NamedTuple):
    differs: int
    ordinal: int


SAME = Meeting(0, 0)


def differing(ours, theirs):
    """Where entries of lines and those of an index differ first."""
    for our, their in zip(ours, theirs):
        if our != their:
            return Meeting(1, min(our.ordinal, their.ordinal))
    longer = max(ours, theirs, key=len)[min(len(ours), len(theirs)) :]
    return Meeting(1, longer[0].ordinal) if longer else SAME


def meet(meeting, ours, theirs):
    # "With entries more of the lines, and those that the file's index has in their place."
    if meeting.differs:
        return meeting
    return differing(index.entries_of(ours), index.entries_of(theirs))


def is_theirs(run, meeting):
    # "all lines were accepted, and the index is theirs"
    return int(run.number == 0 and not meeting.differs)


def differs_before(run, meeting):
    # "the index, where it differs at an ordinal before that of the refused line; or that line"
    first = not run.number or meeting.ordinal < run.walk.lines_read
    return int(bool(meeting.differs) and first)


# Whole files, by reading every line.


class Reading(NamedTuple):
    """What reading lines in turn tells: the run over them, and the repairs of each."""

    run: Run
    repairs: list


def read_lines(run, data):
    """The reading of header-free lines, up to the first refusal; the last may be short."""
    repairs = []
    for line in recordings.parts(data, line_bytes(run.walk)):
        if run.number:
            break
        judgement = judge.judge_bytes(run.walk, line)
        if not judgement.number:
            repairs.append(judge.repairs(judgement.report))
        run = recordings.judged_on(run, judgement)
    return Reading(run, repairs)


def file_of(system, lines, repairs):
    """A finished file of these lines, whose repairs are these."""
    # "Lines are header-free"; "After it a trailer of sixteen bytes ends the file"
    entries = index.index_of(repairs)
    offset = len(repairs) * judge.line_size(system)
    trailer = index.trailer_bytes(offset, len(entries), len(repairs))
    return lines + index.index_bytes(entries) + trailer


def finish(data):
    """The reading of a recording, and the finished file, or None where it is refused."""
    system, start = header_of(data)
    lines = data[HEADER_BYTES:]
    reading = read_lines(fresh_run(system, start), lines)
    if reading.run.number:
        return reading, None
    return reading, file_of(system, lines, reading.repairs)


class Parts(NamedTuple):
    """The parts of a file, as its trailer tells them."""

    lines: bytes
    index: bytes
    trailer: bytes


def parts_of(data):
    trailer = data[max(len(data) - TRAILER.size, 0) :]
    told = index.trailer_of(trailer)
    end = told.offset + told.entries * ENTRY.size
    return Parts(data[: told.offset], data[told.offset : end], trailer)


def file_refusal(system, start, data):
    """Number and place of what refuses a finished file, or None."""
    _, entries, trailer = parts_of(data)
    return index.parts_refusal(system, start, trailer, entries, len(data))


def ask(system, start, data, a, b):
    """The answer from the trailer and the index of a file."""
    _, entries, trailer = parts_of(data)
    return index.ask(system, start, trailer, entries, len(data), a, b)


# "a separate full check decides that premise"
class Checked(NamedTuple):
    """What refuses a file; or the reading of its lines, and where before its end the index differs.

    Of a line that is refused, and of those behind it, no index is right or wrong.
    """

    refusal: Optional[tuple]
    reading: Optional[Reading] = None
    differs_at: Optional[int] = None

    @property
    def is_theirs(self):
        # "that all lines are accepted and the index is theirs"
        return not self.reading.run.number and self.differs_at is None


def different_ordinals(repairs, entries):
    """The ordinals of accepted lines of which an index tells something else than was read."""
    told = dict(entries)
    return [ordinal for ordinal, count in enumerate(repairs) if count != told.get(ordinal, 0)]


def check(system, start, data):
    refusal = file_refusal(system, start, data)
    if refusal:
        return Checked(refusal)
    lines, entries, _ = parts_of(data)
    reading = read_lines(fresh_run(system, start), lines)
    different = different_ordinals(reading.repairs, index.entries_of(entries))
    return Checked(None, reading, min(different, default=None))


def unfinish(system, start, data):
    """What refuses a finished file, and the recording that it was made of, or None."""
    refusal = file_refusal(system, start, data)
    return refusal, None if refusal else header(system, start) + parts_of(data).lines
