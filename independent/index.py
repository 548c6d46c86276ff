"""The index and the trailer that end a finished file, and what is answered from them.

Sentences between quotation marks are of request L10 of document 02; where that
does not speak of a call, of the comment above the call.
"""

import struct
from typing import NamedTuple

from independent.judge import LINES_LIMIT, line_number_refusal, line_size, system_of
from independent.protocol import Wide
from independent.words import ACCEPTED, BAD_PARTS, BAD_RANGE, WRONG_LENGTH

# "four bytes ordinal, two bytes repairs, low byte first"
ENTRY = struct.Struct("<IH")

# "a trailer of sixteen bytes ends the file: index offset (8), entries (4), lines (4)"
TRAILER = struct.Struct("<QII")

# A line that was not clean had one of its two codes repaired, or both.
REPAIRS = (1, 2)


class Entry(NamedTuple):
    """A line's ordinal from 0, and how many of its codes were repaired."""

    ordinal: int
    repairs: int


class Trailer(NamedTuple):
    """Where the index starts, how many entries it has, and of how many lines."""

    offset: Wide
    entries: int
    lines: int


class Asked(NamedTuple):
    """The answer to a question: its number and place, and whether the lines are all clean."""

    number: int
    place: int
    clean: int


def index_of(repairs):
    """The entries of lines, by how many codes of each were repaired."""
    # "an index of lines that were not clean, by ordinal from 0", "in rising order"
    return [Entry(ordinal, count) for ordinal, count in enumerate(repairs) if count]


def filled(layout, numbers, room):
    """Number, place and the room afterwards."""
    # "3 where they are not six, and then nothing is written"; a trailer has sixteen
    if len(room) != layout.size:
        return (WRONG_LENGTH, 0, room)
    return (*ACCEPTED, layout.pack(*numbers))


def put_entry(entry, room):
    # "Of the repairs the low 16 bits count."
    return filled(ENTRY, (entry.ordinal, entry.repairs % 65_536), room)


def put_trailer(trailer, room):
    return filled(TRAILER, trailer, room)


def entry_bytes(entry):
    return put_entry(entry, bytes(ENTRY.size))[2]


def index_bytes(entries):
    return b"".join(map(entry_bytes, entries))


def trailer_bytes(offset, entries, lines):
    return TRAILER.pack(offset, entries, lines)


def entry_of(data):
    return Entry(*ENTRY.unpack(data))


def entries_of(index):
    """The whole entries of an index."""
    whole = len(index) // ENTRY.size * ENTRY.size
    return [Entry(*numbers) for numbers in ENTRY.iter_unpack(index[:whole])]


def trailer_of(data):
    # "Bytes that are not sixteen tell nothing."
    if len(data) != TRAILER.size:
        return Trailer(Wide(0), 0, 0)
    offset, entries, lines = TRAILER.unpack(data)
    return Trailer(Wide(offset), entries, lines)


def trailer_fits(system, trailer, length):
    """Whether a trailer fits a file of so many bytes, whose index has six per entry."""
    told = trailer_of(trailer)
    # "the trailer is sixteen bytes, lines are at most 10,000,000, the index offset is lines
    # times the bytes of a line", "and offset, index and trailer add up to the file's length"
    return (
        len(trailer) == TRAILER.size
        and told.lines <= LINES_LIMIT
        and told.offset == told.lines * line_size(system_of(system))
        and told.offset + told.entries * ENTRY.size + TRAILER.size == length
    )


def parts_fit(system, trailer, index, length):
    # "the index is six bytes per entry"
    is_whole = len(index) == trailer_of(trailer).entries * ENTRY.size
    return is_whole and trailer_fits(system, trailer, length)


def is_entry(least, lines, entry):
    # "ordinals that do not rise or are not below lines, or repairs other than 1 or 2"
    # are refused.
    return least <= entry.ordinal < lines and entry.repairs in REPAIRS


def are_entries(lines, entries):
    """Whether an index of so many lines may have these entries."""
    leasts = [0, *(entry.ordinal + 1 for entry in entries)]
    return all(is_entry(least, lines, entry) for least, entry in zip(leasts, entries))


def parts_refusal(system, start, trailer, index, length):
    """Number and place of what refuses a file's parts, or None."""
    # "system and start are given by the caller, 1 and 2 first"
    named = line_number_refusal(system, start)
    if named:
        return named
    # "Refuse with 19 parts that don't fit", and entries that are none
    if not parts_fit(system, trailer, index, length):
        return (BAD_PARTS, 0)
    if not are_entries(trailer_of(trailer).lines, entries_of(index)):
        return (BAD_PARTS, 0)
    return None


def range_refusal(lines, a, b):
    # "with 20 a range that leaves the file or has a after b"
    return None if a <= b < lines else (BAD_RANGE, 0)


def is_asked(a, b, entry):
    """Whether an entry's line is one of those asked for, from a to b, both included."""
    return a <= entry.ordinal <= b


def answered(refusal, clean):
    # "whether the lines are all clean, which a refusal never says"
    return Asked(*refusal, 0) if refusal else Asked(*ACCEPTED, int(clean))


def ask_refusal(system, start, trailer, index, length, a, b):
    # "19 first"
    refusal = parts_refusal(system, start, trailer, index, length)
    return refusal or range_refusal(trailer_of(trailer).lines, a, b)


def ask(system, start, trailer, index, length, a, b):
    refusal = ask_refusal(system, start, trailer, index, length, a, b)
    # "whether lines a to b are all clean"
    return answered(refusal, not any(is_asked(a, b, entry) for entry in entries_of(index)))


# The same in steps. "the system, the start line and the lines of the file, the lines asked
# for, the bytes that are left, the next byte's place in its entry and the bytes before it, the
# least ordinal that may follow, whether an entry fell among the lines asked for, and whether
# something is wrong"
class Question(NamedTuple):
    system: int
    start: int
    lines: int
    a: int
    b: int
    left: Wide
    place: int
    held: tuple
    least: Wide
    unclean: int
    wrong: int


# The bytes of an entry that wait for its last one.
NONE_HELD = (0,) * (ENTRY.size - 1)


def begin_question(system, start, trailer, length, a, b):
    # "A question before the first byte of the index, of a file of so many bytes with this
    # trailer."
    told = trailer_of(trailer)
    left = Wide(told.entries * ENTRY.size)
    wrong = int(not trailer_fits(system, trailer, length))
    return Question(system, start, told.lines, a, b, left, 0, NONE_HELD, Wide(0), 0, wrong)


def with_byte(question, byte):
    """The question after one byte more of the index."""
    # "a byte past the entries that the trailer tells"
    if question.left == 0:
        return question._replace(wrong=1)
    question = question._replace(left=Wide(question.left - 1))
    if question.place < len(NONE_HELD):
        held = (*question.held[1:], byte)
        return question._replace(place=question.place + 1, held=held)
    return with_entry(question, entry_of(bytes((*question.held, byte))))


def with_entry(question, entry):
    """The question after a whole entry."""
    return question._replace(
        place=0,
        held=NONE_HELD,
        least=Wide(entry.ordinal + 1),
        unclean=int(question.unclean or is_asked(question.a, question.b, entry)),
        wrong=int(question.wrong or not is_entry(question.least, question.lines, entry)),
    )


def feed(question, piece):
    # "The question after a piece of the index, of any size."
    for byte in piece:
        question = with_byte(question, byte)
    return question


def open_refusal(question):
    """What refuses the parts, where this was the whole index, or None."""
    named = line_number_refusal(question.system, question.start)
    return named or ((BAD_PARTS, 0) if question.wrong or question.left else None)


def question_refusal(question):
    # "What refuses the parts, where this was the whole index: 1, 2, 19."
    return open_refusal(question) or ACCEPTED


def close_refusal(question):
    # "19 first"
    refusal = open_refusal(question)
    return refusal or range_refusal(question.lines, question.a, question.b)


def close_question(question):
    # "The answer, where this was the whole index."
    return answered(close_refusal(question), not question.unclean)
