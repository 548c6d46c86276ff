"""What the library's calls do beside the rules that stand in judge.py, recordings.py and the like.

A sentence between quotation marks is of document 01, as in judge.py; where that
does not speak of a call, of the comment above the call. What reads tell is that
of crates/intake/specs/Arrival.antt, which is the one text about it.
"""

from typing import NamedTuple

from independent import judge
from independent.judge import ACCEPTED, FRESH_STATE, WRONG_LENGTH, system_of
from independent.protocol import Wide
from independent.recordings import line_bytes
from independent.totals import summed
from independent.words import NO_SYSTEM, REFUSALS


def fourth(fvh):
    # "F, V, H are one number from 0 to 7": the three lowest bits of any number.
    return judge.FOURTH_WORDS[fvh % 8]


def correct_expecting(word, fvh):
    # "The same correction, quick where the word is the fourth word of these F, V, H"
    return judge.correct(word)


def fourth_fault(word, fvh):
    return judge.fourth_word_number(fvh, word)


def line_flags(system, line):
    return judge.table_v(system, line), judge.due_f(system, line)


def flags(line):
    """V and F of a line of each system."""
    return tuple(bit for system in judge.SYSTEMS for bit in line_flags(system, line))


def system_flags(system, line):
    """V and F of a line, and the line after it."""
    return *line_flags(system, line), judge.next_line(system, line)


def figures(system):
    due = judge.SYSTEMS[system]
    return due.words, due.sav, judge.active_start(system), due.lines


def system_named(number):
    # "the system is neither 525 nor 625": 1; otherwise it is the one with that number
    return (*ACCEPTED, number) if number in judge.SYSTEMS else (NO_SYSTEM, 0, 0)


def named_refusal(system, line):
    # "What refuses the numbers of a system and of a line: 1, 2."
    return judge.line_number_refusal(system, line) or ACCEPTED


def written_refusal(system, line, fall):
    # "outside 10 to 20 is refusal 2", as a line number outside is
    return judge.numbers_refusal(system, line, fall) or ACCEPTED


def walk_refusal(walk):
    # "What refuses every line at this walk: 1, 2, 4."
    return judge.walk_refusal(walk) or ACCEPTED


def buffer_refusal(y, cb, cr):
    # "3 at the lowest place"; here the lengths themselves are asked.
    return judge.buffers_refusal(y, cb, cr) or ACCEPTED


def standing(walk, given, due):
    # "the walk's refusals, then 3 at 0 where not so many are given as are due"
    return judge.walk_refusal(walk) or judge.length_refusal((given,), (due,)) or ACCEPTED


def line_sizes(walk):
    """The words and the bytes of the awaited line."""
    return judge.SYSTEMS[system_of(walk.system)].words, line_bytes(walk)


def of_its_system(due):
    """What is due, of the system that its number stands for."""
    return due._replace(system=system_of(due.system))


def due_at(due, offset):
    return judge.due_at(of_its_system(due), offset)


def moved(walk, due, report):
    return judge.moved(walk, of_its_system(due), report)


def accepted(walk, due, report, packets):
    return judge.accepted(walk, of_its_system(due), report, packets)


def write_line(due, *slices):
    return judge.write_line(of_its_system(due), *slices)


def write_part(due, part, between, active, words):
    # "3 at 0 for the line and at 1 for the part", then what refuses ready packet words,
    # "then 12 at the lowest place, where V is 0."
    due = of_its_system(due)
    lengths_due = judge.SYSTEMS[due.system].words, judge.ACTIVE_WORDS
    refusal = judge.length_refusal((len(words), len(part)), lengths_due)
    return (*refusal, words) if refusal else judge.written(due, part, between, active, words)


def reserved(word):
    # "Whether a word is none of the samples 4 to 1019."
    return int(not judge.is_sample(word))


def reasoned(row, place):
    # A refusal of the table's row, counted from 1, at a place, and its reason's number; or, of row 0, none.
    return (REFUSALS[row - 1], place, REFUSALS[row - 1]) if row else (*ACCEPTED, 0)


def fill_word(even, odd, offset):
    # "Fill by offset: a word for even and a word for odd offsets."
    return odd if offset % 2 else even


def all_samples(words):
    return int(all(map(judge.is_sample, words)))


def first_over(words):
    # "5 at the first word over 1023, or number 0."
    return judge.over_refusal(words) or ACCEPTED


def word_and_pair(low, high, first, second):
    # "Two bytes as a word, low byte first."; "Two words as one number"
    return low + 256 * high, first + 65_536 * second


def to_words(data, words):
    # "Bytes that are not twice the words are 3, and no word is written."
    if len(data) != 2 * len(words):
        return (WRONG_LENGTH, 0, words)
    return (*ACCEPTED, judge.words_of(data))


def to_bytes(words, data):
    # "Bytes that are not twice the words are 3, and no byte is written."
    if len(data) != 2 * len(words):
        return (WRONG_LENGTH, 0, data)
    return (*ACCEPTED, judge.bytes_of(words))


def fresh_state():
    return FRESH_STATE


# "What a read told.": a tag, and the bytes that it told of, or 0.
class Told(NamedTuple):
    tag: int
    count: Wide


FAILED, ENDED, BYTES = range(3)


def signed(wide):
    """A number of 64 bits as one with a sign."""
    return wide - 2**64 if wide >= 2**63 else wide


def tells(got, room):
    # "below 0 it failed, and 0 is the end of the input. A read into no room tells
    # nothing."
    if signed(got) < 0 or not room:
        return Told(FAILED, Wide(0))
    # "a read tells of no more bytes than there was room for"
    count = min(got, len(room))
    return Told(BYTES if count else ENDED, Wide(count))


# "How many bytes of a buffer were filled, and whether reading is done"
class Filled(NamedTuple):
    have: Wide
    done: int
    failed: int


def so_far(have):
    # "So many bytes were filled, and reading goes on."
    return Filled(have, 0, 0)


def filled_after(filled, told, room):
    # "reading is done: the buffer is full, the input has ended, or a read failed"
    if told.tag == BYTES:
        return Filled(summed(filled.have, told.count), int(told.count == room), 0)
    return Filled(filled.have, 1, int(told.tag == FAILED))
