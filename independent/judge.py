"""The rules of digital lines, of the walk, of the serial form and of the capture process.

Each rule stands beside the sentence of document 01 ("Precise rules and scope
of the build") that it obeys, given between quotation marks; those on packets
are of request L6 of document 02, those on the line at which V falls of L1, those
on the two kinds of hopeless code of L5, those on the tally of L9. Words and
samples are lists of 16-bit integers, the numbers of a walk are 32-bit integers. A
refusal is a pair of number and place; None stands where nothing is refused.
"""

import struct
from functools import lru_cache
from typing import NamedTuple

from independent.packets import judge_space, ready_fault
from independent.words import (
    ACCEPTED,
    HOPELESS_EVEN,
    HOPELESS_ODD,
    LAST_WORD,
    NOT_A_SAMPLE,
    NOT_DUE,
    NO_BIT_9,
    NO_LINE,
    NO_PREAMBLE,
    NO_SYSTEM,
    OVER_A_WORD,
    RESERVED,
    WORD_BITS,
    WRONG_COUNTS,
    WRONG_LENGTH,
    WRONG_STATE,
    first_fault,
    is_sample,
    over_refusal,
)


class System(NamedTuple):
    """The figures of one system; spans of lines name their first and last line."""

    words: int
    sav: int
    lines: int
    v_lines: tuple
    f_lines: tuple
    falls: tuple


# "The figures of each system are one set that belongs to that system; nothing
# repeats them elsewhere."; "In 525, V may fall at any line from 10 to 20 and 273 to 283."
SYSTEMS = {
    525: System(
        words=1716,
        sav=272,
        lines=525,
        v_lines=((1, 19), (264, 282)),
        f_lines=((266, 525), (1, 3)),
        falls=((10, 20), (273, 283)),
    ),
    625: System(
        words=1728,
        sav=284,
        lines=625,
        v_lines=((624, 625), (1, 22), (311, 335)),
        f_lines=((313, 625),),
        falls=(),
    ),
}

# The fall line of document 01's table: "V = 1", "1-19, 264-282"
TABLE_FALL = 20

# "the first field's fall line, the second's being 263 later"
SECOND_FALL = 263


def system_of(number):
    """The system that a number names; one that names none stands for 625."""
    return number if number in SYSTEMS else 625


# "A walk holds system, awaited line number, lines read, repairs."; "The walk records
# whether its last accepted line had V = 0; a fresh walk's says no."; "The walk keeps a
# tally"
class Walk(NamedTuple):
    system: int
    line: int
    lines_read: int
    repairs: int
    fallen: int = 0
    tally: int = 0


# "a walk all zero"
NO_WALK = Walk(*[0] * len(Walk._fields))


# "Active part: CB, Y, CR, Y repeated, 1440 words: 720 Y, 360 CB, 360 CR."
CB_PLACES = slice(0, None, 4)
Y_PLACES = slice(1, None, 2)
CR_PLACES = slice(2, None, 4)
ACTIVE_WORDS = 1440
Y_SAMPLES = 720
C_SAMPLES = 360

# "Y, CB and CR exactly 720, 360, 360"
SAMPLE_LENGTHS = (Y_SAMPLES, C_SAMPLES, C_SAMPLES)

# "Fill, by offset in the line: 512 at even, 64 at odd offsets."
FILL = (512, 64)

# "A timing code is four words: 1023, 0, 0, then the fourth word"
PREAMBLE = (1023, 0, 0)
CODE_WORDS = 4

# "lines read is 10,000,000 or more"
LINES_LIMIT = 10_000_000

# "Coder and decoder take at most 65,536 words"
SERIAL_LIMIT = 65_536

# "fresh is 0 and 0"
FRESH_STATE = (0, 0)

# "scrambled bits over 511"
LAST_SCRAMBLED = 511


def fourth_word(f, v, h):
    """The fourth word as the writer sets it."""
    # "P3 = V xor H, P2 = F xor H, P1 = F xor V, P0 = F xor V xor H."
    p3, p2, p1, p0 = v ^ h, f ^ h, f ^ v, f ^ v ^ h
    # "bit 9 is 1, then F, V, H, P3, P2, P1, P0 in bits 8 to 2, then two low
    # bits"; "with 0 at the end of the fourth word".
    word = 0
    for bit in (1, f, v, h, p3, p2, p1, p0, 0, 0):
        word = word << 1 | bit
    return word


FOURTH_WORDS = [fourth_word(fvh >> 2, fvh >> 1 & 1, fvh & 1) for fvh in range(8)]
BIT_9 = 1 << 9

# "F, V, H, P3, P2, P1, P0 in bits 8 to 2"
CODE_BITS = range(2, 9)
SEVEN_BITS = sum(1 << bit for bit in CODE_BITS)

CLEAN, REPAIRED, REFUSED = range(3)


def hopeless_number(word):
    """The number of a fourth word that has no legal pattern within one bit."""
    ones = (word & SEVEN_BITS).bit_count()
    # "Refusal 8 stays for the 56 patterns with an even number of ones that are not legal; a
    # new 14 takes the 8 patterns with an odd number that have no legal pattern within one bit."
    return HOPELESS_ODD if ones % 2 else HOPELESS_EVEN


def correct(word):
    """Tag, FVH, repaired bit and refusal number of one fourth word."""
    # "Correction refuses with 5, 7, 8 in that order"; "Everything that hands on 8 hands on
    # 14 in the same order"
    if word > LAST_WORD:
        return (REFUSED, 0, 0, OVER_A_WORD)
    if not word & BIT_9:
        return (REFUSED, 0, 0, NO_BIT_9)
    for fvh, legal in enumerate(FOURTH_WORDS):
        # "The distance of two patterns is the number of ones in their difference."
        difference = (word ^ legal) & SEVEN_BITS
        distance = difference.bit_count()
        # "Per code the reader reports clean, or repaired with the bit's number
        # (2 to 8)."
        if distance == 0:
            return (CLEAN, fvh, 0, 0)
        if distance == 1:
            return (REPAIRED, fvh, difference.bit_length() - 1, 0)
    return (REFUSED, 0, 0, hopeless_number(word))


# "A line's report carries both codes' reports in one record."
class Report(NamedTuple):
    eav: int
    eav_bit: int
    sav: int
    sav_bit: int


CLEAN_REPORT = Report(CLEAN, 0, CLEAN, 0)


def code_report(tag, fvh, bit, number):
    """The report of one code from its correction."""
    # "its report says clean for both codes": a code that is refused is told as clean.
    return (REPAIRED, bit) if tag == REPAIRED else (CLEAN, 0)


def line_report(system, words):
    """The report of an accepted line."""
    eav, sav = (code_report(*correct(words[offset])) for offset in fourth_offsets(system))
    return Report(*eav, *sav)


def repairs(report):
    # "Counting repaired lines; the count is of repaired codes."
    return (report.eav, report.sav).count(REPAIRED)


def within(line, spans):
    return int(any(first <= line <= last for first, last in spans))


# "F and V belong to the line number and hold for its EAV and its SAV"


def due_f(system, line):
    return within(line, SYSTEMS[system].f_lines)


def table_v(system, line):
    return within(line, SYSTEMS[system].v_lines)


def v_written(system, line, fall):
    """The V of a line that is written, where V falls at this line of the first field."""
    figures = SYSTEMS[system]
    # "625 ignores it"
    if not figures.falls:
        return table_v(system, line)
    falls = fall, fall + SECOND_FALL
    return within(line, [(first, at - 1) for (first, _), at in zip(figures.v_lines, falls)])


def vs_due(walk):
    """Each V that may be due in the line that a walk awaits."""
    system, line = system_of(walk.system), walk.line
    for first, last in SYSTEMS[system].falls:
        if first <= line < last:
            # "In 525 it is looked at only on lines 11 to 19 and 274 to 282: after yes 0
            # is due, after no either."
            return (0,) if walk.fallen and line != first else (0, 1)
    # "Once 0 it stays 0 until line 264 or line 1."
    return (table_v(system, line),)


def line_after(system, line, steps=1):
    """The line so many steps on, or back."""
    # "After the last line comes line 1."
    return (line - 1 + steps) % SYSTEMS[system].lines + 1


def next_line(system, line):
    """The line after any line number."""
    # "After the last line comes line 1.": so it does after a number behind the last.
    return line + 1 if line < SYSTEMS[system].lines else 1


def line_before(system, line):
    """The line before a line of the system."""
    # "After the last line comes line 1.": so the last comes before it.
    return line - 1 if line > 1 else SYSTEMS[system].lines


def active_start(system):
    """Offset of the active part, which follows SAV."""
    return SYSTEMS[system].sav + CODE_WORDS


def active_part(system, words):
    return words[active_start(system) :]


def code_starts(system):
    """Offsets of EAV and SAV."""
    return 0, SYSTEMS[system].sav


def fourth_offsets(system):
    return [start + len(PREAMBLE) for start in code_starts(system)]


# What is due in a line: its system, its F and V, and fill at even and odd offsets.
class Due(NamedTuple):
    system: int
    f: int
    v: int
    even: int
    odd: int


def due_of(system, line, fall=TABLE_FALL):
    """What is due in a line that is written."""
    return Due(system, due_f(system, line), v_written(system, line, fall), *FILL)


def v_told(fourth):
    """The V that a fourth word tells."""
    tag, fvh, _, _ = correct(fourth)
    # Of one that does not correct the line is refused: the table's V is taken.
    return 1 if tag == REFUSED else fvh >> 1 & 1


def walk_due(walk, fourth):
    """What is due in a line that is read at a walk, by the fourth word of its EAV."""
    # "The corrected V of the EAV decides whether samples or fill are due in the line"
    vs, told = vs_due(walk), v_told(fourth)
    v = told if told in vs else vs[0]
    return due_of(system_of(walk.system), walk.line)._replace(v=v)


def due_in(walk, words):
    """What is due in a line that is read at a walk."""
    eav, _ = fourth_offsets(walk.system)
    return walk_due(walk, words[eav])


def due_flags(due, h):
    # "H is 1 in EAV, 0 in SAV."
    return due.f << 2 | due.v << 1 | h


# What may be due at an offset; with a fourth word go its F, V, H, with fill its word.
ONES, ZEROS, FOURTH_WORD, FILL_WORD, SAMPLE = range(5)


def due_in_code(fvh, index):
    # "A timing code is four words: 1023, 0, 0, then the fourth word"
    return ((ONES, 0), (ZEROS, 0), (ZEROS, 0), (FOURTH_WORD, fvh))[index]


def fill_at(due, offset):
    # "Fill, by offset in the line"
    return due.odd if offset % 2 else due.even


def due_at(due, offset):
    """What is due at an offset; behind SAV all is active part, however far."""
    sav, active = SYSTEMS[due.system].sav, active_start(due.system)
    if offset < CODE_WORDS:
        return due_in_code(due_flags(due, 1), offset)
    if sav <= offset < active:
        return due_in_code(due_flags(due, 0), offset - sav)
    # "On lines with V = 1 the active part is fill"
    is_fill = offset < sav or due.v
    return (FILL_WORD, fill_at(due, offset)) if is_fill else (SAMPLE, 0)


@lru_cache(maxsize=None)
def dues(due):
    """What is due at each offset of a line."""
    return [due_at(due, offset) for offset in range(SYSTEMS[due.system].words)]


def line_number_refusal(system, line):
    if system not in SYSTEMS:
        return (NO_SYSTEM, 0)
    if not 1 <= line <= SYSTEMS[system].lines:
        return (NO_LINE, 0)
    return None


def is_fall(system, fall):
    """Whether V may be told to fall at this line of the first field."""
    falls = SYSTEMS[system].falls
    # "outside 10 to 20 is refusal 2; 625 ignores it"
    return not falls or within(fall, falls[:1])


def numbers_refusal(system, line, fall):
    """What refuses the numbers by which a line is written."""
    refusal = line_number_refusal(system, line)
    return refusal or (None if is_fall(system, fall) else (NO_LINE, 0))


def walk_refusal(walk):
    # "Reader: 1, 2, 4, 3, then the lowest offset with any fault"
    return line_number_refusal(walk.system, walk.line) or counts_refusal(walk)


def counts_refusal(walk):
    too_many = walk.lines_read >= LINES_LIMIT or walk.repairs > 2 * walk.lines_read
    # "A walk whose tally exceeds its repairs is refusal 4."
    return (WRONG_COUNTS, 0) if too_many or walk.tally > walk.repairs else None


def length_refusal(lengths, due, first_place=0):
    # "0 words, 1 Y, 2 CB, 3 CR"; "Within 3 the lowest place is answered."
    for place, (length, length_due) in enumerate(zip(lengths, due), first_place):
        if length != length_due:
            return (WRONG_LENGTH, place)
    return None


def words_refusal(system, words):
    # "Words slices have exactly the line's length"
    return length_refusal((len(words),), (SYSTEMS[system].words,))


def buffers_refusal(*lengths):
    # "Y, CB and CR exactly 720, 360, 360"
    return length_refusal(lengths, SAMPLE_LENGTHS, first_place=1)


def line_size(system):
    """The bytes of a line."""
    # "two per word"
    return 2 * SYSTEMS[system].words


def bytes_refusal(system, data):
    # "a byte count that is not twice the line's words is 3, place 0, in 3's turn"
    return length_refusal((len(data),), (line_size(system),))


def fourth_word_number(fvh, word):
    """The number of what is wrong with the fourth word of a code, or 0."""
    _, corrected, _, number = correct(word)
    # "7, 8, 9 in that order"; "Everything that hands on 8 hands on 14 in the same order"
    return number or (NOT_DUE if corrected != fvh else 0)


@lru_cache(maxsize=None)
def number_where(due, word):
    """The number of what is wrong with a word of a code, or for a sample, or 0."""
    what, value = due
    # "at one offset 5 comes before 6 to 11"
    if word > LAST_WORD:
        return OVER_A_WORD
    if what == FOURTH_WORD:
        return fourth_word_number(value, word)
    if what == SAMPLE:
        return 0 if is_sample(word) else RESERVED
    # "The reader takes no notice of bits 1 and 0 of timing words: 1020 to 1023
    # count as the first, 0 to 3 as the second and third"
    return 0 if word >> 2 == (LAST_WORD >> 2 if what == ONES else 0) else NO_PREAMBLE


def spaces(due):
    """Where each of the two spaces of a line starts, and the offset behind it."""
    # "the space between EAV and SAV, or of the active part on V = 1 lines": with
    # V = 0 the second has no words.
    figures, active = SYSTEMS[due.system], active_start(due.system)
    return (CODE_WORDS, figures.sav), (active, figures.words if due.v else active)


def judged_spaces(due, words):
    """The answers to both spaces of a line."""
    return [judge_space(words, *space, due.even, due.odd) for space in spaces(due)]


def fault_outside(due, words, start, end):
    """The first fault from one offset to another that are in no space, or None."""
    return first_fault(map(number_where, dues(due)[start:end], words[start:end]), start)


def faults_in_turn(due, words, answers):
    """The first fault of each part of a line, or None: of the spaces as they are answered."""
    at = 0
    for (start, end), answer in zip(spaces(due), answers):
        yield fault_outside(due, words, at, start)
        yield answer[:2] if answer.number else None
        at = end
    yield fault_outside(due, words, at, len(words))


def line_refusal(due, words, answers):
    """The refusal at the lowest offset with any fault."""
    return next(filter(None, faults_in_turn(due, words, answers)), None)


def fresh(system, line):
    """Number, place and walk."""
    # "A fresh walk: 1, 2; its refusal returns a walk all zero."
    refusal = line_number_refusal(system, line)
    if refusal:
        return (*refusal, NO_WALK)
    # "A fresh walk has zero counts."
    return (*ACCEPTED, NO_WALK._replace(system=system, line=line))


def counted(count, more):
    """A count of 32 bits with more added: no walk that is taken passes them."""
    return (count + more) % 2**32


def begins_field(walk, due):
    """Whether the awaited line has another F than the one before it, by their numbers."""
    system, line = due.system, walk.line
    # A number that is no line's has none before it.
    is_line = 1 <= line <= SYSTEMS[system].lines
    return is_line and due_f(system, line) != due_f(system, line_before(system, line))


def tally_after(walk, due, report):
    """The tally after an accepted line in which this was due."""
    # "the number of repaired codes on accepted lines since the latest accepted line
    # whose F differs from the accepted line before it, that line included, or since
    # the start"; at the start there are none yet.
    before = 0 if begins_field(walk, due) else walk.tally
    return counted(before, repairs(report))


def moved(walk, due, report):
    """The walk after an accepted line in which this was due, whatever the walk refuses."""
    # "An accepted line advances the line number, adds 1 to lines read and 0 to
    # 2 to repairs."
    return walk._replace(
        line=next_line(due.system, walk.line),
        lines_read=counted(walk.lines_read, 1),
        repairs=counted(walk.repairs, repairs(report)),
        # "whether its last accepted line had V = 0"
        fallen=1 - due.v,
        tally=tally_after(walk, due, report),
    )


# "The reader also answers how many words of each space are packets, 0 if it
# refuses."
class PacketWords(NamedTuple):
    between: int
    active: int


NO_PACKETS = PacketWords(0, 0)


class Judgement(NamedTuple):
    """The answer to a line that is judged."""

    number: int
    place: int
    report: Report
    walk: Walk
    packets: PacketWords


def refused(walk, number, place):
    # "A refused line leaves the walk standing and may be offered again; its
    # report says clean for both codes."
    return Judgement(number, place, CLEAN_REPORT, walk, NO_PACKETS)


def accepted(walk, due, report, packets):
    return Judgement(*ACCEPTED, report, moved(walk, due, report), packets)


def judged(walk, words):
    """The judgement of a line's words; sample buffers play no role."""
    # "Reader: 1, 2, 4, 3, then the lowest offset with any fault"
    refusal = walk_refusal(walk) or words_refusal(walk.system, words)
    return refused(walk, *refusal) if refusal else judged_line(walk, due_in(walk, words), words)


def judged_line(walk, due, words):
    """The judgement of as many words as the line has in which this is due."""
    answers = judged_spaces(due, words)
    refusal = line_refusal(due, words, answers)
    if refusal:
        return refused(walk, *refusal)
    packets = PacketWords(*(answer.packets for answer in answers))
    return accepted(walk, due, line_report(due.system, words), packets)


def samples_of(part):
    """Y, CB and CR of an active part."""
    return [part[Y_PLACES], part[CB_PLACES], part[CR_PLACES]]


def interleaved(y, cb, cr):
    """The active part of Y, CB and CR."""
    # "Active part: CB, Y, CR, Y repeated"
    part = [0] * ACTIVE_WORDS
    part[CB_PLACES], part[Y_PLACES], part[CR_PLACES] = cb, y, cr
    return part


def taken(walk, words, buffers):
    """The sample buffers after a line that is judged well."""
    # On lines with V = 1 "the sample buffers are measured there but neither
    # looked at nor written".
    if due_in(walk, words).v:
        return buffers
    return samples_of(active_part(walk.system, words))


def take(walk, words, *buffers):
    """Number, place and sample buffers afterwards."""
    # "taking copies samples of a line that judges well and answers the judge's
    # number otherwise. Refusals 3 with places 1 to 3 belong to taking"
    number, place = judged(walk, words)[:2]
    refusal = (number, place) if number else buffers_refusal(*map(len, buffers))
    # "No refusal writes a buffer."
    return (*refusal, *buffers) if refusal else (*ACCEPTED, *taken(walk, words, buffers))


def active(walk, words):
    """The active part, or the empty part."""
    # "an empty part exactly when reading that line at that walk would be
    # refused; sample buffers play no role in this call": when judging refuses it.
    return [] if judged(walk, words).number else active_part(walk.system, words)


def packets_in(walk, words):
    """The words of each space that are packets, none where judging refuses the line."""
    counts = judged(walk, words).packets
    starts = CODE_WORDS, active_start(system_of(walk.system))
    return [words[start : start + count] for start, count in zip(starts, counts)]


def timing_code(due, h):
    # "The writer sets low bits as shown"
    return [*PREAMBLE, FOURTH_WORDS[due_flags(due, h)]]


# Ready packet words for the two spaces, where there are none.
NO_READY = [], []


def ready_length_refusal(due, *ready):
    # "More words than the space holds, or any for the active part with V = 0, is 3,
    # place 4 or 5"
    for place, ((start, end), words) in enumerate(zip(spaces(due), ready), 4):
        if len(words) > end - start:
            return (WRONG_LENGTH, place)
    return None


def ready_refusal(due, *ready):
    """What refuses the ready packet words of both spaces."""
    # "then they are judged as a space of just their length, by line offsets"
    faults = (ready_fault(words, start) for (start, _), words in zip(spaces(due), ready))
    return ready_length_refusal(due, *ready) or next(filter(None, faults), None)


def written_refusal(due, part, *ready):
    # "and 12 comes last"; "on V = 0 lines only"
    return ready_refusal(due, *ready) or (None if due.v else sample_refusal(part))


def sample_refusal(part):
    # "then 12 at the lowest place"; "its place in the active part, 0 to 1439"
    if is_sample(min(part)) and is_sample(max(part)):
        return None
    return next((NOT_A_SAMPLE, i) for i, sample in enumerate(part) if not is_sample(sample))


def filled_up(due, start, end, ready):
    """The words of a space that is written."""
    # "The writer takes ready packet words for each space and fills the rest."
    rest = range(start + len(ready), end)
    return [*ready, *(fill_at(due, offset) for offset in rest)]


def line_of(due, part, *ready):
    """The words of a line that is written; with V = 1 its active part is not looked at."""
    between, active = (filled_up(due, *ends, words) for ends, words in zip(spaces(due), ready))
    # "On lines with V = 1 the active part is fill"
    behind = active if due.v else list(part)
    return timing_code(due, 1) + between + timing_code(due, 0) + behind


def written(due, part, between, active, words):
    """Number, place and the words afterwards, where those and the part have their lengths."""
    refusal = written_refusal(due, part, between, active)
    # "No refusal writes a buffer."
    return (*refusal, words) if refusal else (*ACCEPTED, line_of(due, part, between, active))


def write_line(due, y, cb, cr, between, active, words):
    """Number, place and the words afterwards of the line in which this is due."""
    # "Writer: 1, 2, 3, then 12": by whatever number, so that 1 and 2 have no place.
    lengths = len(y), len(cb), len(cr)
    refusal = words_refusal(due.system, words) or buffers_refusal(*lengths)
    if refusal:
        return (*refusal, words)
    return written(due, interleaved(y, cb, cr), between, active, words)


def write(system, line, fall, *slices):
    """Number, place and the line's words afterwards."""
    # "Writer: 1, 2, 3, then 12"
    refusal = numbers_refusal(system, line, fall)
    return (*refusal, slices[-1]) if refusal else write_line(due_of(system, line, fall), *slices)


def serial_refusal(bits, last, words, out):
    # "13 first"
    if bits > LAST_SCRAMBLED or last > 1:
        return (WRONG_STATE, 0)
    # "then 3 (place 0 for too long, and after it 1 for unequal output)"
    if len(words) > SERIAL_LIMIT:
        return (WRONG_LENGTH, 0)
    if len(out) != len(words):
        return (WRONG_LENGTH, 1)
    # "then 5 at the first word over 1023, place its index"
    return over_refusal(words)


def earlier_bits(bits):
    # "the scrambled bits 5 and 9 earlier", of "the last nine scrambled bits,
    # newest in bit 0"
    return (bits >> 4 ^ bits >> 8) & 1


def shifted(bits, scrambled):
    # "the last nine scrambled bits, newest in bit 0"
    return (bits << 1 | scrambled) & LAST_SCRAMBLED


def code_bit(bits, last, plain):
    # "The scrambled bit is the plain bit xor the scrambled bits 5 and 9 earlier;
    # the channel bit is that xor the channel bit before."
    scrambled = plain ^ earlier_bits(bits)
    channel = scrambled ^ last
    return shifted(bits, scrambled), channel, channel


def decode_bit(bits, last, channel):
    # "The decoder undoes both."
    scrambled = channel ^ last
    plain = scrambled ^ earlier_bits(bits)
    return shifted(bits, scrambled), channel, plain


def serial(step, bits, last, words, out):
    """Number, place, state and output after each bit of each word took its step."""
    refusal = serial_refusal(bits, last, words, out)
    # "No refusal writes a buffer."; the state too comes back as given, as "a
    # refused line leaves the walk standing".
    if refusal:
        return (*refusal, bits, last, out)
    # "No words: the state comes back as given."
    answer = []
    for word in words:
        coded = 0
        # "Lowest bit of a word first"
        for index in range(WORD_BITS):
            bits, last, bit = step(bits, last, word >> index & 1)
            coded |= bit << index
        answer.append(coded)
    return (*ACCEPTED, bits, last, answer)


def code(bits, last, words, out):
    return serial(code_bit, bits, last, words, out)


def decode(bits, last, words, out):
    return serial(decode_bit, bits, last, words, out)


def capture_refusal(number, place):
    # "a refusal's number times 65,536 plus its place"
    return number * 65_536 + place


def capture_correct(word):
    """The capture process's correction of one fourth word."""
    _, fvh, bit, number = correct(word)
    # "Correction refuses with 5, 7, 8 in that order, place 0"; "Everything that hands on 8
    # hands on 14 in the same order"
    if number:
        return capture_refusal(number, 0)
    # "otherwise it answers the corrected word with both low bits 0, plus 4,096
    # times the repaired bit's number, or plus nothing if clean"
    return FOURTH_WORDS[fvh] + 4_096 * bit


# "two per word, low byte first"


def words_of(data):
    return list(struct.unpack(f"<{len(data) // 2}H", data))


def bytes_of(words):
    return struct.pack(f"<{len(words)}H", *words)


def judge_bytes(walk, data):
    """The judgement of a line lent as bytes."""
    refusal = walk_refusal(walk) or bytes_refusal(walk.system, data)
    return refused(walk, *refusal) if refusal else judged(walk, words_of(data))


def capture_judge(*arguments):
    """The capture process's judging of a line lent as bytes."""
    # "The byte judge is given every number the walk holds"
    *numbers, data = arguments
    judgement = judge_bytes(Walk(*numbers), data)
    if judgement.number:
        return capture_refusal(judgement.number, judgement.place)
    # "an accepted line answers its repairs, 0 to 2"
    return repairs(judgement.report)
