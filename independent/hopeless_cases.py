"""Cases of hopeless codes, those with no legal pattern within one bit: alone, and in lines."""

from itertools import product

from independent import judge, protocol
from independent.call_cases import JUDGING, LENDING, judge_in_c, judge_words, lend_active, run_at
from independent.call_cases import take_samples
from independent.edges import SYSTEMS
from independent.fall_cases import FALLING, offered
from independent.finishing_cases import at, followed, lines_at, some_repairs
from independent.judge import BIT_9, fourth_offsets
from independent.material import EVEN, HOPELESS, ODD, changed, chosen_lines, edge_offsets
from independent.material import inverted, line_numbers, of_both, other_code, plain_and_blank_line
from independent.protocol import pack_slice
from independent.recordings import line_bytes


def finish_line(source, walk, words):
    return followed(source, at(source, walk), pack_slice(words), 12)


def finish_with_line(source, walk, words):
    return protocol.FINISHING_CLOSE, (at(source, walk), pack_slice(words))


# Every call that judges a line and tells its number, and those that lend a part of it.
TELLING = (*JUDGING, take_samples, judge_in_c, finish_line, finish_with_line)
EVERY_CALL = (*TELLING, *LENDING, lend_active)


def hopeless_words(source):
    """Each with all low bits, corrected by every call."""
    for fourth, low in product(HOPELESS, range(4)):
        yield protocol.CORRECT, (fourth | low,)
        yield protocol.CAPTURE_CORRECT, (fourth | low,)
        yield protocol.EXPECTING, (fourth | low, source.random.randrange(8))


def with_codes(source, system, words, codes):
    """A line with other fourth words at some offsets, and any low bits in all timing words."""
    return source.low_bits(system, changed(words, codes))


def hopeless_codes(source):
    """Each in each code of a line of every system, F and V, with packets or not, in every call."""
    for system, line in chosen_lines():
        written = source.random.choice((source.written, source.captioned))
        words = written(system, line)
        for offset, fourth in product(fourth_offsets(system), HOPELESS):
            spoilt = with_codes(source, system, words, {offset: fourth})
            for call in EVERY_CALL:
                yield call(source, source.walk(system, line), spoilt)


def hopeless_in_both(source):
    """Each in EAV, with itself and one of either kind in SAV."""
    for walk, words in source.offered(of_both(plain_and_blank_line)):
        eav, sav = fourth_offsets(walk.system)
        for first in HOPELESS:
            for second in (first, source.random.choice(EVEN), source.random.choice(ODD)):
                spoilt = with_codes(source, walk.system, words, {eav: first, sav: second})
                for call in (judge_words, judge_in_c, source.random.choice(TELLING)):
                    yield call(source, walk, spoilt)


def faults_beside(source, walk, words, offset):
    """Words before a code and behind it that are over 1023 or wrong otherwise."""
    edges = edge_offsets(walk.system)
    before = source.random.choice([edge for edge in edges if edge < offset])
    behind = source.random.choice([edge for edge in edges if edge > offset])
    for place in (before, behind):
        yield {place: source.over(words[place])}
        yield {place: source.wrong(walk.system, walk.line, place, words[place])}


def other_codes(source, walk, words, offset):
    """The line's other code repaired, and in its place another."""
    eav, sav = fourth_offsets(walk.system)
    other = sav if offset == eav else eav
    yield {other: words[other] ^ source.random.choice(inverted(1))}
    yield {other: other_code(words[other], source.random.randrange(1, 8))}


def hopeless_in_order(source):
    """Each in each code, itself refused with 5 or 7, and with every fault before and behind it."""
    for walk, words in source.offered(of_both(plain_and_blank_line)):
        for offset, fourth in product(fourth_offsets(walk.system), HOPELESS):
            for changes in (
                {offset: source.over(fourth)},
                {offset: fourth ^ BIT_9},
                *faults_beside(source, walk, words, offset),
                *other_codes(source, walk, words, offset),
            ):
                spoilt = changed(words, {offset: fourth, **changes})
                yield source.random.choice(TELLING)(source, walk, spoilt)


def hopeless_on_every_line(source):
    """One of either kind in each code of every line, at a fresh walk or another."""
    for system, line in of_both(line_numbers):
        words = source.written(system, line)
        walks = judge.fresh(system, line)[2], source.walk(system, line)
        for offset, fourths in product(fourth_offsets(system), (EVEN, ODD)):
            codes = {offset: source.random.choice(fourths)}
            spoilt = with_codes(source, system, words, codes)
            yield source.random.choice(TELLING)(source, source.random.choice(walks), spoilt)


def hopeless_where_v_falls(source):
    """Each in each code of lines with either V, after either, where V may fall."""
    for walk, words in offered(source, FALLING):
        for offset, fourth in product(fourth_offsets(525), HOPELESS):
            spoilt = with_codes(source, 525, words, {offset: fourth})
            yield source.random.choice(TELLING)(source, walk, spoilt)


def hopeless_in_runs(source):
    """Each in a code of one of three lines, in a run and on their way into a finished file."""
    for system, code, fourth in product(SYSTEMS, range(2), HOPELESS):
        walk = source.walk(system, source.random.choice(line_numbers(system)))
        data = bytearray(lines_at(source, walk, some_repairs(source, 3)))
        line = source.random.randrange(3) * line_bytes(walk)
        place = line + 2 * fourth_offsets(system)[code]
        data[place : place + 2] = pack_slice([fourth | source.random.randrange(4)])
        yield protocol.FOLLOW, (run_at(walk), bytes(data))
        yield followed(source, at(source, walk), bytes(data), 18)


FAMILIES = (
    hopeless_words,
    hopeless_codes,
    hopeless_in_both,
    hopeless_in_order,
    hopeless_on_every_line,
    hopeless_where_v_falls,
    hopeless_in_runs,
)
