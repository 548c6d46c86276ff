"""Inputs of whole confirming runs, made from fixed seeds, and the way each is handed over."""

from itertools import cycle, product
from typing import NamedTuple, Union

from independent import judge
from independent.edges import FALLS, SYSTEMS
from independent.judge import fourth_offsets, line_after, v_written
from independent.material import HOPELESS, Source, changed, edge_offsets, inverted, other_code
from independent.packets import header_word
from independent.recordings import HEADER_BYTES, header, header_of, lines_of, recording

# Ways to hand over an input; a number is the size of pieces handed over one by one.
FILE = "file"
PIPE = "pipe"

# Three lines from here hold lines with V = 1 and with V = 0; those of 525 wrap.
STARTS = {525: 524, 625: 22}

# Words that are refused at places among four packets of two user words, and behind them: no
# start, no parity, over 1023, a reserved user word, no checksum, a count too high, no fill.
PACKET_FAULTS = (
    (0, 1), (3, 0), (4, 1_024), (6, 1_020), (8, 0), (32, header_word(255)), (36, 513),
)  # fmt: skip


class Run(NamedTuple):
    """One input; the index counts the runs of its family."""

    family: str
    index: int
    data: bytes
    delivery: Union[str, int]


def clean_lines(source, system, start, count, written=Source.written):
    lines = [line_after(system, start, steps) for steps in range(count)]
    return [written(source, system, line) for line in lines]


def three_lines(source, system):
    start = STARTS[system]
    return recording(system, start, clean_lines(source, system, start, 3))


def damaged(source, data):
    """A recording with one bit of the seven inverted in every code, and any low bits."""
    system, start = header_of(data)
    lines = [source.with_inversions(system, words, inverted(1)) for words in lines_of(data)]
    return recording(system, start, [source.low_bits(system, words) for words in lines])


def headers(source):
    """Headers cut, wrong and right, alone and with something after them."""
    pairs = (
        (0, 0), (0, 1), (1, 1), (524, 1), (526, 1), (624, 1), (626, 1), (65_535, 65_535),
        (525, 0), (525, 526), (525, 625), (525, 65_535), (625, 0), (625, 626), (625, 65_535),
        (525, 1), (525, 525), (625, 1), (625, 625), (0x7102, 0x1600),
    )  # fmt: skip
    for pair in pairs:
        line = clean_lines(source, 625, 22, 1)
        whole = recording(*pair, line)
        for size in (0, 1, 2, 3, 4, 5, 6, 1_000, len(whole)):
            yield whole[:size], FILE if size % 2 else PIPE


def cut_sizes(system):
    """Every size of a recording of three lines near an edge of a word, code, part or line."""
    size = judge.line_size(system)
    edges = [2 * offset for offset in edge_offsets(system)] + [size]
    starts = [HEADER_BYTES + n * size for n in range(3)]
    return sorted({s + e + n for s, e, n in product(starts, edges, range(-3, 4))})


def cuts(source):
    for system in SYSTEMS:
        whole = three_lines(source, system)
        elsewhere = source.random.sample(range(len(whole)), 40)
        for size in (*range(4), *cut_sizes(system), *elsewhere):
            yield whole[:size], PIPE


def frames(source):
    """More than a whole frame, with wrap: clean, cut, and spoilt in its last line."""
    for system in SYSTEMS:
        count = judge.SYSTEMS[system].lines + 40
        start = judge.SYSTEMS[system].lines - 20
        lines = clean_lines(source, system, start, count)
        whole = recording(system, start, lines)
        for delivery in (FILE, PIPE, 65_537):
            yield whole, delivery
        yield whole[:-1], FILE
        lines[-1] = changed(lines[-1], {len(lines[-1]) - 1: 1024})
        yield recording(system, start, lines), PIPE
        yield recording(system, start, lines) + bytes(1_000_000), PIPE


def repaired_codes(source):
    """Each bit repaired in each code; any bit, or none, in all codes, with any low bits."""
    masks = [0, *inverted(1)]
    for system in SYSTEMS:
        start = STARTS[system]
        lines = clean_lines(source, system, start, 5)
        for n, offset, mask in product((0, 4), fourth_offsets(system), inverted(1)):
            repaired = {offset: lines[n][offset] ^ mask}
            yield recording(system, start, replaced(lines, n, repaired)), PIPE
        for _ in range(20):
            run = [source.with_inversions(system, words, masks) for words in lines]
            low = [source.low_bits(system, words) for words in run]
            yield recording(system, start, low), FILE


def repaired_fields(source):
    """Lines over each change of F, and a frame and more, with none to two codes repaired."""
    masks = [0, *inverted(1)]
    for system, start, count in (
        (525, 1, 8), (525, 263, 8), (525, 522, 12), (625, 310, 8), (625, 622, 8),
        (525, 300, 600), (625, 200, 700),
    ):  # fmt: skip
        lines = clean_lines(source, system, start, count)
        repaired = [source.with_inversions(system, words, masks) for words in lines]
        yield recording(system, start, repaired), PIPE
        yield recording(system, start, repaired) + b"\0", FILE


def replaced(lines, n, changes):
    """The lines with words of the n-th changed."""
    return [*lines[:n], changed(lines[n], changes), *lines[n + 1 :]]


def words_of_three_lines(source, offsets):
    """System, line, offset and word of three lines, and the recording with another word there."""
    for system in SYSTEMS:
        start = STARTS[system]
        lines = clean_lines(source, system, start, 3)
        for n, offset in product(range(3), offsets(system)):

            def with_fault(fault):
                return recording(system, start, replaced(lines, n, {offset: fault}))

            yield system, n, offset, lines[n][offset], with_fault


def refused_words(source):
    """One word over 1023, or otherwise wrong, in the first, second or third line."""
    for system, n, offset, word, with_fault in words_of_three_lines(source, edge_offsets):
        line = line_after(system, STARTS[system], n)
        for fault in (source.over(word), source.wrong(system, line, offset, word)):
            yield with_fault(fault), PIPE


def refused_codes(source):
    """Fourth words refused with 7, 8, 14 and 9; the same with bytes wanting at the end."""
    for *_, word, with_fault in words_of_three_lines(source, fourth_offsets):
        others = [w for w in judge.FOURTH_WORDS if w != word]
        masks = judge.BIT_9, 12, judge.SEVEN_BITS, 448
        for fault in (*(word ^ mask for mask in masks), *others):
            whole = with_fault(fault)
            yield whole, PIPE
            yield whole[:-1], PIPE


def hopeless_codes(source):
    """Each hopeless code as EAV and as SAV, in turn in each line of three of both systems."""
    lines = cycle(product(SYSTEMS, range(3)))
    for (code, fourth), (system, n) in zip(product(range(2), HOPELESS), lines):
        start = STARTS[system]
        fault = {fourth_offsets(system)[code]: fourth | source.random.randrange(4)}
        spoilt = replaced(clean_lines(source, system, start, 3), n, fault)
        yield recording(system, start, spoilt), PIPE


def foreign_lines(source):
    """A line left out, one repeated, and lines of the other system."""
    for system, other in (SYSTEMS, reversed(SYSTEMS)):
        start = STARTS[system]
        first, second, third = clean_lines(source, system, start, 3)
        for lines in ([first, third], [first, first], [second], [first, second, second]):
            yield recording(system, start, lines), PIPE
        yield recording(system, start, clean_lines(source, other, start, 3)), PIPE


def four_packets(source, system, line):
    """A clean line with four packets of two user words in each space."""
    spaces = judge.spaces(judge.due_of(system, line))
    packets = [word for _ in range(4) for word in source.packet(2)]
    return source.written(system, line, [packets if start < end else [] for start, end in spaces])


def faults_in_packets(source):
    """Recordings of three lines, one of them with a fault among its packets."""
    for system in SYSTEMS:
        start = STARTS[system]
        lines = clean_lines(source, system, start, 3, four_packets)
        for n, words in enumerate(lines):
            due = judge.due_of(system, line_after(system, start, n))
            for (first, end), (place, word) in product(judge.spaces(due), PACKET_FAULTS):
                if first < end:
                    yield recording(system, start, replaced(lines, n, {first + place: word}))


def captions(source):
    """Lines with packets: clean, damaged in their codes, and with a fault among the packets."""
    for system, _ in product(SYSTEMS, range(6)):
        start = source.random.choice((STARTS[system], 1, judge.SYSTEMS[system].lines - 1))
        lines = clean_lines(source, system, start, 5, Source.captioned)
        whole = recording(system, start, lines)
        yield whole, FILE
        yield damaged(source, whole), PIPE
    for data in faults_in_packets(source):
        yield data, PIPE


def vs_of(start, count, *falls):
    """The V of lines of 525 from one on, where each field, or both, has a fall line."""
    lines = [line_after(525, start, steps) for steps in range(count)]
    return [v_written(525, line, falls[-1] if line > 263 else falls[0]) for line in lines]


def of_vs(source, start, vs):
    return recording(525, start, source.in_turn(start, vs))


def fall_lines(source):
    """A frame and more of it by every fall line, and fields of different fall lines."""
    for fall in FALLS:
        yield of_vs(source, 505, vs_of(505, 565, fall)), FILE
    for falls in ((10, 20), (20, 10), (13, 17)):
        data = of_vs(source, 8, vs_of(8, 290, *falls))
        yield data, PIPE
        yield damaged(source, data), FILE


def rising_again(source):
    """V falls at each line of a field, and is 1 again at each line behind it."""
    for start, first in product((9, 272), range(1, 11)):
        for again in range(first + 1, 13):
            vs = [1] * first + [0] * (again - first) + [1]
            yield of_vs(source, start, vs), PIPE


def records_carried(source):
    """Lines over the end of a field, and from each line of a field on, with V of either kind."""
    for start, fall in product((258, 520), (10, 15, 20)):
        whole = of_vs(source, start, vs_of(start, 35, fall))
        yield whole, PIPE
        yield damaged(source, whole), PIPE
    for start in (1, 264):
        before = line_after(525, start, -2)
        for vs in ((0, 0, 0), (0, 0, 1, 0), (0, 0, 1, 1), (0, 1), (1,)):
            yield of_vs(source, before, vs), PIPE
    for field, first in product((0, 263), range(9, 22)):
        for vs in ((0, 0), (0, 1), (1, 0), (1, 1)):
            yield of_vs(source, field + first, vs), PIPE


def other_savs(source):
    """A SAV of another V than that of its EAV, where either is due."""
    _, sav = fourth_offsets(525)
    for start, v in product((9, 10, 14, 19, 272, 273, 278, 282), (0, 1)):
        lines = source.in_turn(start, (1 if start in (9, 272) else v, v))
        for n, words in enumerate(lines):
            for mask in (0, source.random.choice(inverted(1))):
                other = other_code(words[sav], 2) ^ mask
                yield recording(525, start, replaced(lines, n, {sav: other})), PIPE


def pieces(source):
    """Small inputs byte by byte, larger ones in odd pieces."""
    for system in SYSTEMS:
        whole = three_lines(source, system)
        size = judge.line_size(system)
        line_end = HEADER_BYTES + size
        for end in (*range(8), 100, line_end - 1, line_end, line_end + 3):
            yield whole[:end], 1
        yield header(system, 0) + bytes(20), 1
        yield whole[:100] + bytes(size), 1
        for piece in (3, 7, 1_001, size - 1, size, size + 1, 4_095, 4_096, 4_097):
            yield whole, piece
            yield whole[:-1], piece


FAMILIES = (
    headers,
    cuts,
    frames,
    repaired_codes,
    repaired_fields,
    refused_words,
    refused_codes,
    hopeless_codes,
    foreign_lines,
    captions,
    fall_lines,
    rising_again,
    records_carried,
    other_savs,
    pieces,
)


def runs(seed, choice):
    """The chosen runs of each family."""
    for family in FAMILIES:
        name = f"confirm {family.__name__}"
        for index, (data, delivery) in enumerate(family(Source(seed, name))):
            if choice.takes(index):
                yield Run(name, index, data, delivery)
