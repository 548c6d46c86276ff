"""What cases and runs are made of: random numbers of fixed seed, lines, edges and faults."""

from itertools import combinations, product
from random import Random
from typing import NamedTuple

from independent import judge
from independent.edges import EDGE_RECORDS, HIGHEST, RESERVED_WORDS, SYSTEMS
from independent.judge import CODE_BITS, NO_READY, fourth_offsets, line_after, samples_of
from independent.packets import LEAST_WORDS, packet
from independent.words import FIRST_SAMPLE, HOPELESS_EVEN, HOPELESS_ODD, LAST_SAMPLE

STORE_SIZE = 20_000
LEGAL = range(FIRST_SAMPLE, LAST_SAMPLE + 1)


class Choice(NamedTuple):
    """Which of a family are taken: the first ones, and then one in every step."""

    first: int
    step: int

    def takes(self, index):
        return index < self.first or index % self.step == 0


def inverted(count):
    """The masks that invert so many bits of a fourth word's seven."""
    return [sum(1 << bit for bit in bits) for bits in combinations(CODE_BITS, count)]


def other_code(word, mask):
    """The fourth word whose F, V, H differ from a fourth word's in the bits of a mask."""
    _, fvh, _, _ = judge.correct(word)
    return judge.FOURTH_WORDS[fvh ^ mask]


def words_refused(number):
    """The fourth words, with low bits of 0, whose correction is refused with a number."""
    fourths = range(judge.BIT_9, 2 * judge.BIT_9, 4)
    return [fourth for fourth in fourths if judge.correct(fourth)[3] == number]


# Fourth words with no legal pattern within one bit: of an odd and of an even number of ones.
ODD, EVEN = words_refused(HOPELESS_ODD), words_refused(HOPELESS_EVEN)
HOPELESS = (*ODD, *EVEN)


def timing_offsets(system):
    """Offsets of all timing words."""
    starts = judge.code_starts(system)
    return [start + n for start in starts for n in range(judge.CODE_WORDS)]


def edge_offsets(system):
    """First and last offsets of each part, and their neighbours."""
    words = judge.SYSTEMS[system].words
    codes = [start + n for start in judge.code_starts(system) for n in (0, judge.CODE_WORDS)]
    near = {edge + n for edge in (*codes, words) for n in (-2, -1, 0, 1)}
    return sorted(offset for offset in near if 0 <= offset < words)


def line_numbers(system):
    return range(1, judge.SYSTEMS[system].lines + 1)


def line_kind(system, line):
    return judge.due_f(system, line), judge.table_v(system, line)


def line_of_each_kind(system):
    """The first line of each F and V."""
    lines = {}
    for line in line_numbers(system):
        lines.setdefault(line_kind(system, line), line)
    return sorted(lines.values())


def plain_and_blank_line(system):
    """The first lines with V = 0 and V = 1."""
    return [
        next(line for line in line_numbers(system) if judge.table_v(system, line) == v)
        for v in (0, 1)
    ]


def turning_lines(system):
    """Each line of other F or V than the line before it."""
    return [
        line
        for line in line_numbers(system)
        if line_kind(system, line) != line_kind(system, line_after(system, line, -1))
    ]


def of_both(lines):
    """The systems, each with its lines."""
    for system in SYSTEMS:
        for line in lines(system):
            yield system, line


def chosen_lines():
    """A line of each system, F and V."""
    return of_both(line_of_each_kind)


def word_lengths(system):
    """Lengths of words, the right one first."""
    due = judge.SYSTEMS[system].words
    other = next(f.words for n, f in judge.SYSTEMS.items() if n != system)
    return due, 0, due - 1, due + 1, other


def slice_lengths(system):
    """Lengths of words, Y, CB and CR, right and wrong, in all ways."""
    y, c = judge.Y_SAMPLES, judge.C_SAMPLES
    y_lengths = (y, 0, y - 1, y + 1)
    c_lengths = (c, 0, c - 1, c + 1)
    return product(word_lengths(system), y_lengths, c_lengths, c_lengths)


def stretched(words, length):
    """The line cut, or lengthened by more fill."""
    return (words + [*judge.FILL] * length)[:length]


def changed(words, changes):
    """A copy of a line with other words at some offsets."""
    words = list(words)
    for offset, word in changes.items():
        words[offset] = word
    return words


class Source:
    """The random numbers of one family, and stores from which long slices are cut."""

    def __init__(self, seed, family):
        self.random = Random(f"{seed} {family}")
        self.any_words = self.random.choices(range(65536), k=STORE_SIZE)
        self.any_samples = self.random.choices(LEGAL, k=STORE_SIZE)

    def cut(self, store, length):
        start = self.random.randrange(STORE_SIZE - length + 1)
        return store[start : start + length]

    def junk(self, length):
        """Words of any 16 bits."""
        return self.cut(self.any_words, length)

    def junk_bytes(self, size):
        return self.random.randbytes(size)

    def junk_buffers(self):
        """Sample buffers of the right lengths with words of any 16 bits."""
        return [self.junk(length) for length in judge.SAMPLE_LENGTHS]

    def picture(self):
        """Samples for one line, in the order of the active part."""
        return self.cut(self.any_samples, judge.ACTIVE_WORDS)

    def serial_words(self, length):
        return self.random.choices(range(judge.LAST_WORD + 1), k=length)

    def of_due(self, due, ready=NO_READY):
        """A clean line in which this is due, with random samples, and packets if they are given."""
        words = self.junk(judge.SYSTEMS[due.system].words)
        return judge.write_line(due, *samples_of(self.picture()), *ready, words)[2]

    def written(self, system, line, ready=NO_READY):
        """The same by the number of a line, as the table has it."""
        return self.of_due(judge.due_of(system, line), ready)

    def in_turn(self, start, vs):
        """Clean lines of 525 from one on, with these V."""
        lines = ((line_after(525, start, steps), v) for steps, v in enumerate(vs))
        return [self.of_due(judge.due_of(525, line)._replace(v=v)) for line, v in lines]

    def packet(self, count):
        """A packet of so many user words."""
        identifiers = self.random.choices(range(256), k=2)
        return packet(*identifiers, self.random.choices(LEGAL, k=count))

    def packets(self, size):
        """Packets one after another, so many words of them: none, or at least those of one."""
        words = []
        while len(words) < size:
            left = size - len(words)
            counts = range(min(left - LEAST_WORDS, 255) + 1)
            apt = [n for n in counts if left - n - LEAST_WORDS not in range(1, LEAST_WORDS)]
            words += self.packet(self.random.choice(apt))
        return words

    def some_packets(self, room):
        """Packets that leave none, a few or many words of a room, or no packets at all."""
        few = room - self.random.randrange(2 * LEAST_WORDS)
        size = self.random.choice((0, few, self.random.randrange(LEAST_WORDS, room)))
        return self.packets(size)

    def ready(self, due):
        """Ready packet words for the spaces of a line in which this is due."""
        rooms = [end - start for start, end in judge.spaces(due)]
        return [self.some_packets(room) if room else [] for room in rooms]

    def captioned(self, system, line):
        """A clean line with random samples and packets."""
        return self.written(system, line, self.ready(judge.due_of(system, line)))

    def counts(self):
        """Lines read and repairs that a walk may hold."""
        lines_read = self.random.randrange(judge.LINES_LIMIT)
        return lines_read, self.random.randrange(2 * lines_read + 1)

    def tally(self, repairs):
        """A tally that a walk of so many repairs may hold: none, all or some of them."""
        return self.random.choice((0, repairs, self.random.randrange(repairs + 1)))

    def any_tally(self, repairs):
        """The same, or one over the repairs, or far over them."""
        right, over = self.tally(repairs), min(repairs + 1, HIGHEST)
        return self.random.choice((right, right, right, over, HIGHEST))

    def walk_with(self, system, line, lines_read, repairs):
        """A walk of these counts that may have had either V before a line."""
        record = self.random.choice(EDGE_RECORDS)
        return judge.Walk(system, line, lines_read, repairs, record, self.tally(repairs))

    def bad_walk(self, system, line, lines_read, repairs):
        """The same, whose tally may be over its repairs."""
        walk = self.walk_with(system, line, lines_read, repairs)
        return walk._replace(tally=self.any_tally(repairs))

    def any_walk(self, system, line):
        """A walk that may have had either V before a line."""
        return self.walk_with(system, line, *self.counts())

    def walk(self, system, line):
        """A walk at which the table's V may be due."""
        walk = self.any_walk(system, line)
        is_due = judge.table_v(judge.system_of(system), line) in judge.vs_due(walk)
        return walk if is_due else walk._replace(fallen=0)

    def offered(self, lines):
        """Clean lines, each behind a walk that awaits it."""
        for system, line in lines:
            words = self.written(system, line)
            yield self.walk(system, line), words

    def serial_state(self):
        return self.random.randrange(judge.LAST_SCRAMBLED + 1), self.random.randrange(2)

    def over(self, word):
        """The same ten bits with a higher bit set."""
        return word | 1 << self.random.randrange(judge.WORD_BITS, 16)

    def wrong(self, system, line, offset, word):
        """A word of ten bits that is refused at that offset."""
        fault = self.random.choice
        what, _ = judge.due_at(judge.due_of(system, line), offset)
        if what == judge.FOURTH_WORD:
            return word ^ fault([judge.BIT_9, *inverted(2), *inverted(7)])
        if what == judge.FILL_WORD:
            return word ^ 1 << fault(range(judge.WORD_BITS))
        if what == judge.SAMPLE:
            return fault(RESERVED_WORDS)
        return word ^ 1 << fault(range(2, judge.WORD_BITS))

    def with_inversions(self, system, words, masks):
        """The same line with the bits of some mask inverted in each fourth word."""
        changes = {
            offset: words[offset] ^ self.random.choice(masks)
            for offset in fourth_offsets(system)
        }
        return changed(words, changes)

    def low_bits(self, system, words):
        """The same line with the low bits of all timing words set anew."""
        low = {
            offset: words[offset] & ~3 | self.random.randrange(4)
            for offset in timing_offsets(system)
        }
        return changed(words, low)


def line_for(source, system, line):
    """A clean line for a right system and line number, or else the nearest such."""
    system = system % 65_536 if system % 65_536 in SYSTEMS else max(SYSTEMS)
    line %= 65_536
    return source.written(system, line if line in line_numbers(system) else 1)
