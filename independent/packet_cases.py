"""Cases of packets: spaces of any words, and lines with packets through every call that judges."""

from itertools import chain, cycle, product

from independent import judge, protocol
from independent.call_cases import JUDGING, LENDING, READING, judge_bytes, judge_words
from independent.call_cases import lines_from, run_at
from independent.edges import EDGE_COUNTS, EDGE_WORDS, HIGHEST_WIDE, SYSTEMS
from independent.material import LEGAL, Source, changed, chosen_lines, edge_offsets, inverted
from independent.material import line_numbers, of_both, plain_and_blank_line
from independent.offered import of_any_length
from independent.packets import LEAST_WORDS, START, checksum, header_word
from independent.protocol import Wide

# Every call that judges a line.
CALLS = (*LENDING, *JUDGING, *READING[1:])

# How many words may be left behind the packets of a space: none, too few for a packet, enough.
LEFT = (0, 1, 2, 5, 6, 7, 8)

# Words that are nearly those a packet starts with.
NEARLY_0 = (0, 1, 2, 3, 4, 64, 512, 1_023, 1_024)
NEARLY_1023 = (1_023, 1_022, 1_021, 1_020, 1_019, 64, 0, 2_047, 65_535)


def other_words(word):
    """What may stand in a word's place: a bit inverted, another count, words about each limit."""
    inverted_bits = (word ^ 1 << bit for bit in range(16))
    counts = (header_word((word + more) % 256) for more in (-1, 1))
    return sorted({*inverted_bits, *counts, *EDGE_WORDS} - {word})


def space(words, start, end, fill=judge.FILL):
    return protocol.JUDGE_SPACE, (words, Wide(start), Wide(end), *fill)


def filled(start, ready, left, fill=judge.FILL):
    """The words of a space: those that are ready, and so many of fill, by offset."""
    behind = start + len(ready)
    return ready + [fill[offset % 2] for offset in range(behind, behind + left)]


def among_others(source, start, words):
    """A line with a space among any words, and the offset behind the space."""
    return source.junk(start) + words + source.junk(9), start + len(words)


def packets_of(source, counts):
    """Packets of so many user words each."""
    return list(chain.from_iterable(map(source.packet, counts)))


def good_spaces(source):
    """Packets and fill, with any number of words left, that end with the line or in it."""
    layouts = ((), (0,), (1,), (2,), (255,), (0, 0), (1, 0, 2), (254, 255))
    for counts, left, start in product(layouts, range(12), (0, 1, 4, 5)):
        words = filled(start, packets_of(source, counts), left)
        line, end = among_others(source, start, words)
        yield space(line, start, end)
        yield space(line[:end], start, source.random.choice((end + 1, 2_000, HIGHEST_WIDE)))


def every_end(source):
    """Every start and end about packets and fill, and some far away."""
    for first in (4, 5):
        words = filled(first, packets_of(source, (0, 1, 3)), 8)
        line, _ = among_others(source, first, words)
        for start, end in product(range(len(line) + 3), repeat=2):
            yield space(line, start, end)
        near = (0, first, len(line) - 1, len(line), len(line) + 1)
        bases = (0, 2**16, 2**32, 2**63)
        far = (*(base + offset for base in bases for offset in near), HIGHEST_WIDE - 1)
        for start, end in product((*far, HIGHEST_WIDE), repeat=2):
            yield space(line, start, end)


def words_changed(source):
    """Every word of spaces in turn, with all that may stand in its place."""
    layouts = (((), 9), ((0,), 0), ((0,), 6), ((3,), 7), ((2, 1), 3))
    for (counts, left), start in product(layouts, (4, 5)):
        words = filled(start, packets_of(source, counts), left)
        line, end = among_others(source, start, words)
        for offset in range(start - 1, end + 1):
            for word in other_words(line[offset]):
                yield space(changed(line, {offset: word}), start, end)


def long_packets(source):
    """The longest packet: every word wrong in some way, and user words summed or not."""
    for start in (4, 5):
        line, end = among_others(source, start, filled(start, source.packet(255), 20))
        for offset in range(start, end):
            for word in source.random.sample(other_words(line[offset]), 4):
                yield space(changed(line, {offset: word}), start, end)
    header = [header_word(n) for n in (65, 1, 255)]
    for place, user in product((0, 1, 127, 253, 254), EDGE_WORDS):
        users = changed(source.random.choices(LEGAL, k=255), {place: user})
        line, end = among_others(source, 4, raw_packet(header, users))
        yield space(line, 4, end)


def raw_packet(header, user_words):
    """A packet of any header words, with the checksum that belongs to them."""
    return [*START, *header, *user_words, checksum([*header, *user_words])]


def every_header_word(source):
    """Every word of ten bits, and some over, as identifier and as count."""
    for word in (*range(1_024), *range(1_024, 65_536, 997)):
        good = [header_word(value) for value in source.random.choices(range(256), k=3)]
        for place in range(3):
            header = changed(good, {place: word})
            users = source.random.choices(LEGAL, k=header[2] % 256)
            words = filled(4, raw_packet(header, users), source.random.randrange(9))
            line, end = among_others(source, 4, words)
            yield space(line, 4, end)


def every_count(source):
    """Packets that end with their space, one word past it and one before its end."""
    for count, start in product(range(256), (4, 5)):
        line, end = among_others(source, start, filled(start, source.packet(count), 1))
        for behind in (end - 2, end - 1, end):
            yield space(line, start, behind)


def every_checksum(source):
    """Every sum, with the checksum right and wrong; and every word for one checksum."""
    header = [header_word(n) for n in (65, 2, 1)]
    for low in range(512):
        user = (low - sum(header)) % 512
        words = raw_packet(header, [user if user in LEGAL else user + 512])
        line, end = among_others(source, 4, words)
        for mask in (0, 1, 256, 512, 768):
            yield space(changed(line, {end - 1: line[end - 1] ^ mask}), 4, end)
    for word in (*range(1_024), *range(1_024, 65_536, 997)):
        yield space(changed(line, {end - 1: word}), 4, end)


def packet_starts(source):
    """Words about the three that start a packet, at a space's start and behind a packet."""
    for first, second, third in product(NEARLY_0, NEARLY_1023, NEARLY_1023):
        for before in ((), (1,)):
            ready = packets_of(source, before)
            words = ready + [first, second, third] + source.packet(1)[len(START) :]
            line, end = among_others(source, 4, words)
            yield space(line, 4, end)


def any_fill(source):
    """Fill of any two words, over 1023 among them, alone and behind a packet."""
    for fill, start, counts in product(product(EDGE_WORDS, repeat=2), (4, 5), ((), (0,))):
        words = filled(start, packets_of(source, counts), 7, fill)
        line, end = among_others(source, start, words)
        yield space(line, start, end, fill)


def any_spaces(source):
    """Packets and fill with a few words changed, left out or doubled, and any end."""
    choice, within = source.random.choice, source.random.randrange
    for _ in range(5_000):
        start, fill = within(20), choice((judge.FILL, judge.FILL, tuple(source.junk(2))))
        counts = [choice((0, 1, 2, 3, within(20))) for _ in range(within(4))]
        words = filled(start, packets_of(source, counts), choice((0, 0, 6, 7, within(30))), fill)
        for _ in range(choice((0, 1, 1, 2))):
            words = disturbed(source, words)
        line, end = among_others(source, start, words)
        yield space(line, start, max(end + choice((0, 0, 0, -1, 1, 9)), 0), fill)


def disturbed(source, words):
    """The same words with one of them changed, left out or doubled."""
    if not words:
        return words
    place = source.random.randrange(len(words))
    word = source.random.choice(other_words(words[place]))
    kept = ([word], [word], [word], [], [words[place]] * 2)
    return words[:place] + source.random.choice(kept) + words[place + 1 :]


def offered(source, lines):
    """Clean lines with packets, each behind a walk that awaits it."""
    for system, line in lines:
        yield source.walk(system, line), source.captioned(system, line)


def captioned_lines(source):
    """Every line with packets, clean and damaged in its codes."""
    calls = cycle(CALLS)
    for walk, words in offered(source, of_both(line_numbers)):
        for call in (judge_words, judge_bytes, *LENDING, next(calls)):
            yield call(source, walk, words)
        mask = inverted(source.random.choice((1, 1, 1, 2)))
        spoilt = source.with_inversions(walk.system, words, mask)
        low = source.low_bits(walk.system, spoilt)
        for call in (judge_words, next(calls), next(calls)):
            yield call(source, walk, low)


def layouts(source, room):
    """Ready words for a space: none, one packet, and so many that few words are left."""
    counts = [count for count in (0, 1, 255) if count + LEAST_WORDS <= room]
    lone = [source.packet(count) for count in counts]
    return [[], *lone, *(source.packets(room - left) for left in LEFT if room)]


def ready_layouts(source, due):
    """Ready words for both spaces: each layout in one of them, and one in each."""
    between, active = ([*layouts(source, end - start)] for start, end in judge.spaces(due))
    yield from product(between, [[]])
    yield from product([[]], active[1:])
    yield from zip(between[1:], reversed(active))


def captioned_layouts(source):
    """Packets that leave no, a few and many words of each space, through every call."""
    for system, line in chosen_lines():
        for ready in ready_layouts(source, judge.due_of(system, line)):
            words = source.written(system, line, ready)
            for call in CALLS:
                yield call(source, source.walk(system, line), words)


def blank_and_plain_spaces(source):
    """System, line and the ends of each space, of a line with V = 0 and one with V = 1."""
    for system, line in of_both(plain_and_blank_line):
        for start, end in judge.spaces(judge.due_of(system, line)):
            if start < end:
                yield system, line, start, end


def with_space(source, system, line, start, words):
    """A clean line with these words in place of those from an offset on."""
    return changed(source.captioned(system, line), dict(enumerate(words, start)))


def captioned_offsets(source):
    """A fault at every offset of spaces with packets, the calls in turn."""
    calls = cycle(CALLS)
    for system, line, start, end in blank_and_plain_spaces(source):
        ready = source.packets(end - start - 17)
        words = with_space(source, system, line, start, filled(start, ready, 17))
        for offset in range(start, end):
            word = words[offset]
            for fault in (source.over(word), source.random.choice(other_words(word))):
                walk = source.walk(system, line)
                yield next(calls)(source, walk, changed(words, {offset: fault}))


def captioned_edges(source):
    """Every word of the first and the last packet of full spaces changed, the calls in turn."""
    calls = cycle(CALLS)
    for system, line, start, end in blank_and_plain_spaces(source):
        first, last = source.packet(2), source.packet(1)
        ready = first + source.packets(end - start - len(first) - len(last)) + last
        words = with_space(source, system, line, start, ready)
        for offset in (*range(start, start + len(first)), *range(end - len(last), end)):
            for word in other_words(words[offset]):
                walk = source.walk(system, line)
                yield next(calls)(source, walk, changed(words, {offset: word}))


def captions_cut(source):
    """A packet at the end of a space that has too few words for it, or just enough."""
    for system, line, start, end in blank_and_plain_spaces(source):
        for left, count in product((*range(1, 12), 261, 262), (0, 1, 4, 255)):
            last = source.packet(count)[:left]
            ready = source.packets(end - start - left) if end - start - left >= LEAST_WORDS else []
            behind = end - start - len(ready) - len(last)
            space_words = filled(start, ready + last, behind)
            words = with_space(source, system, line, start, space_words)
            for call in (judge_words, judge_bytes, *LENDING):
                yield call(source, source.walk(system, line), words)


def captions_behind_fill(source):
    """A packet that does not start its space, and packets where samples are due."""
    for system, line, start, end in blank_and_plain_spaces(source):
        for before in (1, 2, 3, 7, end - start - LEAST_WORDS):
            late = filled(start, [], before) + source.packet(0)
            for ready in (late, source.packet(1) + late):
                if len(ready) <= end - start:
                    rest = end - start - len(ready)
                    words = with_space(source, system, line, start, filled(start, ready, rest))
                    for call in CALLS:
                        yield call(source, source.walk(system, line), words)
    for system, line in chosen_lines():
        active = judge.active_start(system)
        for place in (0, 1, 721, judge.ACTIVE_WORDS - LEAST_WORDS):
            words = with_space(source, system, line, active + place, source.packet(0))
            for call in CALLS:
                yield call(source, source.walk(system, line), words)


def several_captioned_faults(source):
    """Two to six words of a line with packets changed, at edges and elsewhere."""
    choice, calls = source.random.choice, cycle(CALLS)
    for _ in range(2_000):
        system = choice(SYSTEMS)
        line = choice([choice(line_numbers(system)), plain_and_blank_line(system)[1]])
        words = source.captioned(system, line)
        anywhere = source.random.choices(range(len(words)), k=choice((1, 2, 5)))
        offsets = choice(edge_offsets(system)), *anywhere
        faults = {offset: choice(other_words(words[offset])) for offset in offsets}
        for call in (judge_words, next(calls)):
            yield call(source, source.walk(system, line), changed(words, faults))


def captioned_walks(source):
    """A good line with packets at walks that refuse every line, and in other lengths."""
    for system, line in chosen_lines():
        words = source.captioned(system, line)
        numbers = (system + 1, line), (system, 0), (system, judge.SYSTEMS[system].lines + 1)
        walks = [source.any_walk(*pair) for pair in numbers]
        walks += [source.bad_walk(system, line, *counts) for counts in EDGE_COUNTS]
        lengths = of_any_length(source, system, line, words, (0, 4, 11, 1_440, 2_000))
        for walk, lent in (*((walk, words) for walk in walks), *lengths):
            for call in (judge_words, judge_bytes, *LENDING):
                yield call(source, walk, lent)


def captioned_runs(source):
    """Several lines with packets in a run, as they are and with a bit inverted somewhere."""
    for _ in range(300):
        system = source.random.choice(SYSTEMS)
        walk = source.walk(system, source.random.choice(line_numbers(system)))
        data = bytearray(lines_from(source, walk, source.random.randrange(1, 5), Source.captioned))
        yield protocol.FOLLOW, (run_at(walk), bytes(data))
        data[source.random.randrange(len(data))] ^= 1 << source.random.randrange(8)
        yield protocol.FOLLOW, (run_at(walk), bytes(data))


FAMILIES = (
    good_spaces,
    every_end,
    words_changed,
    long_packets,
    every_header_word,
    every_count,
    every_checksum,
    packet_starts,
    any_fill,
    any_spaces,
    captioned_lines,
    captioned_layouts,
    captioned_offsets,
    captioned_edges,
    captions_cut,
    captions_behind_fill,
    several_captioned_faults,
    captioned_walks,
    captioned_runs,
)
