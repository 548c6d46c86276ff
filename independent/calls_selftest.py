"""What the library's further calls answer, by hand; and whether every public call is asked."""

import re
from pathlib import Path

from independent import calls, captions, judge, kinds, recordings, rows, tapes, totals
from independent.calls import Filled, Told
from independent.captions import Entry
from independent.judge import CLEAN_REPORT, NO_PACKETS, NO_READY, Due, PacketWords, Report
from independent.judge import Walk, samples_of
from independent.probe_files import chosen_cases
from independent.programme import record
from independent.protocol import Wide, flat, pack_slice
from independent.recordings import Outcome, Run, parts
from independent.rows import BLACK_ROW, with_word
from independent.tapes import Tape
from independent.totals import Totals

REPO = Path(__file__).parent.parent
BOTH_REPAIRED = Report(1, 2, 1, 8)
COUNTED_OUT = Walk(625, 23, 10_000_000, 0)

# A line of fill, and one with a row.
TWO_LINES = record(625, 22, BLACK_ROW)[0]


def shared_calls():
    yield "fourth of 8", [calls.fourth(fvh) for fvh in (7, 8, 13)], [964, 512, 872]
    yield "another expected", calls.correct_expecting(624, 7), (judge.REPAIRED, 1, 2, 0)
    yield "repaired told", judge.code_report(judge.REPAIRED, 1, 5, 0), (1, 5)
    for number in (8, 14):
        yield f"refused with {number} told", judge.code_report(judge.REFUSED, 1, 5, number), (0, 0)
    yield "flags", [calls.flags(line) for line in (3, 625)], [(1, 1, 1, 0), (0, 0, 1, 1)]
    yield "flags outside", [calls.flags(line) for line in (0, 626)], [(0, 0, 0, 0)] * 2
    yield "systems", [judge.system_of(n) for n in (525, 625, 0, 526)], [525, 625, 625, 625]
    named = [calls.system_named(number) for number in (525, 625, 0, 526)]
    yield "systems named", named, [(0, 0, 525), (0, 0, 625), (1, 0, 0), (1, 0, 0)]
    yield "figures of 525", calls.figures(525), (1716, 272, 276, 525)
    yield "figures of 625", calls.figures(625), (1728, 284, 288, 625)
    for system, line, told in (
        (525, 525, (0, 1, 1)), (525, 524, (0, 1, 525)), (625, 525, (0, 1, 526)),
        (625, 625, (1, 1, 1)), (625, 626, (0, 0, 1)), (525, 2**32 - 1, (0, 0, 1)),
        (525, 0, (0, 0, 1)),
    ):  # fmt: skip
        yield f"line {line} of {system}", calls.system_flags(system, line), told
    yield "repairs", [judge.repairs(r) for r in (CLEAN_REPORT, BOTH_REPAIRED)], [0, 2]
    for system, line, refusal in (
        (525, 525, (0, 0)), (525, 526, (2, 0)), (625, 0, (2, 0)), (625, 625, (0, 0)),
        (526, 0, (1, 0)),
    ):  # fmt: skip
        yield f"named {system}, {line}", calls.named_refusal(system, line), refusal
    last, due = Walk(525, 525, 7, 3, 9, 2), Due(525, 1, 0, 512, 64)
    accepted = calls.accepted(last, due, CLEAN_REPORT, PacketWords(14, 7))
    yield "accepted", accepted, (0, 0, CLEAN_REPORT, (525, 1, 8, 3, 1, 2), (14, 7))
    kept = 525, 525, 7, 3, 9, 2
    yield "refused", judge.refused(last, 9, 3), (9, 3, (0, 0, 0, 0), kept, (0, 0))


def moved_walks():
    due, other = Due(525, 1, 0, 512, 64), Due(7, 0, 1, 3, 4)
    last, full = Walk(525, 525, 7, 3, 0, 1), Walk(0, 625, *[2**32 - 1] * 4)
    yield "moved", calls.moved(last, due, BOTH_REPAIRED), (525, 1, 8, 5, 1, 3)
    yield "moved as another", calls.moved(last, other, CLEAN_REPORT), (525, 526, 8, 3, 0, 1)
    over = calls.moved(full, other._replace(f=1), BOTH_REPAIRED)
    yield "moved over 32 bits", over, (0, 1, 0, 1, 0, 1)
    yield "moved from none", calls.moved(Walk(0, 0, 0, 0), due, CLEAN_REPORT), (0, 1, 1, 0, 1, 0)
    moved = Walk(625, 24, 10_000_001, 2, 0, 2)
    yield "moved though counted out", calls.moved(COUNTED_OUT, other, BOTH_REPAIRED), moved
    for walk, given, length_due, refusal in (
        (last, 1716, 1716, (0, 0)),
        (last, 2**64 - 1, 2**64 - 1, (0, 0)),
        (last, 2**32 + 1716, 1716, (3, 0)),
        (last, 0, 1, (3, 0)),
        (COUNTED_OUT, 0, 1, (4, 0)),
        (last._replace(tally=3), 0, 1, (3, 0)),
        (last._replace(tally=4), 0, 1, (4, 0)),
        (COUNTED_OUT._replace(line=626), 1, 1, (2, 0)),
        (full, 1, 0, (1, 0)),
    ):
        got = calls.standing(walk, Wide(given), Wide(length_due))
        yield f"standing {walk}, {given}, {length_due}", got, refusal
    sizes = [calls.line_sizes(walk) for walk in (last, COUNTED_OUT, full)]
    yield "line sizes", sizes, [(1716, 3432), (1728, 3456), (1728, 3456)]
    for walk, told in (
        (last, (525, 1, 0, 512, 64)),
        (Walk(625, 22, 0, 0), (625, 0, 1, 512, 64)),
        (Walk(0, 625, 0, 1), (625, 1, 1, 512, 64)),
        (Walk(525, 526, 0, 0), (525, 0, 0, 512, 64)),
    ):
        yield f"due at {walk}", [judge.walk_due(walk, n) for n in (0, 728, 65_535)], [told] * 3


def dues():
    due = judge.due_of(625, 22)
    yield "due", due, (625, 0, 1, 512, 64)
    yield "due flags", [judge.due_flags(due, h) for h in (0, 1)], [2, 3]
    plain = Due(525, 1, 0, 7, 8)
    for offset, what in (
        (0, (0, 0)), (1, (1, 0)), (2, (1, 0)), (3, (2, 5)), (4, (3, 7)), (271, (3, 8)),
        (272, (0, 0)), (274, (1, 0)), (275, (2, 4)), (276, (4, 0)), (1715, (4, 0)), (1716, (4, 0)),
    ):  # fmt: skip
        yield f"due at {offset}", calls.due_at(plain, offset), what
    yield "fill due", [calls.due_at(due, n) for n in (288, 1727)], [(3, 512), (3, 64)]
    for lengths, refusal in (
        ((720, 360, 360), (0, 0)), ((0, 0, 0), (3, 1)), ((720, 361, 0), (3, 2)),
        ((720, 360, 2**32 + 360), (3, 3)),
    ):  # fmt: skip
        yield f"buffers {lengths}", calls.buffer_refusal(*lengths), refusal


def written_by_due():
    part, words = [4 + n % 1000 for n in range(1440)], [7] * 1716
    y, cb, cr = samples_of(part)
    due, blank = Due(525, 1, 0, 65_535, 1_024), Due(525, 0, 1, 5, 6)
    line = [1023, 0, 0, 872] + [65_535, 1_024] * 134 + [1023, 0, 0, 796] + part
    yield "line written", calls.write_line(due, y, cb, cr, *NO_READY, words), (0, 0, line)
    yield "part written", calls.write_part(due, part, *NO_READY, words), (0, 0, line)
    fill = [1023, 0, 0, 728] + [5, 6] * 134 + [1023, 0, 0, 684] + [5, 6] * 720
    nothing = [0] * 1440
    got = calls.write_line(blank, *samples_of(nothing), *NO_READY, words)
    yield "fill for samples", got, (0, 0, fill)
    yield "fill for a part", calls.write_part(blank, nothing, *NO_READY, words), (0, 0, fill)
    for place, sample in ((0, 3), (1, 1020), (2, 0), (3, 1024), (1438, 65_535), (1439, 1023)):
        outside = part[:place] + [sample] + part[place + 1 :]
        refused = 12, place, words
        got = calls.write_line(due, *samples_of(outside), *NO_READY, words)
        yield f"sample {place}", got, refused
        yield f"word {place}", calls.write_part(due, outside, *NO_READY, words), refused
    by_number = due._replace(system=5)
    for lengths, refusal in (
        ((525, 1715, 720, 0, 0), (3, 0)), ((525, 1716, 719, 0, 0), (3, 1)),
        ((525, 1716, 720, 361, 0), (3, 2)), ((525, 1716, 720, 360, 0), (3, 3)),
        ((525, 1716, 720, 360, 360), (12, 0)), ((5, 1716, 720, 360, 360), (3, 0)),
        ((5, 1728, 720, 360, 360), (12, 0)),
    ):  # fmt: skip
        system, *sizes = lengths
        lent, *samples = ([0] * size for size in sizes)
        got = calls.write_line(due._replace(system=system), *samples, *NO_READY, lent)
        yield f"line of {lengths}", got, (*refusal, lent)
    for due, size, length, refusal in (
        (due, 1439, 1717, (3, 0)), (due, 1439, 1716, (3, 1)), (blank, 1441, 1716, (3, 1)),
        (due, 1440, 1716, (12, 0)), (by_number, 1440, 1716, (3, 0)),
        (by_number, 1440, 1728, (12, 0)),
    ):  # fmt: skip
        got = calls.write_part(due, [0] * size, *NO_READY, [7] * length)
        yield f"part of {size}, {length}, {due}", got, (*refusal, [7] * length)


def lent_words():
    edges = (0, 3, 4, 1019, 1020, 1023, 1024, 65_535)
    yield "reserved", [calls.reserved(word) for word in edges], [1, 1, 0, 0, 1, 1, 1, 1]
    yield "joined", calls.word_and_pair(1, 2, 3, 4), (513, 4 * 65_536 + 3)
    yield "joined most", calls.word_and_pair(255, 255, 65_535, 65_535), (65_535, 2**32 - 1)
    for words, refusal in (
        ([], (0, 0)), ([0, 1023], (0, 0)), ([1024], (5, 0)), ([1023, 65_535, 1024], (5, 1)),
    ):  # fmt: skip
        yield f"over {words}", calls.first_over(words), refusal
    yield "words", calls.to_words(b"\1\2\3\4", [0, 0]), (0, 0, [513, 1027])
    yield "half a word", calls.to_words(b"\1\2\3", [7]), (3, 0, [7])
    yield "bytes", calls.to_bytes([513, 1027], bytes(4)), (0, 0, b"\1\2\3\4")
    yield "bytes short", calls.to_bytes([513], b"\7"), (3, 0, b"\7")


def row_calls():
    samples = [512, 64] * 720
    yield "unpack", rows.unpack(BLACK_ROW, [0] * 1440), (0, 0, samples)
    yield "pack", rows.pack(samples, bytes(1920)), (0, 0, BLACK_ROW)
    yield "row short", rows.unpack(BLACK_ROW[1:], [])[:2], (3, 0)
    yield "samples short", rows.unpack(BLACK_ROW, [7]), (3, 1, [7])
    spare = with_word(BLACK_ROW, 479, 1 << 30)
    yield "spare bit", rows.unpack(spare, samples[::-1]), (5, 479, samples[::-1])
    yield "over", rows.pack(samples[:-1] + [1024], BLACK_ROW), (5, 1439, BLACK_ROW)
    yield "lengths to pack", rows.pack([], b"")[:2], (3, 0)


def programme_calls():
    line = record(625, 23, BLACK_ROW)[0][4:]
    walk, after = Walk(625, 23, 0, 0, 0), Walk(625, 24, 1, 0, 1)
    recorded = tapes.record(walk, 7, BLACK_ROW, *NO_READY, bytes(3456))
    yield "recorded", recorded, (0, 0, CLEAN_REPORT, after, NO_PACKETS, line)
    extracted = tapes.extract(walk, line, bytes(1920))
    yield "extracted", extracted, (0, 0, CLEAN_REPORT, after, NO_PACKETS, BLACK_ROW)
    blank = Walk(625, 22, 0, 0)
    fill = tapes.record(blank, 7, b"", *NO_READY, bytes(3456))[-1]
    yield "a row for fill", tapes.extract(blank, fill, b"\7" * 1920)[-1], b"\7" * 1920
    yield "line short", tapes.record(walk, 7, b"", *NO_READY, b"")[:2], (3, 0)
    yield "row short", tapes.record(walk, 7, b"", *NO_READY, bytes(3456))[:2], (3, 1)
    yield "counted out", tapes.record(COUNTED_OUT, 7, b"", *NO_READY, b"")[:2], (4, 0)
    no_room = 3, 1, CLEAN_REPORT, walk, NO_PACKETS, b""
    yield "no room", tapes.extract(walk, line, b""), no_room
    yield "a word before no room", tapes.extract(walk, bytes(3456), b"")[:2], (6, 0)
    for walk, answers in (
        (Walk(625, 22, 0, 0), (0, 0)), (Walk(625, 22, 1, 0), (0, 1)), (Walk(625, 1, 9, 0), (0, 0)),
        (Walk(625, 23, 1, 0), (1, 0)), (Walk(0, 20, 1, 0), (0, 1)), (Walk(525, 20, 1, 0), (1, 0)),
    ):  # fmt: skip
        got = tapes.takes_row(walk, 20), tapes.ends_frame(walk, 20)
        yield f"row at {walk}", got, answers


def pieces():
    frames = (2, 15_999, 16_000, 2**32 - 1)
    lines = [1250, 9_999_375, 10_000_000, 10_000_000]
    yield "piece of 625", [tapes.piece_lines(625, n) for n in frames], lines
    yield "piece of 525", [tapes.piece_lines(525, n) for n in (19_047, 19_048)], [9_999_675, 10**7]
    for walk, most, ends in (
        (Walk(625, 1, 625, 0), 1249, 1),
        (Walk(625, 1, 625, 0), 1250, 0),
        (Walk(625, 1, 0, 0), 0, 0),
        (Walk(625, 2, 625, 0), 0, 0),
        (Walk(525, 1, 2**32 - 1, 0), 2**32 - 1, 1),
    ):
        yield f"end at {walk}, {most}", tapes.ends_piece(walk, most), ends


def runs():
    recording = record(625, 22, BLACK_ROW * 2)[0]
    run = recordings.begin(recording)
    yield "begun", run, (625, 22, (625, 22, 0, 0, 0, 0), 0, 0)
    yield "no header", recordings.begin(b"\x71\2\1"), (0, 0, (0, 0, 0, 0, 0, 0), 1, 0)
    after = Run(625, 22, Walk(625, 24, 2, 0, 1), 0, 0)
    yield "followed", recordings.follow(run, recording[4:-1]), (after, 2 * 3456)
    yield "closed", recordings.close(after, b"\0"), after._replace(number=3)
    yield "closed with none", recordings.close(after, b""), after
    spoilt = recording[4:3460] + b"\0" + recording[3461:]
    stopped = Run(625, 22, Walk(625, 23, 1, 0), 6, 0)
    yield "a refused line is taken", recordings.follow(run, spoilt), (stopped, 2 * 3456)
    yield "ended", recordings.follow(stopped, spoilt), (stopped, 0)
    full = Run(625, 22, Walk(625, 24, 10_000_000, 0), 0, 0)
    yield "at once", recordings.follow(full, b"\0"), (full._replace(number=4), 0)
    yield "outcome", recordings.outcome(stopped), (625, 22, 1, 0, 6, 23, 0)
    told = [recordings.outcome(after._replace(number=number)) for number in range(4)]
    yield "no line", [each.line for each in told], [0, 0, 0, 24]
    begun = [recordings.begin(pack_slice(pair)) for pair in ([625, 24], [525, 24], [625, 25])]
    yield "follows", [recordings.follows_on(after, each) for each in begun], [1, 0, 0]
    awaited = recordings.begin(pack_slice([625, 23]))
    yield "after a refusal", recordings.follows_on(stopped, awaited), 0


def steps():
    run, kept = recordings.begin(TWO_LINES), b"\7" * 1920
    blank, line = parts(TWO_LINES[4:], 3456)
    second = Run(625, 22, Walk(625, 23, 1, 0), 0, 0)
    yield "blank line", tapes.extract_next(run, blank, kept), (second, 0, kept)
    third = second._replace(walk=Walk(625, 24, 2, 0, 1))
    yield "line with a row", tapes.extract_next(second, line, kept), (third, 1, BLACK_ROW)
    ended = second._replace(number=9, place=3)
    yield "extracting has ended", tapes.extract_next(ended, line, kept), (ended, 0, kept)
    yield "judged though ended", recordings.with_line(ended, line), third
    short = second._replace(number=3)
    yield "end inside a line", tapes.extract_next(second, line[1:], kept), (short, 0, kept)
    no_room = second._replace(number=3, place=1)
    yield "no room for a row", tapes.extract_next(second, line, b""), (no_room, 0, b"")
    refused = second._replace(number=10, place=4)
    yield "refused", tapes.extract_next(second, line[:8] + b"\1" + line[9:], kept)[:2], (refused, 0)


def tape_calls():
    blank, line = parts(TWO_LINES[4:], 3456)
    tape = tapes.begin_tape(625, 22, 625, 7)
    yield "begun tape", tape, ((625, 22, 0, 0, 0, 0), 625, 7, 0, 0)
    yield "no tape", tapes.begin_tape(525, 526, 7, 10), ((0, 0, 0, 0, 0, 0), 7, 10, 2, 0)
    second = tape._replace(walk=Walk(625, 23, 1, 0))
    yield "fill taped", tapes.tape_next(tape, b"", *NO_READY, bytes(3456)), (second, blank)
    third = tape._replace(walk=Walk(625, 24, 2, 0, 1))
    yield "row taped", tapes.tape_next(second, BLACK_ROW, *NO_READY, bytes(3456)), (third, line)
    refused = second._replace(number=3, place=1)
    got = tapes.tape_next(second, b"", *NO_READY, bytes(3456))
    yield "row refused", got, (refused, bytes(3456))
    got = tapes.tape_next(refused, BLACK_ROW, *NO_READY, b"\7")
    yield "tape has ended", got, (refused, b"\7")
    full = Tape(Walk(625, 1, 625, 3, 1, 2), 1249, 7, 5, 9)
    yield "turns", [tapes.turns(full), tapes.turns(full._replace(most=1250))], [1, 0]
    yield "turned", tapes.turned(full), ((625, 1, 0, 0, 0, 0), 1249, 7, 5, 9)
    no_line = full._replace(walk=COUNTED_OUT._replace(line=0))
    yield "turned to none", tapes.turned(no_line)[0], (0,) * 6
    for walk, number, ends in (
        (Walk(625, 624, 1, 0), 0, 1),
        (Walk(625, 624, 1, 0), 3, 0),
        (Walk(625, 624, 0, 0), 0, 0),
        (Walk(625, 623, 1, 0), 0, 0),
        (Walk(625, 1, 1, 0), 0, 0),
        (Walk(625, 624, 9_999_999, 0), 0, 1),
        (Walk(625, 624, 10_000_000, 0), 0, 0),
        (Walk(0, 624, 1, 0), 0, 0),
        (Walk(625, 624, 1, 2, 0, 2), 0, 1),
        (Walk(625, 624, 1, 1, 0, 2), 0, 0),
    ):
        yield f"end of {walk}, {number}", tapes.tape_ends(Tape(walk, 0, 7, number, 0)), ends


def arrivals():
    for got, room, told in (
        (-1, 7, (0, 0)), (0, 7, (1, 0)), (1, 7, (2, 1)), (7, 7, (2, 7)), (8, 7, (2, 7)),
        (0, 0, (0, 0)), (1, 0, (0, 0)), (-(2**63), 7, (0, 0)), (2**63 - 1, 7, (2, 7)),
        (2**32, 1, (2, 1)),
    ):  # fmt: skip
        yield f"{got} told of {room}", calls.tells(Wide(got % 2**64), bytes(room)), told
    yield "so far", calls.so_far(Wide(5)), (5, 0, 0)
    some = Filled(Wide(2**64 - 1), 1, 1)
    for told, room, after in (
        (Told(0, Wide(0)), 3, (2**64 - 1, 1, 1)),
        (Told(1, Wide(0)), 3, (2**64 - 1, 1, 0)),
        (Told(2, Wide(2)), 3, (1, 0, 0)),
        (Told(2, Wide(3)), 3, (2, 1, 0)),
    ):
        yield f"filled after {told}", calls.filled_after(some, told, room), after


def heads():
    """Heads of a packets file's entries."""
    entry, head = Entry(Wide(2**32 + 3), 1, 268), bytes.fromhex("030000000100000001000c01")
    yield "head put", captions.put_head(entry, bytes(12)), (0, 0, head)
    yield "no room", captions.put_head(entry, b"\7"), (3, 0, b"\7")
    high = captions.put_head(Entry(Wide(0), 65_536, 2**32 - 1), bytes(12))[2]
    yield "low bits put", high, bytes(10) + b"\xff\xff"
    key, none = 2**33 + 7, Entry(Wide(0), 0, 0)
    yield "head", captions.judge_head(key, head), (0, entry, key + 1)
    yield "does not rise", captions.judge_head(key + 1, head), (22, none, key + 1)
    for name, bad in (
        ("short", head[:11]),
        ("long", head + b"\0"),
        ("line", head[:7] + b"\x40" + head[8:]),
        ("space", head[:8] + b"\2" + head[9:]),
        ("no words", head[:10] + b"\0\0"),
        ("too many words", head[:10] + b"\xa1\5"),
    ):
        yield f"bad {name}", captions.judge_head(5, bad), (22, none, 5)


def sums():
    one = Totals(*map(Wide, (1, 2, 3, 4, 5, 6)))
    told = Outcome(525, 1, 10, 20, 9, 3, 3)
    yield "read", totals.with_read(one, told), (2, 12, 3, 24, 6, 6)
    accepted = told._replace(system=625, number=0)
    yield "read, accepted", totals.with_read(one, accepted), (2, 2, 13, 24, 5, 6)
    yield "unread", totals.with_unread(one), (2, 2, 3, 4, 5, 7)
    most = Totals(*[Wide(2**64 - 1)] * 6)
    yield "over 64 bits", totals.with_read(most, told), (0, 9, 2**64 - 1, 19, 0, 2**64 - 1)
    yield "lines over 64 bits", totals.total_lines(most), 2**64 - 2
    yield "wide", flat(most._replace(files=Wide(2**32 + 5)))[:4], [5, 1, 2**32 - 1, 2**32 - 1]
    for lines525, lines625, parts in (
        (0, 0, 0), (0, 2812, 0), (0, 2813, 1), (0, 5625, 1), (2832, 0, 0), (2833, 0, 1),
        (56_643_356, 0, 10_000), (0, 56_250_000, 10_000),
    ):  # fmt: skip
        counted = one._replace(lines525=Wide(lines525), lines625=Wide(lines625))
        yield f"time of {lines525}, {lines625}", totals.hours(counted), parts


def calls_in(crate):
    """The public calls of a crate, by the names that a caller writes: a trait's or conversion's are its types'."""
    of_traits, types = {}, {}
    for file in sorted((REPO / "crates" / crate / "src").glob("*.rt")):
        owner, calls = "", None
        for text in file.read_text().splitlines():
            of_type = re.match(r"impl (\w+) \{", text)
            of_trait = re.match(r"pub trait (\w+) \{", text)
            found = re.match(r'\s*pub (?:extern "C" )?fn (\w+)', text)
            if of_type or of_trait or text == "}":
                owner = f"{of_type[1]}::" if of_type else ""
                calls = of_traits.setdefault(of_trait[1], []) if of_trait else None
            if met := re.match(r"impl (\w+) for (\w+) \{", text):
                types.setdefault(met[1], []).append(met[2])
            if made := re.match(r"impl (Try)?From<\w+> for (\w+) \{", text):
                yield f"{crate}::{made[2]}::{'try_from' if made[1] else 'from'}"
            if calls is not None and (member := re.match(r"    (?:final )?fn (\w+)", text)):
                calls.append(member[1])
            if found:
                yield f"{crate}::{owner}{found[1]}"
    for trait, calls in of_traits.items():
        yield from (f"{crate}::{owner}::{call}" for owner in types.get(trait, ()) for call in calls)


def crates():
    for text in (REPO / "crates.txt").read_text().splitlines():
        if ":" in text and not text.startswith("#"):
            # a static library's name has that word behind it
            yield text.split(":")[0].split()[0]


def every_call():
    """Every public call of the library is asked by a kind, and each kind's calls are there."""
    library = [crate for crate in crates() if crate not in kinds.NOT_ASKED]
    public = {call for crate in library for call in calls_in(crate)}
    asked = {call for kind in kinds.KINDS for call in kinds.ASKED[kind]}
    excused = {name for name in kinds.NOT_ASKED if "::" in name}
    yield "calls that no kind asks", sorted(public - asked - excused), []
    yield "calls that are not there", sorted((asked | excused) - public), []
    yield "crates that are not there", sorted(set(kinds.NOT_ASKED) - excused - set(crates())), []


def every_kind():
    """Every kind has cases, and its answers begin with the numbers that it names."""
    numbers = {kind: len(kinds.KINDS[kind].heads) for kind in kinds.KINDS}
    found = {case.kind: len(kinds.answer_parts(case)[0]) for case in chosen_cases()}
    yield "numbers of answers", found, numbers


GROUPS = (
    shared_calls,
    moved_walks,
    dues,
    written_by_due,
    lent_words,
    row_calls,
    programme_calls,
    pieces,
    runs,
    steps,
    tape_calls,
    arrivals,
    heads,
    sums,
    every_call,
    every_kind,
)
