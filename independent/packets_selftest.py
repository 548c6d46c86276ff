"""Packets in spaces, in lines and on tapes, against words that were written by hand."""

from independent import calls, judge, tapes
from independent.judge import CLEAN_REPORT, NO_PACKETS, TABLE_FALL, Due, PacketWords, Walk
from independent.material import changed
from independent.packets import checksum, header_word, judge_space, packet
from independent.rows import BLACK_ROW, with_word

# 97 has three ones, 1 and 2 have one: 256 is added. 353 + 257 + 258 + 0 + 64 is 512 + 420.
CAPTION = [0, 1023, 1023, 353, 257, 258, 512, 64, 420]
EMPTY = [0, 1023, 1023, 512, 512, 512, 512]

# A space from offset 4 on: nine words of a packet, and fill from an odd offset on.
SPACE = [7, 7, 7, 7, *CAPTION, 64, 512, 64]

PICTURE = [4] * 1440
SAMPLES = judge.samples_of(PICTURE)


def packets_by_hand():
    values = (0, 1, 3, 97, 255)
    yield "header words", [header_word(value) for value in values], [512, 257, 515, 353, 767]
    sums = ([512, 512, 512], [256], [255], [511, 1], [1019, 1019])
    yield "checksums", [checksum(words) for words in sums], [512, 256, 767, 512, 502]
    yield "caption", packet(97, 1, [512, 64]), CAPTION
    yield "no user words", packet(0, 0, []), EMPTY


def spaces_by_hand():
    """The faults of a space, and the words of its packets."""
    for changes, answer in (
        ({}, (0, 0, 9)),
        ({4: 1}, (10, 4, 0)),
        ({5: 1022}, (10, 4, 0)),
        ({6: 1024}, (10, 4, 0)),
        ({7: 352}, (15, 7, 0)),
        ({7: 865}, (15, 7, 0)),
        ({8: 256}, (15, 8, 0)),
        ({9: 259}, (15, 9, 0)),
        ({9: 1282}, (5, 9, 0)),
        ({9: 762}, (17, 9, 0)),
        ({9: 506}, (15, 9, 0)),
        ({9: 515}, (16, 13, 0)),
        ({10: 3}, (11, 10, 0)),
        ({10: 1020}, (11, 10, 0)),
        ({11: 1024, 12: 0}, (5, 11, 0)),
        ({11: 65}, (16, 12, 0)),
        ({11: 65, 12: 421}, (0, 0, 9)),
        ({12: 932}, (16, 12, 0)),
        ({12: 1444}, (5, 12, 0)),
        ({13: 512}, (10, 13, 0)),
        ({15: 1024}, (5, 15, 0)),
        ({3: 65_535}, (0, 0, 9)),
    ):
        yield f"space {changes}", judge_space(changed(SPACE, changes), 4, 16, 512, 64), answer
    for start, end, answer in (
        (4, 13, (0, 0, 9)), (4, 99, (0, 0, 9)), (4, 2**64 - 1, (0, 0, 9)), (4, 12, (17, 9, 0)),
        (4, 11, (17, 9, 0)), (4, 10, (10, 4, 0)), (4, 4, (0, 0, 0)), (5, 4, (0, 0, 0)),
        (99, 2**64 - 1, (0, 0, 0)), (13, 16, (0, 0, 0)), (3, 16, (10, 3, 0)), (5, 16, (10, 5, 0)),
    ):  # fmt: skip
        yield f"space {start} to {end}", judge_space(SPACE, start, end, 512, 64), answer


def rows_of_packets():
    """Packets one after another, and what stands behind them."""
    for words, answer in (
        (EMPTY, (0, 0, 7)),
        (EMPTY + CAPTION + EMPTY, (0, 0, 23)),
        (EMPTY + CAPTION + [512, 64] + EMPTY, (10, 18, 0)),
        (EMPTY + EMPTY[:6], (10, 7, 0)),
        (EMPTY + [64, 512] * 3, (0, 0, 7)),
        (EMPTY + [512, 64], (10, 7, 0)),
        ([512, 64] + EMPTY, (10, 2, 0)),
        ([1024], (5, 0, 0)),
    ):
        yield f"row {words}", judge_space(words, 0, len(words), 512, 64), answer
    yield "fill over", judge_space([5, 1024], 0, 2, 5, 1024), (5, 1, 0)
    longest = packet(1, 2, [4] * 255)
    yield "255 user words", judge_space(longest, 0, 262, 512, 64), (0, 0, 262)
    yield "one word past", judge_space(longest, 0, 261, 512, 64), (17, 5, 0)


def written(system, line, between, active):
    words = [7] * judge.SYSTEMS[system].words
    return judge.write(system, line, TABLE_FALL, *SAMPLES, between, active, words)


def lines_with_packets():
    for system, line, between, active in (
        (625, 22, CAPTION, EMPTY * 2),
        (625, 23, CAPTION * 2, []),
        (525, 1, [], EMPTY),
        (525, 20, packet(1, 2, [4] * 254) + EMPTY, []),
    ):
        number, place, words = written(system, line, between, active)
        yield f"{line} written", (number, place), (0, 0)
        walk, counts = Walk(system, line, 0, 0), PacketWords(len(between), len(active))
        yield f"{line} judged", judge.judged(walk, words).packets, counts
        yield f"{line} as bytes", judge.judge_bytes(walk, judge.bytes_of(words)).packets, counts
        yield f"{line} lent", judge.packets_in(walk, words), [between, active]
        refused = changed(words, {len(words) - 1: 1023})
        yield f"{line} refused", judge.judged(walk, refused).packets, (0, 0)
        yield f"{line} lent though refused", judge.packets_in(walk, refused), [[], []]
    words = written(625, 23, CAPTION, [])[2]
    walk = Walk(625, 23, 0, 0)
    fill = words[:4] + CAPTION + [64, 512] * 135 + [64] + words[284:]
    yield "fill behind", words, fill
    plain = changed(words, dict(enumerate(EMPTY, 288)))
    yield "no packets with V = 0", judge.judged(walk, plain)[:2], (11, 288)
    two = changed(words, {3: 632, 7: 352, 287: 632})
    yield "codes first", judge.judged(walk, two)[:2], (8, 3)
    yield "between codes", judge.judged(walk, changed(two, {3: words[3]}))[:2], (15, 7)
    taken = judge.take(walk, words, *judge.samples_of([0] * 1440))
    yield "taken", taken, (0, 0, *SAMPLES)


def refused_ready_words():
    """Ready words that the writer refuses, and the order."""
    full = packet(1, 2, [4] * 255) + packet(1, 2, [4] * 11)
    for name, system, line, between, active, refusal in (
        ("as many as the space holds", 625, 22, full, EMPTY * 205, (0, 0)),
        ("one more", 625, 22, full + [512], EMPTY * 206, (3, 4)),
        ("one more in the active part", 625, 22, [5], EMPTY * 206, (3, 5)),
        ("any with V = 0", 625, 23, [], [512], (3, 5)),
        ("between before active", 525, 1, [1, *EMPTY], [2], (10, 4)),
        ("active", 525, 1, EMPTY, EMPTY + [512], (10, 283)),
        ("fill that would be right", 525, 1, EMPTY + [64], [], (10, 11)),
        ("over", 525, 1, EMPTY + [1024], [], (5, 11)),
        ("past them", 525, 1, CAPTION[:8], [], (17, 9)),
        ("six words", 525, 1, EMPTY[:6], [], (10, 4)),
        ("bad parity", 525, 1, changed(EMPTY, {4: 0}), [], (15, 8)),
        ("bad checksum", 525, 1, [], EMPTY + changed(EMPTY, {6: 0}), (16, 289)),
        ("reserved", 525, 1, [], changed(CAPTION, {7: 0}), (11, 283)),
    ):
        yield name, written(system, line, between, active)[:2], refusal
    outside = judge.samples_of([3] * 1440)
    for between, refusal in ((CAPTION, (12, 0)), ([64], (10, 4))):
        answer = judge.write(525, 20, TABLE_FALL, *outside, between, [], [7] * 1716)
        yield f"12 and {refusal[0]}", answer, (*refusal, [7] * 1716)
    due, lent = Due(525, 0, 0, 9, 8), [7] * 1716
    for part, active, words, refusal in (
        ([], [5], [], (3, 0)), ([], [5], lent, (3, 1)), ([3] * 1440, [5], lent, (3, 5)),
    ):  # fmt: skip
        answer = calls.write_part(due, part, [5], active, words)
        yield f"part refused {refusal}", answer, (*refusal, words)
    filled = calls.write_part(due, PICTURE, EMPTY, [], lent)[2]
    yield "other fill behind", filled[4:14], EMPTY + [8, 9, 8]


def recorded_packets():
    walk, row, line = Walk(625, 22, 5, 0), b"", bytes(3456)
    answer = tapes.record(walk, TABLE_FALL, row, CAPTION, EMPTY, line)
    yield "recorded", answer[:5], (0, 0, CLEAN_REPORT, (625, 23, 6, 0, 0, 0), (9, 7))
    yield "recorded line", answer[5], judge.bytes_of(written(625, 22, CAPTION, EMPTY)[2])
    yield "extracted", tapes.extract(walk, answer[5], bytes(1920))[4], (9, 7)
    plain = Walk(625, 23, 5, 0)
    spare, outside = with_word(BLACK_ROW, 9, 1 << 30), with_word(BLACK_ROW, 0, 0)
    for name, given, refusal in (
        ("row before packets", (b"", [5], [5]), (3, 1)),
        ("spare bits before packets", (spare, [5], [5]), (5, 9)),
        ("3 before words", (outside, [5], [5]), (3, 5)),
        ("packets before samples", (outside, [5], []), (10, 4)),
        ("samples last", (outside, EMPTY, []), (12, 0)),
    ):
        answer = tapes.record(plain, TABLE_FALL, *given, line)
        yield name, answer, (*refusal, CLEAN_REPORT, plain, NO_PACKETS, line)
    tape = tapes.begin_tape(625, 22, 7, TABLE_FALL)
    after = tape._replace(walk=Walk(625, 23, 1, 0))
    yield "taped", tapes.tape_next(tape, row, CAPTION, [], line)[0], after
    refused = tape._replace(number=10, place=4)
    yield "refused on tape", tapes.tape_next(tape, row, [512], [], line), (refused, line)


GROUPS = (
    packets_by_hand,
    spaces_by_hand,
    rows_of_packets,
    lines_with_packets,
    refused_ready_words,
    recorded_packets,
)
