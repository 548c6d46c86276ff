"""The two kinds of hopeless code, against answers that were written by hand from request L5."""

from collections import Counter
from itertools import product

from independent import calls, finished, judge, recordings, tapes
from independent.falls_selftest import SAMPLES, by_hand
from independent.judge import CLEAN, CLEAN_REPORT, NO_PACKETS, NO_READY, REFUSED, REPAIRED, Walk
from independent.material import EVEN, HOPELESS, ODD, Source, changed, inverted
from independent.recordings import Run, confirm, lines_of, outcome, recording, run_over
from independent.runs import hopeless_codes, replaced

# "fourth words for FVH 000 to 111", and the same with all seven bits inverted.
LEGAL = [512, 628, 684, 728, 796, 872, 944, 964]
ALL_INVERTED = [1020, 904, 848, 804, 736, 660, 588, 568]

# Of the words with so many bits inverted in a legal one: clean, repaired, 8 and 14.
AFTER_INVERSIONS = (
    (1, 0, 0, 0), (0, 7, 0, 0), (0, 0, 21, 0), (0, 28, 0, 7),
    (7, 0, 28, 0), (0, 21, 0, 0), (0, 0, 7, 0), (0, 0, 0, 1),
)  # fmt: skip

# Of each system a line with V = 1 and one with V = 0, and where its fourth words are.
LINES = ((525, 1, (3, 275)), (525, 100, (3, 275)), (625, 22, (3, 287)), (625, 23, (3, 287)))


def numbers(words):
    """Each refusal number of some words, and how many have it."""
    return Counter(judge.correct(word)[3] for word in words)


def told(words):
    """How many of some words are clean, repaired, refused with 8 and with 14."""
    counts = Counter(judge.correct(word)[::3] for word in words)
    return tuple(counts[each] for each in ((CLEAN, 0), (REPAIRED, 0), (REFUSED, 8), (REFUSED, 14)))


def patterns():
    """Which are 8 and which 14, and what becomes of a legal one by so many inverted bits."""
    words = [512 + 4 * pattern for pattern in range(128)]
    yield "128 patterns", told(words), (8, 56, 56, 8)
    evens = [word for word in words if f"{word:b}"[1:].count("1") % 2 == 0]
    yield "8", [word for word in evens if word not in LEGAL], EVEN
    yield "14", sorted(ALL_INVERTED), ODD
    yield "all seven bits inverted", [word ^ 508 for word in LEGAL], ALL_INVERTED
    near = {word ^ mask for word in LEGAL for mask in (0, *inverted(1))}
    yield "no legal one within one bit", sorted(set(words) - near), sorted(HOPELESS)
    for count, expected in enumerate(AFTER_INVERSIONS):
        each = {told([word ^ mask for mask in inverted(count)]) for word in LEGAL}
        yield f"{count} bits inverted", each, {expected}
    for fvh, word in enumerate(LEGAL):
        corrected = [judge.correct(word ^ mask) for mask in inverted(3)]
        read = Counter(other for tag, other, *_ in corrected if tag == REPAIRED)
        due = {other: 4 for other in range(8) if other != fvh}
        yield f"what three inverted bits make of {word}", read, due


def words_corrected():
    """5, 7, then 8 or 14; the low bits do not matter."""
    for low in range(4):
        yield f"even with {low}", numbers(word + low for word in EVEN), {8: 56}
        yield f"odd with {low}", numbers(word + low for word in ODD), {14: 8}
        in_c = [{judge.capture_correct(word + low) for word in words} for words in (EVEN, ODD)]
        yield f"in C with {low}", in_c, [{8 << 16}, {14 << 16}]
    for fvh in range(8):
        got = {calls.correct_expecting(word, fvh) for word in ODD}
        yield f"where {fvh} is expected", got, {(REFUSED, 0, 0, 14)}
    yield "without bit 9", numbers(word - 512 for word in HOPELESS), {7: 64}
    yield "over 1023", numbers(word + 1024 for word in HOPELESS), {5: 64}
    over = {judge.capture_correct(word + 65_536) for word in HOPELESS}
    yield "over 65,535 in C", over, {5 << 16}


def written(system, line):
    words = [0] * judge.SYSTEMS[system].words
    return judge.write(system, line, 20, *SAMPLES, *NO_READY, words)[2]


def lines_refused():
    """Each pattern in each code, by every way in which a line is judged."""
    for (system, line, codes), (words, number) in product(LINES, ((EVEN, 8), (ODD, 14))):
        walk, clean = Walk(system, line, 9, 3, 1, 2), written(system, line)
        for offset in codes:
            name = f"{number} at {offset}, line {line} of {system}"
            lines = [changed(clean, {offset: word}) for word in words]
            judgements = {judge.judged(walk, each) for each in lines}
            yield name, judgements, {(number, offset, CLEAN_REPORT, walk, NO_PACKETS)}
            data = [judge.bytes_of(each) for each in lines]
            by_bytes = {judge.judge_bytes(walk, each) for each in data}
            yield f"{name} by bytes", by_bytes, judgements
            in_c = {judge.capture_judge(*walk, each) for each in data}
            yield f"{name} in C", in_c, {number * 65_536 + offset}


def calls_refused():
    """Every other call that a line's number comes through."""
    walk, words = Walk(625, 23, 9, 3, 1, 2), changed(written(625, 23), {287: 1_021})
    buffers, data, row = judge.samples_of([9] * 1440), judge.bytes_of(words), b"\7" * 1920
    yield "taken", judge.take(walk, words, *buffers), (14, 287, *buffers)
    yield "active part", judge.active(walk, words), []
    yield "packets", judge.packets_in(walk, words), [[], []]
    refused = 14, 287, CLEAN_REPORT, walk, NO_PACKETS, row
    yield "extracted", tapes.extract(walk, data, row), refused
    run = Run(625, 7, walk, 0, 0)
    ended = run._replace(number=14, place=287)
    yield "extracted in a run", tapes.extract_next(run, data, row), (ended, 0, row)
    yield "next", recordings.with_line(run, data), ended
    yield "followed", recordings.follow(run, data + data), (ended, 3456)
    yield "closed", recordings.close(run, data), ended
    yield "outcome", outcome(ended), (625, 7, 9, 3, 14, 23, 287)
    file = finished.finishing_of(run)
    got = finished.follow(file, data + data, bytes(12))
    yield "on its way into a file", got, (file._replace(run=ended), 3456, 0, bytes(12))
    yield "at a file's end", finished.close(file, data), file._replace(run=ended)


def orders_of_refusal():
    """In a line at one offset 5, 7, then 8 or 14, then 9; before that the lowest offset."""
    clean = written(625, 22)
    for name, changes, refusal in (
        ("14 in both", {3: 1020, 287: 1020}, (14, 3)),
        ("8 and 14", {3: 632, 287: 1020}, (8, 3)),
        ("14 and 8", {3: 1020, 287: 632}, (14, 3)),
        ("14 behind a repaired code", {3: 728 ^ 4, 287: 568}, (14, 287)),
        ("14 before a repaired code", {3: 568, 287: 684 ^ 4}, (14, 3)),
        ("over 1023", {3: 1024 + 1020}, (5, 3)),
        ("without bit 9", {3: 1020 - 512}, (7, 3)),
        ("the code due, inverted", {3: 804}, (14, 3)),
        ("another code, inverted", {3: 904}, (14, 3)),
        ("another code with a bit inverted", {3: 628 ^ 4}, (9, 3)),
        ("behind another code", {3: 628, 287: 1020}, (9, 3)),
        ("before another code", {3: 1020, 287: 512}, (14, 3)),
        ("behind a wrong first word", {2: 4, 3: 1020}, (6, 2)),
        ("before no fill", {3: 1020, 4: 513}, (14, 3)),
        ("behind no fill", {283: 65, 287: 1020}, (10, 283)),
        ("before a word over 1023", {287: 1020, 288: 1024}, (14, 287)),
    ):
        got = judge.judged(Walk(625, 22, 9, 3), changed(clean, changes))
        yield name, got[:2], refusal
    short = judge.judged(Walk(625, 22, 9, 3), changed(clean, {3: 1020})[:-1])
    yield "behind a length", short[:2], (3, 0)
    full = judge.judged(Walk(625, 22, 10_000_000, 3), changed(clean, {3: 1020}))
    yield "behind the counts", full[:2], (4, 0)


# Lines of 525 about those where V may fall, and the V due in each after no and after yes.
FALLING = (
    (9, ((1,), (1,))), (10, ((0, 1), (0, 1))), (11, ((0, 1), (0,))), (15, ((0, 1), (0,))),
    (19, ((0, 1), (0,))), (20, ((0,), (0,))), (273, ((0, 1), (0, 1))), (282, ((0, 1), (0,))),
    (283, ((0,), (0,))),
)  # fmt: skip


def where_v_falls():
    """An EAV that does not correct is refused in its place, whatever is due behind it."""
    for (line, due), v, record in product(FALLING, (0, 1), (0, 1)):
        walk, clean = Walk(525, line, 9, 3, record), by_hand(line, v)
        for words, number in ((EVEN, 8), (ODD, 14)):
            name = f"{number} in line {line}, V {v} after {record}"
            got = {judge.judged(walk, changed(clean, {3: word})) for word in words}
            yield name, got, {(number, 3, CLEAN_REPORT, walk, NO_PACKETS)}
            got = {judge.judged(walk, changed(clean, {275: word}))[:2] for word in words}
            # An EAV with another V than is due comes before its SAV.
            refusal = (number, 275) if v in due[record] else (9, 3)
            yield f"{name}, in SAV", got, {refusal}


def runs_confirmed():
    """The program's five lines; its compared runs have every pattern in each code."""
    lines = [written(625, line) for line in (22, 23, 24)]
    for n, offset, word, result in (
        (0, 3, 1_023, "LINES 0\nREPAIRS 0\nRESULT 14 22 3"),
        (1, 287, 568, "LINES 1\nREPAIRS 0\nRESULT 14 23 287"),
        (2, 3, 632, "LINES 2\nREPAIRS 0\nRESULT 8 24 3"),
    ):
        data = recording(625, 22, replaced(lines, n, {offset: word}))
        yield result, confirm(data), f"SYSTEM 625\nSTART 22\n{result}\n".encode()
    yield "compared runs", len({*map(refused_code, compared_runs())}), 2 * 64


def compared_runs():
    return [data for data, _ in hopeless_codes(Source(0, "hopeless"))]


def refused_code(data):
    """The fourth word, but for its low bits, that refuses a recording, and whether it is EAV's."""
    ended = outcome(run_over(data))
    return lines_of(data)[ended.lines][ended.place] & ~3, ended.place == 3


GROUPS = (
    patterns,
    words_corrected,
    lines_refused,
    calls_refused,
    orders_of_refusal,
    where_v_falls,
    runs_confirmed,
)
