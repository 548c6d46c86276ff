"""The tally of repairs in a field, against answers that were written by hand from request L9.

The tallies of random lines in turn are compared with its sentence, taken over all of the lines.
"""

import struct
from itertools import product
from random import Random

from independent import calls, finished, judge, kinds, protocol, recordings, tapes
from independent.falls_selftest import SAMPLES
from independent.judge import CLEAN_REPORT, NO_PACKETS, NO_READY, Due, PacketWords, Report, Walk
from independent.material import changed
from independent.protocol import Case, Wide
from independent.recordings import Run, confirm, recording
from independent.rows import BLACK_ROW
from independent.tapes import NEVER_FULL, Tape

# Words of a line, and where its fourth words are.
WORDS = {525: 1716, 625: 1728}
FOURTHS = {525: (3, 275), 625: (3, 287)}

# Where F turns: "266-525, 1-3" and "313-625".
BEGINNINGS = {525: [4, 266], 625: [1, 313]}

ONE_REPAIRED = Report(0, 0, 1, 8)
BOTH_REPAIRED = Report(1, 2, 1, 8)

HIGHEST = 2**32 - 1


def f_by_hand(system, line):
    """The F of a line, as the table of document 01 has it."""
    return int(line >= 266 or line <= 3) if system == 525 else int(line >= 313)


def damaged(system, line, count, fall=20):
    """A line with bit 4 inverted in so many of its two codes, the second one first."""
    words = judge.write(system, line, fall, *SAMPLES, *NO_READY, [0] * WORDS[system])[2]
    offsets = FOURTHS[system][2 - count :]
    return changed(words, {offset: words[offset] ^ 16 for offset in offsets})


def tallies_of(system, start, counts, fall=20):
    """The tally after each line of a fresh walk, so many codes of each being repaired."""
    walk, tallies = judge.fresh(system, start)[2], []
    for count in counts:
        judgement = judge.judged(walk, damaged(system, walk.line, count, fall))
        walk = judgement.walk
        tallies.append(walk.tally if judgement.number == 0 else None)
    return tallies


def beginnings():
    """The lines that begin a count anew are those at which F turns, and no others."""
    for system, expected in BEGINNINGS.items():
        lines = range(1, system + 1)
        walks = [Walk(system, line, 9, 9, 0, 5) for line in lines]
        after = [judge.judged(walk, damaged(system, walk.line, 0)) for walk in walks]
        yield f"all of {system} read", {each.number for each in after}, {0}
        begun = [line for line, each in zip(lines, after) if each.walk.tally == 0]
        yield f"anew in {system}", begun, expected
        kept = {each.walk.tally for line, each in zip(lines, after) if line not in expected}
        yield f"kept in {system}", kept, {5}


def repairs_of_a_line():
    """The repairs of the line that begins a count are in it."""
    for system, line, begins in (
        (525, 525, False), (525, 1, False), (525, 3, False), (525, 4, True), (525, 5, False),
        (525, 265, False), (525, 266, True), (525, 267, False), (625, 312, False),
        (625, 313, True), (625, 314, False), (625, 625, False), (625, 1, True), (625, 2, False),
    ):  # fmt: skip
        for tally, count in product((0, 1, 9), range(3)):
            walk = Walk(system, line, 9, 9, 0, tally)
            after = judge.judged(walk, damaged(system, line, count)).walk
            due = count if begins else tally + count
            name = f"line {line} of {system}, {count} after {tally}"
            yield name, (after.repairs, after.tally), (9 + count, due)


def lines_in_turn():
    for name, system, start, counts, tallies in (
        ("to the first field of 525", 525, 2, (2, 1, 2, 0, 1), [2, 3, 2, 2, 3]),
        ("to the second field of 525", 525, 264, (1, 1, 0, 1, 2), [1, 2, 0, 1, 3]),
        ("over line 1 of 525", 525, 524, (1, 2, 1, 0, 2, 1, 1), [1, 3, 4, 4, 6, 1, 2]),
        ("to the second field of 625", 625, 311, (2, 2, 1, 1), [2, 4, 1, 2]),
        ("to the first field of 625", 625, 624, (1, 1, 2, 1), [1, 2, 2, 3]),
        ("from the first line of a field", 525, 4, (2, 1), [2, 3]),
        ("from another first line of one", 625, 313, (1, 0, 2), [1, 1, 3]),
        ("clean", 625, 311, (0, 0, 0, 0), [0, 0, 0, 0]),
        # V turns and F does not.
        ("over V's fall in 525", 525, 19, (1, 1, 1), [1, 2, 3]),
        ("over V's fall in the second field", 525, 282, (1, 1, 1), [1, 2, 3]),
        ("over V's rise in 525", 525, 263, (1, 1, 1), [1, 2, 3]),
        ("over V's fall in 625", 625, 22, (1, 2, 1), [1, 3, 4]),
        ("over V's rise in 625", 625, 310, (1, 2, 1), [1, 3, 4]),
        ("over V's rise at a frame's end", 625, 623, (1, 2, 1), [1, 3, 4]),
    ):
        yield name, tallies_of(system, start, counts), tallies
    early = tallies_of(525, 10, (1, 1, 1, 1), fall=12)
    yield "where V falls early", early, [1, 2, 3, 4]


def fresh_walks():
    yield "fresh", judge.fresh(525, 4), (0, 0, (525, 4, 0, 0, 0, 0))
    yield "no system", judge.fresh(526, 4), (1, 0, (0, 0, 0, 0, 0, 0))
    yield "no line", judge.fresh(525, 526), (2, 0, (0, 0, 0, 0, 0, 0))
    yield "fresh run", recordings.fresh_run(625, 7).walk, (625, 7, 0, 0, 0, 0)
    yield "run", recordings.begin(b"\x71\2\7\0").walk, (625, 7, 0, 0, 0, 0)
    yield "tape", tapes.begin_tape(625, 7, 9, 20).walk, (625, 7, 0, 0, 0, 0)
    full = Tape(Walk(625, 1, 625, 8, 0, 8), 0, 20, 0, 0)
    yield "turned", tapes.turned(full).walk, (625, 1, 0, 0, 0, 0)


def refusals():
    """A tally may be as high as the repairs; over them it is 4, in its turn."""
    clean = damaged(625, 23, 0)
    short, spoilt = clean[1:], changed(clean, {0: 1024})
    for numbers, words, refusal in (
        ((625, 23, 5, 3, 0, 0), clean, (0, 0)),
        ((625, 23, 5, 3, 0, 3), clean, (0, 0)),
        ((625, 23, 5, 3, 0, 4), clean, (4, 0)),
        ((625, 23, 5, 3, 0, HIGHEST), clean, (4, 0)),
        ((625, 23, 0, 0, 0, 0), clean, (0, 0)),
        ((625, 23, 0, 0, 0, 1), clean, (4, 0)),
        ((625, 23, 5, 10, 0, 10), clean, (0, 0)),
        ((625, 23, 5, 10, 0, 11), clean, (4, 0)),
        ((625, 23, 5, 11, 0, 11), clean, (4, 0)),
        ((625, 23, 9_999_999, 3, 0, 3), clean, (0, 0)),
        ((625, 23, 10_000_000, 3, 0, 3), clean, (4, 0)),
        ((626, 23, 5, 3, 0, 4), clean, (1, 0)),
        ((625, 626, 5, 3, 0, 4), clean, (2, 0)),
        ((625, 0, 5, 3, 0, 4), short, (2, 0)),
        ((625, 23, 5, 3, 0, 4), short, (4, 0)),
        ((625, 23, 5, 3, 0, 4), spoilt, (4, 0)),
        ((625, 23, 5, 3, 0, 3), short, (3, 0)),
        ((625, 23, 5, 3, 0, 3), spoilt, (5, 0)),
    ):
        name = f"{numbers} with {len(words)} words, {words[0]}"
        walk, data = Walk(*numbers), judge.bytes_of(words)
        yield f"{name} judged", judge.judged(walk, words)[:2], refusal
        yield f"{name} by bytes", judge.judge_bytes(walk, data)[:2], refusal
        told = (refusal[0] << 16) + refusal[1]
        yield f"{name} in C", judge.capture_judge(*numbers, data), told


def calls_refused():
    """Every call that takes a walk, at one whose tally is over its repairs, and at its equal."""
    clean, buffers = damaged(625, 23, 2), judge.samples_of([9] * 1440)
    data = judge.bytes_of(clean)
    over, equal = Walk(625, 23, 5, 3, 1, 4), Walk(625, 23, 5, 3, 1, 3)
    yield "judged", judge.judged(over, clean), (4, 0, CLEAN_REPORT, over, NO_PACKETS)
    yield "taken", judge.take(over, clean, *buffers), (4, 0, *buffers)
    yield "taken at its equal", judge.take(equal, clean, *buffers), (0, 0, *SAMPLES)
    yield "active part", judge.active(over, clean), []
    yield "active part at its equal", len(judge.active(equal, clean)), 1440
    yield "packets", judge.packets_in(over, clean), [[], []]
    yield "walk", [calls.walk_refusal(walk) for walk in (over, equal)], [(4, 0), (0, 0)]
    standing = [calls.standing(walk, Wide(1), Wide(2)) for walk in (over, equal)]
    yield "standing", standing, [(4, 0), (3, 0)]
    row = b"\7" * 1920
    refused = 4, 0, CLEAN_REPORT, over, NO_PACKETS
    yield "extracted", tapes.extract(over, data, row), (*refused, row)
    yield "recorded", tapes.record(over, 20, BLACK_ROW, *NO_READY, data), (*refused, data)
    run, after = Run(625, 7, over, 0, 0), Walk(625, 24, 6, 5, 1, 5)
    yield "next", recordings.with_line(run, data), run._replace(number=4)
    yield "followed", recordings.follow(run, data), (run._replace(number=4), 0)
    yield "followed by none", recordings.follow(run, b""), (run, 0)
    yield "closed", recordings.close(run, b"\0"), run._replace(number=4)
    right = run._replace(walk=equal)
    yield "followed at its equal", recordings.follow(right, data), (Run(625, 7, after, 0, 0), 3456)
    tape = Tape(over, NEVER_FULL, 20, 0, 0)
    got = tapes.tape_next(tape, BLACK_ROW, *NO_READY, data)
    yield "taped", got, (tape._replace(number=4), data)
    ends = Walk(525, 264, 5, 3, 0, 3), Walk(525, 264, 5, 3, 0, 4)
    yield "ends", [tapes.tape_ends(tape._replace(walk=walk)) for walk in ends], [1, 0]
    file = finished.finishing_of(run)
    got = finished.follow(file, data, bytes(6))
    yield "finished", got, (file._replace(run=run._replace(number=4)), 0, 0, bytes(6))


def lines_refused():
    """A line that is refused leaves the tally standing, also where F would turn."""
    for system, line in ((525, 4), (525, 5), (525, 266), (625, 1), (625, 2), (625, 313)):
        walk = Walk(system, line, 9, 9, 0, 6)
        words = damaged(system, line, 1)
        for changes, refusal in (({0: 1024}, (5, 0)), ({4: 513}, (10, 4)), ({3: 632}, (8, 3))):
            got = judge.judged(walk, changed(words, changes))
            yield f"line {line} of {system}, {refusal}", (got[:2], got.walk), (refusal, walk)


def lines_written():
    """Lines that are recorded have no repairs."""
    line = bytes(3432)
    for number, tally in ((3, 6), (4, 0), (5, 6), (265, 6), (266, 0), (267, 6), (1, 6)):
        walk = Walk(525, number, 9, 9, 0, 6)
        got = tapes.record(walk, 20, b"", *NO_READY, line)
        after = 525, number + 1, 10, 9, 0, tally
        yield f"line {number} recorded", got[:5], (0, 0, CLEAN_REPORT, after, NO_PACKETS)
        tape = tapes.tape_next(Tape(walk, 0, 20, 0, 0), b"", *NO_READY, line)[0]
        yield f"line {number} taped", tape.walk, after
    over = Walk(525, 4, 9, 9, 0, 10)
    yield "fall line first", tapes.record(over, 21, b"", *NO_READY, line)[:2], (2, 0)
    yield "then the tally", tapes.record(over, 20, b"", *NO_READY, b"")[:2], (4, 0)


def walks_moved():
    """Any walk, by the system that is given and the line's number; no line's number turns nothing."""
    for system, line, report, tally, after in (
        (525, 4, BOTH_REPAIRED, 7, 2), (525, 5, ONE_REPAIRED, 7, 8),
        (525, 266, CLEAN_REPORT, 7, 0), (525, 313, ONE_REPAIRED, 7, 8),
        (525, 1, ONE_REPAIRED, 7, 8), (625, 1, ONE_REPAIRED, 7, 1),
        (625, 4, BOTH_REPAIRED, 7, 9), (7, 4, BOTH_REPAIRED, 7, 9),
        (625, 313, BOTH_REPAIRED, 7, 2), (0, 313, BOTH_REPAIRED, 7, 2),
        (625, 266, ONE_REPAIRED, 7, 8),
        (525, 0, ONE_REPAIRED, 7, 8), (625, 0, ONE_REPAIRED, 7, 8),
        (525, 526, CLEAN_REPORT, 7, 7), (525, 527, CLEAN_REPORT, 7, 7),
        (625, 626, CLEAN_REPORT, 7, 7), (625, 627, CLEAN_REPORT, 7, 7),
        (625, HIGHEST, CLEAN_REPORT, 7, 7), (625, 5, BOTH_REPAIRED, HIGHEST, 1),
        (625, 5, ONE_REPAIRED, HIGHEST, 0), (625, 5, BOTH_REPAIRED, HIGHEST - 2, HIGHEST),
    ):  # fmt: skip
        walks = Walk(525, line, 5, 3, 0, tally), Walk(9, line, HIGHEST, HIGHEST, 1, tally)
        for f, walk in product((0, 1), walks):
            due = Due(system, f, 1, 512, 64)
            name = f"F {f} of {system} at {walk}"
            yield name, calls.moved(walk, due, report).tally, after
            accepted = calls.accepted(walk, due, report, PacketWords(0, 0))
            yield f"{name} accepted", accepted.walk.tally, after


def walks_handed_over():
    """A walk goes as six numbers, the tally last; the program says no more than it did."""
    names = ("system", "line", "lines_read", "repairs", "fallen", "tally")
    yield "walk", kinds.WALK, names
    numbers = 525, 4, 5, 3, 1, 2
    for kind, arguments in (
        (protocol.WALK_REFUSAL, (Walk(*numbers),)),
        (protocol.CAPTURE_JUDGE, (*numbers, b"")),
    ):
        data = protocol.case_bytes(Case(kind, "", 0, arguments))
        yield f"kind {kind}", struct.unpack("<6I", data[8:32]), numbers
    lines = [damaged(525, line, count) for line, count in ((2, 2), (3, 1), (4, 2), (5, 0))]
    said = b"SYSTEM 525\nSTART 2\nLINES 4\nREPAIRS 5\nRESULT 0 0 0\n"
    yield "confirmed", confirm(recording(525, 2, lines)), said


def by_the_sentence(history):
    """The tally behind accepted lines, each with its F and its repairs."""
    fs = [f for f, _ in history]
    # "the latest accepted line whose F differs from the accepted line before it"
    turns = [place for place in range(1, len(fs)) if fs[place] != fs[place - 1]]
    # "that line included, or since the start"
    first = turns[-1] if turns else 0
    # "the number of repaired codes on accepted lines since"
    return sum(count for _, count in history[first:])


def read_in_turn(random, system, start, lines):
    """The tallies of a fresh walk over random lines, some refused first, and by the sentence."""
    walk, history, tallies = judge.fresh(system, start)[2], [], []
    for _ in range(lines):
        count = random.choice((0, 0, 1, 2))
        words, line = damaged(system, walk.line, count), walk.line
        if random.randrange(8) == 0:
            spoilt = changed(words, {random.randrange(len(words)): 1024})
            walk = judge.judged(walk, spoilt).walk
        walk = judge.judged(walk, words).walk
        history.append((f_by_hand(system, line), count))
        tallies.append((walk.tally, by_the_sentence(history)))
    return walk.lines_read, [got for got, _ in tallies], [due for _, due in tallies]


def whole_histories():
    """Lines in turn from any start, from before each change of F, and a frame and more."""
    random = Random("tallies")
    starts = [(system, random.randrange(system) + 1, 30) for system in (525, 625) * 20]
    for system, begins in BEGINNINGS.items():
        for line, before in product(begins, range(9)):
            starts.append((system, (line - before - 1) % system + 1, before + 3))
    starts += [(525, 300, 900), (625, 100, 1000)]
    for system, start, lines in starts:
        read, got, due = read_in_turn(random, system, start, lines)
        yield f"{lines} lines from {start} of {system}", (read, got), (lines, due)


GROUPS = (
    beginnings,
    repairs_of_a_line,
    lines_in_turn,
    fresh_walks,
    refusals,
    calls_refused,
    lines_refused,
    lines_written,
    walks_moved,
    walks_handed_over,
    whole_histories,
)
