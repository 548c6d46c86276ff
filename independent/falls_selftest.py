"""The line at which V falls in 525, against answers that were written by hand from request L1."""

from independent import calls, judge, programme, tapes
from independent.command import FOLDER, Answer, answer
from independent.command_selftest import folder_of, text
from independent.judge import CLEAN_REPORT, NO_PACKETS, NO_READY, Due, Report, Walk
from independent.material import changed
from independent.packets_selftest import EMPTY
from independent.recordings import confirm, line_count, lines_of, outcome, recording, run_over
from independent.rows import BLACK_ROW, with_word
from independent.tapes import NEVER_FULL, Tape

# The fourth words of EAV and SAV by F and V: those of M1 for FVH 001, 000, 011, 010 and so on.
CODES = {(0, 0): (628, 512), (0, 1): (728, 684), (1, 0): (872, 796), (1, 1): (964, 944)}

# Lines of 525 with F = 1: "266-525, 1-3".
SECOND_FIELD = 266

# What is said where line, system and the rows of a frame of 525 are these.
NOTE = (
    "record: the last frame is not whole: line {} of {} is awaited "
    "(a frame of 525 has {} rows, one of 625 has 576)"
)

PICTURE = [4, 5, 6, 7] * 360
SAMPLES = judge.samples_of(PICTURE)


def by_hand(line, v):
    """A line of 525 with this V."""
    f = int(line >= SECOND_FIELD or line <= 3)
    eav, sav = CODES[f, v]
    active = [512, 64] * 720 if v else PICTURE
    return [1023, 0, 0, eav] + [512, 64] * 134 + [1023, 0, 0, sav] + active


def lines_by_hand(start, vs):
    """Lines of 525 from one on, with these V; none is behind the last of a frame."""
    return [by_hand(line, v) for line, v in enumerate(vs, start)]


def of_hand(start, vs):
    return recording(525, start, lines_by_hand(start, vs))


def result(line, v, record):
    """Number and place of a line of 525 after a record, and what the walk records then."""
    judgement = judge.judged(Walk(525, line, 5, 2, record), by_hand(line, v))
    return *judgement[:2], judgement.walk.fallen


def lines_read():
    """Which V is due after no and after yes."""
    for lines, due in (
        ((1, 3, 9, 264, 272), ((1,), (1,))),
        ((10, 273), ((0, 1), (0, 1))),
        ((11, 12, 19, 274, 282), ((0, 1), (0,))),
        ((20, 21, 263, 283, 525), ((0,), (0,))),
    ):
        for line in lines:
            for record in (0, 1, 7, 2**32 - 1):
                for v in (0, 1):
                    is_due = v in due[record > 0]
                    expected = (0, 0, 1 - v) if is_due else (9, 3, record)
                    yield f"line {line}, V {v} after {record}", result(line, v, record), expected


def lines_of_625():
    """In 625 the record is kept and never looked at."""
    for line, v in ((12, 1), (22, 1), (23, 0), (274, 0), (312, 1), (336, 0)):
        words = judge.write(625, line, 7, *SAMPLES, *NO_READY, [0] * 1728)[2]
        for record in (0, 7):
            after = judge.judged(Walk(625, line, 5, 2, record), words)
            yield f"625 line {line} after {record}", (*after[:2], after.walk[4]), (0, 0, 1 - v)
        due = Due(625, int(line > 312), 1 - v, 512, 64)
        other = judge.write_line(due, *SAMPLES, *NO_READY, [0] * 1728)[2]
        refused = judge.judged(Walk(625, line, 5, 2, 7), other)
        yield f"625 line {line} refused", (*refused[:2], refused.walk[4]), (9, 3, 7)


def codes_read():
    """The corrected V of the EAV decides, and a SAV with another is refused."""
    walk = Walk(525, 15, 5, 2, 0)
    for v, changes, expected in (
        # Bit 7 is V: 628 with it inverted corrects to 628, and the line has samples.
        (0, {3: 628 ^ 128}, (0, 0, Report(1, 7, 0, 0))),
        (1, {3: 728 ^ 128}, (0, 0, Report(1, 7, 0, 0))),
        (0, {275: 512 ^ 128}, (0, 0, Report(0, 0, 1, 7))),
        (1, {3: 728 ^ 4, 275: 684 ^ 256}, (0, 0, Report(1, 2, 1, 8))),
        (0, {275: 684}, (9, 275, CLEAN_REPORT)),
        (1, {275: 512}, (9, 275, CLEAN_REPORT)),
        (0, {275: 684 ^ 4}, (9, 275, CLEAN_REPORT)),
        (0, {3: 728}, (9, 275, CLEAN_REPORT)),
        (0, {3: 728, 275: 684}, (10, 276, CLEAN_REPORT)),
        (1, {3: 628, 275: 512}, (0, 0, CLEAN_REPORT)),
        (0, {3: 872}, (9, 3, CLEAN_REPORT)),
        (0, {3: 512}, (9, 3, CLEAN_REPORT)),
        (0, {3: 632}, (8, 3, CLEAN_REPORT)),
        (0, {3: 116}, (7, 3, CLEAN_REPORT)),
        (0, {3: 1024 + 628}, (5, 3, CLEAN_REPORT)),
        (0, {276: 3}, (11, 276, CLEAN_REPORT)),
        (1, {276: 4}, (10, 276, CLEAN_REPORT)),
    ):
        got = judge.judged(walk, changed(by_hand(15, v), changes))
        yield f"V {v} with {changes}", got[:3], expected
    packets = changed(by_hand(15, 1), dict(enumerate(EMPTY, 276)))
    yield "packets with V = 1", judge.judged(walk, packets).packets, (0, 7)
    plain = changed(by_hand(15, 0), dict(enumerate(EMPTY, 276)))
    yield "no packets with V = 0", judge.judged(walk, plain)[:2], (11, 276)
    buffers = judge.samples_of([7] * 1440)
    yield "taken", judge.take(walk, by_hand(15, 0), *buffers), (0, 0, *SAMPLES)
    yield "not taken", judge.take(walk, by_hand(15, 1), *buffers), (0, 0, *buffers)
    yield "active part", judge.active(walk, by_hand(15, 0)), PICTURE
    yield "no active part", judge.active(walk._replace(fallen=7), by_hand(15, 1)), []


def byte_judge():
    """The byte judge takes the record as 0 for no, else yes."""
    for v, record, due in (
        (0, 0, 0), (1, 0, 0), (0, 7, 0), (1, 1, (9 << 16) + 3), (1, 2**32 - 1, (9 << 16) + 3),
    ):  # fmt: skip
        data = judge.bytes_of(by_hand(274, v))
        yield f"V {v} after {record}", judge.capture_judge(525, 274, 0, 0, record, 0, data), due


def dues():
    """What is due by a fourth word, where either V is due and where not."""
    no, yes = Walk(525, 14, 0, 0, 0), Walk(525, 14, 0, 0, 2)
    for walk, fourth, v in (
        (no, 628, 0), (no, 728, 1), (no, 628 ^ 128, 0), (no, 728 ^ 128, 1), (no, 796, 0),
        (no, 964, 1), (no, 632, 1), (no, 116, 1), (no, 65_535, 1), (yes, 628, 0), (yes, 728, 0),
        (yes, 632, 0), (yes._replace(line=10), 728, 1), (yes._replace(line=10), 628, 0),
        (no._replace(line=9), 628, 1), (no._replace(line=20), 728, 0),
        (no._replace(system=625), 628, 1), (no._replace(system=0), 628, 1),
        (no._replace(line=526), 728, 0), (no._replace(line=0), 728, 0),
    ):  # fmt: skip
        yield f"due at {walk} by {fourth}", judge.walk_due(walk, fourth).v, v


def numbers():
    """The V that is written, and what refuses its numbers."""
    for line, fall, v in (
        (9, 10, 1), (10, 10, 0), (19, 10, 0), (10, 11, 1), (19, 20, 1), (20, 20, 0), (263, 20, 0),
        (264, 10, 1), (272, 10, 1), (273, 10, 0), (282, 20, 1), (283, 20, 0), (525, 20, 0),
        (0, 20, 0), (1, 0, 0), (1, 1, 0), (1, 2, 1), (264, 0, 0), (264, 1, 0), (264, 2, 1),
        (2**32 - 2, 2**32 - 1, 1), (2**32 - 1, 2**32 - 1, 1), (2**32 - 1, 2**32 - 264, 0),
        (2**32 - 1, 2**32 - 263, 1), (300, 37, 0), (300, 38, 1),
    ):  # fmt: skip
        yield f"V of {line} by {fall}", judge.v_written(525, line, fall), v
        due = 525, int(266 <= line <= 525 or 1 <= line <= 3), v, 512, 64
        yield f"due in {line} by {fall}", judge.due_of(525, line, fall), due
    table = [judge.table_v(525, line) for line in range(600)]
    yield "the table's", [judge.v_written(525, line, 20) for line in range(600)], table
    of_625 = [judge.v_written(625, 22, fall) for fall in (0, 10, 2**32 - 1)]
    yield "625 ignores it", of_625, [1, 1, 1]
    for given, refusal in (
        ((525, 1, 10), (0, 0)), ((525, 525, 20), (0, 0)), ((525, 1, 9), (2, 0)),
        ((525, 1, 21), (2, 0)), ((525, 1, 0), (2, 0)), ((525, 1, 2**32 - 1), (2, 0)),
        ((525, 0, 10), (2, 0)), ((525, 526, 10), (2, 0)), ((524, 0, 0), (1, 0)),
        ((625, 625, 0), (0, 0)), ((625, 1, 2**32 - 1), (0, 0)), ((625, 626, 10), (2, 0)),
    ):  # fmt: skip
        yield f"numbers {given}", calls.written_refusal(*given), refusal


def lines_written():
    words = [7] * 1716
    for line, fall in ((10, 10), (12, 12), (273, 10), (283, 20), (100, 15)):
        got = judge.write(525, line, fall, *SAMPLES, *NO_READY, words)
        yield f"{line} by {fall}", got, (0, 0, by_hand(line, 0))
    for line, fall in ((9, 10), (11, 12), (272, 10), (282, 20), (1, 15), (264, 15)):
        got = judge.write(525, line, fall, *judge.samples_of([0] * 1440), *NO_READY, words)
        yield f"{line} by {fall}", got, (0, 0, by_hand(line, 1))
    for given, refusal in (
        ((525, 15, 9, [], [], [], [], [], []), (2, 0)),
        ((525, 15, 21, *SAMPLES, [], [], words), (2, 0)),
        ((525, 15, 10, *SAMPLES, [], [], []), (3, 0)),
        ((525, 15, 15, *SAMPLES, [], EMPTY, words), (3, 5)),
        ((525, 15, 16, *SAMPLES, [], EMPTY, words), (0, 0)),
        ((525, 15, 15, *judge.samples_of([3] * 1440), [], [], words), (12, 0)),
    ):
        yield f"written {given[:3]}, {refusal}", judge.write(*given)[:2], refusal


def lines_recorded():
    """The recorder goes by the fall line, whatever the walk records."""
    line = bytes(3432)
    walk = Walk(525, 12, 5, 0, 9)
    picture = judge.bytes_of(by_hand(12, 0)[:276]) + b"\0\2\x40\0" * 720
    got = tapes.record(walk, 12, BLACK_ROW, *NO_READY, line)
    after = 525, 13, 6, 0, 1, 0
    yield "row", got, (0, 0, CLEAN_REPORT, after, NO_PACKETS, picture)
    got = tapes.record(walk, 13, b"", *NO_READY, line)
    fill = judge.bytes_of(by_hand(12, 1))
    yield "fill", got, (0, 0, CLEAN_REPORT, (525, 13, 6, 0, 0, 0), NO_PACKETS, fill)
    full = Walk(525, 12, 10_000_000, 0, 9)
    for at, fall, row, lent, refusal in (
        (walk, 21, b"", b"", (2, 0)), (full, 21, b"", b"", (2, 0)), (full, 20, b"", b"", (4, 0)),
        (walk, 20, b"", b"", (3, 0)), (walk, 12, b"", line, (3, 1)),
        (Walk(525, 526, 0, 0), 9, b"", b"", (2, 0)), (Walk(5, 0, 0, 0), 9, b"", b"", (1, 0)),
        (walk, 12, with_word(BLACK_ROW, 0, 0), line, (12, 0)),
    ):  # fmt: skip
        got = tapes.record(at, fall, row, *NO_READY, lent)
        yield f"refused {refusal}, {fall}", got, (*refusal, CLEAN_REPORT, at, NO_PACKETS, lent)
    for line_number, fall, takes, ends in (
        (12, 12, 1, 0), (12, 13, 0, 1), (275, 12, 1, 0), (275, 13, 0, 1), (1, 10, 0, 0),
        (263, 20, 1, 0), (264, 10, 0, 1), (12, 2**32 - 1, 0, 1), (12, 0, 1, 0),
    ):  # fmt: skip
        at = Walk(525, line_number, 1, 0)
        got = tapes.takes_row(at, fall), tapes.ends_frame(at, fall)
        yield f"line {line_number} by {fall}", got, (takes, ends)


def tapes_by_fall():
    none = (0,) * 6
    for given, tape in (
        ((525, 9, 7, 10), ((525, 9, 0, 0, 0, 0), 7, 10, 0, 0)),
        ((525, 9, 7, 21), (none, 7, 21, 2, 0)),
        ((526, 9, 7, 21), (none, 7, 21, 1, 0)),
        ((625, 9, 7, 21), ((625, 9, 0, 0, 0, 0), 7, 21, 0, 0)),
    ):
        yield f"begun {given}", tapes.begin_tape(*given), tape
    tape = tapes.begin_tape(525, 10, NEVER_FULL, 11)
    second = tapes.tape_next(tape, b"", *NO_READY, bytes(3432))[0]
    yield "V = 1", second, tape._replace(walk=Walk(525, 11, 1, 0, 0))
    third = tapes.tape_next(second, BLACK_ROW, *NO_READY, bytes(3432))[0]
    yield "V = 0", third, tape._replace(walk=Walk(525, 12, 2, 0, 1))
    yield "refused", tapes.tape_next(third, b"", *NO_READY, bytes(3432))[0][:3], third[:3]
    yield "ends", [tapes.tape_ends(each) for each in (tape, second, third)], [0, 0, 0]
    later = second._replace(fall=12)
    yield "ends by its fall line", tapes.tape_ends(later), 1
    yield "ends by any fall line", tapes.tape_ends(later._replace(fall=21)), 1
    full = Tape(Walk(525, 1, 525, 3, 1, 3), 1049, 11, 0, 0)
    yield "turned", tapes.turned(full), ((525, 1, 0, 0, 0, 0), 1049, 11, 0, 0)


def frames():
    """Of a frame of 525, 264 - f lines of the first field have V = 0, and 263 - f of the second."""
    falls = range(10, 21)
    counts = [507, 505, 503, 501, 499, 497, 495, 493, 491, 489, 487]
    yield "rows of 525", [tapes.frame_rows(525, fall=fall) for fall in falls], counts
    yield "rows of 625", tapes.frame_rows(625, fall=10), 576
    for fall, rows in ((10, 507), (15, 497)):
        whole = programme.record(525, 1, BLACK_ROW * rows, fall)[0]
        yield f"frame by {fall}", line_count(whole), 525
        more = programme.record(525, 1, BLACK_ROW * (rows + 1), fall)[0]
        yield f"a row more by {fall}", line_count(more), 525 + fall
        codes = [words[3] for words in lines_of(whole)]
        yield f"EAV by {fall}", codes, [
            *[964] * 3, *[728] * (fall - 4), *[628] * (264 - fall), *[728] * 2,
            *[964] * (fall - 3), *[872] * (263 - fall),
        ]  # fmt: skip
        told = outcome(run_over(whole))
        yield f"confirmed by {fall}", told, (525, 1, 525, 0, 0, 0, 0)
        yield f"extracted by {fall}", programme.extract(whole).rows, BLACK_ROW * rows


def recordings_read():
    """Lines and result of recordings of 525."""
    for name, start, vs, told in (
        ("falling at 10", 9, (1, 0, 0), (3, "0 0 0")),
        ("falling at 12", 9, (1, 1, 1, 0, 0), (5, "0 0 0")),
        ("falling at 9", 8, (1, 0), (1, "9 9 3")),
        ("never falling", 18, (1, 1, 1), (2, "9 20 3")),
        ("rising at 11", 9, (1, 0, 1), (2, "9 11 3")),
        ("rising at 19", 10, (1, 0, 0, 0, 0, 0, 0, 0, 0, 1), (9, "9 19 3")),
        ("rising at 21", 19, (0, 0, 1), (2, "9 21 3")),
        ("falling at 273", 272, (1, 0, 0), (3, "0 0 0")),
        ("rising at 275", 273, (0, 0, 1), (2, "9 275 3")),
        ("rising at 264", 262, (0, 0, 1), (3, "0 0 0")),
        ("not rising at 264", 262, (0, 0, 0), (2, "9 264 3")),
        ("fresh at 15", 15, (1, 0), (2, "0 0 0")),
        ("fresh at 15, fallen", 15, (0, 1), (1, "9 16 3")),
    ):
        lines, refusal = told
        counts = f"START {start}", f"LINES {lines}", "REPAIRS 0"
        due = text("SYSTEM 525", *counts, f"RESULT {refusal}")
        yield name, confirm(of_hand(start, vs)), due
    over = recording(525, 525, lines_by_hand(525, (0,)) + lines_by_hand(1, (1,) * 9 + (0, 0)))
    yield "over line 1", outcome(run_over(over))[2:5], (12, 0, 0)
    not_risen = recording(525, 525, lines_by_hand(525, (0,)) + lines_by_hand(1, (0,)))
    yield "not rising at 1", outcome(run_over(not_risen))[2:], (1, 0, 9, 1, 3)
    lines = lines_by_hand(9, (1, 0, 0))
    extracted = programme.extract(recording(525, 9, lines + lines_by_hand(12, (1,))))
    yield "rows before V rises", len(extracted.rows), 2 * 1920


def command_falls():
    """The option --fall."""
    for words, rows, lines, note in (
        ("--fall 10 525 9", 2, 3, (12, 525, 507)),
        ("--fall 12 525 9", 2, 5, (14, 525, 503)),
        ("--fall 20 525 19", 1, 2, (21, 525, 487)),
        ("525 19", 1, 2, (21, 525, 487)),
        ("--fall 9 --fall 010 525 9", 1, 2, (11, 525, 507)),
        ("--fall 10 525 263", 1, 10, (273, 525, 507)),
        ("--fall 10 625 22", 1, 2, (24, 625, 487)),
        ("--fall 999999999 625 22", 1, 2, (24, 625, 487)),
    ):
        got = answer(["record", *words.split()], BLACK_ROW * rows)
        said = text(NOTE.format(*note))
        yield words, (line_count(got.output), *got[1:3]), (lines, said, 0)
    no_line = (
        "record: refused 2, line 0, place 0: "
        "the start line is not one of the system, or --fall of 525 is not 10 to 20"
    )
    no_system = "record: refused 1, line 0, place 0: the system is neither 525 nor 625"
    for words, said in (
        ("--fall 9 525 1", no_line), ("--fall 21 525 1", no_line), ("--fall 0 525 1", no_line),
        ("--into d --fall 21 525 1", no_line), ("--fall 21 --packets none 525 1", no_line),
        ("--fall 21 525 526", no_line), ("--fall 21 524 1", no_system),
    ):  # fmt: skip
        got = answer(["record", *words.split()], BLACK_ROW, {"e": FOLDER})
        yield words, got, Answer(b"", text(said), 1, {"e": FOLDER})
    usage = (
        "usage: fiskrogn record [--into FOLDER [--frames N]] [--packets FILE] [--fall LINE] "
        "SYSTEM START"
    )
    for words, said in (
        ("--fall", "an argument is missing"),
        ("--fall x 525 1", "x is no number of one to nine digits"),
        ("--fall -1 625 1", "-1 is no number of one to nine digits"),
        ("--fall 10 525", "an argument is missing"),
        ("525 1 --fall 10", "there is no place for the argument --fall"),
    ):
        got = answer(["record", *words.split()], BLACK_ROW)
        yield words, got, Answer(b"", text(f"record: {said}", usage), 2)


def folders_by_fall():
    """The second recording of a frame each; both by one fall line, with no record between them."""
    words = ["record", "--into", "d", "--frames", "1", "--fall", "10", "525", "525"]
    first = programme.record(525, 525, BLACK_ROW)[0]
    second = programme.record(525, 1, BLACK_ROW, 10)[0]
    due = Answer(b"", text(NOTE.format(11, 525, 507)), 0, folder_of(first, second))
    yield "two recordings", answer(words, BLACK_ROW * 2), due
    files = folder_of(of_hand(11, (1, 0)), of_hand(13, (1, 0)))
    got = answer(["extract", "d"], b"", files)
    yield "no record between", (len(got.output), got.status), (2 * 1920, 0)


GROUPS = (
    lines_read,
    lines_of_625,
    codes_read,
    byte_judge,
    dues,
    numbers,
    lines_written,
    lines_recorded,
    tapes_by_fall,
    frames,
    recordings_read,
    command_falls,
    folders_by_fall,
)
