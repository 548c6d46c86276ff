"""Whole programmes against recordings, rows and words that were written by hand."""

from independent import judge
from independent.judge import TABLE_FALL, Walk
from independent.programme import (
    Recorder,
    Unnumbered,
    descramble,
    extract,
    record,
    record_pieces,
    scramble,
    stop_of,
)
from independent.protocol import pack_slice
from independent.recordings import (
    HEADER_BYTES,
    awaited_line,
    five_lines,
    header_of,
    line_count,
    outcome,
)
from independent.rows import BLACK_ROW, row_of, samples_of_row, with_word
from independent.tapes import NEVER_FULL, Tape, piece_lines, turns


def picture_rows():
    """Rows by hand."""
    yield "three samples", row_of([512, 64, 513]), bytes.fromhex("00021120")
    yield "highest samples", row_of([1023, 1023, 1023]), bytes.fromhex("ffffff3f")
    yield "black", row_of([512, 64] * 720), BLACK_ROW
    yield "black's samples", samples_of_row(BLACK_ROW), [512, 64] * 720


def recorded_lines():
    """How many lines one row makes: fill before it, and after it to the end of its frame."""
    for system, start, lines in (
        (625, 23, 1), (625, 22, 2), (625, 1, 23), (625, 310, 26), (625, 335, 2),
        (625, 623, 3), (625, 624, 25), (625, 625, 24), (525, 20, 1), (525, 1, 20),
        (525, 263, 20), (525, 264, 20), (525, 282, 2), (525, 525, 1),
    ):  # fmt: skip
        size = HEADER_BYTES + lines * judge.line_size(system)
        output, refusal = record(system, start, BLACK_ROW)
        yield f"a row at {system} {start}", (len(output), refusal), (size, None)
    for system, rows in ((525, 487), (625, 576)):
        frame = record(system, 1, BLACK_ROW * rows)[0]
        yield f"a frame of {system}", (line_count(frame), awaited_line(frame)), (system, 1)


def recorded_pieces():
    """The lines of each recording, if those of so many frames make one full."""
    for system, start, frames, rows, lines in (
        (625, 1, 1, 576, [625]), (625, 1, 1, 577, [625, 23]), (625, 1, 2, 577, [648]),
        (625, 600, 1, 24, [26]), (625, 600, 1, 25, [26, 23]), (625, 600, 2, 601, [651, 23]),
        (525, 1, 1, 488, [525, 20]), (525, 525, 1, 1, [1]), (525, 525, 1, 489, [1, 525, 20]),
        (525, 525, 2, 489, [526, 20]), (525, 3, 1, 1, [18]), (525, 1, 1, 0, [0]),
    ):  # fmt: skip
        pieces = record_pieces(system, start, BLACK_ROW * rows, piece_lines(system, frames))[0]
        name = f"{rows} rows at {system} {start}, {frames} frames"
        yield name, list(map(line_count, pieces)), lines
        starts = [header_of(piece)[1] for piece in pieces]
        yield f"{name}, starts", starts, [start, 1, 1][: len(lines)]


def tape_at(system, line, lines, most=NEVER_FULL):
    """A tape that so many lines were written on."""
    return Tape(Walk(system, line, lines, 0), most, TABLE_FALL, *judge.ACCEPTED)


def full_pieces():
    """A recording is full where line 1 is awaited and no frame more has a place."""
    for system, line, lines, frames, full in (
        (625, 1, 9_999_375, None, False), (625, 1, 9_999_376, None, True),
        (625, 2, 10_000_000, None, False), (525, 1, 9_999_475, None, False),
        (525, 1, 9_999_476, None, True), (525, 1, 0, 1, False), (525, 1, 1, 1, True),
        (525, 1, 525, 2, False), (525, 1, 526, 2, True), (625, 1, 9_999_376, 99_999, True),
    ):  # fmt: skip
        tape = tape_at(system, line, lines, piece_lines(system, frames))
        yield f"{lines} lines at {system} {line}, {frames}", turns(tape), full
    tape = tape_at(625, 1, 625, piece_lines(625, 1))
    recorder = Recorder(tape)
    recorder.pieces *= 9_998
    yield "recording 9999", stop_of(recorder.put_line), None
    recorder.tape = tape
    yield "recording 10000", type(stop_of(recorder.put_line)), Unnumbered
    yield "9999 recordings", (len(recorder.pieces), len(recorder.pieces[-1])), (9_999, 3_460)


def recorded_rows():
    """Recordings by hand."""
    yield "no rows", record(625, 22, b""), (bytes.fromhex("71021600"), None)
    output = record(625, 23, BLACK_ROW)[0]
    yield "EAV of line 23", output[4:12], bytes.fromhex("ff03000000007402")
    yield "SAV of line 23", output[572:580], bytes.fromhex("ff03000000000002")
    yield "all else is black", output[12:572] + output[580:], b"\0\2\x40\0" * 860
    for system, start, refusal in ((0, 0, (1, 0, 0)), (526, 1, (1, 0, 0)), (525, 526, (2, 0, 0))):
        yield f"{system} {start}", record(system, start, BLACK_ROW), (b"", refusal)


def refused_rows():
    """Fill before a refused row is written, the row and what follows it are not."""
    fill = record(525, 19, BLACK_ROW)[0][: HEADER_BYTES + judge.line_size(525)]
    spare = with_word(with_word(BLACK_ROW, 479, 1 << 31), 7, 1 << 30)
    high = with_word(BLACK_ROW, 1, 1020 << 20 | 4 << 10 | 1019)
    for name, data, refusal in (
        ("short", BLACK_ROW[1:], (3, 20, 1)),
        ("spare bits", spare + BLACK_ROW, (5, 20, 7)),
        ("a high sample", high + BLACK_ROW, (12, 20, 5)),
        ("both", with_word(high, 400, 1 << 30), (5, 20, 400)),
    ):
        yield name, record(525, 19, data), (fill, refusal)


def recording_limit():
    for name, line, lines, call, refusal in (
        ("last row", 23, 9_999_999, lambda r: r.put_rows(BLACK_ROW), None),
        ("a row more", 23, 10_000_000, lambda r: r.put_rows(b"short"), (4, 23, 0)),
        ("fill more", 22, 10_000_000, lambda r: r.put_rows(BLACK_ROW), (4, 22, 0)),
        ("fill, then a row more", 22, 9_999_999, lambda r: r.put_rows(b"short"), (4, 23, 0)),
        ("end of frame", 625, 9_999_999, Recorder.close, None),
        ("end of frame beyond", 624, 9_999_999, Recorder.close, None),
        ("nothing more", 1, 10_000_000, Recorder.close, None),
    ):
        stopped = stop_of(call, Recorder(tape_at(625, line, lines)))
        yield name, stopped and stopped.args, refusal


def extracted_rows():
    clean = record(625, 309, BLACK_ROW * 3)[0]
    for name, data, rows, five in (
        ("clean", clean, 3, b"SYSTEM 625\nSTART 309\nLINES 28\nREPAIRS 0\nRESULT 0 0 0\n"),
        (
            "a byte short",
            clean[:-1],
            2,
            b"SYSTEM 625\nSTART 309\nLINES 27\nREPAIRS 0\nRESULT 3 336 0\n",
        ),
        ("no header", clean[:3], 0, b"SYSTEM 0\nSTART 0\nLINES 0\nREPAIRS 0\nRESULT 1 0 0\n"),
    ):
        extracted, run, _ = extract(data)
        yield name, (extracted, five_lines(outcome(run))), (BLACK_ROW * rows, five)


def serial_words():
    plain, coded = bytes.fromhex("01000000"), bytes.fromhex("1f02e002")
    yield "M10", scramble(plain), (coded, None)
    yield "M10 undone", descramble(coded), (plain, None)
    yield "no words", scramble(b""), (b"", None)
    yield "half a word", scramble(b"\0"), (b"", (3, 0))
    yield "over", descramble(coded + b"\0\4" + plain[1:]), (plain, (5, 2))
    yield "half at the end", scramble(plain + b"\4"), (coded, (3, 2))
    many = pack_slice([n % 1024 for n in range(70_000)])
    yield "many words", descramble(scramble(many)[0]), (many, None)


GROUPS = (
    picture_rows,
    recorded_lines,
    recorded_pieces,
    full_pieces,
    recorded_rows,
    refused_rows,
    recording_limit,
    extracted_rows,
    serial_words,
)
