"""The model of the command against answers that were written by hand."""

import os

from independent import programme
from independent.command import (
    ANY_TEXT,
    FOLDER,
    READ_TEXTS,
    USES,
    Answer,
    Report,
    answer,
    refused,
    say_how_it_ends,
    shown,
    shown_hours,
    waiting,
    with_pieces,
)
from independent.packets_selftest import EMPTY
from independent.programme import record
from independent.protocol import pack_slice
from independent.recordings import Outcome, header, lines_of, recording
from independent.rows import BLACK_ROW
from independent.runs import replaced
from independent.totals import no_totals, with_read

# Two lines of 625, the second with a picture's row, and what confirms them.
TWO_LINES = record(625, 22, BLACK_ROW)[0]
FIVE_LINES = b"SYSTEM 625\nSTART 22\nLINES 2\nREPAIRS 0\nRESULT 0 0 0\n"
ROW = "SYSTEM 625 START 22 LINES 2 REPAIRS 0 RESULT 0 0 0"


def two_lines_with(steps, offset, *words):
    """The two lines with words of one changed from an offset on."""
    lines = replaced(lines_of(TWO_LINES), steps, dict(enumerate(words, offset)))
    return recording(625, 22, lines)


def text(*lines):
    return "".join(f"{line}\n" for line in lines).encode()


def row_and_totals(name):
    """What is said of the two lines alone in a folder."""
    return text(f"{ROW} {name}", "FILES 1 LINES 2 HOURS 0.0000 REPAIRS 0 REFUSED 0 UNREAD 0")


def shown_names():
    yield "spaces", shown(" a  b.rec"), " a  b.rec"
    yield "odd bytes", shown("a\n\t\\\x7f\x1f"), r"a\x0a\x09\x5c\x7f\x1f"
    yield "others", os.fsencode(shown(os.fsdecode(b"\xff~\xc3\xa9"))), b"\xff~\xc3\xa9"


def wrong_uses():
    """The first line of wrong use; the second is that of the verb."""
    for words, said in (
        ("", "fiskrogn: a verb is missing"),
        ("Confirm", "fiskrogn: there is no verb Confirm"),
        ("-x confirm", "fiskrogn: there is no verb -x"),
        ("help x", "fiskrogn: there is no verb x"),
        ("help x confirm", "fiskrogn: there is no verb x"),
        ("help confirm x", "help: there is no place for the argument x"),
        ("help -x", "help: there is no option -x"),
        ("confirm -x a", "confirm: there is no option -x"),
        ("extract a b c", "extract: there is no place for the argument b"),
        ("scramble 1", "scramble: there is no place for the argument 1"),
        ("descramble -- -x", "descramble: there is no place for the argument -x"),
        ("record", "record: an argument is missing"),
        ("record x", "record: an argument is missing"),
        ("record x 1 y", "record: there is no place for the argument y"),
        ("record x y", "record: x is no number of one to nine digits"),
        ("record 625 -1", "record: -1 is no number of one to nine digits"),
        ("record -1 625", "record: there is no option -1"),
        ("record --into", "record: an argument is missing"),
        ("record --into d --frames", "record: an argument is missing"),
        ("record --into d --frames x 625 1", "record: x is no number of one to nine digits"),
        ("record --into d --frames 0 x", "record: --frames takes 1 or more"),
        ("record --frames 0 x", "record: --frames goes with --into"),
        ("record --frame 1 625 1", "record: there is no option --frame"),
        ("record --packets p", "record: an argument is missing"),
        ("record --packets  625 1", "record: an argument is missing"),
        ("extract --packets", "extract: an argument is missing"),
        ("extract --packets p a b", "extract: there is no place for the argument b"),
        ("packets --packets p", "packets: there is no option --packets"),
        ("packets a b", "packets: there is no place for the argument b"),
    ):
        verb = said.partition(":")[0]
        due = Answer(b"", text(said, f"usage: fiskrogn {USES[verb]}"), 2)
        given = words.split(" ") if words else []
        yield f"fiskrogn {words}", answer(given, BLACK_ROW), due


def right_uses():
    """Arguments that are taken."""
    yield "help", answer(["confirm", "--help"]), Answer(ANY_TEXT, b"", 0)
    yield "help of help", answer(["help", "help"]), Answer(ANY_TEXT, b"", 0)
    yield "version", answer(["--version"]), Answer(b"fiskrogn 0.1.0\n", b"", 0)
    files = {"-": TWO_LINES, "--": TWO_LINES, "-x": TWO_LINES}
    for words in (["-"], ["--", "--"], ["--", "-x"]):
        yield f"{words}", answer(["confirm", *words], b"", files)[:3], (FIVE_LINES, b"", 0)
    yield "options end", answer(["confirm", "--"], TWO_LINES), Answer(FIVE_LINES, b"", 0)


def said_refusals():
    """The sentence of each refusal."""
    for data, said in (
        (header(624, 22), "1, line 0, place 0: the system is neither 525 nor 625"),
        (header(625, 626), "2, line 0, place 0: the start line is not one of the system"),
        (TWO_LINES[:-1], "3, line 23, place 0: the recording ends inside a line"),
        (two_lines_with(0, 300, 1_024), "5, line 22, place 300: a word is over 1023"),
        (
            two_lines_with(0, 1, 4),
            "6, line 22, place 1: one of the first three words of a timing code is wrong",
        ),
        (two_lines_with(0, 3, 116), "7, line 22, place 3: bit 9 of a fourth word is 0"),
        (
            two_lines_with(1, 3, 632),
            "8, line 23, place 3: a timing code has no legal code within one inverted bit, "
            "and an even number of ones",
        ),
        (
            two_lines_with(0, 3, 628),
            "9, line 22, place 3: a timing code is not the one due here",
        ),
        (two_lines_with(0, 4, 513), "10, line 22, place 4: fill is due and is not there"),
        (
            two_lines_with(1, 288, 3),
            "11, line 23, place 288: a reserved word stands where a sample or a user word is due",
        ),
        (
            two_lines_with(0, 287, 848),
            "14, line 22, place 287: a timing code has no legal code within one inverted bit, "
            "and an odd number of ones",
        ),
        (
            two_lines_with(1, 4, *EMPTY, *EMPTY[:4], 0),
            "15, line 23, place 15: a header word of a packet has bad parity",
        ),
        (
            two_lines_with(0, 288, *EMPTY[:6], 0),
            "16, line 22, place 294: a packet's checksum is wrong",
        ),
        (
            two_lines_with(1, 4, *EMPTY * 3, *EMPTY[:5], 767),
            "17, line 23, place 30: a packet runs past its space",
        ),
    ):
        due = (text(f"confirm: refused {said}"), 1)
        yield said, answer(["confirm"], data)[1:3], due
        due = (text(f"extract: a\\x09b: refused {said}"), 1)
        got = answer(["extract", "a\tb"], b"", {"a\tb": data})
        yield f"{said}, of a file", (text(got.errors.decode().split("\n")[5]), got.status), due
    said = "refused 4, line 9, place 0: it goes on after 10000000 lines"
    yield said, refused((4, 9, 0), READ_TEXTS), said


def confirmed_files():
    spoilt, odd = two_lines_with(1, 3, 632), two_lines_with(0, 3, 1_023)
    files = {"a": TWO_LINES, "b": spoilt, "c": b"\0", "d": FOLDER, "e": odd}
    yield "a file", answer(["confirm", "a"], b"", files), Answer(FIVE_LINES, b"", 0, files)
    said = b"confirm: x could not be read: REASON\n"
    for name in ("x", "a/", "a/x"):
        due = (b"", said.replace(b"x", name.encode(), 1), 2)
        yield f"no file {name}", answer(["confirm", name], b"", files)[:3], due
    output = text(
        f"{ROW} a",
        "SYSTEM 625 START 22 LINES 1 REPAIRS 0 RESULT 8 23 3 b",
        "SYSTEM 0 START 0 LINES 0 REPAIRS 0 RESULT 1 0 0 c",
        "UNREAD ",
        "UNREAD d",
        "SYSTEM 625 START 22 LINES 0 REPAIRS 0 RESULT 14 22 3 e",
        "FILES 6 LINES 3 HOURS 0.0000 REPAIRS 0 REFUSED 3 UNREAD 2",
    )
    errors = text(
        "confirm: b: refused 8, line 23, place 3: "
        "a timing code has no legal code within one inverted bit, and an even number of ones",
        "confirm: c: refused 1, line 0, place 0: the system is neither 525 nor 625",
        "confirm:  could not be read: REASON",
        "confirm: d holds no numbered recordings (0001.rec and so on)",
        "confirm: e: refused 14, line 22, place 3: "
        "a timing code has no legal code within one inverted bit, and an odd number of ones",
    )
    got = answer(["confirm", "a", "b", "c", "", "d", "e"], b"", files)
    yield "several", got, Answer(output, errors, 2, files)
    yield "refused wins", answer(["confirm", "b", "a"], b"", files).status, 1


def summed_hours():
    """2741 lines of 625 and 72 of 525 are half a ten-thousandth."""
    for of_625, of_525, due in (
        (0, 0, "0.0000"), (2_812, 0, "0.0000"), (2_813, 0, "0.0001"), (0, 2_832, "0.0000"),
        (0, 2_833, "0.0001"), (2_741, 71, "0.0000"), (2_741, 72, "0.0001"),
        (2_740, 72, "0.0000"), (10_000_000, 0, "0.1778"), (56_250_000, 0, "1.0000"),
        (0, 56_643_357, "1.0000"), (562_500_000, 56_643_357, "11.0000"),
    ):  # fmt: skip
        totals = no_totals()
        for system, lines in ((625, of_625), (525, of_525), (0, 9)):
            totals = with_read(totals, Outcome(system, 1, lines, 0, 0, 0, 0))
        yield f"{of_625} and {of_525} lines", shown_hours(totals), due


def folder_of(*pieces):
    """A folder d with the pieces under their numbers."""
    return with_pieces({}, "d", pieces)


def confirmed_folders():
    """Rows of files: the second and third recording are lines 24 and 25."""
    second, third = (record(625, line, BLACK_ROW)[0] for line in (24, 25))
    row = "SYSTEM 625 START {0} LINES 1 REPAIRS 0 RESULT 0 0 0 d/000{1}.rec"
    totals_3 = "FILES 3 LINES {} HOURS 0.0000 REPAIRS 0 REFUSED {} UNREAD {}"
    first_row = f"{ROW} d/0001.rec"
    for name, pieces, rows, said, status in (
        (
            "whole", (TWO_LINES, second, third),
            (first_row, row.format(24, 2), row.format(25, 3), totals_3.format(4, 0, 0)), (), 0,
        ),
        (
            "one missing", (TWO_LINES, None, third),
            (first_row, "UNREAD d/0002.rec", row.format(25, 3), totals_3.format(3, 0, 1)),
            ("confirm: d/0002.rec is missing",), 2,
        ),
        (
            "not following", (TWO_LINES, third, header(625, 26)),
            (
                first_row, row.format(25, 2),
                "SYSTEM 625 START 26 LINES 0 REPAIRS 0 RESULT 0 0 0 d/0003.rec",
                totals_3.format(3, 0, 0),
            ),
            (
                "confirm: d/0002.rec does not follow on d/0001.rec: "
                "it starts with line 25 of 625, and line 24 of 625 is awaited",
            ), 1,
        ),
        (
            "another system", (second, header(525, 25), header(625, 25)),
            (
                row.format(24, 1),
                "SYSTEM 525 START 25 LINES 0 REPAIRS 0 RESULT 0 0 0 d/0002.rec",
                "SYSTEM 625 START 25 LINES 0 REPAIRS 0 RESULT 0 0 0 d/0003.rec",
                totals_3.format(1, 0, 0),
            ),
            (
                "confirm: d/0002.rec does not follow on d/0001.rec: "
                "it starts with line 25 of 525, and line 25 of 625 is awaited",
                "confirm: d/0003.rec does not follow on d/0002.rec: "
                "it starts with line 25 of 625, and line 25 of 525 is awaited",
            ), 1,
        ),
        (
            "a refused header", (TWO_LINES, header(625, 0), third),
            (
                first_row, "SYSTEM 625 START 0 LINES 0 REPAIRS 0 RESULT 2 0 0 d/0002.rec",
                row.format(25, 3), totals_3.format(3, 1, 0),
            ),
            (
                "confirm: d/0002.rec: refused 2, line 0, place 0: "
                "the start line is not one of the system",
            ), 1,
        ),
    ):  # fmt: skip
        files = folder_of(*pieces)
        due = Answer(text(*rows), text(*said) if said else b"", status, files)
        yield name, answer(["confirm", "d"], b"", files), due


def folder_names():
    others = ("0000.rec", "10000.rec", "1.rec", "0002.REC", "0002.rec~")
    files = {"d": FOLDER, **{f"d/{name}": TWO_LINES for name in others}}
    for folder in ("d", "d/", "./d"):
        got = answer(["confirm", folder], b"", files)
        row = got.output.decode().splitlines()[0]
        yield f"{folder} without numbers", row, f"UNREAD {folder}"
    files["d/0001.rec"] = TWO_LINES
    for folder, piece in (("d", "d/0001.rec"), ("d/", "d/0001.rec"), ("./d", "./d/0001.rec")):
        got = answer(["confirm", folder], b"", files)
        yield folder, got, Answer(row_and_totals(piece), b"", 0, files)
    yield "pieces by hand", folder_of(b"1", None, b"3"), {
        "d": FOLDER,
        "d/0001.rec": b"1",
        "d/0003.rec": b"3",
    }


def extracted_files():
    files = {"a": TWO_LINES, **folder_of(TWO_LINES, TWO_LINES, None)}
    due = Answer(BLACK_ROW, FIVE_LINES, 0, files)
    yield "a file", answer(["extract", "a"], b"", files), due
    said = b"extract: b could not be read: REASON\n"
    yield "no file", answer(["extract", "b"], b"", files), Answer(b"", said, 2, files)
    gap = (
        "extract: d/0002.rec does not follow on d/0001.rec: "
        "it starts with line 22 of 625, and line 24 of 625 is awaited"
    )
    row, sums = row_and_totals("d/0001.rec").decode().splitlines()
    due = Answer(BLACK_ROW, text(row, gap, sums), 1, files)
    yield "not following", answer(["extract", "d"], b"", files), due
    files = folder_of(TWO_LINES, None, TWO_LINES)
    errors = text(
        row,
        "extract: d/0002.rec is missing",
        "UNREAD d/0002.rec",
        "FILES 2 LINES 2 HOURS 0.0000 REPAIRS 0 REFUSED 0 UNREAD 1",
    )
    due = Answer(BLACK_ROW, errors, 2, files)
    yield "one missing", answer(["extract", "d"], b"", files), due
    files = folder_of(two_lines_with(1, 288, 3), TWO_LINES)
    errors = text(
        "SYSTEM 625 START 22 LINES 1 REPAIRS 0 RESULT 11 23 288 d/0001.rec",
        "extract: d/0001.rec: refused 11, line 23, place 288: "
        "a reserved word stands where a sample or a user word is due",
        "FILES 1 LINES 1 HOURS 0.0000 REPAIRS 0 REFUSED 1 UNREAD 0",
    )
    yield "refused", answer(["extract", "d"], b"", files), Answer(b"", errors, 1, files)


def part_frames():
    """The note where the last frame is not whole."""
    note = (
        "record: the last frame is not whole: line {} of {} is awaited "
        "(a frame of 525 has 487 rows, one of 625 has 576)"
    )
    for system, start, rows, line in (
        (625, 22, 1, 24), (625, 310, 1, 336), (525, 263, 1, 283), (625, 22, 0, None),
        (625, 623, 1, None), (525, 525, 1, None), (525, 525, 2, 21),
    ):  # fmt: skip
        errors = text(note.format(line, system)) if line else b""
        got = answer(["record", str(system), str(start)], BLACK_ROW * rows)
        yield f"{rows} rows at {system} {start}", got[1:3], (errors, 0)


def recorded_into():
    """Recordings in a folder d; the second has the row of line 23 and what is before it."""
    words = ["record", "--into", "d", "--frames", "1", "625", "623"]
    first, second = record(625, 623, BLACK_ROW)[0], record(625, 1, BLACK_ROW)[0]
    note = text(
        "record: the last frame is not whole: line 24 of 625 is awaited "
        "(a frame of 525 has 487 rows, one of 625 has 576)"
    )
    got = answer(words, BLACK_ROW * 2)
    yield "two pieces", got, Answer(b"", note, 0, folder_of(first, second))
    said = text("record: refused 3, line 23, place 1: the last row is short")
    second = second[: 4 + 22 * 3456]
    got = answer(words, BLACK_ROW + b"\0")
    yield "refused in the second", got, Answer(b"", said, 1, folder_of(first, second))
    empty = folder_of(header(625, 623))
    yield "no rows", answer(words), Answer(b"", b"", 0, empty)
    yield "made before", answer(words, b"", {"d": FOLDER}), Answer(b"", b"", 0, empty)
    said = text("record: d holds recordings already: name another folder")
    held = {"d": FOLDER, "d/9999.rec": b""}
    yield "held", answer(words, BLACK_ROW, held), Answer(b"", said, 2, held)
    said = text("record: d/0001.rec could not be made: REASON")
    yield "a file", answer(words, BLACK_ROW, {"d": b""}), Answer(b"", said, 2, {"d": b""})
    words[2] = "e/d/"
    said = text("record: e/d/ could not be made: REASON")
    yield "no parent", answer(words, BLACK_ROW), Answer(b"", said, 2)
    words[2] = "."
    held = {"0007.rec": b""}
    said = text("record: . holds recordings already: name another folder")
    yield "held here", answer(words, BLACK_ROW, held), Answer(b"", said, 2, held)
    said = text(
        "record: refused 2, line 0, place 0: "
        "the start line is not one of the system, or --fall of 525 is not 10 to 20"
    )
    yield "no line", answer([*words[:-1], "626"], BLACK_ROW), Answer(b"", said, 1)
    report = Report("record", {})
    say_how_it_ends(report, [first], programme.Unnumbered(), {"--into": "a\nd"})
    said = text(r"record: a\x0ad holds 9999 recordings, and no more can be numbered")
    yield "no more numbers", report.answer(), Answer(b"", said, 2)
    yield "a terminal", waiting("record"), text("record: waits for v210 rows on standard input")


def said_of_words():
    said = text("scramble: refused 3, word 1: half a word is left")
    plain, coded = pack_slice([1]), pack_slice([543])
    yield "half a word", answer(["scramble"], plain + b"\0"), Answer(coded, said, 1)
    said = text("descramble: refused 5, word 1: it is over 1023")
    got = answer(["descramble"], coded + b"\0\4")
    yield "over", got, Answer(plain, said, 1)


GROUPS = (
    shown_names,
    wrong_uses,
    right_uses,
    said_refusals,
    confirmed_files,
    summed_hours,
    confirmed_folders,
    folder_names,
    extracted_files,
    part_frames,
    recorded_into,
    said_of_words,
)
