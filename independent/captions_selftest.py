"""The command with packets, against files, lists and answers that were written by hand."""

from independent.command import FOLDER, Answer, answer
from independent.command_selftest import FIVE_LINES, TWO_LINES, folder_of, row_and_totals, text
from independent.entries import entry_bytes
from independent.material import changed
from independent.packets import packet
from independent.packets_selftest import CAPTION, EMPTY
from independent.programme import Recorder, record, stop_of
from independent.programme_selftest import tape_at
from independent.recordings import header_of, line_count, lines_of, recording
from independent.rows import BLACK_ROW, with_word
from independent.tapes import NEVER_FULL, piece_lines

# The entries of lines 22, both spaces, and 23 of 625.
CAPTION_BYTES = "0000 ff03 ff03 6101 0101 0201 0002 4000 a401"
FIRST = bytes.fromhex(f"0000000000000000 0000 0900 {CAPTION_BYTES}")
SECOND = bytes.fromhex("0000000000000000 0100 0700 0000 ff03 ff03 0002 0002 0002 0002")
THIRD = bytes.fromhex(f"0100000000000000 0000 0900 {CAPTION_BYTES}")
ENTRIES = FIRST + SECOND + THIRD

LIST = b"0 22 between 61 01 2\n0 22 active 00 00 0\n1 23 between 61 01 2\n"
NOTE = "extract: lines whose packets were not written: {} (--packets FILE writes them)"
NO_ENTRY = "is cut, has a line, a space or words that cannot be, or does not rise"


def with_words(data, *packets):
    """A recording with words in each line: those at 4, and at 288."""
    lines = (
        changed(words, dict(enumerate(between, 4)) | dict(enumerate(active, 288)))
        for words, (between, active) in zip(lines_of(data), packets)
    )
    return recording(*header_of(data), lines)


CAPTIONED = with_words(TWO_LINES, (CAPTION, EMPTY), (CAPTION, []))


def part_note(line):
    return text(
        f"record: the last frame is not whole: line {line} of 625 is awaited "
        "(a frame of 525 has 487 rows, one of 625 has 576)"
    )


def on_line(ordinal, entry=FIRST):
    """An entry for another line, of an ordinal under 256."""
    return bytes([ordinal]) + entry[1:]


def recorded(packets, start=22, rows=1):
    """The answer, but for the files, to black rows with a packets file."""
    words = ["record", "--packets", "a\tb", "625", str(start)]
    return answer(words, BLACK_ROW * rows, {"a\tb": packets})[:3]


def lines_and_said(packets, start=22, rows=1):
    """The same with how many lines there are in place of them."""
    output, errors, status = recorded(packets, start, rows)
    return line_count(output), errors, status


def recorded_packets():
    yield "all", recorded(ENTRIES), (CAPTIONED, part_note(24), 0)
    yield "none", recorded(b""), (TWO_LINES, part_note(24), 0)
    one = with_words(TWO_LINES, (CAPTION, []), ([], []))
    yield "in one space", recorded(FIRST), (one, part_note(24), 0)
    # For a row on line 623 there are three lines, and more as far as packets need.
    for ordinal, lines, note in ((2, 3, b""), (3, 4, part_note(2)), (24, 25, part_note(23))):
        yield f"ordinal {ordinal}", lines_and_said(on_line(ordinal), 623), (lines, note, 0)
    yield "no row", lines_and_said(on_line(1), 625, rows=0), (2, part_note(2), 0)
    yield "no row and no packets", recorded(b"", rows=0), (TWO_LINES[:4], b"", 0)


def recorded_into():
    """The first line of a second recording is there for its packets alone."""
    words = ["record", "--into", "d", "--packets", "p", "--frames", "1", "625", "623"]
    first, fill = record(625, 623, BLACK_ROW)[0], record(625, 1, BLACK_ROW)[0][: 4 + 3456]
    for name, packets, second, errors, status in (
        ("taken", on_line(3), with_words(fill, (CAPTION, [])), part_note(2), 0),
        (
            "refused", on_line(3)[:-2] + b"\0\0", fill[:4],
            text("record: refused 16, line 1, place 12: a packet's checksum is wrong"), 1,
        ),
    ):  # fmt: skip
        files = {"p": packets, **folder_of(first, second)}
        got = answer(words, BLACK_ROW, {"p": packets})
        yield name, got, Answer(b"", errors, status, files)


def unread_files():
    said = text("record: --packets takes a packets file, as extract --packets writes one")
    for name in ("none", "d"):
        errors = text(f"record: {name} could not be read: REASON") + said
        for words in (["625", "22"], ["--into", "e", "625", "22"]):
            got = answer(["record", "--packets", name, *words], BLACK_ROW, {"d": FOLDER})
            yield f"{name} {words}", got, Answer(b"", errors, 2, {"d": FOLDER})
    said = text("record: refused 1, line 0, place 0: the system is neither 525 nor 625")
    yield "no system", answer(["record", "--packets", "none", "1", "1"]), Answer(b"", said, 1)


def refused_entries():
    """From which line and for how many rows how many lines are written, and what is said."""
    unwritten = "is for the line of ordinal {}, which is not written"
    for name, packets, start, rows, lines, at, said in (
        ("a byte", b"\0", 22, 1, 0, 0, NO_ENTRY),
        ("a byte and no row", b"\0", 22, 0, 0, 0, NO_ENTRY),
        ("a byte behind the first line's", FIRST + b"\0", 22, 1, 1, 30, NO_ENTRY),
        ("a byte behind the second line's", ENTRIES + b"\0", 22, 1, 2, 86, NO_ENTRY),
        ("a byte behind the last row", FIRST + b"\0", 623, 1, 1, 30, NO_ENTRY),
        ("a byte behind the last line's", on_line(24) + b"\0", 623, 1, 25, 30, NO_ENTRY),
        ("a cut head", FIRST + THIRD[:11], 22, 1, 1, 30, NO_ENTRY),
        ("cut words", FIRST + THIRD[:-1], 22, 1, 1, 30, NO_ENTRY),
        ("cut words for no line", FIRST + THIRD[:-1], 23, 1, 1, 30, unwritten.format(1)),
        ("one twice", FIRST + FIRST, 22, 1, 1, 30, NO_ENTRY),
        ("a space before", SECOND + FIRST, 22, 1, 1, 26, NO_ENTRY),
        ("a line before", THIRD + SECOND, 22, 1, 2, 30, NO_ENTRY),
        ("ordinal 2^62", bytes(7) + b"\x40" + FIRST[8:], 22, 1, 0, 0, NO_ENTRY),
        ("space 2", bytes(8) + b"\2" + FIRST[9:], 22, 1, 0, 0, NO_ENTRY),
        ("no words", bytes(12), 22, 1, 0, 0, NO_ENTRY),
        ("1441 words", bytes(10) + b"\xa1\5" + bytes(2_882), 22, 1, 0, 0, NO_ENTRY),
        ("line 24", FIRST + THIRD, 23, 1, 1, 30, unwritten.format(1)),
        ("line 23 and no row", ENTRIES, 22, 0, 1, 56, unwritten.format(1)),
        ("line 23 first and no row", FIRST, 23, 0, 0, 0, unwritten.format(0)),
        ("line 23 behind line 623", on_line(25), 623, 1, 25, 0, unwritten.format(25)),
        ("line 336", on_line(26), 310, 1, 26, 0, unwritten.format(26)),
        (
            "ordinal 2^62 - 1", b"\xff" * 7 + b"\x3f" + FIRST[8:], 23, 1, 1, 0,
            unwritten.format(4_611_686_018_427_387_903),
        ),
    ):  # fmt: skip
        errors = text(rf"record: a\x09b: refused 22: the entry at byte {at} {said}")
        yield name, lines_and_said(packets, start, rows), (lines, errors, 1)


def refused_packets():
    """What is said of packets that the writer refuses, and how many lines are before them."""
    for ordinal, space, words, said in (
        (
            0, 0, changed(CAPTION, {8: 1_024}),
            "5, line 22, place 12: "
            "spare bits are set in a word of the row, or a packet word is over 1023",
        ),
        (0, 1, EMPTY + [512], "10, line 22, place 295: no packet starts there"),
        (
            1, 0, changed(CAPTION, {6: 3}),
            "11, line 23, place 10: a reserved word stands where a user word is due",
        ),
        (
            1, 0, EMPTY + changed(EMPTY, {4: 0}),
            "15, line 23, place 15: a header word of a packet has bad parity",
        ),
        (0, 1, CAPTION[:8] + [0], "16, line 22, place 296: a packet's checksum is wrong"),
        (0, 0, CAPTION[:8], "17, line 22, place 9: a packet runs past its space"),
        (
            1, 0, EMPTY * 41,
            "3, line 23, place 4: more packet words than the space between EAV and SAV holds",
        ),
        (
            1, 1, EMPTY,
            "3, line 23, place 5: "
            "more packet words than the active part holds, or any where V is 0",
        ),
    ):  # fmt: skip
        got = lines_and_said(entry_bytes(ordinal, space, words))
        yield said, got, (ordinal, text(f"record: refused {said}"), 1)


def refused_rows():
    """A row that is refused beside a packets file: 22 comes before it, and packets before 12."""
    spare, outside = with_word(BLACK_ROW, 9, 1 << 30), with_word(BLACK_ROW, 0, 0)
    row_over = "spare bits are set in a word of the row, or a packet word is over 1023"
    for name, row, packets, said in (
        ("spare bits", spare, b"", f"refused 5, line 23, place 9: {row_over}"),
        ("both", spare, THIRD[:-1] + b"\2", f"refused 5, line 23, place 9: {row_over}"),
        ("a cut entry", spare, THIRD[:-1], f"p: refused 22: the entry at byte 0 {NO_ENTRY}"),
        ("a short row", BLACK_ROW[1:], THIRD, "refused 3, line 23, place 1: the last row is short"),
        (
            "a sample", outside, THIRD,
            "refused 12, line 23, place 0: a sample is outside 4 to 1019",
        ),
        (
            "a checksum", outside, THIRD[:-1] + b"\2",
            "refused 16, line 23, place 12: a packet's checksum is wrong",
        ),
    ):  # fmt: skip
        got = answer(["record", "--packets", "p", "625", "22"], row, {"p": packets})
        yield name, got[:3], (TWO_LINES[: 4 + 3456], text(f"record: {said}"), 1)


def entries_at_the_limit():
    """Lines for packets end with the recording, and go on in a next one where there may be one."""
    for name, most, lines, taken in (
        ("a line more", NEVER_FULL, 9_999_999, True),
        ("no line more", NEVER_FULL, 10_000_000, False),
        ("a next recording", piece_lines(625), 10_000_000, True),
    ):
        recorder = Recorder(tape_at(625, 1, lines, most), FIRST)
        stopped = stop_of(recorder.close)
        yield name, stopped and stopped.args, None if taken else (0, (0, 0, 9))


def extracted_packets():
    """The packets file, and what is said where there is none."""
    files, words = {"a": CAPTIONED, "e": b"", "h": b"x", "d": FOLDER}, ["extract", "--packets"]
    for name in ("p", "e", "d/p", "./p"):
        due = Answer(BLACK_ROW, FIVE_LINES, 0, {**files, name.removeprefix("./"): ENTRIES})
        yield f"into {name}", answer([*words, name, "a"], b"", files), due
    for name, said in (
        ("h", "holds something already: name another file"),
        ("a", "holds something already: name another file"),
        ("d", "could not be written: REASON"),
        ("x/p", "could not be written: REASON"),
        ("p/", "could not be written: REASON"),
    ):
        due = Answer(b"", text(f"extract: {name} {said}"), 2, files)
        yield f"not into {name}", answer([*words, name, "a"], b"", files), due
    due = Answer(BLACK_ROW, FIVE_LINES + text(NOTE.format(2)), 0)
    yield "nowhere", answer(["extract"], CAPTIONED), due
    due = Answer(BLACK_ROW, FIVE_LINES, 0, {"p": b""})
    yield "none", answer([*words, "p"], TWO_LINES), due
    spoilt = CAPTIONED[:-1]
    got = answer([*words, "p"], spoilt)
    yield "of accepted lines", (got.output, got.status, got.files["p"]), (b"", 1, FIRST + SECOND)
    note = answer(["extract"], spoilt).errors.splitlines()[-1]
    yield "nowhere, of accepted lines", note.decode(), NOTE.format(1)


def packets_of_folders():
    """Ordinals go on through recordings, up to one that does not follow."""
    second = with_words(record(625, 24, BLACK_ROW)[0], (EMPTY, []))
    files = folder_of(CAPTIONED, second, CAPTIONED)
    entries = ENTRIES + on_line(2, SECOND[:8] + bytes(2) + SECOND[10:])
    got = answer(["extract", "--packets", "p", "d"], b"", files)
    yield "extracted", (got.files["p"], got.status), (entries, 1)
    got = answer(["extract", "d"], b"", files)
    yield "nowhere", got.errors.decode().splitlines()[-1], NOTE.format(3)
    got = answer(["packets", "d"], b"", files)
    yield "listed", (got.output, got.status), (LIST + b"2 24 between 00 00 0\n", 1)
    said = got.errors.decode().splitlines()[2].partition(":")[0]
    yield "said", said, "packets"


def listed_packets():
    files = {"a": CAPTIONED, **folder_of(TWO_LINES)}
    yield "input", answer(["packets"], CAPTIONED), Answer(LIST, FIVE_LINES, 0)
    yield "a file", answer(["packets", "a"], b"", files), Answer(LIST, FIVE_LINES, 0, files)
    due = Answer(b"", row_and_totals("d/0001.rec"), 0, files)
    yield "a folder without", answer(["packets", "d"], b"", files), due
    said = text("packets: b could not be read: REASON")
    yield "no file", answer(["packets", "b"], b"", files), Answer(b"", said, 2, files)
    longest = packet(0xAB, 0xFF, [4] * 255)
    full = with_words(TWO_LINES, ([], longest + EMPTY), ([], []))
    due = b"0 22 active ab ff 255\n0 22 active 00 00 0\n"
    yield "identifiers", answer(["packets"], full).output, due


GROUPS = (
    recorded_packets,
    recorded_into,
    unread_files,
    refused_entries,
    refused_packets,
    refused_rows,
    entries_at_the_limit,
    extracted_packets,
    packets_of_folders,
    listed_packets,
)
