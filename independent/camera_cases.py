"""Cases for the command with old 525 cameras, which drop V early; fixed seeds."""

from itertools import product

from independent import command, programme
from independent.caption_cases import BESIDE, beside, captions_on
from independent.command import FOLDER, Answer, with_pieces
from independent.command_cases import COMMAND, Case, called, case_of, from_file, rows, spoilt
from independent.command_cases import with_samples
from independent.edges import FALLS
from independent.finished_cases import finished_file
from independent.folder_cases import into
from independent.judge import fourth_offsets
from independent.material import other_code
from independent.recordings import HEADER_BYTES, line_count, lines_of, recording
from independent.runs import damaged, of_vs, vs_of
from independent.tapes import frame_rows

# From these lines on two lines, and then V may fall; the last line of a field with one before it.
BEFORE_FALLS = 8, 271
FIELD_END = 262

# Numbers of one to nine digits that are no fall line of 525, and texts that are no such number.
NO_FALLS = (0, 1, 9, 21, 22, 273, 283, 65_536 + 15, 999_999_999)
NO_NUMBERS = ("x", "", "-1", "+10", "10.0", "0x0a", " 10", "1000000000", str(2**32 + 10))

READING_VERBS = ("confirm", "extract", "packets")


def falling(fall, words):
    """The words of record with a fall line."""
    verb, *others = words
    return (verb, "--fall", str(fall), *others)


def at(system, start):
    return "record", str(system), str(start)


def recorded_falls(source):
    """Every fall line: rows about it in both fields, over the end of a field and of a recording."""
    for fall in FALLS:
        for start in (*BEFORE_FALLS, FIELD_END):
            yield case_of(falling(fall, at(525, start)), rows(source, 3))
        yield case_of(falling(fall, into("d", 525, 525, 1)), rows(source, 3))
    for fall, start in product((10, 14, 20), (9, 10, 12, 14, 19, 272, 273, 277, 282, 525)):
        yield case_of(falling(fall, at(525, start)), rows(source, 1))
    for fall in (10, 20):
        for start in (1, 12, 264):
            yield case_of(falling(fall, at(525, start)), b"")


def frames_by_fall(source):
    """A row less than a frame, a frame, and a row more."""
    for fall, more in product((10, 17), (-1, 0, 1)):
        data = rows(source, frame_rows(525, fall=fall) + more)
        yield case_of(falling(fall, at(525, 1)), data)
    for fall in (10, 17):
        data = rows(source, frame_rows(525, fall=fall) + 1)
        yield case_of(falling(fall, into("d", 525, 1, 1)), data)


def falls_of_625(source):
    """Any number for 625, which ignores it."""
    for fall in (*NO_FALLS, 10, 15, 20):
        yield case_of(falling(fall, at(625, 20)), rows(source, 2))
    yield case_of(falling(0, into("d", 625, 623, 1)), rows(source, 2))


def falls_refused(source):
    """No fall line of 525, alone and behind a system and a line that there are not."""
    data, files = rows(source, 1), {"d": FOLDER}
    for fall in NO_FALLS:
        yield case_of(falling(fall, at(525, 20)), data)
    for fall, (system, start) in product((9, 10), ((524, 1), (0, 0), (525, 0), (525, 526))):
        yield case_of(falling(fall, at(system, start)), data)
    for words in (into("d", 525, 1, 1), into("e", 525, 1), into("none/d", 525, 1)):
        yield case_of(falling(21, words), data, files)
    yield case_of(falling(21, beside(*at(525, 1), name="none")), data, files)
    yield case_of(falling(21, at(525, 1)), with_samples(data, {0: 0}) + b"\0")


def fall_words(source):
    """The option among others, twice, with zeros in front, with no number, and out of its place."""
    data = rows(source, 2)
    for text in NO_NUMBERS:
        for system in (525, 625):
            yield case_of(falling(text, at(system, 9)), data)
    for words in (
        "record --fall", "record --fall 10", "record --fall 10 525", "record --fall 10 525 1 1",
        "record --fall 10 --", "record --fall=10 525 1", "record --falls 10 525 1",
        "record -f 10 525 1", "record 525 1 --fall 10", "record 525 --fall 10 1",
        "record -- --fall 10 525 1", "record --fall --into d 525 1", "record --fall -x 525 1",
        "record --fall x --fall 10 525 9", "record --fall x -x", "record --fall 10 x 9",
        "record --fall 10 --frames 1 525 9", "record --frames 0 --fall x 525 9",
        "record --fall 21 x 9", "record --fall 21 525 x",
        "record --fall 9 --fall 12 525 9", "record --fall 12 --fall 9 525 9",
        "record --fall 10 --fall 20 525 9", "record --fall 010 525 9",
        "record --fall 000000020 525 9", "record --fall 10 -- 525 9",
        "record --into d --fall 12 --frames 1 525 525", "record --fall 12 --into d 525 525",
        "record --into d --fall 12 525 525", "extract --fall 10", "confirm --fall 10",
        "packets --fall 10", "finish --fall 10 x", "unfinish --fall 10 x 525 1",
    ):  # fmt: skip
        yield case_of(words.split(), data)


def captions_by_fall(source):
    """Packets in all lines about the one where V falls, by their fall line and by a later one."""
    for fall, start in product((10, 13, 20), BEFORE_FALLS):
        data = rows(source, 3)
        count = line_count(programme.record(525, start, data, fall)[0])
        words = falling(fall, beside(*at(525, start)))
        for by in (fall, 20):
            packets = captions_on(source, 525, start, range(count), by)
            yield case_of(words, data, {BESIDE: packets})
    # Behind the last row, as far as the line where V falls and on it.
    for fall, more in product((10, 15, 20), (-1, 0)):
        packets = captions_on(source, 525, 525, range(fall + more), fall)
        packets += captions_on(source, 525, 525, (fall + more,), 20)
        yield case_of(falling(fall, beside(*at(525, 525))), rows(source, 1), {BESIDE: packets})


def camera_recordings(source):
    """Recordings of every fall line, over the end of a field, and such that are refused."""
    for fall, start in product(FALLS, BEFORE_FALLS):
        yield of_vs(source, start, vs_of(start, 14, fall))
    yield of_vs(source, 255, vs_of(255, 30, 12))
    for vs in ((1, 0, 1), (1, 1, 0, 0, 1), (1, 0, 0, 0, 0, 1, 1), (1,) * 12, (0,)):
        yield of_vs(source, 9, vs)
    for vs in ((1, 0), (0, 0), (0, 1)):
        yield of_vs(source, 15, vs)
    whole = of_vs(source, 9, (1, 1, 0, 0))
    _, sav = fourth_offsets(525)
    for steps, words in enumerate(lines_of(whole)):
        yield spoilt(whole, steps, sav, other_code(words[sav], 2))


def read_falls(source):
    """Recordings on standard input, as they are and with every code damaged in one bit."""
    for number, data in enumerate(camera_recordings(source)):
        verb = READING_VERBS[number % len(READING_VERBS)]
        yield case_of(("extract",), data)
        yield case_of((verb,), damaged(source, data))


def fields_apart(source):
    """Fields of different fall lines in one recording."""
    for falls, verb in zip(((10, 17), (20, 10), (12, 20)), READING_VERBS):
        data = of_vs(source, 8, vs_of(8, 280, *falls))
        yield case_of(("extract",), damaged(source, data))
        yield case_of((verb, "a"), b"", {"a": data})


def folders_by_fall(source):
    """Recordings of a folder, each of which begins with no record of the one before."""
    for vs in ((1, 0, 0, 0), (1, 0, 1, 1), (0, 0, 1, 0), (1, 0, 0, 1)):
        lines = source.in_turn(11, vs)
        pieces = [recording(525, 11 + n, lines[n : n + 2]) for n in (0, 2)]
        for verb in READING_VERBS:
            yield case_of((verb, "d"), b"", with_pieces({}, "d", pieces))


def finished_falls(source):
    """Recordings finished, and finished files checked, also where V is 1 again in the last line."""
    eav, _ = fourth_offsets(525)
    for number, data in enumerate(camera_recordings(source)):
        if number % 4 == 0:
            yield case_of(("finish", "x"), damaged(source, data))
    for fall, start in product((10, 15, 20), BEFORE_FALLS):
        data = damaged(source, of_vs(source, start, vs_of(start, 14, fall)))
        file = finished_file(data)
        yield case_of(("check", "f", "525", str(start)), b"", {"f": file})
        risen = spoilt(data, 13, eav, other_code(lines_of(data)[13][eav], 2))
        other = risen[HEADER_BYTES:] + file[len(data) - HEADER_BYTES :]
        yield case_of(("check", "f", "525", str(start)), b"", {"f": other})


def cameras_back(source):
    """What was recorded by a fall line is confirmed, and gives its rows and packets back."""
    for fall, start in product((10, 16, 20), (1, 268)):
        data = rows(source, 250)
        words = falling(fall, at(525, start))
        whole = command.answer(words, data)
        script = f"{from_file(words)} 2>/dev/null | {COMMAND}"
        confirmed = command.answer(("confirm",), whole.output)
        yield Case(f"{script} confirm", data, confirmed)
        due = Answer(data, confirmed.output, 0)
        yield Case(f"{script} extract", data, due)
    for fall in (10, 13):
        data = rows(source, 5)
        count = line_count(programme.record(525, 1, data, fall)[0])
        packets = captions_on(source, 525, 1, range(count), fall)
        record, extract = falling(fall, beside(*at(525, 1))), beside("extract", "a")
        whole = command.answer(record, data, {BESIDE: packets})
        files = {"a": damaged(source, whole.output)}
        errors = command.answer(extract, b"", files).errors + whole.errors
        due = Answer(whole.output, errors, 0, {**files, BESIDE: packets, "rows": data})
        script = f"{called(extract)} >rows && {called(record)} <rows"
        yield Case(script, b"", due, files=files)


FAMILIES = (
    recorded_falls,
    frames_by_fall,
    falls_of_625,
    falls_refused,
    fall_words,
    captions_by_fall,
    read_falls,
    fields_apart,
    folders_by_fall,
    finished_falls,
    cameras_back,
)
