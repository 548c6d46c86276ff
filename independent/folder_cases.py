"""Cases for the command on files and folders, from fixed seeds."""

from itertools import product

from independent import command, judge
from independent.command import FOLDER, Answer, with_pieces
from independent.command_cases import (
    COMMAND,
    THEN_BROKEN,
    TO_TERMINAL,
    Case,
    any_line,
    called,
    case_of,
    failed,
    from_file,
    lines_from,
    on_terminal,
    rows,
    some_recording,
    spoilt,
    to_terminal,
    unread,
    unwritten,
    with_samples,
    with_spare,
)
from independent.edges import SYSTEMS
from independent.judge import line_after
from independent.material import Source
from independent.recordings import HEADER_BYTES, header
from independent.runs import STARTS, damaged
from independent.tapes import frame_rows

READING_VERBS = ("confirm", "extract")

# Names with bytes that end a line, change a terminal, are no UTF-8, or mean much to a shell.
ODD_NAMES = (
    "a b.rec", " ", "new\nline.rec", "\t", "back\\slash.rec", "\x7f\x1b[1m\x01", "é.rec",
    "\udcff\udc80.rec", "it's $(x) \"*\" ?.rec", "-", "0001.rec",
)  # fmt: skip
LONG_NAME = 256 * "x"
DASHED_NAMES = ("-x.rec", "--", "--help", "-h", "--into")


def consecutive(source, system, start, counts, written=Source.written):
    """Recordings of so many lines each, of which each goes on where the one before ends."""
    starts = [line_after(system, start, sum(counts[:n])) for n in range(len(counts))]
    return [lines_from(source, system, *pair, written) for pair in zip(starts, counts)]


def refused(data, steps=1):
    """A recording with no legal code in one of its lines."""
    return spoilt(data, steps, 3, 632)


def named_files(source):
    """One file by its name: refused, so that the name is told, and among several."""
    data = refused(some_recording(source, 625))
    for name in ODD_NAMES:
        files = {name: data}
        yield case_of(("confirm", name), b"", files)
        yield case_of(("confirm", name, name), b"", files)
        yield case_of(("extract", name), b"", files)
    for name, verb in product(DASHED_NAMES, READING_VERBS):
        yield case_of((verb, "--", name), b"", {name: data})
    yield case_of(("confirm", "--", *DASHED_NAMES), b"", dict.fromkeys(DASHED_NAMES, data))
    # Options stand before other arguments: behind a name there are only names.
    yield case_of(("confirm", "a", "-x", "--", "-h"), b"", {"a": data, "-x": data})


def absent_files(source):
    """Names that stand for nothing, alone and among others."""
    files = {"a": some_recording(source, 525), "d": FOLDER, "d/b": b""}
    for name in ("", "b", "d/a", "a/", "a/b", "none/b", "new\nline", "\udcff", LONG_NAME):
        for verb in READING_VERBS:
            yield case_of((verb, name), b"", files)
        yield case_of(("confirm", "a", name, "a"), b"", files)
    yield case_of(("confirm", "a", "a"), b"", files)
    yield case_of(("confirm", "", ""), b"", files)


def read_files(source):
    """One file as it is, damaged, refused, cut, with a spoilt header; it is not standard input."""
    for system, verb in product(SYSTEMS, READING_VERBS):
        clean = some_recording(source, system)
        repaired = damaged(source, clean)
        headers = (b"", clean[:3], clean[:HEADER_BYTES], header(system, 0), header(system + 1, 1))
        for data in (clean, repaired, refused(clean), refused(repaired, 2), clean[:-1], *headers):
            yield case_of((verb, "a.rec"), header(0, 0), {"a.rec": data})


def devices(source):
    """A name that stands for a pipe, and one that can be opened and not read."""
    data = some_recording(source, 625)
    for verb in READING_VERBS:
        words = (verb, "/dev/stdin")
        expected = command.answer(words, b"", {"/dev/stdin": data})._replace(files={})
        yield Case(f'cat "$0" | {called(words)}', data, expected)
        words = (verb, "/proc/self/mem")
        yield Case(called(words), b"", failed(verb, "/proc/self/mem could not be read"))


def some_things(source):
    """Files and folders of every sort."""
    whole = [consecutive(source, system, STARTS[system], (2, 1, 3)) for system in SYSTEMS]
    files = {f"{system}.rec": some_recording(source, system) for system in SYSTEMS}
    files["damaged"] = damaged(source, files["525.rec"])
    files["refused"] = refused(files["625.rec"])
    files["no system"] = header(624, 1) + files["625.rec"][HEADER_BYTES:]
    files["no line"] = header(525, 526)
    files["empty"] = b""
    files["nothing"] = FOLDER
    for system, pieces in zip(SYSTEMS, whole):
        files = with_pieces(files, f"{system}", pieces)
    files = with_pieces(files, "hole", [whole[0][0], None, whole[0][2]])
    return with_pieces(files, "gap", [whole[0][0], whole[1][1], refused(whole[1][2])])


def many_files(source):
    """More files than a process may have open at a time."""
    pieces = consecutive(source, 525, 524, (1,) * 40)
    files = with_pieces({}, "d", pieces)
    names = [name for name in files if name != "d"]
    for words in (("confirm", "d"), ("extract", "d"), ("confirm", *names)):
        expected = command.answer(words, b"", files)
        yield Case(f"ulimit -n 16; {called(words)}", b"", expected, files=files)


def several_files(source):
    """Some of many files and folders, in any turn."""
    files = some_things(source)
    names = [name for name in files if "/" not in name] + ["none", "525/", "525/0002.rec"]
    for count in (2, 3, 4, 6, 9) * 6:
        chosen = source.random.choices(names, k=count)
        yield case_of(("confirm", *chosen), b"", files)
    yield case_of(("confirm", *sorted(names)), b"", files)
    yield case_of(("confirm", *["damaged"] * 200, *["none"] * 3), b"", files)


def summed_hours(source):
    """About half of a ten-thousandth of an hour, for each system and for both."""
    frames = {system: lines_from(source, system, 1, system) for system in SYSTEMS}
    for counts in ((2741, 72), (2741, 71), (2740, 72), (2812, 0), (2813, 0), (0, 2832), (0, 2833)):
        files, words = {}, ["confirm"]
        for system, count in zip((625, 525), counts):
            frame, rest = f"{system}", f"{system} more"
            files[frame] = frames[system]
            files[rest] = lines_from(source, system, 1, count % system)
            words += [*[frame] * (count // system), rest]
        yield case_of(words, b"", files)
    yield case_of(("confirm", *["625"] * 45, *["525"] * 27), b"", files)


def rows_of_pieces(source):
    """Pieces that follow on each other, and such that are missing, spoilt or do not."""
    for system, other in (SYSTEMS, reversed(SYSTEMS)):
        start = STARTS[system]
        first, second, third = consecutive(source, system, start, (2, 3, 2))
        line = line_after(system, start, 2)
        yield (first, second, third)
        yield (first,)
        yield (header(system, start), first, header(system, line), second, third)
        yield (None, second, third)
        yield (None, None, third)
        yield (first, None, third)
        yield (first, None, None, third)
        for shift in (-2, -1, 1):
            elsewhere = line_after(system, line, shift)
            late = consecutive(source, system, elsewhere, (3, 2))
            yield (first, *late)
            yield (first, refused(late[0]), third)
        yield (first, lines_from(source, other, line, 3), third)
        yield (first, refused(second, 0), third)
        yield (refused(first), second, third)
        yield (first, refused(second), second)
        yield (first, second, refused(third))
        yield (first, second[:-1], third)
        yield (first + b"\0", second)
        last = judge.SYSTEMS[system].lines
        wrong = (b"", header(system, line)[:3], header(system, 0), header(system, last + 1))
        for spoilt_header in (*wrong, header(0, line), header(system + 1, line)):
            yield (first, spoilt_header + second[HEADER_BYTES:], third)
        yield (header(0, 0), first, second)
        yield (first, damaged(source, second), third)
        yield (first, FOLDER, third)
        yield (FOLDER, first)


def read_folders(source):
    for pieces, verb in product(rows_of_pieces(source), READING_VERBS):
        yield case_of((verb, "d"), header(0, 0), with_pieces({}, "d", pieces))


def named_folders(source):
    """Folders by odd names, by several names, and beside files that have no number."""
    pieces = consecutive(source, 625, 22, (1, 2))
    pieces.append(refused(pieces[1], 0))
    for name, verb in product((*ODD_NAMES, "."), READING_VERBS):
        yield case_of((verb, name), b"", with_pieces({}, name, pieces))
    for name, verb in product(("d/", "d//", "./d", "d/.", "d/../d"), READING_VERBS):
        yield case_of((verb, name), b"", with_pieces({}, "d", pieces))
        yield case_of((verb, name), b"", {"d": FOLDER})
    for verb in READING_VERBS:
        yield case_of((verb, "--", "-d"), b"", with_pieces({}, "-d", [*pieces, None, b""]))
    others = ("0000.rec", "10000.rec", "3.rec", "0003.REC", "0003.rec~", "00003.rec", "000x.rec")
    files = {"d": FOLDER, **{f"d/{name}": pieces[0] for name in others}}
    for verb in READING_VERBS:
        yield case_of((verb, "d"), b"", files)
        yield case_of((verb, "d"), b"", with_pieces(files, "d", pieces))
        yield case_of((verb, "d"), b"", {"d": FOLDER, "d/9999.rec": pieces[0]})


def into(folder, system, start, frames=None):
    """The words that record into a folder."""
    parts = () if frames is None else ("--frames", str(frames))
    return ("record", "--into", folder, *parts, str(system), str(start))


def recorded_pieces(source):
    """Pieces of 1, 2 and 3 frames: all full, or a row more or less."""
    for system, frames in product(SYSTEMS, (1, 2, 3)):
        whole = (frames - 1) * frame_rows(system)
        for start, more in ((1, 0), (1, 1), (any_line(source, system), 1)):
            count = frame_rows(system, start) + whole + more
            yield case_of(into("d", system, start, frames), rows(source, count))
    for system in SYSTEMS:
        last = judge.SYSTEMS[system].lines
        for start, more in ((last - 2, -1), (last - 2, 0), (last, 1), (last - 1, 1)):
            count = frame_rows(system, start) + frame_rows(system) + more
            yield case_of(into("d", system, start, 1), rows(source, count))
        yield case_of(into("d", system, 1, 999_999_999), rows(source, 2))
        for start in (1, any_line(source, system)):
            yield case_of(into("d", system, start), rows(source, 3))
            yield case_of(into("d", system, start, 1), b"")


def recorded_part_frames(source):
    """Rows that end in a field, at its end and at the end of the frame."""
    for system in SYSTEMS:
        for start, count in ((1, 1), (20, 2), (263, 1), (310, 1), (310, 2), (system, 1), (300, 0)):
            yield case_of(into("d", system, start, 1), rows(source, count))
            yield case_of(("record", str(system), str(start)), rows(source, count))


def refused_pieces(source):
    """A row that is refused in the first piece or in the second, first or later in it."""
    high = with_samples(rows(source, 1), {700: 1_020})
    spare = with_spare(rows(source, 1), (77, 1 << 30))
    for system, row in product(SYSTEMS, (high, spare, high[:-1])):
        last = judge.SYSTEMS[system].lines
        for start, count in ((1, 0), (last - 2, 1), (last - 2, 4)):
            data = rows(source, count) + row
            yield case_of(into("d", system, start, 1), data)
    for system, start in ((524, 1), (0, 0), (525, 526), (625, 0)):
        yield case_of(into("d", system, start), rows(source, 1))
        yield case_of(into("none/d", system, start, 1), rows(source, 1))


def folders_to_record_into(source):
    """Folders that are there, hold something, are none, or cannot be made."""
    data, others = rows(source, 2), {"d/0000.rec": b"", "d/10000.rec": b"", "d/a.rec": b"a"}
    for files in (
        {"d": FOLDER}, {"d": FOLDER, **others}, {"d": FOLDER, "d/d": FOLDER}, {"d": b""},
        {"d": FOLDER, "d/0001.rec": b""}, {"d": FOLDER, "d/9999.rec": b"x", **others},
        {"d": FOLDER, "d/0002.rec": FOLDER},
    ):  # fmt: skip
        for frames in (None, 1):
            yield case_of(into("d", 625, 623, frames), data, files)
    for name in (*ODD_NAMES, "", "d/", "./d", "a/d", "none/d", "none/d/", "f/", "f/d", ".", "a/"):
        yield case_of(into(name, 525, 525, 1), data, {"a": FOLDER, "f": b""})
    yield case_of(("record", "--frames", "1", "--into", "d", "--", "525", "525"), data)
    for folder, unmade in (("/proc", "/proc/0001.rec"), *((n, n) for n in ("/proc/d", LONG_NAME))):
        expected = failed("record", f"{unmade} could not be made")
        yield Case(from_file(into(folder, 625, 1)), data, expected)


def programmes_back(source):
    """What was recorded into a folder is confirmed, and gives its rows back."""
    for system, frames in product(SYSTEMS, (1, 2, None)):
        for start in (1, any_line(source, system)):
            data = rows(source, frame_rows(system) + source.random.randrange(3))
            words = into("d", system, start, frames)
            record = command.answer(words, data)
            confirm, extract = (command.answer((v, "d"), b"", record.files) for v in READING_VERBS)
            script = f"{from_file(words)} && {COMMAND} confirm d && {COMMAND} extract d"
            errors = record.errors + confirm.errors + extract.errors
            expected = Answer(confirm.output + data, errors, 0, record.files)
            yield Case(script, data, expected)


def recording_streams(source):
    """Standard input, output and error that are closed, broken or a terminal, beside files."""
    data, words = rows(source, 2), into("d", 625, 623, 1)
    expected = command.answer(words, data)
    unsaid = expected._replace(errors=b"")
    for closed, due in (("2>&-", unsaid), (">&-", expected), (">&- 2>&-", unsaid)):
        yield Case(f"{from_file(words)} {closed}", data, due)
    yield Case(from_file(words), data, expected, TO_TERMINAL)
    only_header = unread("record", files=with_pieces({}, "d", [header(625, 623)]))
    for nothing in ("<.", "<&-"):
        yield Case(f"{called(words)} {nothing}", b"", only_header)
    yield Case(called(words), b"", on_terminal(only_header, "record"), THEN_BROKEN)
    first, second = (expected.files[f"d/000{number}.rec"] for number in (1, 2))
    # Files that may have so many times 1024 bytes: the first is over it, or the second.
    for most, cut in ((1, (first[:1_024],)), (20, (first, second[:20_480]))):
        due = unwritten("record", files=with_pieces({}, "d", cut))
        yield Case(f"ulimit -f {most}; {from_file(words)}", data, due)


def reading_streams(source):
    """The same where files are read: standard input is not, and nothing is waited for."""
    clean = some_recording(source, 525)
    pieces = consecutive(source, 525, 19, (2, 2))
    files = with_pieces({"a": clean, "b": refused(clean)}, "d", pieces)
    for words in (("confirm", "b"), ("confirm", "a", "b"), ("extract", "b"), ("extract", "d")):
        expected = command.answer(words, b"", files)
        yield Case(f"{called(words)} <&-", b"", expected, files=files)
        yield Case(called(words), b"", expected, THEN_BROKEN, files)
        yield Case(f"{called(words)} 2>&-", b"", expected._replace(errors=b""), files=files)
    for words in (("confirm", "a"), ("confirm", "a", "b"), ("confirm", "d"), ("extract", "a")):
        for full in (">&-", ">/dev/full"):
            due = unwritten(words[0], files=files)
            yield Case(f"{called(words)} {full}", b"", due, files=files)
    for words in (("extract", "a"), ("extract", "d"), ("confirm", "a"), ("confirm", "d")):
        due = command.answer(words, b"", files)
        if words[0] == "extract":
            due = to_terminal("extract", files)
        yield Case(called(words), b"", due, TO_TERMINAL, files)


FAMILIES = (
    named_files,
    absent_files,
    read_files,
    devices,
    many_files,
    several_files,
    summed_hours,
    read_folders,
    named_folders,
    recorded_pieces,
    recorded_part_frames,
    refused_pieces,
    folders_to_record_into,
    programmes_back,
    recording_streams,
    reading_streams,
)
