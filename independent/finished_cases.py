"""Cases for the command on finished files, from fixed seeds."""

from itertools import product

from independent import command, finished, index, judge
from independent.answers import FOLDER, Answer
from independent.command_cases import (
    COMMAND,
    FROM_FILE,
    IN_PIECES,
    THEN_BROKEN,
    TO_TERMINAL,
    Case,
    called,
    captioned_recording,
    case_of,
    from_file,
    on_terminal,
    some_recording,
    spoilt,
    to_terminal,
    unread,
    unwritten,
)
from independent.edges import SYSTEMS
from independent.finishing_cases import with_repairs
from independent.folder_cases import LONG_NAME, ODD_NAMES
from independent.index import ENTRY, TRAILER, Entry, index_bytes, trailer_bytes
from independent.judge import LINES_LIMIT, fourth_offsets, line_size
from independent.material import EVEN, ODD, Source, edge_offsets, inverted, plain_and_blank_line
from independent.recordings import HEADER_BYTES, header, header_of, lines_of, recording
from independent.retention import FILE_TEXTS
from independent.runs import STARTS, clean_lines, damaged

# A few files by how many codes of each line are repaired.
FEW_REPAIRS = ((), (0,), (1,), (2, 0), (0, 1, 2), (0, 0, 0))


def repaired(source, system, start, repairs, written=Source.written):
    """A recording with so many codes of each line repaired."""
    lines = clean_lines(source, system, start, len(repairs), written)
    damages = zip(lines, repairs)
    return recording(system, start, [with_repairs(source, system, *pair) for pair in damages])


def four_lines(source, system):
    """A recording of four lines, of which the second and the last were not clean."""
    return repaired(source, system, STARTS[system], (0, 1, 0, 2))


def finished_file(data):
    return finished.finish(data)[1]


def given(data):
    """The words for the system and the start of a recording."""
    return [str(number) for number in header_of(data)]


def finish(data):
    """A recording on standard input, and in a file."""
    yield case_of(("finish", "x"), data)
    yield case_of(("finish", "r", "x"), b"", {"r": data})


def finished_recordings(source):
    """Recordings clean, repaired in one and two codes, with packets, cut, and refused."""
    for system in SYSTEMS:
        clean, four = some_recording(source, system), four_lines(source, system)
        captions = captioned_recording(source, system)
        for data in (clean, damaged(source, clean), captions, damaged(source, captions), four):
            yield from finish(data)
        for end in (0, 1, 3, 4, 5, 100, -1, HEADER_BYTES + line_size(system)):
            yield from finish(four[:end])
        yield from finish(four + b"\0")
        for start, repairs in product((1, judge.SYSTEMS[system].lines), FEW_REPAIRS):
            yield case_of(("finish", "x"), repaired(source, system, start, repairs))


def finished_faults(source):
    """A word over 1023, or wrong otherwise, and hopeless codes, behind lines that were repaired."""
    for system in SYSTEMS:
        data = four_lines(source, system)
        offsets = (*source.random.sample(edge_offsets(system), 4), *fourth_offsets(system))
        for offset in offsets:
            steps = source.random.randrange(4)
            word = lines_of(data)[steps][offset]
            fault = source.random.choice((source.over(word), word ^ inverted(2)[7] ^ 512))
            yield from finish(spoilt(data, steps, offset, fault))
        for offset, fourths in product(fourth_offsets(system), (EVEN, ODD)):
            steps, fault = source.random.randrange(4), source.random.choice(fourths)
            yield case_of(("finish", "x"), spoilt(data, steps, offset, fault))
        for pair in ((system, 0), (system + 1, 1), (system, 65_535), (0, 0)):
            yield from finish(header(*pair) + data[HEADER_BYTES:])
            yield case_of(("finish", "x"), header(*pair))


def finish_places(source):
    """Names that take a finished file and that do not, and recordings that cannot be read."""
    data = four_lines(source, 625)
    files = {"r": data, "e": b"", "h": b"x", "d": FOLDER, "d/f": finished_file(data)}
    taken, not_made = ("e", "h", "r", "d", "d/f", "."), ("r/", "d/", "x/", "none/x", "e/x")
    for name in ("x", "./x", "d/x", *taken, *not_made):
        yield case_of(("finish", name), data, files)
        yield case_of(("finish", "r", name), b"", files)
    # A recording that is refused leaves what is there as it is.
    for name, refused in product(("x", "e", "h", "x/"), (data[:3], data[:-1], data + data)):
        yield case_of(("finish", name), refused, files)
    for thing in (b"", b"x", FOLDER):
        yield case_of(("finish", "x"), data, {"x.part": thing})
        yield case_of(("finish", "x"), data[:-1], {"x.part": thing})
    for name in ("none", "d", "none/x", "r/", LONG_NAME):
        yield case_of(("finish", name, "x"), b"", files)
    for name in ODD_NAMES:
        yield case_of(("finish", name, f"{name}.f"), b"", {name: data})
        yield case_of(("finish", name, f"{name}.f"), b"", {name: data[:-1]})
    for name in ("-x", "--help", "--"):
        yield case_of(("finish", "--", name), data)
        yield case_of(("finish", "--", name, "y"), b"", {name: data[:-1]})


def ask(file, system, start, a, b):
    words = [str(number) for number in (system, start, a, b)]
    return case_of(("ask", "f", *words), b"", {"f": file})


def asked_ranges(source):
    """Every range about files of no to three lines."""
    for repairs in FEW_REPAIRS:
        file = finished_file(repaired(source, 625, 22, repairs))
        for a, b in product(range(len(repairs) + 2), repeat=2):
            yield ask(file, 625, 22, a, b)
    for a, b in ((0, 0), (1, 1), (1, 2), (2, 3), (0, 3), (0, 4), (3, 2), (0, 999_999_999)):
        yield ask(finished_file(four_lines(source, 525)), 525, 524, a, b)


def with_trailer(file, offset=0, entries=0, lines=0):
    """A file with other numbers in its trailer, each so much more."""
    numbers = TRAILER.unpack(file[-TRAILER.size :])
    more = offset, entries, lines
    widths = (64, 32, 32)
    told = [(n + m) % 2**bits for n, m, bits in zip(numbers, more, widths)]
    return file[: -TRAILER.size] + trailer_bytes(*told)


def with_entries(file, system, entries):
    """A file's lines with another index, and a trailer that fits it."""
    lines = finished.parts_of(file).lines
    count = len(lines) // line_size(system)
    return lines + index_bytes(entries) + trailer_bytes(len(lines), len(entries), count)


def unfit_files(file, system):
    """Copies of a finished file of four lines whose parts do not fit, or whose index is none."""
    size = line_size(system)
    for more in (1, -1, size, -size, 2**32, 2**33, 2**63, 6):
        yield with_trailer(file, offset=more)
    for more in (1, -1, 2**31, 2**32 - 2):
        yield with_trailer(file, entries=more)
    for more in (1, -1, LINES_LIMIT, 2**31):
        yield with_trailer(file, lines=more)
    for end in (0, 1, 15, 16, 17, len(file) - 1):
        yield file[:end]
    for start in (1, ENTRY.size, size, len(file) - 16, len(file) - 15):
        yield file[start:]
    for more in (b"\0", bytes(15), bytes(16), file[-TRAILER.size :]):
        yield file + more
    for entries in (
        ((1, 1), (1, 1)), ((3, 2), (1, 1)), ((4, 1),), ((1, 0),), ((1, 3),), ((1, 256),),
        ((1, 257),), ((3, 2), (3, 2)), ((0, 1), (2**32 - 1, 1)), ((2, 2), (2, 1)),
    ):  # fmt: skip
        yield with_entries(file, system, [Entry(*pair) for pair in entries])


def asked_files(source):
    """Files that do not fit, by each verb: 19, and 20 never before it."""
    for system in SYSTEMS:
        data = four_lines(source, system)
        words = given(data)
        for number, file in enumerate(unfit_files(finished_file(data), system)):
            last = ("3", "3"), ("2", "1"), ("0", "0")
            yield case_of(("ask", "f", *words, *last[number % 3]), b"", {"f": file})
            if number % 4 == 0:
                yield case_of(("check", "f", *words), b"", {"f": file})
                yield case_of(("unfinish", "f", *words), b"", {"f": file})
        # Behind lines that are all clean there is no index that could not be found.
        clean = finished_file(repaired(source, system, STARTS[system], (0, 0, 0, 0)))
        for more in (2**32, 2**33, 2**63):
            file = with_trailer(clean, offset=more)
            yield case_of(("ask", "f", *words, "0", "3"), b"", {"f": file})


def other_files(source, data):
    """Copies of a finished file that fit, and are not as the lines are."""
    system, _ = header_of(data)
    file = finished_file(data)
    for entries in (
        (), ((1, 1),), ((3, 2),), ((1, 2), (3, 2)), ((1, 1), (3, 1)), ((0, 1), (1, 1), (3, 2)),
        ((1, 1), (2, 1), (3, 2)), ((0, 1), (3, 2)), ((2, 1), (3, 2)), ((1, 1), (2, 2)),
    ):  # fmt: skip
        yield with_entries(file, system, [Entry(*pair) for pair in entries])
    eav, _ = fourth_offsets(system)
    over = [(steps, source.random.choice(edge_offsets(system)), 1_024) for steps in range(4)]
    hopeless = [(1, eav, source.random.choice(fourths)) for fourths in (EVEN, ODD)]
    for fault in (*over, *hopeless):
        bad = spoilt(data, *fault)
        yield bad[HEADER_BYTES:] + file[len(data) - HEADER_BYTES :]
    for steps in (0, 2):
        word = lines_of(data)[steps][eav]
        more = spoilt(data, steps, eav, word ^ source.random.choice(inverted(1)))
        yield more[HEADER_BYTES:] + file[len(data) - HEADER_BYTES :]
    clean = repaired(source, system, STARTS[system], (0, 0, 0, 0))
    yield clean[HEADER_BYTES:] + file[len(data) - HEADER_BYTES :]
    # A line that is refused, and an index that differs before it, there, and behind it.
    for steps, entries in product((1, 2, 3), (((0, 1),), ((0, 1), (1, 1)), ((2, 1),), ())):
        bad = spoilt(data, steps, 0, 1_024)[HEADER_BYTES:] + file[-TRAILER.size :]
        yield with_entries(bad, system, [Entry(*pair) for pair in entries])


def checked_files(source):
    """Files as they are due, and files that fit and are not: these are answered all the same."""
    for system in SYSTEMS:
        for repairs in FEW_REPAIRS:
            data = repaired(source, system, STARTS[system], repairs)
            yield case_of(("check", "f", *given(data)), b"", {"f": finished_file(data)})
        data = four_lines(source, system)
        for file in other_files(source, data):
            yield case_of(("check", "f", *given(data)), b"", {"f": file})
            yield case_of(("ask", "f", *given(data), "0", "2"), b"", {"f": file})
        file = finished_file(data)
        for start in (1, STARTS[system] + 1, judge.SYSTEMS[system].lines):
            yield case_of(("check", "f", str(system), str(start)), b"", {"f": file})


def named_systems(source):
    """Systems and lines that there are not, before files that do not fit and ranges."""
    file = finished_file(four_lines(source, 625))
    for system, start in ((0, 0), (526, 22), (65_536 + 625, 22), (625, 0), (625, 626), (525, 526)):
        words = ("f", str(system), str(start))
        for each in (file, file[1:]):
            yield case_of(("ask", *words, "1", "0"), b"", {"f": each})
            yield case_of(("check", *words), b"", {"f": each})
        yield case_of(("unfinish", *words), b"", {"f": file})
    for words in ("0625 022 00 002", "000000625 000000022 000000003 000000003"):
        yield case_of(("ask", "f", *words.split()), b"", {"f": file})
    for name in ODD_NAMES:
        yield case_of(("ask", name, "625", "22", "4", "4"), b"", {name: file})
    for name in ("none", "d", "none/x", "f/", LONG_NAME):
        files = {"f": file, "d": FOLDER}
        yield case_of(("ask", name, "625", "22", "0", "0"), b"", files)
        yield case_of(("check", name, "625", "22"), b"", files)
        yield case_of(("unfinish", name, "625", "22"), b"", files)


def unfinished_files(source):
    """Finished files of both systems, back to recordings."""
    for system in SYSTEMS:
        for start, repairs in product((1, *plain_and_blank_line(system)), FEW_REPAIRS):
            data = repaired(source, system, start, repairs)
            files = {"f": finished_file(data)}
            yield case_of(("unfinish", "f", *given(data)), b"", files)


def retention_trips(source):
    """Finished from a pipe, asked, checked, and back to what went in."""
    for system in SYSTEMS:
        for data in (four_lines(source, system), captioned_recording(source, system)):
            file, numbers = finished_file(data), " ".join(given(data))
            last = TRAILER.unpack(file[-TRAILER.size :])[2] - 1
            output = command.answer(("finish", "x"), data).output
            for words in (f"ask x {numbers} 0 {last}", f"check x {numbers}"):
                output += command.answer(words.split(), b"", {"x": file}).output
            verbs = f"{COMMAND} ask x {numbers} 0 {last}; {COMMAND} check x {numbers}"
            back = f'{COMMAND} unfinish x {numbers} | cmp - "$0"'
            script = f"{COMMAND} finish x {FROM_FILE} && {{ {verbs} && {back}; }}"
            yield Case(script, data, Answer(output, b"", 0, {"x": file}))
            yield case_of(("finish", "x"), data, way=IN_PIECES)
            yield case_of(("finish", "x"), data[:-1], way=IN_PIECES)


def sparse_files(source):
    """Files as long as there may be, of which only the index and the trailer are there."""
    for system, lines in product(SYSTEMS, (2_000_000, LINES_LIMIT, LINES_LIMIT + 1)):
        offset, last = lines * line_size(system), lines - 1
        entries = [Entry(ordinal, 2) for ordinal in (0, lines // 2, last - 1)]
        right = index_bytes(entries) + trailer_bytes(offset, len(entries), lines)
        for a, b in ((0, 0), (1, 5), (last, last), (last - 1, last), (0, lines)):
            yield asked_sparse(system, offset, right, a, b)
        high = index_bytes(entries) + trailer_bytes(offset + 2**32, len(entries), lines)
        yield asked_sparse(system, offset + 2**32, right, 1, 5)
        yield asked_sparse(system, offset + 2**32, high, 1, 5)
        low = index_bytes(entries) + trailer_bytes(offset % 2**32, len(entries), lines)
        yield asked_sparse(system, offset % 2**32, low, 1, 5)


def asked_sparse(system, hole, data, a, b):
    """A file with a hole of so many bytes, and behind it an index and a trailer."""
    entries, trailer = data[: -TRAILER.size], data[-TRAILER.size :]
    asked = index.ask(system, 1, trailer, entries, hole + len(data), a, b)
    words = f"ask x {system} 1 {a} {b}"
    script = (
        f'truncate -s {hole} x && cat "$0" >>x && {COMMAND} {words}; '
        "status=$?; rm x; exit $status"
    )
    if asked.number:
        said = f"ask: x: refused {asked.number}: {FILE_TEXTS[asked.number]}\n"
        return Case(script, data, Answer(b"", said.encode(), 2))
    said = "all clean" if asked.clean else "not all clean"
    return Case(script, data, Answer(f"lines {a} to {b}: {said}\n".encode(), b"", 1 - asked.clean))


def wrong_retention(source):
    """More or fewer arguments than are due, and numbers that are none."""
    data = four_lines(source, 625)
    files = {"f": finished_file(data)}
    for words in (
        "finish", "finish f y z", "finish -- ", "finish -x y", "ask", "ask f", "ask f 625 22",
        "ask f 625 22 0", "ask f 625 22 0 0 0", "ask f x 22 0 0", "ask f 625 x 0 0",
        "ask f 625 22 x 0", "ask f 625 22 0 x", "ask f 625 22 0 -1", "ask f 625 22 1000000000 0",
        "ask f 625 22 0 4294967296", "ask x y z", "ask --a f 625 22 0 0", "ask none 625 22 0 x",
        "check", "check f", "check f 625", "check f 625 22 0", "check f x 22", "check f 625 x",
        "check f 625 1e1", "check -x f 625 22", "unfinish", "unfinish f 625", "unfinish f x y",
        "unfinish f 625 22 y", "unfinish -", "check none x y",
    ):  # fmt: skip
        yield case_of(words.split(), data, files)
    for words in (("ask", "f", "625", "22", "0", ""), ("check", "f", "", "22")):
        yield case_of(words, data, files)


def reading_verbs(data):
    """The words of each verb that reads a finished file."""
    return (
        ("ask", "f", *given(data), "0", "0"),
        ("check", "f", *given(data)),
        ("unfinish", "f", *given(data)),
    )


def retention_inputs(source):
    """Standard input is read by finish alone, and may fail there."""
    data = four_lines(source, 625)
    files = {"f": finished_file(data)}
    for words in reading_verbs(data):
        due = command.answer(words, b"", files)
        script = f"{{ {called(words)}; cat; }} {FROM_FILE}"
        yield Case(script, b"left", due._replace(output=due.output + b"left"), files=files)
        yield Case(f"{called(words)} <&-", b"", due, files=files)
    for nothing in ("<.", "<&-"):
        yield Case(f"{called(('finish', 'x'))} {nothing}", b"", unread("finish"))
        due = command.answer(("finish", "r", "x"), b"", {"r": data})
        yield Case(f"{called(('finish', 'r', 'x'))} {nothing}", b"", due, files={"r": data})
    later = on_terminal(unread("finish"), "finish")
    yield Case(called(("finish", "x")), data, later, THEN_BROKEN)


def retention_outputs(source):
    """Standard output that is full or closed, or a terminal; standard error that is closed."""
    data = four_lines(source, 625)
    files = {"f": finished_file(data)}
    for full in (">/dev/full", ">&-"):
        for words in reading_verbs(data):
            due = unwritten(words[0], files=files)
            yield Case(f"{called(words)} {full}", b"", due, files=files)
        # The file is whole before anything is said of it.
        due = unwritten("finish", files={"x": files["f"]})
        yield Case(f"{from_file(('finish', 'x'))} {full}", data, due)
    for words in reading_verbs(data):
        due = command.answer(words, b"", files)
        due = to_terminal(words[0], files) if words[0] == "unfinish" else due
        yield Case(from_file(words), b"", due, TO_TERMINAL, files)
        refused = command.answer(("ask", "f", "1", "1", "0", "0"), b"", files)
        yield Case(f"{COMMAND} ask f 1 1 0 0 2>&-", b"", refused._replace(errors=b""), files=files)


FAMILIES = (
    finished_recordings,
    finished_faults,
    finish_places,
    asked_ranges,
    asked_files,
    checked_files,
    named_systems,
    unfinished_files,
    retention_trips,
    sparse_files,
    wrong_retention,
    retention_inputs,
    retention_outputs,
)
