"""Cases for the command with packets, in files beside programmes and as lists; fixed seeds."""

from itertools import cycle, product

from independent import command, judge, programme
from independent.captions import HEAD, MOST_WORDS, ORDINAL_LIMIT, Entry
from independent.command import FOLDER, Answer, with_pieces
from independent.command_cases import (
    BEFORE_ROWS,
    BY_SCRIPT,
    IN_PIECES,
    TO_TERMINAL,
    Case,
    called,
    captioned_recording,
    case_of,
    failed,
    from_file,
    lines_from,
    rows,
    to_terminal,
    unread,
    unwritten,
    with_samples,
    with_spare,
)
from independent.edges import HIGHEST_WIDE, SYSTEMS
from independent.entries import entry_bytes, head_bytes, line_entries
from independent.folder_cases import LONG_NAME, ODD_NAMES, consecutive, into, refused
from independent.judge import TABLE_FALL, line_after
from independent.material import Source, changed
from independent.packets import LEAST_WORDS
from independent.protocol import Wide
from independent.recordings import HEADER_BYTES, header, line_count, recording
from independent.rows import BLACK_ROW
from independent.runs import PACKET_FAULTS, damaged, faults_in_packets

BESIDE = "p.anc"

# The lines of the last row of a frame, of that of its first field, and of one inside a field.
LAST_ROWS = {525: 525, 625: 623}
FIELD_ENDS = {525: 263, 625: 310}
INSIDE = 100

# The last lines with V = 1 of a frame, or of its middle where it ends with V = 0.
LAST_BLANKS = {525: 282, 625: 625}


def beside(verb, *others, name=BESIDE):
    """The words of a verb with a packets file."""
    return (verb, "--packets", name, *others)


def taped(system, start, data, packets, way=BY_SCRIPT):
    """Rows and a packets file that are recorded."""
    words = beside("record", str(system), str(start))
    return case_of(words, data, {BESIDE: packets}, way)


def due_on(system, start, ordinal, fall=TABLE_FALL):
    return judge.due_of(system, line_after(system, start, ordinal), fall)


def to_next_row(system, start):
    """How many lines there are from one to the next that takes a row."""
    return next(n for n in range(1, system) if not due_on(system, start, n).v)


def lines_for(system, start, data):
    """How many lines are written for rows alone."""
    return line_count(programme.record(system, start, data)[0])


def caption(source, ordinal, space=0):
    """An entry of a few words."""
    return entry_bytes(ordinal, space, source.packets(source.random.randrange(LEAST_WORDS, 40)))


def captions_on(source, system, start, ordinals, fall=TABLE_FALL):
    """A packets file for some lines of a programme, of whose spaces some have no packets."""
    lines = ((n, source.ready(due_on(system, start, n, fall))) for n in ordinals)
    return b"".join(line_entries(*line) for line in lines)


def full_lines(source, system, start, count):
    """A packets file that leaves no fill in the spaces of the first lines."""
    ends = (judge.spaces(due_on(system, start, n)) for n in range(count))
    full = ([source.packets(end - first) for first, end in spaces] for spaces in ends)
    return b"".join(line_entries(*line) for line in enumerate(full))


def recorded_captions(source):
    """Packets in all lines that are written for the rows, or in some; spaces full of them."""
    for system in SYSTEMS:
        for start in (1, FIELD_ENDS[system] - 1, LAST_ROWS[system]):
            data = rows(source, 3)
            count = lines_for(system, start, data)
            for step in (1, source.random.randrange(2, 5)):
                packets = captions_on(source, system, start, range(0, count, step))
                yield taped(system, start, data, packets)
        full = full_lines(source, system, 1, to_next_row(system, 1) + 1)
        yield taped(system, 1, rows(source, 2), full, IN_PIECES)


def captions_behind_rows(source):
    """Packets for lines behind the last row: of its frame, of the next, and with V = 0."""
    for system in SYSTEMS:
        start, data = LAST_ROWS[system], rows(source, 1)
        row = to_next_row(system, start)
        for ordinal in (1, row - 1, row, row + system, ORDINAL_LIMIT - 1):
            yield taped(system, start, data, caption(source, ordinal))
        yield taped(system, start, data, caption(source, row - 1, space=1))
        for count in (row, row + 1):
            packets = captions_on(source, system, start, range(count))
            yield taped(system, start, data, packets)
        for start in (FIELD_ENDS[system], INSIDE):
            row = to_next_row(system, start)
            packets = caption(source, row - 1) + caption(source, row)
            yield taped(system, start, data, packets)


def captions_without_rows(source):
    """Packets and no row: from a line with V = 1 on, and from one that takes a row."""
    for system in SYSTEMS:
        row = to_next_row(system, 1)
        elsewhere = (LAST_BLANKS[system], 1), (INSIDE, 0)
        for start, ordinal in ((1, 0), (1, row - 1), (1, row), *elsewhere):
            yield taped(system, start, b"", caption(source, ordinal))
        yield taped(system, 1, b"", caption(source, 0)[:-1])
        yield taped(system, INSIDE, b"", b"\0")


def no_entries(source, ordinal):
    """What is no entry: cut in its head or its words, or with numbers that cannot be."""
    words = source.packets(9)
    whole = entry_bytes(ordinal, 0, words)
    cuts = [whole[:size] for size in (1, HEAD.size - 1, HEAD.size, HEAD.size + 1, len(whole) - 1)]
    numbers = (
        (ORDINAL_LIMIT, 0, 9), (HIGHEST_WIDE, 1, 9), (ordinal, 2, 9), (ordinal, 256, 9),
        (ordinal, 65_535, 9), (ordinal, 0, 0), (ordinal, 1, 0), (ordinal, 0, MOST_WORDS + 1),
        (ordinal, 1, 65_535),
    )  # fmt: skip
    heads = [head_bytes(Entry(Wide(n), space, count)) for n, space, count in numbers]
    return [*cuts, *(head + judge.bytes_of(words) for head in heads)]


def entries_refused(source):
    """No entry where a file begins, or behind one for the first line; behind the last row."""
    kinds, systems = len(no_entries(source, 0)), cycle(SYSTEMS)
    for index, system in zip(range(kinds), systems):
        ordinal = source.random.randrange(2)
        before = caption(source, 0, space=source.random.randrange(2)) * ordinal
        wrong = no_entries(source, ordinal)[index]
        yield taped(system, BEFORE_ROWS[system], rows(source, 2), before + wrong)
    for index, starts, system in zip(range(0, kinds, 2), cycle((LAST_ROWS, FIELD_ENDS)), systems):
        ordinal = lines_for(system, starts[system], BLACK_ROW)
        before = caption(source, source.random.choice((0, ordinal - 1)))
        wrong = no_entries(source, ordinal)[index]
        yield taped(system, starts[system], rows(source, 1), before + wrong)


def entries_not_rising(source):
    """An entry twice, one for the space before, and ones for lines before."""
    pairs = (
        ((0, 0), (0, 0)), ((1, 1), (1, 1)), ((1, 1), (1, 0)), ((2, 0), (1, 1)), ((3, 0), (0, 0)),
    )  # fmt: skip
    for pair, system in zip(pairs, cycle(SYSTEMS)):
        packets = b"".join(caption(source, *key) for key in pair)
        yield taped(system, BEFORE_ROWS[system], rows(source, 2), packets)


def entries_cut_late(source):
    """Words cut of an entry for a later line, and for one that is not written."""
    cuts = ((3, 1), (3, 14), (4, 1), (40, 2))
    for (ordinal, cut), system in zip(cuts, cycle(SYSTEMS)):
        packets = caption(source, ordinal)[:-cut]
        yield taped(system, BEFORE_ROWS[system], rows(source, 2), packets)


def spoilt_packets(source, place, word):
    """Four packets of two user words with another word at a place, or one more behind them."""
    words = [word for _ in range(4) for word in source.packet(2)]
    return changed([*words, 0][: max(len(words), place + 1)], {place: word})


def captions_refused(source):
    """Words that the writer refuses, in both spaces of lines with V = 1 and between with V = 0."""
    spaces = cycle(((1, 0), (2, 0), (1, 1), (3, 0), (0, 1)))
    for system, fault in product(SYSTEMS, (*PACKET_FAULTS, (36, 512))):
        ordinal, space = next(spaces)
        before = captions_on(source, system, BEFORE_ROWS[system], range(ordinal))
        wrong = entry_bytes(ordinal, space, spoilt_packets(source, *fault))
        packets = before + wrong + caption(source, ordinal + 1)
        yield taped(system, BEFORE_ROWS[system], rows(source, 3), packets)


def captions_too_long(source):
    """More words than a space holds, any where V is 0, both spaces refused, and one just full."""
    most, bad = source.packets(MOST_WORDS), spoilt_packets(source, 3, 0)
    for index, system in zip(range(8), cycle(SYSTEMS)):
        room = judge.SYSTEMS[system].sav - judge.CODE_WORDS
        long = source.packets(room + 1)
        ordinal, spaces = (
            (0, (long, [])), (2, (long, [])), (1, (long, bad)), (1, (bad, bad[1:])),
            (2, ([], [512])), (2, (bad, [512])), (2, (long, most)), (0, ([], most)),
        )[index]  # fmt: skip
        packets = line_entries(ordinal, spaces)
        yield taped(system, BEFORE_ROWS[system], rows(source, 2), packets)


def rows_refused_with_captions(source):
    """A refused row on a line without packets, with good ones, bad ones and no entry."""
    short = rows(source, 1)[:-1]
    spare = with_spare(rows(source, 1), (77, 1 << 30))
    outside = with_samples(rows(source, 1), {700: 1_020})
    good, bad = caption(source, 3), entry_bytes(3, 0, spoilt_packets(source, 8, 0))
    every = product((short, spare, outside), (b"", good, bad, good[:-1]))
    for (row, packets), system in zip(every, cycle(SYSTEMS)):
        yield taped(system, BEFORE_ROWS[system], rows(source, 1) + row, packets)


def taped_into(source, system, count, packets):
    """So many rows, from the last of a frame on, into recordings of a frame each."""
    words = beside(*into("d", system, LAST_ROWS[system], 1))
    return case_of(words, rows(source, count), {BESIDE: packets})


def captions_into(source):
    """Packets in all lines of two recordings, and in some of a second behind the last row."""
    for system in SYSTEMS:
        start = LAST_ROWS[system]
        second = lines_for(system, start, BLACK_ROW)
        row = to_next_row(system, start)
        for more in (0, 2):
            packets = captions_on(source, system, start, range(row + more))
            yield taped_into(source, system, 1 + more, packets)
        for ordinals in ((second,), (row,), (0, second, row)):
            packets = b"".join(caption(source, n) for n in ordinals)
            yield taped_into(source, system, 1, packets)
        # What is refused on the first line of the second recording, and before it.
        wrong = entry_bytes(second, 0, spoilt_packets(source, 0, 1))
        cut, behind = caption(source, second)[:-1], caption(source, second - 1) + b"\0"
        for packets in (wrong, cut, behind):
            yield taped_into(source, system, source.random.randrange(1, 3), packets)


def with_fifo(other, script):
    """A script that has a pipe named q, at whose other end is another."""
    return f"mkfifo q; {other} & {script}; status=$?; wait; rm q; exit $status"


def packets_files(source):
    """Packets files that are not there, are none, have odd names, or come from a device."""
    data, good = rows(source, 1), captions_on(source, 625, 22, range(2))
    files = {"p": good, "d": FOLDER}
    for name in ("none", "d", "d/none", "p/", "", LONG_NAME, "new\nline"):
        yield case_of(beside("record", "625", "22", name=name), data, files)
    for name in source.random.sample(ODD_NAMES, 3):
        yield case_of(beside("record", "625", "22", name=name), data, {name: good + b"\0"})
    for words in (("record", "624", "22"), into("d", 625, 0), into("e", 625, 22, 1)):
        yield case_of(beside(*words, name="none"), data, files)
    script = from_file(beside("record", "625", "22", name="q"))
    due = taped(625, 22, data, b"").expected._replace(files=files)
    yield Case(script.replace(" q ", " /dev/null "), data, due, files=files)
    due = taped(625, 22, data, good).expected._replace(files=files)
    yield Case(with_fifo("dd if=p bs=7 >q 2>/dev/null", script), data, due, files=files)


def captioned_things(source, system):
    """Recordings with packets: whole, damaged, cut, spoilt, without lines, without packets."""
    whole = captioned_recording(source, system)
    yield whole
    yield damaged(source, whole)
    yield refused(damaged(source, whole), 3)
    yield whole[: HEADER_BYTES + 2 * judge.line_size(system) + 9]
    yield whole[:HEADER_BYTES]
    yield header(system, 0) + whole[HEADER_BYTES:]
    yield programme.record(system, BEFORE_ROWS[system], rows(source, 1))[0]


def extracted_captions(source):
    """A packets file made of the input, or of a file, and packets of a file that go nowhere."""
    for data in captioned_things(source, 525):
        yield case_of(beside("extract"), data)
    for system in SYSTEMS:
        whole = captioned_recording(source, system)
        yield case_of(beside("extract"), whole, way=IN_PIECES)
        yield case_of(beside("extract", "a"), b"", {"a": damaged(source, whole)})
        yield case_of(("extract", "a"), b"", {"a": whole})
    for data in source.random.sample([*faults_in_packets(source)], 2):
        yield case_of(beside("extract", "a"), b"", {"a": data})


def files_to_extract_into(source):
    """Packets files that hold something, are empty, are none, or cannot be made."""
    files = {"a": captioned_recording(source, 625), "held": b"x", "empty": b"", "d": FOLDER}
    for name in ("a", "held", "empty", "d", "d/p", "none/p", "new/", "a/p", ""):
        yield case_of(beside("extract", "a", name=name), b"", files)
    yield case_of(beside("extract", name="held"), files["a"], files)
    yield case_of(beside("extract", "none"), b"", files)
    odd = "odd\nname"
    yield case_of(beside("extract", "a", name=odd), b"", {**files, odd: b"x"})
    script = called(beside("extract", "a", name="q"))
    due = command.answer(beside("extract", "a", name="p"), b"", files)
    yield Case(with_fifo("cat q >p", script), b"", due, files=files)
    due = due._replace(files=files)
    yield Case(script.replace(" q ", " /dev/null "), b"", due, files=files)


def captioned_folders(source, system):
    """Folders of recordings with packets: whole, refused, with a gap, and with one missing."""
    row = consecutive(source, system, BEFORE_ROWS[system], (2, 3, 2), Source.captioned)
    first, second, third = row
    for pieces in (
        (first, damaged(source, second), third), (first, refused(second), third),
        (first, third, second), (first, None, third),
    ):  # fmt: skip
        yield with_pieces({}, "d", pieces)


def extracted_folders(source):
    """A packets file made of a folder, and packets of a folder that go nowhere."""
    for system in SYSTEMS:
        for files in captioned_folders(source, system):
            yield case_of(beside("extract", "d"), b"", files)
    for files in captioned_folders(source, 525):
        yield case_of(("extract", "d"), b"", files)


def shortest_packets(source, room):
    """As many packets without user words as a space holds."""
    return [word for _ in range(room // LEAST_WORDS) for word in source.packet(0)]


def listed_packets(source):
    """Lists of packets: of the input, of a file, of folders, of spaces full of packets."""
    for data in captioned_things(source, 625):
        yield case_of(("packets",), data)
    files = {"a": captioned_recording(source, 525), "d": FOLDER}
    for name in ("a", "none", "d", "", "a/"):
        yield case_of(("packets", name), header(0, 0), files)
    for files in captioned_folders(source, 525):
        yield case_of(("packets", "d"), b"", files)
    lines = []
    for line in (19, 20):
        ends = judge.spaces(judge.due_of(525, line))
        ready = [shortest_packets(source, end - start) for start, end in ends]
        lines.append(source.written(525, line, ready))
    yield case_of(("packets",), recording(525, 19, lines))


def captions_back(source):
    """Rows and packets that were extracted make the same recording again."""
    for system in SYSTEMS:
        for start, count in ((1, 2), (LAST_ROWS[system], 2), (INSIDE, 220)):
            data, step = rows(source, count), source.random.randrange(1, 4)
            ordinals = range(0, lines_for(system, start, data), step)
            packets = captions_on(source, system, start, ordinals)
            whole = taped(system, start, data, packets).expected
            given = {"a": damaged(source, whole.output)}
            extract, record = beside("extract", "a"), beside("record", str(system), str(start))
            errors = command.answer(extract, b"", given).errors + whole.errors
            files = {**given, BESIDE: packets, "rows": data}
            script = f"{called(extract)} >rows && {called(record)} <rows"
            yield Case(script, b"", Answer(whole.output, errors, 0, files), files=given)


def folders_back(source):
    """The same with folders of recordings."""
    for system in SYSTEMS:
        start, data = LAST_ROWS[system] - 1, rows(source, 4)
        ordinals = range(0, lines_for(system, start, data), 2)
        packets = captions_on(source, system, start, ordinals)
        d, e = (beside(*into(folder, system, start, 1)) for folder in "de")
        given = command.answer(d, data, {BESIDE: packets}).files
        again = command.answer(e, data, given)
        files = {name: thing for name, thing in given.items() if name != BESIDE}
        extract = beside("extract", "d")
        errors = command.answer(extract, b"", files).errors + again.errors
        due = Answer(b"", errors, 0, {**again.files, "rows": data})
        yield Case(f"{called(extract)} >rows && {called(e)} <rows", b"", due, files=files)


def streams_of_readers(source):
    """Streams that are closed, full or a terminal, where packets are extracted or listed."""
    files = {"a": captioned_recording(source, 625), "b": lines_from(source, 625, 23, 2)}
    extract, packets = beside("extract", "a"), ("packets", "a")
    for words, closed in product((extract, packets, ("extract", "a")), ("<&-", "2>&-")):
        expected = command.answer(words, b"", files)
        due = expected._replace(errors=b"") if closed == "2>&-" else expected
        yield Case(f"{called(words)} {closed}", b"", due, files=files)
    for full in (">&-", ">/dev/full"):
        due = unwritten("packets", files=files)
        yield Case(f"{called(packets)} {full}", b"", due, files=files)
        due = unwritten("extract", files={**files, BESIDE: b""})
        yield Case(f"{called(beside('extract', 'b'))} {full}", b"", due, files=files)
    due = failed("extract", "/dev/full could not be written", files=files)
    words = beside("extract", "a", name="/dev/full")
    yield Case(f"{called(words)} >/dev/null", b"", due, files=files)
    yield Case(called(extract), b"", to_terminal("extract", files), TO_TERMINAL, files)
    yield Case(called(packets), b"", command.answer(packets, b"", files), TO_TERMINAL, files)


def packets_cut_short(source):
    """A packets file that may have 1024 bytes and no more."""
    data, packets = rows(source, 1), full_lines(source, 625, 22, 1)
    files = {"a": taped(625, 22, data, packets).expected.output}
    what = f"{BESIDE} could not be written"
    due = failed("extract", what, files={**files, BESIDE: packets[:1_024]})
    script = f"ulimit -f 1; {called(beside('extract', 'a'))} >/dev/null"
    yield Case(script, b"", due, files=files)


def streams_of_record(source):
    """Streams that are closed where packets are recorded."""
    data, files = rows(source, 1), {"good": caption(source, 0), "bad": b"\0"}
    good, bad = (beside("record", "625", "22", name=name) for name in files)
    due = command.answer(bad, data, files)._replace(errors=b"")
    yield Case(f"{from_file(bad)} 2>&-", data, due, files=files)
    due = unread("record", header(625, 22), files)
    yield Case(f"{called(good)} <&-", b"", due, files=files)
    due = unwritten("record", files=files)
    yield Case(f"{from_file(good)} >&-", data, due, files=files)


FAMILIES = (
    recorded_captions,
    captions_behind_rows,
    captions_without_rows,
    entries_refused,
    entries_not_rising,
    entries_cut_late,
    captions_refused,
    captions_too_long,
    rows_refused_with_captions,
    captions_into,
    packets_files,
    extracted_captions,
    files_to_extract_into,
    extracted_folders,
    listed_packets,
    captions_back,
    folders_back,
    streams_of_readers,
    packets_cut_short,
    streams_of_record,
)
