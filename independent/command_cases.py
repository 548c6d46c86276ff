"""Cases for the command on standard input and standard output, from fixed seeds."""

import shlex
import sys
from itertools import product
from typing import NamedTuple

from independent import command, judge, programme
from independent.command import FAILED, Answer
from independent.edges import EDGE_SAMPLES, SYSTEMS
from independent.judge import TABLE_FALL, fourth_offsets, line_after
from independent.material import Source, changed, edge_offsets, inverted, line_numbers
from independent.material import plain_and_blank_line, turning_lines
from independent.protocol import pack_slice
from independent.recordings import HEADER_BYTES, five_lines, header, header_of, lines_of
from independent.recordings import outcome, recording
from independent.rows import ROW_BYTES, ROW_WORDS, row_of, samples_of_row, with_word, words_of_row
from independent.runs import STARTS, clean_lines, damaged, faults_in_packets, replaced
from independent.tapes import NEVER_FULL, begin_tape, frame_rows

SERIAL_PROGRAMS = ("scramble", "descramble")
FINISHED_VERBS = ("finish", "ask", "check", "unfinish")
VERBS = ("confirm", "record", "extract", "packets", *FINISHED_VERBS, *SERIAL_PROGRAMS, "help")

# From these lines on two have V = 1, and those behind them V = 0.
BEFORE_ROWS = {525: 18, 625: 21}

# In a script the command is "$@" and the input's file is "$0". Of these ways to hand
# an input over, the second and third leave standard input to us, the last the output.
BY_SCRIPT, IN_PIECES, THEN_BROKEN, TO_TERMINAL = range(4)
COMMAND = '"$@"'
FROM_FILE = '<"$0"'


class Case(NamedTuple):
    """A script for the shell, its input, what it must answer, and the files that are there."""

    script: str
    data: bytes
    expected: Answer
    way: int = BY_SCRIPT
    files: dict = {}


def called(words):
    return f"{COMMAND} {shlex.join(words)}"


def from_file(words):
    return f"{called(words)} {FROM_FILE}"


def case_of(words, data=b"", files={}, way=BY_SCRIPT):
    script = called(words) if way in (IN_PIECES, THEN_BROKEN) else from_file(words)
    return Case(script, data, command.answer(words, data, files), way, files)


def recorded(system, start, data):
    return case_of(("record", str(system), str(start)), data)


def extracted(data):
    return case_of(("extract",), data)


def rows(source, count):
    return b"".join(row_of(source.picture()) for _ in range(count))


def any_line(source, system):
    return source.random.choice(line_numbers(system))


def edge_lines(system):
    """The first and last lines of each F and V."""
    turns = turning_lines(system)
    return sorted({*turns, *(line_after(system, line, -1) for line in turns)})


def record_starts(source):
    for system in SYSTEMS:
        elsewhere = [any_line(source, system) for _ in range(3)]
        for start, count in product((*edge_lines(system), *elsewhere), (1, 3)):
            yield recorded(system, start, rows(source, count))
        for start in (1, judge.SYSTEMS[system].lines, *elsewhere):
            yield recorded(system, start, b"")


def record_frames(source):
    """A row less than a frame, a frame, and a row more."""
    for system, more in product(SYSTEMS, (-1, 0, 1)):
        data = rows(source, frame_rows(system) + more)
        for start in (1, any_line(source, system)):
            yield recorded(system, start, data)


def record_numbers(source):
    """Systems and lines that there are not, and numbers with zeros in front."""
    data = rows(source, 2)
    for system in (0, 1, 524, 526, 624, 626, 65_535, 65_536 + 625, 999_999_999):
        yield recorded(system, 1, data)
    yield recorded(626, 0, b"")
    for system in SYSTEMS:
        last = judge.SYSTEMS[system].lines
        for start in (0, last + 1, 65_535, 65_536, 65_536 + last, 999_999_999):
            yield recorded(system, start, data)
    for numbers in (("000000625", "000000023"), ("0525", "010"), ("0625", "08")):
        yield case_of(("record", *numbers), data)


def record_short_rows(source):
    """After no row and after two, on lines with V = 0 and after fill."""
    for system, whole, size in product(SYSTEMS, (0, 2), (1, 960, ROW_BYTES - 1)):
        for start in plain_and_blank_line(system):
            short = rows(source, 1)[:size]
            yield recorded(system, start, rows(source, whole) + short)


def with_spare(row, *faults):
    """A row with spare bits set in some of its words."""
    for index, bits in faults:
        row = with_word(row, index, words_of_row(row)[index] | bits)
    return row


def with_samples(row, samples):
    """A row with other samples at some places."""
    return row_of(changed(samples_of_row(row), samples))


def among_rows(source, system, row):
    """A row with up to two good ones before it and after it, from some edge on."""
    before, after = (rows(source, source.random.randrange(3)) for _ in range(2))
    start = source.random.choice(edge_lines(system))
    return recorded(system, start, before + row + after)


def places(source, count):
    return 0, count - 1, source.random.randrange(count)


def record_spare_bits(source):
    either = (1 << 30, 1 << 31, 3 << 30)
    for system in SYSTEMS:
        for index, bits in product(places(source, ROW_WORDS), either):
            yield among_rows(source, system, with_spare(rows(source, 1), (index, bits)))
        two = with_spare(rows(source, 1), (479, 1 << 30), (240, 1 << 31))
        yield among_rows(source, system, two)


def record_samples(source):
    for system in SYSTEMS:
        for sample, place in product(EDGE_SAMPLES, places(source, judge.ACTIVE_WORDS)):
            row = with_samples(rows(source, 1), {place: sample})
            yield among_rows(source, system, row)
        two = with_samples(rows(source, 1), {1439: 0, 720: 1023})
        yield among_rows(source, system, two)


def record_both_faults(source):
    """Spare bits about the word of a sample outside, in a later row, in a short row."""
    for system, index in product(SYSTEMS, (0, 240, 479)):
        row = with_samples(rows(source, 1), {720: 1020})
        yield among_rows(source, system, with_spare(row, (index, 1 << 31)))
    for system in SYSTEMS:
        high = with_samples(rows(source, 1), {1439: 1020})
        spare = with_spare(rows(source, 1), (0, 1 << 30))
        yield recorded(system, any_line(source, system), high + spare)
        yield recorded(system, any_line(source, system), spare[:-1])


def some_recording(source, system):
    """A short recording from a line before one where F or V turns."""
    turn = source.random.choice([STARTS[system], *turning_lines(system)])
    return programme.record(system, line_after(system, turn, -1), rows(source, 3))[0]


def lines_from(source, system, start, count, written=Source.written):
    """A short recording that need not end where a frame does."""
    return recording(system, start, clean_lines(source, system, start, count, written))


def captioned_recording(source, system):
    """A short recording with packets."""
    return lines_from(source, system, BEFORE_ROWS[system], 6, Source.captioned)


def extract_recordings(source):
    """Clean recordings, and the same with every code damaged in one bit."""
    for system in SYSTEMS:
        short = [some_recording(source, system) for _ in range(6)]
        data = rows(source, frame_rows(system) + 1)
        frame = programme.record(system, any_line(source, system), data)[0]
        for clean in (*short, frame):
            yield extracted(clean)
            yield extracted(damaged(source, clean))


def some_line(source, data):
    """A line of a recording: how many are before it, its number and its words."""
    system, start = header_of(data)
    steps, words = source.random.choice(list(enumerate(lines_of(data))))
    return steps, line_after(system, start, steps), words


def spoilt(data, steps, offset, word):
    """A recording with one word of one line changed."""
    lines = replaced(lines_of(data), steps, {offset: word})
    return recording(*header_of(data), lines)


def extract_hopeless_codes(source):
    """Two or all bits inverted in one code, where the others are clean or damaged in one bit."""
    for system, code, count in product(SYSTEMS, range(2), (2, 2, 2, 7)):
        clean = some_recording(source, system)
        offset = fourth_offsets(system)[code]
        steps, _, words = some_line(source, clean)
        fault = words[offset] ^ source.random.choice(inverted(count))
        for data in (clean, damaged(source, clean)):
            yield extracted(spoilt(data, steps, offset, fault))


def extract_faults(source):
    """A word over 1023, or wrong otherwise, at an edge of a part or anywhere."""
    any_of = source.random.sample
    for system in SYSTEMS:
        anywhere = range(judge.SYSTEMS[system].words)
        for offset in (*any_of(edge_offsets(system), 6), *any_of(anywhere, 4)):
            data = some_recording(source, system)
            steps, line, words = some_line(source, data)
            wrong = source.wrong(system, line, offset, words[offset])
            for fault in (source.over(words[offset]), wrong):
                yield extracted(spoilt(data, steps, offset, fault))


def extract_captions(source):
    """Recordings with packets: clean, damaged in their codes, with a fault among the packets."""
    for system in SYSTEMS:
        data = captioned_recording(source, system)
        yield extracted(data)
        yield extracted(damaged(source, data))
    for data in source.random.sample([*faults_in_packets(source)], 20):
        yield extracted(data)


def extract_cuts(source):
    for system in SYSTEMS:
        data = some_recording(source, system)
        size = judge.line_size(system)
        edges = [HEADER_BYTES + n * size + more for n in (1, 2) for more in (-1, 0, 1, 2)]
        for end in (*edges, *source.random.sample(range(5, len(data)), 6)):
            yield extracted(data[:end])
        yield extracted(data + b"\0")


def extract_headers(source):
    line = pack_slice(source.written(625, 22))
    for size in range(4):
        yield extracted(header(625, 22)[:size])
    for pair in ((525, 1), (625, 625), (0, 0), (626, 1), (525, 526), (625, 0), (65_535, 22)):
        yield extracted(header(*pair))
        yield extracted(header(*pair) + line)


def serial_lengths(source):
    """About the most words that one serial call takes, and twice as many."""
    most = judge.SERIAL_LIMIT
    words = source.serial_words(2 * most + 1)
    for program in SERIAL_PROGRAMS:
        for size in (0, 1, 2, 3, source.random.randrange(9_000)):
            yield case_of((program,), pack_slice(words)[:size])
        for count in (most - 1, most, most + 1, len(words)):
            yield case_of((program,), pack_slice(words[:count]))


def serial_refusals(source):
    """Words over 1023, also where a serial call ends; half a word after them, or alone."""
    most = judge.SERIAL_LIMIT
    words = source.serial_words(most + 2)
    cuts = ((2, 0), (2, 1), (300, 7), (300, 299))
    ends = ((most + 2, place) for place in (0, most - 1, most, most + 1))
    for program, (count, place) in product(SERIAL_PROGRAMS, (*cuts, *ends)):
        over = changed(words[:count], {place: source.over(words[place])})
        yield case_of((program,), pack_slice(over))
        yield case_of((program,), pack_slice(over) + b"\0")
    for program in SERIAL_PROGRAMS:
        yield case_of((program,), pack_slice(words) + b"\0")
        yield case_of((program,), pack_slice(words[:9]) + b"\xff")
        for over in (1_024, 65_535):
            yield case_of((program,), pack_slice([1_023, over]))


def confirm_input(source):
    """Recordings as they are, damaged in one bit of every code, and spoilt in one word."""
    for system in SYSTEMS:
        clean = some_recording(source, system)
        for data in (clean, damaged(source, clean), clean[:-1], clean[:HEADER_BYTES]):
            yield case_of(("confirm",), data)
        for offset in source.random.sample(edge_offsets(system), 4):
            steps, line, words = some_line(source, clean)
            wrong = source.wrong(system, line, offset, words[offset])
            for fault in (source.over(words[offset]), wrong):
                yield case_of(("confirm",), spoilt(clean, steps, offset, fault))
        for pair in ((system, 0), (system + 1, 1)):
            yield case_of(("confirm",), header(*pair))


def no_verbs(source):
    """The command without a verb, and words that are none."""
    yield case_of(())
    words = ("", " ", "x", "Confirm", "confirm ", "-", "-x", "--confirm", "--versions")
    for word in (*words, "con\nfirm", "con\\firm", "\x1b[1m", "é", "\udcff"):
        yield case_of((word,))
    yield case_of(("x", "625", "1"))


def helps(source):
    """Help is there, is the same however it is asked for, and speaks of the verb."""
    same = f"{COMMAND} %s | cmp - <({COMMAND} %s)"
    nothing = Answer(b"", b"", 0)
    yield case_of(("--version",))
    yield case_of(("help",))
    for option in ("--help", "-h"):
        yield Case(same % (option, "help"), b"", nothing)
    for verb in VERBS:
        yield case_of(("help", verb))
        yield Case(f"{COMMAND} help {verb} | grep 'fiskrogn {verb}' >/dev/null", b"", nothing)
        for option in ("--help", "-h"):
            yield Case(same % (f"{verb} {option}", f"help {verb}"), b"", nothing)


def wrong_numbers(source):
    """No number of 1 to 9 digits."""
    data = rows(source, 1)
    none = ("", " ", "x", "-1", "+1", "1.0", "0x1", " 1", "1 ", "1\n", "1e1", "*", "٣")
    for text in (*none, "1000000000", str(2**32 + 1), str(2**64 + 1), "0000000001"):
        yield case_of(("record", "625", text), data)
    for text in ("", "x", "-1", "1 ", "1000000000"):
        yield case_of(("record", "--into", "d", "--frames", text, "625", "1"), data)
    for text in ("x", "", " 625", str(2**32 + 625), str(2**64 + 625), "0000000625"):
        yield case_of(("record", text, "1"), data)
    yield case_of(("record", "--", "-625", "1"), data)


def wrong_arguments(source):
    """More or fewer arguments than are due, and options that there are not."""
    for words in (
        "extract 1 2", "extract 1 2 3", "extract -- 1 2", "scramble 1", "scramble -- -x",
        "descramble 1", "descramble -- --help", "help x", "help x confirm", "help confirm extract",
        "help confirm -x", "help --", "help -- confirm", "help -- x", "record", "record 625",
        "record 625 1 1", "record 625 1 x", "record x", "record x 1 1", "record x y z",
        "record --", "record -- 625", "record --into", "record --into d", "record --into d 625",
        "record --into d 625 1 1", "record --into d x 1 1", "record --into d x y",
        "record --into d --frames", "record --into d --frames 1", "record --into d --frames 1 625",
        "record --frames 1 --into d 625", "record --frames 1 625 1", "record --frames 1",
        "record --frames x 625 1", "record --into d --frames x 625", "record --frames x -y",
        "record --frames 0 625 1", "record --frames 0 x y", "record --into d --frames 0 625 1",
        "record --into d --frames 000 625 1", "record --into d --frames 0 x y",
        "record --into d --frames 0", "record --into d --frames 0 1 2 3",
        "record --into=d 625 1", "record --into d --frames=1 625 1", "record --frame 1 625 1",
        "record --INTO d 625 1", "record -i d 625 1", "record --packets", "record --packets p",
        "record --packets p 625", "record --packets p --frames 1 625 1", "record --packets=p 625 1",
        "extract --packets", "extract --packets p 1 2", "extract --packet p", "extract --into d",
        "confirm --packets p", "packets --packets p", "packets 1 2",
    ):  # fmt: skip
        yield case_of(words.split(), rows(source, 1))
    for verb in VERBS:
        for option in ("-x", "-\n", "--helps"):
            yield case_of((verb, option))
        yield case_of((verb, "---", "--help"))


def nothing_is_read(source):
    """Wrong use leaves the input for others."""
    data = rows(source, 1)
    for words in ("confirm -x", "record 625", "extract 1 2", "scramble 1", "descramble -x"):
        expected = command.answer(words.split())
        script = f"{{ {COMMAND} {words}; cat; }} {FROM_FILE}"
        yield Case(script, data, expected._replace(output=data, status=0))


def options_end(source):
    """What is behind the end of the options is no option."""
    yield case_of(("record", "--", "625", "22"), rows(source, 2))
    for verb in ("confirm", "extract"):
        yield case_of((verb, "--"), some_recording(source, 625))
    for program in SERIAL_PROGRAMS:
        yield case_of((program, "--"), pack_slice(source.serial_words(9)))


def round_trips(source):
    """Two commands in a pipe give back what went in."""
    for system in SYSTEMS:
        for count in (3, frame_rows(system) + 1):
            start, data = any_line(source, system), rows(source, count)
            run = programme.extract(programme.record(system, start, data)[0])[1]
            script = f"{COMMAND} record {system} {start} {FROM_FILE} 2>/dev/null"
            due = Answer(data, five_lines(outcome(run)), 0)
            yield Case(f"{script} | {COMMAND} extract", data, due)
    for count in (1, 5_000, judge.SERIAL_LIMIT + 1):
        data = pack_slice(source.serial_words(count))
        script = f"{COMMAND} scramble {FROM_FILE} | {COMMAND} descramble"
        yield Case(script, data, Answer(data, b"", 0))


def short_inputs(source):
    """Each verb with arguments and an input that it takes."""
    for system in SYSTEMS:
        yield ("record", str(system), str(any_line(source, system))), rows(source, 5)
        yield ("extract",), some_recording(source, system)
        yield ("confirm",), some_recording(source, system)
    yield ("packets",), captioned_recording(source, 625)
    for program in SERIAL_PROGRAMS:
        yield (program,), pack_slice(source.serial_words(9_000))


def long_inputs(source):
    """Each verb with arguments and an input whose output no pipe holds."""
    frame = rows(source, frame_rows(625))
    yield ("record", "625", "1"), frame
    yield ("extract",), programme.record(625, 1, frame)[0]
    for program in SERIAL_PROGRAMS:
        yield (program,), pack_slice(source.serial_words(judge.SERIAL_LIMIT + 1))


def small_pieces(source):
    for words, data in short_inputs(source):
        yield case_of(words, data, way=IN_PIECES)
        yield case_of(words, data[:-1], way=IN_PIECES)


def unblocked(descriptor):
    """A script's part that sets one of its descriptors to never wait."""
    setting = f"import os; os.set_blocking({descriptor}, False)"
    return shlex.join([sys.executable, "-c", setting])


def never_waiting(source):
    """Input and output that would rather fail than wait."""
    for words, data in short_inputs(source):
        script, expected = called(words), command.answer(words, data)
        yield Case(f"{unblocked(0)}; {script}", data, expected, IN_PIECES)
    for words, data in long_inputs(source):
        script = f"{{ {unblocked(1)}; {from_file(words)}; }} | {{ sleep 0.2; cat; }}"
        yield Case(script, data, command.answer(words, data))


def failed(verb, what, output=b"", files={}):
    return Answer(output, f"{verb}: {what}: REASON\n".encode(), FAILED, files)


def unread(verb, output=b"", files={}):
    return failed(verb, "the input could not be read", output, files)


def unwritten(verb, output=b"", files={}):
    return failed(verb, "the output could not be written", output, files)


def on_terminal(expected, verb):
    """The answer where standard input is a terminal and is read."""
    return expected._replace(errors=command.waiting(verb) + expected.errors)


def before_the_end(words, data):
    """The output for bytes after which the input has not ended."""
    if words[0] == "confirm":
        return b""
    if words[0] != "record":
        return command.answer(words, data).output
    recorder = programme.Recorder(begin_tape(*map(int, words[1:]), NEVER_FULL, TABLE_FALL))
    recorder.put_rows(data)
    return bytes(recorder.pieces[0])


def unread_inputs(source):
    """A folder or nothing as standard input, and a terminal that fails after some bytes."""
    for words, data in short_inputs(source):
        verb = words[0]
        for nothing in ("<.", "<&-"):
            expected = unread(verb, before_the_end(words, b""))
            yield Case(f"{called(words)} {nothing}", b"", expected)
        later = unread(verb, before_the_end(words, data))
        yield Case(called(words), data, on_terminal(later, verb), THEN_BROKEN)


def unwritten_outputs(source):
    """Standard output that is full or closed, or that its reader leaves."""
    left = f'{FROM_FILE} | head -c 10; exit "${{PIPESTATUS[0]}}"'
    for words, data in long_inputs(source):
        verb = words[0]
        for full in (">/dev/full", ">&-"):
            for given in (data, data[:-1]):
                yield Case(f"{from_file(words)} {full}", given, unwritten(verb))
        first = command.answer(words, data).output[:10]
        # A program is ended by the signal of a closed pipe unless that is ignored.
        for before in ("", "trap '' PIPE; "):
            script = f"{before}{called(words)} {left}"
            yield Case(script, data, unwritten(verb, first))
    for full in (">/dev/full", ">&-"):
        data = some_recording(source, 525)
        yield Case(f"{from_file(('confirm',))} {full}", data, unwritten("confirm"))
    # An output that reads as the number 0 must not be taken for a status.
    data = programme.descramble(b"0\0")[0]
    yield Case(f"{from_file(('scramble',))} >&-", data, unwritten("scramble"))


def to_terminal(verb, files={}):
    """The answer where what is no text would go to a terminal."""
    said = f"{verb}: standard output is a terminal: send it to a file or a pipe\n"
    return Answer(b"", said.encode(), FAILED, files)


def terminals(source):
    """Standard output that is a terminal: the five lines go there, and lists of packets."""
    for words, data in short_inputs(source):
        verb = words[0]
        is_text = verb in ("confirm", "packets")
        due = command.answer(words, data) if is_text else to_terminal(verb)
        yield Case(from_file(words), data, due, TO_TERMINAL)


def closed_errors(source):
    """What is said where standard error is closed goes nowhere else."""
    for words, data in short_inputs(source):
        expected = command.answer(words, data[:-1])._replace(errors=b"")
        yield Case(f"{from_file(words)} 2>&-", data[:-1], expected)


FAMILIES = (
    record_starts,
    record_frames,
    record_numbers,
    record_short_rows,
    record_spare_bits,
    record_samples,
    record_both_faults,
    extract_recordings,
    extract_hopeless_codes,
    extract_faults,
    extract_captions,
    extract_cuts,
    extract_headers,
    serial_lengths,
    serial_refusals,
    confirm_input,
    no_verbs,
    helps,
    wrong_numbers,
    wrong_arguments,
    nothing_is_read,
    options_end,
    round_trips,
    small_pieces,
    never_waiting,
    unread_inputs,
    unwritten_outputs,
    terminals,
    closed_errors,
)
