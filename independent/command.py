"""The command: what it writes, says and leaves behind, for any arguments, input and files.

What arguments, names and files are here is told in answers.py.
"""

import os
from functools import lru_cache
from itertools import chain
from typing import NamedTuple, Optional

from independent import judge, programme
from independent.answers import (
    ANY_TEXT,
    FAILED,
    FOLDER,
    HEADER_TEXTS,
    NOT_MADE,
    NOT_READ,
    READ_TEXTS,
    STOPPED,
    TAKEN,
    Answer,
    Report,
    WrongUse,
    can_be_made,
    found,
    number_of,
    refused,
    shown,
    why_not_beside,
)
from independent.entries import FIRST_ORDINAL, NotTaken, line_entries
from independent.judge import TABLE_FALL
from independent.packets import each_packet, header_values
from independent.programme import LAST_NUMBER, Refused
from independent.recordings import (
    Run,
    awaited_line,
    five_lines,
    follows_on,
    header_of,
    line_count,
    outcome,
    run_over,
    told,
)
from independent.retention import RETAINERS, retention_answer
from independent.tapes import NEVER_FULL, frame_rows, piece_lines
from independent.totals import HOUR_PARTS, hours, no_totals, total_lines, with_read, with_unread
from independent.words import (
    BAD_CHECKSUM,
    BAD_PARITY,
    FIRST_SAMPLE,
    LAST_SAMPLE,
    LAST_WORD,
    NOT_A_SAMPLE,
    NO_ENTRY,
    NO_FILL,
    NO_LINE,
    OVER_A_WORD,
    PAST_THE_SPACE,
    RESERVED,
    WRONG_COUNTS,
    WRONG_LENGTH,
)

USES = {
    "fiskrogn": (
        "confirm | record | extract | packets | finish | ask | check | unfinish |\n"
        "                scramble | descramble | help .."
    ),
    "confirm": "confirm [FILE | FOLDER]..",
    "record": "record [--into FOLDER [--frames N]] [--packets FILE] [--fall LINE] SYSTEM START",
    "extract": "extract [--packets FILE] [FILE | FOLDER]",
    "packets": "packets [FILE | FOLDER]",
    "finish": "finish [RECORDING] FINISHED",
    "ask": "ask FINISHED SYSTEM START A B",
    "check": "check FINISHED SYSTEM START",
    "unfinish": "unfinish FINISHED SYSTEM START",
    "scramble": "scramble",
    "descramble": "descramble",
    "help": "help [VERB]",
}
VERSION = b"fiskrogn 0.1.0\n"
HELP_OPTIONS = ("--help", "-h")

AWAITED = {
    "confirm": "a recording",
    "record": "v210 rows",
    "extract": "a recording",
    "packets": "a recording",
    "finish": "a recording",
    "scramble": "words",
    "descramble": "channel words",
}

RECORD_TEXTS = {
    **HEADER_TEXTS,
    NO_LINE: (
        "the start line is not one of the system, or --fall of 525 is not {} to {}".format(
            *judge.SYSTEMS[525].falls[0]
        )
    ),
    WRONG_LENGTH: "the last row is short",
    WRONG_COUNTS: (
        f"{judge.LINES_LIMIT} lines are written, and --into FOLDER would go on in a next file"
    ),
    OVER_A_WORD: "spare bits are set in a word of the row",
    NOT_A_SAMPLE: f"a sample is outside {FIRST_SAMPLE} to {LAST_SAMPLE}",
}
# What is said of a refusal by its number, or by number and place, where packets are recorded.
CAPTIONED_TEXTS = {
    **RECORD_TEXTS,
    (WRONG_LENGTH, 4): "more packet words than the space between EAV and SAV holds",
    (WRONG_LENGTH, 5): "more packet words than the active part holds, or any where V is 0",
    OVER_A_WORD: f"{RECORD_TEXTS[OVER_A_WORD]}, or a packet word is over {LAST_WORD}",
    NO_FILL: "no packet starts there",
    RESERVED: "a reserved word stands where a user word is due",
    **{number: READ_TEXTS[number] for number in (BAD_PARITY, BAD_CHECKSUM, PAST_THE_SPACE)},
}
SERIAL_TEXTS = {
    OVER_A_WORD: f"it is over {LAST_WORD}",
    WRONG_LENGTH: "half a word is left",
}

RECORDINGS = {f"{number:04}.rec": number for number in range(1, LAST_NUMBER + 1)}

MISSING = "is missing"
NO_NUMBERS = "holds no numbered recordings (0001.rec and so on)"
HELD = "holds recordings already: name another folder"
NO_MORE_NUMBERS = f"holds {LAST_NUMBER} recordings, and no more can be numbered"
A_PACKETS_FILE = "--packets takes a packets file, as extract --packets writes one"
NO_ENTRY_TEXT = "is cut, has a line, a space or words that cannot be, or does not rise"

SPACE_NAMES = "between", "active"


class HelpAsked(Exception):
    """An option that asks for help in place of all else."""


# The options that take a value, and how many other arguments a verb takes at least and at most.
OPTIONS = {
    "record": {"--into": str, "--frames": number_of, "--packets": str, "--fall": number_of},
    "extract": {"--packets": str},
}
PLACES = {
    "confirm": (0, None),
    "record": (2, 2),
    "extract": (0, 1),
    "packets": (0, 1),
    "finish": (1, 2),
    "ask": (5, 5),
    "check": (3, 3),
    "unfinish": (3, 3),
    "scramble": (0, 0),
    "descramble": (0, 0),
    "help": (0, 1),
}


def is_option(word):
    return word.startswith("-") and word != "-"


def parted(verb, words):
    """The values of the options, and the other arguments."""
    known, values, words = OPTIONS.get(verb, {}), {}, list(words)
    while words and is_option(words[0]):
        option = words.pop(0)
        if option == "--":
            break
        if option in HELP_OPTIONS:
            raise HelpAsked
        if option not in known:
            raise WrongUse(f"there is no option {shown(option)}")
        if not words:
            raise WrongUse("an argument is missing")
        values[option] = known[option](words.pop(0))
    return values, words


def check_frames(values):
    if "--frames" in values and "--into" not in values:
        raise WrongUse("--frames goes with --into")
    if values.get("--frames") == 0:
        raise WrongUse("--frames takes 1 or more")


def check_names(values):
    """An empty name stands for none."""
    if "" in values.values():
        raise WrongUse("an argument is missing")


def check_places(verb, words):
    least, most = PLACES[verb]
    if len(words) < least:
        raise WrongUse("an argument is missing")
    if most is not None and len(words) > most:
        raise WrongUse(f"there is no place for the argument {shown(words[most])}")


def wrong_use(verb, what, files):
    said = f"{verb}: {what}\nusage: fiskrogn {USES[verb]}\n"
    return Answer(b"", os.fsencode(said), FAILED, files)


def not_taken(at, entry):
    """What is said of what stands at a byte of a packets file and is refused."""
    unwritten = entry and f"is for the line of ordinal {entry.ordinal}, which is not written"
    return f"refused {NO_ENTRY}: the entry at byte {at} {unwritten or NO_ENTRY_TEXT}"


def waiting(verb):
    """What is said first where standard input is a terminal and is read."""
    return f"{verb}: waits for {AWAITED[verb]} on standard input\n".encode()


class Piece(NamedTuple):
    """A file to be read: its name, its bytes and its run, or why there are none."""

    name: str
    data: Optional[bytes]
    run: Optional[Run]
    want: Optional[str] = None

    @property
    def accepted(self):
        return self.run is not None and self.run.number == 0


def unread(name, want):
    return Piece(name, None, None, want)


@lru_cache(maxsize=64)
def run_in(data):
    """A file's run; one that is named often is read once."""
    return run_over(data)


NOTHING = unread("", None)


def piece_name(folder, number):
    slash = "" if folder.endswith("/") else "/"
    return f"{folder}{slash}{number:04}.rec"


def is_in(path, folder):
    return (os.path.dirname(path) or os.curdir) == os.path.normpath(folder)


def numbers_in(files, folder):
    """The numbers of the recordings that a folder holds."""
    names = {os.path.basename(path) for path in files if is_in(path, folder)}
    return {RECORDINGS[name] for name in names & RECORDINGS.keys()}


def piece_at(files, name, absent):
    """A file by its name; absent is what is said where there is none."""
    data = found(files, name)
    if data is None:
        return unread(name, absent)
    if data == FOLDER:
        return unread(name, NOT_READ)
    return Piece(name, data, run_in(data))


def row_at(files, name):
    """The files that an argument stands for: itself, or the numbered ones of a folder."""
    if found(files, name) != FOLDER:
        return [piece_at(files, name, NOT_READ)]
    last = max(numbers_in(files, name), default=0)
    if not last:
        return [unread(name, NO_NUMBERS)]
    names = [piece_name(name, number) for number in range(1, last + 1)]
    return [piece_at(files, each, MISSING) for each in names]


def gap_between(before, piece):
    """How a piece does not follow on an accepted one; None where it does or is not judged."""
    if not before.accepted or piece.run is None or piece.run.number in HEADER_TEXTS:
        return None
    if follows_on(before.run, piece.run):
        return None
    return (
        f"{shown(piece.name)} does not follow on {shown(before.name)}: it starts with line "
        f"{piece.run.start} of {piece.run.system}, and line {before.run.walk.line} of "
        f"{before.run.system} is awaited"
    )


def row_of(piece):
    """The line of one file among several."""
    if piece.run is None:
        return f"UNREAD {shown(piece.name)}\n"
    return f"{' '.join(told(outcome(piece.run)))} {shown(piece.name)}\n"


def shown_hours(totals):
    """The programme's time."""
    whole, parts = divmod(hours(totals), HOUR_PARTS)
    return f"{whole}.{parts:04}"


def totals_of(pieces):
    totals = no_totals()
    for piece in pieces:
        is_read = piece.run is not None
        totals = with_read(totals, outcome(piece.run)) if is_read else with_unread(totals)
    return totals


def shown_totals(totals):
    return (
        f"FILES {totals.files} LINES {total_lines(totals)} HOURS {shown_hours(totals)} "
        f"REPAIRS {totals.repairs} REFUSED {totals.refused} UNREAD {totals.unread}\n"
    )


class Confirming(Report):
    """Confirming standard input, a file, or files and folders in turn."""

    # Whether what follows a piece that is not as due is read all the same.
    goes_on = True

    def write_text(self, text):
        self.output += os.fsencode(text)

    def write_picture(self, data):
        """Nothing: a confirmed recording's rows are not asked for."""

    def say_left(self):
        """Nothing: nor are its packets."""

    def say_refused(self, told, of):
        if told.number:
            refusal = told.number, told.line, told.place
            self.say(STOPPED, of + refused(refusal, READ_TEXTS))

    def tell(self, told, of=""):
        self.write_text(five_lines(told).decode())
        self.say_refused(told, of)

    def read(self, data, of=""):
        """Standard input, or one file."""
        self.write_picture(data)
        self.tell(outcome(run_over(data)), of)

    def say_unread(self, piece):
        self.say(FAILED, f"{shown(piece.name)} {piece.want}")

    def read_file(self, name):
        piece = piece_at(self.files, name, NOT_READ)
        if piece.run:
            self.read(piece.data, f"{shown(name)}: ")
        else:
            self.say_unread(piece)

    def read_piece(self, piece):
        """A row, behind it its refusal, before it why it is not read."""
        if piece.run:
            self.write_picture(piece.data)
            self.write_text(row_of(piece))
            self.say_refused(outcome(piece.run), f"{shown(piece.name)}: ")
        else:
            self.say_unread(piece)
            self.write_text(row_of(piece))

    def read_row(self, pieces):
        """Read the pieces of one argument; those that got a row."""
        got_a_row = []
        for before, piece in zip([NOTHING, *pieces], pieces):
            gap = gap_between(before, piece)
            if gap:
                self.say(STOPPED, gap)
            if self.goes_on or not gap:
                self.read_piece(piece)
                got_a_row.append(piece)
            if not self.goes_on and (gap or not piece.accepted):
                break
        return got_a_row

    def read_names(self, names):
        rows = [self.read_row(row_at(self.files, name)) for name in names]
        self.write_text(shown_totals(totals_of(chain.from_iterable(rows))))

    def read_all(self, names, data):
        if not names:
            self.read(data)
        elif len(names) > 1 or found(self.files, names[0]) == FOLDER:
            self.read_names(names)
        else:
            self.read_file(names[0])


class Extracting(Confirming):
    """The same with pictures on standard output, and the text on standard error."""

    goes_on = False

    def __init__(self, verb, files):
        super().__init__(verb, files)
        self.ordinal, self.entries, self.captioned_lines = FIRST_ORDINAL, b"", 0

    def write_text(self, text):
        self.errors += os.fsencode(text)

    def write_picture(self, data):
        rows, run, carried = programme.extract(data)
        self.write_rows(rows)
        for ordinal, line, spaces in carried:
            self.write_packets(self.ordinal + ordinal, line, spaces)
        self.ordinal += run.walk.lines_read

    def write_rows(self, rows):
        self.output += rows

    def write_packets(self, ordinal, line, spaces):
        self.entries += line_entries(ordinal, spaces)
        self.captioned_lines += 1

    def say_left(self):
        """That there were packets, which went nowhere."""
        if self.captioned_lines:
            left = f"lines whose packets were not written: {self.captioned_lines}"
            self.say(TAKEN, f"{left} (--packets FILE writes them)")

    def read_beside(self, name, names, data):
        """Read, and leave the packets in a file of this name."""
        why_not = why_not_beside(self.files, name)
        if why_not:
            self.say(FAILED, f"{shown(name)} {why_not}")
            return
        self.read_all(names, data)
        self.files = {**self.files, os.path.normpath(name): self.entries}


class Listing(Extracting):
    """The same with a line of text for each packet in place of pictures."""

    def write_rows(self, rows):
        """Nothing: only packets are listed."""

    def write_packets(self, ordinal, line, spaces):
        for name, words in zip(SPACE_NAMES, spaces):
            for packet in each_packet(words):
                identifier, second, count = header_values(packet)
                told = f"{ordinal} {line} {name} {identifier:02x} {second:02x} {count}\n"
                self.output += told.encode()


READERS = {"confirm": Confirming, "extract": Extracting, "packets": Listing}
SERIAL_CALLS = {"scramble": programme.scramble, "descramble": programme.descramble}


def told_answer(verb, told):
    """The answer to a recording of this outcome on standard input, but for its pictures."""
    reader = READERS[verb](verb, {})
    reader.tell(told)
    return reader.answer()


def read_answer(verb, values, names, data, files):
    check_names(values)
    reader = READERS[verb](verb, files)
    if "--packets" in values:
        reader.read_beside(values["--packets"], names, data)
    else:
        reader.read_all(names, data)
        reader.say_left()
    return reader.answer()


def fall_line(values):
    return values.get("--fall", TABLE_FALL)


def frame_rows_text(system, fall):
    """How many rows frames have, those of the system recorded by its fall line."""
    falls = {525: TABLE_FALL, 625: TABLE_FALL, system: fall}
    of_525, of_625 = (frame_rows(each, fall=falls[each]) for each in (525, 625))
    return f"a frame of 525 has {of_525} rows, one of 625 has {of_625}"


def say_how_it_ends(report, pieces, stopped, values):
    """Why not all rows and packets were taken, or that the last frame is not whole."""
    if isinstance(stopped, Refused):
        texts = CAPTIONED_TEXTS if "--packets" in values else RECORD_TEXTS
        report.say(STOPPED, refused(stopped.args, texts))
    elif isinstance(stopped, NotTaken):
        report.say(STOPPED, f"{shown(values['--packets'])}: {not_taken(*stopped.args)}")
    elif stopped:
        report.say(FAILED, f"{shown(values['--into'])} {NO_MORE_NUMBERS}")
    elif line_count(pieces[0]) and awaited_line(pieces[-1]) != 1:
        line, system = awaited_line(pieces[-1]), header_of(pieces[-1])[0]
        awaited = f"line {line} of {system} is awaited"
        rows = frame_rows_text(system, fall_line(values))
        report.say(TAKEN, f"the last frame is not whole: {awaited} ({rows})")


def why_not_into(files, folder):
    """What takes no recordings, the folder or its first file, and why; or None."""
    if found(files, folder) == FOLDER:
        return f"{shown(folder)} {HELD}" if numbers_in(files, folder) else None
    if can_be_made(files, folder):
        return None
    is_taken = os.path.normpath(folder) in files
    return f"{shown(piece_name(folder, 1) if is_taken else folder)} {NOT_MADE}"


def with_pieces(files, folder, pieces):
    """The files with a folder and its recordings among them; None leaves a number out."""
    made = {} if found(files, folder) else {os.path.normpath(folder): FOLDER}
    for number, piece in enumerate(pieces, 1):
        if piece is not None:
            made[os.path.normpath(piece_name(folder, number))] = piece
    return {**files, **made}


def record_into(report, values, system, start, data, packets):
    folder = values["--into"]
    why_not = why_not_into(report.files, folder)
    if why_not:
        report.say(FAILED, why_not)
        return
    most, fall = piece_lines(system, values.get("--frames")), fall_line(values)
    pieces, stopped = programme.record_pieces(system, start, data, most, packets, fall)
    report.files = with_pieces(report.files, folder, pieces)
    say_how_it_ends(report, pieces, stopped, values)


def record_out(report, values, system, start, data, packets):
    most, fall = NEVER_FULL, fall_line(values)
    pieces, stopped = programme.record_pieces(system, start, data, most, packets, fall)
    report.output = b"".join(pieces)
    say_how_it_ends(report, pieces, stopped, values)


def packets_for(report, values):
    """The bytes of the packets file; None where it could not be read, which is said."""
    if "--packets" not in values:
        return b""
    name = values["--packets"]
    packets = found(report.files, name)
    if isinstance(packets, bytes):
        return packets
    report.say(FAILED, f"{shown(name)} {NOT_READ}")
    report.say(FAILED, A_PACKETS_FILE)
    return None


def numbers_refused(system, start, fall):
    """What is said of numbers by which nothing is recorded, or None."""
    refusal = judge.numbers_refusal(system, start, fall)
    if not refusal:
        return None
    number, place = refusal
    return refused((number, 0, place), RECORD_TEXTS)


def record_answer(values, words, data, files):
    system, start = map(number_of, words)
    check_names(values)
    report = Report("record", files)
    # A system or line that there is not is told before any file or folder is looked at.
    said = numbers_refused(system, start, fall_line(values))
    if said:
        report.say(STOPPED, said)
        return report.answer()
    packets = packets_for(report, values)
    if packets is not None:
        record_to = record_into if "--into" in values else record_out
        record_to(report, values, system, start, data, packets)
    return report.answer()


def serial_answer(verb, data, files):
    report = Report(verb, files)
    report.output, refusal = SERIAL_CALLS[verb](data)
    if refusal:
        number, index = refusal
        report.say(STOPPED, f"refused {number}, word {index}: {SERIAL_TEXTS[number]}")
    return report.answer()


def no_verb(word, files):
    return wrong_use("fiskrogn", f"there is no verb {shown(word)}", files)


def help_answer(files):
    return Answer(ANY_TEXT, b"", TAKEN, files)


def taken_answer(verb, values, words, data, files):
    """The answer to arguments of which there are as many as a verb takes."""
    if verb == "record":
        return record_answer(values, words, data, files)
    if verb in SERIAL_CALLS:
        return serial_answer(verb, data, files)
    if verb in READERS:
        return read_answer(verb, values, words, data, files)
    if verb in RETAINERS:
        return retention_answer(verb, words, data, files)
    return help_answer(files)


def verb_answer(verb, words, data, files):
    try:
        values, words = parted(verb, words)
        if verb == "help" and words and words[0] not in PLACES:
            return no_verb(words[0], files)
        check_frames(values)
        check_places(verb, words)
        return taken_answer(verb, values, words, data, files)
    except HelpAsked:
        return help_answer(files)
    except WrongUse as wrong:
        return wrong_use(verb, *wrong.args, files)


def answer(words, data=b"", files={}):
    """What the command answers to its words, an input and the files that are there."""
    if not words:
        return wrong_use("fiskrogn", "a verb is missing", files)
    verb, *words = words
    if verb in HELP_OPTIONS:
        return help_answer(files)
    if verb == "--version":
        return Answer(VERSION, b"", TAKEN, files)
    if verb not in PLACES:
        return no_verb(verb, files)
    return verb_answer(verb, words, data, files)
