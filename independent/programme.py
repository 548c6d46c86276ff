"""Whole programmes: picture rows into recordings and back, plain words into coded ones and back.

What the command says of all this, and of files, is in command.py.
"""

from typing import NamedTuple

from independent import judge
from independent.entries import FIRST_ORDINAL, Entries, NotTaken
from independent.judge import TABLE_FALL
from independent.packets import START
from independent.recordings import HEADER_BYTES, Run, begin, header, line_bytes, parts
from independent.rows import ROW_BYTES
from independent.tapes import (
    NEVER_FULL,
    begin_tape,
    extract_next,
    takes_row,
    tape_ends,
    tape_next,
    turned,
    turns,
)

# A line with V = 1 is fill, whatever row is given for it.
NO_ROW = bytes(ROW_BYTES)

# Recordings of one programme are numbered with four digits, from 1 on.
LAST_NUMBER = 9_999

# No accepted line without packets has these bytes.
PACKET_BYTES = judge.bytes_of(START)


class Refused(Exception):
    """A row that is not recorded, with number, awaited line and place."""


class Unnumbered(Exception):
    """A row for which no further recording can be numbered."""


class Recorder:
    """Recordings while they are written: the tape, the bytes of each, the packets that are left."""

    def __init__(self, tape, packets=b""):
        self.tape, self.pieces = tape, []
        self.entries, self.ordinal = Entries(packets), FIRST_ORDINAL
        self.begin_piece()

    def begin_piece(self):
        self.pieces.append(bytearray(header(self.tape.walk.system, self.tape.walk.line)))

    def turn_if_full(self):
        """Go on in a next recording where this one is full."""
        if turns(self.tape):
            if len(self.pieces) == LAST_NUMBER:
                raise Unnumbered
            self.tape = turned(self.tape)
            self.begin_piece()

    def put_line(self, row=NO_ROW):
        self.turn_if_full()
        ready = self.entries.ready_for(self.ordinal)
        room = bytes(line_bytes(self.tape.walk))
        tape, line = tape_next(self.tape, row, *ready, room)
        if tape.number:
            raise Refused(tape.number, tape.walk.line, tape.place)
        self.tape = tape
        self.ordinal += 1
        self.pieces[-1] += line

    def takes_row(self):
        """Whether the line that is written next is of a row."""
        return takes_row(self.tape.walk, self.tape.fall)

    def put_row(self, row):
        while not self.takes_row():
            self.put_line()
        self.put_line(row)

    def put_rows(self, data):
        for row in parts(data, ROW_BYTES):
            self.put_row(row)

    def end_frame(self):
        """Lines up to the end of the frame, as far as there may be lines."""
        while tape_ends(self.tape):
            self.put_line()

    def goes_on(self):
        """Whether there may be a line more, and it takes no row."""
        is_full = judge.walk_refusal(self.tape.walk) and not turns(self.tape)
        return not is_full and not self.takes_row()

    def put_entries(self):
        """Lines as far as entries are left."""
        while self.entries.are_left():
            if self.entries.entry is None or not self.goes_on():
                self.entries.refuse()
            self.put_line()

    def close(self):
        self.end_frame()
        self.put_entries()

    def put_all(self, data):
        self.put_rows(data)
        self.close()


def stop_of(call, *arguments):
    """Why a recorder's call did not write all, or None."""
    try:
        call(*arguments)
    except (Refused, Unnumbered, NotTaken) as stopped:
        return stopped
    return None


def record_pieces(system, start, data, most=NEVER_FULL, packets=b"", fall=TABLE_FALL):
    """The recordings of rows and packets, in turn, and why not all were taken, or None."""
    tape = begin_tape(system, start, most, fall)
    if tape.number:
        return [], Refused(tape.number, 0, tape.place)
    recorder = Recorder(tape, packets)
    stopped = stop_of(recorder.put_all, data)
    return list(map(bytes, recorder.pieces)), stopped


def record(system, start, data, fall=TABLE_FALL):
    """The one recording of the rows, and the refusal as number, line and place, or None."""
    pieces, stopped = record_pieces(system, start, data, fall=fall)
    return b"".join(pieces), stopped and stopped.args


class Carried(NamedTuple):
    """The packets of a line: its place in its recording, its number, the words of each space."""

    ordinal: int
    line: int
    spaces: list


def carried(walk, line):
    """The packets of a line that is accepted at a walk."""
    words = judge.words_of(line)
    return Carried(walk.lines_read, walk.line, judge.packets_in(walk, words))


class Extracted(NamedTuple):
    """The rows of the accepted lines of a recording, the run over it, and what lines carry."""

    rows: bytes
    run: Run
    carried: list


def extract(data):
    run, rows, captions = begin(data), [], []
    for line in parts(data[HEADER_BYTES:], line_bytes(run.walk)):
        walk = run.walk
        run, gives, row = extract_next(run, line, NO_ROW)
        rows += [row] * gives
        if not run.number and PACKET_BYTES in line:
            captions.append(carried(walk, line))
    return Extracted(b"".join(rows), run, captions)


def first_not_taken(data):
    """Number and index of the first word that the serial programs refuse, or None."""
    whole, half = divmod(len(data), 2)
    over = judge.over_refusal(judge.words_of(data[: 2 * whole]))
    return over or ((judge.WRONG_LENGTH, whole) if half else None)


def carried_on(call, words):
    """The answers of a serial call from the fresh state on, for any number of words."""
    bits, last, answers = *judge.FRESH_STATE, []
    for part in parts(words, judge.SERIAL_LIMIT):
        _, _, bits, last, answer = call(bits, last, part, part)
        answers += answer
    return answers


def serial(call, data):
    """The answers to all words before the refusal, and the refusal or None."""
    refusal = first_not_taken(data)
    taken = data[: 2 * refusal[1]] if refusal else data
    return judge.bytes_of(carried_on(call, judge.words_of(taken))), refusal


def scramble(data):
    return serial(judge.code, data)


def descramble(data):
    return serial(judge.decode, data)
