"""What every verb of the command has: its answer, what it says, names and files, texts.

Arguments and names are text whose bytes that are no UTF-8 are kept as Python
keeps them. Files are a dictionary: a path has a file's bytes, or FOLDER. Where
the system's text of an error is due, the word REASON stands.
"""

import os
import re
from typing import NamedTuple, Optional

from independent import judge
from independent.words import (
    BAD_CHECKSUM,
    BAD_PARITY,
    HOPELESS_EVEN,
    HOPELESS_ODD,
    LAST_WORD,
    NOT_DUE,
    NO_BIT_9,
    NO_FILL,
    NO_LINE,
    NO_PREAMBLE,
    NO_SYSTEM,
    OVER_A_WORD,
    PAST_THE_SPACE,
    RESERVED,
    WRONG_COUNTS,
    WRONG_LENGTH,
)

FOLDER = "folder"

# The text of a help is the command's own; it is only known that there is one.
ANY_TEXT = None

TAKEN, STOPPED, FAILED = range(3)

HEADER_TEXTS = {
    NO_SYSTEM: f"the system is neither {' nor '.join(map(str, judge.SYSTEMS))}",
    NO_LINE: "the start line is not one of the system",
}
NO_LEGAL_CODE = "a timing code has no legal code within one inverted bit"
READ_TEXTS = {
    **HEADER_TEXTS,
    WRONG_LENGTH: "the recording ends inside a line",
    WRONG_COUNTS: f"it goes on after {judge.LINES_LIMIT} lines",
    OVER_A_WORD: f"a word is over {LAST_WORD}",
    NO_PREAMBLE: "one of the first three words of a timing code is wrong",
    NO_BIT_9: "bit 9 of a fourth word is 0",
    HOPELESS_EVEN: f"{NO_LEGAL_CODE}, and an even number of ones",
    NOT_DUE: "a timing code is not the one due here",
    NO_FILL: "fill is due and is not there",
    RESERVED: "a reserved word stands where a sample or a user word is due",
    HOPELESS_ODD: f"{NO_LEGAL_CODE}, and an odd number of ones",
    BAD_PARITY: "a header word of a packet has bad parity",
    BAD_CHECKSUM: "a packet's checksum is wrong",
    PAST_THE_SPACE: "a packet runs past its space",
}

NOT_READ = "could not be read: REASON"
NOT_MADE = "could not be made: REASON"
NOT_WRITTEN = "could not be written: REASON"
NOT_EMPTY = "holds something already: name another file"


class Answer(NamedTuple):
    """What is written on standard output and standard error, the status, the files left."""

    output: Optional[bytes]
    errors: bytes
    status: int
    files: dict = {}


class WrongUse(Exception):
    """Arguments that a verb does not take, and what is wrong with them."""


def shown(name):
    """A name on one line: odd bytes are written as numbers."""
    return re.sub(r"[\x00-\x1f\x7f\\]", lambda odd: f"\\x{ord(odd[0]):02x}", name)


def number_of(text):
    if not re.fullmatch("[0-9]{1,9}", text):
        raise WrongUse(f"{shown(text)} is no number of one to nine digits")
    return int(text)


def refused(refusal, texts):
    number, line, place = refusal
    text = texts[(number, place) if (number, place) in texts else number]
    return f"refused {number}, line {line}, place {place}: {text}"


def found(files, name):
    """A file's bytes, FOLDER, or None where the name stands for nothing."""
    path = os.path.normpath(name) if name else name
    thing = FOLDER if path == os.curdir else files.get(path)
    return None if name.endswith("/") and thing != FOLDER else thing


def can_be_made(files, name):
    """Whether nothing has a name and its parent is there."""
    path = os.path.normpath(name)
    parent = os.path.dirname(path) or os.curdir
    return path not in files and found(files, parent) == FOLDER


def why_not_beside(files, name):
    """Why packets are not written into a file of this name, or None."""
    thing = found(files, name)
    if thing is None:
        is_made = can_be_made(files, name) and not name.endswith("/")
        return None if is_made else NOT_WRITTEN
    if thing == FOLDER:
        return NOT_WRITTEN
    return NOT_EMPTY if thing else None


class Report:
    """What a verb writes and says, and how it ends, while it works."""

    def __init__(self, verb, files):
        self.verb, self.files = verb, files
        self.output, self.errors, self.status = b"", b"", TAKEN

    def say(self, status, text):
        self.errors += os.fsencode(f"{self.verb}: {text}\n")
        self.status = max(self.status, status)

    def answer(self):
        return Answer(self.output, self.errors, self.status, self.files)
