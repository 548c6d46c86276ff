"""The verbs on finished files: finishing a recording, asking, checking, and back to a recording."""

import os

from independent import finished, index
from independent.answers import (
    FAILED,
    HEADER_TEXTS,
    NOT_MADE,
    NOT_READ,
    READ_TEXTS,
    STOPPED,
    Report,
    can_be_made,
    found,
    number_of,
    refused,
    shown,
)
from independent.recordings import begin, outcome
from independent.words import BAD_PARTS, BAD_RANGE

FILE_TEXTS = {
    **HEADER_TEXTS,
    BAD_PARTS: "the parts of the file do not fit, or its index is none",
    BAD_RANGE: "the file has not these lines",
}

IS_THERE = "is there already: remove it, or name another file"


class Retaining(Report):
    """What every verb on finished files does."""

    def read(self, name):
        """The bytes of a file; None where it could not be read, which is said."""
        data = found(self.files, name)
        if isinstance(data, bytes):
            return data
        self.say(FAILED, f"{shown(name)} {NOT_READ}")
        return None

    def refuse(self, name, number):
        self.say(FAILED, f"{shown(name)}: refused {number}: {FILE_TEXTS[number]}")

    def print(self, status, text):
        self.output += f"{text}\n".encode()
        self.status = max(self.status, status)


def unclean(reading):
    """How many lines have an entry."""
    return len(index.index_of(reading.repairs))


def why_not_made(files, name):
    """Why there can be no finished file of this name, or None."""
    if name.endswith("/"):
        return NOT_MADE
    if found(files, name) is not None:
        return IS_THERE
    return None if can_be_made(files, name) else NOT_MADE


class Finishing(Retaining):
    """finish [RECORDING] FINISHED"""

    def say_refused(self, run, of):
        told = outcome(run)
        refusal = told.number, told.line, told.place
        self.say(STOPPED, of + refused(refusal, READ_TEXTS))

    def finish(self, data, name, of):
        reading, made = finished.finish(data)
        if made is None:
            self.say_refused(reading.run, of)
            return
        self.files = {**self.files, os.path.normpath(name): made}
        told = outcome(reading.run)
        counts = f"LINES {told.lines} UNCLEAN {unclean(reading)}"
        self.print(0, f"SYSTEM {told.system} START {told.start} {counts}")

    def can_make(self, name):
        """Whether there can be a finished file of this name; why not is said."""
        # It has another name until it is whole.
        for each in (name, f"{name}.part"):
            why_not = why_not_made(self.files, each)
            if why_not:
                self.say(FAILED, f"{shown(each)} {why_not}")
                return False
        return True

    def finish_into(self, data, name, of):
        # A system or line that there is not is told before a finished file is looked at.
        run = begin(data)
        if run.number:
            self.say_refused(run, of)
        elif self.can_make(name):
            self.finish(data, name, of)

    def answer_to(self, words, data):
        *names, name = words
        if names:
            data = self.read(names[0])
        if data is not None:
            self.finish_into(data, name, "".join(f"{shown(each)}: " for each in names))


class Finished(Retaining):
    """A verb on a finished file and numbers, the system and the start line first."""

    def answer_to(self, words, data):
        name, *texts = words
        numbers = list(map(number_of, texts))
        data = self.read(name)
        if data is not None:
            self.answer_of(name, data, *numbers)


class Asking(Finished):
    """ask FINISHED SYSTEM START A B"""

    def answer_of(self, name, data, system, start, a, b):
        asked = finished.ask(system, start, data, a, b)
        if asked.number:
            self.refuse(name, asked.number)
        elif asked.clean:
            self.print(0, f"lines {a} to {b}: all clean")
        else:
            self.print(STOPPED, f"lines {a} to {b}: not all clean")


class Checking(Finished):
    """check FINISHED SYSTEM START"""

    def tell(self, checked):
        run = checked.reading.run
        if checked.is_theirs:
            counts = f"LINES {run.walk.lines_read} UNCLEAN {unclean(checked.reading)}"
            self.print(0, f"{counts}: all lines are accepted and the index is theirs")
        # What is told is what comes first in the order of lines.
        elif checked.differs_at is not None:
            self.print(STOPPED, f"ordinal {checked.differs_at}: the index differs")
        else:
            refusal = f"line {run.walk.line} refused {run.number}, place {run.place}"
            self.print(STOPPED, f"ordinal {run.walk.lines_read}: {refusal}")

    def answer_of(self, name, data, system, start):
        checked = finished.check(system, start, data)
        if checked.refusal:
            self.refuse(name, checked.refusal[0])
        else:
            self.tell(checked)


class Unfinishing(Finished):
    """unfinish FINISHED SYSTEM START"""

    def answer_of(self, name, data, system, start):
        refusal, recording = finished.unfinish(system, start, data)
        if refusal:
            self.refuse(name, refusal[0])
        else:
            self.output = recording


RETAINERS = {"finish": Finishing, "ask": Asking, "check": Checking, "unfinish": Unfinishing}


def retention_answer(verb, words, data, files):
    report = RETAINERS[verb](verb, files)
    report.answer_to(words, data)
    return report.answer()
