"""Cases as bytes, and the kinds of cases.

A case is its kind and the size of its payload, both of 32 bits, then the
payload: the numbers, the length of each slice, the slices. Answers follow one
another with no header: the numbers, then the slices as they are afterwards.
All are little-endian; words and samples have 16 bits, numbers have 32. A
number of 64 bits goes as two, the lower one first. Which call each kind is,
and what it answers, is in kinds.py.
"""

import struct
from typing import NamedTuple

from independent.judge import bytes_of

(
    CORRECT,
    FRESH,
    TAKE,
    ACTIVE,
    WRITE,
    CODE,
    DECODE,
    CAPTURE_CORRECT,
    CAPTURE_JUDGE,
) = range(1, 10)
FOURTH, EXPECTING, CODE_REPORT, FOURTH_FAULT = range(10, 14)
(
    FLAGS,
    OWN_FRESH,
    SYSTEM_OF,
    FIGURES,
    SYSTEM_FLAGS,
    REPAIRS,
    WALK_REFUSAL,
    MOVED,
    NAMED,
    STANDING,
) = range(20, 30)
DUE_OF, DUE_FLAGS, DUE_AT, BUFFER_REFUSAL, WALK_DUE, RESERVED, WORD_OF, FIRST_OVER = range(30, 38)
WRITTEN_REFUSAL, V_WRITTEN = range(38, 40)
REFUSED, ACCEPTED, JUDGE, WRITE_LINE, WRITE_PART, BETWEEN_PACKETS, ACTIVE_PACKETS = range(40, 47)
REASONED, FILL_WORD, ALL_SAMPLES = range(47, 50)
STATE_FRESH, JUDGE_SPACE, SYSTEM_NAMED = range(50, 53)
BYTEWISE_JUDGE, TO_WORDS, TO_BYTES = range(60, 63)
UNPACK, PACK = range(70, 72)
RECORD, EXTRACT, TAKES_ROW, ENDS_FRAME, PIECE_LINES, ENDS_PIECE, EXTRACT_NEXT = range(80, 87)
LINE_BYTES, BEGIN, FOLLOW, CLOSE, OUTCOME, FOLLOWS_ON, NEXT = range(90, 97)
NO_TOTALS, WITH_READ, WITH_UNREAD, TOTAL_LINES, HOURS = range(100, 105)
TAPE_BEGIN, TURNS, TURNED, TAPE_ENDS, TAPE_NEXT = range(110, 115)
TELLS, SO_FAR, FILLED_AFTER = range(120, 123)
JUDGE_HEAD, PUT_HEAD = range(130, 132)
ENTRY_OF, PUT_ENTRY, TRAILER_OF, PUT_TRAILER, ASK = range(140, 145)
QUESTION_BEGIN, QUESTION_FEED, QUESTION_REFUSAL, QUESTION_CLOSE = range(145, 149)
FINISHING_OF, FINISHING_FOLLOW, FINISHING_CLOSE, FINISHING_TRAILER = range(150, 154)
MEET, IS_THEIRS, DIFFERS_BEFORE = range(154, 157)
RUN_FRESH, RUN_JUDGED = range(160, 162)


class Case(NamedTuple):
    """One call of one kind; the index counts the cases of its family."""

    kind: int
    family: str
    index: int
    arguments: tuple


class Wide(int):
    """A number of 64 bits."""


def pack_numbers(*numbers):
    return struct.pack(f"<{len(numbers)}I", *numbers)


def pack_slice(words):
    """Words as bytes; bytes as they are."""
    return words if isinstance(words, bytes) else bytes_of(words)


def pack_slices(slices):
    return b"".join(map(pack_slice, slices))


def flat(value):
    """The numbers of 32 bits of a number or a record."""
    if isinstance(value, tuple):
        return [number for part in value for number in flat(part)]
    if isinstance(value, Wide):
        return [value % 2**32, value >> 32]
    return [value]


def parted(values):
    """The numbers, those of records among them, and the slices."""
    numbers, slices = [], []
    for value in values:
        if isinstance(value, (bytes, list)):
            slices.append(value)
        else:
            numbers.extend(flat(value))
    return numbers, slices


def case_bytes(case):
    numbers, slices = parted(case.arguments)
    payload = pack_numbers(*numbers, *map(len, slices)) + pack_slices(slices)
    return pack_numbers(case.kind, len(payload)) + payload
