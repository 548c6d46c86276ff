"""Rows: what FFmpeg's v210 holds of a picture's row, the 1440 samples of an active part.

Three samples go to a word of 32 bits, the first in the lowest bits, low byte
first. Sentences between quotation marks are of the comments above the calls.
"""

import struct

from independent import judge
from independent.judge import ACCEPTED, ACTIVE_WORDS

SHIFTS = (0, 10, 20)
SPARE_BITS = 3 << 30
ROW_WORDS = ACTIVE_WORDS // len(SHIFTS)
ROW_BYTES = 4 * ROW_WORDS

# Written by hand: 512 + 64 * 1024 + 512 * 1048576, then 64 + 512 * 1024 + 64 * 1048576.
BLACK_ROW = bytes.fromhex("0002012040000804") * 240


def row_of(samples):
    """The row of an active part's samples."""
    triples = zip(*(samples[first::3] for first in range(3)))
    words = [a | b << 10 | c << 20 for a, b, c in triples]
    return struct.pack(f"<{len(words)}I", *words)


def words_of_row(row):
    return struct.unpack(f"<{ROW_WORDS}I", row)


def samples_of_row(row):
    return [word >> n & judge.LAST_WORD for word in words_of_row(row) for n in SHIFTS]


def with_word(row, index, word):
    return row[: 4 * index] + struct.pack("<I", word) + row[4 * index + 4 :]


def spare_refusal(row):
    """The first word with a spare bit set."""
    for index, word in enumerate(words_of_row(row)):
        if word & SPARE_BITS:
            return (judge.OVER_A_WORD, index)
    return None


def row_length_refusal(row):
    """A row that is lent behind a line's bytes."""
    return judge.length_refusal((len(row),), (ROW_BYTES,), first_place=1)


def row_refusal(row):
    """What refuses a row before its samples are looked at: 3, 5 in that order."""
    return row_length_refusal(row) or spare_refusal(row)


def unpack(row, samples):
    # "3 at 0 for the row's length, 3 at 1 for the samples', then 5 at the first
    # word with a spare bit set. A refusal leaves the samples as they were."
    refusal = judge.length_refusal((len(row), len(samples)), (ROW_BYTES, ACTIVE_WORDS))
    refusal = refusal or spare_refusal(row)
    return (*refusal, samples) if refusal else (*ACCEPTED, samples_of_row(row))


def pack(samples, row):
    # "3 at 0 for the samples' length, 3 at 1 for the row's, then 5 at the first
    # sample over 1023. A refusal leaves the row as it was."
    refusal = judge.length_refusal((len(samples), len(row)), (ACTIVE_WORDS, ROW_BYTES))
    refusal = refusal or judge.over_refusal(samples)
    return (*refusal, row) if refusal else (*ACCEPTED, row_of(samples))
