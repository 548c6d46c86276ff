"""The packets file beside a programme: the heads of its entries.

Sentences between quotation marks are of crates/captions/specs/Entry.antt, which
is the one text about it, and of the comments above the calls.
"""

import struct
from typing import NamedTuple

from independent.protocol import Wide
from independent.words import ACCEPTED, NO_ENTRY, WRONG_LENGTH

# "a head of twelve bytes, ordinal (8), space (2), words (2)", "low byte first"
HEAD = struct.Struct("<QHH")

# "0 is the one between EAV and SAV, 1 the active part"
LAST_SPACE = 1

# "no space holds more words"
MOST_WORDS = 1_440

# "no ordinal is as large: the key behind the last entry is a number of 64 bits"
ORDINAL_LIMIT = 2**62


class Entry(NamedTuple):
    """A line's ordinal from 0, a space, and how many packet words follow."""

    ordinal: Wide
    space: int
    words: int


class Head(NamedTuple):
    """The answer to a head: its number, the entry, and the least key that may come next."""

    number: int
    entry: Entry
    least: Wide


NO_HEAD = Entry(Wide(0), 0, 0)


def entry_of(head):
    ordinal, space, words = HEAD.unpack(head)
    return Entry(Wide(ordinal), space, words)


def key_of(entry):
    # "a number for each line and space, in the order in which entries stand"
    return 2 * entry.ordinal + entry.space


def is_entry(least, entry):
    # "a line or a space that there is not, no words or more than a space holds, and
    # one that does not rise" are none.
    is_there = entry.ordinal < ORDINAL_LIMIT and entry.space <= LAST_SPACE
    return is_there and 1 <= entry.words <= MOST_WORDS and key_of(entry) >= least


def judge_head(least, head):
    # "What refuses a head where this is the least key that may come: one that is no
    # head, and one that tells no entry."
    if len(head) == HEAD.size and is_entry(least, entry_of(head)):
        entry = entry_of(head)
        return Head(0, entry, Wide(key_of(entry) + 1))
    # "a refusal tells an entry all zero, and the key as it was"
    return Head(NO_ENTRY, NO_HEAD, least)


def put_head(entry, head):
    # "3 where they are not twelve, and then nothing is written. Of space and words the
    # low 16 bits count."
    if len(head) != HEAD.size:
        return (WRONG_LENGTH, 0, head)
    return (*ACCEPTED, HEAD.pack(entry.ordinal, entry.space % 65_536, entry.words % 65_536))
