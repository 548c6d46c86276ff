"""Words and samples, and the numbers of refusals.

Sentences between quotation marks are of document 01, those on the two kinds of
hopeless code of request L5 of document 02, those on packets of request L6 and
those on finished files of request L10.
"""

from operator import itemgetter

# The refusal numbers, each with its row of the document's table.
NO_SYSTEM = 1  # "system is neither 525 nor 625"
NO_LINE = 2  # "line number outside 1 to 525, or 1 to 625"
WRONG_LENGTH = 3  # "a slice has the wrong length"
WRONG_COUNTS = 4  # "lines read is 10,000,000 or more, or repairs exceed twice lines read"
OVER_A_WORD = 5  # "a word over 1023"
NO_PREAMBLE = 6  # "one of the first three words of a timing code is wrong"
NO_BIT_9 = 7  # "bit 9 of a fourth word is 0"
HOPELESS_EVEN = 8  # "patterns with an even number of ones that are not legal"
NOT_DUE = 9  # "the corrected F, V, H are not those due here"
NO_FILL = 10  # "fill is due and is not there"
RESERVED = 11  # "a reserved word where a sample is due", and "a reserved user word"
NOT_A_SAMPLE = 12  # "sample to be written is outside 4 to 1019"
WRONG_STATE = 13  # "serial state: scrambled bits over 511 or last bit over 1"
HOPELESS_ODD = 14  # "patterns with an odd number that have no legal pattern within one bit"
BAD_PARITY = 15  # "bad header parity"
BAD_CHECKSUM = 16  # "bad checksum (at the checksum)"
PAST_THE_SPACE = 17  # "the user words and checksum run past the space (at the count word)"
BAD_PARTS = 19  # "parts that don't fit", "ordinals that do not rise" and more
BAD_RANGE = 20  # "a range that leaves the file or has a after b"
NO_ENTRY = 22  # of crates/captions: an entry of a packets file that is none
LAST_REFUSAL = NO_ENTRY
REFUSALS = (
    NO_SYSTEM, NO_LINE, WRONG_LENGTH, WRONG_COUNTS, OVER_A_WORD, NO_PREAMBLE, NO_BIT_9, HOPELESS_EVEN,
    NOT_DUE, NO_FILL, RESERVED, NOT_A_SAMPLE, WRONG_STATE, HOPELESS_ODD, BAD_PARITY, BAD_CHECKSUM,
    PAST_THE_SPACE, BAD_PARTS, BAD_RANGE, NO_ENTRY,
)  # fmt: skip

# "Every answer has a number and a place."; "0 | accepted | 0".
ACCEPTED = (0, 0)

# "A word is 10 bits, 0 to 1023, held in 16 bits."
WORD_BITS = 10
LAST_WORD = 1023

# "A sample is 4 to 1019; 0 to 3 and 1020 to 1023 are reserved."
FIRST_SAMPLE = 4
LAST_SAMPLE = 1019


def is_sample(word):
    # "A sample is 4 to 1019"
    return FIRST_SAMPLE <= word <= LAST_SAMPLE


def over_number(word):
    """The number of a word over 1023, or 0."""
    return OVER_A_WORD if word > LAST_WORD else 0


def first_fault(numbers, first_place=0):
    """The first number that is not 0, with its place, or None."""
    faults = filter(itemgetter(1), enumerate(numbers, first_place))
    return next(((number, place) for place, number in faults), None)


def over_refusal(words):
    """The first word over 1023, its place being its index."""
    return first_fault(map(over_number, words))
