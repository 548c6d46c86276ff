"""Ancillary packets, and the spaces of a line in which they stand.

Sentences between quotation marks are of request L6 of document 02 ("Additional
customer requests"). A packet is told by the offset of its first word.
"""

from functools import lru_cache
from itertools import chain, cycle
from typing import NamedTuple

from independent.words import (
    ACCEPTED,
    BAD_CHECKSUM,
    BAD_PARITY,
    NO_FILL,
    PAST_THE_SPACE,
    RESERVED,
    first_fault,
    is_sample,
    over_number,
)

# "words 0, 1023, 1023, then data identifier, second identifier or block number,
# count, up to 255 user words, checksum"
START = [0, 1023, 1023]
COUNT = 5
USER = 6

# "at least seven words of its space are left"
LEAST_WORDS = 7


class Space(NamedTuple):
    """The answer to a space: its first fault, or how many of its words are packets."""

    number: int
    place: int
    packets: int


def header_word(value):
    """The header word of eight bits."""
    # "The three header words have bit 8 as even parity of bits 7 to 0, bit 9 its
    # inverse."
    parity = value.bit_count() % 2
    return (1 - parity) << 9 | parity << 8 | value


def checksum(words):
    """The checksum of the words from the data identifier to the last user word."""
    # "low nine bits the sum of those from data identifier to last user word, modulo
    # 512; bit 9 the inverse of bit 8"
    low = sum(word % 512 for word in words) % 512
    return (1 - (low >> 8)) << 9 | low


def packet(identifier, second, user_words):
    """The packet of two identifiers, of eight bits each, and these user words."""
    header = map(header_word, (identifier, second, len(user_words)))
    summed = [*header, *user_words]
    return [*START, *summed, checksum(summed)]


def packet_end(words, at):
    """The offset behind a packet, by its count."""
    return at + LEAST_WORDS + words[at + COUNT] % 256


def each_packet(words):
    """The packets of words that are packets one after another."""
    at = 0
    while at < len(words):
        end = packet_end(words, at)
        yield words[at:end]
        at = end


def header_values(words):
    """The eight bits of a packet's identifiers and count."""
    return [word % 256 for word in words[len(START) : USER]]


def header_number(word):
    # "15 bad header parity"; "At one offset 5 comes first"
    return over_number(word) or (0 if word == header_word(word % 256) else BAD_PARITY)


def count_number(words, at, end):
    # "17 the user words and checksum run past the space (at the count word)"
    past = PAST_THE_SPACE if packet_end(words, at) > end else 0
    # "At one offset 5 comes first, 15 before 17."
    return header_number(words[at + COUNT]) or past


@lru_cache(maxsize=None)
def user_number(word):
    # "User words are 4 to 1019."; "a reserved user word is 11"
    return over_number(word) or (0 if is_sample(word) else RESERVED)


def checksum_number(word, summed):
    # "16 bad checksum (at the checksum)"
    return over_number(word) or (0 if word == checksum(summed) else BAD_CHECKSUM)


def packet_numbers(words, at, end):
    """What is wrong with each word of a packet behind the first three, or 0, part by part."""
    first, last = at + len(START), packet_end(words, at) - 1
    yield map(header_number, words[first : at + COUNT])
    yield [count_number(words, at, end)]
    yield map(user_number, words[at + USER : last])
    yield [checksum_number(words[last], words[first:last])]


def packet_fault(words, at, end):
    """The first fault of a packet, or None."""
    numbers = chain.from_iterable(packet_numbers(words, at, end))
    return first_fault(numbers, at + len(START))


def starts_packet(words, at, end):
    # "A packet starts only where at least seven words of its space are left and the
    # first three are those"
    return end - at >= LEAST_WORDS and words[at : at + len(START)] == START


def behind_packets(words, start, end):
    """The offset behind the last packet of a space, and the packets' first fault, or None."""
    at = start
    # "Packets stand one after another from the start of the space"
    while starts_packet(words, at, end):
        fault = packet_fault(words, at, end)
        if fault:
            return at, fault
        at = packet_end(words, at)
    return at, None


@lru_cache(maxsize=None)
def fill_number(word, fill):
    # "else fill is due and 10 is answered at the first word that is not fill"
    return over_number(word) or (0 if word == fill else NO_FILL)


def fill_fault(words, start, end, even, odd):
    # "fill follows, by offset"
    fill = cycle((odd, even) if start % 2 else (even, odd))
    return first_fault(map(fill_number, words[start:end], fill), start)


def answered(fault, packet_words):
    # "The reader also answers how many words of each space are packets, 0 if it
    # refuses."
    return Space(*fault, 0) if fault else Space(*ACCEPTED, packet_words)


def judge_space(words, start, end, even, odd):
    """The answer to the space between two offsets of a line, with this fill."""
    end = min(end, len(words))
    behind, fault = behind_packets(words, start, end)
    return answered(fault or fill_fault(words, behind, end, even, odd), behind - start)


def ready_fault(ready, start):
    """What refuses ready packet words that are to stand from an offset on, or None."""
    # "then they are judged as a space of just their length, by line offsets, with 10
    # wherever no packet starts"
    words = [0] * start + ready
    behind, fault = behind_packets(words, start, len(words))
    left = (over_number(word) or NO_FILL for word in words[behind:])
    return fault or first_fault(left, behind)
