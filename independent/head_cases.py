"""Cases of the packets file beside a programme: heads of entries, judged and put."""

from itertools import product

from independent import protocol
from independent.captions import HEAD, LAST_SPACE, MOST_WORDS, ORDINAL_LIMIT, Entry, key_of
from independent.edges import HIGHEST, HIGHEST_WIDE
from independent.entries import head_bytes
from independent.protocol import Wide

ORDINALS = (
    0, 1, 2, 255, 256, 65_536, 2**31, 2**32 - 1, 2**32, 2**48, ORDINAL_LIMIT - 1, ORDINAL_LIMIT,
    2**63, HIGHEST_WIDE,
)  # fmt: skip
SPACES = (0, LAST_SPACE, LAST_SPACE + 1, 256, 65_535)
COUNTS = (0, 1, 7, 268, 280, MOST_WORDS - 1, MOST_WORDS, MOST_WORDS + 1, 65_535)


def judged_heads(source):
    """Entries at and beyond each limit, where a key about theirs is the least; other lengths."""
    for ordinal, space, count in product(ORDINALS, SPACES, COUNTS):
        entry = Entry(Wide(ordinal), space, count)
        keys = (key_of(entry) + more for more in (-1, 0, 1))
        for least in (0, 1, *keys, 2**63, HIGHEST_WIDE):
            if 0 <= least < 2**64:
                yield protocol.JUDGE_HEAD, (Wide(least), head_bytes(entry))
    for size in range(40):
        head = head_bytes(Entry(Wide(5), 1, 7)) + source.junk_bytes(40)
        yield protocol.JUDGE_HEAD, (Wide(0), head[:size])


def any_heads(source):
    """Any bytes as a head, and any least key."""
    for _ in range(500):
        head = bytearray(source.junk_bytes(HEAD.size))
        head[7:12] = source.random.choice(((0, 0, 0, 7, 0), (0, 1, 0, 160, 5), head[7:12]))
        least = source.random.choice((0, source.random.randrange(2**64)))
        yield protocol.JUDGE_HEAD, (Wide(least), bytes(head))


def filled_heads(source):
    """Any entry into twelve bytes, and into others."""
    numbers = (*SPACES, *COUNTS, 65_536, 65_537, 2**31, HIGHEST)
    for ordinal, space, count in product(ORDINALS, numbers, numbers):
        entry = Entry(Wide(ordinal), space, count)
        yield protocol.PUT_HEAD, (entry, source.junk_bytes(HEAD.size))
    for size in range(40):
        entry = Entry(Wide(source.random.randrange(2**64)), *source.junk(2))
        yield protocol.PUT_HEAD, (entry, source.junk_bytes(size))


FAMILIES = (
    judged_heads,
    any_heads,
    filled_heads,
)
