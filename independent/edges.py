"""Numbers about each limit that a rule draws: of words, samples, systems, lines and counts."""

from independent import judge
from independent.judge import LINES_LIMIT
from independent.words import LAST_REFUSAL

HIGHEST = 2**32 - 1
HIGHEST_WIDE = 2**64 - 1

SYSTEMS = tuple(judge.SYSTEMS)

# What document 01 lists to be "run as tests".
LISTED_SAMPLES = (3, 4, 1019, 1020)
LISTED_LINES = (0, 1, 525, 526, 625, 626)
LISTED_LENGTHS = (1715, 1716, 1728, 1729)
LISTED_COUNTS = (9_999_999, 10_000_000)
LISTED_SERIAL = (65_536, 65_537)

# Words about each limit that a rule draws, and words beyond ten bits.
EDGE_WORDS = (
    0, 3, 4, 63, 64, 65, 511, 512, 513, 1019, 1020, 1023, 1024, 1024 + 512, 32768, 65535,
)  # fmt: skip
EDGE_SAMPLES = (0, *LISTED_SAMPLES, judge.LAST_WORD)
ALL_PLACES = range(judge.ACTIVE_WORDS)
EDGE_PLACES = (*ALL_PLACES[:8], *ALL_PLACES[718:722], *ALL_PLACES[-4:])
RESERVED_WORDS = [word for word in range(judge.LAST_WORD + 1) if not judge.is_sample(word)]

WRONG_SYSTEMS = (
    0, 1, 524, 526, 624, 626, 65_536, 65_536 + 525, 65_536 + 625, 2**31 + 625, HIGHEST,
)  # fmt: skip
ANY_SYSTEMS = (*SYSTEMS, *WRONG_SYSTEMS)
EDGE_LINES = (
    0, 1, 2, 524, 525, 526, 624, 625, 626, 65_535, 65_536, 65_537, 2**31 + 1, HIGHEST,
)  # fmt: skip
EDGE_COUNTS = (
    (0, 0),
    (0, 1),
    (1, 2),
    (1, 3),
    (5, HIGHEST),
    (LINES_LIMIT - 1, 0),
    (LINES_LIMIT - 1, 2 * LINES_LIMIT - 2),
    (LINES_LIMIT - 1, 2 * LINES_LIMIT - 1),
    (LINES_LIMIT, 0),
    (LINES_LIMIT, 2 * LINES_LIMIT + 1),
    (2**31, 0),
    (2**31 + 1, 2),
    (HIGHEST, 0),
    (HIGHEST, HIGHEST),
)

# What a walk may record of its last line: that V was 1, and numbers that say it was 0.
EDGE_RECORDS = (0, 1, 2, 256, 65_536, 2**31, HIGHEST)

# Every line at which V may be told to fall in 525, and numbers that are no such line.
FALLS = range(10, 21)
NO_FALLS = (
    0, 1, 9, 21, 22, 263, 273, 283, 65_536 + 15, 2**31 + 15, HIGHEST - 263, HIGHEST,
)  # fmt: skip
ANY_FALLS = (*FALLS, *NO_FALLS)

# Numbers about those of any refusal, and beyond them.
EDGE_NUMBERS = (*range(LAST_REFUSAL + 2), 255, 256, 65_536, 2**31, HIGHEST)
EDGE_SUMS = (0, 1, 2**31, 2**32 - 1, 2**32, 2**63, 2**64 - 2**32, 2**64 - 2, 2**64 - 1)

# Most lines of a recording: none, those of a frame or two, the limit, any.
MOSTS = (
    0, 1, 524, 525, 526, 624, 625, 626, 1_050, 1_250, LINES_LIMIT - 1, LINES_LIMIT,
    LINES_LIMIT + 1, 2**31, HIGHEST,
)  # fmt: skip
