"""The recordings that ship with the repository, from a fixed seed.

Run: python3 -m independent.samples DIR
"""

import pathlib
import sys

from independent.material import Source, inverted
from independent.recordings import recording
from independent.runs import clean_lines

# Where each starts and how many lines it has: from V = 1 lines to V = 0 lines, in 525 over line 1.
SPANS = {525: (524, 22), 625: (21, 4)}


def damaged(source, system, lines, masks):
    """The lines with the same number of bits inverted in the codes of every second line."""
    return [
        source.with_inversions(system, words, masks) if n % 2 else words
        for n, words in enumerate(lines)
    ]


def samples():
    for system, (start, count) in SPANS.items():
        source = Source(656, f"samples {system}")
        lines = clean_lines(source, system, start, count)
        yield f"{system}.rec", recording(system, start, lines)
        repaired = damaged(source, system, lines, inverted(1))
        yield f"{system}-repaired.rec", recording(system, start, repaired)
        spoilt = lines[:2] + damaged(source, system, lines[2:4], inverted(2))
        yield f"{system}-spoilt.rec", recording(system, start, spoilt)


if __name__ == "__main__":
    for name, data in samples():
        (pathlib.Path(sys.argv[1]) / name).write_bytes(data)
