"""Runs of so many lines that the confirming program meets the limit of a walk.

Run: python3 -m independent.stream SYSTEM START LINES TAIL [repaired]
It writes the header, so many lines and so many further bytes to standard output.
"""

import os
import sys
from typing import NamedTuple

from independent import judge, recordings
from independent.judge import LINES_LIMIT
from independent.material import Source, inverted
from independent.recordings import header
from independent.runs import clean_lines


class LongRun(NamedTuple):
    """A run of one frame over and over, then further bytes of zero."""

    system: int
    start: int
    lines: int
    tail: int
    repaired: bool


LIMIT_RUNS = (
    LongRun(625, 1, LINES_LIMIT, 0, repaired=False),
    LongRun(625, 1, LINES_LIMIT, 1, repaired=False),
    LongRun(525, 300, LINES_LIMIT, judge.line_size(525), repaired=True),
    LongRun(625, 600, LINES_LIMIT - 1, 1, repaired=False),
)


def frame(run):
    """The bytes of one frame from the start line on."""
    source = Source(0, "frame")
    lines = clean_lines(source, run.system, run.start, judge.SYSTEMS[run.system].lines)
    if run.repaired:
        masks = inverted(1)
        lines = [source.with_inversions(run.system, words, masks) for words in lines]
    return b"".join(map(judge.bytes_of, lines))


def last_bytes(run, whole):
    """What follows the last whole frame."""
    rest = run.lines % judge.SYSTEMS[run.system].lines
    return whole[: rest * judge.line_size(run.system)] + bytes(run.tail)


def pieces(run):
    whole = frame(run)
    yield header(run.system, run.start)
    for _ in range(run.lines // judge.SYSTEMS[run.system].lines):
        yield whole
    yield last_bytes(run, whole)


def expected_outcome(run):
    """The outcome, as every frame does to the walk what the first one did."""
    whole = frame(run)
    begun = recordings.begin(header(run.system, run.start))
    after = recordings.run_on(begun, whole)
    assert after.number == 0 and after.walk.line == run.start
    times = run.lines // after.walk.lines_read - 1
    # The last line's V and the tally of its field are those at the end of every frame.
    counts = {name: times * getattr(after.walk, name) for name in ("lines_read", "repairs")}
    before_last = begun._replace(walk=after.walk._replace(**counts))
    run_out = recordings.run_on(before_last, whole + last_bytes(run, whole))
    return recordings.outcome(run_out)


def write_all(descriptor, data):
    rest = memoryview(data)
    while rest:
        rest = rest[os.write(descriptor, rest) :]


def main():
    system, start, lines, tail = map(int, sys.argv[1:5])
    run = LongRun(system, start, lines, tail, repaired=sys.argv[5:] == ["repaired"])
    for piece in pieces(run):
        write_all(sys.stdout.fileno(), piece)


if __name__ == "__main__":
    main()
