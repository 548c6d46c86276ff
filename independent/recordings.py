"""Recordings: what one is, a run over its lines, and what the confirming program says of it.

A sentence between quotation marks is of document 01; where that does not speak
of a call, of the comment above the call, of README.md or of docs/DECISIONS.md.
"""

from typing import NamedTuple

from independent import judge
from independent.judge import Walk, bytes_of, line_after, system_of

# "16-bit words, low byte first: system, start line, then lines."
HEADER_BYTES = 4


def header(system, start):
    return bytes_of([system, start])


def recording(system, start, lines):
    return header(system, start) + b"".join(map(bytes_of, lines))


def header_of(data):
    # "Under 4 bytes of header count as system 0, start 0."
    words = judge.words_of(data[:HEADER_BYTES]) if len(data) >= HEADER_BYTES else (0, 0)
    return tuple(words)


def parts(data, size):
    """The data in parts of one size; the last may be short."""
    return [data[start : start + size] for start in range(0, len(data), size)]


def line_count(data):
    """How many whole lines a recording has."""
    system, _ = header_of(data)
    return len(data[HEADER_BYTES:]) // judge.line_size(system_of(system))


def lines_of(data):
    """The words of the whole lines of a recording."""
    system, _ = header_of(data)
    lines = parts(data[HEADER_BYTES:], judge.line_size(system_of(system)))
    return [judge.words_of(line) for line in lines[: line_count(data)]]


def awaited_line(data):
    """The line after the last one of a recording."""
    return line_after(*header_of(data), line_count(data))


def line_bytes(walk):
    # "The bytes of the line that a walk awaits"
    return judge.line_size(system_of(walk.system))


# "A run: its header's numbers, the walk over its lines, and the refusal that ended it, or 0."
class Run(NamedTuple):
    system: int
    start: int
    walk: Walk
    number: int
    place: int


def fresh_run(system, start):
    # "A run of this system from this line on, before its lines: a fresh walk, or its refusal."
    number, place, walk = judge.fresh(system, start)
    return Run(system, start, walk, number, place)


def begin(data):
    return fresh_run(*header_of(data))


def judged_on(run, judgement):
    """The run after its next line was judged."""
    return run._replace(walk=judgement.walk, number=judgement.number, place=judgement.place)


def with_line(run, data):
    # "The run after these bytes were judged as its next line", ended or not.
    return judged_on(run, judge.judge_bytes(run.walk, data))


def follow(run, data):
    """The run, and how many bytes were taken."""
    taken = 0
    # "Judges every whole line of the bytes that lie ready, up to the first refusal"
    while not run.number and taken < len(data):
        # "After 10,000,000 lines the next byte answers 4 at once"; "the bytes at a
        # walk that refuses every line as not taken"
        if judge.walk_refusal(run.walk):
            return with_line(run, data[taken:]), taken
        # "Where the run goes on, what is left is shorter than a line"
        end = taken + line_bytes(run.walk)
        if len(data) < end:
            break
        # "counts a whole line that it refuses as taken"
        run, taken = with_line(run, data[taken:end]), end
    return run, taken


def close(run, data):
    # "The run at the end of the input, with the bytes that were left."
    return run if run.number or not data else with_line(run, data)


def run_on(run, data):
    """The run after all bytes that are left of its recording."""
    # "Trailing bytes short of a line, or of a word, are refusal 3, place 0; but
    # any byte after 10,000,000 lines is refusal 4."
    for part in parts(data, line_bytes(run.walk)):
        # "It stops at the first refusal."
        run = close(run, part)
    return run


def run_over(data):
    """The run over a whole recording."""
    return run_on(begin(data), data[HEADER_BYTES:])


def follows_on(before, run):
    # "that one was accepted, and this one starts with the line that it awaits, of
    # its system"
    goes_on = (run.system, run.start) == (before.system, before.walk.line)
    return int(before.number == 0 and goes_on)


# "The numbers of the confirming program's five lines."
class Outcome(NamedTuple):
    system: int
    start: int
    lines: int
    repairs: int
    number: int
    line: int
    place: int


def outcome(run):
    # "RESULT is number, awaited line, place; the line is 0 for an accepted run
    # and for refusals 1 and 2."
    has_line = run.number not in (0, judge.NO_SYSTEM, judge.NO_LINE)
    line = run.walk.line if has_line else 0
    counts = run.walk.lines_read, run.walk.repairs
    return Outcome(run.system, run.start, *counts, run.number, line, run.place)


def told(numbers):
    """What is said of a recording's outcome, in five parts."""
    yield f"SYSTEM {numbers.system}"
    yield f"START {numbers.start}"
    yield f"LINES {numbers.lines}"
    yield f"REPAIRS {numbers.repairs}"
    yield f"RESULT {numbers.number} {numbers.line} {numbers.place}"


def five_lines(numbers):
    # "its whole output is five lines"
    return "".join(f"{part}\n" for part in told(numbers)).encode("ascii")


def confirm(data):
    """The whole output of the confirming program for one input."""
    return five_lines(outcome(run_over(data)))
