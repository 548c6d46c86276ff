"""The sums over several recordings.

Sentences between quotation marks are of crates/confirmation/specs/Totals.antt,
which is the one text about them.
"""

from fractions import Fraction
from math import floor
from typing import NamedTuple

from independent.protocol import Wide

# 25 pictures a second of 625 lines, 30000/1001 of 525.
LINE_SECONDS = {625: Fraction(1, 25 * 625), 525: Fraction(1001, 30_000 * 525)}

# "ten-thousandths of an hour"
HOUR_PARTS = 10_000
HOUR_SECONDS = 3_600


# "What is counted over recordings"
class Totals(NamedTuple):
    files: Wide
    lines525: Wide
    lines625: Wide
    repairs: Wide
    refused: Wide
    unread: Wide


def summed(*numbers):
    # "a sum as 64 bits hold it"
    return Wide(sum(numbers) % 2**64)


def no_totals():
    return Totals(*[Wide(0)] * 6)


def with_read(totals, told):
    # "a recording more that was read: its lines up to the end or the refusal"
    return Totals(
        files=summed(totals.files, 1),
        lines525=summed(totals.lines525, told.lines if told.system == 525 else 0),
        lines625=summed(totals.lines625, told.lines if told.system == 625 else 0),
        repairs=summed(totals.repairs, told.repairs),
        refused=summed(totals.refused, told.number != 0),
        unread=totals.unread,
    )


def with_unread(totals):
    # "a recording more that could not be read: nothing of it counts"
    files, unread = summed(totals.files, 1), summed(totals.unread, 1)
    return totals._replace(files=files, unread=unread)


def total_lines(totals):
    # "The lines of both systems."
    return summed(totals.lines525, totals.lines625)


def hours(totals):
    # "The time of the programme in ten-thousandths of an hour, to the nearest."
    lines = {525: totals.lines525, 625: totals.lines625}
    seconds = sum(lines[system] * LINE_SECONDS[system] for system in lines)
    return Wide(floor(seconds * Fraction(HOUR_PARTS, HOUR_SECONDS) + Fraction(1, 2)))
