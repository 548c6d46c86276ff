"""Captions for a test programme that starts with line 1, as a packets file.

Run: python3 -m examples.captions SYSTEM FRAMES >PACKETS
Each frame has two ancillary packets, made as a caption inserter makes them: the
picture's format (41h 05h) between EAV and SAV of line 7, and a caption
distribution packet (61h 01h) in the active part of line 9, which has V = 1
wherever V falls. The captions are two letters a frame, for the first field.
"""

import sys

from independent.entries import line_entries
from independent.packets import header_word, packet

FORMAT_LINE, CAPTION_LINE = 7, 9
TEXT = b"The programme comes back whole. "

# A picture of 4:3 that fills the frame.
FORMAT = bytes([0x40, 0, 0, 0, 0, 0, 0, 0])

# The code of the frame rate, and how many triples of caption bytes a frame has.
RATES = {525: (4, 20), 625: (3, 24)}
NO_CAPTION = bytes([0xFA, 0, 0])


def with_odd_parity(byte):
    return byte | (0 if byte.bit_count() % 2 else 0x80)


def distribution(system, frame):
    """The bytes of a frame's caption distribution packet."""
    rate, triples = RATES[system]
    letters = (TEXT[at % len(TEXT)] for at in (2 * frame, 2 * frame + 1))
    pair = bytes([0xFC, *map(with_odd_parity, letters)])
    captions = bytes([0x72, 0xE0 | triples]) + pair + NO_CAPTION * (triples - 1)
    sequence = frame.to_bytes(2, "big")
    length = len(captions) + 11
    head = bytes([0x96, 0x69, length, rate << 4 | 0xF, 0x43]) + sequence
    body = head + captions + bytes([0x74]) + sequence
    return body + bytes([-sum(body) % 256])


def words_of(identifier, second, values):
    """The packet of these bytes, each with its parity."""
    return packet(identifier, second, list(map(header_word, values)))


def frame_entries(system, frame):
    first = frame * system
    shape = words_of(0x41, 0x05, FORMAT)
    caption = words_of(0x61, 0x01, distribution(system, frame))
    return line_entries(first + FORMAT_LINE - 1, (shape, [])) + line_entries(
        first + CAPTION_LINE - 1, ([], caption)
    )


if __name__ == "__main__":
    system, frames = map(int, sys.argv[1:])
    for frame in range(frames):
        sys.stdout.buffer.write(frame_entries(system, frame))
