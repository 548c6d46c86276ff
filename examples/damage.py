"""A recording as a worn tape may give it: each timing code has one inverted bit.

Run: python3 -m examples.damage <RECORDING >DAMAGED
The low bits of all timing words are set at random too. The seed is fixed: the
same recording is always damaged in the same way.
"""

import sys

from independent.material import Source
from independent.runs import damaged

if __name__ == "__main__":
    recording = sys.stdin.buffer.read()
    sys.stdout.buffer.write(damaged(Source(656, "damage"), recording))
