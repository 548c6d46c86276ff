"""What the probe is run on where it is proved, and what it must answer: a few cases of every kind.

Run: python3 -m independent.probe_files DIR
"""

import pathlib
import sys
from collections import Counter
from itertools import islice

from independent import protocol
from independent.cases import FAMILIES
from independent.compare import SEED
from independent.kinds import expected_answer
from independent.material import Source
from independent.protocol import Case

LOOKED_AT = 60
PER_KIND = 2
LONGEST_CASE = 8_000


def first_cases():
    """The first case of every kind in a family, as far as it is not long."""
    for family in FAMILIES:
        name, found = family.__name__, set()
        cases = islice(family(Source(SEED, name)), LOOKED_AT)
        for index, (kind, arguments) in enumerate(cases):
            case = Case(kind, name, index, arguments)
            if kind not in found and len(protocol.case_bytes(case)) <= LONGEST_CASE:
                found.add(kind)
                yield case


def chosen_cases():
    """Those of a few families for every kind."""
    taken = Counter()
    for case in first_cases():
        taken[case.kind] += 1
        if taken[case.kind] <= PER_KIND:
            yield case


if __name__ == "__main__":
    chosen = sorted(chosen_cases(), key=lambda case: case.kind)
    folder = pathlib.Path(sys.argv[1])
    (folder / "stdin").write_bytes(b"".join(map(protocol.case_bytes, chosen)))
    (folder / "stdout").write_bytes(b"".join(map(expected_answer, chosen)))
