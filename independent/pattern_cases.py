"""Cases of all 128 patterns of the seven bits: alone, and the corrected ones in lines."""

from itertools import product

from independent import protocol
from independent.fall_cases import FALLING, offered
from independent.hopeless_cases import EVERY_CALL, with_codes
from independent.judge import BIT_9, fourth_offsets
from independent.material import HOPELESS, chosen_lines

# The fourth words of all patterns, with low bits of 0, and those that are clean or repaired.
PATTERNS = range(BIT_9, 2 * BIT_9, 4)
CORRECTED = [fourth for fourth in PATTERNS if fourth not in HOPELESS]


def patterns_due(source):
    """What is due with each as EAV's, any low bits, where V may fall and beside, after either V."""
    for line, record, fourth in product(FALLING, (0, 1), PATTERNS):
        walk = source.walk(525, line)._replace(fallen=record)
        yield protocol.WALK_DUE, (walk, fourth | source.random.randrange(4))


def corrected_codes(source):
    """Each that is corrected in each code of a line of every system, F and V, in every call."""
    for system, line in chosen_lines():
        words = source.written(system, line)
        for offset, fourth in product(fourth_offsets(system), CORRECTED):
            other = with_codes(source, system, words, {offset: fourth})
            for call in EVERY_CALL:
                yield call(source, source.walk(system, line), other)


def corrected_where_v_falls(source):
    """The same in lines with either V, after either, where V may fall; the calls by chance."""
    for walk, words in offered(source, FALLING):
        for offset, fourth in product(fourth_offsets(525), CORRECTED):
            other = with_codes(source, 525, words, {offset: fourth})
            yield source.random.choice(EVERY_CALL)(source, walk, other)


FAMILIES = (patterns_due, corrected_codes, corrected_where_v_falls)
