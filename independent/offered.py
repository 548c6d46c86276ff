"""Lines with the walk that each is offered at: spoilt at every offset, in the codes, in length."""

from itertools import product

from independent.edges import ANY_SYSTEMS, EDGE_COUNTS, EDGE_WORDS
from independent.judge import fourth_offsets
from independent.material import changed, chosen_lines, edge_offsets, inverted, line_for, of_both
from independent.material import plain_and_blank_line, stretched, word_lengths


def every_offset_spoilt(source):
    """Walk, offset, and a line with its word there over 1023, and wrong otherwise."""
    for walk, words in source.offered(of_both(plain_and_blank_line)):
        for offset, word in enumerate(words):
            over = source.over(word)
            wrong = source.wrong(walk.system, walk.line, offset, word)
            yield walk, offset, *(changed(words, {offset: fault}) for fault in (over, wrong))


def every_edge_word(source):
    """Walk and line: words about each limit at the first and last offsets of each part."""
    for walk, words in source.offered(chosen_lines()):
        for offset, word in product(edge_offsets(walk.system), EDGE_WORDS):
            yield walk, changed(words, {offset: word})


def every_inversion(source, counts):
    """Walk and line: no or one bit inverted in both codes, so many in one of them."""
    one_or_none = (0, *inverted(1))
    more = [mask for count in counts for mask in inverted(count)]
    for walk, words in source.offered(chosen_lines()):
        eav, sav = fourth_offsets(walk.system)
        for first, second in product(one_or_none, one_or_none):
            yield walk, changed(words, {eav: words[eav] ^ first, sav: words[sav] ^ second})
        for offset, mask in product((eav, sav), more):
            yield walk, changed(words, {offset: words[offset] ^ mask})


def of_any_length(source, system, line, clean, lengths):
    """Walk and line: a clean line and a spoilt one, cut or lengthened."""
    for length in (*word_lengths(system), *lengths):
        for words in (clean, changed(clean, {0: 1024, 3: 0})):
            yield source.walk(system, line), stretched(words, length)


def at_any_walk(source, lines):
    """Walks with any of system, line and counts wrong, and the line that each awaits."""
    for system, line, counts in product(ANY_SYSTEMS, lines, EDGE_COUNTS):
        yield source.bad_walk(system, line, *counts), line_for(source, system, line)
