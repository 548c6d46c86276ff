"""A packets file whole: entries made of lines' packets, and taken in turn as lines are written.

Sentences between quotation marks are of docs/FORMAT.md, "A packets file".
"""

from independent import judge
from independent.captions import HEAD, LAST_SPACE, Entry, judge_head, put_head
from independent.protocol import Wide

# "0 is the programme's first line, and the count goes on through the recordings of a folder"
FIRST_ORDINAL = 0


class NotTaken(Exception):
    """What is refused with 22: the byte at which it stands, and the entry, or None."""


def head_bytes(entry):
    return put_head(entry, bytes(HEAD.size))[2]


def entry_bytes(ordinal, space, words):
    # "An entry is a head of twelve bytes and words, low byte first everywhere"
    return head_bytes(Entry(Wide(ordinal), space, len(words))) + judge.bytes_of(words)


def line_entries(ordinal, spaces):
    """The entries of a line's packets."""
    # "a space without packets has none"
    given = ((space, words) for space, words in enumerate(spaces) if words)
    return b"".join(entry_bytes(ordinal, *pair) for pair in given)


class Entries:
    """A packets file while it is taken: the byte reached, and the entry there, or None."""

    def __init__(self, data):
        self.data, self.at, self.least = data, 0, Wide(0)
        self.look()

    def look(self):
        """Judge the head that stands at the byte reached."""
        head = self.data[self.at : self.at + HEAD.size]
        number, entry, self.least = judge_head(self.least, head)
        self.entry = None if number else entry

    def are_left(self):
        return self.at < len(self.data)

    def words_for(self, ordinal, space):
        """The words for a space of a line, which are taken with their entry, or none."""
        if self.entry is None or self.entry[:2] != (ordinal, space):
            return []
        start = self.at + HEAD.size
        end = start + 2 * self.entry.words
        # "refused with 22 where the file ends inside it"
        if end > len(self.data):
            raise NotTaken(self.at, None)
        self.at = end
        self.look()
        return judge.words_of(self.data[start:end])

    def ready_for(self, ordinal):
        """The ready words for both spaces of the line that is written next."""
        if self.are_left() and self.entry is None:
            self.refuse()
        return [self.words_for(ordinal, space) for space in range(LAST_SPACE + 1)]

    def refuse(self):
        raise NotTaken(self.at, self.entry)
