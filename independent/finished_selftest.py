"""Finished files against parts, answers and commands that were written by hand, and wrong models.

The wrong models are errors that a builder is drawn to: the cases must notice them.
"""

from itertools import product

from independent import finished, finished_cases, finishing_cases, index, index_cases
from independent import judge, retention
from independent.command import FOLDER, Answer, answer
from independent.command_selftest import TWO_LINES, text, two_lines_with
from independent.finished import Finishing, Meeting
from independent.index import ENTRY, TRAILER, Asked, Entry, Question, Trailer
from independent.judge import Walk
from independent.material import Choice
from independent.protocol import Wide
from independent.recordings import Run, lines_of
from independent.wrong_models import noticed_answers, noticed_commands

# Of four lines of 625 the second has one code repaired and the last has two.
REPAIRS = (0, 1, 0, 2)
INDEX = bytes.fromhex("01000000 0100 03000000 0200")
TRAILER_BYTES = bytes.fromhex("0036000000000000 02000000 04000000")
LENGTH = 13_824 + 12 + 16

# The two lines, clean and with line 22's SAV and both codes of line 23 damaged, finished.
CLEAN_END = bytes.fromhex("001b000000000000 00000000 02000000")
CLEAN_FILE = TWO_LINES[4:] + CLEAN_END
DAMAGED = two_lines_with(0, 287, lines_of(TWO_LINES)[0][287] ^ 4)
ONE_FILE = DAMAGED[4:] + bytes.fromhex("00000000 0100 001b000000000000 01000000 02000000")
BAD_PARTS = "the parts of the file do not fit, or its index is none"


def asked(a, b, system=625, start=1, trailer=TRAILER_BYTES, entries=INDEX, length=LENGTH):
    """The answer, which must be that of the same in two pieces, wherever they are cut."""
    due = index.ask(system, start, trailer, entries, length, a, b)
    for cut in range(len(entries) + 1):
        begun = index.begin_question(system, start, trailer, length, a, b)
        fed = index.feed(index.feed(begun, entries[:cut]), entries[cut:])
        if index.close_question(fed) != due:
            return cut, index.close_question(fed), due
    return tuple(due)


def written_parts():
    yield "index", index.index_bytes(index.index_of(REPAIRS)), INDEX
    yield "clean", index.index_of([0, 0, 0]), []
    yield "entries", index.entries_of(INDEX), [(1, 1), (3, 2)]
    yield "not whole", index.entries_of(INDEX[:-1]), [(1, 1)]
    yield "high numbers", index.entry_bytes(Entry(0x0A0B0C0D, 0x102)).hex(), "0d0c0b0a0201"
    yield "low bits put", index.put_entry(Entry(1, 65_537), bytes(6)), (0, 0, INDEX[:6])
    yield "no room", index.put_entry(Entry(1, 1), b"\7" * 7), (3, 0, b"\7" * 7)
    yield "trailer", index.trailer_bytes(13_824, 2, 4), TRAILER_BYTES
    yield "trailer told", index.trailer_of(TRAILER_BYTES), (13_824, 2, 4)
    yield "no trailer", [index.trailer_of(bytes([7] * n)) for n in (15, 17)], [(0, 0, 0)] * 2
    high = Trailer(Wide(2**56 + 2), 3, 2**24)
    put = "0200000000000001 03000000 00000001".replace(" ", "")
    yield "trailer put", index.put_trailer(high, bytes(16)), (0, 0, bytes.fromhex(put))
    yield "no room for a trailer", index.put_trailer(high, b""), (3, 0, b"")


def asked_ranges():
    for a, b, clean in (
        (0, 0, 1), (1, 1, 0), (2, 2, 1), (3, 3, 0), (0, 1, 0), (1, 2, 0), (2, 3, 0), (0, 3, 0),
    ):  # fmt: skip
        yield f"{a} to {b}", asked(a, b), (0, 0, clean)
    for a, b in ((1, 0), (3, 2), (0, 4), (4, 4), (4, 0), (0, 2**32 - 1), (2**32 - 1, 0)):
        yield f"no lines {a} to {b}", asked(a, b), (20, 0, 0)
    empty = {"trailer": bytes(16), "entries": b"", "length": 16}
    for a, b in product(range(3), repeat=2):
        yield f"{a} to {b} of none", asked(a, b, **empty), (20, 0, 0)


def asked_parts():
    """What refuses, in the order 1, 2, 19, 20."""
    short = {"length": LENGTH - 1}
    for name, numbers, due in (
        ("no system", {"system": 626, "start": 0, **short}, 1),
        ("no line", {"start": 0, **short}, 2),
        ("no line of 625", {"start": 626}, 2),
        ("a byte short", short, 19),
        ("a byte long", {"length": LENGTH + 1}, 19),
        ("lines of 525", {"system": 525}, 19),
        ("fifteen bytes", {"trailer": TRAILER_BYTES[1:]}, 19),
        ("seventeen bytes", {"trailer": TRAILER_BYTES + b"\0"}, 19),
        ("2^32 more", {"trailer": TRAILER_BYTES[:4] + b"\1" + TRAILER_BYTES[5:]}, 19),
        ("2^63 more", {"trailer": TRAILER_BYTES[:7] + b"\x80" + TRAILER_BYTES[8:]}, 19),
        ("three entries", {"trailer": TRAILER_BYTES[:8] + b"\3" + TRAILER_BYTES[9:]}, 19),
        ("five lines", {"trailer": TRAILER_BYTES[:12] + b"\5" + TRAILER_BYTES[13:]}, 19),
        ("half an entry", {"entries": INDEX[:9], "length": LENGTH - 3}, 19),
    ):
        yield name, asked(0, 0, **numbers), (due, 0, 0)
        yield f"{name}, and no range", asked(1, 0, **numbers), (due, 0, 0)
    for lines, due in ((10_000_000, 0), (10_000_001, 19)):
        parts = index.trailer_bytes(lines * 3_456, 0, lines), b"", lines * 3_456 + 16
        yield f"{lines} lines", tuple(index.ask(625, 1, *parts, 0, 9)), (due, 0, int(not due))
    # 5,000,000 lines of 525 have 3995098112 + 3 * 2^32 bytes.
    low = index.trailer_bytes(4_275_065_408, 0, 5_000_000)
    for length in (17_160_000_016, 4_275_065_424):
        yield f"32 bits, {length}", tuple(index.ask(525, 1, low, b"", length, 0, 9)), (19, 0, 0)


def asked_entries():
    for name, entries, due in (
        ("right", [(0, 1), (3, 2)], 0),
        ("equal", [(1, 1), (1, 1)], 19),
        ("falling", [(3, 2), (1, 1)], 19),
        ("falling behind an equal", [(2, 2), (2, 1)], 19),
        ("not below lines", [(1, 1), (4, 1)], 19),
        ("no repairs", [(1, 0), (3, 2)], 19),
        ("three repairs", [(1, 1), (3, 3)], 19),
        ("256 repairs", [(1, 256), (3, 2)], 19),
        ("257 repairs", [(1, 257), (3, 2)], 19),
        ("258 repairs", [(1, 1), (3, 258)], 19),
    ):
        entries = index.index_bytes([Entry(*pair) for pair in entries])
        yield name, asked(2, 2, entries=entries), (due, 0, int(not due))
        yield f"{name}, and no range", asked(2, 1, entries=entries), (due or 20, 0, 0)


def questions():
    """Questions in any state."""
    begun = index.begin_question(625, 1, TRAILER_BYTES, LENGTH, 2, 2)
    held = (0, 0, 0, 0, 0)
    yield "begun", begun, Question(625, 1, 4, 2, 2, 12, 0, held, 0, 0, 0)
    fed = index.feed(begun, b"\1\2")
    yield "two bytes", fed, begun._replace(left=10, place=2, held=(0, 0, 0, 1, 2))
    entered = index.feed(begun, INDEX[:6])
    yield "an entry", entered, begun._replace(left=6, least=2)
    yield "not at its end", index.question_refusal(entered), (19, 0)
    yield "not at its end, closed", index.close_question(entered), (19, 0, 0)
    ended = index.feed(begun, INDEX)
    yield "at its end", index.question_refusal(ended), (0, 0)
    yield "a byte more", index.feed(ended, b"\0"), ended._replace(wrong=1)
    late = begun._replace(place=9, held=(2, 0, 0, 0, 1))
    yield "beyond an entry", index.feed(late, b"\0"), begun._replace(left=11, least=3, unclean=1)
    wrong = index.begin_question(0, 1, TRAILER_BYTES[1:], 5, 7, 8)
    yield "no trailer", wrong, Question(0, 1, 0, 7, 8, 0, 0, held, 0, 0, 1)


def finishings():
    """Lines in steps, by the room for their entries."""
    run = finished.fresh_run(625, 22)
    yield "fresh", run, Run(625, 22, Walk(625, 22, 0, 0), 0, 0)
    yield "no system", finished.fresh_run(626, 0), Run(626, 0, Walk(0, 0, 0, 0), 1, 0)
    begun, data = finished.finishing_of(run), DAMAGED[4:]
    one = Finishing(run._replace(walk=Walk(625, 23, 1, 1, 0, 1)), 1)
    two = Finishing(run._replace(walk=Walk(625, 24, 2, 1, 1, 1)), 1)
    entry = bytes(4) + b"\1\0"
    for size, due in (
        (0, (begun, 0, 0, b"")),
        (5, (begun, 0, 0, bytes([9] * 5))),
        (6, (one, 3_456, 6, entry)),
        (7, (one, 3_456, 6, entry + b"\t")),
        (12, (two, 6_912, 6, entry + bytes([9] * 6))),
    ):
        yield f"room {size}", finished.follow(begun, data, bytes([9] * size)), due
    yield "short", finished.follow(begun, data[:3_455], bytes(6)), (begun, 0, 0, bytes(6))
    yield "closed", finished.close(begun, data[:3_455]).run[3:], (3, 0)
    yield "trailer", finished.trailer_behind(two), (6_912, 1, 2)
    full = Finishing(run._replace(walk=Walk(625, 22, 10_000_000, 0)), 7)
    refused = full._replace(run=full.run._replace(number=4))
    yield "counted out", finished.follow(full, data, bytes(6)), (refused, 0, 0, bytes(6))
    yield "trailer of many", finished.trailer_behind(full), (34_560_000_000, 7, 10_000_000)
    many = begun._replace(entries=2**32 - 1)
    yield "over 32 bits", finished.follow(many, data, bytes(6))[0].entries, 0


def meetings():
    first, other = INDEX[:6], bytes.fromhex("01000000 0200")
    for name, ours, theirs, due in (
        ("same", INDEX, INDEX, (0, 0)),
        ("none", b"", b"", (0, 0)),
        ("more of the lines", INDEX, first, (1, 3)),
        ("more in the file", first, INDEX, (1, 3)),
        ("one left out", INDEX, INDEX[6:], (1, 1)),
        ("other repairs", INDEX, other + INDEX[6:], (1, 1)),
        ("not whole", INDEX + b"\1", INDEX, (0, 0)),
    ):
        yield name, finished.meet(Meeting(0, 0), ours, theirs), due
        yield f"{name}, after one", finished.meet(Meeting(1, 9), ours, theirs), (1, 9)
    run = finished.fresh_run(625, 22)
    yield "theirs", finished.is_theirs(run, Meeting(0, 0)), 1
    yield "not theirs", finished.is_theirs(run, Meeting(1, 0)), 0
    yield "refused", finished.is_theirs(run._replace(number=9), Meeting(0, 0)), 0


def whole_files():
    """Files of two lines: what finishing writes is what the full check accepts."""
    yield "clean", finished.finish(TWO_LINES)[1], CLEAN_FILE
    yield "repaired", finished.finish(DAMAGED)[1], ONE_FILE
    yield "no lines", finished.finish(TWO_LINES[:4])[1], bytes(16)
    yield "refused", finished.finish(TWO_LINES[:-1])[1], None
    for name, file in (("clean", CLEAN_FILE), ("repaired", ONE_FILE)):
        checked = finished.check(625, 22, file)
        yield f"{name} checked", (checked.refusal, checked.is_theirs), (None, True)
    yield "back", finished.unfinish(625, 22, ONE_FILE), (None, DAMAGED)
    without = DAMAGED[4:] + CLEAN_END
    for name, file, due in (
        ("entry left out", without, 0),
        ("entry too many", TWO_LINES[4:] + ONE_FILE[6_912:], 0),
        ("another line's", ONE_FILE[:6_912] + b"\1" + ONE_FILE[6_913:], 0),
        ("two repairs", ONE_FILE[:6_916] + b"\2" + ONE_FILE[6_917:], 0),
    ):
        checked = finished.check(625, 22, file)
        yield name, (checked.is_theirs, checked.differs_at), (False, due)
    checked = finished.check(625, 23, CLEAN_FILE)
    yield "another start", (checked.is_theirs, checked.reading.run[2:]), (
        False, (Walk(625, 23, 0, 0), 9, 3),
    )  # fmt: skip
    for name, entries, due in (
        ("none of it", [], None),
        ("the refused line's", [Entry(1, 2)], None),
        ("an accepted line's", [Entry(0, 1)], 0),
    ):
        bad = finished_cases.with_entries(two_lines_with(1, 0, 1_024)[4:] + CLEAN_END, 625, entries)
        checked = finished.check(625, 22, bad)
        got = checked.reading.run.number, checked.is_theirs, checked.differs_at
        yield f"refused, with {name}", got, (5, False, due)
    yield "lines of 525", finished.check(525, 22, CLEAN_FILE).refusal, (19, 0)
    yield "no file", finished.check(625, 22, b"").refusal, (19, 0)


def clean_by_reading(file, a, b):
    """Whether lines are all clean, by reading every line of a finished file."""
    reading = finished.read_lines(finished.fresh_run(625, 22), finished.parts_of(file).lines)
    return int(not any(reading.repairs[a : b + 1]))


def promised():
    """The answer from trailer and index equals the one from reading every line."""
    for name, file in (("clean", CLEAN_FILE), ("repaired", ONE_FILE)):
        for a, b in ((0, 0), (0, 1), (1, 1)):
            due = Asked(0, 0, clean_by_reading(file, a, b))
            yield f"{name}, {a} to {b}", finished.ask(625, 22, file, a, b), due


def commands():
    bad, odd = two_lines_with(1, 0, 1_024), two_lines_with(1, 3, 1_023)
    files = {"r": DAMAGED, "f": ONE_FILE, "c": CLEAN_FILE, "d": FOLDER, "s": ONE_FILE[1:]}
    files |= {"o": odd, "h": odd[4:] + CLEAN_END}
    for words, output, errors, status in (
        ("ask f 625 22 1 1", "lines 1 to 1: all clean", "", 0),
        ("ask f 625 22 0 1", "lines 0 to 1: not all clean", "", 1),
        ("ask f 625 22 0 2", "", "ask: f: refused 20: the file has not these lines", 2),
        ("ask s 625 22 1 0", "", f"ask: s: refused 19: {BAD_PARTS}", 2),
        ("ask f 5 22 0 0", "", "ask: f: refused 1: the system is neither 525 nor 625", 2),
        ("ask f 625 0 0 0", "", "ask: f: refused 2: the start line is not one of the system", 2),
        ("ask d 625 22 0 0", "", "ask: d could not be read: REASON", 2),
        (
            "check f 625 22",
            "LINES 2 UNCLEAN 1: all lines are accepted and the index is theirs", "", 0,
        ),
        (
            "check c 625 22",
            "LINES 2 UNCLEAN 0: all lines are accepted and the index is theirs", "", 0,
        ),
        ("check c 625 23", "ordinal 0: line 23 refused 9, place 3", "", 1),
        ("check h 625 22", "ordinal 1: line 23 refused 14, place 3", "", 1),
        ("check s 625 22", "", f"check: s: refused 19: {BAD_PARTS}", 2),
        ("check none 625 22", "", "check: none could not be read: REASON", 2),
        ("unfinish s 625 22", "", f"unfinish: s: refused 19: {BAD_PARTS}", 2),
        ("finish r f", "", "finish: f is there already: remove it, or name another file", 2),
        ("finish r d", "", "finish: d is there already: remove it, or name another file", 2),
        ("finish r x/y", "", "finish: x/y could not be made: REASON", 2),
        ("finish none x", "", "finish: none could not be read: REASON", 2),
        (
            "finish o x", "",
            "finish: o: refused 14, line 23, place 3: a timing code has no legal code within "
            "one inverted bit, and an odd number of ones", 1,
        ),
    ):  # fmt: skip
        said = [text(line) if line else b"" for line in (output, errors)]
        yield words, answer(words.split(), b"", files), Answer(*said, status, files)
    said = text("SYSTEM 625 START 22 LINES 2 UNCLEAN 1")
    yield "finish", answer(["finish", "x"], DAMAGED), Answer(said, b"", 0, {"x": ONE_FILE})
    due = Answer(said, b"", 0, {**files, "x": ONE_FILE})
    yield "finish a file", answer(["finish", "r", "x"], b"", files), due
    said = text("finish: r: refused 5, line 23, place 0: a word is over 1023")
    due = Answer(b"", said, 1, {"r": bad})
    yield "refused", answer(["finish", "r", "x"], b"", {"r": bad}), due
    yield "back", answer(["unfinish", "f", "625", "22"], b"", files), Answer(DAMAGED, b"", 0, files)
    other = {"f": DAMAGED[4:] + CLEAN_END}
    due = Answer(text("ordinal 0: the index differs"), b"", 1, other)
    yield "differs", answer(["check", "f", "625", "22"], b"", other), due


# Families of few or small cases.
FAMILIES = (
    index_cases.every_range,
    index_cases.ranges_at_the_limit,
    index_cases.wrong_entries,
    index_cases.wrong_parts,
    index_cases.most_lines,
    index_cases.names_first,
    index_cases.every_cutting,
    index_cases.any_questions,
    finishing_cases.every_repair,
    finishing_cases.refused_finishes,
    finishing_cases.met_indices,
)
COMMAND_FAMILIES = (
    finished_cases.finished_recordings,
    finished_cases.asked_ranges,
    finished_cases.asked_files,
    finished_cases.checked_files,
)

# The right functions, of which the wrong ones make use.
IS_ENTRY, LINE_ENTRIES, INDEX_OF = index.is_entry, finished.line_entries, index.index_of
TRAILER_FITS, TRAILER_OF, WITH_BYTE = index.trailer_fits, index.trailer_of, index.with_byte


def equal_ordinals(least, lines, entry):
    return IS_ENTRY(max(least - 1, 0), lines, entry)


def up_to_lines(least, lines, entry):
    return IS_ENTRY(least, lines + 1, entry)


def low_repairs(least, lines, entry):
    return IS_ENTRY(least, lines, entry._replace(repairs=entry.repairs % 256))


def b_excluded(a, b, entry):
    return a <= entry.ordinal < b


def offset_of_32_bits(system, trailer, length):
    offset, *rest = TRAILER_OF(trailer)
    size = judge.line_size(judge.system_of(system))
    if len(trailer) != TRAILER.size or offset % 2**32 != rest[1] * size % 2**32:
        return False
    moved = rest[1] * size - offset
    right = index.trailer_bytes(rest[1] * size, *rest)
    return TRAILER_FITS(system, right, length + moved)


def sums_of_32_bits(system, trailer, length):
    offset, entries, lines = TRAILER_OF(trailer)
    size = judge.line_size(judge.system_of(system))
    sums = offset - lines * size, offset + ENTRY.size * entries + TRAILER.size - length
    return len(trailer) == TRAILER.size and not any(more % 2**32 for more in sums)


def any_trailer(system, trailer, length):
    return TRAILER_FITS(system, trailer[: TRAILER.size], length)


def range_first(system, start, trailer, entries, length, a, b):
    named = judge.line_number_refusal(system, start)
    named = named or index.range_refusal(TRAILER_OF(trailer).lines, a, b)
    return named or index.parts_refusal(system, start, trailer, entries, length)


def range_closed_first(asked):
    named = judge.line_number_refusal(asked.system, asked.start)
    named = named or index.range_refusal(asked.lines, asked.a, asked.b)
    return named or index.open_refusal(asked)


def whole_is_clean(lines, a, b):
    return None if a <= b < lines or lines == a == b == 0 else (index.BAD_RANGE, 0)


def bytes_dropped(asked, byte):
    return WITH_BYTE(asked, byte) if asked.left else asked


def one_repair_only(walk, judgement):
    return [entry for entry in LINE_ENTRIES(walk, judgement) if entry.repairs == 1]


def ordinals_from_1(walk, judgement):
    return LINE_ENTRIES(walk._replace(lines_read=walk.lines_read + 1), judgement)


def one_repair_indexed(repairs):
    return [entry for entry in INDEX_OF(repairs) if entry.repairs == 1]


def first_of_the_lines(ours, theirs):
    """Where the entries of the lines differ, as if the index had none between them."""
    for our, their in zip(ours, theirs):
        if our != their:
            return Meeting(1, our.ordinal)
    longer = max(ours, theirs, key=len)[min(len(ours), len(theirs)) :]
    return Meeting(1, longer[0].ordinal) if longer else finished.SAME


# What is wrong, and the function of the model that is replaced.
WRONG_MODELS = (
    ("equal ordinals are let through", index, "is_entry", equal_ordinals),
    ("an ordinal may be as high as lines", index, "is_entry", up_to_lines),
    ("repairs have eight bits", index, "is_entry", low_repairs),
    ("three codes may be repaired", index, "REPAIRS", (1, 2, 3)),
    ("no code need be repaired", index, "REPAIRS", (0, 1, 2)),
    ("b is excluded", index, "is_asked", b_excluded),
    ("the offset has 32 bits", index, "trailer_fits", offset_of_32_bits),
    ("all sums have 32 bits", index, "trailer_fits", sums_of_32_bits),
    ("a trailer may be longer", index, "trailer_fits", any_trailer),
    ("a line more may be there", index, "LINES_LIMIT", judge.LINES_LIMIT + 1),
    ("20 comes before 19", index, "ask_refusal", range_first),
    ("20 comes before 19 in steps", index, "close_refusal", range_closed_first),
    ("no lines are all clean", index, "range_refusal", whole_is_clean),
    ("bytes too many are dropped", index, "with_byte", bytes_dropped),
    ("a line with two repairs is left out", finished, "line_entries", one_repair_only),
    ("ordinals count from 1", finished, "line_entries", ordinals_from_1),
    ("only the lines' entries differ", finished, "differing", first_of_the_lines),
)
WRONG_COMMANDS = (
    ("equal ordinals are let through", index, "is_entry", equal_ordinals),
    ("b is excluded", index, "is_asked", b_excluded),
    ("all sums have 32 bits", index, "trailer_fits", sums_of_32_bits),
    ("20 comes before 19", index, "ask_refusal", range_first),
    ("a line with two repairs is left out", index, "index_of", one_repair_indexed),
    ("not all clean is no status", retention, "STOPPED", 0),
    ("any index is theirs", finished, "different_ordinals", lambda repairs, entries: []),
)


def wrong_finishes():
    return noticed_answers(WRONG_MODELS, FAMILIES, Choice(first=150, step=5))


def wrong_retention():
    return noticed_commands(WRONG_COMMANDS, finished_cases, COMMAND_FAMILIES)


GROUPS = (
    written_parts,
    asked_ranges,
    asked_parts,
    asked_entries,
    questions,
    finishings,
    meetings,
    whole_files,
    promised,
    commands,
    wrong_finishes,
    wrong_retention,
)
