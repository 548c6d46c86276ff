"""Wrong models of packets, V's fall, the tally and timing codes: cases must notice each.

They are errors that one is drawn to.
"""

from functools import lru_cache
from itertools import chain, cycle, product
from unittest.mock import patch

from independent import call_cases, camera_cases, caption_cases, captions, command, fall_cases
from independent import hopeless_cases, judge, kinds, packet_cases, packets, pattern_cases
from independent import programme, protocol, ready_cases, runs, tally_cases, tapes
from independent.captions import HEAD
from independent.cases import cases, every_word
from independent.command import Extracting
from independent.compare import ALL, SEED
from independent.edges import FALLS, HIGHEST
from independent.entries import Entries
from independent.judge import TABLE_FALL, PacketWords, Walk
from independent.material import Choice, Source
from independent.packets import COUNT, LEAST_WORDS, START, Space
from independent.programme import Recorder
from independent.recordings import confirm
from independent.words import ACCEPTED, BAD_PARITY, HOPELESS_EVEN, HOPELESS_ODD, NOT_DUE
from independent.words import NO_FILL, OVER_A_WORD, PAST_THE_SPACE, RESERVED, WRONG_COUNTS
from independent.words import WRONG_LENGTH, first_fault, over_number

# Families of few or small cases.
FAMILIES = (
    packet_cases.every_end,
    packet_cases.words_changed,
    packet_cases.every_header_word,
    packet_cases.every_checksum,
    packet_cases.packet_starts,
    packet_cases.any_spaces,
    packet_cases.captions_behind_fill,
    packet_cases.captioned_walks,
    ready_cases.ready_words_behind,
    ready_cases.ready_lengths,
    ready_cases.refusals_at_once,
)

# Families of cases that case_of makes, each of one call of the command.
COMMAND_FAMILIES = (
    caption_cases.extracted_folders,
    caption_cases.entries_not_rising,
    caption_cases.entries_cut_late,
    caption_cases.entries_refused,
    caption_cases.captions_without_rows,
    caption_cases.captions_into,
)

# The same of V's fall.
FALL_FAMILIES = (
    fall_cases.either_v,
    fall_cases.either_v_of_625,
    fall_cases.one_bit_inverted,
    fall_cases.another_code,
    fall_cases.falls_by_number,
    fall_cases.due_by_words,
    fall_cases.written_by_fall,
    fall_cases.tapes_by_fall,
    ready_cases.refusals_at_once,
)
CAMERA_FAMILIES = (
    camera_cases.recorded_falls,
    camera_cases.falls_of_625,
    camera_cases.falls_refused,
    camera_cases.read_falls,
)

# The same of the tally.
TALLY_FAMILIES = (
    tally_cases.tallies_by_field,
    tally_cases.tallies_by_v,
    tally_cases.tallies_standing,
    tally_cases.tallies_refused,
    tally_cases.tallies_moved,
    tally_cases.tallies_over_32_bits,
    tally_cases.tallies_recorded,
    tally_cases.tallies_on_tapes,
)

# Families of words that are corrected, and of lines with one and two hopeless codes.
WORD_FAMILIES = (every_word, call_cases.expected_words)
LINE_FAMILIES = (hopeless_cases.hopeless_codes,)
PAIR_FAMILIES = (hopeless_cases.hopeless_in_both,)

# How many cases of each family are tried; where fourteen calls take turns, some of each.
FEW = Choice(first=20, step=7)
OF_EACH_CALL = Choice(first=0, step=5)

# The right functions, of which the wrong ones make use.
CHECKSUM, FILL_FAULT, JUDGE_SPACE = packets.checksum, packets.fill_fault, packets.judge_space
READY_FAULT, SPACES = packets.ready_fault, judge.spaces
READY_REFUSAL, RECORD_REFUSAL = judge.ready_refusal, tapes.record_refusal
IS_ENTRY, READY_FOR, END_FRAME = captions.is_entry, Entries.ready_for, Recorder.end_frame
BEGIN_PIECE, PUT_ENTRIES = Recorder.begin_piece, Recorder.put_entries
WRITE_PICTURE, WRITE_PACKETS = Extracting.write_picture, Extracting.write_packets
MOVED, REFUSED, VS_DUE, IS_FALL = judge.moved, judge.refused, judge.vs_due, judge.is_fall
DUE_WRITTEN, TURNED, BEGIN = tapes.due_written, tapes.turned, programme.begin
BEGINS_FIELD, TALLY_AFTER, REPAIRS = judge.begins_field, judge.tally_after, judge.repairs
WALK_REFUSAL, COUNTS_REFUSAL = judge.walk_refusal, judge.counts_refusal
JUDGED, CAPTURE_JUDGE, NO_WALK = judge.judged, judge.capture_judge, judge.NO_WALK
HOPELESS_NUMBER, FOURTH_WORD_NUMBER = judge.hopeless_number, judge.fourth_word_number
NUMBER_WHERE, CORRECT = judge.number_where, judge.correct


def eight_bit_checksum(words):
    return 512 | sum(words) % 256


def bit_9_as_bit_8(words):
    low = sum(words) % 512
    return low >> 8 << 9 | low


def nine_bit_parity(word):
    return over_number(word) or (word & 511).bit_count() % 2 * BAD_PARITY


def ten_bit_parity(word):
    return over_number(word) or word.bit_count() % 2 * BAD_PARITY


def low_bits_ignored(words, at, end):
    first = [word >> 2 for word in words[at : at + len(START)]]
    return end - at >= LEAST_WORDS and first == [0, 255, 255]


def starts_with(least):
    """A packet may start where so many words are left."""
    return lambda words, at, end: end - at >= least and words[at : at + len(START)] == START


def past_before_parity(words, at, end):
    past = PAST_THE_SPACE if packets.packet_end(words, at) > end else 0
    return past or packets.header_number(words[at + COUNT])


def ten_bit_count(words, at):
    return at + LEAST_WORDS + words[at + COUNT]


def few_reserved(word):
    return over_number(word) or (RESERVED if word in (0, 1023) else 0)


def fill_by_packet(words, start, end, even, odd):
    return first_fault(map(packets.fill_number, words[start:end], cycle((even, odd))), start)


def fill_then_packets(words, start, end, even, odd):
    late = (at for at in range(start, end) if packets.starts_packet(words, at, end))
    return FILL_FAULT(words, start, next(late, end), even, odd)


def always_counted(fault, packet_words):
    return Space(*(fault or ACCEPTED), packet_words)


def packets_with_any_v(due):
    return SPACES(due._replace(v=1))


def no_active_packets(due):
    between, (active, _) = SPACES(due)
    return between, (active, active)


def ready_with_fill(ready, start):
    words = [0] * start + ready
    answer = JUDGE_SPACE(words, start, len(words), *judge.FILL)
    return answer[:2] if answer.number else None


def ready_places_from_0(ready, start):
    return READY_FAULT(ready, 0)


def ready_never_over(ready, start):
    number, place = READY_FAULT(ready, start) or ACCEPTED
    return number and (NO_FILL if number == OVER_A_WORD else number, place)


def samples_first(due, part, *ready):
    outside = None if due.v else judge.sample_refusal(part)
    return outside or READY_REFUSAL(due, *ready)


def ready_faults(due, ready):
    """What refuses the ready words of each space."""
    return [READY_FAULT(words, start) for (start, _), words in zip(SPACES(due), ready)]


def faults_before_lengths(due, *ready):
    between, active = ready_faults(due, ready)
    return between or active or judge.ready_length_refusal(due, *ready)


def active_faults_first(due, *ready):
    between, active = ready_faults(due, ready)
    return judge.ready_length_refusal(due, *ready) or active or between


def active_length_first(due, *ready):
    for place, ((start, end), words) in reversed([*enumerate(zip(SPACES(due), ready), 4)]):
        if len(words) > end - start:
            return (WRONG_LENGTH, place)
    return None


def packets_before_row(walk, fall, row, between, active, line):
    refusal = tapes.written_walk_refusal(walk, fall) or judge.bytes_refusal(walk.system, line)
    refusal = refusal or READY_REFUSAL(tapes.due_written(walk, fall), between, active)
    return refusal or RECORD_REFUSAL(walk, fall, row, between, active, line)


# What is wrong, and the function of the model that is replaced.
WRONG_MODELS = (
    ("the checksum has eight bits", packets, "checksum", eight_bit_checksum),
    ("the checksum's bit 9 is bit 8", packets, "checksum", bit_9_as_bit_8),
    ("the first words are summed", packets, "checksum", lambda words: CHECKSUM(START + words)),
    ("the identifier is not summed", packets, "checksum", lambda words: CHECKSUM(words[1:])),
    ("the last word is not summed", packets, "checksum", lambda words: CHECKSUM(words[:-1])),
    ("bit 9 of header words is ignored", packets, "header_number", nine_bit_parity),
    ("parity is that of ten bits", packets, "header_number", ten_bit_parity),
    ("low bits of the first words are ignored", packets, "starts_packet", low_bits_ignored),
    ("six words are enough", packets, "starts_packet", starts_with(6)),
    ("eight words are needed", packets, "starts_packet", starts_with(8)),
    ("17 comes before 15", packets, "count_number", past_before_parity),
    ("the count has ten bits", packets, "packet_end", ten_bit_count),
    ("only 0 and 1023 are reserved", packets, "user_number", few_reserved),
    ("5 is not told in packets", packets, "over_number", lambda word: 0),
    ("fill begins behind the packets", packets, "fill_fault", fill_by_packet),
    ("packets may stand behind fill", packets, "fill_fault", fill_then_packets),
    ("a refused space has packets", packets, "answered", always_counted),
    ("a refused line has packets", judge, "NO_PACKETS", PacketWords(7, 7)),
    ("V = 0 lines have packets for samples", judge, "spaces", packets_with_any_v),
    ("V = 1 lines have none in the active part", judge, "spaces", no_active_packets),
    ("ready fill is taken", judge, "ready_fault", ready_with_fill),
    ("ready words have places of their own", judge, "ready_fault", ready_places_from_0),
    ("5 is not told of ready words", judge, "ready_fault", ready_never_over),
    ("12 comes before packets", judge, "written_refusal", samples_first),
    ("words come before lengths", judge, "ready_refusal", faults_before_lengths),
    ("the active part comes first", judge, "ready_refusal", active_faults_first),
    ("place 5 comes before 4", judge, "ready_length_refusal", active_length_first),
    ("packets come before the row", tapes, "record_refusal", packets_before_row),
)


def drop_entries(recorder):
    while recorder.entries.are_left() and recorder.goes_on():
        recorder.put_line()


def end_frame_again(recorder):
    PUT_ENTRIES(recorder)
    END_FRAME(recorder)


def begin_piece_anew(recorder):
    BEGIN_PIECE(recorder)
    recorder.ordinal = programme.FIRST_ORDINAL


def write_picture_anew(reader, data):
    reader.ordinal = command.FIRST_ORDINAL
    WRITE_PICTURE(reader, data)


def any_order(least, entry):
    return IS_ENTRY(0, entry)


def words_as_far_as_there(entries, ordinal, space):
    if entries.entry is None or entries.entry[:2] != (ordinal, space):
        return []
    start = entries.at + HEAD.size
    entries.at = start + 2 * entries.entry.words
    words = entries.data[start : entries.at]
    entries.look()
    return judge.words_of(words[: len(words) // 2 * 2])


def as_many_as_entries(entries):
    return entries.entry is not None


def refused_early(entries, ordinal):
    ready = READY_FOR(entries, ordinal)
    if entries.are_left() and entries.entry is None:
        entries.refuse()
    return ready


def count_spaces(reader, ordinal, line, spaces):
    WRITE_PACKETS(reader, ordinal, line, spaces)
    reader.captioned_lines += all(spaces)


# The same of the command.
WRONG_COMMANDS = (
    ("packets behind the last row are dropped", Recorder, "put_entries", lambda recorder: None),
    ("packets for no line are dropped", Recorder, "put_entries", drop_entries),
    ("lines for packets end their frame", Recorder, "put_entries", end_frame_again),
    ("the first line written is 1", programme, "FIRST_ORDINAL", 1),
    ("the first line read is 1", command, "FIRST_ORDINAL", 1),
    ("each recording written counts anew", Recorder, "begin_piece", begin_piece_anew),
    ("each recording read counts anew", Extracting, "write_picture", write_picture_anew),
    ("entries need not rise", captions, "is_entry", any_order),
    ("words may be cut", Entries, "words_for", words_as_far_as_there),
    ("a file ends where no entry is", Entries, "are_left", as_many_as_entries),
    ("no entry behind a line's refuses that line", Entries, "ready_for", refused_early),
    ("spaces are counted and not lines", Extracting, "write_packets", count_spaces),
)


def looked_at_first(walk):
    return (0,) if walk.fallen and 0 in VS_DUE(walk) else VS_DUE(walk)


def never_looked_at(walk):
    return VS_DUE(walk._replace(fallen=0))


def one_is_yes(walk):
    return VS_DUE(walk._replace(fallen=int(walk.fallen == 1)))


def looked_at_late(walk):
    return VS_DUE(walk) if walk.fallen or walk.line not in (20, 283) else (0, 1)


def due_by_sav(walk, words):
    _, sav = judge.fourth_offsets(walk.system)
    return judge.walk_due(walk, words[sav])


def v_as_read(fourth):
    return fourth >> 7 & 1


def moved_by_f(walk, due, report):
    return MOVED(walk, due, report)._replace(fallen=1 - due.f)


def moved_by_table(walk, due, report):
    return MOVED(walk, due, report)._replace(fallen=1 - judge.table_v(due.system, walk.line))


def moved_for_good(walk, due, report):
    return MOVED(walk, due, report)._replace(fallen=walk.fallen or 1 - due.v)


def refused_fresh(walk, number, place):
    return REFUSED(walk._replace(fallen=0), number, place)


def refused_as_bit(walk, number, place):
    return REFUSED(walk._replace(fallen=int(walk.fallen > 0)), number, place)


def recorded_by_record(walk, fall):
    due = DUE_WRITTEN(walk, fall)
    return due._replace(v=0) if walk.fallen and 0 in VS_DUE(walk) else due


def counts_before_fall(walk, fall):
    return judge.walk_refusal(walk) or judge.numbers_refusal(*walk[:2], fall)


WRONG_FALLS = (
    ("the record is looked at on line 10", judge, "vs_due", looked_at_first),
    ("the record is looked at on line 20", judge, "vs_due", looked_at_late),
    ("V may rise again", judge, "vs_due", never_looked_at),
    ("only 1 is yes", judge, "vs_due", one_is_yes),
    ("the SAV's V decides", judge, "due_in", due_by_sav),
    ("the V that is read decides", judge, "v_told", v_as_read),
    ("the record is of F", judge, "moved", moved_by_f),
    ("the record is of the table's V", judge, "moved", moved_by_table),
    ("the record stays yes", judge, "moved", moved_for_good),
    ("a refusal forgets the record", judge, "refused", refused_fresh),
    ("a refusal hands back 1 for yes", judge, "refused", refused_as_bit),
    ("V may fall at line 21", judge, "is_fall", lambda *told: IS_FALL(*told) or told[1] == 21),
    ("V may fall at line 9", judge, "is_fall", lambda *told: IS_FALL(*told) or told[1] == 9),
    ("625 looks at the fall line", judge, "is_fall", lambda system, fall: fall in FALLS),
    ("the second field falls 262 lines later", judge, "SECOND_FALL", 262),
    ("lines are written by the record", tapes, "due_written", recorded_by_record),
    ("4 comes before the fall line", tapes, "written_walk_refusal", counts_before_fall),
)


def rows_by_table(walk, data):
    return not judge.due_of(walk.system, walk.line).v


def turned_to_table(tape):
    return TURNED(tape)._replace(fall=TABLE_FALL)


def begun_fallen(data):
    run = BEGIN(data)
    return run._replace(walk=run.walk._replace(fallen=1))


def table_rows_text(system, fall):
    return "a frame of 525 has 487 rows, one of 625 has 576"


WRONG_CAMERAS = (
    ("rows go by the table", tapes, "holds_row", rows_by_table),
    ("a next recording has no fall line", programme, "turned", turned_to_table),
    ("a recording begins after V = 0", programme, "begin", begun_fallen),
    ("a frame has as many rows by any fall line", command, "frame_rows_text", table_rows_text),
    ("625 looks at the fall line", judge, "is_fall", lambda system, fall: fall in FALLS),
    ("V may fall at line 21", judge, "is_fall", lambda *told: IS_FALL(*told) or told[1] == 21),
)


def begun_by_v(walk, due):
    return due.v != (0 if walk.fallen else 1)


def begun_by_either(walk, due):
    return BEGINS_FIELD(walk, due) or begun_by_v(walk, due)


def begun_a_line_late(walk, due):
    before = judge.line_before(due.system, walk.line)
    return BEGINS_FIELD(walk._replace(line=before), due)


def begun_a_line_early(walk, due):
    return BEGINS_FIELD(walk._replace(line=judge.next_line(due.system, walk.line)), due)


def begun_by_due(walk, due):
    return due.f != judge.due_f(due.system, judge.line_before(due.system, walk.line))


def begun_by_own_system(walk, due):
    return BEGINS_FIELD(walk, due._replace(system=judge.system_of(walk.system)))


def own_repairs_left_out(walk, due, report):
    return 0 if BEGINS_FIELD(walk, due) else TALLY_AFTER(walk, due, report)


def cleared_behind_field(walk, due, report):
    return 0 if begun_a_line_early(walk, due) else TALLY_AFTER(walk, due, report)


def lines_tallied(walk, due, report):
    before = 0 if BEGINS_FIELD(walk, due) else walk.tally
    return judge.counted(before, min(REPAIRS(report), 1))


def tally_of_all(walk, due, report):
    return judge.counted(walk.repairs, REPAIRS(report))


def tally_that_stops(walk, due, report):
    before = 0 if BEGINS_FIELD(walk, due) else walk.tally
    return min(before + REPAIRS(report), HIGHEST)


def before_line_1_is_0(system, line):
    return max(line - 1, 0)


def refused_if(wrong):
    return (WRONG_COUNTS, 0) if wrong else None


def equal_refused(walk):
    return COUNTS_REFUSAL(walk) or refused_if(walk.tally == walk.repairs > 0)


def over_accepted(walk):
    return COUNTS_REFUSAL(walk._replace(tally=0))


def over_twice_lines(walk):
    return over_accepted(walk) or refused_if(walk.tally > 2 * walk.lines_read)


def tally_before_numbers(walk):
    return refused_if(walk.tally > walk.repairs) or WALK_REFUSAL(walk)


def tally_behind_length(walk, words):
    refusal = WALK_REFUSAL(walk._replace(tally=0)) or judge.words_refusal(walk.system, words)
    refusal = refusal or WALK_REFUSAL(walk)
    return REFUSED(walk, *refusal) if refusal else JUDGED(walk, words)


def recorded_at_any_tally(walk, fall):
    return judge.numbers_refusal(*walk[:2], fall) or over_accepted(walk)


def refused_without_tally(walk, number, place):
    return REFUSED(walk._replace(tally=0), number, place)


def refused_as_moved(walk, number, place):
    if WALK_REFUSAL(walk):
        return REFUSED(walk, number, place)
    due = judge.due_of(walk.system, walk.line)
    return REFUSED(walk._replace(tally=0 if BEGINS_FIELD(walk, due) else walk.tally), number, place)


def turned_with_tally(tape):
    turned = TURNED(tape)
    return turned._replace(walk=turned.walk._replace(tally=tape.walk.tally))


def byte_judge_without_tally(*arguments):
    *numbers, data = arguments
    return CAPTURE_JUDGE(*Walk(*numbers)._replace(tally=0), data)


def kinds_with(kind, call):
    """All kinds, one of them with another call."""
    return {**kinds.KINDS, kind: kinds.KINDS[kind]._replace(call=call)}


WRONG_TALLIES = (
    ("V begins a count", judge, "begins_field", begun_by_v),
    ("F and V begin a count", judge, "begins_field", begun_by_either),
    ("no line begins a count", judge, "begins_field", lambda walk, due: False),
    ("every line begins a count", judge, "begins_field", lambda walk, due: True),
    ("a count begins a line late", judge, "begins_field", begun_a_line_late),
    ("a count begins a line early", judge, "begins_field", begun_a_line_early),
    ("before line 1 comes line 0", judge, "line_before", before_line_1_is_0),
    ("the first line's repairs are left out", judge, "tally_after", own_repairs_left_out),
    ("the tally is cleared behind a field", judge, "tally_after", cleared_behind_field),
    ("lines are tallied and not codes", judge, "tally_after", lines_tallied),
    ("the tally is that of all lines", judge, "tally_after", tally_of_all),
    ("a tally equal to the repairs is refused", judge, "counts_refusal", equal_refused),
    ("a tally over the repairs is taken", judge, "counts_refusal", over_accepted),
    ("only a tally over twice the lines is refused", judge, "counts_refusal", over_twice_lines),
    ("a refusal forgets the tally", judge, "refused", refused_without_tally),
    ("a refused line begins a count", judge, "refused", refused_as_moved),
    ("a walk begins with one repair", judge, "NO_WALK", NO_WALK._replace(tally=1)),
    ("F goes by what was due", judge, "begins_field", begun_by_due),
    ("F goes by the walk's system", judge, "begins_field", begun_by_own_system),
    ("the tally stops at 32 bits", judge, "tally_after", tally_that_stops),
    ("lines are recorded at any tally", tapes, "written_walk_refusal", recorded_at_any_tally),
    (
        "a next recording has the tally of the last",
        kinds, "KINDS", kinds_with(protocol.TURNED, turned_with_tally),
    ),
    (
        "the byte judge is given no tally",
        kinds, "KINDS", kinds_with(protocol.CAPTURE_JUDGE, byte_judge_without_tally),
    ),
)  # fmt: skip

WRONG_ORDERS = (
    ("the tally comes before 1 and 2", judge, "walk_refusal", tally_before_numbers),
    ("the tally comes behind 3", judge, "judged", tally_behind_length),
)

# Those that a few lines in turn show as well.
WRONG_IN_TURN = WRONG_TALLIES[:12]


def odd_and_even_swapped(word):
    return HOPELESS_EVEN if HOPELESS_NUMBER(word) == HOPELESS_ODD else HOPELESS_ODD


def low_bits_counted(word):
    ones = (word & 511).bit_count()
    return HOPELESS_ODD if ones % 2 else HOPELESS_EVEN


def in_place_of_odd(other):
    """A line's number is another where correction answers 14."""

    def line_number(fvh, word):
        number = FOURTH_WORD_NUMBER(fvh, word)
        return other if number == HOPELESS_ODD else number

    return line_number


def last_refusal(due, words, answers):
    return [None, *filter(None, judge.faults_in_turn(due, words, answers))][-1]


WRONG_CODES = (
    ("odd and even are swapped", judge, "hopeless_number", odd_and_even_swapped),
    ("every hopeless code is 14", judge, "hopeless_number", lambda word: HOPELESS_ODD),
    ("every hopeless code is 8", judge, "hopeless_number", lambda word: HOPELESS_EVEN),
    ("ones of the low bits are counted", judge, "hopeless_number", low_bits_counted),
)
WRONG_LINES = (
    ("a line has 8 for 14", judge, "fourth_word_number", in_place_of_odd(HOPELESS_EVEN)),
    ("a line has 9 for 14", judge, "fourth_word_number", in_place_of_odd(NOT_DUE)),
    ("an odd code is taken for the one due", judge, "fourth_word_number", in_place_of_odd(0)),
)
WRONG_PAIRS = (("of two codes SAV's is refused", judge, "line_refusal", last_refusal),)


def one_answer_wrong(fourth):
    """Correction with another V for one pattern, and V = 0 where that is refused."""

    def correct(word):
        tag, fvh, bit, number = CORRECT(word)
        if word & ~3 != fourth:
            return tag, fvh, bit, number
        return (judge.CLEAN, 0, 0, 0) if number else (tag, fvh ^ 2, bit, 0)

    return correct


WRONG_ANSWERS = (
    *(
        (f"{fourth} has another answer", judge, "correct", one_answer_wrong(fourth))
        for fourth in pattern_cases.PATTERNS
    ),
    ("answers are read without H", judge, "correct", lambda word: CORRECT(word & ~64)),
    ("answers are read without P0", judge, "correct", lambda word: CORRECT(word & ~4)),
)


@lru_cache(maxsize=None)
def right_answers(families, choice):
    """Some cases of families, and the answers that are due."""
    chosen = cases(SEED, kinds.KINDS, choice, families)
    return [(case, kinds.answer_parts(case)) for case in chosen]


def question(words, data=b"", files={}, way=None):
    """What a case asks the command."""
    return words, data, files


@lru_cache(maxsize=None)
def right_commands(module, families):
    """What cases of a module's families ask the command, and the answers that are due."""
    with patch.object(module, "case_of", question):
        chosen = [family(Source(SEED, family.__name__)) for family in families]
        questions = list(chain.from_iterable(chosen))
    return [(asked, command.answer(*asked)) for asked in questions]


def own_numbers():
    """The numbers of words kept anew, since those that are kept are of the right model."""
    anew = lru_cache(maxsize=None)(NUMBER_WHERE.__wrapped__)
    return patch.object(judge, "number_where", anew)


def is_noticed(answers, answer, module, name, wrong):
    """Whether any of these is answered otherwise where this stands in the model."""
    with own_numbers(), patch.object(module, name, wrong):
        return any(answer(asked) != due for asked, due in answers)


def noticed_answers(wrong, families, choice=FEW):
    """Whether each wrong model is noticed by cases of families."""
    answers = right_answers(families, choice)
    for sentence, *replaced in wrong:
        yield sentence, is_noticed(answers, kinds.answer_parts, *replaced), True


def by_kind(answers):
    """The answers that tell a number, by their kind."""
    told = {}
    for case, due in answers:
        if case.kind not in kinds.PARTS:
            told.setdefault(case.kind, []).append((case, due))
    return told


def noticed_by_each_kind(wrong, families, choice):
    """Whether each wrong model is noticed by the cases of every kind that tells a number."""
    told = by_kind(right_answers(families, choice))
    for (sentence, *replaced), kind in product(wrong, sorted(told)):
        noticed = is_noticed(told[kind], kinds.answer_parts, *replaced)
        yield f"{sentence}, kind {kind}", noticed, True


def noticed_runs(wrong, family):
    """Whether each wrong model is noticed by the confirming program's runs of a family."""
    outputs = [(data, confirm(data)) for data, _ in family(Source(SEED, family.__name__))]
    for sentence, *replaced in wrong:
        yield sentence, is_noticed(outputs, confirm, *replaced), True


def noticed_commands(wrong, module, families):
    """Whether each wrong model is noticed by what cases of families ask the command."""

    def answer(asked):
        return command.answer(*asked)

    answers = right_commands(module, families)
    for sentence, *replaced in wrong:
        yield sentence, is_noticed(answers, answer, *replaced), True


def wrong_models():
    return noticed_answers(WRONG_MODELS, FAMILIES)


def wrong_commands():
    return noticed_commands(WRONG_COMMANDS, caption_cases, COMMAND_FAMILIES)


def wrong_falls():
    return noticed_answers(WRONG_FALLS, FALL_FAMILIES)


def wrong_cameras():
    return noticed_commands(WRONG_CAMERAS, camera_cases, CAMERA_FAMILIES)


def wrong_tallies():
    return noticed_answers(WRONG_TALLIES, TALLY_FAMILIES)


def wrong_orders():
    return noticed_answers(WRONG_ORDERS, (tally_cases.tallies_in_order,), ALL)


def wrong_in_turn():
    return noticed_answers(WRONG_IN_TURN, (tally_cases.fields_line_by_line,), ALL)


def wrong_codes():
    return noticed_by_each_kind(WRONG_CODES, WORD_FAMILIES, OF_EACH_CALL)


def wrong_codes_in_lines():
    return noticed_by_each_kind(WRONG_CODES + WRONG_LINES, LINE_FAMILIES, OF_EACH_CALL)


def wrong_codes_in_pairs():
    return noticed_by_each_kind(WRONG_PAIRS, PAIR_FAMILIES, OF_EACH_CALL)


def wrong_codes_in_runs():
    return noticed_runs(WRONG_CODES + WRONG_LINES, runs.hopeless_codes)


def wrong_answers():
    return noticed_answers(WRONG_ANSWERS, (pattern_cases.patterns_due,), ALL)


GROUPS = (
    wrong_models,
    wrong_commands,
    wrong_falls,
    wrong_cameras,
    wrong_tallies,
    wrong_orders,
    wrong_in_turn,
    wrong_codes,
    wrong_codes_in_lines,
    wrong_codes_in_pairs,
    wrong_codes_in_runs,
    wrong_answers,
)
