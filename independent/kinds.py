"""The kinds of cases: what each calls, and what the answer tells."""

import struct
from typing import Callable, NamedTuple

from independent import calls, captions, finished, index, judge, packets, protocol, recordings
from independent import rows, tapes, totals


class Kind(NamedTuple):
    """A call of the model, the names of its arguments and of the numbers it answers."""

    call: Callable
    parameters: tuple
    heads: tuple


def active(walk, words):
    return counted(judge.active(walk, words))


def between_packets(walk, words):
    return counted(judge.packets_in(walk, words)[0])


def active_packets(walk, words):
    return counted(judge.packets_in(walk, words)[1])


def counted(part):
    """A part of the caller's line, behind its length."""
    return len(part), part


WALK = judge.Walk._fields
ANSWER = ("number", "place")
CORRECTION = ("tag", "fvh", "bit", "number")
REPORT = ("eav", "eav bit", "sav", "sav bit")
PACKETS = ("between packets", "active packets")
JUDGEMENT = (*ANSWER, *REPORT, *WALK, *PACKETS)
STATE = ("bits", "last")
SAMPLES = ("y", "cb", "cr")
READY = ("between", "active")
WRITTEN = ("system", "line", "fall")
DUE = judge.Due._fields
RUN = ("system", "start", *(f"walk's {name}" for name in WALK), *ANSWER)
OUTCOME = recordings.Outcome._fields
TAPE = (*(f"walk's {name}" for name in WALK), "most", "fall", *ANSWER)


def wide(*names):
    """The names of the two parts of each number of 64 bits."""
    return tuple(f"{name}, {part}" for name in names for part in ("low", "high"))


TOTALS = wide("files", "lines525", "lines625", "repairs", "refused", "unread")
TOLD = ("tag", *wide("count"))
FILLED = (*wide("have"), "done", "failed")

LINES = {
    protocol.CORRECT: Kind(judge.correct, ("word",), CORRECTION),
    protocol.FRESH: Kind(judge.fresh, ("system", "line"), (*ANSWER, *WALK)),
    protocol.TAKE: Kind(judge.take, ("walk", "words", *SAMPLES), ANSWER),
    protocol.ACTIVE: Kind(active, ("walk", "words"), ("count",)),
    protocol.WRITE: Kind(judge.write, (*WRITTEN, *SAMPLES, *READY, "words"), ANSWER),
    protocol.CODE: Kind(judge.code, (*STATE, "words", "out"), (*ANSWER, *STATE)),
    protocol.DECODE: Kind(judge.decode, (*STATE, "words", "out"), (*ANSWER, *STATE)),
    protocol.CAPTURE_CORRECT: Kind(judge.capture_correct, ("word",), ("answer",)),
    protocol.CAPTURE_JUDGE: Kind(judge.capture_judge, (*WALK, "data"), ("answer",)),
}

SHARED = {
    protocol.FOURTH: Kind(calls.fourth, ("fvh",), ("word",)),
    protocol.EXPECTING: Kind(calls.correct_expecting, ("word", "fvh"), CORRECTION),
    protocol.FOURTH_FAULT: Kind(calls.fourth_fault, ("word", "fvh"), ("number",)),
    protocol.CODE_REPORT: Kind(judge.code_report, CORRECTION, ("tag", "bit")),
    protocol.FLAGS: Kind(calls.flags, ("line",), ("525 v", "525 f", "625 v", "625 f")),
    protocol.OWN_FRESH: Kind(judge.fresh, ("system", "start"), (*ANSWER, *WALK)),
    protocol.SYSTEM_OF: Kind(judge.system_of, ("number",), ("system",)),
    protocol.SYSTEM_NAMED: Kind(calls.system_named, ("number",), (*ANSWER, "system")),
    protocol.FIGURES: Kind(calls.figures, ("system",), ("words", "sav", "active", "lines")),
    protocol.SYSTEM_FLAGS: Kind(calls.system_flags, ("system", "line"), ("v", "f", "next line")),
    protocol.REPAIRS: Kind(judge.repairs, ("report",), ("repairs",)),
    protocol.WALK_REFUSAL: Kind(calls.walk_refusal, ("walk",), ANSWER),
    protocol.MOVED: Kind(calls.moved, ("walk", "due", "report"), WALK),
    protocol.NAMED: Kind(calls.named_refusal, ("system", "line"), ANSWER),
    protocol.STANDING: Kind(calls.standing, ("walk", "given", "due"), ANSWER),
    protocol.WRITTEN_REFUSAL: Kind(calls.written_refusal, WRITTEN, ANSWER),
    protocol.V_WRITTEN: Kind(judge.v_written, WRITTEN, ("v",)),
    protocol.DUE_OF: Kind(judge.due_of, WRITTEN, DUE),
    protocol.DUE_FLAGS: Kind(judge.due_flags, ("due", "h"), ("fvh",)),
    protocol.DUE_AT: Kind(calls.due_at, ("due", "offset"), ("what", "value")),
    protocol.BUFFER_REFUSAL: Kind(calls.buffer_refusal, SAMPLES, ANSWER),
    protocol.WALK_DUE: Kind(judge.walk_due, ("walk", "fourth"), DUE),
    protocol.RESERVED: Kind(calls.reserved, ("word",), ("reserved",)),
    protocol.WORD_OF: Kind(
        calls.word_and_pair, ("low", "high", "first", "second"), ("word", "pair")
    ),
    protocol.FIRST_OVER: Kind(calls.first_over, ("words",), ANSWER),
    protocol.REFUSED: Kind(judge.refused, ("walk", *ANSWER), JUDGEMENT),
    protocol.ACCEPTED: Kind(calls.accepted, ("walk", "due", "report", "packets"), JUDGEMENT),
    protocol.JUDGE: Kind(judge.judged, ("walk", "words"), JUDGEMENT),
    protocol.WRITE_LINE: Kind(calls.write_line, ("due", *SAMPLES, *READY, "words"), ANSWER),
    protocol.WRITE_PART: Kind(calls.write_part, ("due", "part", *READY, "words"), ANSWER),
    protocol.BETWEEN_PACKETS: Kind(between_packets, ("walk", "words"), ("count",)),
    protocol.ACTIVE_PACKETS: Kind(active_packets, ("walk", "words"), ("count",)),
    protocol.BYTEWISE_JUDGE: Kind(judge.judge_bytes, ("walk", "data"), JUDGEMENT),
    protocol.TO_WORDS: Kind(calls.to_words, ("data", "words"), ANSWER),
    protocol.TO_BYTES: Kind(calls.to_bytes, ("words", "data"), ANSWER),
    protocol.STATE_FRESH: Kind(calls.fresh_state, (), STATE),
    protocol.REASONED: Kind(calls.reasoned, ("row", "place"), (*ANSWER, "reason's number")),
    protocol.FILL_WORD: Kind(calls.fill_word, ("even", "odd", "offset"), ("word",)),
    protocol.ALL_SAMPLES: Kind(calls.all_samples, ("words",), ("all samples",)),
    protocol.JUDGE_SPACE: Kind(
        packets.judge_space, ("words", "start", "end", "even", "odd"), (*ANSWER, "packets")
    ),
}

PROGRAMMES = {
    protocol.UNPACK: Kind(rows.unpack, ("row", "samples"), ANSWER),
    protocol.PACK: Kind(rows.pack, ("samples", "row"), ANSWER),
    protocol.RECORD: Kind(tapes.record, ("walk", "fall", "row", *READY, "line"), JUDGEMENT),
    protocol.EXTRACT: Kind(tapes.extract, ("walk", "data", "row"), JUDGEMENT),
    protocol.TAKES_ROW: Kind(tapes.takes_row, ("walk", "fall"), ("takes",)),
    protocol.ENDS_FRAME: Kind(tapes.ends_frame, ("walk", "fall"), ("ends",)),
    protocol.PIECE_LINES: Kind(tapes.piece_lines, ("system", "frames"), ("lines",)),
    protocol.ENDS_PIECE: Kind(tapes.ends_piece, ("walk", "most"), ("ends",)),
    protocol.EXTRACT_NEXT: Kind(tapes.extract_next, ("run", "data", "row"), (*RUN, "gives")),
    protocol.TAPE_BEGIN: Kind(tapes.begin_tape, ("system", "start", "most", "fall"), TAPE),
    protocol.TURNS: Kind(tapes.turns, ("tape",), ("turns",)),
    protocol.TURNED: Kind(tapes.turned, ("tape",), TAPE),
    protocol.TAPE_ENDS: Kind(tapes.tape_ends, ("tape",), ("ends",)),
    protocol.TAPE_NEXT: Kind(tapes.tape_next, ("tape", "row", *READY, "line"), TAPE),
    protocol.LINE_BYTES: Kind(calls.line_sizes, ("walk",), ("words", "bytes")),
    protocol.BEGIN: Kind(recordings.begin, ("header",), RUN),
    protocol.NEXT: Kind(recordings.with_line, ("run", "data"), RUN),
    protocol.FOLLOW: Kind(recordings.follow, ("run", "data"), (*RUN, "taken")),
    protocol.CLOSE: Kind(recordings.close, ("run", "data"), RUN),
    protocol.OUTCOME: Kind(recordings.outcome, ("run",), OUTCOME),
    protocol.FOLLOWS_ON: Kind(recordings.follows_on, ("before", "run"), ("follows",)),
    protocol.NO_TOTALS: Kind(totals.no_totals, (), TOTALS),
    protocol.WITH_READ: Kind(totals.with_read, ("totals", "outcome"), TOTALS),
    protocol.WITH_UNREAD: Kind(totals.with_unread, ("totals",), TOTALS),
    protocol.TOTAL_LINES: Kind(totals.total_lines, ("totals",), wide("lines")),
    protocol.HOURS: Kind(totals.hours, ("totals",), wide("parts")),
}

ARRIVALS = {
    protocol.TELLS: Kind(calls.tells, ("got", "room"), TOLD),
    protocol.SO_FAR: Kind(calls.so_far, ("have",), FILLED),
    protocol.FILLED_AFTER: Kind(calls.filled_after, ("filled", "told", "room"), FILLED),
}

ENTRY = (*wide("ordinal"), "space", "words")
HEADS = {
    protocol.JUDGE_HEAD: Kind(
        captions.judge_head, ("least", "head"), ("number", *ENTRY, *wide("least"))
    ),
    protocol.PUT_HEAD: Kind(captions.put_head, ("entry", "head"), ANSWER),
}

INDEX_ENTRY = index.Entry._fields
TRAILER = (*wide("offset"), "entries", "lines")
QUESTION = (
    "system", "start", "lines", "a", "b", *wide("left"), "place", "c0", "c1", "c2", "c3", "c4",
    *wide("least"), "unclean", "wrong",
)  # fmt: skip
ASKED_FOR = ("system", "start", "trailer", "length", "a", "b")
FINISHING = (*RUN, "entries")
MEETING = finished.Meeting._fields
FINISHES = {
    protocol.ENTRY_OF: Kind(index.entry_of, ("data",), INDEX_ENTRY),
    protocol.PUT_ENTRY: Kind(index.put_entry, ("entry", "room"), ANSWER),
    protocol.TRAILER_OF: Kind(index.trailer_of, ("data",), TRAILER),
    protocol.PUT_TRAILER: Kind(index.put_trailer, ("trailer", "room"), ANSWER),
    protocol.ASK: Kind(
        index.ask, ("system", "start", "trailer", "index", "length", "a", "b"), (*ANSWER, "clean")
    ),
    protocol.QUESTION_BEGIN: Kind(index.begin_question, ASKED_FOR, QUESTION),
    protocol.QUESTION_FEED: Kind(index.feed, ("question", "piece"), QUESTION),
    protocol.QUESTION_REFUSAL: Kind(index.question_refusal, ("question",), ANSWER),
    protocol.QUESTION_CLOSE: Kind(index.close_question, ("question",), (*ANSWER, "clean")),
    protocol.FINISHING_OF: Kind(finished.finishing_of, ("run",), FINISHING),
    protocol.FINISHING_FOLLOW: Kind(
        finished.follow, ("finishing", "data", "room"), (*FINISHING, "taken", "put")
    ),
    protocol.FINISHING_CLOSE: Kind(finished.close, ("finishing", "data"), FINISHING),
    protocol.FINISHING_TRAILER: Kind(finished.trailer_behind, ("finishing",), TRAILER),
    protocol.MEET: Kind(finished.meet, ("meeting", "ours", "theirs"), MEETING),
    protocol.IS_THEIRS: Kind(finished.is_theirs, ("run", "meeting"), ("is theirs",)),
    protocol.DIFFERS_BEFORE: Kind(
        finished.differs_before, ("run", "meeting"), ("differs before",)
    ),
    protocol.RUN_FRESH: Kind(recordings.fresh_run, ("system", "start"), RUN),
    protocol.RUN_JUDGED: Kind(recordings.judged_on, ("run", "judgement"), RUN),
}

KINDS = {**LINES, **SHARED, **PROGRAMMES, **ARRIVALS, **HEADS, **FINISHES}

# The library's calls that each kind asks, by crate and name.
ASKED = {
    protocol.CORRECT: ("timing::correct",),
    protocol.FRESH: ("system::fresh_walk",),
    protocol.TAKE: ("reader::take",),
    protocol.ACTIVE: ("reader::active",),
    protocol.WRITE: ("writer::write",),
    protocol.CODE: ("serial::code",),
    protocol.DECODE: ("serial::decode",),
    protocol.CAPTURE_CORRECT: ("capture::fiskrogn_correct",),
    protocol.CAPTURE_JUDGE: ("capture::fiskrogn_judge",),
    protocol.FOURTH: ("timing::fourth",),
    protocol.EXPECTING: ("timing::correct_expecting",),
    protocol.FOURTH_FAULT: ("timing::fault",),
    protocol.CODE_REPORT: ("timing::code_report",),
    protocol.FLAGS: (
        "system::System525::v",
        "system::System525::f",
        "system::System625::v",
        "system::System625::f",
    ),
    protocol.OWN_FRESH: ("system::System525::fresh_walk", "system::System625::fresh_walk"),
    protocol.SYSTEM_OF: ("system::system_of",),
    protocol.SYSTEM_NAMED: ("system::System::try_from",),
    protocol.FIGURES: (
        "system::System::line_length",
        "system::System::sav_offset",
        "system::System::active_offset",
        "system::System::line_count",
    ),
    protocol.SYSTEM_FLAGS: (
        "system::System::v",
        "system::System::f",
        "system::System::next_line",
    ),
    protocol.REPAIRS: ("system::repairs",),
    protocol.WALK_REFUSAL: ("system::Walk::refusal",),
    protocol.MOVED: ("system::Walk::moved",),
    protocol.NAMED: ("system::named_refusal",),
    protocol.STANDING: ("system::Walk::standing",),
    protocol.WRITTEN_REFUSAL: ("system::written_refusal",),
    protocol.V_WRITTEN: ("system::System::v_written",),
    protocol.DUE_OF: ("system::Due::of",),
    protocol.DUE_FLAGS: ("system::Due::flags",),
    protocol.DUE_AT: ("line::due_at",),
    protocol.BUFFER_REFUSAL: ("line::buffer_refusal",),
    protocol.WALK_DUE: ("system::Walk::due",),
    protocol.RESERVED: ("words::reserved",),
    protocol.WORD_OF: ("words::word_of", "words::pair_of"),
    protocol.FIRST_OVER: ("words::first_over",),
    protocol.REFUSED: ("system::Judgement::refused",),
    protocol.ACCEPTED: ("system::Judgement::accepted",),
    protocol.JUDGE: ("reader::judge",),
    protocol.WRITE_LINE: ("writer::write_line",),
    protocol.WRITE_PART: ("writer::write_part",),
    protocol.BETWEEN_PACKETS: ("reader::between_packets",),
    protocol.ACTIVE_PACKETS: ("reader::active_packets",),
    protocol.BYTEWISE_JUDGE: ("bytewise::judge",),
    protocol.TO_WORDS: ("words::to_words",),
    protocol.TO_BYTES: ("words::to_bytes",),
    protocol.STATE_FRESH: ("serial::State::fresh",),
    protocol.REASONED: ("refusal::Reason::number", "refusal::Reason::at", "refusal::Refusal::of"),
    protocol.FILL_WORD: ("words::FillWords::at",),
    protocol.ALL_SAMPLES: ("words::all_samples",),
    protocol.JUDGE_SPACE: ("packets::judge_space",),
    protocol.UNPACK: ("v210::unpack",),
    protocol.PACK: ("v210::pack",),
    protocol.RECORD: ("programme::record",),
    protocol.EXTRACT: ("programme::extract",),
    protocol.TAKES_ROW: ("programme::takes_row",),
    protocol.ENDS_FRAME: ("programme::ends_frame",),
    protocol.PIECE_LINES: ("programme::piece_lines",),
    protocol.ENDS_PIECE: ("programme::ends_piece",),
    protocol.EXTRACT_NEXT: ("programme::extract_next",),
    protocol.TAPE_BEGIN: ("programme::Tape::begin",),
    protocol.TURNS: ("programme::Tape::turns",),
    protocol.TURNED: ("programme::Tape::turned",),
    protocol.TAPE_ENDS: ("programme::Tape::ends",),
    protocol.TAPE_NEXT: ("programme::Tape::next",),
    protocol.LINE_BYTES: ("system::Walk::line_words", "system::Walk::line_bytes"),
    protocol.BEGIN: ("confirmation::Run::begin",),
    protocol.NEXT: ("confirmation::Run::next",),
    protocol.FOLLOW: ("confirmation::Run::follow",),
    protocol.CLOSE: ("confirmation::Run::close",),
    protocol.OUTCOME: ("confirmation::Run::outcome",),
    protocol.FOLLOWS_ON: ("confirmation::follows_on",),
    protocol.NO_TOTALS: ("confirmation::Totals::none",),
    protocol.WITH_READ: ("confirmation::Totals::with_read",),
    protocol.WITH_UNREAD: ("confirmation::Totals::with_unread",),
    protocol.TOTAL_LINES: ("confirmation::Totals::lines",),
    protocol.HOURS: ("confirmation::Totals::hours",),
    protocol.TELLS: ("intake::tells",),
    protocol.SO_FAR: ("intake::Filled::so_far",),
    protocol.FILLED_AFTER: ("intake::Filled::after",),
    protocol.JUDGE_HEAD: ("captions::judge_head",),
    protocol.PUT_HEAD: ("captions::put_head",),
    protocol.ENTRY_OF: ("index::Entry::of",),
    protocol.PUT_ENTRY: ("index::Entry::put",),
    protocol.TRAILER_OF: ("index::Trailer::of",),
    protocol.PUT_TRAILER: ("index::Trailer::put",),
    protocol.ASK: ("index::ask",),
    protocol.QUESTION_BEGIN: ("index::Question::begin",),
    protocol.QUESTION_FEED: ("index::Question::feed",),
    protocol.QUESTION_REFUSAL: ("index::Question::refusal",),
    protocol.QUESTION_CLOSE: ("index::Question::close",),
    protocol.FINISHING_OF: ("finished::Finishing::of",),
    protocol.FINISHING_FOLLOW: ("finished::Finishing::follow",),
    protocol.FINISHING_CLOSE: ("finished::Finishing::close",),
    protocol.FINISHING_TRAILER: ("finished::Finishing::trailer",),
    protocol.MEET: ("finished::Meeting::meet",),
    protocol.IS_THEIRS: ("finished::is_theirs",),
    protocol.DIFFERS_BEFORE: ("finished::differs_before",),
    protocol.RUN_FRESH: ("confirmation::Run::fresh",),
    protocol.RUN_JUDGED: ("confirmation::Run::judged",),
}

# Crates and calls that no kind asks, and why.
NOT_ASKED = {
    **dict.fromkeys(("cases", "line_cases", "recording_cases", "probe"), "the probe itself"),
    **dict.fromkeys(
        ("host", "console", "folder", "confirm", "station", "retention", "verbs", "command"),
        "what the system has: compared as the command",
    ),
    "capture_c": "the calls of capture once more, as exports",
    "speed": "reader, writer and serial once more, for the benchmark only",
    "system::Walk::of": "every walk that a kind brings is made by it",
    "refusal::Refusal::from": "Refusal::of answers a reason by it",
}


def answer_parts(case):
    """The numbers and the slices of the answer that is due."""
    result = KINDS[case.kind].call(*case.arguments)
    return protocol.parted(result if isinstance(result, tuple) else (result,))


def expected_answer(case):
    numbers, slices = answer_parts(case)
    return protocol.pack_numbers(*numbers) + protocol.pack_slices(slices)


# The kinds whose answer is a part of the caller's line.
PARTS = (protocol.ACTIVE, protocol.BETWEEN_PACKETS, protocol.ACTIVE_PACKETS)


def answer_size(case, expected, answers, start):
    """The size of the answer that starts there; a part of a line brings its own count."""
    if case.kind not in PARTS or len(answers) < start + 4:
        return len(expected)
    return 4 + 2 * struct.unpack_from("<I", answers, start)[0]


def shown(name, argument):
    """An argument as text, a slice by its length."""
    if isinstance(argument, (bytes, list)):
        return f"{name}[{len(argument)}]"
    return f"{name} {tuple(argument) if isinstance(argument, tuple) else argument}"


def shown_call(case):
    call, parameters, _ = KINDS[case.kind]
    return f"{call.__name__}: {', '.join(map(shown, parameters, case.arguments))}"


def shown_answer(case, answer):
    """The numbers of an answer as text, and how many bytes follow them."""
    heads = KINDS[case.kind].heads
    if len(answer) < 4 * len(heads):
        return f"no whole answer, {len(answer)} bytes"
    numbers = struct.unpack_from(f"<{len(heads)}I", answer)
    text = ", ".join(f"{name} {number}" for name, number in zip(heads, numbers))
    return f"{text}, then {len(answer) - 4 * len(heads)} bytes"


def first_difference(case, expected, got):
    """The first byte after the numbers at which two answers of one size differ, or None."""
    start = 4 * len(KINDS[case.kind].heads)
    if len(expected) != len(got):
        return None
    for index, (due, given) in enumerate(zip(expected[start:], got[start:])):
        if due != given:
            return f"byte {index} after the numbers: expected {due}, got {given}"
    return None
