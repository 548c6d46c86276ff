"""The judge against the marked samples, the listed tests and the errors of document 01.

Run: python3 -m independent.selftest
"""

import sys

from independent import calls_selftest, captions_selftest, command_selftest, falls_selftest
from independent import finished_selftest, hopeless_selftest, judge, packets_selftest
from independent import programme_selftest, tally_selftest, wrong_models
from independent.edges import LISTED_LENGTHS, LISTED_LINES, LISTED_SAMPLES, LISTED_SERIAL
from independent.judge import CLEAN_REPORT, FRESH_STATE, NO_READY, TABLE_FALL, Report, Walk
from independent.judge import fourth_offsets
from independent.material import changed
from independent.protocol import pack_slice
from independent.recordings import Run, confirm, header, run_on

KEPT = [65535]


def buffers(value=7):
    """Sample buffers of the right lengths, holding one value."""
    return [[value] * length for length in judge.SAMPLE_LENGTHS]


def empty_line(system):
    return [0] * judge.SYSTEMS[system].words


def written(system, line):
    return judge.write(system, line, TABLE_FALL, *buffers(), *NO_READY, empty_line(system))[2]


def in_turn(walk, words, *lent):
    """Number, place, report, walk and sample buffers after judging and taking in turn."""
    number, place, *after = judge.take(walk, words, *lent)
    # "the walk then stands"
    judgement = judge.refused(walk, number, place) if number else judge.judged(walk, words)
    return (*judgement[:4], *after)


def reading(system, line, words, lines_read=0, repairs=0, lent=9):
    return in_turn(Walk(system, line, lines_read, repairs), words, *buffers(lent))


def output(system, start, lines, repairs, result):
    return (
        f"SYSTEM {system}\nSTART {start}\nLINES {lines}\nREPAIRS {repairs}\n"
        f"RESULT {result}\n"
    ).encode()


def marked_samples():
    yield "M1", judge.FOURTH_WORDS, [512, 628, 684, 728, 796, 872, 944, 964]
    yield "M2", judge.correct(628), (judge.CLEAN, 1, 0, 0)
    yield "M3", judge.correct(631), (judge.CLEAN, 1, 0, 0)
    yield "M4", judge.correct(624), (judge.REPAIRED, 1, 2, 0)
    yield "M5", judge.correct(632), (judge.REFUSED, 0, 0, 8)
    yield "M6", judge.correct(116), (judge.REFUSED, 0, 0, 7)
    yield "M7 corrected", judge.capture_correct(876), 872 + 2 * 4096
    m7 = changed(written(625, 100), {3: 876})
    yield "M7 refused", reading(625, 100, m7)[:2], (9, 3)
    yield "M7 three bits", (876 ^ 628).bit_count(), 3
    yield "M8", [judge.table_v(625, line) for line in (22, 23)], [1, 0]
    yield "M9 F", [judge.due_f(525, line) for line in (3, 4)], [1, 0]
    yield "M9 V", [judge.table_v(525, line) for line in (3, 4)], [1, 1]
    coded = judge.code(*FRESH_STATE, [1, 0], [0, 0])
    yield "M10", (coded[:2], coded[4]), ((0, 0), [543, 736])
    yield "M11", judge.code(*FRESH_STATE, [1], [0])[2:4], (17, 1)


def listed_samples():
    first = judge.active_start(625)
    for sample, number in zip(LISTED_SAMPLES, (11, 0, 0, 11)):
        line = changed(written(625, 23), {first + 5: sample})
        place = first + 5 if number else 0
        yield f"read {sample}", reading(625, 23, line)[:2], (number, place)
        y, cb, cr = buffers()
        y[2] = sample
        answer = judge.write(625, 23, TABLE_FALL, y, cb, cr, *NO_READY, empty_line(625))[:2]
        yield f"write {sample}", answer, (12, 5) if number else (0, 0)


def listed_lines():
    for line in LISTED_LINES:
        for system in judge.SYSTEMS:
            due = line in range(1, system + 1)
            expected = (0, 0, (system, line, 0, 0, 0, 0)) if due else (2, 0, (0,) * 6)
            yield f"fresh {system} {line}", judge.fresh(system, line), expected


def listed_lengths():
    for count in LISTED_LENGTHS:
        for system, figures in judge.SYSTEMS.items():
            words = (written(system, 30) + [512] * 13)[:count]
            due = count == figures.words
            answer = reading(system, 30, words)[:2]
            yield f"{count} words of {system}", answer, (0, 0) if due else (3, 0)


def listed_counts():
    line = written(525, 525)
    answer = reading(525, 525, line, lines_read=9_999_999)
    yield "9,999,999 lines read", answer[:4], (0, 0, CLEAN_REPORT, (525, 1, 10_000_000, 0, 1, 0))
    answer = reading(525, 525, line, lines_read=10_000_000)
    yield "10,000,000 lines read", answer[:2], (4, 0)


def listed_serial():
    for call in (judge.code, judge.decode):
        for count, number in zip(LISTED_SERIAL, (0, 3)):
            answer = call(*FRESH_STATE, [5] * count, [9] * count)
            yield f"{call.__name__} {count}", answer[:2], (number, 0)


def turns(due, system):
    """Each line whose bit is not that of the line before, with its bit."""
    bits = [due(system, line) for line in range(1, judge.SYSTEMS[system].lines + 1)]
    return {n + 1: bit for n, bit in enumerate(bits) if bit != bits[n - 1]}


def field_intervals():
    """Table 1 of document 000."""
    for system, v_turns, f_turns in (
        (525, {1: 1, 20: 0, 264: 1, 283: 0}, {4: 0, 266: 1}),
        (625, {23: 0, 311: 1, 336: 0, 624: 1}, {1: 0, 313: 1}),
    ):
        yield f"V of {system}", turns(judge.table_v, system), v_turns
        yield f"F of {system}", turns(judge.due_f, system), f_turns


def patterns():
    tags = [judge.correct(512 | pattern << 2)[0] for pattern in range(128)]
    yield "128 patterns", [tags.count(tag) for tag in range(3)], [8, 56, 64]


def drawn_errors():
    for system in judge.SYSTEMS:
        line = written(system, 100)
        eav, sav = fourth_offsets(system)
        for code in (eav, sav):
            bad = changed(line, {code: 632})
            yield f"632 at {code}", reading(system, 100, bad)[:2], (8, code)
        low = changed(line, {0: 1020, 1: 3, 2: 1, eav: 631, sav: line[sav] | 3})
        yield "631 read", reading(system, 100, low)[:3], (0, 0, CLEAN_REPORT)
        last = judge.SYSTEMS[system].words - 1
        bad = changed(line, {last: 1023})
        kept = (11, last, CLEAN_REPORT, (system, 100, 4, 1, 0, 0), *buffers(9))
        yield "bad last word", reading(system, 100, bad, 4, 1), kept
        both = changed(line, {eav: line[eav] ^ 4, sav: line[sav] ^ 256})
        counted = (0, 0, Report(1, 2, 1, 8), (system, 101, 5, 3, 1, 2), *buffers())
        yield "two repaired codes", reading(system, 100, both, 4, 1), counted


def orders_of_refusal():
    short = [1024] * 3
    cases = (
        ((0, 0, 10_000_000, 0), (1, 0)),
        ((625, 0, 10_000_000, 0), (2, 0)),
        ((625, 1, 10_000_000, 0), (4, 0)),
        ((625, 1, 3, 7), (4, 0)),
        ((625, 1, 3, 6, 0, 7), (4, 0)),
        ((625, 1, 3, 6, 0, 6), (3, 0)),
    )
    for walk, expected in cases:
        yield f"order at {walk}", in_turn(Walk(*walk), short, [], [], [])[:2], expected
    y, cb, cr = buffers()
    for lent, place in (((y[1:], [], []), 1), ((y, [], cr[1:]), 2), ((y, cb, []), 3)):
        walk = Walk(625, 1, 5, 2)
        answer = in_turn(walk, written(625, 1), *lent)
        yield f"length of {place}", answer, (3, place, CLEAN_REPORT, walk, *lent)
        # "A word's refusal now comes before a sample buffer's"
        answer = in_turn(walk, changed(written(625, 1), {4: 513}), *lent)
        yield f"word before length of {place}", answer, (10, 4, CLEAN_REPORT, walk, *lent)
    line = written(625, 1)
    sav, active = judge.SYSTEMS[625].sav, judge.active_start(625)
    last = len(line) - 1
    for changes, expected in (
        ({0: 1024, 1: 4}, (5, 0)),
        ({2: 4, 3: 0}, (6, 2)),
        ({3: 1024, 4: 0}, (5, 3)),
        ({3: line[3] & 511 ^ 12}, (7, 3)),
        ({4: 513, 5: 1024}, (10, 4)),
        ({sav: 1019, active: 0}, (6, sav)),
        ({last: 512}, (10, last)),
    ):
        answer = reading(625, 1, changed(line, changes))[:2]
        yield f"changed {changes}", answer, expected


def blank_lines():
    line = written(625, 22)
    answer = reading(625, 22, line, lent=65535)
    yield "V = 1 keeps buffers", answer[4:], tuple(buffers(65535))
    yield "V = 1 is fill", judge.active_part(625, line), [512, 64] * 720
    answer = judge.write(625, 22, TABLE_FALL, *buffers(3), *NO_READY, empty_line(625))
    yield "V = 1 looks at no sample", answer, (0, 0, line)


def active_parts():
    line = written(525, 20)
    walk = Walk(525, 20, 0, 0)
    yield "active part", judge.active(walk, line), [7] * 1440
    yield "empty part", judge.active(walk, changed(line, {len(line) - 1: 3})), []
    yield "empty part of a short line", judge.active(walk, line[1:]), []


def serial_states():
    for call in (judge.code, judge.decode):
        name = call.__name__
        for bits, last in ((512, 0), (0, 2)):
            answer = call(bits, last, [1024], [])
            yield f"{name} state", answer, (13, 0, bits, last, [])
        yield f"{name} unequal", call(1, 1, [1024], []), (3, 1, 1, 1, [])
        yield f"{name} over", call(1, 1, [0, 1024], [7, 7]), (5, 1, 1, 1, [7, 7])
        yield f"{name} no words", call(511, 1, [], []), (0, 0, 511, 1, [])
    plain = [(7 * n * n + 3) % 1024 for n in range(300)]
    for bits, last in ((0, 0), (511, 1), (341, 0)):
        coded = judge.code(bits, last, plain, KEPT * 300)
        undone = judge.decode(bits, last, coded[4], KEPT * 300)
        yield f"round trip from {bits} {last}", undone, (*coded[:4], plain)


def captures():
    yield "capture 628", judge.capture_correct(628), 628
    yield "capture 624", judge.capture_correct(624), 628 + 2 * 4096
    yield "capture 632", judge.capture_correct(632), 8 << 16
    yield "capture 116", judge.capture_correct(116), 7 << 16
    yield "capture 65,536 + 628", judge.capture_correct(65_536 + 628), 5 << 16
    line = written(625, 100)
    eav, sav = fourth_offsets(625)
    last = len(line) - 1
    for changes, expected in (
        ({}, 0),
        ({eav: line[eav] ^ 8, sav: line[sav] ^ 16}, 2),
        ({last: 1024}, (5 << 16) + last),
    ):
        data = pack_slice(changed(line, changes))
        yield f"bytes {changes}", judge.capture_judge(625, 100, 1, 2, 0, 2, data), expected
    odd = pack_slice(line)[:-1]
    yield "bytes odd", judge.capture_judge(625, 100, 0, 0, 0, 0, odd), 3 << 16
    yield "bytes counted out", judge.capture_judge(625, 100, 10**7, 0, 0, 0, odd), 4 << 16


def confirmed_runs():
    lines = [pack_slice(written(625, line)) for line in (22, 23)]
    run = header(625, 22) + b"".join(lines)
    yield "confirmed", confirm(run), output(625, 22, 2, 0, "0 0 0")
    yield "header alone", confirm(run[:4]), output(625, 22, 0, 0, "0 0 0")
    yield "short header", confirm(run[:3]), output(0, 0, 0, 0, "1 0 0")
    yield "no line", confirm(header(625, 626)), output(625, 626, 0, 0, "2 0 0")
    yield "no system", confirm(header(5, 22)), output(5, 22, 0, 0, "1 0 0")
    yield "trailing", confirm(run + b"\0"), output(625, 22, 2, 0, "3 24 0")
    repeated = header(625, 22) + lines[0] + lines[0]
    yield "repeated", confirm(repeated), output(625, 22, 1, 0, "9 23 3")
    full = Walk(625, 24, 10_000_000, 0)
    at_limit = Run(625, 24, full, 0, 0)
    yield "any byte after the limit", run_on(at_limit, b"\0"), (625, 24, full, 4, 0)
    yield "no byte after the limit", run_on(at_limit, b""), at_limit


GROUPS = (
    marked_samples,
    listed_samples,
    listed_lines,
    listed_lengths,
    listed_counts,
    listed_serial,
    field_intervals,
    patterns,
    drawn_errors,
    orders_of_refusal,
    blank_lines,
    active_parts,
    serial_states,
    captures,
    confirmed_runs,
    *programme_selftest.GROUPS,
    *command_selftest.GROUPS,
    *calls_selftest.GROUPS,
    *packets_selftest.GROUPS,
    *captions_selftest.GROUPS,
    *falls_selftest.GROUPS,
    *tally_selftest.GROUPS,
    *hopeless_selftest.GROUPS,
    *wrong_models.GROUPS,
    *finished_selftest.GROUPS,
)


def main():
    passed = failed = 0
    for group in GROUPS:
        for name, got, expected in group():
            if got == expected:
                passed += 1
            else:
                failed += 1
                print(f"{group.__name__}, {name}: expected {expected}, got {got}")
    print(f"{passed} passed, {failed} failed")
    return 1 if failed else 0


if __name__ == "__main__":
    sys.exit(main())
