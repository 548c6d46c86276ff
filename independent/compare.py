"""Another program compared, bit for bit, with the judge.

Run: python3 -m independent.compare --probe "CMD ARGS" --confirm "CMD ARGS"
The probe takes cases on standard input and gives answers on standard output
(see protocol.py and kinds.py); the confirm command is the confirming program,
of which standard error and status are compared too. A difference is shown with
its case, and the input that reproduces it is kept in a file. The last line
tells how many comparisons passed and how many failed.
"""

import argparse
import fcntl
import shlex
import struct
import subprocess
import sys
import tempfile
import termios
import time
from collections import Counter, deque
from concurrent.futures import ThreadPoolExecutor
from pathlib import Path
from threading import Timer

from independent import kinds, protocol, recordings, stream
from independent.cases import cases
from independent.command import Answer, told_answer
from independent.material import Choice
from independent.runs import FILE, PIPE, runs

SEED = 656
ALL = Choice(first=0, step=1)
QUICK_CASES = Choice(first=200, step=37)
QUICK_RUNS = Choice(first=5, step=37)
BATCH_BYTES = 4_000_000
SHOWN_PER_FAMILY = 10
TIMEOUT_SECONDS = 300
LIMIT_TIMEOUT_SECONDS = 1_800
CONFIRM = "confirm"


class Tally:
    """Comparisons counted by family; differences shown and kept."""

    def __init__(self, seed, keep):
        self.seed = seed
        self.keep = keep
        self.passed = Counter()
        self.failed = Counter()

    def compare(self, family, name, data, expected, got, explain):
        """Count one comparison; explain gives the text of a difference."""
        if expected == got:
            self.passed[family] += 1
            return
        self.failed[family] += 1
        if self.failed[family] <= SHOWN_PER_FAMILY:
            print(f"DIFFERENCE in {name}, seed {self.seed}\n{explain()}")
            print(f"  input: {self.kept(name, data)}")

    def kept(self, name, data):
        """The path of a file that holds the input."""
        self.keep = self.keep or tempfile.mkdtemp(prefix="differences-")
        path = Path(self.keep, name.replace(",", "").replace(" ", "-") + ".bin")
        path.parent.mkdir(parents=True, exist_ok=True)
        path.write_bytes(data)
        return path

    def status(self):
        """Print the counts, and give the status to end with."""
        for family in sorted({*self.passed, *self.failed}):
            print(f"{family}: {self.passed[family]} passed, {self.failed[family]} failed")
        print(f"{self.passed.total()} passed, {self.failed.total()} failed")
        return 0 if self.passed and not self.failed else 1


def ending_of(outcome):
    return f"status {outcome.status} {outcome.errors[-300:].decode(errors='replace')}".strip()


def run_with(command, **standard_input):
    """The outcome of a command whose input is all there from the start."""
    try:
        done = subprocess.run(
            command, capture_output=True, timeout=TIMEOUT_SECONDS, **standard_input
        )
    except subprocess.TimeoutExpired:
        return Answer(b"", b"did not end in time", None)
    return Answer(done.stdout, done.stderr, done.returncode)


def run_with_pieces(command, pieces, one_by_one, timeout=TIMEOUT_SECONDS):
    """The outcome of a command whose input comes in pieces."""
    with tempfile.TemporaryFile() as output, tempfile.TemporaryFile() as errors:
        process = subprocess.Popen(
            command, stdin=subprocess.PIPE, stdout=output, stderr=errors
        )
        timer = Timer(timeout, process.kill)
        timer.start()
        hand_over(process, pieces, one_by_one)
        process.wait()
        timer.cancel()
        return Answer(written_in(output), written_in(errors), process.returncode)


def written_in(file):
    file.seek(0)
    return file.read()


def hand_over(process, pieces, one_by_one):
    """Write the pieces; one by one each waits until the piece before has been read."""
    descriptor = process.stdin.fileno()
    try:
        for piece in pieces:
            stream.write_all(descriptor, piece)
            while one_by_one and unread(descriptor) and process.poll() is None:
                time.sleep(0.00001)
    except BrokenPipeError:
        pass  # The program stops at the first refusal and need not read the rest.
    process.stdin.close()


def unread(descriptor):
    """How many bytes wait in the pipe."""
    return struct.unpack("i", fcntl.ioctl(descriptor, termios.FIONREAD, bytes(4)))[0]


def in_order(jobs, work, items):
    """Each item with the outcome of its work, some items being worked on at a time."""
    with ThreadPoolExecutor(jobs) as pool:
        pending = deque()
        for item in items:
            pending.append((item, pool.submit(work, item)))
            if len(pending) > jobs:
                item, future = pending.popleft()
                yield item, future.result()
        for item, future in pending:
            yield item, future.result()


def batches(all_cases):
    """Lists of case, its bytes and the judge's answer, each list of moderate size."""
    batch, size = [], 0
    for case in all_cases:
        data = protocol.case_bytes(case)
        batch.append((case, data, kinds.expected_answer(case)))
        size += len(data)
        if size >= BATCH_BYTES:
            yield batch
            batch, size = [], 0
    if batch:
        yield batch


def compare_probe(tally, command, jobs, all_cases):
    def work(batch):
        return run_with(command, input=b"".join(data for _, data, _ in batch))

    for batch, outcome in in_order(jobs, work, batches(all_cases)):
        compare_batch(tally, batch, outcome)


def compare_batch(tally, batch, outcome):
    """Part the answers; what is left over belongs to the last of them."""
    start = 0
    for position, (case, data, expected) in enumerate(batch, 1):
        end = start + kinds.answer_size(case, expected, outcome.output, start)
        got = outcome.output[start : end if position < len(batch) else None]
        start = end
        compare_case(tally, case, data, expected, got, ending_of(outcome))


def compare_case(tally, case, data, expected, got, ending):
    def explain():
        lines = [
            f"  {kinds.shown_call(case)}",
            f"  expected: {kinds.shown_answer(case, expected)}",
            f"  got:      {kinds.shown_answer(case, got)}",
            f"  probe's end: {ending}",
        ]
        difference = kinds.first_difference(case, expected, got)
        return "\n".join(lines + [f"  {difference}"] * (difference is not None))

    name = f"kind {case.kind}, {case.family}, index {case.index}"
    tally.compare(case.family, name, data, expected, got, explain)


def shown_outcome(outcome):
    return f"{outcome.output.decode(errors='replace').split()}, {ending_of(outcome)}"


def explain_outcomes(expected, outcome):
    return f"  expected: {shown_outcome(expected)}\n  got:      {shown_outcome(outcome)}"


def run_confirm(command, run):
    """The outcome of one run, its input handed over in its way."""
    if run.delivery == PIPE:
        return run_with(command, input=run.data)
    if run.delivery == FILE:
        with tempfile.TemporaryFile() as file:
            file.write(run.data)
            file.seek(0)
            return run_with(command, stdin=file)
    return run_with_pieces(command, recordings.parts(run.data, run.delivery), one_by_one=True)


def compare_confirm(tally, command, jobs, all_runs):
    def work(run):
        return run_confirm(command, run)

    for run, outcome in in_order(jobs, work, all_runs):
        compare_run(tally, run, outcome)


def compare_run(tally, run, outcome):
    expected = told_answer("confirm", recordings.outcome(recordings.run_over(run.data)))

    def explain():
        given = f"  {len(run.data)} bytes, handed over by {run.delivery}\n"
        return given + explain_outcomes(expected, outcome)

    name = f"{run.family}, index {run.index}"
    tally.compare(run.family, name, run.data, expected, outcome, explain)


def compare_limit(tally, command, jobs):
    def work(run):
        pieces = stream.pieces(run)
        return run_with_pieces(command, pieces, False, LIMIT_TIMEOUT_SECONDS)

    for run, outcome in in_order(jobs, work, stream.LIMIT_RUNS):
        compare_long_run(tally, run, outcome)


def compare_long_run(tally, run, outcome):
    expected = told_answer("confirm", stream.expected_outcome(run))

    def explain():
        given = "  the input file holds the arguments of stream.py\n"
        return given + explain_outcomes(expected, outcome)

    repaired = " repaired" if run.repaired else ""
    arguments = f"{run.system} {run.start} {run.lines} {run.tail}{repaired}"
    name = f"limit, {arguments}"
    tally.compare("limit", name, arguments.encode(), expected, outcome, explain)


def comparing_parser(description):
    """The options of every comparison."""
    parser = argparse.ArgumentParser(description=description)
    parser.add_argument("--keep", help="directory for inputs that show a difference")
    parser.add_argument("--limit", action="store_true", help="only the runs of 10,000,000 lines")
    parser.add_argument("--seed", type=int, default=SEED, help="seed of the random numbers")
    parser.add_argument("-j", "--jobs", type=int, default=2, help="commands at a time")
    return parser


def options_of(arguments):
    parser = comparing_parser("compare another program with the judge")
    parser.add_argument("--probe", type=shlex.split, help="command that answers cases")
    parser.add_argument("--confirm", type=shlex.split, help="the confirming program")
    parser.add_argument("--kinds", help="numbers of protocol.py, and 'confirm': 3,9,confirm")
    parser.add_argument("--quick", action="store_true", help="a small part of all cases")
    options = parser.parse_args(arguments)
    names = [*map(str, kinds.KINDS), CONFIRM]
    options.kinds = options.kinds.split(",") if options.kinds else names
    if not set(options.kinds) <= set(names):
        parser.error(f"kinds are {', '.join(names)}")
    if not (options.confirm or options.probe and not options.limit):
        parser.error("no command to compare with")
    return options


def compare_all(tally, options):
    if options.limit:
        compare_limit(tally, options.confirm, options.jobs)
        return
    asked = {int(kind) for kind in options.kinds if kind != CONFIRM}
    if options.probe:
        chosen = cases(options.seed, asked, QUICK_CASES if options.quick else ALL)
        compare_probe(tally, options.probe, options.jobs, chosen)
    if options.confirm and CONFIRM in options.kinds:
        chosen = runs(options.seed, QUICK_RUNS if options.quick else ALL)
        compare_confirm(tally, options.confirm, options.jobs, chosen)


def main():
    options = options_of(sys.argv[1:])
    tally = Tally(options.seed, options.keep)
    compare_all(tally, options)
    return tally.status()


if __name__ == "__main__":
    sys.exit(main())
