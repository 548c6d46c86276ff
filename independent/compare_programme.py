"""The command compared with its model.

Run: python3 -m independent.compare_programme --command "WORDS" --keep DIR
Standard output, standard error, status and the files that are left are compared,
byte for byte, on edge and random inputs of a fixed seed. A difference is shown
with a command that reproduces it, and its input and files are kept. The last
line tells how many runs passed and how many failed.
"""

import errno
import os
import re
import select
import shlex
import shutil
import signal
import subprocess
import sys
import tempfile
import tty
from contextlib import contextmanager
from itertools import chain, repeat
from pathlib import Path
from random import Random
from threading import Thread, Timer

from independent import camera_cases, caption_cases, command_cases, finished_cases, folder_cases
from independent import judge, programme, stream
from independent.command import (
    ANY_TEXT,
    FOLDER,
    RECORD_TEXTS,
    STOPPED,
    Answer,
    refused,
    told_answer,
)
from independent.command_cases import (
    BY_SCRIPT,
    COMMAND,
    FROM_FILE,
    IN_PIECES,
    THEN_BROKEN,
    TO_TERMINAL,
    called,
)
from independent.compare import LIMIT_TIMEOUT_SECONDS, Tally, comparing_parser, hand_over
from independent.compare import in_order, written_in
from independent.material import Source
from independent.recordings import header
from independent.stream import LongRun, write_all

REPOSITORY = Path(__file__).resolve().parent.parent
TIMEOUT_SECONDS = 120
# A terminal to which nothing has come for so long has had everything of a process that ended.
QUIET_SECONDS = 0.1
FAMILIES = (
    *command_cases.FAMILIES,
    *folder_cases.FAMILIES,
    *caption_cases.FAMILIES,
    *finished_cases.FAMILIES,
    *camera_cases.FAMILIES,
)

# The texts that the system has for errors.
REASONS = "|".join(re.escape(os.strerror(number)) for number in errno.errorcode)
FAILURE = re.compile(
    rf"^(\w+: .* could not be (?:read|written|made): )(?:{REASONS})$".encode(), re.MULTILINE
)


def random_pieces(data):
    """The data in pieces of a few bytes, of about a row, and of other sizes."""
    random = Random(len(data))
    start = 0
    while start < len(data):
        size = random.choice((1, 2, 3, 1_919, 1_920, 1_921, random.randrange(1, 5_000)))
        yield data[start : start + size]
        start += size


@contextmanager
def started(script, words, seconds=TIMEOUT_SECONDS, **standard):
    """A process that is killed, with all that it started, if it hangs."""
    shell = ["bash", "-o", "pipefail", "-c", script, *words]
    process = subprocess.Popen(shell, start_new_session=True, **standard)
    timer = Timer(seconds, os.killpg, (process.pid, signal.SIGKILL))
    timer.start()
    try:
        yield process
    finally:
        timer.cancel()


def by_script(case, words, **standard):
    with started(case.script, words, stdin=subprocess.DEVNULL, **standard) as process:
        return process.wait()


def in_pieces(case, words, **standard):
    with started(case.script, words, stdin=subprocess.PIPE, **standard) as process:
        hand_over(process, random_pieces(case.data), one_by_one=True)
        return process.wait()


def then_broken(case, words, **standard):
    """The input comes over a terminal's line, which fails once the far end is closed."""
    near, far = os.openpty()
    tty.setraw(far)
    with started(case.script, words, stdin=near, **standard) as process:
        os.close(near)
        send_and_close(far, case.data)
        return process.wait()


def send_and_close(descriptor, data):
    try:
        write_all(descriptor, data)
    except OSError:
        pass  # The program ended before it had read everything.
    os.close(descriptor)


def to_terminal(case, words, stdout, **standard):
    """The output goes to a terminal, and what was given to that into the file."""
    near, far = os.openpty()
    tty.setraw(far)
    with started(case.script, words, stdin=subprocess.DEVNULL, stdout=far, **standard) as process:
        stdout.write(received(near, process))
        status = process.wait()
    os.close(near)
    os.close(far)
    return status


def received(descriptor, process):
    """What a process gives to a terminal that stays open: at its last user's end one may lose what is on its way."""
    data = b""
    while True:
        has_ended = process.poll() is not None
        if select.select([descriptor], [], [], QUIET_SECONDS)[0]:
            data += os.read(descriptor, 65_536)
        elif has_ended:
            return data


HANDED = {
    BY_SCRIPT: by_script,
    IN_PIECES: in_pieces,
    THEN_BROKEN: then_broken,
    TO_TERMINAL: to_terminal,
}


def lay_out(room, files):
    for name, thing in files.items():
        path = Path(room, name)
        if thing == FOLDER:
            path.mkdir()
        else:
            path.write_bytes(thing)


def things_in(room):
    """All files and folders below a folder, by their paths from there."""
    return {
        str(path.relative_to(room)): FOLDER if path.is_dir() else path.read_bytes()
        for path in Path(room).rglob("*")
    }


def run(case, words, path):
    """What a case's script answers in a folder of its own, its input being in a file."""
    path.write_bytes(case.data)
    hand, words = HANDED[case.way], (str(path), *words)
    with tempfile.TemporaryFile() as output, tempfile.TemporaryFile() as errors:
        with tempfile.TemporaryDirectory() as room:
            lay_out(room, case.files)
            status = hand(case, words, stdout=output, stderr=errors, cwd=room)
            files = things_in(room)
        return Answer(written_in(output), written_in(errors), status, files)


def compared_output(case, output):
    """Standard output; before an input fails, any first part may have been written."""
    due = case.expected.output
    if output and due is ANY_TEXT:
        return ANY_TEXT
    return due if case.way == THEN_BROKEN and due.startswith(output) else output


def compared(case, answer):
    """What is compared: all but a system's own reason, and the text of a help."""
    output, errors, status, files = answer
    return compared_output(case, output), FAILURE.sub(rb"\1REASON", errors), status, files


def first_difference(expected, got):
    """The first byte at which two outputs differ."""
    for index, (due, given) in enumerate(zip(expected or b"", got)):
        if due != given:
            return f"byte {index}: expected {due}, got {given}"
    return "the outputs are the same as far as both go"


def different_files(expected, got):
    """The files that are not as they should be, with their sizes."""
    return [
        f"{ascii(name)}: expected {size(expected.get(name))}, got {size(got.get(name))}"
        for name in sorted({*expected, *got})
        if expected.get(name) != got.get(name)
    ]


def size(thing):
    return f"{len(thing)} bytes" if isinstance(thing, bytes) else thing


def shown(answer):
    output, errors, status, _ = answer
    return f"{size(output)}, status {status}, said {errors[-600:]}"


def reproducing(case, words, path):
    """A script for the shell; what was handed over in another way is read from a file."""
    room = path.with_suffix(".files")
    shutil.rmtree(room, ignore_errors=True)
    room.mkdir()
    lay_out(room, case.files)
    script = case.script
    if case.way in (IN_PIECES, THEN_BROKEN):
        script = f"{script} {FROM_FILE}"
    script = script.replace(COMMAND, shlex.join(words)).replace("$0", str(path.resolve()))
    kept = path.with_suffix(".sh")
    kept.write_bytes(os.fsencode(f'cd "$(mktemp -d)" && cp -r {room.resolve()}/. .\n{script}\n'))
    return kept


def explanation(case, got, words, path):
    return (
        f"  bash {reproducing(case, words, path)}: {ascii(case.script)}\n"
        f"  handed over: {HANDED[case.way].__name__}\n"
        f"  expected: {shown(case.expected)}\n"
        f"  got:      {shown(got)}\n"
        f"  {first_difference(case.expected.output, got.output)}\n"
        f"  files: {different_files(case.expected.files, got.files) or 'as due'}"
    )


def compare_case(tally, family, name, case, got, words):
    def explain():
        return explanation(case, got, words, tally.kept(name, case.data))

    due = compared(case, case.expected)
    tally.compare(family, name, case.data, due, compared(case, got), explain)


def numbered_cases(seed):
    """All cases, each with its family's name and its number there."""
    for family in FAMILIES:
        name = family.__name__.replace("_", " ")
        for index, case in enumerate(family(Source(seed, name))):
            yield name, index, case


def compare_all(tally, words, jobs):
    def work(numbered):
        with tempfile.TemporaryDirectory() as room:
            return run(numbered[2], words, Path(room, "input"))

    for (family, index, case), got in in_order(jobs, work, numbered_cases(tally.seed)):
        compare_case(tally, family, f"{family}, index {index}", case, got, words)


def limit_runs():
    """A byte after 10,000,000 lines: arguments, pieces in and out, what is said."""
    clean = LongRun(625, 1, judge.LINES_LIMIT, 0, repaired=False)
    frames = clean.lines // judge.SYSTEMS[clean.system].lines
    picture = programme.extract(header(625, 1) + stream.frame(clean))[0]
    said = f"record: {refused((judge.WRONG_COUNTS, 1, 0), RECORD_TEXTS)}\n".encode()
    given = chain(repeat(picture, frames), [b"\0"])
    yield ("record", "625", "1"), given, stream.pieces(clean), said
    longer = LongRun(625, 1, judge.LINES_LIMIT, 1, repaired=True)
    said = told_answer("extract", stream.expected_outcome(longer)).errors
    yield ("extract",), stream.pieces(longer), repeat(picture, frames), said


def follows(output, pieces):
    """Whether a stream gives these pieces and no more; it is closed where it does not."""
    with output:
        return all(output.read(len(piece)) == piece for piece in pieces) and not output.read(1)


def run_limit(script, words, given, due):
    """Whether the output is as due, what is said, and the status."""
    pipes = {"stdin": subprocess.PIPE, "stdout": subprocess.PIPE}
    with tempfile.TemporaryFile() as errors:
        with started(script, words, LIMIT_TIMEOUT_SECONDS, stderr=errors, **pipes) as process:
            Thread(target=hand_over, args=(process, given, False)).start()
            as_due = follows(process.stdout, due)
            status = process.wait()
        return as_due, written_in(errors), status


def compare_limit(tally, words):
    for arguments, given, due, said in limit_runs():
        script = called(arguments)
        expected = True, said, STOPPED
        got = run_limit(script, ("", *words), given, due)

        def explain():
            return f"  {script}\n  expected: {expected}\n  got:      {got}"

        name = f"limit, {arguments[0]}"
        tally.compare("limit", name, script.encode(), expected, got, explain)


def command_words(text):
    """The words of a command; those with a slash are paths in the repository."""
    return [str(REPOSITORY / word) if "/" in word else word for word in shlex.split(text)]


def options_of(arguments):
    parser = comparing_parser("compare the command with its model")
    parser.add_argument("--command", default="target/command/fiskrogn", help="its words")
    return parser.parse_args(arguments)


def main():
    options = options_of(sys.argv[1:])
    tally, words = Tally(options.seed, options.keep), command_words(options.command)
    if options.limit:
        compare_limit(tally, words)
    else:
        compare_all(tally, words, options.jobs)
    return tally.status()


if __name__ == "__main__":
    sys.exit(main())
