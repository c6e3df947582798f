#!/usr/bin/env python3
"""Runs the program over inputs and outputs that come in pieces, fail or never end, and prints what it answers wrongly.

    tests/hostile/streams.py KEEP_TOML STREAMS

STREAMS is the library that tests/hostile/streams.c makes, which stands between the program and the system: it gives and takes
one byte a call, and fails at the call of each number in turn. With '-' only the streams that the system itself offers
are tried. Whatever fails ends with status 3 and one line on standard error. A failing input leaves standard output
empty; a failing output has the bytes that it took before, and they are told by their number.
"""
import errno
import os
import re
import resource
import subprocess
import sys
from itertools import chain
from pathlib import Path
from tempfile import TemporaryDirectory

sys.dont_write_bytecode = True
sys.path[:0] = [str(Path(__file__).resolve().parents[2] / it) for it in ("tests/rows",)]
from ask import Count, Row, answer, failure, in_parallel, rows_of, short

HERE = Path(__file__).resolve().parent
LIMIT = 16_777_216
# A block of a list ends with the line that reaches this length.
BLOCK = 65_536
# The memory in bytes that the program may take for a long list.
MEMORY = 67_108_864
TOO_LONG = b"keep-toml: input longer than %d bytes" % LIMIT
ERRORS = (errno.EINTR, errno.EAGAIN, errno.EIO, errno.EISDIR, errno.ENOMEM, errno.EPIPE, errno.ENOSPC, errno.ECONNRESET)
# The status of words that can't be read, so that no input is.
WORDS = 2


def read_failed(row):
    return Row(row.name, row.words, row.given, 3, b"", b"keep-toml: read failed")


def write_failed(row, taken):
    return Row(row.name, row.words, row.given, 3, row.output[:taken], b"keep-toml: write failed after %d bytes" % taken)


# Streams between the program and the system


def over(program, streams, row, **settings):
    """What the program answers where its streams are set so."""
    env = {**os.environ, "LD_PRELOAD": streams, **{name: str(it) for name, it in settings.items()}}
    return answer(program, row.words, row.given, env=env)


def slow_settings(row):
    """Streams of one byte a call, with what is wanted: the row's answer, or that of the call that fails."""
    pieces = {"READ_STEP": 1, "WRITE_STEP": 1}
    yield pieces, row
    for turn in range(len(row.given) + 1):
        yield {**pieces, "READ_FAILS": turn, "ERROR": errno.EINTR}, row if row.status == WORDS else read_failed(row)
    for call in range(len(row.output)):
        yield {**pieces, "WRITE_FAILS": call, "ERROR": errno.EINTR}, write_failed(row, call)
    yield {"WRITE_STEP": 0}, write_failed(row, 0) if row.output else row
    yield {"WRITE_FAILS": 0}, write_failed(row, 0) if row.output else row


def error_settings(row):
    """An error of each kind, at each turn and call."""
    for error in ERRORS:
        for turn in range(len(row.given) + 1):
            yield {"READ_STEP": 1, "READ_FAILS": turn, "ERROR": error}, read_failed(row)
        for call in range(len(row.output)):
            yield {"WRITE_STEP": 1, "WRITE_FAILS": call, "ERROR": error}, write_failed(row, call)


def space_settings():
    """Inputs of spaces, in blocks or one a turn, with how often the program asks: for 8 KB, then for 64 KB."""
    blocks = 1 + -(-(LIMIT - 8_192) // 65_536)
    for step, turns, turns_past in ((1, LIMIT + 1, LIMIT + 1), (65_536, blocks + 1, blocks)):
        settings = {"READ_STEP": step, "CALLS": 1}
        output, calls = b"ok tokens=2 nodes=1\n", b"reads=%d writes=1" % turns
        yield {**settings, "SPACES": LIMIT}, Row("as many spaces as may be", [b"check"], b"", 0, output, calls)
        calls = TOO_LONG + b"\nreads=%d writes=0" % turns_past
        yield {**settings, "SPACES": LIMIT + 1}, Row("a space too many", [b"check"], b"", 3, b"", calls)
        yield {**settings, "SPACES": -1}, Row("spaces that never end", [b"check"], b"", 3, b"", calls)


def block_settings():
    """A list of several blocks: one write for each, and what is there where the write of each number in turn fails."""
    names = [b"key_%05d" % it for it in range(12_000)]
    blocks = [b""]
    for name in names:
        blocks += [b""] if len(blocks[-1]) >= BLOCK else []
        blocks[-1] += name + b"\tinteger\n"
    given = b"".join(name + b" = 1\n" for name in names)
    row = Row("a list of several blocks", [b"list"], given, 0, b"".join(blocks))
    calls = b"reads=%d writes=%d" % (len(given) + 1, len(blocks))
    yield {"READ_STEP": 1, "CALLS": 1}, Row(row.name, row.words, given, 0, row.output, calls)
    for call in range(len(blocks)):
        yield {"WRITE_FAILS": call}, write_failed(row, sum(map(len, blocks[:call])))


def run_settings(count, program, streams, cases):
    """Runs the program for each case: settings of the streams, and the row that is wanted then."""
    cases = list(cases)
    for (settings, row), ran in zip(cases, in_parallel(lambda it: over(program, streams, it[1], **it[0]), cases)):
        count.add(f"{row.name}, {settings}", failure(row, ran))


# Streams of the system


def redirected(program, redirection, *words, given=b""):
    """What the program answers where a shell opens or closes its streams."""
    return answer("/bin/sh", ["-c", f'exec "$@" {redirection}', "sh", program, *words], given)


REDIRECTED = [
    ("a closed input", "<&-", read_failed(Row("", [b"check"]))),
    ("an input that is open for writing", "0>/dev/null", read_failed(Row("", [b"check"]))),
    ("a folder as input", "</", read_failed(Row("", [b"check"]))),
    ("no input", "</dev/null", Row("", [b"check"], b"", 0, b"ok tokens=1 nodes=1\n")),
    ("an endless input", "</dev/zero", Row("", [b"check"], b"", 3, b"", TOO_LONG)),
    ("a closed output", ">&-", write_failed(Row("", [b"check"], b"a = 1"), 0)),
    ("an output that is open for reading", "1</dev/null", write_failed(Row("", [b"check"], b"a = 1"), 0)),
    ("a full device", ">/dev/full", write_failed(Row("", [b"check"], b"a = 1"), 0)),
    ("a closed output that is not needed", ">&-", Row("", [b"list"], b"")),
    ("a fault with no output and no standard error", ">&- 2>&-", Row("", [b"check"], b"a =", 3)),
    ("a fault with a full standard error", "2>/dev/full", Row("", [b"check"], b"a =", 3)),
    ("no words and no streams", "<&- >&- 2>&-", Row("", [b"get"], b"", 3)),
]


def run_redirected(count, program):
    for name, redirection, row in REDIRECTED:
        count.add(name, failure(row, redirected(program, redirection, *row.words, given=row.given)))


def run_short_output(count, program):
    """An output that takes one byte and then fails: a file that may have one byte."""
    row = write_failed(Row("an output that takes one byte", [b"get", b"a"], b"a = 12\n", 0, b"12\n"), 1)
    limit = lambda: resource.setrlimit(resource.RLIMIT_FSIZE, (1, 1))
    how = {"capture_output": False, "stderr": subprocess.PIPE, "restore_signals": False, "preexec_fn": limit}
    with TemporaryDirectory() as folder:
        with open(Path(folder, "short"), "wb") as out:
            ran = answer(program, row.words, row.given, stdout=out, **how)
        ran.stdout = Path(folder, "short").read_bytes()
    count.add(row.name, failure(row, ran))


def run_closing_pipes(count, program):
    """An output whose reader takes some bytes and then closes it; the program may have written more into the pipe."""
    keys = b"".join(b"k%d = 1\n" % it for it in range(20_000))
    whole = answer(program, [b"list"], keys).stdout
    for taken in (0, 1, 100, 70_000):
        with TemporaryDirectory() as folder:
            file = Path(folder, "keys.toml")
            file.write_bytes(keys)
            count.add(f"an output that is closed after {taken} bytes", closing_failure(program, file, taken, whole))


def closing_failure(program, file, taken, whole):
    with open(file, "rb") as given:
        pipes = {"stdout": subprocess.PIPE, "stderr": subprocess.PIPE, "bufsize": 0}
        ran = subprocess.Popen([program, "list"], stdin=given, **pipes)
    got = b""
    while len(got) < taken:
        got += ran.stdout.read(taken - len(got))
    ran.stdout.close()
    line = ran.stderr.read()
    ran.stderr.close()
    status, found = ran.wait(timeout=120), re.fullmatch(rb"keep-toml: write failed after (\d+) bytes\n", line)
    is_well = status == 3 and found and whole.startswith(got) and len(got) <= int(found[1]) < len(whole)
    return None if is_well else f"status {status}, {short(line)}, {short(got)}"


def run_endless_pipe(count, program):
    """An input of lines that never ends; whoever writes them is stopped."""
    with subprocess.Popen(["yes", "a = 1"], stdout=subprocess.PIPE) as lines:
        ran = answer(program, [b"check"], None, stdin=lines.stdout)
        lines.stdout.close()
        lines.terminate()
    row = Row("an endless pipe", [], b"", 3, b"", TOO_LONG)
    count.add(row.name, failure(row, ran))


def run_long_list(count, program):
    """A list of 297 MB in 64 MB of memory: a header of 3,000 keys over 3,000 keys is a document of 123 KB."""
    path, keys = b".".join(b"%021d" % it for it in range(3_000)), [b"%014d" % it for it in range(3_000)]
    tables = (path[: 22 * it + 21] + b"\ttable\n" for it in range(3_000))
    lines = chain(tables, (path + b"." + key + b"\tinteger\n" for key in keys))
    limit = lambda: resource.setrlimit(resource.RLIMIT_AS, (MEMORY, MEMORY))
    pipes = {"stdout": subprocess.PIPE, "stderr": subprocess.PIPE, "preexec_fn": limit}
    with TemporaryDirectory() as folder:
        file = Path(folder, "long.toml")
        file.write_bytes(b"[" + path + b"]\n" + b"".join(key + b" = 1\n" for key in keys))
        with open(file, "rb") as given, subprocess.Popen([program, "list"], stdin=given, **pipes) as ran:
            is_whole = all(ran.stdout.read(len(line)) == line for line in lines) and not ran.stdout.read(1)
            ran.stdout.close()
            error = ran.stderr.read()
    is_well = is_whole and ran.returncode == 0 and not error
    count.add("a long list in little memory", None if is_well else f"status {ran.returncode}, {short(error)}")


def main(program, streams):
    count = Count()
    run_redirected(count, program)
    run_short_output(count, program)
    run_closing_pipes(count, program)
    run_endless_pipe(count, program)
    run_long_list(count, program)
    if streams != "-":
        for row in rows_of(HERE / "subcommands.tsv"):
            run_settings(count, program, streams, slow_settings(row))
        run_settings(count, program, streams, error_settings(Row("get", [b"get", b"a"], b"a = 1 # x\n", 0, b"1\n")))
        run_settings(count, program, streams, space_settings())
        run_settings(count, program, streams, block_settings())
    return count.close("streams")


if __name__ == "__main__":
    sys.exit(main(*sys.argv[1:3]))
