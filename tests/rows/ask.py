"""How the tests ask the programs that were built: the program itself by words and an input, and keep_test_rows by rows.

In a cell of a file of rows \\n, \\r, \\t and \\\\ stand for those bytes, \\xHH for a byte by two hexadecimal digits,
and \\e for nothing (an empty word).
"""
import os
import re
import subprocess
import sys
from concurrent.futures import ThreadPoolExecutor
from dataclasses import dataclass

ESCAPES = {b"n": b"\n", b"r": b"\r", b"t": b"\t", b"\\": b"\\", b"e": b""}
WRITTEN = {byte: b"\\" + letter for letter, byte in ESCAPES.items() if byte}
# How keep_test_rows prints an answer: Rust's form of a text between quotation marks.
PRINTED = {"n": "\n", "r": "\r", "t": "\t", "0": "\0", "\\": "\\", '"': '"', "'": "'"}
PROCESSORS = len(os.sched_getaffinity(0))
# No answer of keep_test_rows is this, since an answer is UTF-8: so a row that wants it always prints what it answered.
NO_ANSWER = b"\xff"


@dataclass
class Row:
    """What the program is given, and what is wanted of it."""

    name: str
    words: list
    given: bytes = b""
    status: int = 0
    output: bytes = b""
    error: bytes = b""


def plain(cell):
    """The bytes that a cell stands for."""

    def byte(found):
        return bytes.fromhex(found[2].decode()) if found[2] else ESCAPES[found[1]]

    return re.sub(rb"\\(x([0-9a-f]{2})|[nrte\\])", byte, cell)


def cell(data):
    """The cell that stands for bytes."""

    def escape(found):
        return WRITTEN.get(found[0]) or b"\\x%02x" % found[0][0]

    return re.sub(rb"[^ -\[\]-~]", escape, data)


def cells_of(file):
    """The cells of each row of a file, behind the file's name and the line."""
    for number, line in enumerate(file.read_bytes().split(b"\n"), 1):
        if line and not line.startswith(b"#"):
            yield f"{file.name}, line {number}", line.split(b"\t")


def rows_of(file):
    """The rows of a file over the program: name, status, line on standard error, input, output, and then the words."""
    for where, cells in cells_of(file):
        if len(cells) < 5:
            sys.exit(f"{where}: a row has a name, a status, a line, input, output and its words")
        error, given, output, *words = map(plain, cells[2:])
        yield Row(f"{where}: {cells[0].decode()}", words, given, int(cells[1]), output, error)


def short(data):
    return repr(data if len(data) < 200 else data[:90] + b" .. " + data[-90:])


def is_said(error, wanted):
    """Whether a line on standard error is the wanted one, or begins so where that ends in `*`."""
    if wanted.endswith(b"*"):
        return error.startswith(wanted[:-1])
    return error == (wanted + b"\n" if wanted else b"")


def failure(row, ran):
    """Why an answer is not the wanted one; None where it is."""
    if ran.returncode != row.status:
        return f"status {ran.returncode}, not {row.status}; {short(ran.stderr)}"
    if ran.stdout != row.output:
        return f"output {short(ran.stdout)}, not {short(row.output)}"
    if not is_said(ran.stderr, row.error):
        return f"standard error {short(ran.stderr)}, not {short(row.error)}"
    return None


class Count:
    """How many rows passed and failed, with a line for each that failed."""

    def __init__(self):
        self.passed = self.failed = 0

    def add(self, name, why):
        if why is None:
            self.passed += 1
        else:
            self.failed += 1
            print(f"FAILED {name}: {why}", flush=True)

    def close(self, name):
        """Prints the count as the last line of a part of ./test, and answers the status."""
        print(f"{name}: {self.passed} passed, {self.failed} failed", flush=True)
        return 1 if self.failed else 0


def answer(program, words, given, **how):
    """What a program answers to words and an input."""
    return subprocess.run([program, *words], **{"input": given, "capture_output": True, "timeout": 120, **how})


def in_parallel(function, items):
    """What a function answers to each item, in their order; it runs on all processors, and waits for programs."""
    with ThreadPoolExecutor(PROCESSORS) as pool:
        yield from pool.map(function, items)


def row_line(*cells):
    """The line of a row for keep_test_rows: its name, the wanted answer, a group, a question of that group, and words."""
    return b"\t".join(map(cell, cells)) + b"\n"


def printed(text):
    """The text that keep_test_rows printed between quotation marks."""

    def character(found):
        return chr(int(found[2], 16)) if found[2] else PRINTED[found[1]]

    return re.sub(r"\\(u\{([0-9a-f]+)\}|[nrt0\\\"'])", character, text)


def answers(keep_test_rows, questions):
    """What keep_test_rows answers to questions, as bytes; a question is a group, a name in it, and words."""
    given = b"".join(row_line(b"%d" % number, NO_ANSWER, *it) for number, it in enumerate(questions))
    lines = answer(keep_test_rows, [], given).stdout.decode().split("\n")[:-2]
    if len(lines) != len(questions):
        raise RuntimeError(f"keep_test_rows answered {len(lines)} of {len(questions)} rows: {questions[len(lines)]}")
    return [printed(line[line.index('"') + 1 : -1]).encode() for line in lines]
