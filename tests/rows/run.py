#!/usr/bin/env python3
"""Runs the rows of the tests over the two built programs, prints each row that fails, and how many passed and failed.

    tests/rows/run.py KEEP_TOML KEEP_ROWS

KEEP_TOML is the program and KEEP_ROWS the one that answers rows about the libraries, each as it was built; with
KEEP_ROWS as '-', what needs it is left out.

A row of rows/*.tsv is a line of cells with tabs between them: its name, the status, the line on standard error, the
standard input, the standard output, and then the words. A cell is written as ask.py says. A line on standard error that
ends in * is the beginning of what is written there; an empty one is nothing. Expected answers come from outside the
program: from the tables of the language, or computed by other means (made.py).

A line of model_cases.tsv is a case that an independent model of the program answered: the status, the line on
standard error or - where clap speaks, the input, the output, and then the words. A cell has \\xHH for bytes, and no
other escape.
"""
import re
import sys
from pathlib import Path

# (no folder of compiled modules is left in the repository)
sys.dont_write_bytecode = True
from ask import Count, Row, answer, cells_of, failure, in_parallel, plain, row_line, rows_of, short
from made import large_questions, large_rows

HERE = Path(__file__).resolve().parent
CASES = HERE / "model_cases.tsv"


def cases():
    """The cases of the model."""
    for where, (status, *cells) in cells_of(CASES):
        error, given, output, *words = map(plain, cells)
        error = b"*" if error == b"-" else error
        yield Row(where, words, given, int(status), output, error)


def run_rows(count, program, rows):
    for row, ran in zip(rows, in_parallel(lambda row: answer(program, row.words, row.given), rows)):
        count.add(row.name, failure(row, ran))


def run_questions(count, program, rows):
    """Answers rows by keep_test_rows, which prints those that fail and a count."""
    given = b"".join(row_line(*map(str.encode, row)) for row in rows)
    ran = answer(program, [], given)
    said = ran.stdout.decode(errors="replace").splitlines() or ["nothing"]
    for line in said[:-1]:
        print(f"FAILED keep_test_rows, {line[:400]}")
    counts = re.fullmatch(r"(\d+) passed, (\d+) failed", said[-1])
    if not counts or int(counts[1]) + int(counts[2]) != len(rows):
        count.add("keep_test_rows", f"{said[-1][:200]!r} for {len(rows)} rows; {short(ran.stderr)}")
        return
    count.passed += int(counts[1])
    count.failed += int(counts[2])


def run_false_row(count, program):
    """Shows that keep_test_rows prints a row that fails."""
    ran = answer(program, [], b"a false row\t2\tsyntax\tdepth\t[1]\tstrict\n")
    row = Row("a false row is printed", [], b"", 1, b'a false row: "1"\n0 passed, 1 failed\n')
    count.add(row.name, failure(row, ran))


def main(keep_toml, keep_test_rows):
    count = Count()
    for file in sorted((HERE / "program").glob("*.tsv")):
        run_rows(count, keep_toml, list(rows_of(file)))
    run_rows(count, keep_toml, list(cases()))
    run_rows(count, keep_toml, list(large_rows()))
    if keep_test_rows != "-":
        run_questions(count, keep_test_rows, list(large_questions()))
        run_false_row(count, keep_test_rows)
    return count.close("rows")


if __name__ == "__main__":
    sys.exit(main(*sys.argv[1:3]))
