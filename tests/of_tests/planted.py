#!/usr/bin/env python3
"""Plants faults into the program, and shows that the tests find each.

    tests/of_tests/planted.py KEEP_TOML

The program of tests/of_tests/wrong_program is wrong in one way that its environment names. It stands in the place of KEEP_TOML, and a
test has to fail over it, in a few seconds. ./fuzz also has to keep the document, over which it then fails again, but
not over the right program.
"""
import os
import subprocess
import sys
from pathlib import Path
from tempfile import TemporaryDirectory

sys.dont_write_bytecode = True
sys.path[:0] = [str(Path(__file__).resolve().parents[1] / it) for it in ("rows", "properties", "hostile")]
import each_byte
import edit_runs
import streams
from ask import Count, failure, in_parallel

HERE = Path(__file__).resolve().parent
WRONG = str(HERE / "wrong_program")
FUZZ = str(HERE.parents[1] / "fuzz")
# (a worker stops at the first fault, so this is for slow machines)
SECONDS = "200"
FOUND_BY_FUZZ = """
    always_out_of_memory accepts_all counts_too_much forgets_the_last_entry has_other_kinds has_other_values
    has_other_strings makes_no_edit drops_gaps drops_comments drops_the_last_newline removes_a_line_more
    inserts_at_end_of_file refuses_disliked_documents writes_before_all_is_decided makes_refused_edits
""".split()
FOUND_BY_CHANGED = ["accepts_all", "counts_too_much", "refuses_disliked_documents", "writes_before_all_is_decided"]
FOUND_BY_RUNS = ["loses_a_line_of_long_lists"]
FOUND_BY_STREAMS = {
    "ignores_failed_input": "a folder as input",
    "ignores_failed_output": "a full device",
    "reads_one_block": "an endless input",
}


def with_fault(name, right):
    return {**os.environ, "WRONG": name, "RIGHT": right}


def ran(command, **how):
    return subprocess.run(command, stdout=subprocess.PIPE, stderr=subprocess.STDOUT, text=True, timeout=300, **how)


def fuzz_failure(name, right):
    """Why a fault is not found by ./fuzz, or its document not kept; None if all is well."""
    wrong = {**with_fault(name, right), "KEEP_TOML": WRONG}
    with TemporaryDirectory() as folder:
        found = ran([FUZZ, SECONDS, name], env=wrong, cwd=folder)
        kept = sorted(Path(folder).iterdir())
        if found.returncode != 1 or "FAILED " not in found.stdout or not kept:
            return f"not found: {found.stdout[-400:]}"
        if ran([FUZZ, "--again", str(kept[0])], env=wrong).returncode == 0:
            return "not found again"
        again = ran([FUZZ, "--again", str(kept[0])], env={**os.environ, "KEEP_TOML": right})
        return f"found in the right program: {again.stdout[-400:]}" if again.returncode else None


def changed_failure(name, right):
    """Why a fault is not found by the reading of texts that are cut and each_byte."""
    os.environ.update(with_fault(name, right))
    texts = list(each_byte.variants(b"a = 1 # x\n"))
    return None if any(each_byte.program_failure(WRONG, text)[0] for text in texts) else "not found"


def runs_failure(name, right):
    """Why a fault is not found by long lists of edits."""
    os.environ.update(with_fault(name, right))
    return None if any(edit_runs.Run(WRONG, number).failure() for number in range(1000, 1008)) else "not found"


def streams_failure(name, right):
    """Why a fault is not found over the stream that shows it."""
    os.environ.update(with_fault(name, right))
    ((_, redirection, row),) = (it for it in streams.REDIRECTED if it[0] == FOUND_BY_STREAMS[name])
    found = streams.redirected(WRONG, redirection, *row.words, given=row.given)
    return None if failure(row, found) else "not found"


def main(right):
    count, right = Count(), os.path.abspath(right)
    for name, why in zip(FOUND_BY_FUZZ, in_parallel(lambda it: fuzz_failure(it, right), FOUND_BY_FUZZ)):
        count.add(f"planted for ./fuzz: {name}", why)
    for name in FOUND_BY_CHANGED:
        count.add(f"planted for each_byte.py: {name}", changed_failure(name, right))
    for name in FOUND_BY_RUNS:
        count.add(f"planted for edit_runs.py: {name}", runs_failure(name, right))
    for name in FOUND_BY_STREAMS:
        count.add(f"planted for streams.py: {name}", streams_failure(name, right))
    return count.close("planted")


if __name__ == "__main__":
    sys.exit(main(*sys.argv[1:2]))
