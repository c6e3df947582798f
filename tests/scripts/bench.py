#!/usr/bin/env python3
"""Makes the documents and lists of edits that bench/ measures, and gives them to the program: it has to take each.

    tests/scripts/bench.py PROGRAM
"""
import subprocess
import sys
from pathlib import Path

sys.path.insert(0, str(Path(__file__).resolve().parents[2] / "bench"))
sys.dont_write_bytecode = True
import documents
import lists

SIZE = 5_000


def is_taken(program, words, text):
    """Whether the program ends with 0."""
    run = subprocess.run([program, *words], input=text, capture_output=True)
    if run.returncode:
        print("bench: %s: %s" % (words[0], run.stderr.decode().strip()))
    return run.returncode == 0


def main(program):
    lists.PROGRAM = program
    taken = []
    for shape in documents.SHAPES:
        text = documents.document(shape, SIZE).encode()
        if len(text) > SIZE:
            print("bench: %s is too long" % shape)
            taken.append(False)
        taken.append(is_taken(program, ["check"], text))
        taken.append(is_taken(program, ["apply", lists.script(text, "random", 50)], text))
    text = documents.document("mix", SIZE).encode()
    for kind in lists.KINDS:
        taken.append(is_taken(program, ["apply", lists.script(text, kind, 20)], text))
    print("bench: %d passed, %d failed" % (taken.count(True), taken.count(False)))
    return 1 if False in taken else 0


if __name__ == "__main__":
    sys.exit(main(sys.argv[1]))
