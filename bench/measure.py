#!/usr/bin/env python3
"""measure.py FOLDER    counts instructions of the program in dist/, and of toml_edit beside it

These are the figures of docs/MEASUREMENTS.md. The counts are kept in FOLDER, so a run that was stopped goes on; a count
is made anew where its program has changed. It needs valgrind. toml_edit is measured where it was built: `cargo build
--release` in bench/toml_edit. Copies of memory are counted by 32 bytes (glibc's tunable), and a process is counted
whole, with what it reads and writes. Prints tables in Markdown, in millions of instructions: ours, and toml_edit's
after a semicolon. JOBS are that many counts at once."""
import hashlib
import json
import os
import re
import subprocess
import sys
from concurrent.futures import ThreadPoolExecutor

from documents import document
from lists import script

HERE = os.path.dirname(os.path.abspath(__file__))
OURS = os.path.join(HERE, "..", "dist", "keep-toml")
THEIRS = os.path.join(HERE, "toml_edit", "target", "release", "toml_edit_bench")
SIZES = {"10 KB": 10_000, "100 KB": 100_000, "1 MB": 1_000_000}
COUNTS = [1, 10, 100, 1000]
KINDS = {
    "set": "`set` of a scalar",
    "set_list": "`set` of a list",
    "rename": "`rename`",
    "remove": "`remove`",
    "insert": "`insert` into any table",
    "insert_one": "`insert` into one table",
    "table": "`table`",
    "element": "`element`",
    "random": "all six at random",
}
IN_PAIRS = {
    "insert_remove": ("mix", "`insert`, then `remove`"),
    "remove_insert": ("dense", "`remove`, then `insert`"),
    "insert_rename": ("mix", "`insert`, then `rename`"),
}
SHAPES = {
    "mix": "mix",
    "lock": "lock file",
    "flat": "root keys",
    "array": "one array",
    "elements": "arrays of tables",
    "comments": "comments",
    "dotted": "dotted keys",
    "strings": "long strings",
    "subtables": "many tables",
}
# what 200 KB of are read, between these
SHORT = {
    "empty": ("", "\n", ""),
    "`#`": ("", "#\n", ""),
    "a blank": ("", " \n", ""),
    "three blanks": ("", "   \n", ""),
    "`true,`": ("a = [", "true,", "]\n"),
    "`[],`": ("a = [", "[],", "]\n"),
    "one line of blanks": ("", " ", "\n"),
    "newlines in one `'''`": ("a = '''", "\n", "'''\n"),
    "one float": ("a = 1.", "1", "\n"),
}
TUNABLE = "glibc.cpu.x86_rep_movsb_threshold=1000000000"


class Counter:
    """Counts the instructions of runs, each once for each program."""

    def __init__(self, folder):
        self.folder = folder
        self.file = os.path.join(folder, "counts.json")
        self.counts = json.load(open(self.file)) if os.path.exists(self.file) else {}
        there = [program for program in (OURS, THEIRS) if os.path.exists(program)]
        self.programs = {program: hashlib.sha256(open(program, "rb").read()).hexdigest() for program in there}

    def count(self, program, words, text):
        """Millions of instructions, or None where there is no such program."""
        if program not in self.programs:
            return None
        of_all = "\0".join([self.programs[program], *words]).encode() + text
        key = hashlib.sha256(of_all).hexdigest()
        if key not in self.counts:
            self.counts[key] = self.counted(key, program, words, text)
        return self.counts[key]

    def counted(self, key, program, words, text):
        out = os.path.join(self.folder, key)
        command = ["valgrind", "--tool=callgrind", "--callgrind-out-file=" + out, program, *words]
        environment = dict(os.environ, GLIBC_TUNABLES=TUNABLE)
        run = subprocess.run(command, input=text, capture_output=True, env=environment)
        if os.path.exists(out):
            os.remove(out)
        if run.returncode:
            raise SystemExit("%s %s: %s" % (program, words[:1], run.stderr.decode()[-300:]))
        return int(re.search(rb"Collected : (\d+)", run.stderr).group(1)) / 1e6

    def both(self, words, text):
        theirs = ["apply", set_script(*words[1:])] if words[0] == "set" else words
        return told(self.count(OURS, words, text)) + "; " + told(self.count(THEIRS, theirs, text))

    def keep(self):
        json.dump(self.counts, open(self.file, "w"))


def set_script(path, value):
    return '[[edit]]\nop = "set"\npath = "%s"\nvalue = "%s"\n' % (path, value)


def told(count):
    if count is None:
        return "-"
    return "%.3g" % count if count < 100 else "%.0f" % count


def row(first, cells):
    print("| %s | %s |" % (first, " | ".join(cells)))


def head(cells):
    print("\n| %s |\n|%s" % (" | ".join(cells), "---|" * len(cells)))


def table(counter, pool, heads, rows):
    """Prints a table: of each row its name, and the words and the document of each cell."""
    head(heads)
    for name, cells in rows:
        row(name, pool.map(lambda cell: counter.both(*cell), cells))
        counter.keep()


def of_shape(shape):
    text = document(shape, 1_000_000).encode()
    return [(["check"], text), (["get", "first"], text), (["set", "first", "2"], text)]


def of_short(before, part, after):
    return [(["check"], (before + part * (200_000 // len(part)) + after).encode())]


def of_list(shape, size, kind, count, seed=1):
    text = document(shape, size).encode()
    return ["apply", script(text, kind, count, seed)], text


def of_kind(kind, size):
    """Of tables of short keys where the mix has fewer of them than are renamed or removed."""
    shape = "dense" if kind in ("rename", "remove") and size == SIZES["10 KB"] else "mix"
    return [of_list(shape, size, kind, count) for count in COUNTS]


def with_carriage_returns(size):
    """A list at random of the mix, each newline of which has a carriage return."""
    words, text = of_list("mix", size, "random", 1000)
    return words, text.replace(b"\n", b"\r\n")


def at_random():
    """The rows of lists at random: of some shapes, two lists more of the mix, and one where newlines have carriage returns."""
    lists = [(SHAPES[shape], shape, 1) for shape in ("lock", "flat", "elements", "subtables", "dotted")]
    lists += [("mix, list %d" % seed, "mix", seed) for seed in (2, 3)]
    for name, shape, seed in lists:
        yield name, [of_list(shape, size, "random", 1000, seed) for size in SIZES.values()]
    yield "mix, with carriage returns", [with_carriage_returns(size) for size in SIZES.values()]


def in_pairs():
    for kind, (shape, name) in IN_PAIRS.items():
        yield name, [of_list(shape, SIZES[size], kind, count) for size in ("10 KB", "100 KB") for count in (100, 1000)]


def main():
    if len(sys.argv) != 2:
        raise SystemExit(__doc__)
    os.makedirs(sys.argv[1], exist_ok=True)
    counter = Counter(sys.argv[1])
    with ThreadPoolExecutor(int(os.environ.get("JOBS", "2"))) as pool:
        shapes = [(name, of_shape(shape)) for shape, name in SHAPES.items()]
        table(counter, pool, ["1 MB", "check", "get", "set"], shapes)
        table(counter, pool, ["200 KB", "check"], [(name, of_short(*parts)) for name, parts in SHORT.items()])
        for size, bytes_ in SIZES.items():
            rows = ((name, of_kind(kind, bytes_)) for kind, name in KINDS.items())
            table(counter, pool, [size, *map(str, COUNTS)], rows)
        table(counter, pool, ["1,000 at random", *SIZES], at_random())
        table(counter, pool, ["in pairs", "10 KB: 100", "1,000", "100 KB: 100", "1,000"], in_pairs())


if __name__ == "__main__":
    main()
