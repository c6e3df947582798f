#!/usr/bin/env python3
"""lists.py KIND COUNT [SEED] < DOCUMENT    a script of so many edits of that kind for a document, on standard output

The same words give the same script. Kinds: set (of values that are scalars), set_list (the same by lists), rename and
remove (each of another key with a scalar), insert (of a key into any table with a header), insert_one (into the last
of these), table and element (below tables with headers), random (each of the six as often; what is set, renamed or
removed is another key each time, and an insert goes into any table), and three that come back to a key at once:
insert_remove, remove_insert, insert_rename. Where a document has too few keys, there are fewer edits."""
import os
import random
import re
import subprocess
import sys

PROGRAM = os.path.join(os.path.dirname(os.path.abspath(__file__)), "..", "dist", "keep-toml")
SCALARS = "string integer float boolean offset-date-time local-date-time local-date local-time".split()


def quoted(text):
    return '"' + text.replace("\\", "\\\\").replace('"', '\\"') + '"'


def edit(op, path, **word):
    words = "".join("%s = %s\n" % (key, quoted(text)) for key, text in word.items())
    return '[[edit]]\nop = "%s"\npath = %s\n%s' % (op, quoted(path), words)


def below(table, key):
    return table + "." + key if table else key


def enclosing(path):
    """The paths that this one goes on from, the nearest first."""
    while (end := max(path.rfind("."), path.rfind("["))) > 0:
        path = path[:end]
        yield path


class Lists:
    """Makes lists of edits of one document."""

    def __init__(self, document, seed):
        listed = subprocess.run([PROGRAM, "list"], input=document, capture_output=True, check=True).stdout.decode()
        nodes = [line.split("\t") for line in listed.splitlines()]
        values = {path for path, kind in nodes if kind in ("array", "inline-table")}
        outside = [(path, kind) for path, kind in nodes if values.isdisjoint(enclosing(path))]
        self.random = random.Random(seed)
        self.headers = re.findall(r"^\[([^\[\]\n]+)\]", document.decode(), re.M)
        self.tables = [path for path, kind in outside if kind == "table"]
        self.headed = [path for path in self.tables if path in set(self.headers) or path.endswith("]")] or [""]
        self.lines = [path for path, kind in outside if kind in SCALARS and not path.endswith("]")]
        self.random.shuffle(self.lines)

    def any_header(self):
        return self.random.choice(self.headers) if self.headers else ""

    def set(self, number, value="%d"):
        return edit("set", self.random.choice(self.lines), value=value % number)

    def set_list(self, number):
        return self.set(number, "[%d, 2, 3]")

    def rename(self, number):
        return edit("rename", self.lines.pop(), key="r%d" % number)

    def remove(self, number):
        return edit("remove", self.lines.pop())

    def insert(self, number, table=None):
        table = self.random.choice(self.headed) if table is None else table
        return edit("insert", below(table, "n%d" % number), value=str(number))

    def insert_one(self, number):
        return self.insert(number, self.headed[-1])

    def table(self, number):
        return edit("table", below(self.any_header(), "t%d" % number))

    def element(self, number):
        return edit("element", below(self.headers[0] if self.headers else "", "es"))

    def any_of_six(self, number):
        kind = self.random.choice(["set", "insert", "remove", "rename", "table", "element"])
        if kind == "set" and self.lines:
            return edit("set", self.lines.pop(), value=str(number))
        if kind in ("remove", "rename") and self.lines:
            return getattr(self, kind)(number)
        if kind in ("table", "element"):
            return edit(kind, below(self.any_header(), "t%d" % number))
        return self.insert(number, self.random.choice(self.tables + [""]))

    def insert_remove(self, number):
        path = below(self.random.choice(self.headed), "n%d" % number)
        return edit("insert", path, value="1") + edit("remove", path)

    def remove_insert(self, number):
        path = self.lines.pop()
        return edit("remove", path) + edit("insert", path, value="1")

    def insert_rename(self, number):
        path = below(self.random.choice(self.headed), "n%d" % number)
        return edit("insert", path, value="1") + edit("rename", path, key="r%d" % number)


IN_PAIRS = ["insert_remove", "remove_insert", "insert_rename"]
KINDS = "set set_list rename remove insert insert_one table element random".split() + IN_PAIRS


def script(document, kind, count, seed=1):
    """A script of so many edits, or of as many as the document has keys for."""
    lists = Lists(document, seed)
    make = lists.any_of_six if kind == "random" else getattr(lists, kind)
    edits = []
    for number in range(count // 2 if kind in IN_PAIRS else count):
        if not lists.lines and kind in ("rename", "remove", "remove_insert"):
            break
        edits.append(make(number))
    return "".join(edits)


if __name__ == "__main__":
    if len(sys.argv) not in (3, 4) or sys.argv[1] not in KINDS:
        raise SystemExit(__doc__)
    text = sys.stdin.buffer.read()
    sys.stdout.write(script(text, sys.argv[1], int(sys.argv[2]), *map(int, sys.argv[3:])))
