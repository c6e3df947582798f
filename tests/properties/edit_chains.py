#!/usr/bin/env python3
"""Makes chains of random edits on documents of many shapes, and compares each step with a fresh reading.

    tests/properties/edit_chains.py KEEP_TOML KEEP_ROWS [EDITS [SEED]]

Each of twenty documents takes a chain of EDITS (200, if not given) that are not refused. What each edit has to give is told by
the program, which reads the whole text every time. keep_test_rows makes the edits in one document, where each reads the
lines that it touches alone, and compares tokens, counts, nodes and values with those of a fresh reading: for every step of
the chain, from a fresh document at every tenth step.

In every tenth text of a chain, the lines that a random span touches are replaced by others too: what keep_test_rows tells of
the syntax that is reread is what it tells of a fresh reading.
"""
import sys
from pathlib import Path
from random import Random

sys.dont_write_bytecode = True
sys.path[:0] = [str(Path(__file__).resolve().parents[2] / it) for it in ("tests/rows",)]
from ask import Count, answer, answers, in_parallel, short

DOCUMENTS = 20
STEPS = 10
LONGEST = 3_000
KEYS = [b"name", b"version", b"a-b", b"x1", b"deps", b"note", b"port", b"tags", b"0", b"k_9"]
VALUES = [
    *(b"1", b"-7", b"0xFF", b"3.5", b"true", b'"text"', b"'raw \\'", b'"""\nlong\n  # none\n"""', b"2020-01-02", b"07:32:00"),
    *(b"[]", b"[1, 2]", b"[ # c\n  'x',\n  'y', # d\n]", b"{}", b"{ p = 1, q.r = [2] }", b'"\\u00e9 \\n"', b"'''\r\nz'''"),
]
TOLD = [b"counts", b"statements", b"keys", b"values"]
GAPS = [b"", b"\n", b"# a comment\n", b"  # another, [with] = \"signs\"\n\n"]


def line_of(random, depth):
    """A line with a keyval, perhaps with a dotted key and a comment behind it."""
    key = b".".join(random.choices(KEYS, k=random.choice((1, 1, 1, 2))))
    return b"  " * depth + key + random.choice((b" = ", b"=")) + random.choice(VALUES) + random.choice((b"", b"", b" # why")) + b"\n"


def dotted_of(random):
    """Lines that make one table of dotted keys, perhaps with another one in it."""
    table = b"of-" + random.choice(KEYS)
    keys = random.sample(KEYS, k=random.randrange(2, 5))
    lines = [(b".".join((table, *random.choices((b"in", key), k=random.choice((0, 0, 1))), key)), random.choice(VALUES)) for key in keys]
    return b"".join(b"%s = %s\n" % it for it in lines)


def section_of(random, number):
    """A header with its body."""
    name = random.choice(KEYS) + b"-%d" % number
    header = random.choice((b"[%s]", b"[%s.sub]", b"[[%s]]")) % name + b"\n"
    lines = b"".join(line_of(random, random.choice((0, 1))) for _ in range(random.randrange(5)))
    return random.choice(GAPS) + header + lines + (dotted_of(random) if random.random() < 0.5 else b"")


def document_of(random, is_accepted):
    """A document that is accepted; some have a byte order mark, some CR LF, some no last newline."""
    text = b""
    for number in range(random.randrange(4, 12)):
        more = section_of(random, number)
        if is_accepted(text + more):
            text += more
    for change in (lambda it: it.replace(b"\r\n", b"\n").replace(b"\n", b"\r\n"), lambda it: b"\xef\xbb\xbf" + it, bytes.rstrip):
        if random.random() < 0.3 and is_accepted(change(text)):
            text = change(text)
    return text


def edit_of(random, entries, size):
    """An edit as the three words that keep_test_rows takes: its name, a path, and a value, a key or nothing."""
    path, kind = random.choice(entries) if entries else (b"", b"table")
    fresh = random.choice(KEYS) + b"-%d" % random.randrange(100)
    prefix = path + b"." if path else b""
    name = random.choice(("set", "set", "insert", "insert", "insert", "rename", "remove", "table", "element"))
    if size > LONGEST and random.random() < 0.7:
        name = "remove"
    if name == "set":
        return b"set", path, random.choice(VALUES)
    if name == "insert":
        # A third of them are into tables that dotted keys make, as long as there are any.
        tables = [it for it, kind in entries if kind == b"table" and b"of-" in it]
        if tables and random.random() < 0.3:
            path, kind, prefix = (table := random.choice(tables)), b"table", table + b"."
        keys = [fresh, *random.choices(KEYS, k=random.choice((0, 0, 0, 1, 2)))]
        at = b"%s[%d]" % (path, random.randrange(3)) if kind == b"array" else prefix + b".".join(keys)
        return b"insert", at, random.choice(VALUES)
    if name == "rename":
        return b"rename", path, fresh
    if name == "remove":
        # Half of them are of lines that make a table of dotted keys, as long as there are any.
        dotted = [it for it, _ in entries if b"of-" in it and b".of-" in b"." + it.rsplit(b".", 1)[0]]
        return b"remove", random.choice(dotted) if dotted and random.random() < 0.5 else path, b""
    return name.encode(), prefix + fresh if b"[" not in path else fresh, b""


class Chain:
    """A document and the edits that it took so far, by the program."""

    def __init__(self, program, seed):
        self.program, self.random = program, Random(seed)
        self.texts, self.edits = [document_of(self.random, lambda it: not self.ran([b"check"], it).returncode)], []

    def ran(self, words, given):
        return answer(self.program, words, given)

    def entries(self):
        lines = self.ran([b"list"], self.texts[-1]).stdout.split(b"\n")[:-1]
        return [tuple(line.rsplit(b"\t", 1)) for line in lines]

    def grow(self):
        """Makes one edit; one that is refused changes nothing."""
        edit = edit_of(self.random, self.entries(), len(self.texts[-1]))
        words = [edit[0], b"--", *edit[1:]] if edit[2] else [edit[0], b"--", edit[1]]
        ran = self.ran(words, self.texts[-1])
        if ran.returncode == 0:
            self.texts.append(ran.stdout)
            self.edits.append(edit)

    def questions(self):
        """For each step: the edits since the tenth step before it at most, and the text that they have to give."""
        for step in range(1, len(self.edits) + 1):
            first = (step - 1) // STEPS * STEPS
            words = [word for edit in self.edits[first:step] for word in edit]
            yield (b"edits", b"all", self.texts[first], *words), b"done\n" + self.texts[step]


def chain_of(program, seed, edits):
    chain = Chain(program, seed)
    for _ in range(20 * edits):
        if len(chain.edits) == edits:
            break
        chain.grow()
    return chain


def replacements(keep_test_rows, chain):
    """Texts of a chain with a span and the lines that are to replace those that it touches, and the new text."""
    random, spans = chain.random, []
    for text in chain.texts[::STEPS]:
        start, end = sorted(random.randrange(3 * text.startswith(b"\xef\xbb\xbf"), len(text) + 1) for _ in range(2))
        lines = b"".join(line_of(random, random.choice((0, 1))) for _ in range(random.randrange(4)))
        spans.append((text, b"strict", b"%d" % start, b"%d" % end, random.choice(GAPS) + lines))
    for found, span in zip(answers(keep_test_rows, [(b"lines", b"touched", *it[:4]) for it in spans]), spans):
        start, end = map(int, found.split(b".."))
        yield span, span[0][:start] + span[4] + span[0][end:]


def reread_failures(keep_test_rows, chain):
    """What is told otherwise of a syntax that is reread than of a fresh one, for each replacement; None where it is the same."""
    for span, text in replacements(keep_test_rows, chain):
        reread = answers(keep_test_rows, [(b"lines", b"reread", *span, it) for it in TOLD])
        afresh = answers(keep_test_rows, [(b"syntax", it, text, b"strict") for it in TOLD])
        differs = [it for it in zip(reread, afresh) if it[0] != it[1]]
        yield f"{short(differs[0][0])}, not {short(differs[0][1])}; {span}" if differs else None


def main(keep_toml, keep_test_rows, edits="200", seed="1"):
    count = Count()
    numbers = [int(seed) * DOCUMENTS + number for number in range(DOCUMENTS)]
    for number, chain in zip(numbers, in_parallel(lambda it: chain_of(keep_toml, it, int(edits)), numbers)):
        asked = list(chain.questions())
        for step, (found, (_, wanted)) in enumerate(zip(answers(keep_test_rows, [it for it, _ in asked]), asked), 1):
            count.add(f"chain {number}, edit {step}", None if found == wanted else f"{short(found)}, not {short(wanted)}")
        for step, why in enumerate(reread_failures(keep_test_rows, chain)):
            count.add(f"chain {number}, lines of text {step * STEPS} reread", why)
        if len(chain.edits) < int(edits):
            count.add(f"chain {number}", f"{len(chain.edits)} edits alone were taken")
    return count.close("edit chains")


if __name__ == "__main__":
    sys.exit(main(*sys.argv[1:]))
