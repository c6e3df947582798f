#!/usr/bin/env python3
"""documents.py SHAPE BYTES [SEED]    a TOML document of that shape and at most so many bytes, on standard output

The same words give the same document. Shapes: mix (as people write configuration: comments, tables, dotted keys,
arrays, inline tables, all kinds of values), lock (like Cargo.lock), flat (keys of the root alone), array (one large
array with comments), elements (one array of small tables), comments, dotted (long dotted keys alone), strings (large
multi-line strings), subtables (one table with many below it), dense (tables of short keys and integers)."""
import random
import sys

WORDS = (
    "server client cache pool retry limit timeout buffer queue worker thread socket listen address remote local region "
    "cluster node volume backup shard replica token secret public private default fallback primary secondary metrics "
    "trace level format output input filter route policy quota window batch stream encoder decoder profile target"
).split()
FOREIGN_WORDS = ["naïve", "größe", "日本語", "файл", "été", "🚀"]


class Writer:
    """Writes parts of documents, each by the next numbers of one generator."""

    def __init__(self, seed):
        self.random = random.Random(seed)

    def word(self):
        return self.random.choice(WORDS)

    def words(self, count):
        return " ".join(
            self.word() if self.random.random() > 0.03 else self.random.choice(FOREIGN_WORDS) for _ in range(count)
        )

    def up_to(self, most, least=0):
        return self.random.randint(least, most)

    def comment(self, chance, most):
        return "  # " + self.words(self.up_to(most, 2)) if self.random.random() < chance else ""

    def string(self):
        kind = self.random.random()
        if kind < 0.62:
            return '"%s"' % self.words(self.up_to(6, 1))
        if kind < 0.72:
            return '"%s\\n\\t%s \\u00e9 \\"%s\\""' % (self.words(2), self.words(2), self.words(1))
        if kind < 0.88:
            return "'C:\\%s'" % self.words(3).replace(" ", "\\")
        if kind < 0.95:
            return '"""\n%s\n%s \\\n    %s\n"""' % (self.words(8), self.words(6), self.words(7))
        return "'''\n%s\n  %s\n'''" % (self.words(9), self.words(5))

    def moment(self):
        day = "%04d-%02d-%02d" % (self.up_to(2030, 1990), self.up_to(12, 1), self.up_to(28, 1))
        time = "%02d:%02d:%02d" % (self.up_to(23), self.up_to(59), self.up_to(59))
        both = day + "T" + time
        return self.random.choice([day, time, both, day + " " + time, both + "Z", both + ".123456+02:00"])

    def integer(self):
        if self.random.random() < 0.85:
            return str(self.up_to(70000, -5))
        other = ["0x%X" % self.up_to(1 << 32), "0o%o" % self.up_to(4095), "%d_000" % self.up_to(99, 1)]
        return self.random.choice(other)

    def scalar(self):
        kind = self.random.random()
        if kind < 0.38:
            return self.string()
        if kind < 0.62:
            return self.integer()
        if kind < 0.74:
            decimal, exponent = self.random.uniform(-9, 999), (self.up_to(9, 1), self.up_to(9, 1))
            return self.random.choice(["%.3f" % decimal, "%de-%d" % exponent, "inf"])
        if kind < 0.90:
            return self.random.choice(["true", "false"])
        return self.moment()

    def on_one_line(self):
        while True:
            text = self.scalar()
            if "\n" not in text:
                return text

    def value(self):
        kind = self.random.random()
        if kind < 0.76:
            return self.scalar()
        if kind < 0.86:
            return "[" + ", ".join(self.on_one_line() for _ in range(self.up_to(6))) + "]"
        if kind < 0.93:
            items = ("  %s,%s\n" % (self.on_one_line(), self.comment(0.35, 3)) for _ in range(self.up_to(8, 1)))
            return "[\n%s]" % "".join(items)
        keys = self.random.sample(WORDS, self.up_to(4, 1))
        return "{ " + ", ".join("%s = %s" % (key, self.on_one_line()) for key in keys) + " }"

    def key(self, word):
        kind = self.random.random()
        if kind < 0.80:
            return word
        if kind < 0.92:
            return "%s.%s" % (word, self.word())
        if kind < 0.96:
            return '"%s %s"' % (word, self.word())
        return "%s-%s_%d" % (word, self.word(), self.up_to(99))

    def body(self, most, least=1):
        lines = []
        indent = "" if self.random.random() < 0.8 else "  "
        for word in self.random.sample(WORDS, self.up_to(most, least)):
            if self.random.random() < 0.10:
                lines.append("%s# %s\n" % (indent, self.words(self.up_to(12, 4))))
            lines.append("%s%s = %s%s\n" % (indent, self.key(word), self.value(), self.comment(0.25, 7)))
        return "".join(lines)

    def mix(self, number):
        text = ""
        if self.random.random() < 0.35:
            lines = ("# %s\n" % self.words(self.up_to(12, 6)) for _ in range(self.up_to(6, 1)))
            text = "\n# " + "-" * 60 + "\n" + "".join(lines)
        table, key, kind = self.word(), self.word(), self.random.random()
        if kind < 0.55:
            return text + "\n[%s.%s-%d]\n" % (table, key, number) + self.body(12, 2)
        if kind < 0.70:
            above = '\n[%s."%s %d"]\n' % (table, key, number) + self.body(6)
            return text + above + '\n[%s."%s %d".sub-%s]\n' % (table, key, number, self.word()) + self.body(6)
        header = "\n[[%s-list-%d.%s]]\n" % (table, number, key)
        return text + "".join(header + self.body(6) for _ in range(self.up_to(4, 1)))

    def lock(self, number):
        name = "%s-%s-%d" % (self.word(), self.word(), number)
        version = "%d.%d.%d" % (self.up_to(9), self.up_to(40), self.up_to(20))
        others = "".join(' "%s-%s",\n' % (self.word(), self.word()) for _ in range(self.up_to(8, 1)))
        return (
            '\n[[package]]\nname = "%s"\nversion = "%s"\nsource = "registry+https://index.example"\n'
            'checksum = "%064x"\ndependencies = [\n%s]\n' % (name, version, self.random.getrandbits(256), others)
        )

    def flat(self, number):
        return "%s_%d = %s%s\n" % (self.word(), number, self.scalar(), self.comment(0.2, 3))

    def array(self, number):
        return "  %s,%s\n" % (self.on_one_line(), self.comment(0.2, 3))

    def elements(self, number):
        return '[[item]]\nid = %d\nname = "%s"\n' % (number, self.words(2))

    def comments(self, number):
        key = "k%d = %d\n" % (number, number) if self.random.random() < 0.05 else ""
        return "# " + self.words(self.up_to(14, 3)) + "\n" + key

    def dotted(self, number):
        return "site.%s.%s.%s.k%d = %s\n" % (self.word(), self.word(), self.word(), number, self.on_one_line())

    def strings(self, number):
        ends = ["\n", " \\\n   ", " \\u00e9\\n\n", ' ""q"" \n']
        return 's%d = """\n%s"""\n' % (number, "".join(self.words(12) + self.random.choice(ends) for _ in range(20)))

    def subtables(self, number):
        return "[parent.child-%d]\nx = %d\n" % (number, number)

    def dense(self, number):
        header = "\n[t%d]\n" % (number // 25) if number % 25 == 0 else ""
        return header + "k%d = %d\n" % (number, number)


SHAPES = "mix lock flat array elements comments dotted strings subtables dense".split()


def document(shape, size, seed=1):
    """The document of a shape; it has the key `first`, at its beginning."""
    writer = Writer("%d/%s" % (seed, shape))
    head, end = ("first = 1\nall = [\n", "]\n") if shape == "array" else ("first = 1\n", "")
    parts, left, number = [head], size - len(head) - len(end), 0
    while True:
        part = getattr(writer, shape)(number)
        left -= len(part.encode())
        if left < 0:
            return "".join(parts) + end
        parts.append(part)
        number += 1


if __name__ == "__main__":
    if len(sys.argv) not in (3, 4) or sys.argv[1] not in SHAPES:
        raise SystemExit(__doc__)
    sys.stdout.buffer.write(document(sys.argv[1], int(sys.argv[2]), *map(int, sys.argv[3:])).encode())
