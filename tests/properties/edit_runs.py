#!/usr/bin/env python3
"""Makes long lists of edits on documents of many shapes, and compares with the same edits one by one.

    tests/properties/edit_runs.py KEEP_TOML [RUNS [SEED [KIND]]]

Edits that come in a row are made at once, from some 20 of them on, or from three of those that take long by themselves, and up
to 1,000, by the document before all of them. So each list (of 80 edits, one in twenty of 1,100; RUNS of them, 100 if not given) is
given to the program as one script, and then each edit as a script of its own, on what the one before gave: so it is made by
itself. Texts, faults and the number of the refused edit have to be the same. KIND is the name of the method that makes the lists
here, if all are to be of that kind.
Most lists are of edits of one kind, a fifth of them of edits of all kinds in turn, among them removes of tables and of elements, and
inserts into tables that dotted keys make. Some are of lines that come to one byte in an order that jumps, some of headers and of keys that
come below them at the end of the text, some of new tables and elements, each with keys of its own, some of lines that come in the place
of others or right before them, some of new tables that dotted keys make, each with keys in a row. A fifth of the lines that are
changed have a comment. Values are set and keys renamed again, values are set and keys renamed that were inserted, and edits of entries come
back to a value, which goes on in the row. Some lists are of keys that are inserted and removed in turn. Among the edits are some that end
it: one that is refused, any other of a path that was there before, one that is in another's, one that adds a line at the place of a line of
another table.
"""
import sys
from pathlib import Path
from random import Random

sys.dont_write_bytecode = True
sys.path[:0] = [str(Path(__file__).resolve().parents[2] / "tests/rows"), str(Path(__file__).resolve().parent)]
from ask import Count, answer, in_parallel, short
from edit_chains import GAPS, KEYS, VALUES, document_of

RUNS, EDITS, MANY = 100, 80, 1100
REFUSED = b"keep-toml: edit "


def edit_of(op, path, value=None, key=None):
    """An edit of a script, with its words as literal strings."""
    quoted = lambda it: b"'''" + it + b"'''"
    more = [b"%s = %s\n" % (word, quoted(it)) for word, it in ((b"value", value), (b"key", key)) if it]
    return b"[[edit]]\nop = '%s'\npath = %s\n" % (op, quoted(path)) + b"".join(more)


def value_of(random):
    return random.choice([it for it in VALUES if b"'''" not in it])


class Run:
    """A document, and a list of edits that mostly can be made at once."""

    def __init__(self, program, seed, kind=None):
        self.program, self.random = program, Random(seed)
        self.many = MANY if seed % 20 == 19 else EDITS
        self.text = document_of(self.random, lambda it: not self.ran([b"check"], it).returncode)
        self.entries = [tuple(it.rsplit(b"\t", 1)) for it in self.ran([b"list"], self.text).stdout.split(b"\n")[:-1]]
        kinds = (self.inserts, self.items, self.removes, self.sections, self.sets, self.renames, self.tables, self.elements)
        kinds += (self.gone_elements, self.gone_below, self.dotted, self.brought, self.in_any_order, self.below, self.filled)
        kinds += (self.in_place, self.parts, self.more_keys, self.before_taken, self.undone, self.line_keys) + 3 * (self.all_kinds,)
        self.edits = (getattr(self, kind) if kind else self.random.choice(kinds))()
        if self.random.random() < 0.1:
            self.add_returns(-1)

    def ran(self, words, given):
        return answer(self.program, words, given)

    def add_returns(self, count):
        """Gives so many of the newlines a carriage return, or all, if the document is one with these."""
        text = self.text.replace(b"\r\n", b"\n").replace(b"\n", b"\r\n", count)
        if not self.ran([b"check"], text).returncode:
            self.text = text

    def of_kind(self, *kinds):
        return [path for path, kind in self.entries if kind in kinds]

    def new_path(self, table, number, several):
        """A new key of a table, for the edit of this number, or with a chance of `several` some keys; now and then one that was given."""
        random = self.random
        key = random.choice(KEYS) + b"_%d" % (number if random.random() < 0.98 else number // 2)
        if random.random() < several:
            key += b"." + b".".join(random.choice(KEYS) for _ in range(random.choice((1, 1, 2, 3))))
        return table + b"." + key if table else key

    def insert_or_set(self, given, later, table, number, several):
        """With a chance of `later` the set of a path that was given; else the insert of a new key of a table, which is given then."""
        if given and self.random.random() < later:
            return edit_of(b"set", self.random.choice(given), value_of(self.random))
        given.append(self.new_path(table, number, several))
        return edit_of(b"insert", given[-1], value_of(self.random))

    def inserts(self):
        """New keys, nearly all of tables with a header; now and then a key that was given before, or of anything else. In a third
        of the lists many of them are set later; in half of them some inserts give several keys, and now and then two the same
        first one."""
        random, edits, given = self.random, [], []
        later, several = random.choice((0, 0, 0.4)), random.choice((0, 0.3))
        tables = [b"", *(it for it in self.of_kind(b"table") if b"[%s]\n" % it in self.text or it.endswith(b"]"))]
        for number in range(self.many):
            if edits and random.random() < 0.003:
                edits.append(random.choice(edits))
                continue
            table = random.choice(tables if random.random() < 0.995 else [b"", *(path for path, _ in self.entries)])
            edits.append(self.insert_or_set(given, later, table, number, several))
        return edits

    def line_keys(self):
        """New keys, nearly all of tables with a header, each of them renamed by the next edit, or by one after that, and some renamed
        again or set in between; now and then to a key that was there, or to its own. In half of the lists some inserts give several
        keys, or other edits come between; in a third of them some newlines have a carriage return."""
        random, edits, given = self.random, [], []
        several, others = random.choice((0, 0.2)), random.choice((0, 0.2))
        tables = [b"", *(it for it in self.of_kind(b"table") if b"[%s]\n" % it in self.text or it.endswith(b"]"))]
        if random.random() < 0.3:
            self.add_returns(random.choice((1, 3, -1)))
        while len(edits) < self.many:
            number = len(edits)
            if given and random.random() < others:
                at, name = random.randrange(len(given)), random.choice(KEYS) + b"_then_%d" % number
                edits.append(random.choice((edit_of(b"rename", given[at], key=name), edit_of(b"set", given[at], value_of(random)),
                                            edit_of(b"table", b"tables_%d" % number), edit_of(b"remove", given[at]))))
                if b"rename" in edits[-1][:30]:
                    given[at] = b".".join([*given[at].split(b".")[:-1], name])
                continue
            table = random.choice(tables if random.random() < 0.99 else [path for path, _ in self.entries] or [b""])
            path = self.new_path(table, number, several)
            edits.append(edit_of(b"insert", path, value_of(random)))
            for turn in range(random.choice((0, 1, 1, 1, 1, 2, 3))):
                if random.random() < 0.2:
                    edits.append(edit_of(b"set", path, value_of(random)))
                name = random.choice(KEYS) + b"_as_%d" % (number + turn if random.random() < 0.98 else number // 2)
                name = path.rpartition(b".")[2] if random.random() < 0.01 else name
                edits.append(edit_of(b"rename", path, key=name))
                path = b".".join([*path.split(b".")[:-1], name])
            given.append(path)
        return edits

    def with_dotted(self):
        """New tables that dotted keys make, of the root, a table with a header and an element: their paths, of each such table and
        those in it. Their lines come in turn, so that one line may be the last of several."""
        random, nests, more, top = self.random, [], [], b""
        for holder in (b"", b"dot", b"dots[0]"):
            lines = []
            for number in range(random.choice((1, 2, 4))):
                nests.append([b".".join(filter(None, (holder, b"d_%d" % number)))])
                lines.append(b"d_%d.k" % number)
                for name in random.choice(((), (b"in",), (b"in", b"deep"))):
                    nests[-1].append(nests[-1][-1] + b"." + name)
                    lines.append(nests[-1][-1][len(holder) + 1 if holder else 0 :] + b".k")
                lines += [b"plain_%d" % number] * random.choice((0, 1))
            random.shuffle(lines)
            ends = [random.choice((b"", b"", b"  # some")) + b"\n" for _ in lines]
            body = b"".join(b"%s = %s%s" % (key, value_of(random), end) for key, end in zip(lines, ends))
            top, more = (body, more) if not holder else (top, [*more, random.choice(GAPS) + b"[%s]\n" % holder + body])
        text = b"".join((top, self.text, b"" if self.text.endswith(b"\n") or not self.text else b"\n", *more))
        text = text.replace(b"[dots[0]]", b"[[dots]]")
        text = text if random.random() < 0.9 else text.rstrip(b"\n")
        if self.ran([b"check"], text).returncode:
            return []
        self.text = text
        return nests

    def dotted(self):
        """New keys of tables that dotted keys make, in two fifths of the lists of one for each line, else of all on its way; now and
        then of a table that an insert of several keys made, which half of the lists have, or of anything else; rarely a key that was
        given before. In a third of the lists keys of what holds these tables come between, at the ends of bodies; in a third of them
        many are set later."""
        random, edits, given = self.random, [], []
        nests, several, later = self.with_dotted(), random.choice((0, 0.3)), random.choice((0, 0, 0.4))
        if not nests:
            return self.inserts()
        is_one_each = random.random() < 0.4
        tables = [path for nest in nests for path in ([random.choice(nest)] if is_one_each else nest)]
        tables = random.sample(tables, random.choice((1, len(tables), len(tables))))
        tables += random.choice(([], [], [b"", b"dot", b"dots[0]"]))
        for number in range(self.many):
            table = random.choice(tables if random.random() < 0.998 else [b"", *(path for path, _ in self.entries)])
            if given and random.random() < 0.02:
                table = random.choice(given).rpartition(b".")[0]
            edits.append(self.insert_or_set(given, later, table, number, several))
        return edits

    def with_implicit(self):
        """New tables at the end of the text into which headers go, and which none defines: their paths. A few are below others, or
        in elements of an array of tables; now and then a header defines one after all."""
        random, paths, more = self.random, [], b""
        for number in range(self.many):
            holder = random.choice((b"", b"", b"", b"imp", b"imps"))
            name, below = b"i_%d" % number, random.choice((b"sub", b"sub", b"sub.deep"))
            more += b"[[imps]]\n" * (holder == b"imps" and random.random() < 0.3)
            table = b".".join(filter(None, (holder, name)))
            more += random.choice(GAPS) + b"[%s.%s]\n%s = %s\n" % (table, below, random.choice(KEYS), value_of(random))
            more += b"[%s]\n" % table * (random.random() < 0.01)
            count = more.count(b"[[imps]]\n") or 1
            paths.append(b"imps[%d].%s" % (count - 1, name) if holder == b"imps" else table)
            paths += [paths[-1] + b".sub"] * (below == b"sub.deep" and random.random() < 0.5)
        more = (b"" if b"[[imps]]" not in more or more.index(b"[[imps]]") < more.index(b"imps.") else b"[[imps]]\n") + more
        text = self.text + (b"" if self.text.endswith(b"\n") or not self.text else b"\n") + more
        text = text if random.random() < 0.9 else text.rstrip(b"\n")
        if self.ran([b"check"], text).returncode:
            return []
        self.text = text
        return paths

    def brought(self):
        """New keys of tables that no header defines, each of which brings the header, mostly one of each; in half of the lists some
        are of several keys, and in a third of them many are set later. In half of them many come into the table before which the
        header comes, and headers of tables below. Now and then a table comes again, or something else is between."""
        random, paths, several = self.random, self.with_implicit(), self.random.choice((0, 0.3))
        later, given, below = random.choice((0, 0, 0.4)), [], random.choice((0, 0.4))
        if not paths:
            return self.inserts()
        random.shuffle(paths)
        edits = []
        for number in range(self.many):
            table = paths[number % len(paths)] if random.random() < 0.995 else random.choice(paths)
            table = table if random.random() < 0.995 else random.choice([b"", *(path for path, _ in self.entries)])
            if edits and random.random() < below:
                table = paths[random.randrange(number) % len(paths)] + b".sub"
                if b"[" not in table and random.random() < 0.2:
                    edits.append(edit_of(b"table", table + b"_%d" % number))
                    continue
            edits.append(self.insert_or_set(given, later, table, number, several))
        return edits

    def in_any_order(self):
        """New keys of a few tables of dotted keys, of those that hold them, and of the last tables of the text, which headers define
        or none, in an order that jumps: so most lines come to the byte of others that have to come behind them. In two thirds of
        the lists headers are appended between, now and then below one of these tables."""
        random, nests, paths = self.random, self.with_dotted(), self.with_implicit()
        if not nests or not paths:
            return self.inserts()
        last = [path for table in paths[-4:] for path in (table, table + b".sub") if random.random() < 0.7]
        tables = [b"", b"dot", b"dots[0]", *(path for nest in nests for path in nest), *last]
        tables = random.sample(tables, random.randint(2, len(tables)))
        several, headers, given, edits = random.choice((0, 0.2)), random.choice((0, 0.1, 0.3)), [], []
        for number in range(self.many):
            table = random.choice(tables)
            if random.random() < headers:
                below = b"" if random.random() < 0.95 or b"[" in table else table + b"."
                op, name = random.choice(((b"table", b"h_%d" % number), (b"element", b"hs_%d" % (number % 5))))
                edits.append(edit_of(op, below.lstrip(b".") + name))
            else:
                edits.append(self.insert_or_set(given, 0, table, number, several))
        return edits

    def below(self):
        """New headers through tables that no header defines, and keys of these tables, of others and of those that hold them, in an order
        that jumps; in most lists other edits come between. So many of the keys come at the end of the text, below the last header
        through their table, or behind other keys of it there, whatever headers came since."""
        random, nests, paths = self.random, self.with_dotted(), self.with_implicit()
        if not paths:
            return self.inserts()
        few = [it for it in random.sample(paths, min(len(paths), random.choice((2, 4, 10)))) if b"[" not in it] or [b"fresh"]
        others = [b"", b"dot", *(path for nest in nests for path in nest), *random.sample(paths, min(len(paths), 5))]
        left = self.some_values()
        headers, between, several = random.choice((0.3, 0.6)), random.choice((0, 0.2, 0.5)), random.choice((0, 0.2))
        given, edits = [], []
        for number in range(self.many):
            table = random.choice(few)
            if random.random() < between:
                if left and random.random() < 0.5:
                    edits.append(left.pop())
                else:
                    edits.append(self.insert_or_set(given, 0.2, random.choice(others), number, several))
            elif random.random() < headers:
                op, name = random.choice(((b"table", b"h_%d" % number), (b"element", b"hs_%d" % (number % 5)), (b"table", b"sub.h_%d" % number)))
                above = table if random.random() < 0.7 else random.choice((b"other", b"fresh.one"))
                edits.append(edit_of(op, above + b"." + name))
            else:
                edits.append(self.insert_or_set(given, random.choice((0, 0, 0.1)), table, number, several))
        return edits

    def more_keys(self):
        """New tables that dotted keys make, in tables of all sorts, each with a few keys in a row; in most lists other edits come between
        the tables, in some between the keys of one, too. Now and then a key comes twice, or goes on deeper."""
        random, edits, made = self.random, [], 0
        nests, left = self.with_dotted(), self.some_values()
        headed = [it for it in self.of_kind(b"table") if b"[%s]\n" % it in self.text or it.endswith(b"]")]
        tables = [b"", *headed] + ([b"dot", b"dots[0]", *(nest[0] for nest in nests)] if nests else [])
        between, within = random.choice((0, 0.2, 0.5)), random.choice((0, 0, 0.1))
        while len(edits) < self.many:
            made += 1
            table = b".".join(filter(None, (random.choice(tables), b"m_%d" % made)))
            for number in range(random.choice((1, 2, 2, 3, 10))):
                path = table + b".k_%d" % (number if random.random() < 0.995 else 0)
                edits.append(edit_of(b"insert", path + (b".deep" if random.random() < 0.1 else b""), value_of(random)))
                edits += [left.pop()] if left and random.random() < within else []
            if random.random() < between:
                other = edit_of(*random.choice(((b"table", b"h_%d" % made), (b"element", b"hs_%d" % (made % 3)))))
                other = edit_of(b"insert", b"other_%d" % made, value_of(random)) if random.random() < 0.4 else other
                edits.append(left.pop() if left and random.random() < 0.5 else other)
        return edits[: self.many]

    def in_place(self):
        """The last lines of a few bodies go one by one, or change, in an order that jumps, and new keys come into the same bodies; in half
        of the lists headers are appended between. So many of the keys come in the place of a line that went."""
        random, left = self.random, {}
        for path in self.with_lines():
            left.setdefault(path.rpartition(b".")[0], []).append(path)
        tables = random.sample(sorted(left), min(len(left), random.choice((2, 5, 20))))
        headers, later, given, edits = random.choice((0, 0.1)), random.choice((0, 0.2)), [], []
        for number in range(self.many):
            table = random.choice(tables)
            if random.random() < headers:
                edits.append(edit_of(b"table", b"h_%d" % number))
            elif not left[table] or random.random() < 0.4:
                edits.append(self.insert_or_set(given, later, table, number, 0))
            else:
                op, path = random.choice((b"remove", b"remove", b"set", b"rename")), left[table].pop()
                value = value_of(random) if op == b"set" else None
                edits.append(edit_of(op, path, value, b"new_%d" % number if op == b"rename" else None))
        return edits

    def with_followed(self):
        """New tables that dotted keys make, each followed by a line of its holder or by the header of a table: each table with the path
        of what follows, and whether that is a table with a header."""
        random, pairs, top, text = self.random, [], b"", b""
        tell = lambda: random.choice((b"", b"", b"", b"  # some"))
        under = lambda holder, key: holder + b"." + key if holder else key
        for number in range(self.many):
            holder = random.choice((b"", b"f_%d" % number))
            body = random.choice((b"", b"", b"\n")) + b"[%s]\n" % holder if holder else b""
            for part in range(random.choice((1, 1, 2))):
                table = b"d_%d_%d" % (number, part) + random.choice((b"", b"", b"", b".in"))
                key = random.choice((b"p_%d_%d", b'"p_%d_%d"')) % (number, part)
                pairs.append((under(holder, table), under(holder, key), False))
                body += b"%s.k = %s%s\n" % (table, value_of(random), tell()) + random.choice((b"", b"", b"", b"\n", b"# of the next\n"))
                body += b"%s = %s%s\n" % (key, value_of(random), tell())
            if holder:
                pairs.append((under(holder, b"last"), b"g_%d" % number, True))
                body += b"last.k = %s\n[g_%d]\nk = %s\n" % (value_of(random), number, value_of(random))
            top, text = (top, text + body) if holder else (top + body, text)
        text = top + self.text + (b"" if self.text.endswith(b"\n") or not self.text else b"\n") + text
        if self.ran([b"check"], text).returncode:
            return []
        self.text = text
        return pairs

    def before_taken(self):
        """Removes, sets and renames of lines behind tables of dotted keys, and of headers there in half of the lists, and new keys of
        these tables. So many of the keys come right before what the list has taken or renamed."""
        random, given, edits, gone = self.random, [], [], []
        pairs = self.with_followed()
        if not pairs:
            return self.inserts()
        with_headers, several = random.random() < 0.5, random.choice((0, 0, 0.1))
        left = random.sample([it for it in pairs if with_headers or not it[2]], len(pairs) // 2)
        for number in range(self.many):
            if left and random.random() < 0.5:
                table, path, is_headed = left.pop()
                op = b"remove" if is_headed else random.choice((b"remove", b"remove", b"set", b"rename"))
                value = value_of(random) if op == b"set" else None
                edits.append(edit_of(op, path, value, b"new_%d" % number if op == b"rename" else None))
                gone.append(table)
            else:
                table = random.choice(gone) if gone and random.random() < 0.7 else random.choice(pairs)[0]
                edits.append(self.insert_or_set(given, random.choice((0, 0, 0.1)), table, number, several))
        return edits

    def some_values(self):
        """Sets, renames and removes of values that are there, each of another."""
        random, edits = self.random, []
        values = [path for path, kind in self.entries if kind not in (b"table", b"array-of-tables") and b"[" not in path]
        random.shuffle(values)
        for number, path in enumerate(values):
            op = random.choice((b"set", b"rename", b"remove"))
            edits.append(edit_of(op, path, value_of(random) if op == b"set" else None, b"new_%d" % number if op == b"rename" else None))
        return edits

    def undone(self):
        """New keys, each removed by the next edit, of any table; now and then another edit comes between, or another key goes. In half of
        the lists there are new tables that dotted keys make."""
        random, edits, given = self.random, [], []
        tables = [it for nest in (self.with_dotted() if random.random() < 0.5 else []) for it in nest]
        tables += [b"", *self.of_kind(b"table")] * (1 + len(tables) // 4)
        several, more = random.choice((0, 0.3)), random.choice((0, 0, 0.05))
        while len(edits) < self.many:
            edits.append(self.insert_or_set(given, more, random.choice(tables), len(edits), several))
            if random.random() < more:
                edits.append(self.insert_or_set(given, 0.5, random.choice(tables), len(edits), several))
            edits.append(edit_of(b"remove", random.choice(given) if random.random() < more / 5 else given[-1]))
        return edits

    def items(self):
        """Items of one array, each after all others; sometimes one at another place."""
        random, arrays = self.random, self.of_kind(b"array")
        if not arrays:
            return self.inserts()
        array = random.choice(arrays)
        count = sum(1 for path, _ in self.entries if path.startswith(array + b"[") and path.count(b"[") == array.count(b"[") + 1
                    and path.endswith(b"]"))
        edits = []
        for number in range(self.many):
            at = count + number if random.random() < 0.995 else random.randrange(count + self.many)
            edits.append(edit_of(b"insert", array + b"[%d]" % at, value_of(random)))
        return edits

    def with_lines(self):
        """The paths of new keys, for which so many lines are put in first that there is enough to change."""
        random = self.random
        keys = [random.choice(KEYS) + b"_%d" % number for number in range(self.many)]
        tables = [b"", *self.of_kind(b"table")]
        paths = [table + b"." + key if table else key for key in keys for table in [random.choice(tables)]]
        ran = self.ran([b"apply", b"".join(edit_of(b"insert", it, value_of(random)) for it in paths)], self.text)
        self.text = ran.stdout if ran.returncode == 0 else self.text
        self.add_comments(set(keys))
        return paths

    def add_comments(self, keys):
        """A comment at the end of some of the lines with these keys."""
        commented = lambda line: line + b"  # some" if line.split(b" = ")[0] in keys and self.random.random() < 0.2 else line
        text = b"\n".join(commented(it) for it in self.text.split(b"\n"))
        if not self.ran([b"check"], text).returncode:
            self.text = text

    def some_of(self, *kinds):
        """Paths of nodes of other kinds than these, for a few edits that end a run."""
        more = [path for path, kind in self.entries if kind not in kinds]
        return self.random.sample(more, min(len(more), self.random.choice((0, 0, 3))))

    def removes(self):
        """Values that are there, each once."""
        left = self.with_lines() + self.some_of(b"table", b"tables")
        self.random.shuffle(left)
        return [edit_of(b"remove", it) for it in left]

    def with_tables(self):
        """The paths of new tables with headers, a few below others, which are put at the end of the text."""
        random, paths, more = self.random, [], b""
        for number in range(self.many):
            below = paths[-1] + b"." if paths and random.random() < 0.002 else b""
            paths.append(below + b"s_%d" % number)
            lines = (b"%s_%d = %s\n" % (random.choice(KEYS), it, value_of(random)) for it in range(random.choice((2, 3))))
            more += random.choice(GAPS) + b"[%s]\n" % paths[-1] + b"".join(lines)
        end = b"" if self.text.endswith(b"\n") or not self.text else b"\n"
        text = self.text + end + (more if random.random() < 0.9 else more.rstrip(b"\n"))
        if self.ran([b"check"], text).returncode:
            return []
        self.text = text
        return paths

    def sections(self):
        """Tables with their headers, each once; now and then something else that is there, or another edit between."""
        random, paths = self.random, self.with_tables() + self.some_of()
        random.shuffle(paths)
        edits = [edit_of(b"remove", it) for it in paths]
        for number in range(random.choice((0, 0, 1, 3))):
            edits.insert(random.randrange(len(edits) + 1), edit_of(b"insert", b"between_%d" % number, value_of(random)))
        return edits

    def with_elements(self):
        """New elements of two arrays of tables at the end of the text, with tables between them: how many each array has, and the
        paths of the tables. Now and then a header goes through an element."""
        random, counts, tables, more = self.random, {b"els": 0, b"outer.els": 0}, [], b""
        for number in range(self.many):
            lines = b"".join(b"%s_%d = %s\n" % (random.choice(KEYS), it, value_of(random)) for it in range(random.choice((1, 2))))
            if random.random() < 0.1:
                tables.append(b"s_%d" % number)
                more += random.choice(GAPS) + b"[%s]\n" % tables[-1] + lines
            else:
                array = random.choice((b"els", b"els", b"els", b"outer.els"))
                counts[array] += 1
                below = b"[%s.below]\n" % array if random.random() < 0.003 else b""
                more += random.choice(GAPS) + b"[[%s]]\n" % array + lines + below
        end = b"" if self.text.endswith(b"\n") or not self.text else b"\n"
        if self.ran([b"check"], self.text + end + more).returncode:
            return {}, []
        self.text += end + more
        return counts, tables

    def gone_elements(self):
        """Elements of an array of tables, in a third of the lists of two, each by the number that it has then; tables between."""
        random, edits = self.random, []
        counts, tables = self.with_elements()
        if random.random() < 0.7:
            counts.pop(b"outer.els", None)
        while len(edits) < self.many and any(counts.values()):
            if tables and random.random() < 0.1:
                edits.append(edit_of(b"remove", tables.pop(random.randrange(len(tables)))))
                continue
            array = random.choice([it for it in counts if counts[it]])
            number = random.choice((0, counts[array] - 1, random.randrange(counts[array])))
            counts[array] -= 1
            edits.append(edit_of(b"remove", b"%s[%d]" % (array, number)))
        return edits

    def with_arrays(self):
        """New arrays of tables at the end of the text, whose elements come in turn. Of each array its elements: whether one has a
        table below it, and of how many elements it has an array of its own."""
        random, more = self.random, b""
        names = [random.choice((b"", b"", b"outer.")) + b"array_%d" % number for number in range(random.choice((2, 2, 3, 8, 10)))]
        arrays, nested = {name: [] for name in names}, random.choice((0, 0, 0.05))
        for number in range(self.many):
            name = names[number % len(names)] if random.random() < 0.8 else random.choice(names)
            has_table, count = random.random() < 0.3, random.choice((1, 2)) if random.random() < nested else 0
            arrays[name].append([has_table, count])
            headers = [b"[[%s]]" % name] + has_table * [b"[%s.below]" % name] + count * [b"[[%s.inner]]" % name]
            more += b"".join(random.choice(GAPS) + b"%s\n%s = %s\n" % (it, random.choice(KEYS), value_of(random)) for it in headers)
        text = self.text + (b"" if self.text.endswith(b"\n") or not self.text else b"\n") + more
        if self.ran([b"check"], text).returncode:
            return {}
        self.text = text
        return arrays

    def of_element(self, arrays, number):
        """The remove of an element of one of these arrays, mostly of one that has nothing below it, by the number that it has then; now
        and then a new key of one."""
        random = self.random
        name = random.choice([it for it in arrays if arrays[it]])
        free = [it for it, below in enumerate(arrays[name]) if not any(below)]
        at = random.choice(free if free and random.random() < 0.99 else range(len(arrays[name])))
        if not free or random.random() < 0.05:
            return edit_of(b"insert", b"%s[%d].more_%d" % (name, at, number), value_of(random))
        arrays[name].pop(at)
        return edit_of(b"remove", b"%s[%d]" % (name, at))

    def gone_below(self):
        """Elements of several arrays of tables in turn, each by the number that it has then, and what is below other elements of
        them: tables, and now and then elements of an array in one; rarely an element with more below it, or one that is not
        there."""
        random, edits, arrays = self.random, [], self.with_arrays()
        while len(edits) < self.many and any(arrays.values()):
            name = random.choice([it for it in arrays if arrays[it]])
            elements = arrays[name]
            number = random.choice((0, len(elements) - 1, random.randrange(len(elements))))
            path, (has_table, count) = b"%s[%d]" % (name, number), elements[number]
            if has_table and random.random() < 0.998:
                path, elements[number][0] = path + b".below", False
            elif count:
                path, elements[number][1] = path + b".inner[%d]" % random.randrange(count), count - 1
            elif random.random() < 0.001:
                path = b"%s[%d]" % (name, len(elements))
            else:
                elements.pop(number)
            edits.append(edit_of(b"remove", path))
        return edits

    def sets(self):
        """Values that are there, in half of the lists few of them again and again, now and then one that is in another; often with
        fewer or more bytes."""
        random, paths = self.random, self.with_lines()
        if random.random() < 0.5:
            paths = [random.choice(paths[: len(paths) // 5]) for _ in paths]
        paths += self.some_of(b"table", b"tables") + random.sample(paths, random.choice((0, 0, 2)))
        random.shuffle(paths)
        return [edit_of(b"set", it, value_of(random)) for it in paths]

    def renames(self):
        """Keys that are there, in half of the lists few of them again and again; now and then one that was renamed before or is
        above another, or to a key that is there."""
        random, paths = self.random, self.with_lines()
        paths += self.some_of() + random.sample(paths, random.choice((0, 0, 2)))
        random.shuffle(paths)
        few = len(paths) // 5 if random.random() < 0.5 else len(paths)
        edits, renamed = [], []
        for number, path in enumerate(paths):
            if len(renamed) > few:
                path = renamed.pop(random.randrange(len(renamed)))
            key = random.choice(KEYS) + b"_new_%d" % (number if random.random() < 0.998 else number // 2)
            edits.append(edit_of(b"rename", path, key=key))
            renamed.append(b".".join([*path.split(b".")[:-1], key]))
        return edits

    def headers(self, op, keys_of):
        """Headers at the end of the text, now and then of a path that is there."""
        random = self.random
        there = [path for path, _ in self.entries if b"[" not in path]
        return [edit_of(op, random.choice(there) if there and random.random() < 0.003 else keys_of(number))
                for number in range(self.many)]

    def tables(self):
        """New tables, some of them below others, before or after these."""
        below = lambda number: [b"t%d" % it for it in (number // 7, number % 7, number % 3)][: self.random.choice((1, 2, 3))]
        return self.headers(b"table", lambda number: b".".join([b"tables_%d" % number, *below(number)]))

    def elements(self):
        """Elements of one array of tables, or of several, sometimes of one in another."""
        arrays = self.random.choice(([b"els"], [b"els", b"more.els"], [b"els", b"els.in"], [b"a_1.b.c", b"a_1.b.d", b"a_1"]))
        return self.headers(b"element", lambda number: self.random.choice(arrays[: 1 if number == 0 else None]))

    def new_holder(self, holders, number):
        """The path of a new table or of the array of a new element, and its operation: below one of these now and then; rarely
        one that is there."""
        random = self.random
        below = random.choice(holders) + b"." if holders and random.random() < 0.2 else b""
        there = [path for path, _ in self.entries if b"[" not in path]
        name = b"new_%d" % number if random.random() < 0.995 or not there else random.choice(there)
        return random.choice((b"table", b"table", b"element")) if self.of_elements else b"table", below + name

    def filled(self):
        """New tables at the end of the text, in half of the lists elements among them, some of arrays that are there, each with
        some keys; now and then what is there, a table below an inserted key, a second key of one path, or one of an earlier
        table."""
        random, edits, given, counts, earlier = self.random, [], [], {}, []
        for path in self.of_kind(b"tables"):
            if b"[" not in path:
                counts[path] = sum(it.startswith(path + b"[") and it.count(b"[") == 1 and it.endswith(b"]") for it, _ in self.entries)
        holders = [it for it in self.of_kind(b"table", b"value") if b"[" not in it][:5]
        self.of_elements, few = random.random() < 0.5, random.choice((1, 3, 9))
        while len(edits) < self.many:
            inserted = [it for it in given if b"[" not in it] if random.random() < 0.05 else []
            op, path = self.new_holder(holders + inserted[-1:], len(edits))
            if op == b"element" and counts and random.random() < 0.7:
                path = random.choice(list(counts))
            edits.append(edit_of(op, path))
            at = path
            if op == b"element":
                counts[path] = counts.get(path, 0) + 1
                at = b"%s[%d]" % (path, counts[path] - 1)
            elif random.random() < 0.1:
                holders.append(path)
            for number in range(random.randrange(few + 1)):
                key = random.choice(KEYS) + b"_%d" % (number if random.random() < 0.99 else 0)
                holder = at if random.random() < 0.998 or not earlier else random.choice(earlier)
                given.append(holder + b"." + key)
                edits.append(edit_of(b"insert", given[-1], value_of(random)))
            earlier.append(at)
            if random.random() < 0.02 and given:
                edits.append(edit_of(b"set", random.choice(given), value_of(random)))
        return edits[: self.many]

    def with_holders(self):
        """The paths of new arrays and inline tables, each with how many entries it has; keys are k0, k1 and so on."""
        random, lines, holders = self.random, b"[held]\n", []
        for number in range(self.many):
            count, gap = random.choice((0, 1, 2, 3)), random.choice((b"", b" "))
            values = [value_of(random) for _ in range(count)]
            if random.random() < 0.6:
                between = random.choice((b", ", b",", b",\n  ", b" , # one\n  ", b", # one, two\n  ", b",\n\n\t"))
                text = b"[" + gap + between.join(values) + random.choice((gap, b",\n" if count else b"\n", b" # end\n")) + b"]"
                holders.append((b"held.h_%d" % number, count, True))
            else:
                keyval = random.choice((b"k%d = %s", b'"k%d"=%s', b"'k%d' = %s", b'"\\u006B%d" = %s'))
                text = b"{" + gap + random.choice((b", ", b",", b" , ")).join(keyval % it for it in enumerate(values)) + gap + b"}"
                holders.append((b"held.h_%d" % number, count, False))
            lines += b"h_%d = %s%s\n" % (number, text, random.choice((b"", b"", b"  # some")))
        text = self.text + (b"" if self.text.endswith(b"\n") or not self.text else b"\n") + lines
        if self.ran([b"check"], text).returncode:
            return []
        self.text = text
        return holders

    def part(self, path, count, is_array, again=False):
        """An edit of an entry of one of these, and how many it has then: one is inserted, removed or set, or a key renamed; now and
        then one that can't be. Of a table that comes again the last key is removed or renamed, so that its keys stay k0, k1 and so
        on, and those that were renamed."""
        random = self.random
        at = random.randrange(count + 1)
        step = lambda number: path + (b"[%d]" if is_array else b".k%d") % number
        if count and random.random() < 0.3:
            if is_array or random.random() < 0.5:
                return edit_of(b"set", step(random.randrange(count)), value_of(random)), count
            return edit_of(b"rename", step(count - 1), key=random.choice(KEYS) + b"_part_%d" % random.randrange(1000)), count - 1
        if at < count and (is_array or at == count - 1 or not again) and random.random() < 0.5:
            return edit_of(b"remove", step(at)), count - 1
        end = at if is_array and random.random() < 0.99 else count + (random.random() < 0.01)
        return edit_of(b"insert", step(end), value_of(random)), count + 1

    def parts(self):
        """Edits of entries of arrays and inline tables, mostly one of each, and sets of these between; in half of the lists many of
        few values, in a row or coming back to them; now and then a second one."""
        random, holders = self.random, self.with_holders()
        random.shuffle(holders)
        edits = []
        if holders and random.random() < 0.5:
            few = holders[: random.choice((1, 2, 5, 1 + len(holders) // 5))]
            holders, at = [], 0
            while len(edits) < self.many:
                at = at if random.random() < 0.5 else random.randrange(len(few))
                path, count, is_array = few[at]
                if random.random() < 0.02:
                    count, is_array = 1, True
                    edits.append(edit_of(b"set", path, b"[%s]" % value_of(random)))
                edit, count = self.part(path, count, is_array, again=True)
                edits.append(edit)
                few[at] = (path, count, is_array)
        for path, count, is_array in holders:
            if random.random() < 0.2:
                edits.append(edit_of(b"set", path, value_of(random)))
            else:
                edits.append(self.part(path, count, is_array)[0])
                if random.random() < 0.01:
                    edits.append(random.choice(edits))
        return edits

    def all_kinds(self):
        """Edits of all kinds in turn, nearly all of paths apart; now and then some newlines have a carriage return. In half of the
        lists tables go with their headers between the others, and some of the inserts are into tables that go later. In half of them
        there are tables that dotted keys make: new keys come into them, and keys of theirs are changed and go. In half of them there
        are tables into which headers go: new keys of them bring their headers, and some of the tables below them go. In half of them
        elements of arrays of tables go between the others, and now and then a key comes into an element."""
        random, paths = self.random, self.with_lines() + self.some_of()
        bare = self.with_implicit() if random.random() < 0.5 else []
        random.shuffle(bare)
        below = [path + b".sub" for path in bare if random.random() < 0.2]
        nests = [path for nest in (self.with_dotted() if random.random() < 0.5 else []) for path in nest]
        paths += [path + b".k" for path in random.sample(nests, len(nests) // 2)]
        holders = self.with_holders() if random.random() < 0.5 else []
        arrays = self.with_arrays() if random.random() < 0.5 else {}
        left = self.with_tables() if random.random() < 0.5 else []
        left += below if random.random() < 0.5 else []
        random.shuffle(paths)
        new = lambda path, number: b".".join([*path.split(b".")[:-1], random.choice(KEYS) + b"_more_%d" % number])
        if random.random() < 0.3:
            self.add_returns(random.choice((1, 3, -1)))
        edits, are_set, renamed = [], [], []
        for number, path in enumerate(paths):
            kind = random.choice((b"insert", b"insert", b"remove", b"remove", b"set", b"rename", b"table", b"element"))
            if holders and random.random() < 0.3:
                at = random.randrange(len(holders))
                edit, count = self.part(*holders[at], again=True)
                edits.append(edit)
                holders[at] = (holders[at][0], count, holders[at][2])
                if random.random() < 0.5:
                    holders.pop(at)
            elif left and random.random() < 0.3:
                edits.append(edit_of(b"remove", left.pop(random.randrange(len(left)))))
            elif any(arrays.values()) and random.random() < 0.3:
                edits.append(self.of_element(arrays, number))
            elif nests and kind == b"insert" and random.random() < 0.6:
                are_set.append(self.new_path(random.choice(nests), number, 0.2))
                edits.append(edit_of(kind, are_set[-1], value_of(random)))
            elif bare and kind == b"insert" and random.random() < 0.6:
                table = bare.pop() if random.random() < 0.97 else random.choice(bare)
                are_set.append(self.new_path(table, number, 0.2))
                edits.append(edit_of(kind, are_set[-1], value_of(random)))
            elif left and kind == b"insert" and random.random() < 0.5:
                edits.append(edit_of(kind, random.choice(left) + b".more_%d" % number, value_of(random)))
            elif are_set and random.random() < 0.2:
                edits.append(edit_of(b"set", random.choice(are_set), value_of(random)))
            elif kind == b"table":
                holder = bare[-1] + b"." if bare and b"[" not in bare[-1] and random.random() < 0.1 else b""
                edits.append(edit_of(kind, holder + b"tables_%d" % number))
            elif kind == b"element":
                edits.append(edit_of(kind, b"elements_%d" % (number if random.random() < 0.9 else number // 2)))
            elif kind == b"rename":
                if renamed and random.random() < 0.4:
                    path = renamed.pop(random.randrange(len(renamed)))
                key = random.choice(KEYS) + b"_new_%d" % number
                edits.append(edit_of(kind, path, key=key))
                renamed.append(b".".join([*path.split(b".")[:-1], key]))
            elif kind == b"insert":
                are_set.append(new(path, number) + random.choice((b"", b"", b"", b"." + random.choice(KEYS))))
                edits.append(edit_of(kind, are_set[-1], value_of(random)))
            elif kind == b"set":
                edits.append(edit_of(kind, path, value_of(random)))
                are_set.append(path)
            else:
                edits.append(edit_of(kind, path))
        return edits

    def one_by_one(self):
        """What the edits come to one by one: the text, or the number of the refused edit and why."""
        text = self.text
        for number, edit in enumerate(self.edits):
            ran = self.ran([b"apply", edit], text)
            if ran.returncode:
                return ran.returncode, b"", ran.stderr.replace(REFUSED + b"0:", REFUSED + b"%d:" % number, 1)
            text = ran.stdout
        return 0, text, b""

    def failure(self):
        """What differs, or None."""
        ran = self.ran([b"apply", b"".join(self.edits)], self.text)
        found, wanted = (ran.returncode, ran.stdout, ran.stderr), self.one_by_one()
        if found == wanted:
            return None
        return f"{short(repr(found).encode())}, not {short(repr(wanted).encode())}"


def main(keep_toml, runs=str(RUNS), seed="1", kind=None):
    count = Count()
    numbers = [int(seed) * 1000 + number for number in range(int(runs))]
    for number, why in zip(numbers, in_parallel(lambda it: Run(keep_toml, it, kind).failure(), numbers)):
        count.add(f"run {number}", why)
    return count.close("edits at once")


if __name__ == "__main__":
    sys.exit(main(*sys.argv[1:]))
