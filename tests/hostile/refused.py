#!/usr/bin/env python3
"""Refuses each growth of memory in turn, in the program and in the libraries, and prints what answers wrongly.

    tests/hostile/refused.py KEEP_TOML KEEP_ROWS REFUSE

REFUSE is the library that tests/hostile/refuse.c makes; with KEEP_ROWS as '-', what needs it is left out. A row is asked once
with ample memory, where it has to get the wanted answer, and its growths are counted. Then it is asked again with the
first growth refused, with the second, and so on up to the last.

The program (subcommands.tsv): each of these runs ends with status 4, one line on standard error and nothing on
standard output, also where the answer with ample memory is a refusal. Where the index is refused the memory of a key, of a line's
node or of a header's, it is built anew: so a few runs for each edit of a script (CHANGES) may have the wanted answer instead. Where
many edits are made at once (AT_ONCE), some have to: they are made one by one then. So are few, where memory is refused while it is
found that they can be the last ones, after which the text is not read.

The libraries (calls.tsv, asked of keep_test_rows): each of these runs ends out of memory, or answers that the call
was out of memory. keep_test_rows makes an edit twice, first for the text alone and then in the document, and prints a doubt
where the two differ. So more is shown of edits:
- where a growth of an edit is refused, the same edit, made again, has the wanted answer;
- the document has its text, tokens, counts, nodes and values as before. For that, two growths are refused, one of them
  for the text alone: so both are out of memory, and a doubt could only be about the document;
- an edit that is refused for another reason is never out of memory.
The same of lists of edits, which keep_test_rows makes first one by one and then at once; of these, too, a few runs for each edit
may have the wanted answer. Of a push to a path, of a list, and of lines that are reread, the questions whose names end in `again`
make what was refused once more. A list of edits that are made at once is made one by one where a growth is refused: so it is
out of memory only where a later growth is refused, too.

Some calls take no memory: the rows of keep_test_rows in the group `quiet` mark the growths of one call each, and have none.

Some edits change the index where it is (IN_PLACE): one more of them takes about as few growths in a document of 2,000 tables as in
one of 200, where an index that is built anew takes some for each table.
"""
import os
import re
import sys
from pathlib import Path

sys.dont_write_bytecode = True
sys.path[:0] = [str(Path(__file__).resolve().parents[2] / it) for it in ("tests/rows",)]
from ask import NO_ANSWER, Count, Row, answer, cells_of, failure, in_parallel, plain, printed, row_line, rows_of, short

HERE = Path(__file__).resolve().parent
STORED = HERE.parents[1] / "crates/keep_test_rows/stdin"
REFUSED = Row("", [], b"", 4, b"", b"keep-toml: out of memory")
OUT_OF_MEMORY = b"out of memory"
# What keep_test_rows answers where a path or an edit of a row could not be read: the only reason is memory.
UNREAD = (OUT_OF_MEMORY, b"no path", b"no such edit")
AGAIN = b"refused and made again: "
# How the names of lists end whose edits are made at once: where memory is refused for that, they are made one by one.
AT_ONCE = " at once"
# How many growths the change of an index takes at most: those of a key, of its node, of its parent link, and of a map, which has five;
# of the two lists of what a header joins; and those of a value that is read twice, with its nodes.
CHANGES = 40
DONE = re.compile(rb"\d+ \d+ \d+$|done$")
# How keep_test_rows prints that an edit does not agree with the text alone, and a list of edits with the edits one by one;
# and that the document is not what is read afresh from its text, for which memory may be missing too.
TEXT_DOUBT = b", but the text alone is told otherwise"
LIST_DOUBT = b", but one by one the edits answer otherwise"
DOCUMENT_DOUBT = b", but the document tells otherwise"


# Edits of the middle table of so many, each by its number, that change the index where it is; and the operation of each.
IN_PLACE = {
    "set": ("set", "path = 't{middle}.a'\nvalue = '{number}'\n"),
    "set of a list": ("set", "path = 't{middle}.a'\nvalue = '[{number}, [1], {{ x = 2 }}]'\n"),
    "set of an item": ("set", "path = 't{middle}.b[0]'\nvalue = '[{number}]'\n"),
    "rename": ("rename", "path = 't{middle}.{last}'\nkey = 'n{number}'\n"),
    "insert": ("insert", "path = 't{middle}.n{number}'\nvalue = '1'\n"),
    "insert of a list": ("insert", "path = 't{middle}.n{number}'\nvalue = '[{number}, [1], {{ x = 2 }}]'\n"),
    "insert of an item": ("insert", "path = 't{middle}.b[0]'\nvalue = '{number}'\n"),
    "remove": ("remove", "path = 't{middle}.k{number}'\n"),
    "remove of a list": ("remove", "path = 't{middle}.l{number}'\n"),
    "remove of an item": ("remove", "path = 't{middle}.c[0]'\n"),
    "table": ("table", "path = 't{middle}.s{number}'\n"),
    "table below new ones": ("table", "path = 'x{number}.y.z'\n"),
    "table that a header goes through": ("table", "path = 'p{number}'\n"),
    "element": ("element", "path = 'e'\n"),
    "element of a new array": ("element", "path = 'n{number}'\n"),
    "element of a new array below new tables": ("element", "path = 'x{number}.y.z'\n"),
}
KEYS = 24
FEW = 40
# How many tables a document has that is copied for a list of edits.
COPIED = 200


class Asked:
    """A program with words and an input, of which growths can be refused by their numbers."""

    def __init__(self, program, refuse, words, given):
        self.program, self.refuse, self.words, self.given = program, refuse, words, given

    def ran(self, **settings):
        env = {**os.environ, "LD_PRELOAD": self.refuse, **settings}
        return answer(self.program, self.words, self.given, env=env)

    def ample(self):
        """The run in which nothing is refused, and how many growths it has."""
        ran = self.ran(REFUSE_COUNT="1")
        found = re.search(rb"all growths=(\d+)\n$", ran.stderr)
        if not found:
            raise RuntimeError(f"no growths are counted; is {self.refuse} loaded?")
        ran.stderr = ran.stderr[: found.start()]
        return ran, int(found[1])

    def refused(self, refusals):
        """The runs in which these growths are refused, each the number of one or `n,m` for two."""
        return zip(refusals, in_parallel(lambda it: self.ran(REFUSE_AT=it), refusals))


def each_of(growths):
    return [str(number) for number in range(1, growths + 1)]


def program_failure(program, refuse, row):
    asked = Asked(program, refuse, row.words, row.given)
    ran, growths = asked.ample()
    if why := failure(row, ran):
        return f"with ample memory: {why}"
    rebuilt, edits = 0, b"".join(row.words).count(b"[[edit]]")
    for refusal, ran in asked.refused(each_of(growths)):
        if why := failure(REFUSED, ran):
            rebuilt += 1
            if rebuilt > CHANGES * edits or failure(row, ran):
                return f"growth {refusal}: {why}"
    return "no growth is done without" if row.name.endswith(AT_ONCE) and not rebuilt else None


def answer_of(ran):
    """What keep_test_rows answered to its only row; out of memory, too, where it ended so."""
    if (ran.returncode, ran.stdout, ran.stderr) == (1, b"", b"Error: Kind(OutOfMemory)\n"):
        return OUT_OF_MEMORY
    found = re.fullmatch(rb'row: "(.*)"\n0 passed, 1 failed\n', ran.stdout)
    if ran.returncode != 1 or ran.stderr or not found:
        return b"status %d, %s, %s" % (ran.returncode, ran.stdout, ran.stderr)
    return printed(found[1].decode()).encode()


class Question:
    """A question to keep_test_rows, and what it answers where growths are refused."""

    def __init__(self, program, refuse, cells):
        self.asked = Asked(program, refuse, [], row_line(b"row", NO_ANSWER, *cells))
        ran, self.growths = self.asked.ample()
        self.ample = answer_of(ran)

    def refused(self, refusals=None):
        """The answers where these growths are refused; each growth in turn, if none are named."""
        return {it: answer_of(ran) for it, ran in self.asked.refused(refusals or each_of(self.growths))}

    def refused_beside(self, refusal):
        """The answers where this growth is refused, and a later one."""
        return self.refused([f"{refusal},{number}" for number in range(int(refusal) + 1, self.growths + 1)])


def other(answers, is_well):
    """The first of the answers that is not well, with the growths that were refused; None if there is none."""
    return next((f"growth {it}: {short(found)}" for it, found in answers.items() if not is_well(found)), None)


def call_failure(ask, wanted, cells):
    """Of a call that changes nothing, or an edit that is refused: only out of memory may stand for the wanted answer.

    What keep_test_rows does with a value after the call may be out of memory too, and is then in doubt.
    """
    question = ask(cells)
    if question.ample != wanted:
        return f"with ample memory: {short(question.ample)}"
    front = wanted.partition(b"\n")[0]
    doubts = (TEXT_DOUBT, DOCUMENT_DOUBT, b"\n" + OUT_OF_MEMORY)
    is_well = lambda it: it.startswith(UNREAD) or it.startswith(front) and any(doubt in it for doubt in doubts)
    return other(question.refused(), is_well)


def edit_failure(ask, wanted, cells):
    """Of an edit that is made. The row has it twice, so that it is made again after it was out of memory."""
    outcome = wanted.partition(b"\n")[0]
    if (once := ask(cells)).ample != wanted:
        return f"with ample memory: {short(once.ample)}"
    twice = ask([*cells, *cells[-2:]])
    text_fails, edit_fails = outcome + TEXT_DOUBT + b"\n", b"Memory" + TEXT_DOUBT + b"\n" + wanted
    fronts = (*UNREAD, text_fails, outcome + DOCUMENT_DOUBT, outcome + b"\n")
    found = twice.refused()
    if why := other(found, lambda it: it == edit_fails or it.startswith(fronts)):
        return why
    refusals = [it for it, answered in found.items() if answered.startswith(text_fails)]
    both = twice.refused_beside(refusals[0])
    unchanged = b"Memory\n" + wanted
    if why := other(both, lambda it: it == unchanged or it.startswith((*UNREAD, text_fails))):
        return why
    return unequal(list(found.values()).count(edit_fails), list(both.values()).count(unchanged))


def unequal(growths, unchanged):
    """Each growth of an edit has to be met in both ways, and there are some."""
    return None if 0 < growths == unchanged else f"{growths} growths of the edit, {unchanged} of them beside another"


def too_often(found, wanted, cells):
    """The wanted answer more often than the edits of a list may have the index built anew."""
    times = list(found.values()).count(wanted)
    return f"{times} times the wanted answer" if times > CHANGES * ((len(cells) - 3) // 3) else None


def list_failure(ask, wanted, cells):
    """Of a list of edits: one that is out of memory has changed nothing, and tells at which edit."""
    question, text = ask(cells), cells[2]
    if question.ample != wanted:
        return f"with ample memory: {short(question.ample)}"
    memory = re.compile(rb"\d Memory\n" + re.escape(text) + b"(" + LIST_DOUBT + b")?")
    one_by_one_fails = wanted + LIST_DOUBT
    is_well = lambda it: it in (wanted, one_by_one_fails) or it.startswith(UNREAD) or bool(memory.fullmatch(it))
    found = question.refused()
    if why := other(found, lambda it: is_well(it) or it == wanted + DOCUMENT_DOUBT) or too_often(found, wanted, cells):
        return why
    # (as growths come later, so do the edits where memory is refused, after the copy, which is told as the first edit)
    numbers = [int(it.partition(b" ")[0]) for it in found.values() if memory.fullmatch(it)]
    edits = (len(cells) - 3) // 3 if wanted.startswith(b"done") else int(wanted.partition(b" ")[0])
    if numbers != sorted(numbers) or set(numbers) != set(range(edits)):
        return f"out of memory at the edits {numbers}, one after another"
    refusals = [it for it, answered in found.items() if answered == one_by_one_fails]
    as_many = False
    for refusal in (*refusals[::8], refusals[-1]):
        both = question.refused_beside(refusal)
        if why := other(both, is_well):
            return why
        as_many |= any(it.endswith(b" Memory\n" + text) for it in both.values())
    return None if as_many else "never as many edits at once as one by one"


def again_failure(ask, wanted, cells):
    """Of a push, a list of edits or lines reread: a refused one has changed nothing, and made again has the wanted answer."""
    question = ask(cells)
    if question.ample != wanted:
        return f"with ample memory: {short(question.ample)}"
    found = question.refused()
    rebuilt = wanted if cells[0].endswith(b"edits") else AGAIN + wanted
    is_well = lambda it: it in (rebuilt, AGAIN + wanted) or it.startswith(UNREAD)
    if why := other(found, is_well) or too_often(found, wanted, cells):
        return why
    refusals = [it for it, answered in found.items() if answered == rebuilt]
    if AGAIN + wanted not in found.values() and refusals:
        # (that of the last growth before they are made one by one: after an earlier one another run may be tried)
        found = question.refused_beside(refusals[-1])
        if why := other(found, is_well):
            return why
    return None if AGAIN + wanted in found.values() else "no growth of the call itself is refused"


def library_failure(program, refuse, wanted, cells):
    ask = lambda cells: Question(program, refuse, cells)
    if cells[1].endswith(b" again"):
        return again_failure(ask, wanted, cells)
    if cells[0].endswith(b"edits"):
        return list_failure(ask, wanted, cells)
    if cells[0].endswith(b"edit") and DONE.match(wanted.partition(b"\n")[0]):
        return edit_failure(ask, wanted, cells)
    return call_failure(ask, wanted, cells)


def run_growths(count, program, refuse):
    """Counts the growths between the two marks of each stored row in the group `quiet`.

    Rows whose name begins with `memory is taken` have some, which shows that they are counted; the others have none.
    """
    rows = [it for it in STORED.read_bytes().split(b"\n") if it.split(b"\t")[2:3] == [b"quiet"]]
    ran = answer(program, [], b"\n".join(rows) + b"\n", env={**os.environ, "LD_PRELOAD": refuse})
    found = [int(it) for it in re.findall(rb"^growths=(\d+)$", ran.stderr, re.M)]
    if ran.returncode or not rows or len(found) != len(rows):
        why = f"{len(found)} counts for {len(rows)} rows; {short(ran.stdout)} {short(ran.stderr)}"
        count.add("growths between marks", why)
        return
    for row, growths in zip(rows, found):
        name = row.split(b"\t")[0].decode()
        is_well = (growths > 0) == name.startswith("memory is taken")
        count.add(f"growths between marks: {name}", None if is_well else f"{growths} growths")


def growths_of_edits(program, refuse, kind, edits, tables):
    """The growths of a run that makes so many edits of this kind in a document of so many tables."""
    op, words = IN_PLACE[kind]
    last = lambda number: f"n{number - 1}" if number else "a"
    filled = (words.format(middle=tables // 2, number=number, last=last(number)) for number in range(edits))
    # (Two that do two things to one key come last. Without them all would be made at once for the text alone, and no index changed.)
    ends = ("insert", "path = 'z'\nvalue = '1'\n"), ("remove", "path = 'z'\n")
    script = "".join(f"[[edit]]\nop = '{op}'\n{it}" for op, it in (*((op, it) for it in filled), *ends))
    keys = "".join(f"k{number} = {number}\nl{number} = [{number}, [1]]\n" for number in range(KEYS))
    keys += f"c = [{', '.join(str(number) for number in range(KEYS))}]\n"
    text = "".join(f"[t{number}]\na = 1\n{keys if number == tables // 2 else ''}b = [1, 2]\n" for number in range(tables))
    passed = "".join(f"[p{number}.q]\n" for number in range(KEYS))
    ran, growths = Asked(program, refuse, [b"apply", script.encode()], f"{text}{passed}[[e]]\n".encode()).ample()
    return growths if ran.returncode == 0 else sys.maxsize


def in_place_failure(program, refuse, kind):
    """Of one more edit of this kind: it takes no growth for each table that there is."""
    few, many = (growths_of_edits(program, refuse, kind, 20, it) - growths_of_edits(program, refuse, kind, 10, it) for it in (200, 2_000))
    return None if 0 < many < few + 10 * FEW else f"ten edits more take {few} growths beside 200 tables, {many} beside 2,000"


def copy_failure(program, refuse):
    """Of lists of edits: two edits are made on a copy of the document, which takes a growth for each table; an only one is not."""
    text = b"".join(b"[t%d]\na = 1\nb = 2\n" % number for number in range(COPIED))
    edits = [b"set", b"t0.a", b"2", b"set", b"t0.b", b"3"]
    one, two = (Question(program, refuse, [b"edits", b"all again", text, *edits[: 3 * count]]).growths for count in (1, 2))
    return None if one + COPIED < two else f"an only edit takes {one} growths, two take {two}"


def main(keep_toml, keep_test_rows, refuse):
    count = Count()
    for kind in IN_PLACE:
        count.add(f"few growths in place: {kind}", in_place_failure(keep_toml, refuse, kind))
    for row in rows_of(HERE / "subcommands.tsv"):
        count.add(f"each growth refused: {row.name}", program_failure(keep_toml, refuse, row))
    if keep_test_rows != "-":
        for where, (name, wanted, *cells) in cells_of(HERE / "calls.tsv"):
            why = library_failure(keep_test_rows, refuse, plain(wanted), [plain(it) for it in cells])
            count.add(f"each growth refused: {where}: {name.decode()}", why)
        run_growths(count, keep_test_rows, refuse)
        count.add("an only edit is made without a copy", copy_failure(keep_test_rows, refuse))
    return count.close("refused")


if __name__ == "__main__":
    sys.exit(main(*sys.argv[1:4]))
