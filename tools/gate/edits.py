#!/usr/bin/env python3
"""Tries the must-fail edits, wrong bodies and wrong definitions that the prover has to refuse, many in one check.

    tools/gate/edits.py [CRATE|CRATE/EDIT..]   the edits of these crates (none: of all), or these edits, over the libraries that
                                               `rt check` built here
    tools/gate/edits.py --unedited [CRATE..]   the same checks without the edits: what is refused there is the fault of this script

An edit is a file with the lines that `rt must-fail` reads, and a line `# refused in: FUNCTION`: the function, by its path in
the crate, whose contract the edit breaks. A function is proved by the contracts of those that it calls, whatever their
bodies. So edits of the bodies of different functions are made in one copy of the crate, one for each function, and one
check proves these functions alone (`rattle check --only`). The bodies of the others are left out of it, and a hole stands for
the proof of each (tools/gate/bodies.py): else the check would prove all that these functions call once more, as the gate has done.
An edit is refused there if a goal of its function is. Where all that is said of a function is that it calls another which is
not proved, its edit is tried again, without that other's. An edit outside of its function's body (a table, a constant) has a
check of its own, with all bodies.

An edit of a function of the module `tests`, which is there in a crate's tests alone, has a check of the crate with them.

An edit without that line is of a definition or a proof, on which much may rest. It is made alone, and the whole crate is
checked.

What counts is that a statement is refused: not that the prover cannot read the edit, and not that a proof names what the edit
takes away. Each file of must-fail/ is an edit, but for those that end in .md.

The checks of a crate begin with what those before them kept of the same texts, and the first with nothing. That each
crate is proved as it stands is shown by the gate. The gate tries no edit that was refused over the same texts before
(tools/gate/kept.py); this script tries each.
"""
import os
import re
import shutil
import subprocess
import sys
import time
from concurrent.futures import ThreadPoolExecutor
from dataclasses import dataclass
from pathlib import Path
from tempfile import TemporaryDirectory

from bodies import functions_of, hole_for, types_in, without_bodies
from quick import all_below, crates, static_libraries

ROOT = Path(__file__).resolve().parents[2]
PARTS = ("src", "specs", "proofs")
FUNCTION = "# refused in: "
# How the path of a function begins that a check reads with the crate's tests alone.
TESTS = "tests::"
# What the prover says of a text that it could not read, of a function that it proved, by holes or not, of one that calls another
# which it refused, of one of which it could not prove a goal, and where a proof names what is no longer there.
NO_TERM = re.compile(r"is not in scope|has no field|is no name|operand is missing|expected the end|cannot continue")
PROVED = re.compile(r"proved$|no holes$|depends on a hole in ")
CALLS = re.compile(r"it calls .*not proved")
UNPROVED = re.compile(r"^no proof: expected answers in .*`search` did not prove `")
NO_NAME = re.compile(r"\./proofs/.*(has no field|is not in scope|has no `|was not admitted)")
# How many edits are tried one check after the other at most: those of a crate with more are tried in several series at once, else
# they might be the last of the gate, and alone.
MOST = 24


@dataclass(frozen=True)
class Edit:
    """The changes that an edit makes to texts of its crate: of each file's text, what stands there once and what instead."""

    crate: str
    name: str
    changes: tuple
    function: str

    def made_in(self, folder, texts):
        """These texts, by path, with the edit's made in them too; None where it can't be made beside them."""
        texts = dict(texts)
        for path, old, new in self.changes:
            text = texts[path] if path in texts else (folder / path).read_text(encoding="utf-8")
            if text.count(old) != 1:
                return None
            texts[path] = text.replace(old, new)
        return texts

    def own_body(self, sources):
        """The function that the edit names, if all that is changed stands in its body: of these texts of src/, by their paths."""
        bodies = {body_around(sources, path, old) for path, old, _ in self.changes}
        own = next(iter(bodies), None)
        return own if len(bodies) == 1 and own and own.path == self.function else None


def body_around(sources, path, old):
    """The function in whose body a part of a file stands, that stands there once; None where it is in no body of src/."""
    if path not in sources:
        return None
    line = sources[path].partition(old)[0].count("\n")
    functions = functions_of(path, sources[path], types_in(sources))
    return next((it for it in functions if it.start <= line < it.end), None)


def sources_of(folder):
    """The texts of the files of a crate's src/, by their paths in the crate."""
    files = sorted((folder / "src").rglob("*.rt"))
    return {it.relative_to(folder).as_posix(): it.read_text(encoding="utf-8") for it in files}


def read_edit(file):
    """The edit of a file crates/CRATE/must-fail/NAME.edit."""
    changes, path, old, function = [], "", "", ""
    for line in file.read_text(encoding="utf-8").split("\n"):
        if line.startswith("file: "):
            path = line[6:].strip()
        elif line.startswith("old: "):
            old = line[5:]
        elif line.startswith("new:"):
            changes.append((path, old, line[4:].removeprefix(" ")))
        elif line.startswith(FUNCTION):
            function = line.removeprefix(FUNCTION).strip()
    return Edit(file.parent.parent.name, file.stem, tuple(changes), function)


def edits_of(crate):
    files = (ROOT / "crates" / crate / "must-fail").glob("*")
    return [read_edit(it) for it in sorted(files) if it.suffix != ".md"]


@dataclass
class Tried:
    """What became of an edit: whether the prover refused it, and what it said."""

    edit: Edit
    is_refused: bool
    why: str

    def __str__(self):
        where = f" in {self.edit.function}" if self.edit.function else ""
        what = f"refused{where}: " if self.is_refused else "NOT REFUSED: "
        return f"must-fail {self.edit.crate}/{self.edit.name}: {what}{self.why[:200]}"


class Checks:
    """The checks of one crate with edits, over the libraries that it stands on: `built` gives the folder of each by its name."""

    def __init__(self, crate, built, room):
        self.crate, self.folder, self.room = crate, ROOT / "crates" / crate, Path(room)
        self.sources = sources_of(self.folder)
        # of each check its seconds of processor, and the names of its edits
        self.words, self.spent = words_for(crate, built), []

    def run(self, texts, *words, bodies=None, edits=()):
        """The status and the lines of a check of the crate with these texts, and with the bodies of these functions alone."""
        with TemporaryDirectory(prefix="copy-", dir=self.room) as copy:
            for part in PARTS:
                if (self.folder / part).is_dir():
                    shutil.copytree(self.folder / part, f"{copy}/{part}")
            for path, text in texts.items():
                Path(copy, path).write_text(text, encoding="utf-8")
            if bodies:
                leave_out(self.crate, Path(copy), bodies)
            how = {"cwd": copy, "stdin": subprocess.DEVNULL, "stdout": subprocess.PIPE, "stderr": subprocess.STDOUT}
            words = [*self.words, "--incremental", f"{self.room}/kept", *words]
            ran = subprocess.Popen(words, text=True, errors="replace", **how)
            said = ran.stdout.read().rstrip("\n").split("\n")
            _, status, used = os.wait4(ran.pid, 0)
        ran.returncode = os.waitstatus_to_exitcode(status)
        self.spent.append((used.ru_utime + used.ru_stime, [it.name for it in edits]))
        return ran.returncode, said

    def together(self, edits):
        """Of each edit of a body what became of it; None where another edit keeps it from being told."""
        texts = {}
        for edit in edits:
            texts = edit.made_in(self.folder, texts)
        has_all_bodies = not edits[0].own_body(self.sources)
        said = self.run_only([it.function for it in edits], texts, has_all_bodies, edits)
        return [self.told(edit, said, len(edits) == 1) for edit in edits]

    def run_only(self, functions, texts, has_all_bodies, edits=()):
        """What a check of these functions alone says, with these texts, and with all bodies or theirs alone."""
        words = [word for it in functions for word in ("--only", it)]
        words += ["--test"] if any(it.startswith(TESTS) for it in functions) else []
        if has_all_bodies:
            return self.run(texts, *words, edits=edits)[1]
        return self.run(texts, "--allow-holes", *words, bodies=functions, edits=edits)[1]

    def line_of(self, function, said):
        """What a check says of a function; None if nothing."""
        begin = f"fn {self.crate}::{function}: "
        return next((it.removeprefix(begin) for it in said if it.startswith(begin)), None)

    def told(self, edit, said, is_alone):
        """What a check says of an edit's function. A table or a definition may break a goal anywhere."""
        line = self.line_of(edit.function, said)
        unread = next((it for it in said if is_unread(it, edit)), None)
        if line is None or unread or not said[-1].startswith("only="):
            return Tried(edit, False, f"no check of its function: {unread or first_error(said)}") if is_alone else None
        if PROVED.match(line):
            return Tried(edit, False, "its function is proved with it")
        body = edit.own_body(self.sources)
        errors = [it for it in said if ": error: `" in it and (not body or it.startswith(f"./{body.proof}/"))]
        own = next((it for it in errors if not NO_NAME.match(it)), line if UNPROVED.match(line) else None)
        if own and (body or not CALLS.search(line)):
            return Tried(edit, True, own)
        return Tried(edit, False, f"no goal says so: {first_error(errors or [line])}") if is_alone else None

    def alone(self, edit):
        """What becomes of the crate with an edit."""
        texts = edit.made_in(self.folder, {})
        if texts is None:
            return Tried(edit, False, "it can't be made")
        if edit.function:
            return self.together([edit])[0]
        status, said = self.run(texts, edits=[edit])
        if status == 0:
            return Tried(edit, False, "the crate is proved with it")
        unread = next((it for it in said if is_unread(it, edit)), None)
        is_refused = status == 1 and said[-1].startswith("logic=not-proved") and not unread
        return Tried(edit, is_refused, unread or first_error(said))


def leave_out(crate, copy, kept):
    """Leaves the bodies of all plain functions of a copy of a crate out of it but those of these, with a hole for the proof of each."""
    sources = sources_of(copy)
    for path, text in sources.items():
        rest, left_out = without_bodies(path, text, types_in(sources), kept)
        (copy / path).write_text(rest, encoding="utf-8")
        for function in left_out:
            proof = copy / function.proof
            proof.mkdir(parents=True, exist_ok=True)
            for name in ("Answers.antt", "Invariants.antt"):
                (proof / name).unlink(missing_ok=True)
            (proof / "Proof.antt").write_text(hole_for(crate, function), encoding="utf-8")


def is_unread(line, edit):
    """Whether the prover could not read a text of src/, of specs/ or of the edit, where a false statement reads well."""
    found = re.match(r"(?:\./)?(\S+?):\d+:\d+: error: (`[^`]*`: )?(.*)", line)
    if not found or not found[1].startswith(("src/", "specs/")) and found[1] not in [path for path, *_ in edit.changes]:
        return False
    return not found[2] or bool(NO_TERM.search(re.sub(r"`[^`]*`", "", found[3])))


def first_error(said):
    return next((it for it in said if re.match(r"\S+:\d+:\d+: error", it)), said[-1])


def built_here(name):
    """The folder of the library that `rt check` built here of a crate."""
    return ROOT / "crates" / name / "out/rlib"


def top_of(crate):
    """The file of a crate that its check begins with: that of a library, else of a program."""
    return "src/lib.rt" if (ROOT / "crates" / crate / "src/lib.rt").exists() else "src/main.rt"


def words_for(crate, built):
    """The words of a check of a crate, as `rt` gives them, over libraries each of which is built in a folder that is told by name."""
    kit = Path(os.path.realpath(shutil.which("rt"))).parent.parent
    own = crates()
    below = all_below(crate, own)
    named = re.search(rf"^{crate}(?: staticlib)?:([^#\n]*)", (ROOT / "crates.txt").read_text(), re.M)[1].split()
    # (the more crates are below it, the later its edits begin, and the less is there to run beside them at the end)
    level = max(10, 19 - len(below))
    words = ["setpriv", "--pdeathsig", "TERM", "nice", "-n", str(level), f"{kit}/bin/rattle", "check", "--crate-name", crate, top_of(crate)]
    for name in ["std", *(it for it in named if it not in own)]:
        words += ["--extern", f"{name}={kit}/rlibs/{name}.rlib"]
    words += ["-L", f"dependency={kit}/rlibs"]
    for name in below:
        rlib = built(name)
        words += ["--extern", f"{name}={rlib}/{name}.rlib"] if name in own[crate] else []
        words += ["-L", f"dependency={rlib}"]
    words += ["--antt-project", f"{kit}/rattle/logic/antt-project.json", "--logic-built", f"{kit}/logic_built"]
    words += ["--crate-type", "staticlib"] if crate in static_libraries() else []
    return [*words, "--links", f"{crate}=", "--jobs", "1"]


def library_words(crate, built, to):
    """The words of the build of a static library into a file, which proves it too, over libraries as for `words_for`."""
    words = words_for(crate, built)
    at = words.index("check")
    kit = Path(words[at - 1]).parent.parent
    return [words[at - 1], "build", *words[at + 1 :], "--toolchain", f"{kit}/toolchain", "--backend", "llvm", "-o", to]


def picked(checks, left):
    """Of the edits that are left those for the next check: one for each function, as many as can be made in one copy."""
    chosen, texts = [], {}
    for edit in left:
        if edit.function in [it.function for it in chosen] or not edit.own_body(checks.sources):
            continue
        made = edit.made_in(checks.folder, texts)
        if made is not None:
            chosen, texts = [*chosen, edit], made
    return chosen


def series_of(edits):
    """Edits of a crate in series of which each is tried one check after the other; those of one function are in different ones."""
    edits = sorted(edits, key=lambda it: it.function)
    count = -(-len(edits) // MOST)
    return [sorted(edits[number::count], key=lambda it: it.name) for number in range(count)]


def tried(crate, edits, built):
    """Tries edits of a crate, and gives what became of each, and of each check its seconds of processor and its edits."""
    with TemporaryDirectory(prefix="keep-toml-edits-") as room:
        checks, results = Checks(crate, built, room), {}
        left = [it for it in edits if it.function]
        while chosen := picked(checks, left):
            told = {it.edit: it for it in checks.together(chosen) if it}
            results.update(told or {chosen[0]: checks.alone(chosen[0])})
            left = [it for it in left if it not in results]
        for edit in [*left, *(it for it in edits if not it.function)]:
            results[edit] = checks.alone(edit)
        return [results[it] for it in edits], checks.spent


def say_tried(crate, edits, built, kept=None):
    """Tries edits of a crate, says what became of them, and keeps it, if that is asked for; gives what was refused, what was not, the
    seconds of the clock, and of each check its seconds of processor and its edits."""
    start = time.time()
    results, spent = tried(crate, edits, built)
    if kept:
        kept.keep(results)
    refused = sum(it.is_refused for it in results)
    minutes = f"{(time.time() - start) / 60:.1f} minutes, {sum(it for it, _ in spent) / 60:.1f} of processor"
    print(*results, f"{crate}: {refused} of {len(results)} edits refused, in {len(spent)} checks, {minutes}", sep="\n", flush=True)
    return refused, len(results) - refused, time.time() - start, spent


def say_unedited(crate, built):
    """Says which functions that the edits of a crate name are not proved by the same check without any edit; gives the counts."""
    with TemporaryDirectory(prefix="keep-toml-edits-") as room:
        checks = Checks(crate, built, room)
        functions = sorted({it.function for it in edits_of(crate) if it.own_body(checks.sources)})
        said = checks.run_only(functions, {}, False) if functions else []
    lines = {it: checks.line_of(it, said) or first_error(said) for it in functions}
    missed = [f"{crate}: {it} is not proved: {line[:200]}" for it, line in lines.items() if not PROVED.match(line)]
    print(*missed, f"{crate}: {len(functions) - len(missed)} of {len(functions)} functions proved without an edit", sep="\n", flush=True)
    return len(functions) - len(missed), len(missed)


def named_in(words):
    """Of each crate that is named, or some of whose edits are, the names of those edits: none stand for all. Without words all crates."""
    named = {it: set() for it in crates() if not words and edits_of(it)}
    for word in words:
        crate, _, edit = word.partition("/")
        named.setdefault(crate, set()).update([edit] if edit else [])
    return named


def main(*words):
    is_unedited = "--unedited" in words
    named = named_in([it for it in words if it != "--unedited"])
    unknown = [f"{crate}/{it}" for crate, names in named.items() for it in sorted(names - {it.name for it in edits_of(crate)})]
    print(*(f"there is no edit {it}" for it in unknown), sep="\n", end="\n" if unknown else "")
    with ThreadPoolExecutor(len(os.sched_getaffinity(0))) as pool:
        if is_unedited:
            done = list(pool.map(lambda it: say_unedited(it, built_here), named))
        else:
            chosen = {crate: [it for it in edits_of(crate) if not names or it.name in names] for crate, names in named.items()}
            series = [(crate, it) for crate, edits in chosen.items() for it in series_of(edits)]
            done = list(pool.map(lambda it: say_tried(*it, built_here), series))
    passed, missed = sum(it[0] for it in done), sum(it[1] for it in done) + len(unknown)
    print(f"edits: {passed} passed, {missed} failed")
    return missed > 0


if __name__ == "__main__":
    sys.exit(main(*sys.argv[1:]))
