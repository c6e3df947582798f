#!/usr/bin/env python3
"""Cuts and changes small documents, and asks of each text what has to hold of it, and of what each edit makes of it.

    tests/properties/each_byte.py KEEP_TOML KEEP_ROWS

Each text of documents.tsv is cut after every byte, and in each every byte in turn is changed to 00, 0D, 22, 5B and
FF. The program reads each of these texts in both profiles: it is accepted, or it is refused with a named fault at a
place of the text. The verdict in the strict profile is that of Python's own reader; what is accepted there is
accepted in the wide one too.

keep_test_rows tells more of each text that is accepted, in the profile that accepted it: its tokens joined are the text,
tokens and nodes are no more than its bytes and one, `list` and `get` agree with Python's reader. Then the six edits
are made at each path of `list`: an edit is refused or not as the definitions say, it keeps the other bytes, and the
same is asked of its result. The program makes the edits in the strict profile too, and answers the same.
"""
import re
import sys
from multiprocessing import Pool
from pathlib import Path

sys.dont_write_bytecode = True
sys.path[:0] = [str(Path(__file__).resolve().parents[2] / it) for it in ("tests/rows",)]
import laws
from ask import PROCESSORS, Count, answer, answers, cells_of, plain
from laws import MADE, Document, Edit
from reader import path_text, steps_of

HERE = Path(__file__).resolve().parent
OTHER_BYTES = (b"\x00", b"\r", b'"', b"[", b"\xff")
# The groups of keep_test_rows by profile, and the name of its limits.
GROUPS = {"strict": (b"document", b"edit", b"strict"), "wide": (b"wide document", b"wide edit", b"wide")}
CHECKS = {"strict": b"check", "wide": b"check-wide"}
# The kinds of keep_test_rows in the words of `list`.
KINDS = {"Str": "string", "Inline": "inline-table", "Tables": "array-of-tables"}
# How many texts a process takes at once.
SHARE = 50


def documents():
    return [plain(text) for _, (_, text) in cells_of(HERE / "documents.tsv")]


def variants(text):
    """The text cut after every byte, and with every byte changed."""
    for at in range(len(text) + 1):
        yield text[:at]
    for at in range(len(text)):
        for byte in OTHER_BYTES:
            yield text[:at] + byte + text[at + 1 :]


def kind_word(name):
    return KINDS.get(name) or re.sub(r"(?<!^)([A-Z])", r"-\1", name).lower()


# What the program says of a text


def check_failure(text, ran):
    """Of an answer of check: the counts, or a fault."""
    if ran.returncode == 0:
        found = re.fullmatch(rb"ok tokens=(\d+) nodes=(\d+)\n", ran.stdout)
        is_well = found and not ran.stderr
        return laws.counts_law(int(found[1]), int(found[2]), len(text)) if is_well else f"{ran.stdout} {ran.stderr}"
    line = ran.stderr.decode(errors="replace")
    if ran.returncode != 1 or ran.stdout or not line.startswith("keep-toml: ") or not line.endswith("\n"):
        return f"status {ran.returncode}, {ran.stdout}, {line!r}"
    return laws.fault_law(line.removeprefix("keep-toml: ")[:-1], len(text))


def program_failure(keep_toml, text):
    """What is wrong with how the program reads a text in both profiles, and the profiles that accept it."""
    ran = {profile: answer(keep_toml, [word], text) for profile, word in CHECKS.items()}
    strict, wide = ran["strict"], ran["wide"]
    why = check_failure(text, strict) or check_failure(text, wide) or laws.verdict_law(text, strict.returncode == 0)
    if not why and strict.returncode == 0 and strict.stdout != wide.stdout:
        why = f"otherwise in the wide profile: {wide.stdout}"
    return why, [profile for profile, it in ran.items() if it.returncode == 0]


# What keep_test_rows says of a text that is accepted


def facts_questions(text, profile):
    group, _, limits = GROUPS[profile]
    yield group, b"counts", text
    yield group, b"list", text
    yield group, b"text", text
    yield b"syntax", b"tokens", text, limits


def facts_of(text, found):
    """The kinds of a document by its paths, from the answers to facts_questions, and what is wrong."""
    counts = re.fullmatch(rb"Counts { tokens: (\d+), nodes: (\d+) }", found[0])
    if not counts:
        return None, f"refused: {found[0]}"
    tokens, nodes = int(counts[1]), int(counts[2])
    listed = [line.rpartition(" ") for line in found[1].decode().split("\n")[:-1]]
    kinds = {path: kind_word(kind) for path, _, kind in listed}
    if len(listed) != nodes - 1 or len(kinds) != len(listed):
        return None, f"{nodes} nodes, but list has {listed}"
    if found[2] != text:
        return None, f"the text is {found[2]}"
    return kinds, laws.counts_law(tokens, nodes, len(text)) or tokens_failure(text, tokens, found[3])


def tokens_failure(text, count, found):
    """The tokens, each with its kind, its place and its text, are the text from its start to its end."""
    at = place = number = 0
    head = re.compile(rb"(\w+) (\d+) ")
    while it := head.match(found, place):
        number, start = number + 1, it.end()
        if int(it[2]) != at:
            break
        if it[1] == b"End":
            is_end = at == len(text) and found[start:] == b"\n" and number == count
            return None if is_end else f"the tokens end otherwise: {found}"
        later = (int(end[2]) for end in re.finditer(rb"\n(\w+) (\d+) ", found[start - 1 :]))
        end = next((end for end in later if found.startswith(text[at:end] + b"\n", start)), at)
        if end == at:
            break
        at, place = end, start + end - at + 1
    return f"the tokens are not the text: {found}"


def values_of(keep_test_rows, profile, looked):
    """Documents with their values, and what is wrong with these; `looked` has texts and their kinds."""
    group = GROUPS[profile][0]
    paths = [(text, path.encode()) for text, kinds in looked for path in kinds]
    found = iter(answers(keep_test_rows, [(group, word, *it) for it in paths for word in (b"get", b"string")]))
    for text, kinds in looked:
        document, whys = Document(text, kinds, {}), []
        for path in kinds:
            value, string = next(found), next(found)
            document.values[path] = None if value == b"NotValue" else value
            whys.append(laws.get_law(document, path, document.values[path]))
            whys.append(laws.string_law(document, path, None if string == b"none" else string[1:-1]))
        yield document, next(filter(None, whys), None)


def looked_at(keep_test_rows, profile, texts):
    """Each text as a document and what is wrong with it; it is None where that is that the text is refused."""
    asked = [list(facts_questions(text, profile)) for text in texts]
    found = answers(keep_test_rows, [it for questions in asked for it in questions])
    facts = [facts_of(text, found[4 * number : 4 * number + 4]) for number, text in enumerate(texts)]
    accepted = [(text, kinds) for text, (kinds, _) in zip(texts, facts) if kinds is not None]
    with_values = values_of(keep_test_rows, profile, accepted)
    for kinds, why in facts:
        document, other = (None, None) if kinds is None else next(with_values)
        if document and profile == "strict":
            other = other or laws.entries_law(document)
        yield document, why or other


# The six edits


def edits_of(document):
    """The six edits at each path, and at the paths beside and below it that are not there."""
    yield Edit("insert", '"z z"', "7")
    yield Edit("table", "z-z")
    yield Edit("remove", "")
    for path, kind in document.kinds.items():
        yield Edit("set", path, "[7, {y = 'x'}]")
        yield Edit("insert", path, "7")
        yield Edit("insert", f"{path}.z.y", "[7]")
        yield Edit("rename", path, "z z")
        yield Edit("remove", path)
        if kind == "array":
            yield Edit("insert", f"{path}[{length_of(document, path)}]", "{y = 7}")
        keys = path_text([it for it in steps_of(path) if isinstance(it, str)])
        for op in ("table", "element"):
            yield Edit(op, keys)
            yield Edit(op, f"{keys}.z")


def length_of(document, path):
    number = 0
    while f"{path}[{number}]" in document.kinds:
        number += 1
    return number


def outcome_of(document, found):
    """The outcome of an edit, the place where the text was changed, and the text after it, as keep_test_rows prints them."""
    line, _, text = found.partition(b"\n")
    place = re.fullmatch(rb"(\d+) (\d+) (\d+)", line)
    return (MADE, [int(it) for it in place.groups()], text) if place else (line.decode(), None, text)


def edit_failure(document, edit, found):
    """What is wrong with an edit by itself, and the text that it made, if it did."""
    outcome, place, text = outcome_of(document, found)
    why = laws.outcome_law(document, edit, outcome)
    if outcome != MADE:
        return why or (None if text == document.text else f"refused, but the text is {text}"), None
    start, end, added = place
    if not why and text != laws.put(document.text, start, end, text[start : start + added]):
        why = f"{place} is not the place of the change: {text}"
    return why or laws.growth_law(document, edit, text) or laws.kept_law(document, edit, text), text


def made_edits(keep_test_rows, profile, document):
    """The edits of a document with what is wrong and the text that each made."""
    edits = list(edits_of(document))
    group = GROUPS[profile][1]
    asked = [(group, it.op.encode(), document.text, it.path.encode(), it.word.encode()) for it in edits]
    return [(edit, *edit_failure(document, edit, found)) for edit, found in zip(edits, answers(keep_test_rows, asked))]


def program_edit_failure(keep_toml, document, edit, text):
    """The program makes an edit exactly as keep_test_rows does."""
    words = [it.encode() for it in (edit.op, edit.path, *([edit.word] if edit.word else []))]
    ran = answer(keep_toml, words, document.text)
    wanted = (0, text) if text is not None else (1, b"")
    is_well = (ran.returncode, ran.stdout) == wanted
    return None if is_well else f"the program: {ran.returncode} {ran.stdout} {ran.stderr}"


def edits_failures(keep_toml, keep_test_rows, profile, document):
    """A name and what is wrong, or None, for each edit of a document and for its result."""
    made = made_edits(keep_test_rows, profile, document)
    results = [text for _, _, text in made if text is not None]
    looked = looked_at(keep_test_rows, profile, results)
    for edit, why, text in made:
        if text is not None:
            result, other = next(looked)
            why = why or other
            if not why and profile == "strict":
                why = laws.tree_law(document, edit, result)
        if not why and profile == "strict":
            why = program_edit_failure(keep_toml, document, edit, text)
        yield f"{document.text!r} in {profile}, {edit}", why


# All of it, in shares


def share_failures(keep_toml, keep_test_rows, texts):
    """How much passed of a share of the texts, and what failed."""
    results, accepted = [], {profile: [] for profile in CHECKS}
    for text in texts:
        why, profiles = program_failure(keep_toml, text)
        results.append((f"{text!r}", why))
        for profile in profiles:
            accepted[profile].append(text)
    for profile, ours in accepted.items():
        for text, (document, why) in zip(ours, looked_at(keep_test_rows, profile, ours)):
            results.append((f"{text!r} in {profile}", why))
            if document:
                results += edits_failures(keep_toml, keep_test_rows, profile, document)
    return [it for it in results if it[1]], sum(1 for it in results if not it[1])


def main(keep_toml, keep_test_rows):
    count = Count()
    texts = sorted({variant for text in documents() for variant in variants(text)})
    shares = [(keep_toml, keep_test_rows, texts[at::SHARE]) for at in range(SHARE)]
    with Pool(PROCESSORS) as pool:
        for failed, passed in pool.starmap(share_failures, shares, chunksize=1):
            count.passed += passed
            for name, why in failed:
                count.add(name, why)
    return count.close("each byte")


if __name__ == "__main__":
    sys.exit(main(*sys.argv[1:3]))
