"""Which functions of keep_edit, keep_edit_runs, keep_edit_plan and keep_rules read a text: a look at their sources, which
`tests/looks/docs` takes.

The rule: **after an edit nothing of the text is scanned but the lines that the edit touches.** Half of it is proved. The syntax
is renewed by `put_lines`, which is handed the new lines and no other text, and its `requires` says that these are the lines that
replace those which the edit touches. But no clause says what a body does not do: one that reads the whole text besides, and
throws away what it read, meets every contract. So this is looked at: each name by which a text is read stands in the code of
these crates where READ_BY says, once in each of these functions, and nowhere else. No edit is among them; `copied` reads the
document's text for a list of edits, once, and `with_changes` the text after many edits of a list that are made at once; and
where a value changes the index, its own text is read once more: that of a given value by `nodes_of_value` or `set_value`, that
of a touched line's value by `set_inside`. For a list of edits `holder_set` reads the text that a value has with an entry more or less, and
where an edit of the list has set a short value and another one is of an entry of it, `change_in` reads that value, `same_value`
the one that is inserted or set, and `value_made` the text that the first has then. That is where the places of its entries don't tell it:
`take` reads such a value with these places, once for all edits of it, and of an inline table the keys are read where they stand.

Comments, contracts and proofs are not looked at. The functions are found by the layout of `rt fmt` (bodies.py).
"""
import re
import shutil
import sys
from pathlib import Path
from tempfile import TemporaryDirectory

sys.dont_write_bytecode = True
sys.path.insert(0, str(Path(__file__).resolve().parents[2] / "tools/gate"))
from bodies import functions_of, types_in

CRATES = ("keep_edit", "keep_edit_runs", "keep_edit_plan", "keep_rules")
DOCUMENT = "keep_edit document::Document::"
# Where a value alone is read as a document, for an edit of an entry of it.
ALONE = "keep_edit_runs value_after::"
INDEX = "keep_rules index::Index::"
OPEN_VALUE = "keep_edit_plan open_value::OpenValue::"
# Where the texts of single values are read, which are no document's.
OF_VALUES = "keep_rules", "src/value.rt"
READ_BY = {
    # what reads a text, in these crates and below them (`Index::read` goes along a syntax)
    "read": [
        DOCUMENT + "of_text",
        *(INDEX + it for it in ("build", "rebuilt")),
        "keep_rules index::values::nodes_in_text",
        # a value whose entries are known by their places
        OPEN_VALUE + "read",
        "keep_edit_runs opened::OpenValues::take",
        # (the syntax)
        ALONE + "change_in",
    ],
    "replace": ["keep_edit lines::put_lines"],
    "build": [DOCUMENT + "of_syntax", ALONE + "change_in"],
    "text_of": [DOCUMENT + "read_in", DOCUMENT + "read_owned_in"],
    "check_value": [OPEN_VALUE + "read"],
    "scan_gap": [],
    "ws_end": [],
    # the keys of an inline table whose entries are known by their places
    "scan_key": ["keep_edit_plan open_value::keys::key_at", "keep_edit_plan open_value::keys::is_own_key"],
    "scan_scalar": [],
    # what reads a value alone, and for what
    "change_in": [ALONE + "value_after"],
    # what reads a document
    "of_syntax": [DOCUMENT + "of_text"],
    "of_text": [
        *(DOCUMENT + it for it in ("read_in", "read_owned_in", "copied")),
        # many edits of a list at once
        DOCUMENT + "with_changes",
    ],
    "read_in": [
        DOCUMENT + "read",
        # what a value is with an entry more or less, of its own text
        "keep_edit_plan document::DocumentRef::holder_set",
        "keep_edit_runs before::Before::value_made",
        # and the value that is inserted there
        ALONE + "same_value",
    ],
    "read_owned_in": [DOCUMENT + "read_owned"],
    "read_owned": [],
    # what reads a given value once more
    "nodes_in_text": ["keep_rules index::values::nodes_of_value", INDEX + "set_text"],
    "nodes_of_value": [INDEX + "insert_value", "keep_rules index::new_keys::nodes_with_value"],
    "nodes_with_value": [INDEX + "insert_keys_value"],
    "set_text": [INDEX + "set_value", "keep_edit index_change::set_inside"],
    # what reads it again, for a list of edits
    "copied": [DOCUMENT + "begun"],
    "after_each": [DOCUMENT + "apply_all"],
    "apply_all": [],
    # what reads the touched lines (`reread` is also a function of the syntax that makes another one)
    "put_lines": ["keep_edit planned::reread"],
    "reread": [DOCUMENT + "replaced"],
}
NAME = re.compile(r"\b(?:" + "|".join(READ_BY) + r")\b")
# What is no code: comments, texts, clauses and other lines of proofs, each up to a bracket that closes it.
COMMENT_OR_TEXT = re.compile(r'//[^\n]*|"(?:\\.|[^"\\])*"')
CONTRACT = re.compile(r"^ *(?:requires|ensures)\*?(?: \w+)? \{|^ *ghost \w+: \{|^ *ghost \w+ = \{", re.M)
GHOST_USE = re.compile(r"^ *ghost use [^;]*;", re.M)
# Where a name stands for no call: the function or the module that has it, and an import by that name.
DEFINED = re.compile(r"\b(fn|mod) \w+")
IMPORT = re.compile(r"^ *(?:pub(?:\([a-z ]+\))? )?use (?:(?! as )[^;])*;", re.M)


def blank(text):
    """As many lines as a text has, with nothing in them."""
    return "\n" * text.count("\n")


def code_of(text):
    """A file's text without what is no code. Each line stays where it is."""
    text = COMMENT_OR_TEXT.sub("", text)
    text = GHOST_USE.sub(lambda it: blank(it[0]), text)
    while begins := CONTRACT.search(text):
        end, depth = begins.end(), 1
        while depth:
            depth += {"{": 1, "}": -1}.get(text[end], 0)
            end += 1
        text = text[: begins.start()] + blank(text[begins.start() : end]) + text[end:]
    return text


def namings(crate, folder):
    """Each name of READ_BY that stands in the code of a crate: the name, and the function, or the file outside of all functions."""
    texts = {it.relative_to(folder).as_posix(): it.read_text(encoding="utf-8") for it in sorted((folder / "src").rglob("*.rt"))}
    types = types_in(texts)
    for file, text in texts.items():
        if (crate, file) == OF_VALUES:
            continue
        functions = functions_of(file, text, types)
        code = IMPORT.sub(lambda it: blank(it[0]), DEFINED.sub(r"\1", code_of(text)))
        for number, line in enumerate(code.split("\n")):
            where = next((it.path for it in functions if it.start <= number < it.end), file)
            for name in NAME.findall(line):
                yield name, f"{crate} {where}"


def gaps(root):
    """What stands in the sources below a folder and is not what READ_BY says."""
    found = [it for crate in CRATES for it in namings(crate, Path(root, "crates", crate))]
    allowed = [(name, function) for name, functions in READ_BY.items() for function in functions]
    for name, where in sorted(set(found)):
        if (name, where) not in allowed:
            yield f"{where} names `{name}`, by which a text is read"
        elif found.count((name, where)) > 1:
            yield f"{where} names `{name}` more than once"
    for name, function in allowed:
        if (name, function) not in found:
            yield f"{function} no longer names `{name}`: mend READ_BY in tests/looks/readings.py"


def wrong_bodies(table):
    """The rows of a table of wrong bodies: a name, and of a file what stands there once and what instead."""
    for line in Path(table).read_text(encoding="utf-8").split("\n"):
        if line and not line.startswith("#"):
            name, file, old, new = line.split("\t")
            yield name, file, old.replace("\\n", "\n"), new.replace("\\n", "\n")


def looks(table):
    """How many things are looked at: each name, and each wrong body of a table."""
    return len(READ_BY) + len(list(wrong_bodies(table)))


def unfound(root, table):
    """The wrong bodies of a table of which this look, over a copy of the sources, finds nothing."""
    for name, file, old, new in wrong_bodies(table):
        with TemporaryDirectory() as copy:
            for crate in CRATES:
                shutil.copytree(Path(root, "crates", crate, "src"), Path(copy, "crates", crate, "src"))
            path = Path(copy, "crates", file)
            text = path.read_text(encoding="utf-8")
            if text.count(old) != 1:
                yield f"tests/looks/readings.tsv: what {name} replaces does not stand once in {file}"
                continue
            path.write_text(text.replace(old, new), encoding="utf-8")
            if not list(gaps(copy)):
                yield f"tests/looks/readings.tsv: {name} is not found"
