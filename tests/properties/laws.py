"""What holds of every document and of every edit, by the definitions. Each law answers what is wrong, or None.

A document is known here by its text, by what `list` and `get` print, and by the tree that Python's own reader has of
it.
"""
import copy
import re
from dataclasses import dataclass

from reader import BYTE_ORDER_MARK, NO_OPINION, entries, key_text, path_text, read, steps_of

WHAT = "KeyPart|Escape|Control|Unclosed|Integer|Float|DateTime|Word|Structure"
WHY = "NotATable|DefinedTwice|NotAnArray|NotByDots|DuplicateKey"
READ_FAULT = re.compile(
    rf"not UTF-8 at (?P<a>\d+)|too deep at (?P<b>\d+)|syntax at (?P<c>\d+): ({WHAT})|definition at (?P<d>\d+): ({WHY})"
)
MADE = "made"
# The faults of an edit that the kinds of nodes alone do not decide, but how often and where a table is written.
UNDECIDED = {
    "rename": "Scattered",
    "remove": "Scattered",
    "table": f"Conflict ({WHY})",
    "element": f"Conflict ({WHY})",
}
# What has no text of its own; each other kind is that of a value.
TABLES = ("table", "array-of-tables")
# From so many brackets on, a value may be too deep.
DEPTH = 128


@dataclass(frozen=True)
class Edit:
    """An edit, as a script names it. The word is a value, a key or nothing."""

    op: str
    path: str
    word: str = ""


@dataclass
class Document:
    """A text that is accepted; the kind of each path in the order of `list`, and the values as they are written."""

    text: bytes
    kinds: dict
    values: dict

    def __post_init__(self):
        self.tree = read(self.text)

    def kind(self, steps):
        return self.kinds.get(path_text(steps)) if steps else "table"


def fault_law(line, length):
    """A refused text has a named fault, with a place that is in the text or at its end."""
    found = READ_FAULT.fullmatch(line)
    if not found:
        return f"{line!r} is no fault of reading"
    places = [int(it) for it in found.groupdict().values() if it]
    return None if places[0] <= length else f"{line!r} is past the end, {length}"


def counts_law(tokens, nodes, length):
    return None if tokens <= length + 1 and nodes <= length + 1 else f"{tokens} tokens, {nodes} nodes of {length} bytes"


def verdict_law(text, is_accepted):
    """A text is accepted exactly if Python's own reader accepts it."""
    tree = read(text)
    if tree == NO_OPINION or is_accepted == (tree is not None):
        return None
    return "accepted, but not by tomllib" if is_accepted else "refused, but not by tomllib"


def entries_law(document):
    """`list` has the paths and kinds of the tree, each once."""
    if document.tree in (None, NO_OPINION):
        return None
    wanted = {path_text(steps): kinds for steps, kinds in entries(document.tree)}
    for path, kind in document.kinds.items():
        if kind not in wanted.pop(path, ()):
            return f"list has {path!r} as {kind}, but tomllib has not"
    return f"list has no {list(wanted)}" if wanted else None


def get_law(document, path, found):
    """`get` of a value is a part of the text; a table has none."""
    if document.kinds[path] in TABLES:
        return None if found is None else f"get {path!r}: {found!r}, of a table"
    return None if found and found in document.text else f"get {path!r}: {found!r}"


def string_law(document, path, found):
    """`text` of a string is what it means; None stands for what is no string."""
    if document.kinds[path] != "string" or document.tree in (None, NO_OPINION):
        return None if (found is None) == (document.kinds[path] != "string") else f"text {path!r}: {found!r}"
    value = document.tree
    for step in steps_of(path):
        value = value[step]
    wanted = value[1].encode()
    return None if found is not None and found.replace(b"\r\n", b"\n") == wanted else f"text {path!r}: {found!r}"


def outcome_law(document, edit, outcome):
    """An edit is refused exactly if the definitions refuse it; an outcome is MADE or a fault."""
    wanted = {"set": of_set, "insert": of_insert, "rename": of_rename, "remove": of_remove}.get(edit.op, of_append)
    expected = wanted(document, steps_of(edit.path), edit)
    if expected is None:
        is_well = outcome == MADE or re.fullmatch(UNDECIDED[edit.op], outcome)
    else:
        is_well = outcome == expected or (expected, outcome) == (MADE, "TooDeep") and may_be_too_deep(document, edit)
    return None if is_well else f"{outcome}, not {expected or UNDECIDED[edit.op]}"


def may_be_too_deep(document, edit):
    return sum(document.text.count(it) for it in (b"[", b"{")) + edit.word.count("[") + edit.word.count("{") > DEPTH


def of_set(document, steps, _):
    kind = document.kind(steps)
    if kind is None:
        return "NotFound"
    return "NotValue" if kind in TABLES else MADE


def of_insert(document, steps, _):
    if steps and isinstance(steps[-1], int) and document.kind(steps[:-1]) == "array":
        # (the first free index is that of a path which has a node before it)
        is_there = steps[-1] == 0 or document.kind((*steps[:-1], steps[-1] - 1))
        return MADE if is_there else "NotFound"
    if document.kind(steps):
        return "Exists"
    known = max(it for it in range(len(steps)) if document.kind(steps[:it]))
    if any(isinstance(it, int) for it in steps[known:]):
        return "NotFound"
    return MADE if document.kind(steps[:known]) in ("table", "inline-table") else "NotTable"


def of_rename(document, steps, edit):
    kind = document.kind(steps)
    if kind is None:
        return "NotFound"
    if not steps or isinstance(steps[-1], int):
        return "NotKey"
    if document.kind((*steps[:-1], edit.word)):
        return "Exists"
    return None if kind in TABLES else MADE


def of_remove(document, steps, _):
    kind = document.kind(steps)
    if kind is None:
        return "NotFound"
    if not steps:
        return "NotKey"
    return None if kind in TABLES else MADE


def of_append(document, keys, _):
    if not keys:
        return "NotKey"
    return None if document.kind(keys[:1]) else MADE


def growth_law(old, edit, new):
    """A text grows by no more than the path, the value or the new key, as they are written, and 12 bytes."""
    word = key_text(edit.word) if edit.op == "rename" else edit.word
    most = len(path_text(steps_of(edit.path)).encode()) + len(word.encode()) + 12
    return None if len(new) - len(old.text) <= most else f"grown by more than {most} bytes to {new!r}"


def kept_law(old, edit, new):
    """Each byte outside the edit's span is kept, as far as the texts alone can tell."""
    laws = {"set": keeps_by_set, "insert": keeps_by_insert, "rename": keeps_by_rename, "remove": keeps_by_remove}
    is_preserved = laws.get(edit.op, keeps_by_append)(old, edit, new)
    return None if is_preserved else f"other bytes changed: {new!r}"


def keeps_by_set(old, edit, new):
    """One place of the old value holds the new one."""
    value = old.values[edit.path]
    places = [it.start() for it in re.finditer(rb"(?=%s)" % re.escape(value), old.text)]
    return any(put(old.text, it, it + len(value), edit.word.encode()) == new for it in places)


def put(text, start, end, added):
    return text[:start] + added + text[end:]


def keeps_by_insert(old, edit, new):
    """One run of bytes, which has the value, was put in."""
    start, end = common_ends(old.text, new)
    return start + end == len(old.text) and edit.word.encode() in new


def common_ends(old, new):
    """How many bytes two texts share at the front, and then at the end."""
    least = min(len(old), len(new))
    front = next((it for it in range(least) if old[it] != new[it]), least)
    rest = least - front
    end = next((it for it in range(rest) if old[-1 - it] != new[-1 - it]), rest)
    return front, end


def keeps_by_rename(old, edit, new):
    """One key part of the old meaning was replaced by the new key."""
    key, named = key_text(edit.word).encode(), steps_of(edit.path)[-1]
    front, _ = common_ends(old.text, new)
    for start in range(front, -1, -1):
        end = len(old.text) - (len(new) - start - len(key))
        if put(old.text, start, end, key) == new and is_key(old.text[start:end], named):
            return True
    return False


def is_key(text, named):
    tree = read(text + b" = 0")
    return tree == NO_OPINION or tree == {named: ("integer", 0)}


def keeps_by_remove(old, _, new):
    """One run of bytes was taken out, but perhaps for a gap in it, which holds a comment."""
    front, end = common_ends(old.text, new)
    kept = new[front : len(new) - end]
    return len(new) < len(old.text) and kept in old.text[front : len(old.text) - end] and (not kept or b"#" in kept)


def keeps_by_append(old, edit, new):
    """A header on a line of its own was put at the end, below an empty line unless it is the first."""
    brackets = ("[%s]" if edit.op == "table" else "[[%s]]") % path_text(steps_of(edit.path))
    added = new[len(old.text) :].replace(b"\r\n", b"\n")
    if not new.startswith(old.text):
        return False
    header = brackets.encode() + b"\n"
    if not old.text.removeprefix(BYTE_ORDER_MARK):
        return added == header
    return added == (b"\n" + header if old.text.endswith(b"\n") else b"\n\n" + header)


def tree_law(old, edit, new):
    """The tree is changed as the edit names it, and nowhere else."""
    if old.tree == NO_OPINION or new.tree == NO_OPINION:
        return None
    return None if new.tree in trees_after(old.tree, edit) else f"{new.text!r} has another tree: {new.tree}"


def trees_after(tree, edit):
    """The trees that an edit may leave; more than one only where tables may go with the last of what is in them."""
    tree, steps = copy.deepcopy(tree), steps_of(edit.path)
    if edit.op == "remove":
        return trees_without(tree, steps)
    if edit.op in ("table", "element"):
        append_header(tree, steps, edit.op)
        return [tree]
    parent, last = at(tree, steps[:-1]), steps[-1]
    if edit.op == "rename":
        parent[edit.word] = parent.pop(last)
    elif edit.op == "insert" and isinstance(parent, list):
        parent.insert(last, value_of(edit.word))
    else:
        parent[last] = value_of(edit.word)
    return [tree]


def value_of(word):
    return read(b"v = " + word.encode())["v"]


def at(tree, steps):
    """What is at these steps; tables that are not there are made."""
    for step in steps:
        tree = tree[step] if isinstance(tree, list) else tree.setdefault(step, {})
    return tree


def append_header(tree, keys, op):
    """Walks to a header's table, into the last element of each array of tables on the way."""
    for key in keys[:-1]:
        tree = tree.setdefault(key, {})
        tree = tree[-1] if isinstance(tree, list) else tree
    if op == "element":
        tree.setdefault(keys[-1], []).append({})
    else:
        tree.setdefault(keys[-1], {})


def trees_without(tree, steps):
    """The tree without what is at these steps, and without each empty table above it in turn."""
    trees = []
    for length in range(len(steps), 0, -1):
        parent = at(tree, steps[: length - 1])
        del parent[steps[length - 1]]
        trees.append(copy.deepcopy(tree))
        if parent:
            break
    return trees
