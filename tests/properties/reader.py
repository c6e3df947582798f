"""Python's own reader of TOML v1.0.0, as a second opinion on documents of the strict profile.

A tree is a dict for a table, a list for an array, and for a scalar a pair of its kind, in the words of `list`, and
what it means. Some choices of this project (docs/DECISIONS.md) are not tomllib's: they are made here (a byte order
mark is taken off, an integer has 64 bits), or there is no opinion (second 60, year 0000, depth). tomllib reads CR LF
in a string as LF.
"""
import datetime
import json
import re

try:
    import tomllib
except ImportError:
    # Python before 3.11: nothing is said of documents
    tomllib = None

BYTE_ORDER_MARK = b"\xef\xbb\xbf"
INTEGERS = range(-(2**63), 2**63)
# So many arrays and inline tables may enclose one another. A tree does not tell inline tables from others.
DEPTH = 128
NO_OPINION = "no opinion"
ESCAPED = {"\b": "\\b", "\t": "\\t", "\n": "\\n", "\f": "\\f", "\r": "\\r", '"': '\\"', "\\": "\\\\"}
STEP = re.compile(r'\.?("(?:[^"\\]|\\.)*"|[A-Za-z0-9_-]+)|\[(\d+)\]')


def read(text):
    """The tree of a document; None if it is refused, NO_OPINION where this reader can't say which."""
    if tomllib is None:
        return NO_OPINION
    text = text.removeprefix(BYTE_ORDER_MARK)
    try:
        tree = parsed(text)
    except RecursionError:
        return NO_OPINION
    if tree is None and (other := with_other_times(text)) != text and parsed(other) is not None:
        return NO_OPINION
    return NO_OPINION if tree is not None and depth(tree) > DEPTH else tree


class FloatText(str):
    """The text of a float: it is not computed."""


def parsed(text):
    """The tree that tomllib reads; None if it refuses the text, or if an integer has too many bits."""
    try:
        return tree_of(tomllib.loads(text.decode(), parse_float=FloatText))
    except ValueError:
        return None


def with_other_times(text):
    """The text with second 59 for second 60, and for the leap year 0000 another that tomllib takes."""
    return re.sub(rb"\b0000-", b"0004-", re.sub(rb"(\d\d:\d\d:)60", rb"\g<1>59", text))


def tree_of(value):
    if isinstance(value, dict):
        return {key: tree_of(it) for key, it in value.items()}
    if isinstance(value, list):
        return [tree_of(it) for it in value]
    if isinstance(value, int) and not isinstance(value, bool) and value not in INTEGERS:
        raise ValueError("an integer of more than 64 bits")
    return kind_of(value), value


def kind_of(value):
    if isinstance(value, FloatText):
        return "float"
    if isinstance(value, datetime.datetime):
        return "offset-date-time" if value.tzinfo else "local-date-time"
    kinds = {str: "string", bool: "boolean", int: "integer", datetime.date: "local-date", datetime.time: "local-time"}
    return kinds[type(value)]


def depth(tree):
    """How many tables and arrays enclose one another."""
    deepest, open_ones = 0, [(tree, 0)]
    while open_ones:
        it, above = open_ones.pop()
        deepest = max(deepest, above)
        parts = it.values() if isinstance(it, dict) else it if isinstance(it, list) else ()
        open_ones += [(part, above + 1) for part in parts]
    return deepest


def entries(tree, path=()):
    """The steps and the kinds of all that is below a table: either kind of tables, or of arrays, has the same tree."""
    for step, it in tree.items() if isinstance(tree, dict) else enumerate(tree):
        steps = (*path, step)
        if isinstance(it, dict):
            yield steps, ("table", "inline-table")
            yield from entries(it, steps)
        elif isinstance(it, list):
            yield steps, ("array", "array-of-tables")
            yield from entries(it, steps)
        else:
            yield steps, (it[0],)


def key_text(key):
    """A key as it is written: bare where it can be, else as a basic string."""
    if re.fullmatch(r"[A-Za-z0-9_-]+", key):
        return key
    escape = lambda found: ESCAPED.get(found[0]) or f"\\u{ord(found[0]):04X}"
    return '"' + re.sub(r'["\\\x00-\x1f\x7f]', escape, key) + '"'


def path_text(steps):
    texts = (f"[{it}]" if isinstance(it, int) else f".{key_text(it)}" for it in steps)
    return "".join(texts).removeprefix(".")


def steps_of(path):
    """The steps of a path's text, as path_text writes it."""
    return tuple(int(found[2]) if found[2] else key_of(found[1]) for found in STEP.finditer(path))


def key_of(text):
    """What a key means that is bare or written as key_text does; JSON has all escapes of that."""
    return json.loads(text) if text.startswith('"') else text
