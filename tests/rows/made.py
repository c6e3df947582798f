"""Rows that are made rather than written down: large documents, whose answers follow from how they are made."""
from ask import Row

LIMIT = 16_777_216
# So many arrays and inline tables may enclose one another.
DEPTH = 128
# From so many on, what is kept of a text does not fit into 16 bits.
MANY = 65_536


def large_rows():
    spaces = b" " * LIMIT
    yield Row("a document of as many bytes as the limit", [b"check"], spaces, 0, b"ok tokens=2 nodes=1\n")
    too_long = b"keep-toml: input longer than 16777216 bytes"
    yield Row("one byte more than the limit", [b"check"], spaces + b" ", 3, b"", too_long)
    no_text = b"\xff" * (LIMIT + 1)
    yield Row("one byte more than the limit, and no text", [b"check"], no_text, 3, b"", too_long)
    elements = b"[[a]]\n" * 10_000
    yield Row("10,000 elements", [b"check"], elements, 0, b"ok tokens=40001 nodes=10002\n")
    keys = b"".join(b"k%d = 1\n" % it for it in range(10_000))
    yield Row("the last of 10,000 keys", [b"set", b"k9999", b"2"], keys, 0, keys[:-2] + b"2\n")
    yield from hostile_rows()
    yield from wide_rows()
    yield from table_rows()


def hostile_rows():
    """Documents that are made to cost much, in both profiles."""
    for check in (b"check", b"check-wide"):
        brackets, braces = b"a = " + b"[" * 1_000_000, b"a = " + b"{a=" * 1_000
        yield Row("a million brackets", [check], brackets, 1, b"", b"keep-toml: too deep at %d" % (4 + DEPTH))
        yield Row("a thousand open braces", [check], braces, 1, b"", b"keep-toml: too deep at %d" % (4 + 3 * DEPTH))
        twice = b"keep-toml: definition at 6: DuplicateKey"
        yield Row("10,000 times one key", [check], b"a = 1\n" * 10_000, 1, b"", twice)
        keys = b"".join(b"k%d = 1\n" % it for it in range(10_000))
        yield Row("10,000 keys", [check], keys, 0, b"ok tokens=60001 nodes=10001\n")


def table_rows():
    """Tables of few and of many keys: how many there are decides how they are stored."""
    for many in (1, 2, 3, 7, 8, 9, 10, 33):
        names = [b"k%d" % it for it in range(many)]
        keys = b"".join(name + b" = 1\n" for name in names)
        yield Row("a table of %d keys" % many, [b"list"], keys, 0, b"".join(name + b"\tinteger\n" for name in names))
        for it, name in enumerate(names):
            place = sum(len(above) + 5 for above in names[:it])
            new = keys[: place + len(name) + 3] + b"2" + keys[place + len(name) + 4 :]
            yield Row("key %d of %d" % (it, many), [b"set", name, b"2"], keys, 0, new)
            twice = b"keep-toml: definition at %d: DuplicateKey" % len(keys)
            yield Row("key %d of %d, twice" % (it, many), [b"check"], keys + name + b" = 2\n", 1, b"", twice)


def wide_rows():
    key, gap, comment = b"k" * MANY, b" " * MANY, b"#" * MANY
    yield Row("a key of 65,536 bytes", [b"get", key], key + b" = 1 # c\n", 0, b"1\n")
    yield Row("a key of 65,536 bytes is listed", [b"list"], key + b" = 1\n", 0, key + b"\tinteger\n")
    yield Row("a value behind such a key", [b"set", key, b"2"], key + b" = 1 # c\n", 0, key + b" = 2 # c\n")
    yield Row("65,536 spaces before a value", [b"get", b"a"], b"a =" + gap + b"1 # c\n", 0, b"1\n")
    far = b"a =" + gap + b"%d\n"
    yield Row("65,536 spaces before a value stay", [b"set", b"a", b"2"], far % 1, 0, far % 2)
    yield Row("65,536 spaces behind a comma", [b"get", b"a[1]"], b"a = [1," + gap + b"2]\n", 0, b"2\n")
    text = b"a = %d " + comment + b"\nb = 2\n"
    yield Row("a comment of 65,536 bytes behind a keyval", [b"get", b"b"], text % 1, 0, b"2\n")
    yield Row("a comment of 65,536 bytes stays", [b"set", b"a", b"3"], text % 1, 0, text % 3)
    array = b"[" + b"1, " * 30_000 + b"1]"
    yield Row("an array of more than 65,535 bytes", [b"get", b"a"], b"a = " + array + b" # c\n", 0, array + b"\n")
    yield Row("the last item of such an array", [b"get", b"a[30000]"], b"a = " + array, 0, b"1\n")
    headers = b"".join(b"[t.k%d]\n" % it for it in range(MANY))
    listed = b"t\ttable\n" + b"".join(b"t.k%d\ttable\n" % it for it in range(MANY))
    yield Row("a table named by 65,536 headers", [b"list"], headers, 0, listed)
    path = b".".join(b"k%d" % it for it in range(400))
    yield Row("a path text of more than 1,000 bytes", [b"get", path], path + b" = 1\n", 0, b"1\n")
    yield Row("a set by such a path", [b"set", path, b"2"], path + b" = 1\n", 0, path + b" = 2\n")


def span(start, end):
    return f"Span {{ start: {start}, end: {end} }}"


def statement(end, line):
    """What is told of the only statement of a document, a key and its value."""
    rest = f"line: {span(0, line)}, first_key: 0, keys: 1, value: Some(0)"
    return f"Statement {{ kind: KeyVal, span: {span(0, end)}, {rest} }}\n"


def integer(start, end):
    """What is told of an integer at the only key of a document."""
    rest = "owner: Line(0), depth: 0, first_key: 0, keys: 1, comma_before: None, comma_after: None"
    return f"ValueInfo {{ leaf: Integer, span: {span(start, end)}, whole: {span(0, end)}, {rest} }}\n"


def array(depth):
    """What is told of an array inside so many others and around the rest, at the only key of a document."""
    own = span(4 + depth, 4 + 2 * DEPTH - depth)
    whole, owner, keys = (own, f"Item({depth - 1})", (1, 0)) if depth else (span(0, 4 + 2 * DEPTH), "Line(0)", (0, 1))
    rest = f"first_key: {keys[0]}, keys: {keys[1]}, comma_before: None, comma_after: None"
    return f"ValueInfo {{ leaf: ArrayOpen, span: {own}, whole: {whole}, owner: {owner}, depth: {depth}, {rest} }}\n"


def node(kind, value_span, key_span, marks, origin):
    rest = f"key_span: Some({key_span}), marks: {marks}, passed: false, origin: {origin}"
    return f"NodeInfo {{ kind: {kind}, value_span: {value_span}, {rest} }}"


def large_questions():
    """Rows for keep_test_rows: a name, the wanted answer, a group, a question and its words."""
    yield from wide_questions()
    lines = "#" * 70_000 + "\n"
    starts = (("Comment", 0), ("Newline", 70_000), ("Comment", 70_001), ("Newline", 140_001), ("End", 140_002))
    texts = (lines[:-1], "\n", lines[:-1], "\n", "")
    tokens = "".join(f"{leaf} {at} {text}\n" for (leaf, at), text in zip(starts, texts))
    yield "tokens behind long ones", tokens, "syntax", "tokens", lines * 2, "wide"
    elements = "[[a]]\n" * 10_000
    yield "10,000 elements are nodes", "10002", "index", "count", elements
    yield "10,000 elements have tokens", "40001", "syntax", "counts", elements, "strict"
    keys = "".join(f"k{it} = 1\n" for it in range(10_000))
    yield "10,000 keys are nodes", "10001", "index", "count", keys
    yield "10,000 times one key", "definition at 6: DuplicateKey", "index", "count", "a = 1\n" * 10_000
    brackets = "a = " + "[" * 1_000_000
    yield "a million brackets", "too deep at 132", "syntax", "counts", brackets, "strict"
    brackets = "a = " + "[" * DEPTH + "]" * DEPTH
    nested = "".join(array(at) for at in range(DEPTH))
    yield "arrays as deep as the limit", nested, "syntax", "values", brackets, "strict"


def wide_questions():
    key, gap, comment = "k" * MANY, " " * MANY, "#" * MANY
    keyval = f"{key} = 1"
    part = f"KeyPart {{ leaf: BareKey, span: {span(0, MANY)} }}\n"
    yield "a key of 65,536 bytes", part, "syntax", "keys", keyval, "strict"
    yield "the statement of such a key", statement(65_540, 65_540), "syntax", "statements", keyval, "strict"
    yield "the value behind such a key", integer(65_539, 65_540), "syntax", "values", keyval, "strict"
    yield "65,536 spaces before a value", integer(65_539, 65_540), "syntax", "values", f"a ={gap}1", "strict"
    commented = f"a = 1 {comment}\n"
    yield "a comment of 65,536 bytes", statement(5, 65_543), "syntax", "statements", commented, "strict"
    array = "[" + "1, " * 30_000 + "1]"
    info = node("Array", f"Some({span(4, 4 + len(array))})", span(0, 1), 1, "Value(0)")
    yield "an array of more than 65,535 bytes", info, "index", "node", f"a = {array}", "a"
    headers = "[t]\n" + "".join(f"[t.k{it}]\n" for it in range(MANY))
    info = node("Table", "None", span(1, 2), MANY + 1, "Header(0)")
    yield "a table named by 65,536 headers and its own", info, "index", "node", headers, "t"
    yield "65,536 tables under one", "65536", "index", "children", headers, "1"
    yield "the last of them", "65537", "index", "child", headers, "1", "k65535"
    steps = [f"k{it}" for it in range(400)]
    path = ".".join(steps)
    told = "".join(f"<{it}>" for it in steps) + f" {path} {len(path)}"
    yield "a path text of more than 1,000 bytes", told, "path", "read", path
