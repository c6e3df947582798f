"""Makes documents for ./fuzz: small ones of every shape, put together and changed at random."""
import sys
from pathlib import Path

sys.path[:0] = [str(Path(__file__).resolve().parents[2] / it) for it in ("tests/rows",)]
from ask import cells_of, plain
from reader import BYTE_ORDER_MARK, read

HERE = Path(__file__).resolve().parent
# What is put somewhere into a text.
PIECES = [
    *(b"[", b"]", b"[[", b"]]", b"{", b"}", b"=", b".", b",", b"#", b'"', b"'", b'"""', b"'''", b"\\", b"\\u00e9"),
    *(b"\n", b"\r\n", b"\r", b" ", b"\t", b"\x00", b"\x7f", b"\xff", b"\xc3\xa9", b"\xef\xbb\xbf", b" # c\n"),
    *(b"0", b"1_0", b"-", b"+", b"e", b":", b"T", b"Z", b"a", b"b", b'"a"', b"a.b", b"a = 1\n", b"b.c = [1, 2,]\n"),
    *(b"[a]\n", b"[a.b]\n", b"[[a]]\n", b"[[a.b]]\n", b"c = { x = 1, y.z = 'z' } # c\n"),
    *(b"d = [ # c\n 1, {k = 2}\n]\n", b's = """\na\\\n  b"""\n', b"t = 07:32:00.5\n"),
]


def seeds():
    """What documents are made of: the small texts of documents.tsv, and the inputs of rows that are accepted."""
    small = [plain(text) for _, (_, text) in cells_of(HERE / "documents.tsv")]
    given = {plain(cells[2]) for _, cells in cells_of(HERE.parent / "rows" / "model_cases.tsv")}
    for file in (HERE.parent / "rows" / "program").glob("*.tsv"):
        given.update(plain(cells[3]) for _, cells in cells_of(file))
    return small, sorted(it for it in given if len(it) < 2_000 and read(it) is not None)


def document(random, lists):
    """A text of one of these lists, sometimes with the lines of another, and then changed up to three times."""
    text = random.choice(random.choice(lists))
    if random.random() < 0.3:
        text = with_lines_of(random, text, random.choice(random.choice(lists)))
    for _ in range(random.choice((0, 0, 1, 1, 2, 3))):
        text = random.choice(CHANGES)(random, text)
    return text


def with_lines_of(random, text, other):
    """The lines of two texts, each in its order."""
    ours, theirs, mixed = lines_of(text), lines_of(other), []
    while ours or theirs:
        mixed.append((random.choice([it for it in (ours, theirs) if it])).pop(0))
    return b"".join(mixed)


def lines_of(text):
    lines = text.split(b"\n")
    return [it + b"\n" for it in lines[:-1]] + ([lines[-1]] if lines[-1] else [])


def run_of(random, text, most=12):
    """The start and the end of a run of bytes."""
    start = random.randrange(len(text) + 1)
    return start, min(len(text), start + random.randrange(1, most))


def cut_out(random, text):
    start, end = run_of(random, text)
    return text[:start] + text[end:]


def cut_off(random, text):
    return text[: random.randrange(len(text) + 1)]


def put_in(random, text):
    at, _ = run_of(random, text)
    return text[:at] + random.choice(PIECES) + text[at:]


def doubled(random, text):
    start, end = run_of(random, text, 40)
    at, _ = run_of(random, text)
    return text[:at] + text[start:end] + text[at:]


def other_byte(random, text):
    at, end = run_of(random, text, 2)
    return text[:at] + random.randbytes(1) + text[end:]


def other_lines(random, text):
    """The lines in another order, or one of them twice or not at all."""
    lines = lines_of(text)
    if random.random() < 0.5:
        random.shuffle(lines)
    if lines:
        at = random.randrange(len(lines))
        lines[at : at + 1] = [lines[at]] * random.choice((0, 1, 2))
    return b"".join(lines)


def other_newlines(random, text):
    return text.replace(b"\r\n", b"\n") if b"\r\n" in text else text.replace(b"\n", b"\r\n")


def other_ends(random, text):
    """Without its last byte, or with a byte order mark."""
    return text[:-1] if random.random() < 0.5 else BYTE_ORDER_MARK + text


CHANGES = [cut_out, cut_off, put_in, put_in, doubled, other_byte, other_lines, other_newlines, other_ends]
