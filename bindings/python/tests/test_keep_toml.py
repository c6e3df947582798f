"""The tests of keep_toml, over the library that KEEP_TOML_LIBRARY names."""
import datetime
import doctest
import os
import pathlib
import re
import stat
import sys
import tempfile
import threading
import unittest

import keep_toml
from keep_toml import File, Raw, Refused, Unreadable

#: The call of each subcommand of the program, and how many words it takes beside the document.
CALLS = {
    "check": (keep_toml.check, 0), "list": (keep_toml.kinds, 0), "get": (keep_toml.get, 1), "text": (keep_toml.text, 1),
    "set": (keep_toml.set, 2), "insert": (keep_toml.insert, 2), "rename": (keep_toml.rename, 2), "remove": (keep_toml.remove, 1),
    "table": (keep_toml.table, 1), "element": (keep_toml.element, 1), "apply": (keep_toml.apply, 1),
}


def bytes_of(cell):
    """What a cell of a row stands for."""
    return re.sub(rb"\\x(..)", lambda found: bytes([int(found[1], 16)]), cell.encode())


def answer_of(name, document, words, output):
    """What the program's subcommand answers, by its call: status, output, error; None where the words have no call.

    The output of `check` has counts, which its call does not give: they are taken from the row.
    """
    plain, wide = name.removesuffix("-wide"), name.endswith("-wide")
    call, count = CALLS.get(plain, (None, -1))
    words = words[1:] if words[:1] == ["--"] else words
    if len(words) != count:
        return None
    if plain in ("set", "insert"):
        words[1] = Raw(words[1])
    try:
        given = call(document, *words, profile=keep_toml.WIDE if wide else keep_toml.STRICT)
    except (Refused, Unreadable) as fault:
        return 1 if isinstance(fault, Refused) else 2, b"", f"keep-toml: {fault}".encode()
    printed = {
        "check": lambda: output,
        "list": lambda: "".join(f"{path}\t{kind}\n" for path, kind in given.items()).encode(),
        "get": lambda: f"{given}\n".encode(),
        "text": lambda: given.encode(),
    }.get(plain, lambda: given)
    return 0, printed(), b""


class Calls(unittest.TestCase):
    def test_each(self):
        self.assertIsNone(keep_toml.check("a = 1"))
        self.assertEqual(keep_toml.kinds("a.b = [1]\n[[c]]\n")["c"], "array-of-tables")
        self.assertEqual(keep_toml.kinds(""), {})
        self.assertEqual(keep_toml.get("a = [1,\n 2]\n", "a"), "[1,\n 2]")
        self.assertEqual(keep_toml.text('a = "\\u0000x"', "a"), "\0x")
        self.assertEqual(keep_toml.set("a = 1 # x\r\n", "a", 2), "a = 2 # x\r\n")
        self.assertEqual(keep_toml.set(b"\xef\xbb\xbfa = 1", "a", 2), b"\xef\xbb\xbfa = 2")
        self.assertEqual(keep_toml.insert("a = 1\n", "b", "x"), 'a = 1\nb = "x"\n')
        self.assertEqual(keep_toml.put("a = 1\n", "b", True), "a = 1\nb = true\n")
        self.assertEqual(keep_toml.put("a = 1\n", "a", True), "a = true\n")
        self.assertEqual(keep_toml.rename("a = 1\n", "a", "b c"), '"b c" = 1\n')
        self.assertEqual(keep_toml.remove("a = 1\nb = 2\n", "a"), "b = 2\n")
        self.assertEqual(keep_toml.table("", ("a", "b.c")), '[a."b.c"]\n')
        self.assertEqual(keep_toml.element("", "a"), "[[a]]\n")
        script = "[[edit]]\nop = 'set'\npath = 'a'\nvalue = '2'\n[[edit]]\nop = 'remove'\npath = 'b'\n"
        self.assertEqual(keep_toml.apply("a = 1\nb = 1\n", script), "a = 2\n")
        self.assertEqual(keep_toml.get("a = {\n b = 1,\n}\n", "a.b", profile=keep_toml.WIDE), "1")

    def test_values_of_wide(self):
        for value in ("{ x = 1, }", '"\\e"', "12:30"):
            self.assertEqual(keep_toml.set("a = 1", "a", Raw(value), profile=keep_toml.WIDE), f"a = {value}")
            self.assertEqual(keep_toml.insert("", "a", Raw(value), profile=keep_toml.WIDE), f"a = {value}\n")
            with self.assertRaises(Unreadable):
                keep_toml.set("a = 1", "a", Raw(value))

    def test_values(self):
        utc = datetime.timezone.utc
        for value, text in (
            (True, "true"), (7, "7"), (1.5, "1.5"), (1e100, "1e+100"), (float("inf"), "inf"), ('a"\\\x00\x7f\u00e9', '"a\\"\\\\\\u0000\\u007F\u00e9"'),
            ([1, [True, "x"]], '[1, [true, "x"]]'), ({}, "{}"), ({"a b": {"c": 1}}, '{ "a b" = { c = 1 } }'),
            (datetime.date(2026, 1, 2), "2026-01-02"), (datetime.time(1, 2, 3), "01:02:03"),
            (datetime.datetime(2026, 1, 2, 3, 4, 5, tzinfo=utc), "2026-01-02T03:04:05+00:00"), (Raw("0x10"), "0x10"),
        ):
            self.assertEqual(keep_toml.get(keep_toml.set("v = 0", "v", value), "v"), text)
        for bad, kind in ((None, TypeError), (b"x", TypeError), (2**63, ValueError), ({1: 2}, TypeError)):
            with self.assertRaises(kind):
                keep_toml.to_toml(bad)

    @unittest.skipIf(sys.version_info < (3, 11), "this Python has no tomllib")
    def test_read_back_by_tomllib(self):
        import tomllib

        value = {"a": [1, -2.5, "\t\"\u00e9\U0001f600"], "b c": {"d": datetime.datetime(2026, 1, 2, 3, 4, 5, 678)}}
        self.assertEqual(tomllib.loads(keep_toml.insert("", "v", value)), {"v": value})

    def test_faults(self):
        with self.assertRaises(Refused):
            keep_toml.check("\u00e9 = 1")
        doc = '[a]\n"\u00e9" = 1\n"\u00e9" = 2\n'
        with self.assertRaises(Refused) as caught:
            keep_toml.check(doc)
        self.assertEqual((caught.exception.at, caught.exception.reason, caught.exception.place(doc)), (13, "DuplicateKey", (3, 1)))
        with self.assertRaises(Refused) as caught:
            keep_toml.set("a = 1", "b", 1)
        self.assertEqual((caught.exception.at, caught.exception.reason, caught.exception.edit), (None, "NotFound", 0))
        with self.assertRaises(Unreadable) as caught:
            keep_toml.get("a = 1", "a..b")
        self.assertEqual((caught.exception.at, caught.exception.reason, caught.exception.edit), (1, None, None))
        with self.assertRaises(Refused) as caught:
            keep_toml.table("a = 1", "a")
        self.assertEqual((str(caught.exception), caught.exception.reason), ("edit 0: Conflict DefinedTwice", "Conflict"))
        with self.assertRaises(Refused) as caught:
            keep_toml.check(b"a\xff")
        self.assertEqual((caught.exception.at, caught.exception.reason), (1, "Utf8"))
        with self.assertRaises(Unreadable):
            keep_toml.set("a = 1", "a", Raw("x"))
        with self.assertRaises(Unreadable) as caught:
            keep_toml.apply("a = 1", "[[edit]]\nop = 'set'\npath = 'a'\nvalue = ']'\n")
        self.assertEqual((caught.exception.edit, caught.exception.reason), (0, "Value"))
        self.assertIsInstance(caught.exception, ValueError)

    def test_long_answers(self):
        long = "x" * 100_000
        self.assertEqual(keep_toml.text(f"a = '{long}'", "a"), long)
        self.assertEqual(len(keep_toml.kinds("a = [" + "1," * 5000 + "]")), 5001)
        script = "".join(f"[[edit]]\nop = 'insert'\npath = 'a{n}'\nvalue = '1'\n" for n in range(300))
        self.assertEqual(keep_toml.apply("", script).count("\n"), 300)

    def test_threads(self):
        doc = "a = 1\n" + "".join(f"k{n} = '{n}'\n" for n in range(300))
        wrong = []

        def work(n):
            for i in range(200):
                if not keep_toml.set(doc, "a", n * 1000 + i).startswith(f"a = {n * 1000 + i}\n"):
                    wrong.append(n)

        threads = [threading.Thread(target=work, args=(n,)) for n in range(4)]
        [t.start() for t in threads]
        [t.join() for t in threads]
        self.assertEqual(wrong, [])

    @unittest.skipUnless(os.environ.get("KEEP_TOML_ROWS"), "KEEP_TOML_ROWS names no rows")
    def test_rows(self):
        """The rows of tests/rows/model_cases.tsv: status, standard error, document, standard output, subcommand, words."""
        equal = 0
        with open(os.environ["KEEP_TOML_ROWS"], encoding="ascii") as rows:
            for line in rows:
                status, error, document, output, name, *words = map(bytes_of, line.rstrip("\n").split("\t"))
                answer = answer_of(name.decode(), document, [it.decode() for it in words], output)
                if answer is not None:
                    self.assertEqual(answer, (int(status), output, error), line)
                    equal += 1
        print(f"{equal} rows equal the program's")

    def test_docs(self):
        for module in (keep_toml, keep_toml._value, keep_toml._calls):
            self.assertEqual(doctest.testmod(module).failed, 0)


class Files(unittest.TestCase):
    def setUp(self):
        self.folder = tempfile.TemporaryDirectory()
        self.addCleanup(self.folder.cleanup)
        self.path = pathlib.Path(self.folder.name, "a.toml")
        self.path.write_bytes(b"a = 1 # x\r\n")

    def test_in_place(self):
        self.path.chmod(0o640)
        link = pathlib.Path(self.folder.name, "link")
        link.symlink_to("a.toml")
        with File(link) as file:
            file.set("a", 2)
            file.put("b", [1])
            self.assertEqual(self.path.read_bytes(), b"a = 1 # x\r\n")
        self.assertEqual(self.path.read_bytes(), b"a = 2 # x\r\nb = [1]\r\n")
        self.assertTrue(link.is_symlink())
        self.assertEqual(stat.S_IMODE(self.path.stat().st_mode), 0o640)
        File(self.path).set("a", 3)
        self.assertEqual(File(self.path).get("a"), "3")
        self.assertEqual(sorted(os.listdir(self.folder.name)), ["a.toml", "link"])

    def written(self):
        """What a write changes of the file; not when it was read, which reads change."""
        it = self.path.stat()
        return it.st_ino, it.st_size, it.st_mode, it.st_mtime_ns, it.st_ctime_ns, self.path.read_bytes()

    def test_nothing_written(self):
        before = self.written()
        with self.assertRaises(Refused), File(self.path) as file:
            file.set("a", 2)
            file.remove("q")
        File(self.path).set("a", 1)
        self.assertEqual(before, self.written())
        self.assertEqual(os.listdir(self.folder.name), ["a.toml"])

    def test_blocks_in_one_another(self):
        other = pathlib.Path(self.folder.name, "b.toml")
        other.write_bytes(b"b = 1\n")
        with File(self.path) as a, File(other) as b:
            b.set("b", 2)
            a.set("a", 2)
            with self.assertRaises(RuntimeError):
                File(self.path).set("a", 3)
        self.assertEqual((self.path.read_bytes(), other.read_bytes()), (b"a = 2 # x\r\n", b"b = 2\n"))
        with self.assertRaises(FileNotFoundError):
            File(self.path.with_name("none")).set("a", 1)
        File(self.path).set("a", 4)
        self.assertEqual(keep_toml._file._held.folders, {})

    def test_blocks_wait(self):
        self.path.write_text("n = 0\n")

        def add():
            for _ in range(20):
                with File(self.path) as file:
                    file.set("n", int(file.get("n")) + 1)

        threads = [threading.Thread(target=add) for _ in range(4)]
        [t.start() for t in threads]
        [t.join() for t in threads]
        self.assertEqual(self.path.read_text(), "n = 80\n")


if __name__ == "__main__":
    unittest.main()
