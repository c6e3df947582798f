"""The calls of the library. A call reads its document anew, keeps nothing, and may be made in several threads at once."""
from __future__ import annotations

import ctypes
import enum
import os
from typing import TypeVar, Union

from ._value import Value, path_of, to_toml

Document = Union[str, bytes, bytearray, memoryview]
D = TypeVar("D", str, bytes)
Path = Union[str, "tuple[str | int, ...]"]


class Profile(enum.IntEnum):
    """STRICT is TOML v1.0.0.

    WIDE also takes newlines, comments and a last comma in inline tables, `\\e`, `\\xHH`, and times without seconds.
    """

    STRICT = 0
    WIDE = 1


STRICT = Profile.STRICT
WIDE = Profile.WIDE


class KeepTomlError(ValueError):
    """Nothing is changed. `str()` is the reason in the words of the program, as `definition at 15: DefinedTwice`."""

    #: The place in bytes from the start of the document (of the word where it can't be read), or None.
    at: int | None = None
    #: The number of the edit of a script, from 0, or None.
    edit: int | None = None
    #: The reason in one word, as `NotFound`, `DefinedTwice` or `Conflict`, or None.
    reason: str | None = None

    def __init__(self, text: str, at: int | None = None, edit: int | None = None, reason: str | None = None) -> None:
        super().__init__(text)
        self.at, self.edit, self.reason = at, edit, reason

    def place(self, document: Document) -> tuple[int, int] | None:
        """Line and column, from 1, of `at` in the document; columns are characters."""
        if self.at is None:
            return None
        before = _bytes(document)[: self.at]
        line = before.rfind(b"\n") + 1
        return before.count(b"\n") + 1, len(before[line:].decode("utf-8", "replace").lstrip("\ufeff")) + 1


class Refused(KeepTomlError):
    """The document or the edit is refused."""


class Unreadable(KeepTomlError):
    """A path, value, key or script can't be read."""


for _fault in (KeepTomlError, Refused, Unreadable):
    _fault.__module__ = "keep_toml"

_size = ctypes.c_size_t


class _Fault(ctypes.Structure):
    """`keep_toml_fault` of `keep_toml.h`."""

    _fields_ = [("kind", ctypes.c_uint32), ("reason", ctypes.c_uint32), ("at", _size), ("edit", _size)]


_NONE = _size(-1).value
# `enum keep_toml_reason`: the first number of each group, and its words
_REASONS = {
    first + n: word
    for first, words in (
        (1, "Utf8 TooDeep"),
        (11, "KeyPart Escape Control Unclosed Integer Float DateTime Word Structure"),
        (21, "NotATable DefinedTwice NotAnArray NotByDots DuplicateKey"),
        (31, "NotFound Exists NotValue NotTable NotKey Scattered TooDeep Profile"),
        (41, "Conflict Conflict Conflict Conflict Conflict"),
        (51, "Op Keys Path Value Shape"),
    )
    for n, word in enumerate(words.split())
}

#: How many words each call takes beside the document.
_WORDS = {
    "check": 0, "list": 0, "get": 1, "text": 1, "set": 2, "insert": 2, "rename": 2, "remove": 1, "table": 1, "element": 1,
    "apply": 1, "apply_wide": 1,
}


def _library() -> ctypes.CDLL:
    """The library that is beside this file, or that KEEP_TOML_LIBRARY names."""
    here = os.path.dirname(os.path.abspath(__file__))
    found = ctypes.CDLL(os.environ.get("KEEP_TOML_LIBRARY") or os.path.join(here, "libkeep_toml.so.1"))
    found.keep_toml_interface.restype = ctypes.c_uint32
    if found.keep_toml_interface() != 1:
        raise ImportError("libkeep_toml is of another interface")
    for name, words in _WORDS.items():
        call = getattr(found, "keep_toml_" + name)
        texts = [ctypes.c_char_p, _size] * (1 + words)
        call.argtypes = [ctypes.c_uint8, *texts, ctypes.c_void_p, _size, ctypes.POINTER(_size), ctypes.POINTER(_Fault)]
        call.restype = ctypes.c_uint8
    return found


_lib = _library()


def _bytes(given: Document) -> bytes:
    if isinstance(given, bytes):
        return given
    if isinstance(given, str):
        return given.encode("utf-8", "surrogatepass")
    return bytes(given)


def _answer(name: str, profile: int, document: bytes, words: tuple[bytes, ...], room: int) -> bytes:
    """The answer of a call, first into a buffer of so many bytes; where that is too small, into one that is large enough."""
    call = getattr(_lib, "keep_toml_" + name)
    given = [1 if profile else 0, document, len(document)]
    for word in words:
        given += (word, len(word))
    size, fault = _size(), _Fault()
    found = ctypes.byref(size), ctypes.byref(fault)
    while True:
        out = (ctypes.c_char * room)()
        status = call(*given, out, room, *found)
        if status == 0:
            return ctypes.string_at(out, size.value)
        if status == 4:
            raise MemoryError("out of memory")
        if status == 3 or size.value > room:
            room = size.value
            continue
        text = ctypes.string_at(out, size.value).decode("utf-8", "replace")
        at, edit = (None if n == _NONE else n for n in (fault.at, fault.edit))
        raise (Refused if status == 1 else Unreadable)(text, at, edit, _REASONS.get(fault.reason))


def _path(path: Path) -> bytes:
    return _bytes(path_of(*path) if isinstance(path, tuple) else path)


def _edited(name: str, document: D, profile: int, *words: bytes) -> D:
    """The document after an edit, as the document is given: text or bytes. An edit is mostly done in this room (keep_toml.h)."""
    given = _bytes(document)
    new = _answer(name, profile, given, words, len(given) + 6 * sum(map(len, words)) + 128)
    return new.decode() if isinstance(document, str) else new  # type: ignore[return-value]


def check(document: Document, *, profile: int = STRICT) -> None:
    """Raises Refused where this is no document."""
    _answer("check", profile, _bytes(document), (), 128)


def kinds(document: Document, *, profile: int = STRICT) -> dict[str, str]:
    """All paths with their kinds (`string`, `integer`, .., `array-of-tables`), in the order of the document.

    >>> kinds("a.b = [1]")
    {'a': 'table', 'a.b': 'array', 'a.b[0]': 'integer'}
    """
    given = _bytes(document)
    lines = _answer("list", profile, given, (), 8 * len(given) + 128).decode().split("\n")
    return dict(tuple(line.rsplit("\t", 1)) for line in lines[:-1])  # type: ignore[misc]


def get(document: Document, path: Path, *, profile: int = STRICT) -> str:
    """The value at a path as it is written."""
    given = _bytes(document)
    return _answer("get", profile, given, (_path(path),), 1024)[:-1].decode()


def text(document: Document, path: Path, *, profile: int = STRICT) -> str:
    """What the string at a path means."""
    given = _bytes(document)
    return _answer("text", profile, given, (_path(path),), 1024).decode()


def set(document: D, path: Path, value: Value, *, profile: int = STRICT) -> D:
    """The document with another value at a path. In WIDE the value may be one of WIDE's, as `Raw("{ x = 1, }")`."""
    return _edited("set", document, profile, _path(path), _bytes(to_toml(value)))


def insert(document: D, path: Path, value: Value, *, profile: int = STRICT) -> D:
    """The document with a value at a path where nothing is, or as an item of an array. In WIDE it may be one of WIDE's."""
    return _edited("insert", document, profile, _path(path), _bytes(to_toml(value)))


def put(document: D, path: Path, value: Value, *, profile: int = STRICT) -> D:
    """`set`, and `insert` where nothing is."""
    try:
        return set(document, path, value, profile=profile)
    except Refused as fault:
        if fault.reason != "NotFound":
            raise
    return insert(document, path, value, profile=profile)


def rename(document: D, path: Path, key: str, *, profile: int = STRICT) -> D:
    """The document with another last key of a path."""
    return _edited("rename", document, profile, _path(path), _bytes(key))


def remove(document: D, path: Path, *, profile: int = STRICT) -> D:
    """The document without a key and its line, an item and one comma, or a section."""
    return _edited("remove", document, profile, _path(path))


def table(document: D, keys: Path, *, profile: int = STRICT) -> D:
    """The document with the header `[keys]` at its end."""
    return _edited("table", document, profile, _path(keys))


def element(document: D, keys: Path, *, profile: int = STRICT) -> D:
    """The document with the header `[[keys]]` at its end."""
    return _edited("element", document, profile, _path(keys))


def apply(document: D, script: Document, *, profile: int = STRICT) -> D:
    """The document after all edits of a script in their order, or none of them. In WIDE the script's values are WIDE's."""
    return _edited("apply_wide" if profile else "apply", document, profile, _bytes(script))
