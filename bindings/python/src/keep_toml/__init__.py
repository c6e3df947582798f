"""keep-toml: changes one value, key or section of a TOML document, and every other byte stays as its author wrote it.

    >>> import keep_toml
    >>> keep_toml.set('version = "0.9.3"  # kept by release.sh\\n', "version", "1.0.0")
    'version = "1.0.0"  # kept by release.sh\\n'
    >>> keep_toml.text('name = "caf\\\\u00e9"\\n', "name")
    'café'
    >>> keep_toml.insert("a = [1, 3]\\n", "a[1]", 2)
    'a = [1, 2, 3]\\n'
    >>> keep_toml.set("a = 1\\n", "b", 2)
    Traceback (most recent call last):
    keep_toml.Refused: edit 0: NotFound

A document is `str` or bytes, and an edit answers what it was given. Values are Python's (`bool`, `int`, `float`, `str`,
`datetime`, lists and dicts of these, written as an inline table), or TOML as it is written: `Raw("0x10")`. A path is written as in
TOML, `"tool.black.line-length"`, or given by its plain keys and numbers, `("tool", "my.plugin", 0)`. Files: `keep_toml.File`.

The work is done by a library that is proved. It raises `Refused` (the document or the edit is refused), `Unreadable` (a path, value, key
or script can't be read) and `MemoryError`. A value of Python's that TOML has not raises `TypeError` or `ValueError`.
"""
from __future__ import annotations

from ._calls import (
    STRICT,
    WIDE,
    Document,
    KeepTomlError,
    Profile,
    Refused,
    Unreadable,
    apply,
    check,
    element,
    get,
    insert,
    kinds,
    put,
    remove,
    rename,
    set,
    table,
    text,
)
from ._file import File
from ._value import Raw, Value, path_of, to_toml

__version__ = "0.1.0"
__all__ = [
    "STRICT", "WIDE", "Document", "File", "KeepTomlError", "Profile", "Raw", "Refused", "Unreadable", "Value", "apply", "check",
    "element", "get", "insert", "kinds", "path_of", "put", "remove", "rename", "set", "table", "text", "to_toml",
]
