"""TOML values and paths of Python's."""
from __future__ import annotations

import datetime
import math
import re
from collections.abc import Mapping, Sequence
from typing import Union


class Raw(str):
    """A value as it is written in TOML: `Raw("0x10")`, `Raw("'''a'''")`."""

    __slots__ = ()


Value = Union[
    Raw, bool, int, float, str, datetime.datetime, datetime.date, datetime.time, Sequence["Value"], Mapping[str, "Value"]
]

_SHORT = {'"': '\\"', "\\": "\\\\", "\b": "\\b", "\t": "\\t", "\n": "\\n", "\f": "\\f", "\r": "\\r"}
_ESCAPED = re.compile('[\x00-\x1f"\\\\\x7f]')
_BARE = re.compile(r"[A-Za-z0-9_-]+\Z")


def _quoted(value: str) -> str:
    return '"' + _ESCAPED.sub(lambda m: _SHORT.get(m[0]) or f"\\u{ord(m[0]):04X}", value) + '"'


def to_toml(value: Value) -> str:
    """The text of a value.

    >>> to_toml([1, "a\\n", {"b c": True}])
    '[1, "a\\\\n", { "b c" = true }]'
    """
    if isinstance(value, Raw):
        return str(value)
    if isinstance(value, str):
        return _quoted(value)
    if isinstance(value, bool):
        return "true" if value else "false"
    if isinstance(value, int):
        if not -(2**63) <= value < 2**63:
            raise ValueError("an integer of TOML has 64 bits")
        return int.__repr__(value)
    if isinstance(value, float):
        if math.isnan(value):
            return "nan"
        if math.isinf(value):
            return "inf" if value > 0 else "-inf"
        return float.__repr__(value)
    if isinstance(value, datetime.datetime):
        offset = value.utcoffset()
        if offset is not None and offset.total_seconds() % 60:
            raise ValueError("an offset of TOML is in whole minutes")
        return value.isoformat()
    if isinstance(value, datetime.date):
        return value.isoformat()
    if isinstance(value, datetime.time):
        if value.tzinfo is not None:
            raise ValueError("a time of TOML has no offset")
        return value.isoformat()
    if isinstance(value, Mapping):
        if not value:
            return "{}"
        return "{ " + ", ".join(f"{_key(key)} = {to_toml(item)}" for key, item in value.items()) + " }"
    if isinstance(value, Sequence) and not isinstance(value, (bytes, bytearray, memoryview)):
        return "[" + ", ".join(map(to_toml, value)) + "]"
    raise TypeError(f"no TOML value: {type(value).__name__}; give Raw(..) for one as it is written")


def _key(key: str) -> str:
    if not isinstance(key, str):
        raise TypeError(f"a key of TOML is a str, not {type(key).__name__}")
    return key if _BARE.match(key) else _quoted(key)


def path_of(*steps: str | int) -> str:
    """The path of keys and numbers of items, each as plain text.

    >>> path_of("tool", "my.plugin", 0)
    'tool."my.plugin"[0]'
    """
    path = ""
    for step in steps:
        if isinstance(step, int) and not isinstance(step, bool):
            path += f"[{step}]"
        else:
            path += ("." if path else "") + _key(step)
    return path
