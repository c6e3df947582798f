"""Builds the wheel of keep_toml, with the shared library inside, by Python's own modules alone.

    KEEP_TOML_LIBRARY=.../libkeep_toml.so.1 python3 wheels.py FOLDER

Without KEEP_TOML_LIBRARY the library is the file libkeep_toml.so.1 beside this one. pip calls the same functions (PEP 517). What the
wheel says of itself is in pyproject.toml, which keep_toml reads. The same inputs give the same bytes.
"""
from __future__ import annotations

import base64
import hashlib
import os
import platform
import re
import sys
import zipfile
from pathlib import Path

HERE = Path(__file__).resolve().parent
SOURCES = HERE / "src"
LICENCES = [HERE.parent.parent / name for name in ("LICENSE-APACHE", "LICENSE-MIT")]
LIBRARY = os.environ.setdefault("KEEP_TOML_LIBRARY", str(HERE / "libkeep_toml.so.1"))
# manylinux_2_17 is the oldest tag that has this form.
OLDEST_GLIBC = 17

sys.path.insert(0, str(SOURCES))
import keep_toml  # noqa: E402

PROJECT = (HERE / "pyproject.toml").read_text(encoding="utf-8")


class UnsupportedOperation(Exception):
    """A hook that pip asks for and that is not offered (PEP 517)."""


def _told(*keys: str | int) -> str:
    """What pyproject.toml has at a path below `project`."""
    return keep_toml.text(PROJECT, ("project", *keys))


def _tag(library: bytes) -> str:
    """For any Python 3, on a Linux that has the newest glibc which the library asks for."""
    wanted = [int(it) for it in re.findall(rb"GLIBC_2\.(\d+)", library)]
    return f"py3-none-manylinux_2_{max([OLDEST_GLIBC, *wanted])}_{platform.machine()}"


def _metadata() -> str:
    classifiers = sum(path.startswith("project.classifiers[") for path in keep_toml.kinds(PROJECT))
    lines = [
        "Metadata-Version: 2.4",
        f"Name: {_told('name')}",
        f"Version: {_told('version')}",
        f"Summary: {_told('description')}",
        f"Requires-Python: {_told('requires-python')}",
        f"License-Expression: {_told('license')}",
        *(f"License-File: {it.name}" for it in LICENCES),
        *(f"Classifier: {_told('classifiers', number)}" for number in range(classifiers)),
    ]
    return "".join(f"{line}\n" for line in lines)


def _files(library: bytes, tag: str, info: str) -> dict[str, bytes]:
    """The files of the wheel by their names, without the record of them."""
    package = [it for it in sorted((SOURCES / "keep_toml").iterdir()) if it.suffix == ".py" or it.name == "py.typed"]
    return {
        **{f"keep_toml/{it.name}": it.read_bytes() for it in package},
        "keep_toml/libkeep_toml.so.1": library,
        f"{info}/METADATA": _metadata().encode(),
        f"{info}/WHEEL": f"Wheel-Version: 1.0\nGenerator: keep-toml\nRoot-Is-Purelib: false\nTag: {tag}\n".encode(),
        **{f"{info}/licenses/{it.name}": it.read_bytes() for it in LICENCES},
    }


def _record(files: dict[str, bytes], name: str) -> bytes:
    """A line for each file with its sum and size, and one for the record itself."""

    def line(file: str, content: bytes) -> str:
        digest = base64.urlsafe_b64encode(hashlib.sha256(content).digest()).rstrip(b"=").decode()
        return f"{file},sha256={digest},{len(content)}\n"

    return ("".join(line(*it) for it in files.items()) + f"{name},,\n").encode()


def _write(wheel: str, files: dict[str, bytes]) -> None:
    with zipfile.ZipFile(wheel, "w", zipfile.ZIP_DEFLATED) as archive:
        for name, content in files.items():
            entry = zipfile.ZipInfo(name, (1980, 1, 1, 0, 0, 0))
            entry.external_attr = 0o100644 << 16
            entry.compress_type = zipfile.ZIP_DEFLATED
            archive.writestr(entry, content)


def build_wheel(wheel_directory: str, config_settings: object = None, metadata_directory: str | None = None) -> str:
    """Writes the wheel into a folder, and answers its name."""
    with open(LIBRARY, "rb") as file:
        library = file.read()
    tag, name = _tag(library), f"keep_toml-{_told('version')}"
    files = _files(library, tag, f"{name}.dist-info")
    files[f"{name}.dist-info/RECORD"] = _record(files, f"{name}.dist-info/RECORD")
    _write(os.path.join(wheel_directory, f"{name}-{tag}.whl"), files)
    return f"{name}-{tag}.whl"


def build_sdist(sdist_directory: str, config_settings: object = None) -> str:
    raise UnsupportedOperation("the library is built from proved sources: the repository is their only form")


if __name__ == "__main__":
    os.makedirs(sys.argv[1], exist_ok=True)
    print(os.path.join(sys.argv[1], build_wheel(sys.argv[1])))
