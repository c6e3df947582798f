"""Files in place."""
from __future__ import annotations

import contextlib
import fcntl
import os
import tempfile
import threading
from types import TracebackType

from . import _calls
from ._calls import STRICT, Path
from ._value import Value

# the folders that this thread has locked: the descriptor, and the files that are entered there
_held = threading.local()


def _locked(path: str) -> int:
    """Locks the folder of a file for this thread, which may have it locked for other files."""
    held: dict[str, tuple[int, set[str]]] = _held.__dict__.setdefault("folders", {})
    folder = os.path.dirname(path)
    if folder not in held:
        lock = os.open(folder, os.O_RDONLY | os.O_CLOEXEC)
        try:
            fcntl.flock(lock, fcntl.LOCK_EX)
        except BaseException:
            os.close(lock)
            raise
        held[folder] = (lock, set())
    lock, paths = held[folder]
    if path in paths:
        raise RuntimeError(f"{path} is entered already")
    paths.add(path)
    return lock


def _unlocked(path: str) -> None:
    """Takes a file from those that this thread has entered; the last of its folder unlocks that."""
    folder = os.path.dirname(path)
    lock, paths = _held.folders[folder]
    paths.remove(path)
    if not paths:
        del _held.folders[folder]
        os.close(lock)


class File:
    """A file that is edited in place: the old text or the new one is there at every moment.

        with keep_toml.File("Cargo.toml") as cargo:
            cargo.set("package.version", "1.0.0")
            cargo.put(("dependencies", "log"), "0.4")

    The file is read at entry, and written at the end of the block if it changed and nothing was raised: beside the old one,
    with its mode and (if allowed) owner, synced, and moved over it in one step. Symbolic links are followed. Blocks of other
    threads and processes on files of one folder wait for one another, as runs of `keep-toml-in` do. For a single edit
    `File(path).set(..)` does all of it.
    """

    def __init__(self, path: str | os.PathLike[str], *, profile: int = STRICT) -> None:
        self.path = os.path.realpath(os.fspath(path))
        self.profile = profile
        self._bytes: bytes | None = None
        self._old = b""
        self._lock: int | None = None

    @property
    def document(self) -> bytes:
        """The document as it is now, before it is written."""
        if self._bytes is None:
            with open(self.path, "rb") as file:
                return file.read()
        return self._bytes

    def __enter__(self) -> File:
        lock = _locked(self.path)
        try:
            with open(self.path, "rb") as file:
                self._old = self._bytes = file.read()
        except BaseException:
            _unlocked(self.path)
            raise
        self._lock = lock
        return self

    def __exit__(self, kind: type[BaseException] | None, fault: BaseException | None, trace: TracebackType | None) -> None:
        assert self._lock is not None and self._bytes is not None
        lock, new, self._lock, self._bytes = self._lock, self._bytes, None, None
        try:
            if kind is None and new != self._old:
                self._replace(new, lock)
        finally:
            _unlocked(self.path)

    def _replace(self, new: bytes, folder: int) -> None:
        """Puts a new file in the place of the old one, and has its folder (a descriptor) written too."""
        was = os.stat(self.path)
        there, name = tempfile.mkstemp(prefix="." + os.path.basename(self.path) + ".", dir=os.path.dirname(self.path))
        try:
            with open(there, "wb") as file:
                file.write(new)
                file.flush()
                with contextlib.suppress(PermissionError):
                    os.fchown(there, was.st_uid, was.st_gid)
                os.fchmod(there, was.st_mode & 0o7777)
                os.fsync(there)
            os.replace(name, self.path)
        except BaseException:
            with contextlib.suppress(FileNotFoundError):
                os.unlink(name)
            raise
        os.fsync(folder)

    def _edit(self, name: str, *words: object) -> None:
        """Makes an edit; by itself where no block is entered."""
        if self._bytes is None:
            with self:
                self._edit(name, *words)
        else:
            self._bytes = getattr(_calls, name)(self._bytes, *words, profile=self.profile)

    def check(self) -> None:
        """Raises Refused where this is no document."""
        _calls.check(self.document, profile=self.profile)

    def kinds(self) -> dict[str, str]:
        """All paths with their kinds."""
        return _calls.kinds(self.document, profile=self.profile)

    def get(self, path: Path) -> str:
        """The value at a path as it is written."""
        return _calls.get(self.document, path, profile=self.profile)

    def text(self, path: Path) -> str:
        """What the string at a path means."""
        return _calls.text(self.document, path, profile=self.profile)

    def set(self, path: Path, value: Value) -> None:
        """Another value at a path."""
        self._edit("set", path, value)

    def insert(self, path: Path, value: Value) -> None:
        """A value at a path where nothing is, or as an item of an array."""
        self._edit("insert", path, value)

    def put(self, path: Path, value: Value) -> None:
        """`set`, and `insert` where nothing is."""
        self._edit("put", path, value)

    def rename(self, path: Path, key: str) -> None:
        """Another last key of a path."""
        self._edit("rename", path, key)

    def remove(self, path: Path) -> None:
        """Takes out a key with its line, an item with one comma, or a section."""
        self._edit("remove", path)

    def table(self, keys: Path) -> None:
        """Adds the header `[keys]` at the end."""
        self._edit("table", keys)

    def element(self, keys: Path) -> None:
        """Adds the header `[[keys]]` at the end."""
        self._edit("element", keys)

    def apply(self, script: str | bytes) -> None:
        """Makes all edits of a script in their order, or none of them."""
        self._edit("apply", script)
