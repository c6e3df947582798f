"""Which edits were refused in an earlier run of the gate on this machine: over the same texts they need not be tried again.

What becomes of an edit is decided by the edit, by the texts of its crate and of the crates below it, by the kit, and by the
scripts that try it. A file for each edit that was refused says why, in a folder that is named by the sum of all the others.
`rt ci` keeps in the same way what it proved. The folder is keep-toml-gate in $XDG_CACHE_HOME, or in ~/.cache: where it is
missing, or can't be written, all edits are tried.
"""
import contextlib
import hashlib
import os
import shutil
import subprocess
from functools import cache
from pathlib import Path

from quick import PARTS, ROOT, all_below, crates

HERE = Path(__file__).resolve().parent
# What says whether an edit is refused.
SCRIPTS = ("bodies.py", "edits.py", "quick.py")
# Of how many texts of one crate the refused edits are kept.
MOST_TEXTS = 8


def folder():
    return Path(os.environ.get("XDG_CACHE_HOME") or Path.home() / ".cache", "keep-toml-gate")


@cache
def kit():
    return subprocess.run(["rt", "version"], stdout=subprocess.PIPE, check=True).stdout


def sum_of(parts):
    """A sum of some bytes after one another, by which other ones are told apart."""
    summed = hashlib.sha256()
    for part in parts:
        summed.update(len(part).to_bytes(8, "big") + part)
    return summed.hexdigest()


def sum_of_texts(crate, root=ROOT):
    """The sum of what a check of the crate reads: the kit, the scripts, and its files and those of the crates below it."""
    names = [*all_below(crate, crates()), crate]
    lines = [it for it in (root / "crates.txt").read_text().splitlines() if it.partition(":")[0].removesuffix(" staticlib") in names]
    files = [it for name in names for part in PARTS for it in sorted((root / "crates" / name / part).rglob("*")) if it.is_file()]
    texts = [part for it in files for part in (os.fsencode(it.relative_to(root)), it.read_bytes())]
    return sum_of([kit(), *((HERE / it).read_bytes() for it in SCRIPTS), "\n".join(lines).encode(), *texts])


class Kept:
    """The edits of a crate that were refused over the texts as they are when this is made."""

    def __init__(self, crate):
        self.crate, self.sum = crate, sum_of_texts(crate)
        self.folder = folder() / f"{crate}-{self.sum}"

    def file(self, edit):
        return self.folder / sum_of(it.encode() for it in (edit.name, edit.function, *(word for change in edit.changes for word in change)))

    def why(self, edit):
        """Why an edit was refused; None where that is not known."""
        try:
            return self.file(edit).read_text(encoding="utf-8")
        except OSError:
            return None

    def keep(self, results):
        """Keeps which of some edits were refused, unless a text was changed meanwhile."""
        if sum_of_texts(self.crate) != self.sum:
            return
        with contextlib.suppress(OSError):
            self.folder.mkdir(parents=True, exist_ok=True)
            for it in results:
                if it.is_refused:
                    file = self.file(it.edit)
                    file.with_suffix(".new").write_text(it.why, encoding="utf-8")
                    os.replace(file.with_suffix(".new"), file)
            others = sorted(folder().glob(f"{self.crate}-*"), key=lambda it: it.stat().st_mtime, reverse=True)
            for it in others[MOST_TEXTS:]:
                shutil.rmtree(it, ignore_errors=True)
