#!/usr/bin/env python3
"""Runs the recipes of docs/RECIPES.md with the built program, each under a folder of its own, by bash and by a POSIX shell.

    tests/scripts/recipes.py PROGRAM [FILE.md]

A block ```toml NAME makes a file, and so do json, make, python and yaml. A block ```sh is run. A block ```output is what the run before it printed, standard error
included, with `(status N)` as the last line where it ended so. A block ```diff NAME is what the run before it changed in
that file. A problem matcher in a JSON file has to find each fault that a later run prints. Prints what differs, and last how
many blocks passed.
"""
import difflib
import json
import os
import re
import shutil
import subprocess
import sys
import tempfile
from pathlib import Path

ROOT = Path(__file__).resolve().parents[2]
BLOCK = re.compile(r"^```(\w+) ?(.*)\n((?:.*\n)*?)```$", re.M)


class Recipe:
    """The state of one recipe: its folder, and what the last run did there."""

    def __init__(self, folder, shell, environment):
        self.folder, self.shell, self.environment = Path(folder), shell, environment
        self.before, self.printed, self.matchers = {}, "", []

    def toml(self, name, text):
        file = self.folder / name
        file.parent.mkdir(parents=True, exist_ok=True)
        file.write_text(text)

    make = python = yaml = toml

    def json(self, name, text):
        self.toml(name, text)
        self.matchers += [it["pattern"][0] for it in json.loads(text).get("problemMatcher", [])]

    def unmatched(self, printed):
        """The faults that no problem matcher finds, or finds with other parts than the fault has."""
        for line in re.findall(r"^\S+\.toml:\d+:\d+: .*$", printed, re.M) if self.matchers else []:
            found = [re.match(it["regexp"], line) for it in self.matchers]
            parts = [[it[matcher[part]] for part in ("file", "line", "column")] for it, matcher in zip(found, self.matchers) if it]
            if line.split(":")[:3] not in parts:
                yield line

    def files(self):
        found = (it for it in self.folder.rglob("*") if it.is_file() and ".git" not in it.parts)
        return {str(it.relative_to(self.folder)): it.read_text() for it in found}

    def sh(self, _, text):
        self.before = self.files()
        ran = subprocess.run(
            [self.shell, "-eu", "-c", text], cwd=self.folder, env=self.environment, text=True,
            stdout=subprocess.PIPE, stderr=subprocess.STDOUT, timeout=60,
        )
        self.printed += ran.stdout + (f"(status {ran.returncode})\n" if ran.returncode else "")

    def output(self, _, text):
        printed, self.printed = self.printed, ""
        return compared(text, printed) or "\n".join(f"no problem matcher finds {it}" for it in self.unmatched(printed))

    def diff(self, name, text):
        old, new = self.before[name].splitlines(True), (self.folder / name).read_text().splitlines(True)
        lines = list(difflib.unified_diff(old, new, n=0))[2:]
        return compared(text, "".join(line for line in lines if not line.startswith("@@")))


def compared(wanted, got):
    return "" if wanted == got else f"--- wanted\n{wanted}--- got\n{got}"


def run(part, shell, environment):
    """How many blocks of a recipe passed and failed. What no block expects to be printed is a failure."""
    title, passed, failed = part.split("\n")[0], 0, 0
    with tempfile.TemporaryDirectory(prefix="recipe-") as folder:
        recipe = Recipe(folder, shell, environment)
        for kind, name, text in [*BLOCK.findall(part), ("output", "", "")]:
            wrong = getattr(recipe, kind)(name, text)
            if wrong:
                print(f"recipe {title} under {shell}:\n{wrong}")
            if kind in ("output", "diff"):
                passed, failed = passed + (not wrong), failed + bool(wrong)
    return passed, failed


def main(program, text):
    passed = failed = 0
    with tempfile.TemporaryDirectory(prefix="keep-toml-") as path:
        os.symlink(Path(program).resolve(), f"{path}/keep-toml")
        os.symlink(ROOT / "keep-toml-in", f"{path}/keep-toml-in")
        os.symlink(ROOT / "tools" / "keep-toml-check", f"{path}/keep-toml-check")
        environment = dict(os.environ, PATH=f"{path}:{os.environ['PATH']}")
        for shell in ("bash", "dash"):
            if not shutil.which(shell):
                continue
            for part in re.split(r"^## ", text, flags=re.M)[1:]:
                more = run(part, shell, environment)
                passed, failed = passed + more[0], failed + more[1]
    print(f"recipes: {passed} passed, {failed} failed")
    return bool(failed)


if __name__ == "__main__":
    book = Path(sys.argv[2]) if len(sys.argv) > 2 else ROOT / "docs" / "RECIPES.md"
    sys.exit(main(sys.argv[1], book.read_text()))
