#!/usr/bin/env python3
"""Proves the crates that changed and what stands on them, lowest first, without their edits, and builds the programs and the
static library.

A crate changed if a file of it is newer than when it was last proved here, or, if that is not known, if git tells that
it differs from HEAD. With `--passed TIME` nothing is proved: all crates were, as they stood at that time (seconds since
1970).
"""
import os
import re
import subprocess
import sys
import time
from pathlib import Path

ROOT = Path(__file__).resolve().parents[2]
PARTS = ("src", "specs", "proofs")


def crates():
    """The crates with those of this repository that each stands on, lowest first."""
    named = {}
    for line in (ROOT / "crates.txt").read_text().splitlines():
        name, colon, words = line.partition("#")[0].partition(":")
        if colon:
            named[name.split()[0]] = words.split()
    below = {name: [it for it in words if it in named] for name, words in named.items()}
    order = []
    while len(order) < len(below):
        order += [it for it in below if it not in order and all(dep in order for dep in below[it])]
    return {name: below[name] for name in order}


def static_libraries():
    """The crates that are built to a library for C, of which no other crate is above."""
    return re.findall(r"^(\w+) staticlib:", (ROOT / "crates.txt").read_text(), re.M)


def all_below(name, below):
    """The crates that one stands on, at once or by way of others, lowest first; `below` is what `crates` gives."""
    found = set()
    for dep in below[name]:
        found |= {dep, *all_below(dep, below)}
    return [it for it in below if it in found]


def stamp(name):
    return ROOT / "crates" / name / "out" / "proved"


def newest(name):
    files = [it for part in PARTS for it in (ROOT / "crates" / name / part).rglob("*")]
    return max((it.stat().st_mtime for it in files), default=0)


def has_changed(name):
    if stamp(name).is_file():
        return newest(name) > stamp(name).stat().st_mtime
    where = [f"crates/{name}/{it}" for it in PARTS]
    ran = subprocess.run(["git", "status", "--porcelain", "--", *where], cwd=ROOT, stdout=subprocess.PIPE)
    return bool(ran.stdout)


def lacks_its_build(name):
    folder = ROOT / "crates" / name
    if name in static_libraries():
        return not (folder / f"out/lib{name}.a").is_file()
    return (folder / "src/main.rt").is_file() and not (folder / "out" / name).is_file()


def mark(name, at):
    stamp(name).parent.mkdir(exist_ok=True)
    stamp(name).touch()
    os.utime(stamp(name), (at, at))


def prove(name):
    """Proves a crate and its tests, and builds it if it is a static library or a program, whose stored run is then a test of it."""
    folder, start = ROOT / "crates" / name, time.time()
    print(f"== {name}", flush=True)
    proves = "test" if has_tests(folder) else "lib" if name in static_libraries() else "check"
    status = subprocess.run(["rt", proves], cwd=folder).returncode
    if status == 0 and (folder / "src/main.rt").is_file():
        status = is_run_well(folder)
    if status == 0:
        mark(name, start)
    print(f"{name}: {'proved' if status == 0 else 'FAILED'} in {time.time() - start:.0f} seconds", flush=True)
    return status == 0


def has_tests(folder):
    return any("#[test]" in it.read_text(encoding="utf-8") for it in (folder / "src").rglob("*.rt"))


def is_run_well(folder):
    read = lambda name: (folder / name).read_bytes() if (folder / name).is_file() else b""
    words = read("args").decode().splitlines()
    ran = subprocess.run(["rt", "run", "--", *words], cwd=folder, input=read("stdin"), stdout=subprocess.PIPE)
    if ran.stdout != read("stdout"):
        print(f"{folder.name}: its stored run wrote something else:\n{ran.stdout.decode(errors='replace')[-2000:]}")
        return 1
    return ran.returncode


def main(words):
    below = crates()
    if words[:1] == ["--passed"]:
        for name in below:
            mark(name, int(words[1]))
        return 0
    touched = []
    for name, deps in below.items():
        if has_changed(name) or any(it in touched for it in deps):
            touched.append(name)
    todo = [it for it in below if it in touched or lacks_its_build(it)]
    print(f"to prove: {' '.join(todo) or 'nothing'}", flush=True)
    return 0 if all(prove(it) for it in todo) else 1


if __name__ == "__main__":
    sys.exit(main(sys.argv[1:]))
