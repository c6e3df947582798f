#!/usr/bin/env python3
"""Runs the commands of the user's part of README.md (up to its first line of hyphens) as they are written there.

    tests/scripts/readme.py PROGRAM [FILE.md]

Each block runs in a folder of its own, with HOME there and the program and its companions on the path. The folder has the files
of `EXAMPLES`; if a command of the block begins with `./`, it has ./keep-toml and ./install instead, as a fresh clone has. In a
block with lines that begin with `$ `, each of these is a command, and the lines up to the next one are what it has to print,
standard error included; but `$ cat FILE` before any other command that names FILE makes that file, and so does a fault that
shows a line of a file. In other blocks each line that begins with `COMMANDS` has to end with status 0. So has each example of a
table. Prints what differs, and last how many commands passed.
"""
import os
import re
import shutil
import subprocess
import sys
import tempfile
from pathlib import Path

ROOT = Path(__file__).resolve().parents[2]
COMMANDS = ("keep-toml ", "keep-toml-in ", "keep-toml-check ", "./keep-toml ", "./install")
PLACEHOLDER = re.compile(r"\b(FILE|PATH|VALUE|TEXT|KEYS?|SCRIPT|WORDS?|SUBCOMMAND|ARGUMENT|VERSION|FOLDER)\b|\[PREFIX\]")
EXAMPLES = {
    "a.toml": """\
name = "a"
offset = 1
keywords = ["toml", "editor"]

[server]
host = "localhost"   # here
port = 80
password = "x"

[tool.black]
line_length = 100
""",
    "Cargo.toml": """\
[package]
name = "x"
version = "0.9.3"
keywords = ["toml"]

[[bin]]
name = "demo"

[dependencies]
serde = { version = "1", features = [] }

[profile.release]
lto = true
""",
    "edits.toml": """\
[[edit]]
op = "set"
path = "server.port"
value = "8080"
""",
    "secret": "s3cret\n",
}


class Folder:
    """Where a block runs."""

    def __init__(self, path, program, clone):
        self.path = Path(path)
        self.named = ""
        if clone:
            self.clone(program)
        else:
            for name, text in EXAMPLES.items():
                (self.path / name).write_text(text)
        bin = self.path / "on the path"
        bin.mkdir()
        (bin / "keep-toml").symlink_to(program)
        (bin / "keep-toml-in").symlink_to(ROOT / "keep-toml-in")
        (bin / "keep-toml-check").symlink_to(ROOT / "tools" / "keep-toml-check")
        self.environment = {**os.environ, "PATH": f"{bin}:{os.environ['PATH']}", "HOME": str(self.path / "home")}
        self.environment.pop("KEEP_TOML", None)

    def clone(self, program):
        """What a fresh clone has, over a program that is there."""
        for name in ("install", "keep-toml-in"):
            shutil.copy(ROOT / name, self.path)
        shutil.copytree(ROOT / "tools", self.path / "tools")
        script = f'#!/bin/sh\n[ "$1" != --program ] || {{ echo "{program}"; exit; }}\nexec "{program}" "$@"\n'
        (self.path / "keep-toml").write_text(script)
        (self.path / "keep-toml").chmod(0o755)

    def run(self, command):
        """The status of a command, and what it printed."""
        self.named += f" {command}"
        ran = subprocess.run(
            ["bash", "-c", command], cwd=self.path, env=self.environment, text=True, timeout=60,
            stdin=subprocess.DEVNULL, stdout=subprocess.PIPE, stderr=subprocess.STDOUT,
        )
        return ran.returncode, ran.stdout

    def prepare(self, command, wanted):
        """Makes the file that a command is shown over. Whether that is all that the command is for."""
        shown = re.fullmatch(r"cat (\S+)", command)
        if shown and shown[1] not in self.named:
            (self.path / shown[1]).write_text(wanted)
            self.named += f" {command}"
            return True
        fault = re.match(r"(\S+?):(\d+):\d+: .*\n +\d+ \| (.*)\n", wanted)
        if fault and fault[1] in EXAMPLES and fault[1] not in self.named:
            before = EXAMPLES[fault[1]].splitlines(True)[: int(fault[2]) - 1]
            (self.path / fault[1]).write_text("".join(before) + fault[3] + "\n")
        return False


def blocks(text):
    """The indented and the fenced blocks of a page, as lists of lines."""
    for fenced, indented in re.findall(r"^```\w*\n((?:(?!```).*\n)*)```$|((?:^    .*\n|^\n(?=    ))+)", text, re.M):
        yield fenced.splitlines() if fenced else [line[4:] for line in indented.strip("\n").splitlines()]


def steps(block):
    """The commands of a block, each with what it has to print; None where that is not shown."""
    if any(line.startswith("$ ") for line in block):
        for part in re.split(r"^\$ ", "\n".join(block) + "\n", flags=re.M)[1:]:
            command, _, wanted = part.partition("\n")
            yield command, wanted.rstrip("\n") + "\n" if wanted.strip() else ""
    else:
        for line in block:
            if line.startswith(COMMANDS) and not PLACEHOLDER.search(re.sub(r"\s#.*", "", line)):
                yield line, None


def examples(text):
    """The commands in tables."""
    for row in re.findall(r"^\|.*$", text, re.M):
        for example in re.findall(r"`([^`]*)`", row.replace("\\|", "|")):
            if example.startswith(COMMANDS) and not PLACEHOLDER.search(example) and " .." not in example:
                yield example


def wrong(folder, command, wanted):
    """Why a command is not as it is shown; None where it is."""
    if wanted is not None and folder.prepare(command, wanted):
        return None
    status, printed = folder.run(command)
    if wanted is None:
        return f"status {status}\n{printed}" if status else None
    return None if printed == wanted else f"--- wanted\n{wanted}--- got\n{printed}"


def main(program, text):
    passed = failed = 0
    text = re.split(r"^---+$", text, flags=re.M)[0]
    for block in [*(list(steps(it)) for it in blocks(text)), *([(it, None)] for it in examples(text))]:
        with tempfile.TemporaryDirectory(prefix="readme-") as path:
            folder = Folder(path, Path(program).resolve(), any(it.startswith("./") for it, _ in block))
            for command, wanted in block:
                why = wrong(folder, command, wanted)
                passed, failed = passed + (not why), failed + bool(why)
                if why:
                    print(f"README: {command}:\n{why}")
    print(f"readme: {passed} passed, {failed} failed")
    return bool(failed)


if __name__ == "__main__":
    page = Path(sys.argv[2]) if len(sys.argv) > 2 else ROOT / "README.md"
    sys.exit(main(sys.argv[1], page.read_text()))
