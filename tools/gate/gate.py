#!/usr/bin/env python3
"""Runs the merge gate, passes on what it says with the minute in which it says it, and writes what the time went into.

    tools/gate/gate.py REPORT BUILT rt ci

The gate is `rt ci` over a copy of the repository without its must-fail edits: it proves each crate from nothing, and runs
the tests and the programs. When several proofs are ready, it gives most of them one processor, and no more later: crates that
many others wait for would take twice the time that they need. So each crate is first proved by an `rt ci` of its own, once
those below it are. Those with most behind them get two processors there; the others get one, since the same proof takes a fifth
more work on two. The kit keeps what such a run passed, by the sums of all that it read, so the run over all takes it from
there. That run gives the verdict, and proves what was not kept. Some kits keep nothing: where one says so, or proves a crate
again that an earlier run had proved, the runs of single crates are ended, and the run over all begins.

Beside them, as soon as the crates below a crate are proved, that crate's edits are tried over them, many in one check
(tools/gate/edits.py); `rt ci` would try each alone. What was refused over the same texts before is not tried again
(tools/gate/kept.py). The proofs go first, since each crate waits for those below it: the edits step back behind them. `rt ci` proves a static library and builds none, so it is built here once it is proved, beside the run over all.

What was built is put into the crates' folders out/ here. Once all is proved, out/built_from says what keep_toml's program was built
from, and then the file BUILT is made. The report tells for each task (the proof, the tests, the edits and the static library of a
crate) the minutes of processor and of the clock, and the minutes of the whole. `rt ci` tells no times, so they are sampled: each
process of the prover is known by the folder that it works in. A sampling that fails changes nothing of the status.
"""
import contextlib
import os
import re
import shutil
import signal
import subprocess
import sys
import threading
import time
from collections import defaultdict
from concurrent.futures import FIRST_COMPLETED, ThreadPoolExecutor, wait
from heapq import heappop, heappush
from pathlib import Path
from tempfile import TemporaryDirectory

from edits import edits_of, library_words, say_tried, series_of
from kept import Kept
from quick import all_below, crates, static_libraries

ROOT = Path(__file__).resolve().parents[2]
TICKS = os.sysconf("SC_CLK_TCK")
STEP = 0.25
# The memory, in bytes, that a check is taken to need. Those of edits that were looked at took up to 1.4 GB, proofs up to 2.1.
MEMORY_OF_A_CHECK = 2_000_000_000
# How many checks of edits are told by their names.
DEAREST = 5
# What a crate takes by itself, in lines of code.
LINES_OF_A_CRATE = 500
# How many of the crates that are not proved are the most pressing: those with most behind them. How far the proof of another
# steps back (`nice`), and what has `rt ci` take one processor for it.
PRESSING = 2
BACK = 5
ON_ONE = {"RT_JOBS": "1"}
# A group of processes of its own, in the same session: between sessions Linux shares the processors out whatever their `nice`.
OF_ITS_OWN = {"process_group": 0} if sys.version_info >= (3, 11) else {"start_new_session": True}
# What `rt ci` says of a crate that is proved now or was before, and where it keeps nothing or not all for later runs.
PROVED = re.compile(r"rt: (\w+) (proved|is kept: .*)$")
KEEPS_NOT = re.compile(r"rt: note: .*(\bkept\b|cannot be used)")
# What the run over all says once more.
TOLD_LATER = re.compile(r"rt: (\w+ is kept: |ok\b)|\d+ passed, \d+ failed$")


def processors():
    return len(os.sched_getaffinity(0))


def checks_that_fit():
    """How many checks have room in the memory that is free; one where that is not told."""
    available = re.search(r"^MemAvailable:\s+(\d+) kB$", Path("/proc/meminfo").read_text(), re.M)
    return int(available[1]) * 1024 // MEMORY_OF_A_CHECK if available else 1


def at_once(fitting):
    """How many checks are made at once, if so many have room: one on each processor at most."""
    return max(1, min(processors(), fitting))


class Sampler(threading.Thread):
    """Looks at the processes below one, and sums the time of each prover under the task that it works for."""

    def __init__(self, top):
        super().__init__(daemon=True)
        self.top, self.seen, self.is_over = top, {}, threading.Event()
        self.crates = crates()

    def run(self):
        while not self.is_over.wait(STEP):
            try:
                self.sample()
            except (OSError, ValueError, IndexError):
                continue

    def sample(self):
        parents, times = {}, {}
        for name in os.listdir("/proc"):
            if name.isdigit():
                try:
                    fields = Path(f"/proc/{name}/stat").read_text().rpartition(")")[2].split()
                except OSError:
                    continue
                parents[int(name)] = int(fields[1])
                times[int(name)] = (fields[19], (int(fields[11]) + int(fields[12])) / TICKS)
        below = {self.top}
        while more := {pid for pid, parent in parents.items() if parent in below} - below:
            below |= more
        for pid in below & parents.keys():
            try:
                task = self.task_of(pid)
            except OSError:
                # it has ended since
                continue
            if task:
                started, spent = times[pid]
                first = self.seen.get((pid, started), (task, time.time()))[1]
                self.seen[pid, started] = (task, first, time.time(), spent)

    def task_of(self, pid):
        """What a process works for; None where it is no prover, or in no crate's folder, as those of edits."""
        words = Path(f"/proc/{pid}/cmdline").read_bytes().split(b"\0")
        if not words[0].endswith(b"/rattle"):
            return None
        is_library = words[1] == b"build" and b"staticlib" in words
        kind = "library" if is_library else "tests" if any(b"test" in it for it in words if it.startswith(b"--")) else "proof"
        crate = os.path.basename(os.readlink(f"/proc/{pid}/cwd"))
        return (crate, kind) if crate in self.crates else None

    def tasks(self):
        """The seconds of processor and of the clock of each task."""
        tasks = defaultdict(lambda: [0.0, set()])
        for task, first, last, spent in self.seen.values():
            tasks[task][0] += spent
            tasks[task][1].update(range(int(first / STEP), int(last / STEP) + 1))
        return {task: (spent, len(times) * STEP) for task, (spent, times) in tasks.items()}


class Edits:
    """The edits of each crate, tried once all crates below it are proved."""

    def __init__(self):
        # of each crate that is proved the folder of the repository's copy in which it is built
        self.proved, self.begun, self.tries = {}, set(), []
        # of each crate the edits that are known to be refused, as its texts and those below are now
        self.kept, self.refused = {it: Kept(it) for it in crates()}, {}
        # series of edits that can be tried, the longest first
        self.ready, self.lock = [], threading.Lock()
        # A check's memory is left to the proofs for each processor; they may have up to twice as many, and `rt ci` looks at what is free.
        self.pool = ThreadPoolExecutor(at_once(checks_that_fit() - processors()))

    def has_proved(self, crate, folder):
        self.proved[crate] = folder
        self.begin()

    def built(self, crate):
        return Path(self.proved[crate], "crates", crate, "out/rlib")

    def begin(self):
        below = crates()
        for crate in below:
            if crate not in self.begun and self.proved.keys() >= {*below[crate]}:
                self.begun.add(crate)
                edits = edits_of(crate)
                self.refused[crate] = [it for it in edits if self.kept[crate].why(it) is not None]
                for number, edits in enumerate(series_of(it for it in edits if it not in self.refused[crate])):
                    with self.lock:
                        heappush(self.ready, (-len(edits), crate, number, edits))
                    self.tries.append(self.pool.submit(self.try_longest))

    def try_longest(self):
        with self.lock:
            _, crate, _, edits = heappop(self.ready)
        return crate, *say_tried(crate, edits, self.built, self.kept[crate])

    def results(self):
        """Of each series of edits its crate, how many were refused, how many were not, the seconds of the clock, and of each check its
        seconds of processor and its edits."""
        results = [it.result() for it in self.tries]
        for crate, edits in self.refused.items():
            if edits:
                print(f"{crate}: {len(edits)} edits were refused over the same texts before")
                results.append((crate, len(edits), 0, 0.0, []))
        for crate in crates():
            if crate not in self.begun and (edits := edits_of(crate)):
                print(f"{crate}: its edits were not tried, since a crate below it is not proved")
                results.append((crate, 0, len(edits), 0.0, []))
        return results


# The program that users run, and the text that says what it was built from.
PROGRAM = "crates/keep_toml/out/keep_toml"
BUILT_FROM = "crates/keep_toml/out/built_from"
# What no copy of the repository, or of a crate, has.
LEFT_OUT = shutil.ignore_patterns(".git", "must-fail", "out", "__pycache__")


def copied_to(copy):
    """Copies the repository without its edits, and without what was built."""
    shutil.copytree(ROOT, copy, symlinks=True, ignore=LEFT_OUT)


def copied_alone(names, copy):
    """Copies these crates alone, as copied_to copies all."""
    for name in names:
        shutil.copytree(ROOT / "crates" / name, f"{copy}/crates/{name}", symlinks=True, ignore=LEFT_OUT)
    shutil.copy(ROOT / "HANDLES", copy)
    lines = (ROOT / "crates.txt").read_text().splitlines(keepends=True)
    Path(copy, "crates.txt").write_text("".join(it for it in lines if it.partition(":")[0].removesuffix(" staticlib") in names))


def put_back(copy, is_proved=False):
    """Puts the programs that were built there, and what they wrote, into the crates' folders out/ here, each in one step. If all is
    proved, a text beside keep_toml's program says what it was built from, as ./keep-toml and tools/renew-dist ask."""
    program, text = Path(copy, PROGRAM), ROOT / BUILT_FROM
    if program.is_file():
        text.unlink(missing_ok=True)
    for file in Path(copy, "crates").glob("*/out/*"):
        if file.is_file():
            to = ROOT / file.relative_to(copy)
            to.parent.mkdir(exist_ok=True)
            shutil.copy(file, f"{to}.new")
            os.replace(f"{to}.new", to)
    if program.is_file() and is_proved:
        said = subprocess.run([f"{copy}/tools/built-from", program], stdout=subprocess.PIPE, check=True).stdout
        Path(f"{text}.new").write_bytes(said)
        os.replace(f"{text}.new", text)


def lines_behind(below):
    """Of each crate the lines of code, its own too, of the longest chain of crates that wait for it."""
    behind = {}
    for crate in reversed(below):
        files = (ROOT / "crates" / crate / "src").rglob("*.rt")
        above = [lines for it, lines in behind.items() if crate in below[it]]
        behind[crate] = LINES_OF_A_CRATE + sum(it.read_bytes().count(b"\n") for it in files) + max(above, default=0)
    return behind


class Proofs:
    """The crates as they are proved, each by a run of its own, and by the one over all."""

    def __init__(self, command, room, start):
        self.command, self.room, self.start = command, room, start
        self.below, self.behind = crates(), lines_behind(crates())
        self.edits, self.running, self.runs, self.libraries, self.keeps = Edits(), set(), {}, [], True
        self.lock, self.pool = threading.RLock(), ThreadPoolExecutor(processors())

    def ran(self, folder, heard, level=0, more=None, command=None):
        """Runs a command in a folder, with more in its environment and each of its lines handed on, and gives its status."""
        how = {"stdout": subprocess.PIPE, "stderr": subprocess.STDOUT, "text": True, "errors": "replace"}
        words = ["nice", "-n", str(level), *(command or self.command)]
        with subprocess.Popen(words, cwd=folder, env=os.environ | (more or {}), **OF_ITS_OWN, **how) as ran:
            self.running.add(ran.pid)
            for line in ran.stdout:
                heard(line)
            status = ran.wait()
        self.running.discard(ran.pid)
        return status

    def says(self, line):
        print(f"[{(time.time() - self.start) / 60:5.1f}] {line}", end="", flush=True)

    def has_proved(self, crate, folder):
        """Tries the edits, and proves the crates, that waited for this one alone; builds it, if it is a static library."""
        with self.lock:
            if crate not in self.edits.proved:
                self.edits.has_proved(crate, folder)
                if crate in static_libraries():
                    self.libraries.append(self.pool.submit(self.build_library, crate, folder))
                self.begin()

    def build_library(self, crate, folder):
        """Builds the static library that a crate is proved to be, puts it into the crate's folder out/ here, and gives the status."""
        words, lines = library_words(crate, self.edits.built, f"out/lib{crate}.a"), []
        Path(folder, "crates", crate, "out").mkdir(exist_ok=True)
        status = self.ran(f"{folder}/crates/{crate}", lines.append, command=words)
        if status == 0:
            put_back(folder)
        self.says(f"{crate}: its library is {'built' if status == 0 else 'NOT built: ' + ''.join(lines[-9:]).rstrip()}\n")
        return status

    def begin(self):
        with self.lock:
            proved = self.edits.proved.keys()
            ready = [it for it in self.below if it not in self.runs and proved >= {*self.below[it]}]
            for crate in sorted(ready, key=self.behind.get, reverse=True):
                if self.keeps:
                    self.runs[crate] = self.pool.submit(self.prove, crate)

    def prove(self, crate):
        """Proves a crate by a run of its own over it and the crates below it."""
        folder = f"{self.room}/{crate}"
        copied_alone([*all_below(crate, self.below), crate], folder)

        def heard(line):
            if self.keeps and (KEEPS_NOT.match(line) or self.is_proved_again(crate, line)):
                self.keeps = False
                self.end_runs()
            if not TOLD_LATER.match(line):
                self.says(line)

        left = sorted((it for it in self.below if it not in self.edits.proved), key=self.behind.get, reverse=True)
        how = {} if crate in left[:PRESSING] else {"level": BACK, "more": ON_ONE}
        status = self.ran(folder, heard, **how)
        if self.keeps and status:
            self.says(f"{crate}: its run failed\n")
        elif self.keeps:
            self.has_proved(crate, folder)

    def is_proved_again(self, crate, line):
        """Whether the run of a crate says that it proved one which an earlier run had proved: then that was not kept."""
        found = PROVED.match(line)
        return bool(found) and found[2] == "proved" and found[1] != crate and found[1] in self.edits.proved

    def end_runs(self):
        """Ends the runs of single crates: where nothing is kept, the one over all proves each crate anew."""
        for pid in [*self.running]:
            with contextlib.suppress(ProcessLookupError):
                os.killpg(pid, signal.SIGTERM)

    def prove_each(self):
        """Proves each crate by a run of its own, as far as they are kept for later runs."""
        self.begin()
        while going := [it for it in self.runs.values() if not it.done()]:
            wait(going, return_when=FIRST_COMPLETED)
        for it in self.runs.values():
            it.result()

    def prove_all(self, copy):
        """Runs the command over all crates, and gives its status and its last line. Where nothing was kept it proves all of them: one on each
        processor, as far as there is room for as many checks of edits. By itself `rt ci` takes most proofs to need more memory than they
        do, and lets them wait."""
        copied_to(copy)
        how = {} if self.keeps else {"RT_JOBS": str(at_once(checks_that_fit() // 2))}
        lines = [""]

        def heard(line):
            lines.append(line)
            self.says(line)
            if found := PROVED.match(line):
                self.has_proved(found[1], copy)

        self.keeps = False
        status = self.ran(copy, heard, more=how)
        return status, lines[-1]

    def stopped(self, number, _):
        """Ends all that runs, and the gate with it; the checks of edits end with the gate."""
        self.end_runs()
        shutil.rmtree(self.room, ignore_errors=True)
        os._exit(128 + number)


def dearest(results):
    """Lines about the checks of edits that took most."""
    spent = [(seconds, crate, names) for crate, *_, checks in results for seconds, names in checks]
    named = lambda names: ", ".join(names[:3]) + (f" and {len(names) - 3} more" if len(names) > 3 else "")
    return [f"  {seconds / 60:6.1f}  {crate}: {named(names)}" for seconds, crate, names in sorted(spent, reverse=True)[:DEAREST]]


def report_of(tasks, results, whole):
    lines = ["minutes of processor of the dearest checks of edits:", *dearest(results)]
    lines.append("minutes of processor and of the clock, by task:")
    for (crate, kind), (spent, clock) in sorted(tasks.items(), key=lambda it: -it[1][0]):
        lines.append(f"  {spent / 60:6.1f} {clock / 60:6.1f}  {crate}: {kind}")
    total = sum(spent for spent, _ in tasks.values())
    lines.append(f"the gate: {whole / 60:.1f} minutes, {total / 60:.1f} of processor")
    return "\n".join(lines) + "\n"


def count_of(line):
    """The last line of `rt ci`, which tells how much passed and failed."""
    found = re.fullmatch(r"(\d+) passed, (\d+) failed", line.strip())
    return (int(found[1]), int(found[2])) if found else (0, 1)


def tasks_of(results):
    """The seconds of processor and of the clock that each crate's edits took."""
    tasks = {}
    for crate, _, _, clock, checks in results:
        spent, longest = tasks.get((crate, "edits"), (0.0, 0.0))
        tasks[crate, "edits"] = (spent + sum(it for it, _ in checks), max(longest, clock))
    return tasks


def run(command, built, room, start):
    """Proves all, with the edits beside it; gives the status and last line of the run over all, the edits' results, and the tasks."""
    proofs, sampler = Proofs(command, room, start), Sampler(os.getpid())
    signal.signal(signal.SIGTERM, proofs.stopped)
    sampler.start()
    proofs.edits.begin()
    proofs.prove_each()
    status, line = proofs.prove_all(f"{room}/all")
    statuses = [status, *(it.result() for it in proofs.libraries)]
    status = next((it for it in statuses if it), 0)
    put_back(f"{room}/all", status == 0)
    if status == 0:
        Path(built).touch()
    results = proofs.edits.results()
    sampler.is_over.set()
    return status, line, results, sampler.tasks() | tasks_of(results)


def main(report, built, *command):
    start = time.time()
    with TemporaryDirectory(prefix="keep-toml-gate-") as room:
        status, line, results, tasks = run(command, built, room, start)
    Path(report).write_text(report_of(tasks, results, time.time() - start))
    refused, missed = sum(it[1] for it in results), sum(it[2] for it in results)
    passed, failed = count_of(line)
    failed = max(failed, int(status != 0))
    print(f"[{(time.time() - start) / 60:5.1f}] edits refused: {refused}, not refused: {missed}")
    print(f"rt ci and the edits: {passed + refused} passed, {failed + missed} failed", flush=True)
    return int(failed + missed > 0)


if __name__ == "__main__":
    sys.exit(main(*sys.argv[1:]))
