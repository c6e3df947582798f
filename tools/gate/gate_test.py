#!/usr/bin/env python3
"""Shows that the gate passes where all is proved and refused, and not in eight cases where something is not; and that it tries no edit
again over the same texts.

    tools/gate/gate_test.py

tools/gate/gate.py runs over tools/gate/false_rt, which says what `rt ci` says of each crate and proves nothing; no edit is tried, and
all but MISSED are taken to be refused. The command BUILDS stands for the build of the static library.
"""
import os
import shutil
import signal
import subprocess
import sys
import time
from concurrent.futures import ThreadPoolExecutor
from pathlib import Path
from tempfile import TemporaryDirectory

sys.dont_write_bytecode = True
import gate
import kept
from edits import Tried, edits_of
from quick import all_below

HERE = Path(__file__).resolve().parent
CRATES = gate.crates()
# Of each case its environment, whether the gate passes, and the crates whose edits are not tried.
ABOVE_SPLICE = [it for it in CRATES if edits_of(it) and "keep_edit_plan" in all_below(it, CRATES)]
CASES = [
    ("all is proved", {}, True, []),
    ("nothing is kept for later runs", {"KEEPS": "no"}, True, []),
    ("nothing is kept, and that is not said", {"KEEPS": "unsaid"}, True, []),
    ("a crate is not proved", {"FAILS": "keep_edit_plan"}, False, ABOVE_SPLICE),
    ("a crate is not proved, and nothing is kept", {"FAILS": "keep_edit_plan", "KEEPS": "no"}, False, ABOVE_SPLICE),
    ("a crate is not proved, and that nothing is kept is not said", {"FAILS": "keep_edit_plan", "KEEPS": "unsaid"}, False, ABOVE_SPLICE),
    ("the lowest crate is not proved", {"FAILS": "keep_types"}, False, [it for it in CRATES if edits_of(it) and CRATES[it]]),
    ("the last crate is not proved", {"FAILS": "keep_test_streams"}, False, []),
    ("a crate is not proved in the run over all alone", {"ALL_FAILS": "keep_toml", "KEEPS": "no"}, False, []),
    ("the static library is not built", {"BUILDS": "false"}, False, []),
    ("an edit is not refused", {"MISSED": "keep_commands"}, False, []),
]


def tried(crate, edits, _, kept):
    """In the place of edits.say_tried."""
    missed = int(os.environ.get("MISSED") == crate)
    kept.keep([Tried(it, not missed, "") for it in edits])
    print(f"{crate}: {len(edits)} edits are tried")
    return len(edits) - missed, missed, 0.0, []


def begun(room, **more):
    """The gate, over the false `rt ci`, in an environment; what it keeps and writes is in a folder."""
    for name in ("store/running", "tmp"):
        Path(room, name).mkdir(parents=True)
    outside = {"STORE": f"{room}/store", "TMPDIR": f"{room}/tmp", "XDG_CACHE_HOME": f"{room}/cache", "PATH": os.environ["PATH"], **more}
    words = [sys.executable, __file__, "gate", f"{room}/report", f"{room}/built", HERE / "false_rt"]
    return subprocess.Popen(words, env=outside, stdout=subprocess.PIPE, stderr=subprocess.STDOUT, text=True)


def fault_of(outside, passes, untried):
    """What is wrong with a case; None if nothing is."""
    with TemporaryDirectory() as room:
        ran = begun(room, **outside)
        said = ran.communicate(timeout=100)[0]
        is_built = Path(room, "built").exists()
        jobs = Path(room, "store/jobs").read_text()
    edits = sum(len(edits_of(it)) for it in CRATES)
    lost = sum(len(edits_of(it)) for it in untried)
    if (ran.returncode == 0) != passes:
        return f"the status is {ran.returncode}"
    if (jobs != "") != ("KEEPS" in outside):
        return f"the run over all may make {jobs or 'as many proofs as it takes'} at once"
    if passes and "its run failed" in said:
        return "a crate's own run failed"
    if [it for it in CRATES if f"{it}: its edits were not tried" in said] != untried:
        return "other edits were not tried"
    if f"not refused: {lost + ('MISSED' in outside)}\n" not in said:
        return f"not {edits - lost} of {edits} edits count as refused"
    return None if is_built == (passes or "MISSED" in outside) else "the programs are said to be built, or not"


def is_running(number):
    """Whether there is a process of this number that has not ended."""
    try:
        return Path(f"/proc/{number}/cmdline").read_bytes() != b""
    except OSError:
        return False


def fault_of_stop():
    """What is wrong where the gate is asked to end; None if nothing is."""
    with TemporaryDirectory() as room:
        ran = begun(room, TAKES="100")
        runs = []
        while not runs and ran.poll() is None:
            time.sleep(0.05)
            runs = [int(it.name) for it in Path(room, "store/running").glob("*")]
        ran.terminate()
        ran.communicate(timeout=60)
        if ran.returncode != 128 + signal.SIGTERM:
            return f"the status is {ran.returncode}"
        end = time.time() + 10
        while any(map(is_running, runs)):
            if time.time() > end:
                return "a run is left"
            time.sleep(0.05)
        return "its folder is left" if any(Path(room, "tmp").iterdir()) else None


def fault_of_text():
    """What is wrong with what the gate says beside the program that it puts back; None if nothing is."""
    with TemporaryDirectory() as room:
        copy, here, tools = Path(room, "copy"), Path(room, "here"), Path(room, "tools")
        for folder in (copy, here):
            (folder / "crates/keep_toml/src").mkdir(parents=True)
            (folder / "crates/keep_toml/src/main.rt").write_text("fn main() {}\n")
            (folder / "crates.txt").write_text("keep_toml:\n")
            shutil.copytree(gate.ROOT / "tools", folder / "tools")
        for name, text in ((copy / gate.PROGRAM, "a program"), (here / gate.BUILT_FROM, "an older text"), (tools / "rt", "#!/bin/sh\necho kit\n")):
            name.parent.mkdir(parents=True)
            name.write_text(text)
        (tools / "rt").chmod(0o755)
        called = [sys.executable, __file__, "put_back", here, copy]
        outside = {**os.environ, "PATH": f"{tools}:{os.environ['PATH']}"}
        subprocess.run([*called, "False"], env=outside, check=True)
        if (here / gate.BUILT_FROM).exists() or (here / gate.PROGRAM).read_text() != "a program":
            return "what is not proved has a text, or is not put back"
        subprocess.run([*called, "True"], env=outside, check=True)
        wanted = subprocess.run([here / "tools/built-from", here / gate.PROGRAM], env=outside, stdout=subprocess.PIPE, text=True).stdout
        return None if wanted and (here / gate.BUILT_FROM).read_text() == wanted else "the text is not that of the sources"


def fault_of_kept():
    """What is wrong with the edits that are not tried again; None if nothing is."""
    with TemporaryDirectory() as cache:
        for tries in (True, False):
            with TemporaryDirectory() as room:
                said = begun(room, XDG_CACHE_HOME=cache).communicate(timeout=100)[0]
            if ("edits are tried" in said) != tries or "not refused: 0\n" not in said:
                return "edits are not tried at first" if tries else "edits that were refused are tried again"
        with TemporaryDirectory() as room:
            said = begun(room, XDG_CACHE_HOME=cache, KIT="another").communicate(timeout=100)[0]
        return None if "edits are tried" in said else "edits are not tried with another kit"


def fault_of_sums():
    """What is wrong with the sums by which texts are told apart; None if nothing is."""
    with TemporaryDirectory() as room:
        root, sums = Path(room), []
        for name in ("keep_types", "keep_token"):
            for part in ("src/lib.rt", "proofs/Lib.antt"):
                (root / "crates" / name / part).parent.mkdir(parents=True)
                (root / "crates" / name / part).write_text("\n")
        (root / "crates.txt").write_text("keep_types:\nkeep_token: keep_types simdutf8\n")
        summed = lambda: (kept.sum_of_texts("keep_types", root), kept.sum_of_texts("keep_token", root))
        sums.append(summed())
        (root / "crates/keep_token/proofs/Lib.antt").write_text("mod A\n")
        sums.append(summed())
        (root / "crates/keep_types/src/lib.rt").rename(root / "crates/keep_types/src/leaf.rt")
        sums.append(summed())
        (root / "crates.txt").write_text("keep_types:\nkeep_token: keep_types itoa\n")
        sums.append(summed())
        if len({it[1] for it in sums}) != len(sums):
            return "other texts have one sum"
        return None if len({it[0] for it in sums}) == 2 and sums[-1] == summed() else "the same texts have two sums"


def main():
    with ThreadPoolExecutor() as pool:
        stopped, again = pool.submit(fault_of_stop), pool.submit(fault_of_kept)
        faults = dict(zip([name for name, *_ in CASES], pool.map(lambda it: fault_of(*it[1:]), CASES)))
        faults["it is asked to end"] = stopped.result()
        faults["edits that were refused before"] = again.result()
        faults["texts are told apart"] = fault_of_sums()
        faults["it says what the program is built from"] = fault_of_text()
    for name, fault in faults.items():
        if fault:
            print(f"gates: {name}: {fault}")
    failed = sum(it is not None for it in faults.values())
    print(f"gates: {len(faults) - failed} passed, {failed} failed")
    return int(failed > 0)


if __name__ == "__main__":
    if sys.argv[1:2] == ["put_back"]:
        gate.ROOT = Path(sys.argv[2])
        sys.exit(gate.put_back(sys.argv[3], sys.argv[4] == "True"))
    if sys.argv[1:2] == ["gate"]:
        gate.say_tried = tried
        kept.kit = lambda: os.environ.get("KIT", "").encode()
        gate.library_words = lambda *_: [os.environ.get("BUILDS", "true")]
        # (copies of the crates need no files here)
        gate.LEFT_OUT = shutil.ignore_patterns(".git", "src", "specs", "proofs", "must-fail", "out", "rows")
        sys.exit(gate.main(*sys.argv[2:]))
    sys.exit(main())
