#!/usr/bin/env python3
"""faults.py [NAME..]: plants each fault of faults/ in a copy of our sources, builds `test_replay` of it without proof, and shows that the comparison finds
the fault on the stored sample and on the scripts of the first 54 seeds. The prover refuses each of them; this shows that the comparison does too.
faults.py --texts: only sees that each of them can be planted, at once.

A fault is NAME.edits: what it breaks, then blocks in the format of compare/judge/patch/README.md, each after the `file` that it changes. Its old text must
occur exactly once. JUDGE names a judge that is built already (else compare/judge's).
Exit status: 0 each is found; 1 one is not, or cannot be planted or built; 3 no judge is built."""

import os
import re
import shutil
import subprocess
import sys
import tempfile
from concurrent.futures import ThreadPoolExecutor
from pathlib import Path

HERE = Path(__file__).resolve().parent
TOP = HERE.parent.parent
JUDGE = os.environ.get("JUDGE") or TOP / "compare/judge/target/release/judge"
SEEDS = 54
BLOCK = re.compile(r"(?ms)^file (\S+)\n<<<<\n(.*?)\n====\n(.*?)\n>>>>$")


class Fault(Exception):
    """The copy cannot be made, edited or built."""


def copied(room):
    """Our sources, with a script of no calls for `test_replay`: whoever builds it has it run that script."""
    shutil.copytree(TOP / "crates", room / "crates", ignore=shutil.ignore_patterns("out"))
    shutil.copy(TOP / "crates.txt", room)
    (room / "compare").mkdir()
    shutil.copy(TOP / "compare/native", room / "compare")
    (room / "crates/test_replay/stdin").write_bytes(b"GGSC\1\0\0\0")
    (room / "crates/test_replay/stdout").write_bytes(b"")


def edits(name):
    """The files that a fault changes, and their texts after it."""
    blocks = BLOCK.findall((HERE / "faults" / f"{name}.edits").read_text())
    if not blocks:
        raise Fault("not planted: it has no block")
    texts = {}
    for file, old, new in blocks:
        text = texts.get(file) or (TOP / file).read_text()
        if text.count(old) != 1:
            raise Fault(f"not planted: its old text occurs {text.count(old)} times in {file}")
        texts[file] = text.replace(old, new)
    return texts


def tried(room, scripts, name):
    """Of each folder of scripts, what the comparison says of those that differ."""
    room /= name or "sound"
    room.mkdir()
    copied(room)
    for file, text in edits(name).items() if name else ():
        (room / file).write_text(text)
    built = subprocess.run([room / "compare/native", "tried", "test_replay", room / "test_replay"], capture_output=True, text=True, check=False)
    if built.returncode:
        raise Fault("not built: " + built.stderr.strip()[-600:])
    found = []
    for folder in scripts:
        run = subprocess.run([sys.executable, HERE / "compare.py", folder, room / "test_replay"], capture_output=True, text=True, check=False)
        if run.returncode not in (0, 1) or not run.stdout:
            raise Fault("not compared: " + run.stderr.strip()[-600:])
        found.append(run.stdout.splitlines()[:-1])
    shutil.rmtree(room)
    return found


def verdict(room, scripts, name):
    """Whether the fault is found in each folder of scripts, and what is said of it."""
    try:
        found = tried(room, scripts, name)
    except Fault as fault:
        return False, str(fault)
    counts = ", ".join(f"{len(lines)} of {folder.name}" for lines, folder in zip(found, scripts))
    first = next((lines[0] for lines in found if lines), "nothing differs")
    return all(found), f"scripts that differ: {counts}; {first}"


def texts(names):
    """Whether each fault can be planted."""
    missed = 0
    for name in names:
        try:
            edits(name)
        except Fault as fault:
            missed += 1
            print(f"compare/replay/faults/{name}.edits: {fault}")
    print(f"faults to be planted in our sources: {len(names)}, of which {missed} cannot be")
    return 1 if missed else 0


def main(names):
    if not os.access(JUDGE, os.X_OK):
        print("compare/replay: the judge is not built; compare/judge/run builds it", file=sys.stderr)
        return 3
    with tempfile.TemporaryDirectory() as room, ThreadPoolExecutor(os.cpu_count()) as pool:
        room = Path(room)
        generated = room / "generated"
        generated.mkdir()
        subprocess.run([JUDGE, "check", "0", str(SEEDS), generated], stdout=subprocess.DEVNULL, check=True)
        scripts = TOP / "compare/sample", generated
        # Without a fault the copy must agree, or a find would mean nothing.
        if any(sound := tried(room, scripts, None)):
            print(f"the sources without a fault differ: {sound}")
            return 1
        missed = 0
        for name, (found, words) in zip(names, pool.map(lambda name: verdict(room, scripts, name), names)):
            missed += not found
            print(f"{'found    ' if found else 'NOT FOUND'}  {name}: {words}", flush=True)
    print(f"faults planted in our sources: {len(names)}, found: {len(names) - missed}")
    return 1 if missed else 0


if __name__ == "__main__":
    every = sorted(path.stem for path in (HERE / "faults").glob("*.edits"))
    sys.exit(texts(every) if sys.argv[1:] == ["--texts"] else main(sys.argv[1:] or every))
