#!/usr/bin/env python3
"""compare.py DIR COMMAND..: runs DIR's scripts on the command that starts `test_replay` and holds what it writes against DIR's answers. Of a script whose
answers differ it names the first record and field that do. Answers that are digests tell no field: where a judge is built (JUDGE names it, else
compare/judge's is looked for), it and `test_replay` run such a script once more for whole answers."""

import os
import struct
import subprocess
import sys
from concurrent.futures import ThreadPoolExecutor
from pathlib import Path

sys.dont_write_bytecode = True  # of layout.py, beside it
from layout import DIGEST, MODE, OBJECTS, WHOLE, call_name, named, records

JUDGE = os.environ.get("JUDGE") or Path(__file__).parent.parent / "judge/target/release/judge"


def shown(layout, bytes):
    """A field's value; the bytes where it is a row of them, or where they are too few."""
    size = struct.calcsize("<" + layout)
    if layout.endswith("s") or len(bytes) < size:
        return bytes[:size].hex() or "nothing"
    return struct.unpack_from("<" + layout, bytes)[0]


def difference(script, expected, got):
    """Which field of which record differs first."""
    at = len(os.path.commonprefix([expected, got]))
    for number, call, object, place, layout, name in named(script, expected):
        if at < place + struct.calcsize("<" + layout):
            where = f"record {number}, {call_name(call, object)} on {OBJECTS[object]}: {name}"
            return f"{where}: expected {shown(layout, expected[place:])}, found {shown(layout, got[place:])}"
    return f"behind the last record: found {len(got) - len(expected)} bytes more"


def main(folder, *replay):
    def run(command, script):
        return subprocess.run(command, input=script, capture_output=True, check=False)

    def held(path):
        """The calls of a script, and where its answers differ."""
        script, expected = path.read_bytes(), path.with_suffix(".answers").read_bytes()
        ended = run(replay, script)
        if ended.stdout == expected:
            return len(list(records(script))), None
        found, told = difference(script, expected, ended.stdout), ended.stderr.decode(errors="replace").strip()
        if script[MODE] == DIGEST and os.access(JUDGE, os.X_OK):
            whole = script[:MODE] + bytes([WHOLE]) + script[MODE + 1 :]
            answers = run([JUDGE, "run"], whole).stdout, run(replay, whole).stdout
            found = difference(whole, *answers) if answers[0] != answers[1] else f"{found} (but not where whole answers are compared)"
        return len(list(records(script))), f"{found} ({told})" if told else found

    scripts = sorted(Path(folder).glob("*.script"))
    compared = faults = 0
    with ThreadPoolExecutor(os.cpu_count()) as pool:
        for path, (count, found) in zip(scripts, pool.map(held, scripts)):
            compared += count
            if found:
                faults += 1
                print(f"{path.name}: {found}")
    print(f"{len(scripts)} scripts: {compared} calls compared, {faults} scripts differ")
    return 1 if faults or not scripts else 0


if __name__ == "__main__":
    if len(sys.argv) < 3:
        sys.exit(__doc__)
    sys.exit(main(*sys.argv[1:]))
