#!/usr/bin/env python3
"""Looks for holes in the scripts: changes one operator or drops one statement of the crate at a
time and runs DIR's scripts. Prints which changes no answer shows.  Usage: mutants.py DIR [FROM TO]
It is no part of `run`: some changes cannot be seen (see README.md)."""
import os, re, shutil, subprocess, sys

HOME = os.path.dirname(os.path.abspath(__file__))
SRC = os.environ.get("GGRS_SRC") or os.path.join(HOME, "../../../shared/docs/src")
FILES = ["src--src--network--protocol.rs.txt", "src--src--sessions--p2p_spectator_session.rs.txt"]
RULES = [
    (" < ", " <= "), (" <= ", " < "), (" > ", " >= "), (" >= ", " > "), (" == ", " != "),
    (" != ", " == "), (" && ", " || "), (r" \|\| ", " && "), (r" \+ ", " - "), (" - ", " + "),
    (r" \* ", " + "), ("= true;", "= false;"), ("= false;", "= true;"), ("if !", "if "),
    (r"\.min\(", ".max("), ("cmp::max", "cmp::min"), ("pop_front", "pop_back"),
    (r"push_back\(Event", "push_front(Event"),
    (r"self\.(send_\w+|queue_message)\((.*)\);$", "();"),
    (r"self\.(\w+) = Instant::now\(\);", "();"),
    (r"self\.event_queue\.push_back\(Event::(\w+)\);", "();"),
]
SKIP = re.compile(r"^\s*(//|use |fn |pub|impl|#|\*|trace|warn|where|T: Config|const)"
                  r"|assert|Result<|-> |format!|expected|Vec<|Err\(|<T>|expect\(")


def mutants():
    for name in FILES:
        lines = open(f"{SRC}/{name}").read().split("\n")
        for at, line in enumerate(lines):
            if SKIP.search(line):
                continue
            for old, new in RULES:
                for match in re.finditer(old, line):
                    yield name, at, line[:match.start()] + new + line[match.end():]


def seen(scripts):
    """Whether some answer of the build that stands differs."""
    try:
        run = subprocess.run(["target/fault/judge", "find", scripts], cwd=HOME, capture_output=True, timeout=120)
        return run.returncode == 0
    except subprocess.TimeoutExpired:
        return True


def main():
    scripts = os.path.abspath(sys.argv[1])
    work = os.path.join(HOME, "out/mutant")
    shutil.rmtree(work, ignore_errors=True)
    shutil.copytree(SRC, work)
    subprocess.run(["chmod", "-R", "u+w", work], check=True)
    chosen = list(mutants())
    first, last = (int(n) for n in sys.argv[2:4]) if len(sys.argv) > 2 else (0, len(chosen))
    env = dict(os.environ, GGRS_SRC=work, GGRS_FAULT="")
    counts = {"seen": 0, "does not build": 0, "NOT SEEN": 0}
    for name, at, line in chosen[first:last]:
        text = open(f"{SRC}/{name}").read().split("\n")
        was, text[at] = text[at], line
        open(f"{work}/{name}", "w").write("\n".join(text))
        build = subprocess.run(["cargo", "build", "-q", "-j1", "--profile", "fault"], cwd=HOME, env=env, capture_output=True)
        what = "does not build" if build.returncode else "seen" if seen(scripts) else "NOT SEEN"
        counts[what] += 1
        if what != "seen":
            print(f"{what}: {name.split('--')[-1]} {at + 1}: {was.strip()}  =>  {line.strip()}", flush=True)
        open(f"{work}/{name}", "w").write(open(f"{SRC}/{name}").read())
    print(counts)


main()
