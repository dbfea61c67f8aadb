#!/usr/bin/env python3
"""Counts the places that are written in the forms of an older Rattle, by the eight points of docs/DESIGN-PASS.md.

usage: python3 tools/count_forms.py [--at COMMIT] [--counts] [POINT..]

Reads crates/ of this checkout, or of a commit with --at. Prints for each point (1 to 8, or those named) how many places there are by kind,
and each place as crate/file:line with what stands there; with --counts the numbers alone.
A pattern finds candidates: some of them are right as they stand (docs/DESIGN-PASS.md says which and why), and a reader finds some that it misses.
Exit status: 0; 2 for bad usage or a commit that is not there.
"""
import collections
import io
import os
import re
import subprocess
import sys
import tarfile

ROOT = os.path.dirname(os.path.dirname(os.path.abspath(__file__)))
WORD = r"[A-Za-z_][A-Za-z0-9_]*"
KEYWORDS = set("as break const continue else enum false fn for if impl in let loop match mod move mut pub ref return self Self struct true use while"
               " requires ensures Ok Err Some None".split())


def fail(words):
    print("count_forms: " + words, file=sys.stderr)
    sys.exit(2)


def texts(commit):
    """The source, proof, edit and page files, by path."""
    ends = (".rt", ".antt", ".edit", ".md")
    found = {}
    if commit is None:
        for top in ("crates", "docs"):
            for folder, dirs, names in os.walk(os.path.join(ROOT, top)):
                dirs[:] = sorted(d for d in dirs if d != "out")
                for name in sorted(names):
                    if name.endswith(ends):
                        path = os.path.join(folder, name)
                        with open(path, encoding="utf-8") as f:
                            found[os.path.relpath(path, ROOT)] = f.read()
        with open(os.path.join(ROOT, "README.md"), encoding="utf-8") as f:
            found["README.md"] = f.read()
        return found
    got = subprocess.run(["git", "-C", ROOT, "archive", commit, "crates", "docs", "README.md"], capture_output=True)
    if got.returncode != 0:
        fail(f"there is no crates/ at commit {commit}")
    with tarfile.open(fileobj=io.BytesIO(got.stdout)) as tar:
        for member in tar.getmembers():
            if member.isfile() and member.name.endswith(ends):
                found[member.name] = tar.extractfile(member).read().decode("utf-8")
    return dict(sorted(found.items()))


def plain(text):
    """The text with comments and the insides of strings blanked, every line where it was."""
    def blank(m):
        return re.sub(r"[^\n]", " ", m.group(0))
    return re.sub(r'//[^\n]*|"(?:\\.|[^"\\\n])*"', lambda m: blank(m) if m.group(0).startswith("//") else '"' + " " * (len(m.group(0)) - 2) + '"', text)


def block(text, at):
    """The end of the bracketed part that opens at a place."""
    depth = 0
    for i in range(at, len(text)):
        if text[i] in "({[":
            depth += 1
        elif text[i] in ")}]":
            depth -= 1
            if depth == 0:
                return i + 1
    return len(text)


def split(text):
    """At the commas outside brackets."""
    parts, depth, start = [], 0, 0
    for i, c in enumerate(text):
        if c in "({[<":
            depth += 1
        elif c in ")}]" or (c == ">" and text[i - 1] != "-"):
            depth -= 1
        elif c == "," and depth == 0:
            parts.append(text[start:i])
            start = i + 1
    parts.append(text[start:])
    return [p.strip() for p in parts if p.strip()]


class Item:
    def __init__(self, path, text, at, kind, name):
        self.path, self.kind, self.name = path, kind, name
        self.line = text.count("\n", 0, at) + 1
        self.crate = path.split("/")[1]

    def where(self):
        return place(self.path, self.line)


def place(path, line):
    parts = path.split("/")
    return "/".join([parts[1]] + (parts[3:] if parts[2] == "src" else parts[2:])) + f":{line}"


def items(path, text):
    """The structs, enums and functions of a file."""
    out = []
    spans = [(m.start(), block(text, m.end() - 1), m.group(1)) for m in re.finditer(r"\bimpl(?:<[^>{]*>)?\s+(?:[\w:<>, ]+\s+for\s+)?(" + WORD + r")[^{;]*\{", text)]
    for m in re.finditer(r"\b(struct|enum)\s+(" + WORD + r")(?:<[^>{]*>)?\s*\{", text):
        item = Item(path, text, m.start(), m.group(1), m.group(2))
        inner = text[m.end():block(text, m.end() - 1) - 1]
        if item.kind == "struct":
            item.fields = [tuple(s.strip() for s in re.sub(r"^(?:#\[[^\]]*\]\s*)*(?:pub(?:\([^)]*\))?\s+)?", "", p).split(":", 1)) for p in split(inner) if ":" in p]
        else:
            item.variants = [re.sub(r"^(?:#\[[^\]]*\]\s*)*", "", p) for p in split(inner)]
        out.append(item)
    for m in re.finditer(r"\bfn\s+(" + WORD + r")\s*(<[^({]*>)?\s*\(", text):
        item = Item(path, text, m.start(), "fn", m.group(1))
        item.public = bool(re.search(r"\bpub(?:\([^)]*\))?\s+$", text[max(0, m.start() - 12):m.start()]))
        item.impl = next((name for a, b, name in spans if a < m.start() < b), None)
        end = block(text, m.end() - 1)
        item.params = []
        for p in split(text[m.end():end - 1]):
            if ":" in p and "self" not in p.split(":")[0]:
                name, kind = p.split(":", 1)
                item.params.append((re.sub(r"^mut\s+", "", name.strip()), " ".join(kind.split())))
        head = re.compile(r"\s*(?:->\s*((?:[^{;](?!\brequires\b|\bensures\b))*[^{;\s]?))?\s*").match(text, end)
        item.result = " ".join((head.group(1) or "").split())
        at = head.end()
        item.clauses = []
        while True:
            c = re.compile(r"\s*(requires|ensures)\b\s*(" + WORD + r")?\s*\{").match(text, at)
            if not c:
                break
            stop = block(text, c.end() - 1)
            item.clauses.append((c.group(1), " ".join(text[c.end():stop - 1].split())))
            at = stop
        b = re.compile(r"\s*\{").match(text, at)
        if not b:
            continue
        item.at, item.end = b.end(), block(text, b.end() - 1) - 1
        item.body = text[item.at:item.end]
        item.bodyline = text.count("\n", 0, item.at) + 1
        out.append(item)
    return out


def full(f):
    return f"{f.impl}::{f.name}" if f.impl else f.name


def masked(f):
    """A function's parameters and body with its names and numbers masked, the same name the same way each time."""
    names = {}
    words = re.findall(r"[A-Za-z_][A-Za-z0-9_]*|0x[0-9A-Fa-f_]+|\d[\d_]*\w*|\S", " ".join(k for _, k in f.params) + " -> " + f.result + " { " + f.body + " }")
    out = []
    for w in words:
        if w in KEYWORDS:
            out.append(w)
        elif re.match(r"\d", w):
            out.append("0")
        elif re.match(r"[A-Za-z_]", w):
            out.append("i%d" % names.setdefault(w, len(names)))
        else:
            out.append(w)
    return out


def point1(fns, types, code):
    """flags and answers beside a value, enums of the shape of Option or Result, numbers for kinds or refusals"""
    found = collections.OrderedDict((k, []) for k in (
        "struct that a function gives, with an answer or a flag beside a value", "enum of the shape of Option or Result",
        "enum with a variant for none or done", "`?` by hand", "a refusal as a number", "match on the number of a kind"))
    given = collections.defaultdict(set)
    for f in fns:
        for w in re.findall(WORD, f.result):
            given[w].add(f.crate)
        if f.impl and "Self" in f.result:
            given[f.impl].add(f.crate)
    for t in types:
        if t.kind == "struct" and t.crate in given[t.name]:
            kinds = [k for _, k in t.fields]
            flags = [n for n, k in t.fields if k in ("bool", "Answer")]
            if flags and len(flags) < len(kinds):
                found["struct that a function gives, with an answer or a flag beside a value"].append((t.where(), f"{t.name} ({', '.join(flags)})"))
        if t.kind == "enum":
            names = [re.match(WORD, v).group(0) for v in t.variants if re.match(WORD, v)]
            holds = [v for v in t.variants if re.search(r"[({]", v)]
            if len(names) == 2 and holds:
                found["enum of the shape of Option or Result"].append((t.where(), f"{t.name} ({', '.join(names)})"))
            elif {"None", "Done"} & set(names):
                found["enum with a variant for none or done"].append((t.where(), t.name))
    for f in fns:
        for pat, kind in ((r"let\s+(?:Answer::Done|Fault::None)\s*=", "`?` by hand"), (r"if\s+!\s*\w+\.ok\b|if\s+\w+\.shut\b", "`?` by hand"),
                          (r"\b(?:refusal|answer)\s*[!=]=\s*0", "a refusal as a number"), (r"\banswer:\s*u32", "a refusal as a number"),
                          (r"\bmatch\s+[^{};]*\{\s*(?:\d|0x)", "match on the number of a kind")):
            for m in re.finditer(pat, f.body):
                found[kind].append((place(f.path, f.bodyline + f.body.count("\n", 0, m.start())), full(f)))
    for t in types:
        if t.kind == "struct":
            for n, k in t.fields:
                if n == "answer" and k == "u32":
                    found["a refusal as a number"].append((t.where(), f"{t.name}.{n}"))
    return found


def point2(fns, types, code):
    """functions and types that differ in names, types and constants alone"""
    groups = collections.defaultdict(list)
    for f in fns:
        m = masked(f)
        if len(f.body.split()) >= 4 and len(m) >= 18:
            groups[" ".join(m)].append(f)
    found = {"functions alike when names, types and numbers are masked": [], "stores alike: an array and how much of it is used": []}
    for g in groups.values():
        if len(g) > 1:
            found["functions alike when names, types and numbers are masked"].append((g[0].where(), ", ".join(f"{f.crate}::{full(f)}" for f in g)))
    for t in types:
        if t.kind == "struct" and len(t.fields) == 2 and t.fields[0][1].startswith("[") and t.fields[1][1] == "usize":
            found["stores alike: an array and how much of it is used"].append((t.where(), t.name))
    return found


def point3(fns, types, code):
    """loops that count an index by hand, and the other `while` loops"""
    found = {"`while` that counts by hand": [], "other `while`": []}
    for f in fns:
        for m in re.finditer(r"\bwhile\s+([^{]*)\{", f.body):
            inner = f.body[m.end():block(f.body, m.end() - 1)]
            counts = [w for w in re.findall(r"\b[a-z_]\w*\b", m.group(1)) if re.search(r"\b" + w + r"\s*[+-]=", inner)]
            kind = "`while` that counts by hand" if counts else "other `while`"
            found[kind].append((place(f.path, f.bodyline + f.body.count("\n", 0, m.start())), full(f) + (f" ({counts[0]})" if counts else "")))
    return found


def point4(fns, types, code):
    """defaults, copies, tests for equality, conversions and printing by hand"""
    found = collections.OrderedDict((k, []) for k in (
        "default by hand", "conversion by hand", "a match that is a table of values", "field copied to a local of its name", "bytes of a number by hand",
        "what std has: least, minus, count_if, is_outside", "max or min by hand", "equality by hand", "printing by hand", "struct or enum that derives no equality"))
    for f in fns:
        if f.name == "default" and not f.params:
            found["default by hand"].append((f.where(), full(f)))
        if re.match(r"(from|to|of)_\w+$|\w+_(of|from|number)$|number$", f.name) and len(f.params) + (f.impl is not None) == 1 and f.result in ("u8", "u16", "u32", "i32", "u64", "usize"):
            found["conversion by hand"].append((f.where(), full(f)))
        if re.match(r"\s*match\s+[^{]*\{(\s*[\w:|\s{}_,.]+=>\s*(?:\d+|true|false|put\(rt, b\"\s*\"\)|\w+\.put\(b\"\s*\"\)),?)+\s*\}\s*$", f.body):
            found["a match that is a table of values"].append((f.where(), full(f)))
        for m in re.finditer(r"\blet\s+(?:mut\s+)?(\w+)\s*=\s*[\w.]+\.(\w+);", f.body):
            if m.group(1) == m.group(2):
                found["field copied to a local of its name"].append((place(f.path, f.bodyline + f.body.count("\n", 0, m.start())), f"{full(f)} ({m.group(1)})"))
        if re.search(r"[/%]\s*(?:256|0x100|0x1_0000|0x100_0000|WORD|65536)\b|\b(?:256|0x100|0x1_0000|0x100_0000|WORD|65536)\s*\*", f.body):
            found["bytes of a number by hand"].append((f.where(), full(f)))
        for m in re.finditer(r"\bnumbers::(least_u32|least|minus_u32|minus|count_if|is_outside)\b", f.body):
            found["what std has: least, minus, count_if, is_outside"].append((place(f.path, f.bodyline + f.body.count("\n", 0, m.start())), f"{full(f)} ({m.group(1)})"))
        if re.match(r"\s*if\s+(\w+)\s*<=?\s*(\w+)\s*\{\s*(?:return\s+)?(\w+);?\s*\}\s*(?:else\s*\{\s*)?(\w+)\s*\}?\s*$", f.body):
            found["max or min by hand"].append((f.where(), full(f)))
        if re.match(r"(same|equal|is_same|eq)(_\w+)?$", f.name):
            found["equality by hand"].append((f.where(), full(f)))
        if re.match(r"(signed|number|decimal|hex|digit|put_decimal|put_signed|put_hex)$", f.name):
            found["printing by hand"].append((f.where(), full(f)))
    for t in types:
        before = code[t.path].split("\n")[max(0, t.line - 4):t.line - 1]
        if not any("PartialEq" in b for b in before if "derive" in b):
            found["struct or enum that derives no equality"].append((t.where(), t.name))
    return found


def point5(fns, types, code):
    """a fact in the contracts of three or more functions, and parameters that travel together"""
    found = {"clause of three or more functions": [], "part of a `requires` of three or more functions": [], "three or more parameters of three or more functions": []}
    clauses = collections.defaultdict(list)
    facts = collections.defaultdict(list)
    for f in fns:
        for kind, text in f.clauses:
            clauses[kind + " { " + text + " }"].append(f)
            if kind == "requires":
                for part in re.split(r"\s×\s", text):
                    facts[part.strip("() ")].append(f)
    for text, users in clauses.items():
        if len(users) >= 3:
            found["clause of three or more functions"].append((users[0].where(), f"{len(users)} functions: {text}"))
    for text, users in facts.items():
        if len(users) >= 3:
            found["part of a `requires` of three or more functions"].append((users[0].where(), f"{len(users)} functions: {text}"))
    sets = [(frozenset(f.params), f) for f in fns if len(f.params) >= 3]
    groups = collections.defaultdict(set)
    for i, (a, f) in enumerate(sets):
        for b, g in sets[i + 1:]:
            both = a & b
            if len(both) >= 3:
                groups[both] |= {f, g}
    for both in list(groups):
        groups[both] |= {f for a, f in sets if both <= a}
    for both, users in sorted(groups.items(), key=lambda x: (-len(x[0]), -len(x[1]), sorted(x[0]))):
        if len(users) >= 3 and not any(both < o and users <= u for o, u in groups.items()):
            first = min(users, key=lambda f: (f.path, f.line))
            found["three or more parameters of three or more functions"].append(
                (first.where(), f"{', '.join(n for n, _ in first.params if n in {x for x, _ in both})}: " + ", ".join(sorted(f"{f.crate}::{full(f)}" for f in users))))
    return found


def point6(fns, types, code):
    """buffers with a length beside them, parallel arrays"""
    found = collections.OrderedDict((k, []) for k in (
        "struct with an array and its length", "parameters: an array and its length", "parameters: a lent buffer and a place in it", "array copied so that a part can be lent"))
    for t in types:
        if t.kind == "struct":
            arrays = [n for n, k in t.fields if k.startswith("[")]
            sizes = [n for n, k in t.fields if k == "usize" and re.match(r"(used|count|start|len|length|filled|queued|n)$", n)]
            if arrays and sizes:
                found["struct with an array and its length"].append((t.where(), f"{t.name} ({arrays[0]}, {sizes[0]})"))
            if len(arrays) > 1:
                found["struct with an array and its length"].append((t.where(), f"{t.name} ({', '.join(arrays)}: parallel)"))
    for f in fns:
        arrays = [n for n, k in f.params if re.search(r"\[\w+(?:<[^>]*>)?;", k)]
        slices = [n for n, k in f.params if re.search(r"&(?:mut )?\[", k)]
        sizes = [n for n, k in f.params if k == "usize" and re.match(r"(n|used|count|len|length|\w+_count)$", n)]
        if (arrays or slices) and sizes:
            found["parameters: an array and its length"].append((f.where(), f"{full(f)} ({(arrays + slices)[0]}, {sizes[0]})"))
        if any(n == "out" for n in slices) and any(n in ("at", "queued") for n, _ in f.params):
            found["parameters: a lent buffer and a place in it"].append((f.where(), full(f)))
        for m in re.finditer(r"\blet\s+(list|bytes|letter|table|queue|slots|entries)\s*=\s*[\w.]+\.\1;", f.body):
            found["array copied so that a part can be lent"].append((place(f.path, f.bodyline + f.body.count("\n", 0, m.start())), full(f)))
    return found


def point7(fns, types, code):
    """enums, flags and numbers that only choose a step, and tables"""
    found = collections.OrderedDict((k, []) for k in ("flag given to choose a step", "enum matched in one function and built in others", "match on a number that chooses a call", "table"))
    for f in fns:
        for n, k in f.params:
            if k == "bool" and re.match(r"\s*if\s+!?" + n + r"\s*\{", f.body):
                found["flag given to choose a step"].append((f.where(), f"{full(f)} ({n})"))
        for m in re.finditer(r"\bmatch\s+[^{};]*\{\s*(?:\d|0x)", f.body):
            inner = f.body[m.start():block(f.body, f.body.index("{", m.start()))]
            if re.search(r"=>\s*[\w.:]*\w\(", inner):
                found["match on a number that chooses a call"].append((place(f.path, f.bodyline + f.body.count("\n", 0, m.start())), full(f)))
    for t in types:
        if t.kind == "enum":
            matched = [f for f in fns if f.crate == t.crate and re.search(t.name + r"::\w+[^;]*?=>", f.body)]
            built = [f for f in fns if f.crate == t.crate and re.search(t.name + r"::\w+", f.body) and f not in matched]
            if len(matched) == 1 and len(built) >= 2 and not any(t.name in f.body or t.name in f.result for f in fns if f.crate != t.crate):
                found["enum matched in one function and built in others"].append((t.where(), f"{t.name}, matched in {full(matched[0])}"))
    for path, text in code.items():
        for m in re.finditer(r"\bconst\s+(\w+):\s*\[[^\]]*\]\s*=\s*\[[^;\]]*,", text):
            found["table"].append((place(path, text.count("\n", 0, m.start()) + 1), m.group(1)))
    return found


def point8(all_texts):
    """proofs: answers that the check finds alone, lines that many answers repeat, laws that nothing cites, files with no first comment"""
    found = collections.OrderedDict((k, []) for k in (
        "answer that is `search rules`", "answers file with nothing but that", "line of three or more answers", "law that nothing cites", "proof file with no first comment"))
    lines = collections.defaultdict(list)
    everything = collections.Counter()
    laws = []
    for path, text in all_texts.items():
        # docs/PORT-NAMES.md lists every name, and the page on this count tells of them: neither is a use.
        if path in ("docs/PORT-NAMES.md", "docs/DESIGN-PASS.md"):
            continue
        everything.update(re.findall(r"[^\s(){}\[\].,;:|`\"]+", text))
        if not path.endswith(".antt") or "/proofs/" not in path:
            continue
        name = os.path.basename(path)
        if not text.lstrip().startswith("--") and name != "Lib.antt":
            found["proof file with no first comment"].append((place(path, 1), name))
        if name == "Answers.antt":
            answers = re.findall(r"^pub ([^\s:]+) :", text, re.M)
            easy = re.findall(r"^(\S+)[^=\n]*= search rules\s*$", text, re.M)
            for e in easy:
                found["answer that is `search rules`"].append((place(path, 1 + text[:text.index(e + " ")].count("\n")), e))
            if answers and len(easy) == len(answers):
                found["answers file with nothing but that"].append((place(path, 1), f"{len(answers)} answers"))
            for line in text.split("\n"):
                s = line.strip()
                if len(s) > 30 and not s.startswith(("use ", "pub ", "--", "unfolding ")) and " = " in s and not re.match(r"let \w+ = c(\.[\w-]+)+ in$", s):
                    lines[s].append(path)
        # A theorem of such a file stands for its own sake.
        elif name not in ("Invariants.antt", "Settled.antt", "Examples.antt", "Unusable.antt"):
            for m in re.finditer(r"^(?:unfoldable |opaque |abbrev )*pub (?:unfoldable |opaque )?([^\s:(){}]+) :", text, re.M):
                laws.append((place(path, text.count("\n", 0, m.start()) + 1), m.group(1), len(re.findall(r"(?<![^\s(){}\[\].,;:|`\"])" + re.escape(m.group(1)) + r"(?![^\s(){}\[\].,;:|`\"])", text))))
    for s, paths in sorted(lines.items(), key=lambda x: -len(x[1])):
        if len(paths) >= 3:
            found["line of three or more answers"].append((place(sorted(paths)[0], 1), f"{len(paths)} times: {s}"))
    for where, name, own in laws:
        if everything[name] == own and own <= 2:
            found["law that nothing cites"].append((where, name))
    return found


def main(args):
    commit, counts, points = None, False, []
    while args:
        a = args.pop(0)
        if a == "--at" and args:
            commit = args.pop(0)
        elif a == "--counts":
            counts = True
        elif re.match(r"[1-8]$", a):
            points.append(int(a))
        else:
            fail("usage: python3 tools/count_forms.py [--at COMMIT] [--counts] [POINT..], POINT being 1 to 8")
    read = texts(commit)
    if not read:
        fail(f"there is no crates/ in {ROOT}")
    code = {p: plain(t) for p, t in read.items() if p.endswith(".rt") and "/src/" in p}
    fns, types = [], []
    for path, text in code.items():
        for item in items(path, text):
            (fns if item.kind == "fn" else types).append(item)
    if not points:
        print(f"{len(code)} files, {sum(t.count(chr(10)) for t in code.values())} lines, {len(fns)} functions, {len(types)} structs and enums")
    for n, count in enumerate((point1, point2, point3, point4, point5, point6, point7, point8), 1):
        if points and n not in points:
            continue
        found = count(read) if n == 8 else count(fns, types, code)
        print(f"point {n}: {count.__doc__}: {sum(len(v) for v in found.values())}")
        for kind, places in found.items():
            print(f"  {kind}: {len(places)}")
            if not counts:
                for where, what in places:
                    print(f"    {where} {what}")


if __name__ == "__main__":
    main(sys.argv[1:])
