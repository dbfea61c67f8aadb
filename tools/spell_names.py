#!/usr/bin/env python3
"""Respells the repository's own definitions and lemmas as today's Rattle spells them.

usage: python3 tools/spell_names.py [ROOT]     in ROOT, or the current folder: rewrites crates/ in place, once, after port.py
       python3 tools/spell_names.py --list     prints each old name with its new one and changes nothing

What port.py leaves: words in camel case (`nullFrame`), and dashes that join a plain word to a name (`act-announces`).
Here every word that is no type or module becomes snake case, and a dash stays only between two names of definitions (`unle-le`).
A lemma that would get a definition's name ends in `_lem`. Names of Rust source, of std and of generated goals are not touched.
"""
import collections
import os
import re
import subprocess
import sys

TOKEN = re.compile(r"[^\s(){}\[\].,;:|`\"«»]+")
SIGNATURE = re.compile(r"^\s*(?:(?:abbrev|unfoldable|opaque)\s+)?(?:pub\s+)?([^\s:(){}=.,;`\"]+) :\s")
# words of std that name an operation, as in `length-append`
STD = "append take drop set length map suc zero add sub mul div mod pow min max replicate get_or foldl cons nil".split()
# a lemma that stands beside the definition of its name
BY_HAND = {"no_room": "no_room_lem"}
CAMEL = re.compile(r"[a-z0-9'][A-Z]")


def files(root, *ends):
    for folder, dirs, names in os.walk(os.path.join(root, "crates")):
        dirs[:] = sorted(d for d in dirs if d != "out")
        for name in sorted(names):
            if name.endswith(ends):
                yield os.path.join(folder, name)


def by_hand(path):
    """A function's own proof: its names are those of goals."""
    return re.search(r"/proofs/.+/(Proof|Invariants|Answers)\.antt$", path)


def snake(word):
    # a part that is a type keeps its capital
    if not word or not word[0].islower():
        return word
    return re.sub(r"(?<=[a-z0-9'])([A-Z])", lambda m: "_" + m.group(1).lower(), word)


def definitions(root):
    """The names that specs/ and the laws of proofs/ define, and which of them are definitions that laws can speak of."""
    defined, words = set(), set()
    for path in files(root, ".antt"):
        if by_hand(path):
            continue
        with open(path, encoding="utf-8") as f:
            for line in f:
                m = SIGNATURE.match(line)
                if m and not line.lstrip().startswith("--"):
                    defined.add(m.group(1))
                    if "/specs/" in path and re.match(r"\s*(abbrev|unfoldable) pub\s", line):
                        words.add(snake(m.group(1)))
    return defined, words


def tokens(root):
    """Each word with the files in which it may stand for a definition: paths, fields and labels of records do not count."""
    seen, everywhere = collections.defaultdict(set), set()
    for path in files(root, ".antt", ".rt"):
        rust = path.endswith(".rt")
        with open(path, encoding="utf-8") as f:
            for line in f:
                if line.lstrip().startswith(("--", "//")):
                    continue
                if rust and not re.match(r"\s*(ghost|requires|ensures|invariant|λ|\()", line):
                    # of Rust's own text only a parameter can hide a definition
                    for t in re.findall(r"\b([a-z_0-9]+): ", line) if "fn " in line or re.match(r"\s+\w+: [&\w\[\]; ]+,$", line) else []:
                        seen[t].add(path)
                    continue
                # a field or a constructor is named after its record or its type
                member = re.match(r"\s+(pub )?([^\s:]+) : ", line)
                for m in TOKEN.finditer(line):
                    if member and m.start() == member.start(2):
                        everywhere.add(m.group(0))
                        continue
                    before, after = line[: m.start()], line[m.end():]
                    if before.endswith(".") or re.match(r" = ", after) and re.search(r"(^\s+|[{;] )$", before):
                        everywhere.add(m.group(0))
                        continue
                    everywhere.add(m.group(0))
                    seen[m.group(0)].add(path)
    return seen, everywhere


def respelled(name, words):
    if "-" not in name:
        return snake(name)
    parts = [snake(p) for p in name.replace("getD", "get_or").split("-")]
    names = all(p in words or p in STD for p in parts)
    return ("-" if names else "_").join(parts)


def mapping(root):
    defined, words = definitions(root)
    seen, everywhere = tokens(root)
    turned = dict(BY_HAND)
    own = set(os.listdir(os.path.join(root, "crates")))
    std = set()
    for path in files(root, ".antt", ".rt"):
        with open(path, encoding="utf-8") as f:
            for module, names in re.findall(r"\buse ([^\s{]+)\.\{([^}]*)\}", f.read()):
                if not (module.startswith("Rattle.") and module.split(".")[1] in own):
                    std.update(n.split(" as ")[0].strip() for n in names.split(","))
    for t in sorted(everywhere - std - set(BY_HAND)):
        if t.startswith(("-", "'")) or t.endswith("-") or "--" in t:
            continue
        if (CAMEL.search(t) and t[0].islower() and re.fullmatch(r"[\w'-]+", t)) or ("-" in t and t in defined):
            new = respelled(t, words)
            if new != t:
                turned[t] = new
    # no two names may fall together, and none may fall on a name that stands
    taken = {t for t in seen if t not in turned}
    olds = collections.defaultdict(list)
    for old, new in turned.items():
        olds[new].append(old)
    for new, those in list(olds.items()):
        for old in sorted(those, key=lambda o: ("-" in o, o)):
            name = new
            clash = name in taken and any(p in seen[name] for p in seen[old])
            first = not clash and sum(turned[o] == name for o in those) == 1
            if clash or not first and "-" in old:
                name = new + "_lem"
                while name in taken or name in olds:
                    name += "_lem"
            turned[old] = name
            taken.add(name)
    return turned


def edit_text(text):
    """What port.py does to a file, done to an edit's text: tight projections, names without quotes, operators by `◌`, short paths."""
    text = re.sub(r"«(\w+)»", r"\1", text)
    text = re.sub(r"\bgetD\b", "get_or", text)
    text = re.sub(r"(?<![\w◌])_([^\w\s_◌]+)_(?!\w)", r"◌\1◌", text)
    text = re.sub(r"Rattle·(\w+)·specs\.specs\.", r"Rattle.\1.specs.", text)
    text = re.sub(r"Rattle·", "Rattle.", text)
    for _ in range(6):
        text = re.sub(r"(?<=[\w)']) \.(?=\w)", ".", text)
        text = re.sub(r"\(([\w']+(?:\.[\w']+)+)\)(?!\.)", r"\1", text)
    # names that port.py has respelled in the files
    return re.sub(r"(?<![\w'.·])[a-z]\w*[a-z0-9][A-Z]\w*", lambda m: snake(m.group(0)), text)


def rewrite(path, turned):
    with open(path, encoding="utf-8") as f:
        text = f.read()
    if path.endswith(".edit"):
        text = "\n".join(edit_text(l) if re.match(r"(old|new):", l) else l for l in text.split("\n"))

    def one(m):
        t = m.group(0)
        return turned.get(t, t)

    lines = []
    for line in text.split("\n"):
        code, mark, comment = line, "", ""
        for m in re.finditer(r"(^|\s)(--|//)(\s|$)", line):
            code, mark, comment = line[: m.start()], m.group(0), line[m.end():]
            break
        head = line.lstrip()
        if path.endswith(".edit") and head.startswith("#"):
            code, mark, comment = "", "", line
        if path.endswith(".edit") and head.startswith("file:"):
            lines.append(line)
            continue
        code = TOKEN.sub(one, code)
        # in a comment a name is what stands between backticks, or a word in camel case
        comment = re.sub(r"`[^`]*`", lambda m: TOKEN.sub(one, m.group(0)), comment)
        comment = TOKEN.sub(lambda m: turned.get(m.group(0), m.group(0)) if "-" not in m.group(0) else m.group(0), comment)
        lines.append(code + mark + comment)
    new = "\n".join(lines)
    with open(path, encoding="utf-8") as f:
        old = f.read()
    if new != old:
        with open(path, "w", encoding="utf-8") as f:
            f.write(new)
        return True
    return False


def main(argv):
    root = argv[0] if argv and not argv[0].startswith("-") else "."
    turned = mapping(root)
    if "--list" in argv:
        for old in sorted(turned):
            print(old, turned[old])
        return 0
    n = sum(rewrite(p, turned) for p in files(root, ".antt", ".rt", ".edit"))
    for crate in sorted(os.listdir(os.path.join(root, "crates"))):
        if subprocess.run(["rt", "fmt"], cwd=os.path.join(root, "crates", crate), stdout=subprocess.DEVNULL).returncode:
            print(f"rt fmt fails in {crate}", file=sys.stderr)
    print(f"{len(turned)} names respelled, {n} files changed")
    return 0


if __name__ == "__main__":
    raise SystemExit(main(sys.argv[1:]))
