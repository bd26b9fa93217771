#!/usr/bin/env python3
"""Moves theorems from specs/ to proofs/, statements unchanged, in the crates whose must-fail edits change a definition that the theorems speak of.

usage: python3 tools/laws.py     (from the repository's root, once)

A file of WHOLE moves; of a file of LAWS the theorems move, and the definitions stay. Where theorems of specs/ depend on one that an edit makes
false, they are not checked, and the edit counts as one that cannot be read; in proofs/ it counts as refused.
"""
import glob
import os
import re
import sys

WHOLE = {
    "rules": ["Soundness"],
    "closure": ["Different", "Distance"],
    "outcome": ["BlameMinimal", "BlameOrder", "Demands", "Lengths"],
    "tables": ["Places"],
    "text": ["Digits", "FrameLaws", "Laws", "Size", "Sound"],
    "solver": ["Answering", "Demands"],
}
LAWS = {
    "lists": ["Overwrite"],
    "closure": ["Closure", "Join", "Verdict"],
    "outcome": ["PairBits"],
    "tables": ["Memory", "PropositionTable", "QuestionTable", "Stands", "TableFaults", "TermTable"],
    "text": ["OutputSize"],
    "blame": ["Blaming"],
}
# Definitions that move with the theorems that they name.
WITH = {("closure", "Closure"): {"Kept", "Together", "Anything"}, ("tables", "Memory"): {"Passed"}, ("blame", "Blaming"): {"less"}}
# Definitions that stay and were their file's own, which the theorems name from another file now.
OPEN = {("closure", "Closure"): ["continue"]}
IDENT = r"[^\s(){}.,;:=→×@\"`|«»]+"
KEYWORDS = r"(?:(abbrev|unfoldable) )?(?:(pub) )?(?:(unfoldable|abbrev) )?"


def parse(text):
    """The declarations, comments and headers of modules, in order: (kind, name, lines, modules, comments above)."""
    lines = text.split("\n")
    found, modules, comments, i = [], [], [], 0
    while i < len(lines):
        line, s = lines[i], lines[i].strip()
        indent = len(line) - len(line.lstrip())
        if not s:
            i += 1
            continue
        while modules and indent < modules[-1][1]:
            modules.pop()
        if s.startswith("--"):
            comments.append(line)
            i += 1
            continue
        if re.match(r"(pub )?(use|mod) ", s) or s.startswith("infix"):
            found.append(("use" if not s.startswith("infix") else "infix", s, [line], list(modules), comments))
            comments = []
            i += 1
            continue
        if s.startswith("module "):
            j = i
            while not lines[j].rstrip().endswith("where"):
                j += 1
            k = j + 1
            while not lines[k].strip():
                k += 1
            modules.append((tuple(lines[i : j + 1]), len(lines[k]) - len(lines[k].lstrip()), tuple(comments)))
            comments = []
            i = j + 1
            continue
        m = re.match(KEYWORDS + r"(data|record|ruleset) (" + IDENT + ")", s)
        n = re.match(KEYWORDS + r"(" + IDENT + r")(?: \{ℓ\})? :(?: |$)", s)
        if s == "abbrev mutual":
            kind, name = "definition", "mutual"
        elif m:
            kind, name = "definition", m.group(5)
        elif n:
            kind, name = ("definition" if n.group(1) or n.group(3) else "theorem"), n.group(4)
        else:
            sys.exit(f"not read: {line}")
        j = i + 1
        while j < len(lines):
            t = lines[j].strip()
            deep = len(lines[j]) - len(lines[j].lstrip())
            if t and (deep < indent or deep == indent and not re.match(re.escape(name) + r"(?=[\s({]|$)|unfolding |[→∙)\]}|×]", t)):
                break
            j += 1
        while not lines[j - 1].strip():
            j -= 1
        found.append((kind, name, lines[i:j], list(modules), comments))
        comments = []
        i = j
    return found


def parameters(header):
    """The explicit parameters of a module's header."""
    text = " ".join(h.strip() for h in header)
    names, depth, start = [], 0, None
    for k, ch in enumerate(text):
        if ch in "({":
            if depth == 0:
                start, kind = k, ch
            depth += 1
        elif ch in ")}":
            depth -= 1
            if depth == 0 and kind == "(":
                names += text[start + 1 : k].split(" : ")[0].split()
    return names


def write(items, head):
    """The text of a file with these declarations, each under the headers of its modules."""
    out, open_ = list(head), []
    for kind, name, lines, modules, comments in items:
        common = 0
        while common < min(len(open_), len(modules)) and open_[common] is modules[common]:
            common += 1
        open_ = open_[:common]
        for module in modules[common:]:
            out += ["", *module[2], *module[0]]
            open_.append(module)
        if kind == "use":
            out += [*comments, *lines]
        else:
            out += ([] if out and out[-1].rstrip().endswith("where") else [""]) + [*comments, *lines]
    return "\n".join(out).strip("\n") + "\n"


def split(crate, name):
    path = f"crates/{crate}/specs/{name}.antt"
    items = parse(open(path, encoding="utf-8").read())
    # modules are compared by identity: take one object for each header at its place
    known = {}
    items = [(k, n, l, [known.setdefault((m[0], d), m) for d, m in enumerate(mods)], c) for k, n, l, mods, c in items]
    moved = {n for k, n, *_ in items if k == "theorem"} | WITH.get((crate, name), set())
    first = next(c for k, n, l, m, c in items)
    stay = [it for it in items if it[0] in ("use", "infix") or it[1] not in moved]
    go = [it for it in items if it[0] == "use" or it[1] in moved]
    kept = {n: mods for k, n, l, mods, c in items if k == "definition" and n not in moved}
    parts = set()
    for k, n, l, mods, c in items:
        if k == "definition" and n not in moved:
            parts |= set(re.findall(r"(?m)^\s+(?:pub )?(" + IDENT + r") :", "\n".join(l)))
    out = []
    for k, n, lines, mods, comments in go:
        if k == "use":
            out.append((k, n, lines, mods, [] if comments is first else comments))
            continue
        text = []
        for line in lines:
            if not line.strip().startswith("unfolding "):
                for d, dm in kept.items():
                    shared = [m for m in dm if any(m is x for x in mods)]
                    args = [p for m in shared for p in parameters(m[0])]
                    if args:
                        line = re.sub(r"(?<![\w.'\-])" + re.escape(d) + r"(?![\w'\-])", f"({d} {' '.join(args)})", line)
            text.append(line)
        out.append((k, n, text, mods, comments))
    names = [d for d in kept if d != "mutual"]
    words = "\n".join("\n".join(it[2]) for it in out if it[0] != "use")
    cons = [p for p in sorted(parts) if re.search(r"(?<![\w.'\-])" + re.escape(p) + r"(?![\w'\-])", words)]
    own = f"use Rattle.{crate}.specs.{name}.{{{', '.join(dict.fromkeys(names))}}}"
    last = max(k for k, it in enumerate(out) if it[0] == "use")
    out.insert(last + 1, ("use", own, [own], [], []))
    for d in OPEN.get((crate, name), []):
        stay = [(k, n, [l.replace(f"abbrev {d} :", f"abbrev pub {d} :") for l in ls], m, c) for k, n, ls, m, c in stay]
    os.makedirs(f"crates/{crate}/proofs", exist_ok=True)
    open(f"crates/{crate}/proofs/{name}.antt", "w", encoding="utf-8").write(write(out, [f"-- Laws of specs/{name}."]))
    open(path, "w", encoding="utf-8").write(write(stay, []))
    return moved


def main():
    gone = {}  # (crate, file) -> the names that moved, None for all
    for crate, names in WHOLE.items():
        os.makedirs(f"crates/{crate}/proofs", exist_ok=True)
        for name in names:
            os.rename(f"crates/{crate}/specs/{name}.antt", f"crates/{crate}/proofs/{name}.antt")
            gone[(crate, name)] = None
    for crate, names in LAWS.items():
        for name in names:
            gone[(crate, name)] = split(crate, name)
    for crate in {c for c, _ in gone}:
        lib = f"crates/{crate}/specs/Lib.antt"
        lines = open(lib, encoding="utf-8").read().split("\n")
        whole = [n for c, n in gone if c == crate and gone[(c, n)] is None]
        order = [l.split()[-1] for l in lines if re.match(r"pub mod ", l)]
        open(lib, "w", encoding="utf-8").write("\n".join(l for l in lines if l.split()[-1:] not in [[n] for n in whole]))
        mods = [n for n in order if (crate, n) in gone]
        open(f"crates/{crate}/proofs/Lib.antt", "w", encoding="utf-8").write("".join(f"pub mod {n}\n" for n in mods))
    def pruned(path, text):
        """Without the lines of specs/ that import from the crate's own proofs/: what needed them moved."""
        crate = path.split("/")[1]
        return re.sub(rf"(?m)^(?:pub )?use Rattle\.{crate}\.proofs\..*\n", "", text) if "/specs/" in path else text

    use = re.compile(r"^(\s*(?:pub )?use |ghost use )Rattle\.(\w+)\.specs\.(\w+)(\.\{(.*?)\}| as \S+)(;?)\s*$", re.M)

    def turn(m):
        key = (m.group(2), m.group(3))
        if key not in gone:
            return m.group(0)
        there = f"{m.group(1)}Rattle.{key[0]}.proofs.{key[1]}"
        if gone[key] is None:
            return f"{there}{m.group(4)}{m.group(6)}"
        if m.group(5) is None:
            print("an alias:", m.group(0))
            return m.group(0)
        names = [x.strip() for x in m.group(5).split(",") if x.strip()]
        laws = [x for x in names if x.split(" as ")[0] in gone[key]]
        rest = [x for x in names if x not in laws]
        made = []
        if rest:
            made.append(f"{m.group(1)}Rattle.{key[0]}.specs.{key[1]}.{{{', '.join(rest)}}}{m.group(6)}")
        if laws:
            made.append(f"{there}.{{{', '.join(laws)}}}{m.group(6)}")
        return "\n".join(made)

    for path in glob.glob("crates/*/specs/**/*.antt", recursive=True) + glob.glob("crates/*/proofs/**/*.antt", recursive=True) + glob.glob("crates/*/src/**/*.rt", recursive=True):
        text = open(path, encoding="utf-8").read()
        new = pruned(path, use.sub(turn, text))
        if new != text:
            open(path, "w", encoding="utf-8").write(new)


if __name__ == "__main__":
    main()
