#!/usr/bin/env python3
# Counts the older forms that docs/DESIGN-PASS.md goes through, in the Rattle source of all crates.
#     python3 tools/forms.py [-v] [CRATE..]     -v names each place
import pathlib
import re
import sys

TOP = pathlib.Path(__file__).resolve().parent.parent
VERBOSE = "-v" in sys.argv
CRATES = [a for a in sys.argv[1:] if a != "-v"]


def functions(text):
    """Each function: its name, parameters, result, contract and body, with comments left out."""
    text = re.sub(r"//[^\n]*", "", text)
    for head in re.finditer(r"\bfn (\w+)(<[^(]*>)?\(", text):
        depth, at = 1, head.end()
        while depth:
            depth += {"(": 1, ")": -1}.get(text[at], 0)
            at += 1
        parameters = text[head.end():at - 1]
        clauses_and_body = text[at:]
        body = re.search(r"(?:^|\n)\s*\{\n|\s\{\n", clauses_and_body)
        if not body:
            continue
        start = at + body.end()
        depth, end = 1, start
        while depth and end < len(text):
            depth += {"{": 1, "}": -1}.get(text[end], 0)
            end += 1
        between = text[at:at + body.start()]
        result = re.match(r"\s*->\s*([^\n{]+)", between)
        yield head.group(1), parameters, result.group(1).strip() if result else "", text[start:end - 1]


def shape(body):
    """A body with names and numbers taken out."""
    return re.sub(r"\s+", " ", re.sub(r"\b\d\w*\b", "0", re.sub(r"\b[a-z_]\w*\b", lambda m: m.group(0) if m.group(0) in KEYWORDS else "x", body))).strip()


KEYWORDS = {"if", "else", "while", "for", "in", "loop", "match", "return", "let", "mut", "as", "continue", "break"}

found = {}


def note(form, place):
    found.setdefault(form, []).append(place)


shapes = {}
for file in sorted(TOP.glob("crates/*/src/*.rt")):
    crate = file.parent.parent.name
    if CRATES and crate not in CRATES:
        continue
    text = file.read_text()
    where = f"{crate}/{file.stem}" if file.stem not in ("lib", "main") else crate
    for m in re.finditer(r"\benum (\w+)", text):
        note("1a enums", f"{where}::{m.group(1)}")
    for m in re.finditer(r"^pub const (\w+): u64 = 0x\w\w;|\bkind: u64", text, re.M):
        note("1b kinds as numbers", f"{where}: {m.group(0)}")
    for name, parameters, result, body in functions(text):
        place = f"{where}::{name}"
        count = len([p for p in re.split(r",(?![^<\[(]*[>\])])", parameters) if p.strip()])
        if result == "bool" and "&mut" in parameters:
            note("1c a flag beside lent cells", place)
        if re.search(r"\b(return (0|64|n|MOST|SLOTS);)|\n\s*(MOST|SLOTS|n|k)\s*$", body.rstrip()):
            note("1d a number that stands for none", place)
        if len(body.strip()) > 40 and "\n" in body.strip():
            shapes.setdefault(shape(body), []).append(place)
        for m in re.finditer(r"\bwhile ([^{]*)\{", body):
            note("3a while", f"{place}: {m.group(1).strip()}")
        for m in re.finditer(r"\bfor (\w+) in ([\w.() +/*-]*\.\.[^{]*)\{", body):
            note("3b for over a range", f"{place}: {m.group(2).strip()}")
        for m in re.finditer(r"\bloop \{", body):
            note("3c loop", place)
        inner = body.strip()
        if "\n" not in inner and re.fullmatch(r"(\w+|\(\w+ % \w+\)|\w+ as \w+) as \w+", inner):
            note("4a a cast as a function", place)
        if "\n" not in inner and re.fullmatch(r"\w+(\.\w+)* (==|\+|-) \w+(\.\w+)*|-\w+", inner):
            note("4b an operator as a function", place)
        if re.search(r"_number$|_of$", name) and "match" in inner:
            note("4c a conversion by hand", place)
        if count > 7:
            note("5a more than seven parameters", f"{place}: {count}")
        if re.search(r"\bn: usize\b", parameters) and "&[" in parameters:
            note("6a a length beside slices", place)
        if re.search(r"&mut \[u8\]", parameters) and re.search(r"\bat: usize|\bpos", parameters):
            note("6b a position beside a buffer", place)
    for m in re.finditer(r"^\s*(?:pub(?:\(crate\))? )?type (\w+) = \[", text, re.M):
        note("6c arrays by a type's name", f"{where}::{m.group(1)}")
for form in shapes.values():
    if len(form) > 1:
        note("2 functions of one shape", ", ".join(form))

for form in sorted(found):
    places = found[form]
    print(f"{form}: {len(places)}")
    if VERBOSE:
        for place in places:
            print(f"    {place}")
proofs = [p for c in (CRATES or ["*"]) for p in TOP.glob(f"crates/{c}/proofs/**/*.antt")]
lines = [line for p in proofs for line in p.read_text().split("\n")]
print(f"8 proof files: {len(proofs)}, lines: {len(lines)}, answers by search alone: {sum('search rules)' in l for l in lines)}")
