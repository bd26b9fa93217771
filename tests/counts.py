#!/usr/bin/env python3
"""Counts for whoever plans a clean-up: how long each crate is, and where its functions and contracts are hard to read.

Run from the repository's root: python3 tests/counts.py [--list] [--crates a,b,c]

For each crate of crates.txt: the lines of code (src), specs and proofs, blank lines and comments among them; the functions and those
with more than 10 parameters; the lines of `requires` and `ensures` clauses, those over 200 characters, and the longest. A clause that
goes on over several lines counts each of them. It checks nothing: its exit status is 0 unless a crate is not found.
"""

import argparse
import re
import sys
from pathlib import Path

from specs import listed_crates

MOST_PARAMETERS = 10
LONGEST_LINE = 200

# Comments, strings and characters may hold brackets, commas and keywords.
NOT_CODE = re.compile(r"""//[^\n]*|"(?:\\.|[^"\\])*"|'(?:\\[^\n]|[^\\\n'])'""", re.DOTALL)
FUNCTION = re.compile(r"\bfn\s+(\w+)\s*")
CLAUSE = re.compile(r"^[ \t]*(?:requires|ensures)(?:[ \t]+\w+)?\s*\{", re.MULTILINE)
PAIRS = {"(": ")", "[": "]", "{": "}", "<": ">"}


def blanked(text):
    """The text with spaces for what is not code, so that places stay as they are."""
    return NOT_CODE.sub(lambda found: re.sub(r"[^\n]", " ", found[0]), text)


def closing(code, start, opening="([{"):
    """The place of the bracket that closes the one at start."""
    inside = []
    for k in range(start, len(code)):
        c = code[k]
        if c in opening:
            inside.append(PAIRS[c])
        elif inside and c == inside[-1] and not (c == ">" and code[k - 1] in "-="):
            inside.pop()
            if not inside:
                return k
    raise ValueError(f"no bracket closes the {code[start]} of line {code.count(chr(10), 0, start) + 1}")


def parameters(code, start):
    """How many parameters stand in the parentheses at start."""
    end = closing(code, start, "([{<")
    count, filled, k = 0, False, start + 1
    while k < end:
        if code[k] in PAIRS:
            k = closing(code, k, "([{<")
            filled = True
        elif code[k] == ",":
            count, filled = count + filled, False
        elif not code[k].isspace():
            filled = True
        k += 1
    return count + filled


def functions(code):
    """The name, the number of parameters and the line of each function."""
    for found in FUNCTION.finditer(code):
        start = found.end()
        if code[start : start + 1] == "<":
            start = closing(code, start, "([{<") + 1
        if code[start : start + 1] == "(":
            yield found[1], parameters(code, start), code.count("\n", 0, found.start()) + 1


def contract_lines(code):
    """The numbers of the lines in which clauses stand."""
    lines = set()
    for found in CLAUSE.finditer(code):
        first = code.count("\n", 0, found.start()) + 1
        last = code.count("\n", 0, closing(code, found.end() - 1, "{")) + 1
        lines.update(range(first, last + 1))
    return sorted(lines)


class Counts:
    """What is counted in one crate, or in all."""

    def __init__(self):
        self.code = self.specs = self.proofs = 0
        self.functions = self.contracts = self.long = 0
        self.wide = []
        self.longest = (0, "-")

    def add(self, other):
        for name in ("code", "specs", "proofs", "functions", "contracts", "long", "wide"):
            setattr(self, name, getattr(self, name) + getattr(other, name))
        self.longest = max(self.longest, other.longest, key=lambda line: line[0])

    def source(self, path):
        text = path.read_text(encoding="utf-8")
        code = blanked(text)
        lines = text.split("\n")
        self.code += text.count("\n")
        try:
            for name, count, line in functions(code):
                self.functions += 1
                if count > MOST_PARAMETERS:
                    self.wide.append((count, name, f"{path}:{line}"))
            for line in contract_lines(code):
                length = len(lines[line - 1])
                self.contracts += 1
                self.long += length > LONGEST_LINE
                if length > self.longest[0]:
                    self.longest = (length, f"{path}:{line}")
        except ValueError as error:
            sys.exit(f"{path}: {error}")

    def row(self, name):
        numbers = [self.code, self.specs, self.proofs, self.functions, len(self.wide), self.contracts, self.long]
        return [name, *map(str, numbers), str(self.longest[0]), self.longest[1]]


def crate_counts(folder):
    counts = Counts()
    for path in sorted((folder / "src").rglob("*.rt")):
        counts.source(path)
    for part in ("specs", "proofs"):
        files = (folder / part).rglob("*.antt")
        setattr(counts, part, sum(path.read_text(encoding="utf-8").count("\n") for path in files))
    return counts


def show(rows):
    """Prints the rows below their heads, numbers to the right."""
    columns = [list(column) for column in zip(*rows)]
    for k, column in enumerate(columns):
        width = max(map(len, column))
        right = all(cell.isdigit() for cell in column[1:])
        columns[k] = [cell.rjust(width) if right else cell.ljust(width) for cell in column]
    for row in zip(*columns):
        print("  ".join(row).rstrip())


def main():
    parser = argparse.ArgumentParser(description="Counts of the crates, for whoever plans a clean-up.")
    parser.add_argument("--list", action="store_true", help=f"name the functions of over {MOST_PARAMETERS} parameters")
    parser.add_argument("--crates", metavar="a,b,c", help="count these crates alone")
    asked = parser.parse_args()
    crates = listed_crates()
    if asked.crates is not None:
        chosen = asked.crates.split(",")
        unknown = [name for name in chosen if name not in crates]
        if unknown:
            sys.exit(f"not in crates.txt: {', '.join(unknown)}")
        crates = [name for name in crates if name in chosen]
    missing = [name for name in crates if not Path("crates", name).is_dir()]
    if missing:
        sys.exit(f"not in crates/: {', '.join(missing)}")
    over = [f"over {MOST_PARAMETERS} par.", "clause lines", f"over {LONGEST_LINE} ch.", "longest", "at"]
    rows, total = [["crate", "code", "specs", "proofs", "functions", *over]], Counts()
    for name in crates:
        counts = crate_counts(Path("crates", name))
        rows.append(counts.row(name))
        total.add(counts)
    show(rows + [total.row("total")])
    if asked.list:
        print()
        show([["parameters", "function", "at"]] + [[str(count), name, at] for count, name, at in sorted(total.wide, reverse=True)])


if __name__ == "__main__":
    main()
