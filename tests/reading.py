#!/usr/bin/env python3
"""The lines that a reviewer has to read, and how many they are.

Run from the repository's root: python3 tests/reading.py [--list]

They are: the statements of crates/promises/specs/Promises.antt (not their proofs of one line); the contracts of the functions that are
called from outside; and every definition of the specs, and every type of the code, that these name, directly or through other
definitions. What the kit defines is not counted, nor what the page says in full of the promises that the contracts name. Blank lines,
lines of closing brackets, `use` lines and the lines of other theorems are not counted; comments above a declaration are. Exit status 1
if there are more than the most.
"""

import re
import sys
from pathlib import Path

from specs import TOKEN, all_sources, all_specs, comment_start, spec_path, uses

PAGE = Path("crates/promises/specs/Promises.antt")
MOST = 915
ENTRIES = {
    "solver": ["solve", "verdict"],
    "reader": ["read", "faulty_line"],
    "driver": ["write_output"],
    "bucketmonk_c": ["bucketmonk_solve", "bucketmonk_verdict", "bucketmonk_read", "bucketmonk_faulty_line", "bucketmonk_output"],
}
# What contracts name and the page says in full.
ON_THE_PAGE = {"Answered", "verdict_of", "ReadAs", "WritesOutput", "output", "part_at_fault", "number_of_read", "blame_of_number"}
# Lines that say nothing by themselves: blank ones, closing brackets, attributes for the compiler.
UNREAD = re.compile(r"\s*([)}\]]*[;,]?|#\[.*)$")


class Reading:
    """The lines to read, collected from names."""

    def __init__(self):
        self.specs, self.sources = all_specs(), all_sources()
        self.lines = {}
        self.seen = set()

    def add(self, path, numbers, lines):
        self.lines.setdefault(path, set()).update(k for k in numbers if not UNREAD.match(lines[k]))

    def follow(self, text, home, known):
        """All that the text names: `known` says where names come from, `home` is its file."""
        for token in TOKEN.findall(text):
            parts = token.split(".")
            for name in (token, parts[0]):
                self.name(name, home, known)
            if len(parts) > 1 and known.get(parts[0], ("", ""))[1] is None:
                self.named(known[parts[0]][0], parts[1])

    def name(self, name, home, known):
        if name in ON_THE_PAGE:
            return
        if home is not None and name in home.names:
            self.item(home.names[name])
        elif name in known and known[name][1] is not None:
            self.named(*known[name])

    def named(self, module, name):
        """A name of a module."""
        where = spec_path(module)
        if where is None or name in ON_THE_PAGE:
            return
        if isinstance(where, tuple):
            self.type(*where)
            return
        file = self.specs[where]
        if name in file.names:
            self.item(file.names[name])
        elif name in file.uses:
            self.named(*file.uses[name])
        else:
            for item in file.items:
                if item.parts and name in item.parts:
                    self.item(item)

    def item(self, item):
        if not item.definition or item.key() in self.seen:
            return
        self.seen.add(item.key())
        file = self.specs[item.path]
        self.add(item.path, range(comment_start(file.lines, item.start), item.end), file.lines)
        self.follow("\n".join(file.lines[item.start : item.end]), file, file.uses)

    def type(self, crate, name):
        """A type that the code declares."""
        for path, text in self.sources.items():
            found = re.search(rf"^pub(?:\(crate\))? (?:struct|enum) {name}\b", text, re.MULTILINE)
            if path.parts[1] != crate or not found or (path, name) in self.seen:
                continue
            self.seen.add((path, name))
            lines = text.split("\n")
            start = text.count("\n", 0, found.start())
            end = start
            while not lines[end].endswith(("}", ";")):
                end += 1
            self.add(path, range(comment_start(lines, start), end + 1), lines)
            for other in re.findall(r"[A-Z]\w+", "\n".join(lines[start : end + 1])):
                if re.search(rf"\b(?:struct|enum) {other}\b", text):
                    self.type(crate, other)

    def page(self):
        """The statements: all lines but blank ones, uses and proofs."""
        file = self.specs[PAGE]
        words = self.specs[PAGE.with_suffix("") / "Words.antt"]
        known = {**words.uses, **file.uses}
        proofs = set()
        for item in file.items:
            if item.definition:
                continue
            end = next(k for k in range(item.start + 1, item.end) if file.lines[k].strip().startswith(item.name + " "))
            proofs.update(range(end, item.end))
            self.follow("\n".join(file.lines[item.start : end]), None, known)
        for module in file.modules:
            self.follow(module, None, known)
        for item in file.items:
            if item.definition:
                self.follow("\n".join(file.lines[item.start : item.end]), None, known)
        read = [k for k, line in enumerate(file.lines) if k not in proofs and not re.match(r"(pub )?(use|mod) ", line)]
        self.add(PAGE, read, file.lines)

    def contract(self, crate, name):
        path = Path("crates", crate, "src/lib.rt")
        lines = self.sources[path].split("\n")
        start = next(k for k, line in enumerate(lines) if re.match(rf'pub (extern "C" )?fn {name}\(', line))
        end = next(k for k in range(start, len(lines)) if lines[k] == "{")
        self.add(path, range(comment_start(lines, start), end), lines)
        self.follow("\n".join(lines[start:end]), None, uses(lines))


def main():
    reading = Reading()
    reading.page()
    for crate, names in ENTRIES.items():
        for name in names:
            reading.contract(crate, name)
    total = 0
    for path in sorted(reading.lines):
        numbers = reading.lines[path]
        total += len(numbers)
        print(f"{len(numbers):5}  {path}")
        if "--list" in sys.argv[1:]:
            lines = path.read_text(encoding="utf-8").split("\n")
            print("".join(f"       {lines[k]}\n" for k in sorted(numbers)))
    print(f"{total:5}  lines to read, at most {MOST}")
    return 0 if total <= MOST else 1


if __name__ == "__main__":
    sys.exit(main())
