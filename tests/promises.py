#!/usr/bin/env python3
"""Checks docs/PROMISES.md against the repository, and that what is public says for whom.

Run from the repository's root: python3 tests/promises.py. Last line: "N passed, M failed".

- Every name in backquotes exists: a declaration of specs, a field or constructor, something that the code declares, a crate or a file.
  Where a file stands with it, as in `name` (crate/File) or crate/File `name`, it is declared there.
- Every file and every must-fail edit that is named exists. Every statement of the page of statements is named.
- The last table names each edit once. No row of a table is longer than two lines of 140 characters.
- The numbers of functions are those that the crates have, methods too.
- Each public function that is not called from outside the repository names the crates that use it, after "Public for"; a method names those
  that use its type, unless the crate is for all.
- Every path of the repository that a page names is there, or a command makes it, and `rt` is called by commands that it has.
"""

import re
import sys
from pathlib import Path

from reading import ENTRIES, PAGE as STATEMENTS
from specs import all_sources, all_specs, listed_crates

PAGE = Path("docs/PROMISES.md")
LONGEST = 280
# Names of the kit that the page mentions.
KIT = {"os", "rattle_errno", "rattle_arg", "rattle_arg_count", "rattle_set_errno", "__xpg_strerror_r"}
# Forms that the scope paper names and that no other crate has a use for (docs/DECISIONS.md, 47).
FORMS = {"offsets": ["negated", "subtracted"]}
# The pages that tell of paths and commands; CHANGELOG.md and the pages on the port tell of older ones too.
PAGES = [Path("README.md"), *(page for page in sorted(Path("docs").glob("*.md")) if not page.stem.startswith("PORT")), Path("examples/texts/README.md")]
NAMED_PATH = re.compile(r"(?<![\w/.$])(?:\.ci|crates|docs|examples|include|target|tests|tools)/[\w./*-]*\w")
MADE = {
    "crates/bucketmonk/out/bucketmonk",
    "crates/bucketmonk_c/out/libbucketmonk_c.a",
    "target/failed",
    "target/tests",
    "target/tests/release",
    "target/whole",
}
CODE = re.compile(r"```([^`]*)```|`([^`]+)`|^    (.*)$", re.MULTILINE)
COMMAND = re.compile(r"\brt (all [a-z]+|[a-z][a-z-]*)")
COMMANDS = {"all check", "ci", "lib", "run", "version"}
PLACE = re.compile(r"\b([a-z_]+)/(src/\w+\.rt|[A-Z]\w+)\b")
EDIT = re.compile(r"\b([a-z_]+)/([a-z0-9_]+)\b(?![./])")
DECLARED = re.compile(r"\b(?:fn|struct|enum|const|type)\s+(\w+)")
# Functions and methods, and those that derives write, as the check's last line counts them.
FUNCTION = re.compile(r'^ *(?:pub(?:\(crate\))? )?(?:extern "C" )?fn ', re.MULTILINE)
DERIVE = re.compile(r"#\[derive\(([^)]*)\)\]")
DERIVED = re.compile(r"\b(?:Debug|PartialEq)\b")
PUBLIC = re.compile(r'^pub fn (\w+)', re.MULTILINE)
METHOD = re.compile(r'^    pub fn (\w+)', re.MULTILINE)
IMPL = re.compile(r'^impl(?:<[^>]*>)? (\w+)', re.MULTILINE)
USED = re.compile(r"\b([a-z_]+(?:::[a-z_]+)*)::(?:(\w+)\b(?!::)|\{([^}]*)\})")


class Check:
    def __init__(self):
        self.specs, self.sources, self.crates = all_specs(), all_sources(), listed_crates()
        self.passed = self.failed = 0
        self.known = set(self.crates) | KIT
        self.declared = {path: self.names(file) for path, file in self.specs.items()}
        for path, names in list(self.declared.items()):
            if path.parts[2] == "proofs":
                there = Path("crates", path.parts[1], "specs", path.name)
                self.declared[there] = self.declared.get(there, set()) | names
        self.declared |= {path: set(DECLARED.findall(text)) for path, text in self.sources.items()}
        for names in self.declared.values():
            self.known |= names
        for text in self.sources.values():
            self.known |= set(re.findall(r"\b[A-Z]\w+\b", text))
        self.edits = {f"{path.parts[1]}/{path.stem}" for path in Path("crates").glob("*/must-fail/*.edit")}

    @staticmethod
    def names(file):
        found = set(file.names)
        for item in file.items:
            for part in item.parts or []:
                found |= {part, f"{item.name}.{part}"}
        return found

    def say(self, good, what):
        if good:
            self.passed += 1
        else:
            self.failed += 1
            print(f"FAIL {what}")

    def place(self, crate, rest):
        """A file of src/, or of specs/; laws may stand in a file of the same name in proofs/."""
        return Path("crates", crate, rest) if rest.startswith("src/") else Path("crates", crate, "specs", rest).with_suffix(".antt")

    def exists(self, line, name):
        good = name in self.known or Path(name).exists() or not re.fullmatch(r"[\w.-]+", name)
        self.say(good, f"line {line}: {name} is not declared")

    def prose(self, line, text):
        for name in re.findall(r"`([^`]+)`", text):
            self.exists(line, name)
        for crate, rest in PLACE.findall(text):
            if crate in self.crates:
                self.say(self.place(crate, rest) in self.declared, f"line {line}: no file {crate}/{rest}")

    def cell(self, line, text):
        """The names and places of one cell: a place in parentheses is that of the names before it, another that of those after it."""
        for aside in re.findall(r"\([^()/]*\)", text):
            self.prose(line, aside)
        text = re.sub(r"\([^()/]*\)", "", text)
        names, at = [], None
        for found in re.finditer(r"`([^`]+)`|(\()?\b([a-z_]+)/(src/\w+\.rt|[A-Z]\w+)\b|[;|]", text):
            name, inside, crate, rest = found.groups()
            if crate is not None and crate not in self.crates:
                continue
            if crate is not None:
                path = self.place(crate, rest)
                self.say(path in self.declared, f"line {line}: no file {crate}/{rest}")
                if inside:
                    for earlier in names:
                        self.say(earlier in self.declared.get(path, ()), f"line {line}: {earlier} is not declared in {crate}/{rest}")
                    names = []
                else:
                    at = path
            elif name is None:
                at, names = None, []
            elif at is not None:
                self.say(name in self.declared.get(at, ()), f"line {line}: {name} is not declared in {at}")
            else:
                names.append(name)
                self.exists(line, name)

    def page(self):
        text = PAGE.read_text(encoding="utf-8")
        body, _, last = text.partition("| Edit | Rules out |")
        for k, line in enumerate(text.split("\n"), 1):
            if line.startswith("|"):
                self.say(len(line) <= LONGEST, f"line {k}: a row of {len(line)} characters")
        for k, line in enumerate(body.split("\n"), 1):
            if not line.startswith("|"):
                self.prose(k, line)
                continue
            cells = line.strip("|").split(" | ")
            for cell in cells:
                self.cell(k, cell)
            if len(cells) == 4:
                for crate, name in EDIT.findall(cells[3]):
                    self.say(f"{crate}/{name}" in self.edits, f"line {k}: no edit {crate}/{name}")
        for item in self.specs[STATEMENTS].items:
            self.say(item.definition or f"`{item.name}`" in body, f"the statement {item.name} is not named")
        rows = re.findall(r"^\| (\S+) \|", last, re.MULTILINE)
        for edit in sorted(self.edits):
            self.say(rows.count(edit) == 1, f"the last table names {edit} {rows.count(edit)} times")
        for row in rows:
            self.say(row in self.edits, f"the last table names {row}, which does not exist")
        self.functions(body)

    def functions(self, body):
        """The numbers of functions and methods, by crate."""
        rows = dict(re.findall(r"^\| (\d+) \| ([a-z_, ()`=0-9]+) \|$", body, re.MULTILINE))
        told = {name: int(n) for n, names in rows.items() for name in re.findall(r"\b[a-z_]+\b", re.sub(r"\(.*?\)", "", names))}
        for crate in self.crates:
            texts = [text for path, text in self.sources.items() if path.parts[1] == crate]
            count = sum(len(FUNCTION.findall(text)) + sum(len(DERIVED.findall(names)) for names in DERIVE.findall(text)) for text in texts)
            self.say(told.get(crate) == count, f"{crate} has {count} functions, the page says {told.get(crate)}")

    @staticmethod
    def used(text):
        """The crates and names that the code's paths lead to, as a::b, a::m::b and a::{b, c}; comments are passed over."""
        found = set()
        for path, name, names in USED.findall(re.sub(r"//.*", "", text)):
            for each in [name] if name else names.split(","):
                found.add((path.split("::")[0], each.split(" as ")[0].strip()))
        return found

    def public(self):
        """Who uses each public function, and whether it says so: above the function or at the head of its file or crate."""
        used = {path: self.used(text) for path, text in self.sources.items()}
        for path, text in self.sources.items():
            crate = path.parts[1]
            heads = [text, self.sources.get(Path("crates", crate, "src/lib.rt"), "")]
            head = "\n".join(re.match(r"((?://.*\n)*)", each)[1] for each in heads)
            for found in PUBLIC.finditer(text):
                name = found[1]
                if name in ENTRIES.get(crate, []) or name in FORMS.get(crate, []):
                    continue
                self.said(path, name, name, text[: found.start()], head, used)
            for found in METHOD.finditer(text):
                before = text[: found.start()]
                if "for all crates" not in head:
                    self.said(path, found[1], IMPL.findall(before)[-1], before, head, used)

    def said(self, path, name, item, before, head, used):
        """Whether a function says which crates use an item: itself, or its type if it is a method."""
        above = re.search(r"((?: *//.*\n)*)$", before)[1].replace("    //", "//")
        said = set(re.findall(r"`(\w+)`", " ".join(re.findall(r"[Pp]ublic for[^.;]*", (above + head).replace("\n// ", " ")))))
        crate = path.parts[1]
        users = {other.parts[1] for other, names in used.items() if other.parts[1] != crate and (crate, item) in names}
        self.say(bool(users), f"{path}: {name} is public and no other crate uses {item}")
        self.say(users <= said, f"{path}: {name} does not say that it is public for {', '.join(sorted(users - said))}")

    def pages(self):
        """The paths and commands that the pages name."""
        for page in PAGES:
            text = page.read_text(encoding="utf-8")
            for path in sorted(set(NAMED_PATH.findall(text))):
                good = path in MADE or "CRATE" in path or any(Path().glob(path))
                self.say(good, f"{page} names {path}, which does not exist")
            for command in sorted(set(COMMAND.findall("\n".join(map("".join, CODE.findall(text)))))):
                self.say(command in COMMANDS, f"{page} names rt {command}, which rt does not have")


def main():
    check = Check()
    check.page()
    check.public()
    check.pages()
    print(f"{check.passed} passed, {check.failed} failed")
    return 1 if check.failed else 0


if __name__ == "__main__":
    sys.exit(main())
