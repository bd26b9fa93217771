"""The declarations of the crates' specs and sources, by name, for the scripts that check and count them."""

import re
from functools import cache
from pathlib import Path

NAME = r"[^\s(){}\[\],;.]+"
SIGNATURE = re.compile(rf"(abbrev |unfoldable )?(?:pub )?({NAME})(?: {{ℓ}})? :(?:\s|$)")
TYPE = re.compile(rf"(?:pub )?(?:record|data) ({NAME})")
FIELD = re.compile(rf"\s+(?:pub )?({NAME}) :(?:\s|$)")
USE = re.compile(r"(?:ghost )?(?:pub )?use ([^{;\s]+?)(?:\.\{(.*)\}| as (\S+))?;?\s*$")
TOKEN = re.compile(r"[^\s(){}\[\],;]+")


class Item:
    """A declaration: its name, whether it is a definition (else a theorem), and the numbers of its lines."""

    def __init__(self, path, name, definition, start, indent):
        self.path, self.name, self.definition = path, name, definition
        self.start, self.end, self.indent = start, start + 1, indent
        self.parts = []  # fields and constructors

    def key(self):
        return (self.path, self.start)


class File:
    """A file of specs: its lines, declarations by name, the telescopes of its modules, and where other names come from."""

    def __init__(self, path):
        self.path = path
        self.lines = path.read_text(encoding="utf-8").split("\n")
        self.items, self.names, self.modules = [], {}, []
        self.uses = uses(self.lines)
        self.read()

    def read(self):
        levels, last, header = [0], None, False
        for k, line in enumerate(self.lines):
            indent = len(line) - len(line.lstrip())
            text = line.strip()
            if not text:
                continue
            if header:  # a module's telescope goes on
                self.modules[-1] += " " + text
                header = not text.endswith("where")
                continue
            if levels[-1] is None:  # the first line of a module's body
                levels[-1] = indent
            while indent < levels[-1]:
                levels.pop()
            if indent == levels[-1]:
                last = self.line(k, text, indent, last)
                if text.startswith("module "):
                    levels.append(None)
                    header = not text.endswith("where")
            elif last is not None:
                last.end = k + 1
                found = FIELD.match(line)
                if last.parts is not None and found and indent == last.indent + 2:
                    last.parts.append(found[1])

    def line(self, k, text, indent, last):
        """The declaration that the line begins or goes on; none for comments, uses and modules."""
        if text.startswith("module "):
            self.modules.append(text)
            return None
        if text.startswith(("--", "use ", "pub use ", "mod ", "pub mod ", "unfoldable pub use ")):
            return None
        found = TYPE.match(text) or SIGNATURE.match(text)
        if found:
            is_type = bool(TYPE.match(text))
            item = Item(self.path, found[1] if is_type else found[2], is_type or bool(found[1]), k, indent)
            if not is_type:
                item.parts = None
            self.items.append(item)
            self.names.setdefault(item.name, item)
            return item
        if last is not None:
            last.end = k + 1
        return last


def uses(lines):
    """Where names come from: name -> (module, its name there), and aliases of modules."""
    found = {}
    for line in lines:
        match = USE.match(line.strip())
        if not match:
            continue
        module, names, alias = match.groups()
        if names is not None:
            for name in names.split(","):
                there, _, here = name.strip().partition(" as ")
                found[here or there] = (module, there)
        elif alias is not None:
            found[alias] = (module, None)
    return found


def spec_path(module):
    """The file of a module of ours, or None; of a type that the code declares, its crate and name."""
    match = re.match(r"Rattle\.(\w+)\.(specs|proofs)\.(.*)$", module)
    if not match or match[1] not in listed_crates():
        return None
    crate, part, rest = match.groups()
    if rest.startswith("declared."):
        return crate, [part for part in rest.split(".")[1:] if part != "TheVariants"][-1]
    return Path("crates", crate, part, *rest.split(".")).with_suffix(".antt")


@cache
def listed_crates():
    """The names of the crates, in the order of crates.txt; the word staticlib may stand after a name."""
    lines = Path("crates.txt").read_text(encoding="utf-8").splitlines()
    return [line.split(":")[0].split()[0] for line in lines if ":" in line and not line.startswith("#")]


def files(part, ending):
    """The files of the crates, in their order."""
    return [path for crate in listed_crates() for path in sorted(Path("crates", crate, part).rglob(ending))]


def all_specs():
    """The files of specs, and those of laws that stand in proofs/ beside the proofs of functions."""
    laws = [path for path in files("proofs", "*.antt") if len(path.parts) == 4 and path.stem != "Lib"]
    return {path: File(path) for path in files("specs", "*.antt") + laws}


def all_sources():
    return {path: path.read_text(encoding="utf-8") for path in files("src", "*.rt")}


def comment_start(lines, start):
    """The first line of the comment right above a declaration."""
    while start > 0 and lines[start - 1].strip().startswith(("--", "//", "#[")):
        start -= 1
    return start
