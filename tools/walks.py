#!/usr/bin/env python3
"""Renames what a function's Proof.antt names of the walk through its code: needs, places and steps, from an older kit's names to this one's.

usage: python3 tools/walks.py NAMES [CRATE..]     (from the repository's root, after `rt names NAMES`)

NAMES has crates/CRATE/names.json, Rattle's own table of old and new names. A path such as c.before.if1.true is followed place by place.
"""
import json
import os
import re
import sys

PATH = re.compile(r"(?<![\w.'\-₀])([^\W\d][\w'₀]*)((?:\.[\w'\-₀]+)+)")
WORD = r"[^\s(){}.,;:=→×@\"`|«»]+"


def plain(name):
    """A name as port.py may have left it, in one spelling."""
    name = re.sub(r"-lem\b", "", name.replace("_", "-"))
    return re.sub(r"^(?:overflow|nonzero)-", "", name)


class Plain(dict):
    """A table that is read by names in any of their spellings."""

    def __init__(self, pairs=()):
        super().__init__()
        for name, value in pairs:
            self[name] = value

    def __setitem__(self, name, value):
        super().__setitem__(plain(name), value)

    def __getitem__(self, name):
        return super().__getitem__(plain(name))

    def get(self, name, other=None):
        return super().get(plain(name), other) if name is not None else other


class Function:
    def __init__(self, told):
        # by the old names, and by the new ones where port.py wrote these already
        self.needs = Plain((new, new) for _, new in told["needs"])
        for old, new in told["needs"]:
            self.needs[old] = new
        self.order = [old for old, _ in told["needs"]]
        self.at = Plain()
        for (old, _), (place, _) in zip(told["needs"], told["asked_at"]):
            self.at[old] = place
        for (old, new), (place, _) in zip(told["needs"], told["asked_at"]):
            if plain(new) not in self.at:
                self.at[new] = place
        self.parent, self.step, self.callee = Plain(), Plain(), Plain()
        for name, parent, step, callee, _ in told["places"]:
            self.parent[name], self.step[name], self.callee[name] = parent, step, callee
        self.arms = Plain((p[0], arm) for p, arm in zip(told["places"], told["arms"]))
        self.new_place = Plain(zip([p[0] for p in told["places"]], told["places_by_name"]))
        self.params = told["params"]
        self.variables = [(pair[0][0], pair[1]) for pair in told["loops"]]
        self.loops = Plain((pair[0][0], pair[0][1]) for pair in told["loops"])

    def outward(self, place):
        while place:
            yield place
            place = self.parent.get(place)

    def walk(self, place, fields):
        """The fields of a path from a place, renamed, and the place that it ends at, or None. A place has the steps of all places before it."""
        n = 0
        while n < len(fields) and fields[n] == "before":
            n += 1
        rest = fields[n:]
        if not rest:
            for _ in range(n):
                place = self.parent.get(place) or place
            return [], place
        if rest[0] == "pre":
            rest = ["requires", *rest[1:]]
        if rest[0] in ("args", "ranges", "requires", "lifetimes", "well_formed"):
            if rest[0] in ("args", "ranges") and len(rest) > 1:
                rest = [rest[0], rest[1].replace("-", "_"), *rest[2:]]
            return rest, None
        found = [p for k in (0, 1) for p in self.outward(place) if self.step.get(p) and self.step[p][k] and plain(rest[0]) == plain(self.step[p][k])]
        if found:
            old, new = self.step[found[0]]
            best = None
            for p in self.outward(place):
                arm = self.arms.get(p)
                for field, step, way in (arm[2] if arm else []):
                    if plain(step) == plain(old) and way and rest[1 : 1 + len(way)] == way and (best is None or len(way) > len(best[2])):
                        best = (arm[0], field, way)
            if best:
                return [best[0], best[1], *rest[1 + len(best[2]):]], None
            return [new, *self.kept(found[0], rest[1:])], None
        return rest, None

    def kept(self, place, fields):
        """`.auto.1.1.0` of a call or a loop is what it says of its third variable, which has its name now."""
        m = re.match(r"(auto|new)((?:\.1)*)\.0(?=\.|$)", ".".join(fields))
        names = self.params.get(self.callee.get(place) or "") or dict(self.variables).get(self.step[place][0])
        if not m or not names or m.group(2).count("1") >= len(names):
            return fields
        return [m.group(1), names[m.group(2).count("1")], *fields[m.group(2).count("1") + 2:]]

    def before(self, place, to):
        """How to name a place from one after it."""
        n, last = 0, None
        for p in self.outward(place):
            # the places of one arm are one record
            if last is not None and not (self.arms.get(p) and self.arms.get(last) and self.arms[p][0] == self.arms[last][0]):
                n += 1
            last = p
            if plain(p) == plain(to):
                return ".before" * n
        return None


def turn(text, fn, name):
    # types first: needs, invariants, measures, places
    places = {}
    lines = text.split("\n")
    out = []
    env = {}
    signatures = {}

    def types(line):
        line = re.sub(r"tie\.Need-([\w'\-]+)", lambda m: "tie.Need-" + fn.needs.get(m.group(1), m.group(1)), line)
        line = re.sub(r"tie\.(invariant|decreases)-([\w'\-]+)", lambda m: f"tie.{m.group(1)}-{fn.loops.get(m.group(2), m.group(2))}", line)
        return re.sub(r"tie\.([A-Z][\w'\-]*)", lambda m: "tie." + fn.new_place.get(m.group(1), m.group(1)), line)

    def paths(line):
        nonlocal env

        def one(m):
            base, fields = m.group(1), m.group(2)[1:].split(".")
            place = env.get(base)
            if place is None:
                return m.group(0)
            new, end = fn.walk(place, fields)
            if end is not None:
                helper = re.search(r"(" + WORD + r") $", m.string[: m.start()])
                wants = (signatures.get(helper.group(1)) or [None])[0] if helper else None
                way = fn.before(place, wants) if wants else None
                return base + way if way is not None else m.group(0)
            return ".".join([base, *new])

        def handed(m):
            """A place that a helper is given, which may be one before it."""
            helper = re.search(r"(?<![\w.'-])(" + WORD + r") $", m.string[: m.start()])
            wants = (signatures.get(helper.group(1)) or [None])[0] if helper else None
            if m.group(0) not in env or not wants:
                return m.group(0)
            return m.group(0) + (fn.before(env[m.group(0)], wants) or "")

        # an alias of a place: let l = c.before in
        pos, done = 0, ""
        for m in re.finditer(r"\blet ([\w'₀]+)(?: : [^=]*?)? = ([^\W\d][\w'₀]*)((?:\.before)*)(?= in\b|;|$)", line):
            base, fields = m.group(2), m.group(3).split(".")[1:]
            if base in env:
                new, end = fn.walk(env[base], fields)
                if end is not None:
                    done += PATH.sub(one, line[pos:m.start()])
                    done += m.group(0)[: m.start(2) - m.start()] + base
                    pos = m.end()
                    env[m.group(1)] = env[base]
        done = done + PATH.sub(one, line[pos:])
        return re.sub(r"(?<= )[\w'₀]+(?![\w.'₀-])", handed, done)

    def sign(here, about):
        """Notes the places that a helper takes, and binds its parameters for the lines of its type."""
        need = re.match(r"tie\.Need-([\w'\-]+)", about)
        if need:
            signatures[here] = [fn.at.get(need.group(1))]
            return
        signatures[here] = []
        for part in re.findall(r"\(([\w'₀ ]+) : tie\.([A-Z][\w'\-]*)[^()]*\)", about):
            for name in part[0].split():
                signatures[here].append(part[1])
                env[name] = part[1]
        if not signatures[here]:
            for part in re.findall(r"tie\.([A-Z][\w'\-]*)(?: (?:invariant|decreases)-[\w\-]+)*(?= →|$)", about):
                signatures[here].append(part)

    at = 0
    while at < len(lines):
        line = lines[at]
        m = re.match(r"(\s*)(?:abbrev )?(?:pub )?(" + WORD + r") :(?: (.*))?$", line)
        if m and not line.startswith("use "):
            here, about, first = m.group(2), m.group(3) or "", at
            while not re.match(r"\s*" + re.escape(here) + r"(?: |$)", lines[at + 1] if at + 1 < len(lines) else here) and at - first < 12:
                at += 1
                about += " " + lines[at].strip()
            env = {}
            sign(here, about)
            for k in range(first, at + 1):
                head = re.match(r"(\s*(?:abbrev )?(?:pub )?" + WORD + r" :)(.*)$", lines[k]) if k == first else None
                out.append(head.group(1) + paths(types(head.group(2))) if head else paths(types(lines[k])))
            at += 1
            continue
        m = re.match(r"(\s*)(" + WORD + r")((?: [\w'₀{}= ]+)?) =( |$)", line)
        if m and m.group(2) in signatures and "let" != m.group(2):
            env = {} if not m.group(1) else dict(env)
            params = re.sub(r"\{[^}]*\}", "", m.group(3)).split()
            for p, place in zip(params, signatures[m.group(2)]):
                if place:
                    env[p] = place
        out.append(paths(types(line)))
        at += 1
    text = "\n".join(out)
    dashed = name.replace("_", "-")
    text = re.sub(r"(?<![\w\-'.])" + re.escape(dashed) + r"-spec(?![\w\-'])", name + "_spec", text)
    text = lambdas(text, fn, signatures)
    text = re.sub(r"\.pre(?=\.[01])", ".requires", text)
    text = re.sub(r"\.in_default\.rest\b", ".in_default.in_default-own.rest", text)
    text = re.sub(r"(?<=\.)[a-z]+(?:-[a-z]+)+(?=\.now\b)", lambda m: m.group(0).replace("-", "_"), text)
    # a test of a negated call says what the call gave
    return re.sub(r"\bnot-(?:true|false) (?:_|[\w'.₀\-]+|\([^()]*\)) ([\w'₀]+\.if-not-[\w\-']+\.(?:true|false))", r"\1", text)


def split_args(text):
    """The arguments of an application, at depth 0, as (start, end)."""
    found, depth, start = [], 0, None
    for i, ch in enumerate(text):
        if ch in "({[":
            if depth == 0 and start is None:
                start = i
            depth += 1
        elif ch in ")}]":
            depth -= 1
            if depth < 0:
                break
        if depth == 0 and ch.isspace():
            if start is not None:
                found.append((start, i))
                start = None
        elif start is None:
            start = i
    else:
        i = len(text)
    if start is not None:
        found.append((start, i))
    return found


def lambdas(text, fn, signatures):
    """Renames the paths in answers that stand in the closing call, `(λ c. ..)`, by their position."""
    at = text.find("tie.spec")
    if at < 0:
        return text
    head, tail = text[: at + len("tie.spec")], text[at + len("tie.spec"):]
    args = split_args(tail)
    first = len(args) - len(fn.order)
    if first < 0:
        print("  arguments of tie.spec:", len(args), "needs:", len(fn.order))
        return text
    made, pos = "", 0
    for (a, b), need in zip(args[first:], fn.order):
        arg = tail[a:b]
        m = re.match(r"\(λ ([\w'₀]+)(?: [\w'₀]+)*\.", arg)
        made += tail[pos:a]
        if m and fn.at.get(need):
            env = {m.group(1): fn.at[need]}
            for al in re.finditer(r"\blet ([\w'₀]+) = ([^\W\d][\w'₀]*)((?:\.before)*)(?= in\b)", arg):
                if al.group(2) in env:
                    env[al.group(1)] = env[al.group(2)]
            arg = re.sub(r"(\blet [\w'₀]+ = [^\W\d][\w'₀]*)((?:\.before)*)(?= in\b)", lambda m: m.group(1), arg)
            def way(p):
                helper = re.search(r"(" + WORD + r") $", p.string[: p.start()])
                wants = (signatures.get(helper.group(1)) or [None])[0] if helper else None
                return (fn.before(env[p.group(1)], wants) if wants else None)

            def one(p):
                if p.group(1) not in env:
                    return p.group(0)
                new, end = fn.walk(env[p.group(1)], p.group(2)[1:].split("."))
                if end is not None:
                    return p.group(1) + way(p) if way(p) is not None else p.group(0)
                return ".".join([p.group(1), *new])

            arg = PATH.sub(one, arg)
            arg = re.sub(r"(?<= )([\w'₀]+)(?![\w.'₀-])", lambda p: p.group(1) + (way(p) or "") if p.group(1) in env else p.group(0), arg)
        made += arg
        pos = b
    return head + made + tail[pos:]


def main():
    names, crates = sys.argv[1], sys.argv[2:]
    for crate in crates or sorted(os.listdir("crates")):
        table = os.path.join(names, "crates", crate, "names.json")
        if not os.path.isfile(table):
            continue
        told = json.load(open(table))
        for key, value in sorted(told.items()):
            m = re.match(rf"Rattle-{crate}-proofs\.(.*)\.Lts$", key)
            if not m:
                continue
            path = os.path.join("crates", crate, "proofs", *m.group(1).split("."), "Proof.antt")
            if not os.path.isfile(path):
                continue
            text = open(path, encoding="utf-8").read()
            new = turn(text, Function(value), m.group(1).split(".")[-1])
            if new != text:
                open(path, "w", encoding="utf-8").write(new)


if __name__ == "__main__":
    main()
