#!/usr/bin/env python3
"""In the contracts below crates/: `before x` and `after x` of lists/Lent become `x.now` of a &, `x.old` and `x.new` of a &mut.

usage: python3 tools/lent.py     (from the repository's root, once, after port.py)
"""
import glob
import re


def closing(text, at):
    depth = 0
    for i in range(at, len(text)):
        depth += (text[i] == "{") - (text[i] == "}")
        if depth == 0:
            return i + 1
    return len(text)


def main():
    for path in glob.glob("crates/*/src/**/*.rt", recursive=True):
        text = open(path, encoding="utf-8").read()
        out, pos, params = "", 0, {}
        for m in re.finditer(r"\bfn \w+\s*\(([^)]*)\)|\b(?:requires|ensures)(?: \w+)? (?=\{)", text):
            if m.start() < pos:
                continue
            if m.group(1) is not None:
                params = dict(re.findall(r"(\w+): (&mut|&|\w)", m.group(1)))
                continue
            end = closing(text, m.end())

            def turn(w):
                word, name = w.group(1), w.group(2)
                field = {"&mut": {"before": "old", "after": "new"}, "&": {"before": "now", "after": "now"}}.get(params.get(name), {}).get(word)
                return f"{name}.{field}" if field else w.group(0)

            clause = re.sub(r"\((before|after) (\w+)\)", turn, text[m.end():end])
            clause = re.sub(r"(?<![\w.])(before|after) (\w+)(?![\w.])", turn, clause)
            out += text[pos : m.end()] + clause
            pos = end
        text2 = out + text[pos:]
        used = re.findall(r"(?:requires|ensures)[^;]*?(?<![\w.])(before|after) \w", text2)
        if not used:
            text2 = re.sub(r"ghost use Rattle\.lists\.specs\.Lent\.\{[^}]*\};\n", "", text2)
        elif "Lent" in text2:
            print(path, "still uses", set(used))
        if text2 != text:
            open(path, "w", encoding="utf-8").write(text2)


if __name__ == "__main__":
    main()
