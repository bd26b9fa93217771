#!/usr/bin/env python3
"""Brings the repository's own definitions, lemmas, constructors and fields to snake case, after port.py has run.

usage: python3 tools/respell.py [TOP]      (from the repository's root; TOP: another checkout)

Renamed is what specs/ and the lemma files declare; functions of src/, exported names, strings, inputs and outputs keep their names. A dash
becomes an underscore, a capital inside a word an underscore and a small letter. Where the new name would be that of a function of src/ or
of another definition, NAMES has another one. Pages, must-fail edits and comments follow by the same table; names that Rattle makes (the
files below proofs/FUNCTION/) are not in it. Run once; what is written after that has the new spelling.
"""
import os
import re
import sys

# A definition that would have the name of a function of src/, and a lemma that would have the name of a definition.
NAMES = {
    "answerNumber": "number_of_answer",
    "refusalNumber": "number_of_refusal",
    "verdictNumber": "number_of_verdict",
    "solvedNumber": "number_of_solved",
    "readNumber": "number_of_read",
    "atomBit": "bit_of_atom",
    "blameMarks": "marks_of_blame",
    "blameOf": "blame_of_number",
    "bucketOf": "bucket_of_distance",
    "classesDiffer": "differ_by_classes",
    "digitOf": "digit_of_value",
    "faultyPart": "part_at_fault",
    "isAtom": "is_atom_kind",
    "isBefore": "comes_before",
    "isSame": "is_same_slot",
    "lineEnd": "end_of_line",
    "offsetField": "field_of_offset",
    "otherHeight": "height_of_other",
    "otherKey": "key_of_other",
    "propositionAt": "proposition_in",
    "propositionRow": "row_of_proposition",
    "questionAt": "question_in",
    "questionRow": "row_of_question",
    "termAt": "term_in",
    "termRow": "row_of_term",
    "readerOf": "reader_in",
    "sameAddress": "is_same_address",
    "sameAtom": "is_same_atom",
    "sideSlot": "slot_of_side",
    "isEqual": "IsEqual",
    "isDifferent": "IsDifferent",
    "isOne": "is_bit_one",
    "rowShows": "is_row_shown",
    "otherOffset": "is_other_offset",
    "at-place": "at_place_lem",
    "bit-value": "bit_value_lem",
    "counted-questions": "counted_questions_lem",
    "different-at": "different_at_lem",
    "drop-below": "drop_below_lem",
    "frame-bytes": "frame_bytes_lem",
    "in-mask": "in_mask_lem",
    "is-contradictory": "is_contradictory_lem",
    "line-length": "line_length_lem",
    "lines-size": "lines_size_lem",
    "output-within": "output_within_lem",
    "pair-bit": "pair_bit_lem",
    "proposition-held": "proposition_held_lem",
    "read-into": "read_into_lem",
    "step-frame": "step_frame_lem",
    "term-held": "term_held_lem",
    "in-range": "in_range_lem",
    "is-proposition": "is_proposition_lem",
    "is-term": "is_term_lem",
    "known-with": "known_with_lem",
    "line-end": "line_end_lem",
}
IDENT = r"[^\s(){}.,;:=→×@\"`|«»]+"


def snake(name):
    s = name.replace("-", "_")
    if s[0].islower():
        s = re.sub(r"(?<=[a-z0-9])([A-Z])", lambda m: "_" + m.group(1).lower(), s)
        s = re.sub(r"(?<=[a-z0-9])([ℤℕ])", r"_\1", s)
    return s


def files(top, ends):
    for folder, dirs, names in os.walk(top):
        dirs[:] = sorted(d for d in dirs if d not in ("out", ".git", "target"))
        for f in sorted(names):
            if f.endswith(ends):
                yield os.path.join(folder, f)


def is_lemma_file(path):
    return "/specs/" in path or re.search(r"/crates/[^/]+/proofs/[^/]+\.antt$", path)


def declared(top):
    found = set()
    for path in files(os.path.join(top, "crates"), (".antt",)):
        if not is_lemma_file(path):
            continue
        for line in open(path, encoding="utf-8"):
            m = re.match(r"\s*(?:unfoldable |abbrev )*(?:pub )?(?:unfoldable |abbrev )*(" + IDENT + r")(?: \{ℓ\})? :( |$)", line)
            if m:
                found.add(m.group(1))
            m = re.match(r"(?:abbrev )?(?:pub )?ruleset (" + IDENT + r")", line)
            if m:
                found.add(m.group(1))
    return found


def table(top):
    made = {}
    for name in declared(top):
        if name in NAMES:
            made[name] = NAMES[name]
        elif "-" in name[1:-1] or name[0].islower() and re.search(r"[a-z0-9][A-Zℤℕ]", name):
            made[name] = snake(name)
    return made


def turn(text, made):
    return re.sub(IDENT, lambda m: made.get(m.group(0), m.group(0)), text)


def main():
    top = os.path.abspath(sys.argv[1] if len(sys.argv) > 1 else ".")
    made = table(top)
    for path in [*files(os.path.join(top, "crates"), (".antt", ".rt")), *files(os.path.join(top, "docs"), (".md",)), os.path.join(top, "README.md")]:
        text = open(path, encoding="utf-8").read()
        new = turn(text, made)
        if path.endswith(".antt"):
            # port.py took some constructors after a type's name for the type's own
            new = re.sub(r"\b([a-z]+(?:_[a-z]+)*)_([A-Z])([a-z]+)\b", lambda m: m.group(1) + "_" + m.group(2).lower() + m.group(3) if m.group(0) in ODD else m.group(0), new)
        if new != text:
            open(path, "w", encoding="utf-8").write(new)


# What port.py made of constructors that stand after their type's name, as Different.other-offset.
ODD = {"other_Offset", "read_Some", "same_Reads", "none_Apart", "is_Known"}

if __name__ == "__main__":
    main()
