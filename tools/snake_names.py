#!/usr/bin/env python3
"""Spells the repository's own antt names in snake case: a word's dashes and capitals become underscores, as in cell_index for cellIndex.

usage: python3 tools/snake_names.py [--look]     at the top of the repository; --look only prints the names and what they would meet

A name is one that a file of specs/ or proofs/ declares, but for the Proof.antt of a function, whose names Rattle makes; types, modules and symbols keep
their spelling. It is turned wherever it stands as a word of antt: in .antt files, in clauses and ghost items of .rt files, in must-fail edits, and in
comments and pages between backticks. Run once, after port.py.
"""

import collections
import os
import re
import sys

WORD = r"[^\s(){}.;,@\"«»`]+"
# a declaration: a name, perhaps arguments in brackets, and a colon
DECLARED = re.compile(r"^\s*(?:(?:pub|abbrev|unfoldable|opaque)\s+)*(?!pub\b|abbrev\b|unfoldable\b|opaque\b|record\b|data\b|use\b|module\b)(" + WORD + r")((?:\s+[({][^(){}]*(?:\([^()]*\)[^(){}]*)*[)}])*)\s*:\s")
CONSTRUCTOR = re.compile(r"^\s*\|\s*(" + WORD + r")\s")
# A lemma that would have its function's name.
OWN = {
    "acts-on": "acts_on_lem",
    "block-length": "block_length_lem",
    "box-cells": "box_cells_lem",
    "by-run": "by_run_lem",
    "corners-fine": "corners_fine_lem",
    "corrected-e": "corrected_e_lem",
    "corrected-h": "corrected_h_lem",
    "counts-fit": "counts_fit_lem",
    "entry-at": "entry_at_lem",
    "entry-bytes": "entry_bytes_lem",
    "entry-fine": "entry_fine_lem",
    "face-e": "face_e_lem",
    "face-h": "face_h_lem",
    "first-after": "first_after_lem",
    "flags-fine": "flags_fine_lem",
    "floats-bytes": "floats_bytes_lem",
    "floats-fit": "floats_fit_lem",
    "frame-bytes": "frame_bytes_lem",
    "has-next": "has_next_lem",
    "head-good": "head_good_lem",
    "ids-bytes": "ids_bytes_lem",
    "ids-fit": "ids_fit_lem",
    "is-nan": "is_nan_lem",
    "judged-at": "judged_at_lem",
    "judged-by": "judged_by_lem",
    "list-bytes": "list_bytes_lem",
    "list-good": "list_good_lem",
    "magnetic-at": "magnetic_at_lem",
    "media-set": "media_set_lem",
    "memory-after": "memory_after_lem",
    "memory-of": "memory_of_lem",
    "nan-bits": "nan_bits_lem",
    "no-wall": "no_wall_lem",
    "number-at": "number_at_lem",
    "on-block": "on_block_lem",
    "plane-at": "plane_at_lem",
    "pole-count": "pole_count_lem",
    "pole-held": "pole_held_lem",
    "poles-fit": "poles_fit_lem",
    "put-box": "put_box_lem",
    "read-block": "read_block_lem",
    "refused-line": "refused_line_lem",
    "reply-of": "reply_of_lem",
    "same-lengths": "same_lengths_lem",
    "second-after": "second_after_lem",
    "study-lines": "study_lines_lem",
    "study-of": "study_of_lem",
}

# The same where a function of src/, or a word of another file, has the lemma's name already.
IN_FILES = {
    "built_of": ("block/proofs/Head.antt", "step/proofs/Judged.antt"),
    "ids_set": ("materials/proofs/Placing.antt",),
    "no_room": ("calls/proofs/Kept.antt", "calls/proofs/blocks/answer_length/Proof.antt", "calls/proofs/blocks/answer_number/Proof.antt", "calls/proofs/blocks/answer/Proof.antt"),
    "nums_at": ("codec/proofs/Row.antt", "reads/proofs/Read.antt", "reads/proofs/get_ml/Proof.antt"),
}


def snake(name):
    if name in OWN:
        return OWN[name]
    words = re.sub(r"(?<=[a-z0-9])([A-Z])", lambda m: "_" + m[1].lower(), name)
    return words.replace("-", "_")


def files(top, endings):
    for folder, dirs, names in os.walk(top):
        dirs[:] = sorted(d for d in dirs if d not in ("out", ".git", "target"))
        for name in sorted(names):
            if name.endswith(endings):
                yield os.path.join(folder, name)


def read(path):
    with open(path, encoding="utf-8") as f:
        return f.read()


def declared():
    found = collections.defaultdict(set)
    for path in files("crates", ".antt"):
        if path.endswith("/Proof.antt"):
            continue
        for line in read(path).splitlines():
            m = DECLARED.match(line) or CONSTRUCTOR.match(line)
            if m:
                found[m[1]].add(path)
    return found


def turns():
    turned = {}
    for name in declared():
        if name[0].isupper() and "-" not in name:
            continue
        if re.search(r"[^\w'₀-₉-]", name) or name.startswith("◌"):
            continue
        new = snake(name)
        if new != name:
            turned[name] = new
    return turned


TOKEN = re.compile(r"(?<![^\s(){}.;,@\"«»`])" + WORD + r"(?![^\s(){}.;,@\"«»`])")


def words(turned, text):
    return TOKEN.sub(lambda m: turned.get(m[0], m[0]), text)


def between_backticks(turned, text):
    return re.sub(r"`[^`\n]*`", lambda m: words(turned, m[0]), text)


# a text or a comment of Rust, or anything else
RUST = re.compile(r'("(?:[^"\\\n]|\\.)*"|//[^\n]*)')


def rust(turned, text):
    parts = RUST.split(text)
    return "".join((between_backticks(turned, p) if p.startswith("//") else p) if i % 2 else words(turned, p) for i, p in enumerate(parts))


def antt(turned, text):
    out = []
    for line in text.split("\n"):
        code, dashes, comment = line, "", ""
        m = re.search(r"(?:^|(?<=\s))--(?=\s|$)", line)
        if m:
            code, dashes, comment = line[: m.start()], "--", line[m.end() :]
        out.append(words(turned, code) + dashes + between_backticks(turned, comment))
    return "\n".join(out)


def edit(turned, text):
    lines, of = [], ""
    for line in text.split("\n"):
        if line.startswith("file: "):
            of = line[6:].strip()
        elif line.startswith(("old: ", "new: ")):
            line = line[:5] + (rust if of.endswith(".rt") else antt)(turned, line[5:])
        elif line.startswith("#"):
            line = between_backticks(turned, line)
        lines.append(line)
    return "\n".join(lines)


def look(turned):
    taken = collections.defaultdict(list)
    for name, new in turned.items():
        taken[new].append(name)
    for new, names in sorted(taken.items()):
        if len(names) > 1:
            print("two names for one:", new, names)
    all_declared = declared()
    for new, names in sorted(taken.items()):
        if new in all_declared:
            print("declared already:", names, new, sorted(all_declared[new])[:2])
    for path in files("crates", (".antt", ".rt")):
        tokens = set(TOKEN.findall(read(path)))
        for name in tokens & set(turned):
            if turned[name] in tokens:
                print("met in", path, ":", name, turned[name])


def main():
    turned = turns()
    if "--look" in sys.argv:
        print(len(turned), "names")
        look(turned)
        return
    for path in files(".", (".antt", ".rt", ".edit", ".md")):
        old = read(path)
        here = {name: name + "_lem" for name, where in IN_FILES.items() if path[len("./crates/") :] in where}
        kind = {".antt": antt, ".rt": rust, ".edit": edit, ".md": between_backticks}[os.path.splitext(path)[1]]
        new = kind(turned | here, old)
        if new != old:
            with open(path, "w", encoding="utf-8") as f:
                f.write(new)


if __name__ == "__main__":
    main()
