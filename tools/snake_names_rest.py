#!/usr/bin/env python3
"""Spells in snake case what snake_names.py passed over: a definition whose type begins on the next line, names that begin with record, letters behind
one another, and names of definitions in comments without backticks. Run once, at the top of the repository, after it."""

import os
import re

LEMMA = {"electric_at": "electric_at_lem"}
LEMMA_IN = ("fdtd/proofs/Depends.antt", "fdtd/specs/Inner/Plain.antt", "fdtd/specs/Reading.antt", "study/proofs/Fits.antt")
WORDS = {
    "electricAt": "electric_at",
    "cells-looked": "cells_looked",
    "first-line": "first_line",
    **{f"record-{w}": f"record_{w}" for w in "held again block back read there stays goes left".split()},
    **{f"mark_{m[0].lower()}{m[1]}": f"mark_{m.lower()}" for m in "GH ML CI CM FE FH LE LH LT PP AX".split()},
}
# in comments
SAID = {w: re.sub(r"(?<=[a-z0-9])([A-Z])", lambda m: "_" + m[1].lower(), w) for w in "cellIndex exLower hyLower psiAfter rootOf psiE psiH".split()}
TOKEN = re.compile(r"(?<![^\s(){}.;,@\"«»`])[^\s(){}.;,@\"«»`]+")


def turned(words, text):
    return TOKEN.sub(lambda m: words.get(m[0], m[0]), text)


def main():
    for folder, dirs, names in os.walk("."):
        dirs[:] = [d for d in dirs if d not in ("out", ".git", "target", "tools")]
        for name in names:
            path = os.path.join(folder, name)
            if not name.endswith((".antt", ".rt", ".edit", ".md")) or name == "PORT.md":
                continue
            with open(path, encoding="utf-8") as f:
                old = f.read()
            new = turned(LEMMA, old) if path[len("./crates/") :] in LEMMA_IN else old
            if name.endswith(".md"):
                new = re.sub(r"`[^`\n]*`", lambda m: turned(WORDS, m[0]), new)
            else:
                new = turned(WORDS, new)
            if name.endswith(".antt"):
                new = re.sub(r"(?m)(?:^|(?<=\s))--\s.*$", lambda m: turned(SAID, m[0]), new)
            if new != old:
                with open(path, "w", encoding="utf-8") as f:
                    f.write(new)


if __name__ == "__main__":
    main()
