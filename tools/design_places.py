#!/usr/bin/env python3
"""Counts, in crates/*/src, the places of the eight points of docs/DESIGN-PASS.md.

    tools/design_places.py [--at COMMIT] [POINT..] [--list]

It reads the working tree, or the files as they stood in COMMIT. --list prints each place."""
import collections
import re
import subprocess
import sys


def sources(commit):
    """(path, text) of each Rattle file below crates/*/src."""
    if commit:
        names = subprocess.run(["git", "ls-tree", "-r", "--name-only", commit, "crates"], check=True, capture_output=True, text=True).stdout.split("\n")
    else:
        names = subprocess.run(["git", "ls-files", "crates"], check=True, capture_output=True, text=True).stdout.split("\n")
    for name in sorted(n for n in names if re.fullmatch(r"crates/\w+/src/.*\.rt", n)):
        if commit:
            yield name, subprocess.run(["git", "show", f"{commit}:{name}"], check=True, capture_output=True, text=True).stdout
        else:
            try:
                yield name, open(name, encoding="utf-8").read()
            except FileNotFoundError:
                pass


def functions(text):
    """(line, head, body) of each function: the head up to its `{`, clauses among it."""
    for found in re.finditer(r"^( *)((?:pub )?(?:unsafe )?(?:extern \"C\" )?fn \w+.*?)\n?\1\{\n(.*?)\n\1\}$|^( *)((?:pub )?fn [^\n]*) \{\n(.*?)\n\4\}$", text, re.M | re.S):
        head = found.group(2) or found.group(5)
        body = found.group(3) or found.group(6)
        yield text.count("\n", 0, found.start()) + 1, head, body


def lines(text, pattern):
    for number, line in enumerate(text.split("\n"), 1):
        if re.search(pattern, line) and not line.lstrip().startswith(("//", "ghost use", "use ")):
            yield number, line.strip()


def signature(head):
    """The parameters of a head, name and type."""
    inside = re.search(r"fn \w+(?:<[^>]*>)?\((.*?)\)(?: ->|\s*$|\s*\n)", head + "\n", re.S)
    if not inside:
        return []
    return [tuple(p.strip().split(": ", 1)) for p in re.split(r",(?![^\[\(<]*[\]\)>])", inside.group(1)) if ": " in p]


def point1(path, text):
    """A refusal as a number, or a flag or a number of a kind beside a value."""
    yield from lines(text, r"\brefusal\b|: Taken\b|-> Taken\b|Taken::|pub const [A-Z_]+: u32 = \d+;|\b[fk] != 0\b|-> (?:Answer|Moved|Judged|Turned|Added|Counted|Reading|Length|Absorbing)\b")
    for number, head, body in functions(text):
        if re.search(r"_fault\(|fn fault\w*\(|fn (?:or_else|passed|keep\w*|code_of)\(", head.split("\n")[0]) and re.search(r"-> u32", head):
            yield number, head.split("\n")[0]
    yield from lines(text, r"^\s*pub (?:there|on|along|electric|magnetic|whole): bool,")


def shape(head, body):
    """A function's text with names, types and numbers taken out."""
    text = re.sub(r"\b(?:requires|ensures)\b[^\n]*\n?", "", head) + body
    text = re.sub(r"//[^\n]*", "", text)
    keep = {"fn", "pub", "let", "mut", "while", "for", "in", "if", "else", "return", "match", "true", "false", "as", "self", "impl", "where"}
    text = re.sub(r"\b[A-Za-z_][\w]*\b", lambda m: m.group(0) if m.group(0) in keep else "n", text)
    text = re.sub(r"\b\d[\w.]*\b", "0", text)
    return re.sub(r"\s+", "", text)


def point2(files):
    """Functions of three or more lines that are alike but for names, types and numbers: each beyond the first of its shape."""
    seen = collections.defaultdict(list)
    for path, text in files:
        for number, head, body in functions(text):
            if len([l for l in body.split("\n") if l.strip()]) >= 3:
                seen[shape(head, body)].append((path, number, head.split("\n")[0]))
    for group in seen.values():
        for path, number, head in group[1:]:
            yield path, number, head + "   ~ " + group[0][0] + ":" + str(group[0][1])


def point3(path, text):
    """A loop that counts by hand."""
    yield from lines(text, r"^\s*while ")


def point4(path, text):
    """Equality, order, copying, conversion and printing by hand."""
    for number, head, body in functions(text):
        name = re.search(r"fn (\w+)", head).group(1)
        if re.match(r"same_|wide|copy$|lesser|is_finite|both$|bends$|pick$|flag$|bit$|kind_num|kind_of|pole_of|pole_nums|is_absent|slot_of|blank", name):
            yield number, head.split("\n")[0]


def atoms(head):
    for clause in re.findall(r"requires[ \w]*\{(.*?)\}\n", head + "\n", re.S):
        for atom in re.split(r" × ", clause):
            yield re.sub(r"\s+", " ", atom.strip().strip("()").strip())


def point5(files):
    """A premise that stands in three or more functions of a crate, and three or more parameters that travel together through three or more functions of a crate."""
    facts, groups = collections.defaultdict(set), collections.defaultdict(set)
    for path, text in files:
        crate = path.split("/")[1]
        for number, head, body in functions(text):
            where = (path, number)
            for atom in atoms(head):
                if len(atom) > 6:
                    facts[crate, atom].add(where)
            names = [p[0] for p in signature(head)]
            for i in range(len(names) - 2):
                groups[crate, tuple(names[i:i + 3])].add(where)
    for (crate, atom), at in sorted(facts.items()):
        if len(at) >= 3:
            path, number = sorted(at)[0]
            yield path, number, f"{len(at)} functions require {atom}"
    for (crate, names), at in sorted(groups.items()):
        if len(at) >= 3:
            path, number = sorted(at)[0]
            yield path, number, f"{len(at)} functions take {', '.join(names)}"


def point6(path, text):
    """A buffer with a place or a length beside it."""
    for number, head, body in functions(text):
        kinds = dict(signature(head))
        buffers = [n for n, t in kinds.items() if re.match(r"&(?:'\w+ )?(?:mut )?\[", t)]
        places = [n for n, t in kinds.items() if t == "usize" and n in ("at", "from", "len", "q", "p", "start", "base", "o", "i0", "b0")]
        if buffers and places:
            yield number, head.split("\n")[0] + " .. " + ", ".join(places)
    yield from lines(text, r"marks: \[u16; 8\]")


def point7(path, text):
    """A flag that chooses which step is run."""
    for number, head, body in functions(text):
        flags = [n for n, t in signature(head) if t == "bool"]
        if any(re.search(r"\bif !?" + f + r"\b", body) for f in flags):
            yield number, head.split("\n")[0]


def main():
    words = sys.argv[1:]
    commit = words[words.index("--at") + 1] if "--at" in words else None
    chosen = [int(w) for w in words if re.fullmatch(r"[1-7]", w)] or list(range(1, 8))
    files = list(sources(commit))
    for point in chosen:
        ask = globals()[f"point{point}"]
        if point in (2, 5):
            places = list(ask(files))
        else:
            places = sorted({(path, number, what) for path, text in files for number, what in ask(path, text)})
        print(f"point {point}: {len(places)}")
        if "--list" in words:
            for path, number, what in places:
                print(f"  {path}:{number}: {what}"[:200])


if __name__ == "__main__":
    main()
