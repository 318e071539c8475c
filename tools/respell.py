#!/usr/bin/env python3
"""Brings the names of definitions and lemmas to today's spelling: words in snake case, types in camel case.

usage: python3 tools/respell.py [--dry]   at the top of the repository

A name counts that specs/ or proofs/ define and that has a hyphen inside: a definition, a record, a field or a lemma.
It is turned in specs/, proofs/ and the ghost parts of src/, as a whole word; comments are left alone.
Goals of the toolchain (`goal.returns-in-Ok`) and names of its library are not the repository's own and stay. Functions, strings, inputs and outputs are left alone, and so are must-fail edits.
"""
import os
import re
import sys

# A word of antt: all that is no space, bracket, comma, semicolon or dot of a path.
WORD = re.compile(r"[^\s(){};.,\"«»⌜⌝]+")
DEFINED = [
    re.compile(r"^(?:(?:abbrev|unfoldable|pub|record|data) )*(\S*-\S*)(?: .*)? :(?: |$)"),
    re.compile(r"^(?:(?:abbrev|unfoldable|pub|record|data) )+(\S*-\S*)(?: |$)"),
    re.compile(r"^\s+(?:pub )?(\S*-\S*) :(?: |$)"),
]
# Where the plain spelling is that of a function beside it, or of a word of the library.
OTHERWISE = {
    "bit-and": "bit_of_and",
    "hex-bytes": "bytes_of_hex",
    "hex-digit": "digit_of_hex",
    "per-byte": "places_a_byte",
    "row-bytes": "bytes_a_row",
}
GOAL = re.compile(r"^(?:abbrev )?(?:pub )?(\S+) : goal\.")


def texts():
    for folder, dirs, names in os.walk("crates"):
        dirs[:] = [d for d in dirs if d not in ("out", "data", "must-fail")]
        for name in names:
            if name.endswith((".antt", ".rt")):
                path = os.path.join(folder, name)
                with open(path, encoding="utf-8") as f:
                    yield path, f.read()


def defined(files):
    goals, names = set(), set()
    for path, text in files.items():
        if path.endswith(".antt"):
            goals |= {m.group(1) for m in map(GOAL.match, text.split("\n")) if m}
    for path, text in files.items():
        if not path.endswith(".antt"):
            continue
        for line in text.split("\n"):
            code = line.split(" -- ")[0]
            if code.startswith(("--", "use ", "pub use ")):
                continue
            for form in DEFINED:
                m = form.match(code)
                if m:
                    name = m.group(1)
                    if name not in goals and "." not in name and name[0].isalpha():
                        names.add(name)
                    break
    return names


def respelled(name):
    if name in OTHERWISE:
        return OTHERWISE[name]
    parts = name.split("-")
    if name[0].isupper():
        return "".join(p[0].upper() + p[1:] for p in parts)
    return "_".join(parts)


def turn(path, text, new):
    def word(m):
        return new.get(m.group(0), m.group(0))

    lines = []
    for line in text.split("\n"):
        mark = "--" if path.endswith(".antt") else "//"
        at = line.find(mark + " ") if not line.lstrip().startswith(mark) else line.find(mark)
        code, comment = (line, "") if at < 0 else (line[:at], line[at:])
        pieces = re.split(r'("(?:[^"\\]|\\.)*")', code)
        code = "".join(p if p.startswith('"') else WORD.sub(word, p) for p in pieces)
        lines.append(code + comment)
    return "\n".join(lines)


def main():
    files = dict(texts())
    new = {n: respelled(n) for n in defined(files)}
    taken = {}
    for path, text in files.items():
        for w in set(WORD.findall(text)):
            taken.setdefault(w, path)
    made = {}
    for old, name in sorted(new.items()):
        if name in taken:
            print(f"look: {old} becomes {name}, which stands in {taken[name]}")
        if name in made:
            print(f"look: {old} and {made[name]} fall together as {name}")
        made[name] = old
    if "--dry" not in sys.argv:
        for path, text in files.items():
            turned = turn(path, text, new)
            if turned != text:
                with open(path, "w", encoding="utf-8") as f:
                    f.write(turned)
    print(f"{len(new)} names")


main()
