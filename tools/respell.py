#!/usr/bin/env python3
"""Spells the definitions and lemmas of specs/ and proofs/ as today's Rattle does: words in snake case, parts of a lemma's name joined by dashes.

usage: tools/respell.py [ROOT]      once, after port.py; it renames in crates/ (clauses of src/ too), and in the must-fail edits
       tools/respell.py --table     prints the old and new names, and nothing is written

A name that begins with a capital is a type, a fact or a module, and stays. Names of Rust functions, strings, exported names, inputs and outputs stay.
Where the new spelling stands in a file that has the old name too, the line 'met:' says so: most are Rust functions, which no clause names.
"""

import os
import re
import sys

NAME = r"[^\s(){}.;,@\"«»`:]+"
DECLARED = re.compile(
    rf"^ *(?:(?:abbrev|unfoldable|pub|private|opaque|ghost) )*(?P<name>{NAME})(?: \{{[^{{}}\n]*\}}| \([^()\n]*\))* :(?= |$)",
    re.M,
)
LIBRARY = {"getD": "get_or"}
# Lemmas that have the new name of the function that they speak of: such a lemma ends in _lem.
LEMMAS = {
    "claims/proofs/CInstance.antt": "low_held",
    "encoding/proofs/ReadBack.antt": "four_bytes",
    "rows/proofs/EveryRow.antt": "reads_all",
    "writing/proofs/SameHeader.antt": "counts_of",
}


def texts(root, ends):
    for folder, dirs, files in os.walk(root):
        dirs[:] = sorted(d for d in dirs if d not in ("out", "target", ".git"))
        for f in sorted(files):
            if f.endswith(ends):
                yield os.path.join(folder, f)


def part(word):
    if word[:1].isupper():
        return word
    if word in LIBRARY:
        return LIBRARY[word]
    return re.sub(r"(?<=[a-z0-9'])[A-Z]", lambda m: "_" + m[0].lower(), word)


def spelled(name):
    return "-".join(part(p) for p in name.split("-"))


def table(root):
    names = {}
    for path in texts(os.path.join(root, "crates"), ".antt"):
        with open(path, encoding="utf-8") as f:
            for m in DECLARED.finditer(f.read()):
                name = m["name"]
                if not name[:1].isupper() and re.search(r"[a-z0-9'][A-Z]", name):
                    names[name] = spelled(name)
    return {old: new for old, new in names.items() if old != new}


TOKEN = re.compile(rf"{NAME}")
STRING = re.compile(r'b?"(?:[^"\\\n]|\\.)*"')


def turned(text, names):
    return TOKEN.sub(lambda m: names.get(m[0], m[0]), text)


def turned_code(text, names):
    """Rust: all but strings."""
    out, at = [], 0
    for m in STRING.finditer(text):
        out += [turned(text[at : m.start()], names), m[0]]
        at = m.end()
    return "".join(out) + turned(text[at:], names)


def main(argv):
    root = argv[0] if argv and not argv[0].startswith("--") else "."
    names = table(root)
    if "--table" in argv:
        for old in sorted(names):
            print(old, names[old])
        return 0
    written = 0
    paths = list(texts(os.path.join(root, "crates"), (".antt", ".rt", ".edit")))
    more = os.path.join(root, "more-edits")
    paths += list(texts(more, ".edit")) if os.path.isdir(more) else []
    for path in paths:
        with open(path, encoding="utf-8") as f:
            text = f.read()
        lemma = next((it for end, it in LEMMAS.items() if path.endswith(end)), None)
        text = turned(text, {lemma: f"{lemma}_lem"}) if lemma else text
        tokens = set(TOKEN.findall(text))
        found = sorted(tokens & names.keys())
        news = [names[old] for old in found]
        for old in found:
            if names[old] in tokens or news.count(names[old]) > 1:
                print(f"met: {path}: {old} as {names[old]}")
        new = turned(text, names) if path.endswith(".antt") else turned_code(text, names)
        if new != text:
            written += 1
            with open(path, "w", encoding="utf-8") as f:
                f.write(new)
    print(f"{len(names)} names, {written} files")
    return 0


if __name__ == "__main__":
    raise SystemExit(main(sys.argv[1:]))
