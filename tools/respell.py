#!/usr/bin/env python3
"""Brings the repository's own definitions and lemmas to one spelling: snake case, with no dash and no inner capital.

usage: tools/respell.py [--names]        at the top of the repository, once, right after port.py

It reads the names that crates/*/specs and the lemma files of crates/*/proofs declare (proofs of single functions aside), and writes each
anew wherever it stands in a .antt or .rt file, in a must-fail edit, or between backticks in docs/ and README.md. A lemma that would fall
together with a definition takes _lem behind it. Functions of src/, names after a dot that Rattle makes, strings and comments in .rt code keep
theirs. --names prints old and new and writes nothing.
"""
import glob
import re
import sys

WORD = r"[^\s(){}.;:,@\"«»\[\]`]+"
DECLARED = re.compile(r"^ {0,12}((?:(?:pub|abbrev|unfoldable|ruleset|data|record)\s+)*)(" + WORD + r")\s*:(?=\s)")
# Chosen by hand: two fields that a definition would hide, and names that would else fall together.
CHOSEN = {"in_image": "address_in_image", "same_bytes": "same_area", "byHeld": "by_held", "noJmpl": "is_no_jmpl"}
KEYWORDS = {"use", "let", "in", "module", "mod", "where", "field"}


def declared():
    names, fields = {}, set()
    for path in sorted(glob.glob("crates/*/specs/**/*.antt", recursive=True) + glob.glob("crates/*/proofs/*.antt")):
        in_record = False
        for line in open(path, encoding="utf-8"):
            if re.match(r"(pub )?record |record pub ", line):
                in_record = True
            elif line.strip() and not line.startswith(" "):
                in_record = False
            found = DECLARED.match(line)
            if not found or line.strip().startswith("--") or found[2] in KEYWORDS:
                continue
            name = found[2]
            names.setdefault(name, set()).add("abbrev" in found[1] or "unfoldable" in found[1] or "data" in found[1])
            if in_record and line.startswith(" "):
                fields.add(name)
    return names, fields


def snake(name):
    if name[0].isupper():
        return name
    return re.sub(r"(?<=[a-z0-9])([A-Z])", lambda m: "_" + m[1].lower(), name).replace("-", "_")


def mapping(names, fields):
    """Definitions come first, since contracts cite them, then fields, and lemmas last."""
    new, taken = dict(CHOSEN), set(CHOSEN.values())

    def rank(name):
        return (not any(names[name]), name not in fields, snake(name) != name, name)

    for name in sorted((it for it in names if it not in new), key=rank):
        to = snake(name)
        while to in taken and not name[0].isupper():
            to += "_lem"
        taken.add(to)
        if to != name:
            new[name] = to
    return new


def respell(text, new, fields, tokens, everywhere=False):
    def one(found):
        word = found[0]
        behind_dot = found.start() and text[found.start() - 1] == "."
        if word not in new or (behind_dot and not everywhere and word not in fields):
            return word
        return new[word]

    return tokens.sub(one, text)


def main(argv):
    names, fields = declared()
    new = mapping(names, fields)
    if "--names" in argv:
        for old in sorted(new):
            print(old, new[old])
        return 0
    tokens = re.compile(WORD)
    for path in sorted(glob.glob("crates/*/**/*", recursive=True)):
        if not path.endswith((".antt", ".rt", ".edit")) or "/out/" in path:
            continue
        text = open(path, encoding="utf-8").read()
        # In lemmas and definitions Rattle makes no name behind a dot: it is a field, of a record perhaps that stands in a section.
        lemmas = re.fullmatch(r"crates/\w+/(specs/.*|proofs/[^/]*)\.antt", path)
        # In code a word that has the new spelling already is a function.
        names = {it: new[it] for it in new if snake(it) != it} if path.endswith(".rt") else new
        to = respell(text, names, fields, tokens, bool(lemmas))
        if to != text:
            open(path, "w", encoding="utf-8").write(to)
    for path in sorted(glob.glob("docs/*.md")) + ["README.md"]:
        text = open(path, encoding="utf-8").read()
        to = re.sub(r"`[^`\n]+`", lambda m: "`" + respell(m[0][1:-1], new, fields, tokens) + "`", text)
        if to != text:
            open(path, "w", encoding="utf-8").write(to)
    return 0


if __name__ == "__main__":
    raise SystemExit(main(sys.argv[1:]))
