#!/usr/bin/env python3
"""Respells the definitions and lemmas of this repository: words in snake case, modules in camel case.

usage: python3 tools/respell.py [CHECKOUT]

Run once, after the kit's port.py. tools/names.txt has a line 'OLD NEW' for each name. A name that a lemma shared
with a definition ends in _lem; as the field of a record, as a step of a proof or in a path such a name has no _lem.
Comments and strings stay, but for names in backquotes. The folder specs/told of a crate becomes specs/Told.
"""

import os
import re
import subprocess
import sys

HERE = os.path.dirname(os.path.realpath(__file__))
TOKEN = re.compile(r"[^\s(){}\[\],;.\"`]+")
# The names that are both a field and a lemma: before ' : ' or ' = ' they are taken for the field.
FIELDS = {
    "one-step", "only-refuses", "hands-back", "invents-count", "drops-row", "passes-earlier-row", "check-book",
    "new-first", "head-is", "row_has", "only_none", "same_body",
}


def names():
    with open(os.path.join(HERE, "names.txt"), encoding="utf-8") as f:
        return dict(l.split() for l in f if l.strip())


def plain(new):
    return re.sub(r"_lem\d*$", "", new)


def code(text, known, lean):
    """The names of a piece of code; with lean, of a source file, where no lemma is named."""

    def turn(m):
        old = m.group(0)
        new = known.get(old)
        if new is None:
            return old
        lemma = new != plain(new)
        if lemma and lean:
            return old
        if lemma and m.start() > 0 and text[m.start() - 1] == ".":
            return plain(new)
        if lemma and old in FIELDS and m.start() > 0 and re.match(r" [:=] ", text[m.end():]):
            return plain(new)
        return new

    return TOKEN.sub(turn, text)


def quoted(text, known):
    return re.sub(r"`([^`]*)`", lambda m: "`" + TOKEN.sub(lambda t: known.get(t.group(0), t.group(0)), m.group(1)) + "`", text)


def split(line, mark):
    """The code of a line, and its comment with the mark."""
    m = re.search(r"(^|\s)" + mark + r"(?=\s|$)", line)
    return (line, "") if m is None else (line[: m.start()], line[m.start():])


def antt(line, known):
    head, tail = split(line, "--")
    head = re.sub(r"\.specs\.told(?![\w'-])", ".specs.Told", head)
    head = re.sub(r"^((?:pub )?mod) told$", r"\1 Told", head)
    return code(head, known, False) + quoted(tail, known)


def rattle(line, known):
    head, tail = split(line, "//")
    if '"' in head or "'" in head:
        parts = re.split(r"(\"(?:[^\"\\]|\\.)*\"|b?'(?:[^'\\]|\\.)')", head)
        head = "".join(p if i % 2 else code(p, known, True) for i, p in enumerate(parts))
    else:
        head = code(head, known, True)
    head = re.sub(r"\.specs\.told(?![\w'-])", ".specs.Told", head)
    return head + quoted(tail, known)


def main(argv):
    root = argv[0] if argv else os.path.dirname(HERE)
    known = names()
    crates = os.path.join(root, "crates")
    for crate in sorted(os.listdir(crates)):
        specs = os.path.join(crates, crate, "specs")
        if os.path.isdir(os.path.join(specs, "told")):
            for old, new in (("told", "Told"), ("told.antt", "Told.antt")):
                subprocess.run(["git", "mv", os.path.join(specs, old), os.path.join(specs, new)], check=True, cwd=root)
    for folder, dirs, files in os.walk(crates):
        dirs[:] = sorted(d for d in dirs if d != "out")
        for f in sorted(files):
            turn = antt if f.endswith(".antt") else rattle if f.endswith(".rt") else None
            if turn is None:
                continue
            path = os.path.join(folder, f)
            with open(path, encoding="utf-8") as it:
                text = it.read()
            with open(path, "w", encoding="utf-8") as it:
                it.write("\n".join(turn(line, known) for line in text.split("\n")))
    return 0


if __name__ == "__main__":
    raise SystemExit(main(sys.argv[1:]))
