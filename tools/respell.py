#!/usr/bin/env python3
"""Spells the repository's own words in snake case, as today's Rattle wants them: a word that begins with a small letter and has a capital, as
'rowWidth', becomes 'row_width'. A name of several words joined by dashes is turned word by word. Nothing else changes.

usage: respell.py [--check] ROOT

It turns .antt files, .rt files and must-fail edits below ROOT/crates, and code spans of the pages of ROOT. Paths of modules (their parts begin
with a capital) stay. Where two words of one file of specs/ would fall together it says so, and turns nothing; a clause's word
and a function of the source may have one name.
"""

import os
import re
import sys

WORD = re.compile(r"[^\s(){}.;,@\"«»`'′]+")
PART = re.compile(r"(?<![A-Za-z0-9_])[a-z][a-z0-9]*(?:[A-Z][a-z0-9]*)+(?![A-Za-z0-9_])")
# Words that would fall together with a definition's new name, or that follow a word of the library.
FIRST = {"rest_back": "rest_back_lem", "keep_left": "keep_left_lem", "getD": "get_or"}
OWN = re.compile(r"(?<![A-Za-z0-9_.])(%s)(?![A-Za-z0-9_])" % "|".join(FIRST))
SPAN = re.compile(r"`[^`\n]*`")


def snake(word):
    return re.sub(r"(?<=[a-z0-9])[A-Z]", lambda m: "_" + m[0].lower(), word)


def turned(text):
    return PART.sub(lambda m: snake(m[0]), text)


def begun(path, text):
    """The words of FIRST turned, in specifications and proofs; a function of the source keeps its name."""
    return OWN.sub(lambda m: FIRST[m[0]], text) if path.endswith(".antt") else text


def files(root):
    for folder, dirs, names in os.walk(os.path.join(root, "crates")):
        dirs[:] = sorted(d for d in dirs if d not in ("out", "target"))
        for name in sorted(names):
            if name.endswith((".antt", ".rt", ".edit")):
                yield os.path.join(folder, name), False
    for folder in (root, os.path.join(root, "docs")):
        for name in sorted(os.listdir(folder)):
            if name.endswith(".md"):
                yield os.path.join(folder, name), True


def meets(text):
    seen = {}
    for word in set(WORD.findall(text)):
        seen.setdefault(turned(word), set()).add(word)
    return [sorted(v) for v in seen.values() if len(v) > 1]


def main(argv):
    check = "--check" in argv
    root = [a for a in argv if a != "--check"][0]
    work, bad = [], 0
    for path, page in files(root):
        with open(path, encoding="utf-8") as f:
            text = f.read()
        new = begun(path, text)
        if path.endswith(".antt") and "/specs/" in path:
            for words in meets(new):
                print(f"{path}: {' and '.join(words)} fall together")
                bad += 1
        new = SPAN.sub(lambda m: turned(m[0]), text) if page else turned(new)
        if new != text:
            work.append((path, new))
    print(f"{len(work)} files, {bad} meetings")
    if bad or check:
        return 1 if bad else 0
    for path, new in work:
        with open(path, "w", encoding="utf-8") as f:
            f.write(new)
    return 0


if __name__ == "__main__":
    raise SystemExit(main(sys.argv[1:]))
