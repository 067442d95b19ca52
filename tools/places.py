#!/usr/bin/env python3
"""Counts, in the sources of a checkout, places where an older form may stand (docs/DESIGN-PASS.md). Run at the top: tools/places.py [--list]

1 enums, fields that are a flag, comments that tell a number for "none"; 3 loops whose index is counted by hand; 5 functions of ten and more
parameters, and facts that stand in the requires of three and more functions; 6 bare `out, at`; 8 answers of proofs."""
import collections
import glob
import re
import sys

LISTING = "--list" in sys.argv[1:]


def sources():
    for path in sorted(glob.glob("crates/*/src/*.rt")):
        yield path, open(path).read()


def show(title, found):
    by = collections.Counter(path.split("/")[1] for path, _ in found)
    print(f"{title}: {len(found)}", dict(by) if by else "")
    if LISTING:
        for path, what in found:
            print(f"    {path}: {what}")


def lines(pattern):
    return [(p, m.group(0).strip()) for p, s in sources() for m in re.finditer(pattern, s, re.M)]


def split(text, at):
    parts, depth, part = [], 0, ""
    for c in text:
        depth += (c in "([<{") - (c in ")]>}")
        if c == at and depth == 0:
            parts.append(part)
            part = ""
        else:
            part += c
    return [p.strip() for p in parts + [part] if p.strip()]


def functions():
    for path, text in sources():
        for m in re.finditer(r"\bfn (\w+)(?:<[^>(]*>)?\(", text):
            end, depth = m.end(), 1
            while depth:
                depth += (text[end] == "(") - (text[end] == ")")
                end += 1
            yield path, m.group(1), split(text[m.end() : end - 1], ",")


def facts():
    where = collections.defaultdict(list)
    for path, text in sources():
        for m in re.finditer(r"requires(?: \w+)? \{([^{}]*)\}", text):
            for fact in split(re.sub(r"\s+", " ", m.group(1)), "×"):
                where[re.sub(r"\.(now|old)\b", "", fact.strip("()"))].append(path)
    return [(paths[0], f"{fact}: {len(paths)}") for fact, paths in where.items() if len(paths) > 2]


show("1 enums", lines(r"^.*\benum \w+"))
show("1 fields that are a flag", lines(r"^\s+pub(?:\(\w+\))? \w+: bool,"))
show("1 a number for none", lines(r"^\s*//.*where (?:there (?:is|are)|it is|it has) (?:none|not|no )[^\n]*"))
show("3 loops by hand", lines(r"^\s*(?:while|loop)\b.*"))
show("3 of these over the bits of a word", lines(r"^\s*while \w+ != 0 .*"))
show("5 functions of ten and more parameters", [(p, f"{f} ({len(a)})") for p, f, a in functions() if len(a) > 9])
show("5 facts in three and more requires", facts())
show("6 a buffer and a place in it", [(p, f) for p, f, a in functions() if "at: usize" in a and any(x.startswith("out:") for x in a)])
answers = [(p, m) for p in glob.glob("crates/*/proofs/**/Answers.antt", recursive=True) for m in re.findall(r"^pub \S+", open(p).read(), re.M)]
show("8 answers", answers)
