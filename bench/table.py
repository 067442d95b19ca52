"""Prints the table of ratios, in Markdown, from the files of a run: table.py FOLDER."""

import os
import sys

WORDS = {
    "ours": "ours",
    "peer": "tuned peer",
    "foma": "foma",
    "foma-kept": "foma, memory kept",
    "foma-pairs": "foma, pairs too",
    "sqlite": "SQLite",
    "sqlite-filled": "SQLite, filling too",
    "rdflib": "rdflib",
}
NOT_COUNTED = ("foma-kept", "foma-pairs", "sqlite-filled", "rdflib")
HEAD = """Ours is the proved code, called from Rust. A time is the median of several runs, warm, in microseconds, each the lesser of the
time that passed and of processor time; behind it stands how many times as long as ours it is, so above 1 ours is faster. Instructions are
those of callgrind in one run. Buffers are not cleared first: every lent buffer is filled with a pattern before each call, outside of what
is measured, and the operations write what they promise. Random jobs are measured together, 20 to a line. "foma" is the library as it is,
and counts no pairs; "memory kept" has the allocator keep what was freed; "pairs too" adds to that foma's subset construction, whose sets
are the pairs. "SQLite" is the query alone; "filling too" adds the filling of its tables, since an operation checks and indexes its table in
every call. A dash: not run, or not counted.
"""


def plain(text):
    """A bar would end a cell."""
    return text.replace("|", "\\|")


def rows(folder, name):
    path = os.path.join(folder, name)
    if not os.path.exists(path):
        return []
    return [line.rstrip("\n").split("\t") for line in open(path, encoding="utf-8")]


def numbers(folder, name):
    """By case and by who: the times or counts."""
    return {(row[0], row[1]): float(row[2]) for row in rows(folder, name) if row[2]}


def amount(number):
    """Three figures, with commas."""
    if number >= 100:
        return f"{number:,.0f}"
    return f"{number:.3g}"


def cell(values, case, who, scale):
    value, ours = values.get((case, who)), values.get((case, "ours"))
    if value is None:
        return "–"
    text = amount(value * scale)
    return text if who == "ours" else f"{text} ({amount(value / ours)})"


def table(cases, others, times, counts):
    people = ["ours", "peer"] + others
    counted = ["ours", "peer"] + [who for who in others if who not in NOT_COUNTED]
    names = [f"{WORDS[who]}, µs" for who in people] + [f"{WORDS[who]}, instructions" for who in counted]
    print("| operation | input | " + " | ".join(names) + " |")
    print("|---|---|" + "---:|" * len(names))
    for case, operation, title, *_ in cases:
        cells = [cell(times, case, who, 1e6) for who in people] + [cell(counts, case, who, 1) for who in counted]
        print(f"| {operation} | {plain(title)} | " + " | ".join(cells) + " |")
    print()


def ratios(values, cases, who, base="ours"):
    """How many times as long as ours, or as another's, and where; the least first."""
    known = [(case, title) for case, _, title, *_ in cases if (case, who) in values]
    return sorted((values[case, who] / values[case, base], title) for case, title in known)


def reaching(times, cases, who, base, wanted):
    found = ratios(times, cases, who, base)
    return f"{sum(ratio >= wanted for ratio, _ in found)} of {len(found)}"


def reach(what, wanted, cases, who, times, counts):
    line = f"| {what} against {WORDS[who]} | {wanted} |"
    for values in (times, counts):
        found = ratios(values, cases, who)
        line += f" {amount(found[0][0])} ({plain(found[0][1])}) |" if found else " – |"
    line += f" {reaching(times, cases, who, 'ours', wanted)} |"
    print(line, "– |" if who == "peer" else f"{reaching(times, cases, who, 'peer', wanted)} |")


def slope(points):
    """What one more costs, by least squares."""
    x, y = (sum(column) / len(points) for column in zip(*points))
    return sum((u - x) * (v - y) for u, v in points) / sum((u - x) ** 2 for u, _ in points)


def bend(points):
    """The slope of a series' upper half over that of its lower half: 1 where growth is linear."""
    middle = len(points) // 2
    return slope(points[middle:]) / slope(points[: middle + 1])


SERIES = {
    "links-example": "links, `a.(b.a\\|c)*`",
    "links-standings": "links, 33 standings",
    "states": "states",
    "pairs": "pairs",
}


def growth(folder):
    counted = rows(folder, "growth-counts.tsv")
    found = counted or rows(folder, "growth-times.tsv")
    print("| growth in | from | to | ours | tuned peer |\n|---|---:|---:|---:|---:|")
    for series, title in SERIES.items():
        points = {who: [(float(row[1]), float(row[3])) for row in found if (row[0], row[2]) == (series, who)] for who in ("ours", "peer")}
        ends = points["ours"][0][0], points["ours"][-1][0]
        print(f"| {title} | {ends[0]:,.0f} | {ends[1]:,.0f} | {bend(points['ours']):.2f} | {bend(points['peer']):.2f} |")
    what = "instructions" if counted else "time"
    print(f"\nGrowth: what one more costs in {what} in the upper half of the series, over the lower half. 1 is linear.")


def main():
    folder = sys.argv[1]
    cases, times, counts = rows(folder, "cases.tsv"), numbers(folder, "times.tsv"), numbers(folder, "counts.tsv")
    kinds = {kind: [case for case in cases if case[1].startswith(kind)] for kind in ("Find", "Verdict", "Answer")}
    print(HEAD)
    table(kinds["Find"] + kinds["Verdict"], ["foma", "foma-kept", "foma-pairs"], times, counts)
    table(kinds["Answer"], ["sqlite", "sqlite-filled", "rdflib"], times, counts)
    print("| reach | wanted | least ratio by time | least ratio by instructions | ours reaches it on | the tuned peer on |")
    print("|---|---:|---:|---:|---:|---:|")
    wanted = {"foma": 20, "foma-kept": 20, "foma-pairs": 20, "sqlite": 100, "sqlite-filled": 100, "peer": 1}
    finders, answerers = ["foma", "foma-kept"], ["sqlite", "sqlite-filled"]
    for kind, others in (("Find", finders), ("Verdict", finders + ["foma-pairs"]), ("Answer", answerers)):
        for who in others + ["peer"]:
            reach(kind, wanted[who], kinds[kind], who, times, counts)
    print()
    growth(folder)


main()
