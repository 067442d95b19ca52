"""Draws the growth in links, states and pairs as an SVG, from the files of a run: chart.py FOLDER writes FOLDER/growth.svg."""

import os
import sys

WIDTH, HEIGHT, GAP = 300, 220, 72
COLOURS = {"ours": "#1f5f99", "peer": "#c8641b"}
WORDS = {"ours": "ours", "peer": "tuned peer"}
PANELS = [
    ("Answer from links, 4,096 recordings", "links", [("links-example", "a.(b.a|c)*"), ("links-standings", "33 standings")]),
    ("Find, lists a and a?", "states", [("states", "")]),
    ("Verdict, query (a|b)*, list (a|b)*.a.(a|b)…", "pairs", [("pairs", "")]),
]


def read(folder):
    """The counted instructions in millions, or the times in milliseconds where nothing was counted."""
    for name, unit, scale in (("growth-counts.tsv", "million instructions", 1e6), ("growth-times.tsv", "milliseconds", 1e-3)):
        path = os.path.join(folder, name)
        lines = [line.split("\t") for line in open(path, encoding="utf-8")] if os.path.exists(path) else []
        if lines:
            return unit, [(row[0], row[2], float(row[1]), float(row[3]) / scale) for row in lines]
    sys.exit("chart: nothing was measured")


def step(most):
    """A round distance of four to eight ticks."""
    size = 1.0
    while size * 10 <= most:
        size *= 10
    while size > most:
        size /= 10
    return next(size * part for part in (0.2, 0.25, 0.5, 1, 2) if most / (size * part) <= 6)


def text(x, y, words, anchor="middle", **more):
    rest = "".join(f' {key.replace("_", "-")}="{value}"' for key, value in more.items())
    return f'<text x="{x:.1f}" y="{y:.1f}" text-anchor="{anchor}"{rest}>{words}</text>'


def axes(left, top, most_x, most_y, title, name, unit):
    parts = [text(left + WIDTH / 2, top - 14, title, font_weight="bold")]
    size, number = step(most_y), 0
    while number * size <= most_y:
        y = top + HEIGHT - HEIGHT * number * size / most_y
        parts.append(f'<line x1="{left}" y1="{y:.1f}" x2="{left + WIDTH}" y2="{y:.1f}" stroke="#dddddd"/>')
        parts.append(text(left - 6, y + 4, f"{number * size:,.6g}", "end"))
        number += 1
    size, number = step(most_x), 0
    while number * size <= most_x:
        parts.append(text(left + WIDTH * number * size / most_x, top + HEIGHT + 16, f"{number * size:,.0f}"))
        number += 1
    parts.append(text(left + WIDTH / 2, top + HEIGHT + 34, name))
    parts.append(f'<line x1="{left}" y1="{top + HEIGHT}" x2="{left + WIDTH}" y2="{top + HEIGHT}" stroke="#333333"/>')
    parts.append(text(left, top - 2, unit, "start", fill="#666666", font_size="10"))
    return parts


def line(left, top, most_x, most_y, points, who, dashed):
    places = [(left + WIDTH * x / most_x, top + HEIGHT - HEIGHT * y / most_y) for x, y in points]
    joined = " ".join(f"{x:.1f},{y:.1f}" for x, y in places)
    dash = ' stroke-dasharray="5 3"' if dashed else ""
    parts = [f'<polyline points="{joined}" fill="none" stroke="{COLOURS[who]}" stroke-width="1.8"{dash}/>']
    parts += [f'<circle cx="{x:.1f}" cy="{y:.1f}" r="2.4" fill="{COLOURS[who]}"/>' for x, y in places]
    return parts


def key(left, top, names):
    """Which line is which, below the title."""
    parts = [f'<rect x="{left + 4}" y="{top + 2}" width="{60 + 6.2 * max(len(words) for words, _, _ in names):.0f}" '
             f'height="{8 + 15 * len(names)}" fill="white"/>']
    for number, (words, who, dashed) in enumerate(names):
        y = top + 16 + 15 * number
        dash = ' stroke-dasharray="5 3"' if dashed else ""
        ends = f'x1="{left + 10}" y1="{y - 4}" x2="{left + 34}" y2="{y - 4}"'
        parts.append(f'<line {ends} stroke="{COLOURS[who]}" stroke-width="1.8"{dash}/>')
        parts.append(text(left + 40, y, words, "start"))
    return parts


def panel(number, rows, unit, title, name, series):
    left, top = GAP + number * (WIDTH + GAP), 50
    chosen = [row for row in rows if row[0] in [one for one, _ in series]]
    most_x, most_y = max(row[2] for row in chosen), 1.05 * max(row[3] for row in chosen)
    parts, names = axes(left, top, most_x, most_y, title, name, unit), []
    for dashed, (one, words) in enumerate(series):
        for who in ("ours", "peer"):
            points = [(x, y) for found, by, x, y in chosen if (found, by) == (one, who)]
            parts += line(left, top, most_x, most_y, points, who, dashed)
            names.append((f"{WORDS[who]}{', ' if words else ''}{words}", who, dashed))
    return parts + key(left, top, names)


def main():
    folder = sys.argv[1]
    unit, rows = read(folder)
    width, height = GAP + len(PANELS) * (WIDTH + GAP), HEIGHT + 100
    parts = [f'<svg xmlns="http://www.w3.org/2000/svg" viewBox="0 0 {width} {height}" font-family="sans-serif" font-size="12">']
    parts.append(f'<rect width="{width}" height="{height}" fill="white"/>')
    for number, (title, name, series) in enumerate(PANELS):
        parts += panel(number, rows, unit, title, name, series)
    with open(os.path.join(folder, "growth.svg"), "w", encoding="utf-8") as file:
        file.write("\n".join(parts + ["</svg>\n"]))


main()
