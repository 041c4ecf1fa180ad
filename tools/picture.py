#!/usr/bin/env python3
"""Draws docs/read/levels.svg: a small lower triangular matrix, the levels of its rows, and the tasks of two
workers with the waits between them.

usage: tools/picture.py            writes it
       tools/picture.py --check    status 1 if it differs

Levels, shares and waits are computed here from the matrix by their definitions: a row's level is one more
than the greatest of the rows that it reads; of a level whose rows have the weights q0, q1, .. with sum t, a
row with the sum b before it goes to worker b * 2 // t, where a row weighs 2 and one more for each row that it
reads; a wait stays where no other task lies between.
"""
import os
import sys

TOP = os.path.dirname(os.path.dirname(os.path.abspath(__file__)))
PICTURE = os.path.join(TOP, "docs/read/levels.svg")
BEFORE = [[], [], [0], [1], [0, 1], [1, 2, 3], [4], [4, 5, 6]]
WORKERS = 2
COLOURS = ["#4e79a7", "#59a14f", "#e8a33d", "#c2587a"]


def levels():
    """The level of each row."""
    result = []
    for before in BEFORE:
        result.append(max((result[row] + 1 for row in before), default=0))
    return result


def tasks():
    """The rows of each task, by worker and level."""
    level = levels()
    result = {}
    for at in range(max(level) + 1):
        rows = [row for row in range(len(level)) if level[row] == at]
        weights = [2 + len(BEFORE[row]) for row in rows]
        for place, row in enumerate(rows):
            result.setdefault((sum(weights[:place]) * WORKERS // sum(weights), at), []).append(row)
    return result


def crossings():
    """The pairs of tasks on different workers with dependent rows, and those that are kept as waits."""
    owner = {row: task for task, rows in tasks().items() for row in rows}
    cross = {(owner[i], owner[j]) for j, before in enumerate(BEFORE) for i in before if owner[i][0] != owner[j][0]}
    line = {(a, b) for a in owner.values() for b in owner.values() if a[0] == b[0] and a[1] < b[1]}
    order = cross | line
    while True:
        longer = order | {(a, d) for a, b in order for c, d in order if b == c}
        if longer == order:
            break
        order = longer
    between = {(a, d) for a, b in order for c, d in order if b == c}
    return cross, cross - between


def text(x, y, words, size=13, anchor="middle", fill="#222", more=""):
    return f'<text x="{x}" y="{y}" font-size="{size}" text-anchor="{anchor}" fill="{fill}"{more}>{words}</text>'


def row_mark(x, y, row):
    """A row as a numbered dot in the colour of its level."""
    dot = f'<circle cx="{x}" cy="{y}" r="12" fill="{COLOURS[levels()[row]]}"/>'
    return dot + text(x, y + 5, row, fill="#fff")


def arrow(x, y, to_x, to_y, colour, more=""):
    """An arrow between two marks, which it doesn't touch."""
    length = ((to_x - x) ** 2 + (to_y - y) ** 2) ** 0.5
    across, down = (to_x - x) / length * 14, (to_y - y) / length * 14
    return (
        f'<line x1="{x + across:.1f}" y1="{y + down:.1f}" x2="{to_x - across:.1f}" y2="{to_y - down:.1f}" '
        f'stroke="{colour}" stroke-width="1.5" marker-end="url(#head)"{more}/>'
    )


def matrix(left, top):
    """The stored entries: a row reads the columns of its entries left of the diagonal."""
    size, step = len(BEFORE), 24
    parts = [text(left + size * step / 2, top - 14, "a matrix: row 5 reads 1, 2, 3", 14)]
    for row in range(size):
        parts.append(text(left - 10, top + row * step + 17, row, 12, "end", "#666"))
        for column in range(size):
            x, y = left + column * step, top + row * step
            full = column == row or column in BEFORE[row]
            fill = COLOURS[levels()[row]] if full else "#f2f2f2"
            parts.append(f'<rect x="{x}" y="{y}" width="{step - 2}" height="{step - 2}" fill="{fill}"/>')
    return parts


def level_picture(left, top):
    """The rows by level, with an arrow from each row to those that read it."""
    level = levels()
    place = {}
    for at in range(max(level) + 1):
        rows = [row for row in range(len(level)) if level[row] == at]
        for number, row in enumerate(rows):
            place[row] = (left + 135 + (number - (len(rows) - 1) / 2) * 56, top + 18 + at * 54)
    parts = [text(left + 135, top - 14, "its levels", 14)]
    for at in range(max(level) + 1):
        parts.append(text(left, top + 23 + at * 54, f"level {at}", 12, "start", "#666"))
    for row, before in enumerate(BEFORE):
        parts += [arrow(*place[other], *place[row], "#999") for other in before]
    return parts + [row_mark(*place[row], row) for row in place]


def task_picture(left, top):
    """The tasks of each worker in order, the kept waits as arrows and the others as dotted lines."""
    cross, kept = crossings()
    parts = [text(left + 100, top - 14, "the tasks of two workers", 14)]
    middle = {}
    for (worker, at), rows in tasks().items():
        x, y = left + worker * 120, top + at * 54
        middle[worker, at] = (x + 40, y + 18)
        parts.append(f'<rect x="{x}" y="{y}" width="80" height="36" rx="6" fill="#fff" stroke="#888"/>')
        parts += [row_mark(x + 40 + (number - (len(rows) - 1) / 2) * 30, y + 18, row) for number, row in enumerate(rows)]
    for worker in range(WORKERS):
        parts.append(text(left + worker * 120 + 40, top + 232, f"worker {worker}", 12, fill="#666"))
    for first, second in sorted(cross):
        way = 42 if first[0] < second[0] else -42
        (x, y), (to_x, to_y) = middle[first], middle[second]
        more = "" if (first, second) in kept else ' stroke-dasharray="2 4"'
        parts.append(arrow(x + way - 12 * (way > 0) + 12 * (way < 0), y, to_x - way, to_y, "#b03030" if not more else "#999", more))
    return parts


def picture():
    """The text of the file."""
    cross, kept = crossings()
    note = f"Arrows there: {len(kept)} waits; dotted: {len(cross) - len(kept)} that need none, as other tasks lie between"
    parts = [
        '<svg xmlns="http://www.w3.org/2000/svg" viewBox="0 0 760 320" font-family="sans-serif" role="img">',
        "<title>A small matrix, the levels of its rows and the tasks of two workers</title>",
        '<defs><marker id="head" viewBox="0 0 8 8" refX="7" refY="4" markerWidth="7" markerHeight="7" '
        'orient="auto"><path d="M0 0 8 4 0 8z" fill="context-stroke"/></marker></defs>',
        '<rect width="760" height="320" fill="#fff"/>',
        *matrix(40, 50),
        *level_picture(260, 50),
        *task_picture(530, 50),
        text(20, 304, note, 11, "start", "#666"),
        text(20, 286, "On the right, what `wave plan` prints for two workers. So far `wave run` has one.", 11, "start", "#666"),
        "</svg>",
    ]
    return "\n".join(parts) + "\n"


def main():
    words = sys.argv[1:]
    if words in (["--help"], ["-h"]):
        print(__doc__.strip())
        return 0
    if words not in ([], ["--check"]):
        print(__doc__.strip(), file=sys.stderr)
        return 2
    if not words:
        with open(PICTURE, "w", encoding="utf-8") as file:
            file.write(picture())
        return 0
    with open(PICTURE, encoding="utf-8") as file:
        if file.read() == picture():
            return 0
    print("docs/read/levels.svg differs from what tools/picture.py draws")
    return 1


if __name__ == "__main__":
    sys.exit(main())
