#!/usr/bin/env python3
"""Writes the table of fault lines into the pages that show it, from docs/use/faults.tsv.

usage: tools/faults.py            writes them
       tools/faults.py --check    prints the pages that differ from the table; status 1 if any does

The table has six columns, separated by tabs: the status; the fault line, with a capital letter for each
number; where the row holds, in words; the same as a pattern; the cause; the remedy. A pattern is an
extended regular expression in which \\NNN is a byte in octal, or >N for a line of more than N bytes. Of
several rows for a fault line the first whose pattern fits the quoted line holds; one without a pattern
always does. `wave --help` and the launcher's explanations read the table itself.
"""
import os
import re
import sys

TOP = os.path.dirname(os.path.dirname(os.path.abspath(__file__)))
TABLE = os.path.join(TOP, "docs/use/faults.tsv")


def rows():
    """The rows of the table as tuples, without its heading."""
    with open(TABLE, encoding="utf-8") as file:
        lines = file.read().split("\n")
    result = []
    for number, line in enumerate(lines[1:], 2):
        if not line:
            continue
        columns = line.split("\t")
        if len(columns) != 6:
            sys.exit(f"{TABLE}: line {number} has {len(columns)} columns")
        result.append(tuple(columns))
    return result


def markdown(text):
    """A cell of a Markdown table: bars are escaped, and the language's page is linked."""
    return text.replace("|", "\\|").replace("LANGUAGE.md", "[LANGUAGE.md](LANGUAGE.md)")


def page():
    """The table for docs/use/FAULTS.md."""
    lines = ["| line | status | cause | remedy |", "|---|---|---|---|"]
    for status, line, where, _, cause, remedy in rows():
        form = f"`{line}`" + (f", {where}" if where else "")
        lines.append(f"| {markdown(form)} | {status} | {markdown(cause)} | {markdown(remedy)} |")
    return "\n".join(lines) + "\n"


def roff(text):
    """A text of the table for the man page: code in bold, hyphens and backslashes as they are."""
    text = text.replace("\\", "\\e").replace("-", "\\-").replace("'", "\\(aq")
    text = re.sub(r"`([^`]*)`", lambda code: "\\fB" + code.group(1).replace("..", ".\\|.") + "\\fR", text)
    return text.replace("..", ".\\|.")


def sentence(text):
    """A text of the table as a sentence."""
    return text[:1].upper() + text[1:] + ("" if text.endswith("?") else ".")


def manual():
    """The list for docs/use/wave.1: the rows without a pattern."""
    lines = []
    for status, line, _, pattern, cause, remedy in rows():
        if pattern:
            continue
        form = re.sub(r"\b([A-Z])\b", r"\\fI\1\\fB", roff(line))
        lines.append(f".TP\n\\fB{form}\\fR (status {status})")
        for text in (cause, remedy):
            text = roff(sentence(text))
            lines.append(("\\&" if text.startswith((".", "\\(aq")) else "") + text)
    return "\n".join(lines) + "\n"


def filled(text, first, last, table):
    """The text of a page with what stands between its two marks replaced."""
    before, rest = text.split(first, 1)
    _, after = rest.split(last, 1)
    return before + first + table + last + after


PAGES = [
    ("docs/use/FAULTS.md", "<!-- by tools/faults.py -->\n", "<!-- until here -->\n", page),
    ("docs/use/wave.1", ".\\\" by tools/faults.py\n", ".\\\" until here\n", manual),
]


def main():
    if sys.argv[1:] in (["--help"], ["-h"]):
        print(__doc__.strip())
        return 0
    if sys.argv[1:] not in ([], ["--check"]):
        print(__doc__.strip(), file=sys.stderr)
        return 2
    status = 0
    for name, first, last, table in PAGES:
        path = os.path.join(TOP, name)
        with open(path, encoding="utf-8") as file:
            old = file.read()
        new = filled(old, first, last, table())
        if new == old:
            continue
        if sys.argv[1:]:
            print(f"{name} differs from docs/use/faults.tsv")
            status = 1
        else:
            with open(path, "w", encoding="utf-8") as file:
                file.write(new)
    return status


if __name__ == "__main__":
    sys.exit(main())
