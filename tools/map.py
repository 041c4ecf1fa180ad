#!/usr/bin/env python3
"""Writes docs/read/MAP.md, the list of the crates, from crates.txt and the first sentence of each crate.

usage: tools/map.py            writes it
       tools/map.py --check    status 1 if it differs

The comments of crates.txt are the headings. A crate is said to stand on the crates of this repository that
it uses and that none of the others leads to.
"""
import os
import re
import sys

TOP = os.path.dirname(os.path.dirname(os.path.abspath(__file__)))
MAP = os.path.join(TOP, "docs/read/MAP.md")

HEAD = """# The crates

A crate is a folder of [crates/](../../crates), and stands on the crates beside it in the table; the
lowest ones come first. A library has a page of its own in its folder. Crates in *italics* are part of the
program so far: `wave` stands on them. `bench_` crates are programs that measure,
`tests_` crates hold tests, and `_samples` crates make cases for both.
In each crate `src/` has the code with its contracts, `specs/` the definitions that they cite
([DEFINITIONS.md](DEFINITIONS.md)), `proofs/` what was written of the proofs, `must-fail/` edits that the
prover has to refuse. This page is made by [tools/map.py](../../tools/map.py).
"""


def groups():
    """The headings of crates.txt, each with its crates and what these use. The first comment is no heading."""
    result = []
    with open(os.path.join(TOP, "crates.txt"), encoding="utf-8") as file:
        lines = [line.strip() for line in file]
    blank = False
    for line in lines:
        if line.startswith("#") and (blank or not result):
            result.append((line.lstrip("# "), []))
        elif line:
            name, uses = line.split("#")[0].split(":")
            result[-1][1].append((name.split()[0], uses.split()))
        blank = not line
    return [(heading, crates) for heading, crates in result if crates]


def sentence(crate):
    """The first sentence of a crate's first paragraph, without its point."""
    folder = os.path.join(TOP, "crates", crate, "src")
    name = next(name for name in ("lib.rt", "main.rt") if os.path.exists(os.path.join(folder, name)))
    words = []
    with open(os.path.join(folder, name), encoding="utf-8") as file:
        for line in file:
            if not line.startswith("//! "):
                break
            words.append(line[4:].strip())
    return re.split(r"\.(?: |$)", " ".join(words))[0]


def below(crate, uses):
    """All crates of the repository that a crate leads to."""
    result = set()
    waiting = [name for name in uses[crate] if name in uses]
    while waiting:
        name = waiting.pop()
        if name not in result:
            result.add(name)
            waiting += [further for further in uses[name] if further in uses]
    return result


def stands_on(crate, uses):
    """The crates that it uses and that none of the others leads to."""
    direct = [name for name in uses[crate] if name in uses]
    return [name for name in direct if not any(name in below(other, uses) for other in direct)]


def page():
    """The text of the page."""
    listed = groups()
    uses = {name: needs for _, crates in listed for name, needs in crates}
    built = below("wave", uses) | {"wave"}
    parts = [HEAD]
    for heading, crates in listed:
        parts.append(f"\n## {heading[:1].upper()}{heading[1:]}\n\n| crate | what it is | stands on |\n|---|---|---|\n")
        for name, _ in crates:
            shown = f"[`{name}`](../../crates/{name})"
            shown = f"*{shown}*" if name in built else shown
            lower = ", ".join(f"`{other}`" for other in stands_on(name, uses))
            parts.append(f"| {shown} | {sentence(name)} | {lower} |\n")
    return "".join(parts)


def main():
    words = sys.argv[1:]
    if words in (["--help"], ["-h"]):
        print(__doc__.strip())
        return 0
    if words not in ([], ["--check"]):
        print(__doc__.strip(), file=sys.stderr)
        return 2
    text = page()
    if not words:
        with open(MAP, "w", encoding="utf-8") as file:
            file.write(text)
        return 0
    with open(MAP, encoding="utf-8") as file:
        if file.read() == text:
            return 0
    print("docs/read/MAP.md differs from crates.txt and the crates; tools/map.py writes it")
    return 1


if __name__ == "__main__":
    sys.exit(main())
