#!/usr/bin/env python3
"""Makes the mistakes that a new user makes, and looks for the remedy on a terminal.

usage: tests/mistakes.py [PROGRAM]

Each mistake is judged twice: whether the program gives the fault line (skipped where there is no built
program), and whether the launcher names the remedy below it, within 24 lines. The last line is
`N passed, M failed, K skipped`.
"""
import gzip
import os
import sys

from harness import TOP, Cases, call, has_program, program_of, scratch, written

CASES = Cases("mistakes")
LAUNCHER = os.path.join(TOP, "wave")
LOOP = """matrix a csr
vector b n file
vector x n zero
loop i
  set x[i] = b[i]
  for p in a.ptr[i]..a.diag[i]
    set x[i] = x[i] - b[i]
  end
end
"""
MATRIX = """%%MatrixMarket matrix coordinate integer general
3 3 5
1 1 1
2 1 2
2 2 1
3 2 3
3 3 1
"""
VECTOR = "%%MatrixMarket matrix array integer general\n3 1\n1\n2\n3\n"
ORDER = "%%MatrixMarket matrix array integer general\n4 1\n1\n1\n2\n1\n"
WORDS = ["run", "a.loop", "a.mtx", "1", "b.mtx"]


def loop(line, number=5):
    """The loop with another line of this number."""
    lines = LOOP.split("\n")
    lines[number - 1] = line
    return {"a.loop": "\n".join(lines)}


def matrix(old, new):
    """The matrix with a part of it exchanged."""
    assert old in MATRIX
    return {"a.mtx": MATRIX.replace(old, new)}


def vector(old, new):
    """The vector with a part of it exchanged."""
    assert old in VECTOR
    return {"b.mtx": VECTOR.replace(old, new)}


# what was done; files; words; the fault line; a part of the remedy
MISTAKES = [
    ("a sign before a value", loop("  set x[i] = -b[i]"), WORDS, "loop text line 5", "0 - b[i]"),
    ("a sign in parentheses", loop("  set x[i] = b[i] * (-2)"), WORDS, "loop text line 5", "0 - b[i]"),
    ("a turned index", loop("  set x[i] = b[n-1-i]"), WORDS, "loop text line 5", "b[n-1-i]"),
    ("a sum of two indices", loop("  set x[i] = b[i+i]"), WORDS, "loop text line 5", "index file"),
    ("a product in an index", loop("  set x[i] = b[2*i]"), WORDS, "loop text line 5", "index file"),
    ("plus and equals", loop("  set x[i] += b[i]"), WORDS, "loop text line 5", "set x[i] = x[i] + .."),
    ("a comment after a line", loop("  set x[i] = b[i] # start"), WORDS, "loop text line 5", "line above"),
    ("bounds of the outer loop", loop("loop i in 0..n", 4), WORDS, "loop text line 4", "write `loop i`"),
    ("a statement without set", loop("  x[i] = b[i]"), WORDS, "loop text line 5", "set x[i] = .."),
    ("a capital letter", loop("  set X[i] = b[i]"), WORDS, "loop text line 5", "small letters"),
    ("a number with a point", loop("  set x[i] = 0.5 * b[i]"), WORDS, "loop text line 5", "scale them"),
    ("two brackets", loop("  set x[i] = a[i][i]"), WORDS, "loop text line 5", "a.ptr[i]..a.ptr[i+1]"),
    ("a scalar", loop("  set s = b[i]"), WORDS, "loop name line 5 unknown", "local s"),
    ("a local in the loop", loop("  local s"), WORDS, "loop text line 5", "above the loop"),
    ("a maximum of one value", loop("  set x[i] = max(b[i])"), WORDS, "loop text line 5", "take two values"),
    ("a vector without a bracket", loop("  set x = b[i]"), WORDS, "loop name line 5 wrong_kind", "an entry such as `x[i]`"),
    ("a semicolon", loop("  set x[i] = b[i];"), WORDS, "loop text line 5", "leave them out"),
    ("an if", loop("  if i < n"), WORDS, "loop text line 5", "when a.col[p] < i"),
    ("a greater sign", loop("  when n > i"), WORDS, "loop text line 5", "b < a"),
    ("a vector without a size", loop("vector b file", 2), WORDS, "loop text line 2", "vector NAME SIZE file"),
    ("a matrix without a form", loop("matrix a", 1), WORDS, "loop text line 1", "matrix NAME csr"),
    ("an end that is missing", {"a.loop": LOOP[: -len("end\n")]}, WORDS, "loop text line 9", "loop`, `for` and `when`"),
    ("a name that isn't declared", loop("  set x[i] = c[i]"), WORDS, "loop name line 5 unknown", "declare it above"),
    ("rows of a csr matrix", loop("  set x[a.row[i]] = b[i]"), WORDS, "loop name line 5 unknown", "change the form"),
    ("the matrix with a bracket", loop("  set x[i] = a[i]"), WORDS, "loop name line 5 wrong_kind", "index arrays with one"),
    ("a guard on a value", loop("  when x[i] < 0\n    set x[i] = b[i]\n  end"), WORDS, "loop name line 5 wrong_kind", "no branch on a value"),
    ("a bound from a vector", loop("  for p in 0..b[i]", 6), WORDS, "loop name line 6 wrong_kind", "declare `index`"),
    ("a property of a vector", loop("rising b", 3), WORDS, "loop name line 3 wrong_kind", "n+1 entries"),
    ("a loop's variable twice", loop("  for i in a.ptr[i]..a.diag[i]", 6), WORDS, "loop name line 6 twice", "choose another name"),
    ("an index without a range", loop("    set x[i] = x[i] - a.val[p]", 7), WORDS, "loop unbounded line 7 bracket 3 low", "range a.ptr 0 nnz+1"),
    ("the row before", loop("  set x[i] = x[i-1]"), WORDS, "loop unbounded line 5 bracket 2 low", "inside `when 0 <= ..`"),
    ("the row after", loop("  set x[i] = x[i+1]"), WORDS, "loop unbounded line 5 bracket 2 high", "inside `when .. < n`"),
    ("no workers", {}, ["run", "a.loop", "a.mtx", "b.mtx"], "usage word 3", "1` to `64"),
    ("too many workers", {}, ["run", "a.loop", "a.mtx", "65", "b.mtx"], "usage word 3", "1` to `64"),
    ("a demo of no kind", {}, ["demo", "100", "4"], "usage word 1", "demo KIND NUMBER WORKERS"),
    ("a demo without workers", {}, ["demo", "grid", "100"], "usage word 3", "demo KIND NUMBER WORKERS"),
    ("a demo that is too large", {}, ["demo", "grid", "1000", "4"], "usage word 2", "1 to 400"),
    ("workers with a leading zero", {}, ["run", "a.loop", "a.mtx", "04", "b.mtx"], "usage word 3", "without a leading zero"),
    ("an index without a range, with four workers", loop("    set x[i] = x[i] - a.val[p]", 7), ["run", "a.loop", "a.mtx", "4", "b.mtx"], "loop unbounded line 7 bracket 3 low", "range a.ptr 0 nnz+1"),
    ("a name that isn't there", {}, ["run", "a.loop", "a.mtx", "1", "c.mtx"], "read word 4", "isn't there"),
    ("a folder", {}, ["run", "a.loop", "/", "1", "b.mtx"], "read word 2", "a folder"),
    ("loop and matrix exchanged", {}, ["run", "a.mtx", "a.loop", "1", "b.mtx"], "loop text line 1", "the loop file comes first"),
    ("real values", matrix("integer", "real"), WORDS, "matrix word 2 field 4", "awk"),
    ("unsigned values", matrix("integer", "unsigned-integer"), WORDS, "matrix word 2 field 4", "sed '1s/unsigned-integer/integer/'"),
    ("a point in a value", matrix("2 1 2", "2 1 2.0"), WORDS, "matrix word 2 entry line 4 number", "awk"),
    ("rows from 0", matrix("1 1 1", "0 1 1"), WORDS, "matrix word 2 entry line 3 range", "add 1 where they count from 0"),
    ("a file that is cut off", matrix("3 2 3\n3 3 1\n", ""), WORDS, "matrix word 2 short have 3 want 5", "cut off"),
    ("a byte order mark", {"a.mtx": b"\xef\xbb\xbf" + MATRIX.encode()}, WORDS, "matrix word 2 header", "tail -c +4"),
    ("a compressed file", {"a.mtx": gzip.compress(MATRIX.encode())}, WORDS, "matrix word 2 header", "zcat"),
    ("a file in UTF-16", {"a.mtx": MATRIX.encode("utf-16")}, WORDS, "matrix word 2 header", "iconv"),
    ("a row vector", vector("3 1\n", "1 3\n"), WORDS, "matrix word 4 size line 2", "b.reshape(-1, 1)"),
    ("a sparse vector", vector("array", "coordinate"), WORDS, "matrix word 4 field 3", "in array form"),
    ("a matrix that isn't square", matrix("3 3 5", "4 3 5"), WORDS, "shape rows 4 columns 3", "a greater number in the size line"),
    ("a vector too few", {}, ["run", "a.loop", "a.mtx", "1"], "shape files have 0 want 1", "in this order: b"),
    ("a vector that is too short", vector("3 1\n1\n", "2 1\n"), WORDS, "shape length word 4 have 2 want 3", "in this order: b"),
    ("an order of a third worker", {"o.mtx": ORDER}, ["replay", "a.loop", "a.mtx", "2", "o.mtx", "b.mtx"], "shape order place 2 value 2", "word 4 is o.mtx"),
    ("an order that counts from 1", {"o.mtx": ORDER}, ["replay", "a.loop", "a.mtx", "2", "o.mtx", "b.mtx"], "shape order place 2 value 2", "from 0 to one less than WORKERS"),
    ("a replay without an order", {}, ["replay", "a.loop", "a.mtx", "2", "b.mtx"], "shape files have 0 want 1", "the order stands before them"),
    ("a property that doesn't hold", {"a.loop": LOOP.replace("loop i", "below a.col by a.ptr\nloop i")}, WORDS, "property 1 first 0 second 0", "its line 4: below a.col by a.ptr"),
    ("a check of one", {"a.loop": LOOP.replace("loop i", "# of the rows\nstrict a.ptr\nbelow a.col by a.ptr\nloop i")}, ["check", "a.loop", "a.mtx", "b.mtx"], "property 2 first 0 second 0", "its line 6: below a.col by a.ptr"),
    ("workers for a check", {}, ["check", "a.loop", "a.mtx", "1", "b.mtx"], "read word 3", "1, which isn't there"),
]

STAND_IN = '#!/bin/sh\necho "$FAULT" >&2\nexit 9\n'


def main():
    program = program_of(sys.argv)
    built = has_program(program)
    if not built:
        CASES.skip("fault lines", f"there is no program at {program}", len(MISTAKES))
    for name, files, words, fault, remedy in MISTAKES:
        with scratch() as folder:
            for file, text in {"a.loop": LOOP, "a.mtx": MATRIX, "b.mtx": VECTOR, **files}.items():
                written(folder, file, text)
            stand_in = written(folder, "stand_in", STAND_IN)
            os.chmod(stand_in, 0o755)
            if built:
                CASES.same(name, call([program, *words], folder=folder)[1:], ("", fault + "\n"))
            variables = {"WAVE_HINT": "1", "NO_COLOR": "1", "FAULT": fault, "WAVE_PROGRAM": program if built else stand_in}
            status, out, err = call([LAUNCHER, *words], folder=folder, **variables)
            good = status != 0 and not out and err.startswith(fault + "\n") and remedy in err and err.count("\n") <= 24
            CASES.judge(f"{name}: remedy", good, err)
    return CASES.end()


if __name__ == "__main__":
    sys.exit(main())
