#!/usr/bin/env python3
"""Runs a loop with `wave` from Python.

    from wave import run
    x = run("divided.loop", a, b)["x"]

`run(loop, matrix, *vectors, workers=1)` gives a dictionary with each array that the loop writes, from a run on 1 to 64
workers. The loop is a file or a text with its lines; the matrix is a file, a matrix or array of SciPy, or a list of
rows; each vector is a file, a list or an array of NumPy. Values have to be whole: one with a fraction is refused, and
one of an unsigned type becomes the signed number of the same 64 bits. A vector may be a row or a column. The arrays
that are given back are NumPy's where some of those that were passed are NumPy's or SciPy's, and else lists. What
`wave` refuses is raised as a Fault, whose text has the cause and the remedy.

usage: tools/wave.py LOOP MATRIX [FILE..]     prints the arrays as JSON

Standard library only. It calls the launcher of the repository or prefix that it lies in, and else `wave` on the
path.
"""
import json
import os
import subprocess
import sys
import tempfile

ABOVE = os.path.dirname(os.path.dirname(os.path.abspath(__file__)))


class Fault(Exception):
    """A call of `wave` that was refused: its fault line, its status and its whole explanation."""

    def __init__(self, status, text):
        super().__init__(text)
        self.status = status
        self.line = text.split("\n", 1)[0]


def whole(value, where):
    """A value as an integer of 64 bits, or a ValueError that says where it stands."""
    kind = getattr(getattr(value, "dtype", None), "kind", "")
    if hasattr(value, "item"):
        value = value.item()
    if isinstance(value, float):
        if not value.is_integer():
            raise ValueError(f"{where} is {value}, which isn't whole: scale the values first, or round them")
        value = int(value)
    if not isinstance(value, int):
        raise ValueError(f"{where} is {value!r}, which is no whole number")
    if kind == "u" and value >= 2**63:
        return value - 2**64
    if not -(2**63) <= value < 2**63:
        raise ValueError(f"{where} is {value}, which doesn't fit 64 bits: scale the values first")
    return int(value)


def is_file(thing):
    """Whether it names a file."""
    return isinstance(thing, (str, os.PathLike))


def flat(vector):
    """The entries of a list or an array, also of one with a single row or a single column."""
    shape = getattr(vector, "shape", None)
    if shape is not None and len(shape) != 1:
        if len(shape) != 2 or 1 not in shape:
            raise ValueError(f"a vector has the shape {tuple(shape)}: it has to be one row or one column")
        vector = vector.reshape(-1) if hasattr(vector, "flat") else vector.toarray().reshape(-1)
    entries = list(vector)
    if entries and all(isinstance(entry, (list, tuple)) for entry in entries):
        if len(entries) == 1:
            return list(entries[0])
        if all(len(entry) == 1 for entry in entries):
            return [entry[0] for entry in entries]
        raise ValueError("a vector is a list of lists: it has to be one row or one column")
    return entries


def triples(matrix):
    """Rows, columns and stored entries of a matrix of SciPy, an array of NumPy or a list of rows."""
    if hasattr(matrix, "tocoo"):
        matrix = matrix.tocoo()
        places = zip(matrix.row.tolist(), matrix.col.tolist(), matrix.data)
        return *matrix.shape, list(places)
    rows = [list(row) for row in matrix]
    columns = len(rows[0]) if rows else 0
    if any(len(row) != columns for row in rows):
        raise ValueError("the rows of the matrix aren't equally long")
    stored = [(i, j, v) for i, row in enumerate(rows) for j, v in enumerate(row) if v != 0]
    return len(rows), columns, stored


def write_matrix(path, matrix):
    """Writes a matrix as the Matrix Market file that `wave` reads."""
    rows, columns, stored = triples(matrix)
    with open(path, "w", encoding="ascii") as file:
        file.write(f"%%MatrixMarket matrix coordinate integer general\n{rows} {columns} {len(stored)}\n")
        for i, j, value in stored:
            file.write(f"{i + 1} {j + 1} {whole(value, f'the entry in row {i}, column {j}')}\n")


def write_vector(path, vector, number):
    """Writes a vector as the Matrix Market file that `wave` reads."""
    entries = flat(vector)
    with open(path, "w", encoding="ascii") as file:
        file.write(f"%%MatrixMarket matrix array integer general\n{len(entries)} 1\n")
        for place, value in enumerate(entries):
            file.write(f"{whole(value, f'entry {place} of vector {number}')}\n")


def parsed(text):
    """The arrays of a printed answer, by their names. The summary before them is left out."""
    arrays = {}
    lines = iter(text.split("\n"))
    for head in lines:
        if head.startswith("array "):
            _, name, length = head.split(" ")
            arrays[name] = [int(next(lines)) for _ in range(int(length))]
    return arrays


def call(words):
    """What `wave` prints on these words, or a Fault."""
    places = [os.path.join(ABOVE, "wave"), os.path.join(ABOVE, "../../bin/wave")]
    program = next((place for place in places if os.path.isfile(place)), "wave")
    environment = dict(os.environ, WAVE_HINT="1", NO_COLOR="1")
    with tempfile.TemporaryFile() as output:
        with subprocess.Popen(
            [program, *words], stdin=subprocess.DEVNULL, stdout=output, stderr=subprocess.PIPE, env=environment
        ) as process:
            said = []
            for line in process.stderr:
                line = line.decode(errors="replace")
                if line.startswith("wave: "):
                    sys.stderr.write(line)
                said.append(line)
        if process.returncode != 0:
            raise Fault(process.returncode, "".join(said).rstrip("\n") or f"wave ended with {process.returncode}")
        output.seek(0)
        return output.read().decode()


def run(loop, matrix, *vectors, workers=1):
    """The arrays that the loop writes, by their names."""
    with tempfile.TemporaryDirectory() as folder:

        def file_of(name, thing, write):
            if is_file(thing):
                return os.fspath(thing)
            path = os.path.join(folder, name)
            write(path, thing)
            return path

        if isinstance(loop, str) and "\n" in loop:
            path = os.path.join(folder, "text.loop")
            with open(path, "w", encoding="utf-8") as file:
                file.write(loop)
            loop = path
        words = ["run", os.fspath(loop), file_of("matrix.mtx", matrix, write_matrix), str(workers)]
        for number, vector in enumerate(vectors, 1):
            words.append(file_of(f"vector{number}.mtx", vector, lambda path, it: write_vector(path, it, number)))
        arrays = parsed(call(words))
    if any(hasattr(thing, "dtype") for thing in (matrix, *vectors)):
        import numpy

        return {name: numpy.array(values, dtype="int64") for name, values in arrays.items()}
    return arrays


def main():
    words = sys.argv[1:]
    if words in (["--help"], ["-h"]):
        print(__doc__.strip())
        return 0
    if len(words) < 2 or words[0].startswith("-"):
        print("usage: tools/wave.py LOOP MATRIX [FILE..]", file=sys.stderr)
        return 2
    try:
        print(json.dumps(run(*words)))
    except Fault as fault:
        print(fault, file=sys.stderr)
        return fault.status
    return 0


if __name__ == "__main__":
    sys.exit(main())
