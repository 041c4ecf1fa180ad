#!/usr/bin/env python3
"""Runs the tools of tools/ from outside.

usage: tests/tools.py [PROGRAM]

What needs the built program, NumPy or SciPy is skipped where it isn't there. The last line is
`N passed, M failed, K skipped`.
"""
import importlib.util
import os
import sys

from harness import TOP, Cases, call, has_program, program_of, scratch, written

CASES = Cases("tools")
TOOLS = os.path.join(TOP, "tools")
EXAMPLES = os.path.join(TOP, "examples")

# A stand-in for the program: it prints a summary, and the entries of the matrix file and of each vector file.
STAND_IN = """#!/usr/bin/env python3
import os, sys
if "FAULT" in os.environ:
    print(os.environ["FAULT"], file=sys.stderr)
    sys.exit(9)
print("relations 0 dropped 0 covered 0 kept 0\\nrows 0 stored 0 edges 0\\nlevels 0 tasks 0 cross 0 waits 0")
for place, name in enumerate(sys.argv[3:4] + sys.argv[5:]):
    words = [word for line in open(name).read().split("\\n")[1:] for word in line.split()]
    print("array", "mvwxyz"[place], len(words))
    print("".join(word + "\\n" for word in words), end="")
"""


def wave_module():
    """tools/wave.py, which has the name of a module of the standard library."""
    spec = importlib.util.spec_from_file_location("wave_tool", os.path.join(TOOLS, "wave.py"))
    module = importlib.util.module_from_spec(spec)
    spec.loader.exec_module(module)
    return module


def helps():
    for tool in ("wave.py", "check_matrix", "to_mtx", "why", "draw_plan", "faults.py", "map.py", "picture.py"):
        for word in ("--help", "-h"):
            status, out, err = call([os.path.join(TOOLS, tool), word])
            CASES.judge(f"{tool} {word}", status == 0 and len(out) > 100 and not err, err)
        status, out, err = call([os.path.join(TOOLS, tool), "--unknown"])
        CASES.judge(f"{tool} --unknown", status == 2 and not out and "usage" in err, f"{status}")


def to_mtx():
    tool = os.path.join(TOOLS, "to_mtx")
    head = "%%MatrixMarket matrix array integer general\n"
    answer = b"array x 2\n1\n-2\narray a.val 1\n7\narray e 0\n"
    CASES.same("to_mtx of one array", call([tool], b"array x 2\n1\n-2\n"), (0, head + "2 1\n1\n-2\n", ""))
    summary = b"relations 1 dropped 0 covered 0 kept 1\nrows 2 stored 2 edges 0\nlevels 1 tasks 1 cross 0 waits 0\n"
    CASES.same("to_mtx after a summary", call([tool], summary + b"array x 1\n-2\n"), (0, head + "1 1\n-2\n", ""))
    CASES.same("to_mtx after a replay's summary", call([tool], summary + b"looks 4 passed 1\narray x 1\n7\n"), (0, head + "1 1\n7\n", ""))
    CASES.same("to_mtx of a named array", call([tool, "a.val"], answer), (0, head + "1 1\n7\n", ""))
    CASES.same("to_mtx of an empty array", call([tool, "e"], answer), (0, head + "0 1\n", ""))
    for case, words, text, said in (
        ("of several", [], answer, "which array? There are x, a.val, e"),
        ("of another name", ["y"], answer, "no array y; there are x, a.val, e"),
        ("of nothing", [], b"", "no array"),
        ("of a summary alone", [], summary, "no array"),
        ("of an answer that is cut off", [], b"array x 3\n1\n", "cut off"),
        ("of something else", [], b"hello\n", "line 1"),
    ):
        status, out, err = call([tool, *words], text)
        CASES.judge(f"to_mtx {case}", status == 1 and not out and said in err, err)


def check_matrix(folder):
    tool = os.path.join(TOOLS, "check_matrix")
    path = written(
        folder,
        "a.mtx",
        "%%MatrixMarket matrix coordinate integer general\n% a comment\n\n4 4 6\n1 1 2\n2 1 3\n3 3 0\n4 1 -1\n1 4 -2\n1 1 1\n",
    )
    status, out, err = call([tool, path])
    CASES.same("check_matrix ends well", (status, err), (0, ""))
    for line in (
        "size: 4 rows, 4 columns, 5 stored places",
        "line 1: integer general",
        "missing diagonal entries: 2 (row 2, 4)",
        "diagonal entries that are 0: 1 (row 3)",
        "places above the diagonal: 1",
        "symmetric: no: row 1, column 4 has -2, and row 4, column 1 has -1",
        "bandwidth: 3 below the diagonal, 3 above",
    ):
        CASES.judge(f"check_matrix: {line}", line in out.split("\n"), out)
    path = written(folder, "s.mtx", "%%MatrixMarket matrix coordinate real symmetric\n2 2 2\n1 1 2.5\n2 1 3.0\n")
    status, out, err = call([tool, path])
    CASES.judge("check_matrix of a symmetric file", status == 0 and "symmetric: yes" in out and "above the diagonal: 1" in out, out)
    CASES.judge("check_matrix of fractions", "values that aren't whole: 1;" in out, out)
    path = written(folder, "k.mtx", "%%MatrixMarket matrix coordinate integer skew-symmetric\n2 2 1\n2 1 3\n")
    CASES.judge("check_matrix of a skew file", "row 1, column 2 has -3, and row 2, column 1 has 3" in call([tool, path])[1])
    status, out, err = call([tool, path, path])
    CASES.judge("check_matrix of two files", status == 0 and out.count(f"{path}:") == 2, out)
    for case, text, said in (
        ("of text", "hello\n", "line 1"),
        ("of a vector", "%%MatrixMarket matrix array integer general\n1 1\n1\n", "coordinate"),
        ("of a file that is cut off", "%%MatrixMarket matrix coordinate integer general\n1 1 2\n1 1 1\n", "1 are there"),
        ("of an entry outside", "%%MatrixMarket matrix coordinate integer general\n1 1 1\n0 1 1\n", "line 3"),
        ("without a size line", "%%MatrixMarket matrix coordinate integer general\n", "size line"),
    ):
        status, out, err = call([tool, written(folder, "b.mtx", text)])
        CASES.judge(f"check_matrix {case}", status == 1 and not out and said in err, err)
    status, out, err = call([tool, os.path.join(folder, "nowhere.mtx")])
    CASES.judge("check_matrix of no file", status == 1 and "nowhere.mtx" in err, err)


def why(folder):
    tool = os.path.join(TOOLS, "why")
    loop = os.path.join(EXAMPLES, "forward", "unit.loop")
    said = ["1 10:1 12:4 true kept", "2 12:1 12:4 true covered 1", "3 12:2 12:1 anti dropped"]
    stand_in = written(folder, "explains", "#!/bin/sh\n" + "".join(f"echo relation {line}\n" for line in said))
    os.chmod(stand_in, 0o755)
    status, out, err = call([tool, loop], WAVE_PROGRAM=stand_in)
    CASES.same("why ends well", (status, err), (0, ""))
    for part in ('class="kept"', 'class="covered"', 'class="dropped"', "x[a.col[p]]", "covered by 1"):
        CASES.judge(f"why draws {part}", part in out, out[:200])
    CASES.judge("why draws a box for each reference", out.count('class="reference"') == 4, out[:200])
    stand_in = written(folder, "refuses", "#!/bin/sh\necho 'loop text line 2' >&2\nexit 3\n")
    os.chmod(stand_in, 0o755)
    status, out, err = call([tool, loop], WAVE_PROGRAM=stand_in)
    CASES.judge("why of a loop that is refused", status == 1 and not out and "loop text line 2" in err, err)


def plans_of(page):
    """The plans that a page of examples/ shows, in order."""
    with open(os.path.join(EXAMPLES, page, "README.md"), encoding="utf-8") as file:
        return [block + "\n" for block in file.read().split("\n```\n") if "\nchain" in block and block.startswith("relations")]


def made_plan(levels, workers):
    """The text of a plan in which each worker has a task in each level and waits for the next one's task before."""
    text = f"relations 1 dropped 0 covered 0 kept 1\nrows {levels * workers} stored 0 edges 0\n"
    text += f"levels {levels} tasks {levels * workers} cross 0 waits {(levels - 1) * workers}\nchain\n"
    for worker in range(workers):
        text += f"worker {worker}\n"
        for level in range(levels):
            wait = f" {(worker + 1) % workers}:{level}" if level else ""
            text += f"task rows {level * workers + worker} waits{wait}\n"
    return text


def draw_plan():
    tool = os.path.join(TOOLS, "draw_plan")
    for page, place, name in (("gauss_seidel", 1, "grid.svg"), ("backward", 0, "plan.svg")):
        with open(os.path.join(EXAMPLES, page, name), encoding="utf-8") as file:
            CASES.same(f"draw_plan of {page}", call([tool], plans_of(page)[place].encode()), (0, file.read(), ""))
    status, out, err = call([tool], made_plan(20, 10).encode())
    drawn = (out.count('class="task"'), out.count('class="wait"'), out.count('class="rows"'))
    CASES.same("draw_plan of 200 tasks", (status, err, drawn), (0, "", (200, 190, 0)))
    for levels, shown in ((101, 101), (1001, 334)):
        status, out, err = call([tool], made_plan(levels, 2).encode())
        drawn = (out.count('class="task"'), out.count('class="rows"'), out.count('class="most"'))
        CASES.same(f"draw_plan of {2 * levels} tasks", (status, err, drawn), (0, "", (0, shown, shown)))
    few = made_plan(2, 2)
    none = "relations 1 dropped 1 covered 0 kept 0\nrows 0 stored 0 edges 0\nlevels 0 tasks 0 cross 0 waits 0\nchain\nworker 0\n"
    status, out, err = call([tool], none.encode())
    CASES.judge("draw_plan of no rows", status == 0 and not err and "worker 0 has no tasks" in out, err)
    many = few + "".join(f"worker {number}\n" for number in range(2, 64))
    CASES.judge("draw_plan of workers without tasks", "workers 2 to 63 have no tasks" in call([tool], many.encode())[1])
    for case, text, said in (
        ("of nothing", "", "line 1"),
        ("of an answer of run", "array x 1\n7\n", "line 1"),
        ("of a task without a worker", few.replace("worker 0\n", ""), "line 5"),
        ("of a plan that is cut off", few[: few.rindex("task")], "3 of 4 tasks"),
        ("of another number of a worker", few.replace("worker 1", "worker 2"), "worker 1"),
        ("of a wait without its count", few.replace(" 1:1", " 1"), "line 7"),
        ("of tasks that wait for each other", few.replace("rows 0 waits", "rows 0 waits 1:1").replace("rows 1 waits", "rows 1 waits 0:1"), "wait for each other"),
        ("of too many levels", few.replace("levels 2", "levels 3"), "2 levels"),
        ("of a wait for no worker", few.replace(" 1:1", " 9:1"), "aren't there"),
    ):
        status, out, err = call([tool], text.encode())
        CASES.judge(f"draw_plan {case}", status == 1 and not out and said in err, err)


def refused(case, said, function, *words):
    """A case in which a value is refused."""
    try:
        got = function(*words)
    except ValueError as fault:
        CASES.judge(case, said in str(fault), str(fault))
    else:
        CASES.judge(case, False, repr(got))


def wave_without_program(folder):
    stand_in = written(folder, "stand_in", STAND_IN)
    os.chmod(stand_in, 0o755)
    os.environ["WAVE_PROGRAM"] = stand_in
    wave = wave_module()
    loop = written(folder, "a.loop", "matrix a csr\nloop i\nend\n")
    matrix = [[2, 0], [-1, 3]]
    stored = [2, 2, 3, 1, 1, 2, 2, 1, -1, 2, 2, 3]
    CASES.same("lists", wave.run(loop, matrix, [5, -6]), {"m": stored, "v": [2, 1, 5, -6]})
    CASES.same("a row and a column", wave.run(loop, matrix, [[1, 2]], [[3], [4]])["v"], [2, 1, 1, 2])
    CASES.same("whole floats", wave.run(loop, matrix, [1.0, -2.0])["v"], [2, 1, 1, -2])
    CASES.same("the greatest", wave.run(loop, matrix, [2**63 - 1, -(2**63)])["v"][2:], [2**63 - 1, -(2**63)])
    CASES.same("a loop as a text", wave.run("matrix a csr\nloop i\nend\n", matrix), {"m": stored})
    CASES.same("no entries", wave.run(loop, [[0]], [])["v"], [0, 1])
    refused("a fraction", "isn't whole", wave.run, loop, matrix, [1, 2.5])
    refused("a fraction in the matrix", "row 0, column 0", wave.run, loop, [[0.5]])
    refused("not a number", "isn't whole", wave.run, loop, matrix, [float("nan")])
    refused("too great", "64 bits", wave.run, loop, matrix, [2**63])
    refused("a word", "no whole number", wave.run, loop, matrix, ["a"])
    refused("two columns", "one column", wave.run, loop, matrix, [[1, 2], [3, 4]])
    refused("rows of other lengths", "equally long", wave.run, loop, [[1], [1, 2]])
    os.environ["FAULT"] = "matrix word 2 entry line 3 wide"
    try:
        wave.run(loop, matrix)
        CASES.judge("a fault is raised", False)
    except wave.Fault as fault:
        CASES.same("a fault has its line", fault.line, os.environ["FAULT"])
        CASES.same("a fault has its status", fault.status, 9)
        CASES.judge("a fault has its remedy", "scale the values" in str(fault), str(fault))
    del os.environ["FAULT"]
    status, out, err = call([os.path.join(TOOLS, "wave.py"), loop, os.path.join(EXAMPLES, "forward/matrix.mtx")], WAVE_PROGRAM=stand_in)
    CASES.judge("wave.py as a command", status == 0 and out.startswith('{"m": [3, 3, 5, 1, 1, 1'), out + err)
    with_numpy(wave, loop, matrix, stored)
    del os.environ["WAVE_PROGRAM"]


def with_numpy(wave, loop, matrix, stored):
    try:
        import numpy
    except ImportError:
        CASES.skip("NumPy", "there is none", 6)
        return
    got = wave.run(loop, numpy.array(matrix), numpy.array([[1], [2]]))
    CASES.same("arrays", {name: list(array) for name, array in got.items()}, {"m": stored, "v": [2, 1, 1, 2]})
    CASES.same("arrays come back as int64", str(got["v"].dtype), "int64")
    unsigned = numpy.array([2**64 - 1, 7], dtype="uint64")
    CASES.same("unsigned becomes signed", list(wave.run(loop, matrix, unsigned)["v"]), [2, 1, -1, 7])
    CASES.same("a row of an array", list(wave.run(loop, matrix, numpy.array([[1, 2]]))["v"]), [2, 1, 1, 2])
    refused("a fraction in an array", "entry 1 of vector 1", wave.run, loop, matrix, numpy.array([1.0, 0.25]))
    refused("an array of two columns", "(2, 2)", wave.run, loop, matrix, numpy.array([[1, 2], [3, 4]]))


def with_scipy(wave):
    try:
        import numpy
        import scipy.io
        import scipy.sparse
    except ImportError:
        CASES.skip("SciPy", "there is none", 3)
        return
    divided = os.path.join(EXAMPLES, "forward_divided/divided.loop")
    rows = numpy.array([[2, 0, 0, 0], [0, 3, 0, 0], [1, -2, 4, 0], [5, 1, 0, -1]])
    b = numpy.array([2, 6, 9, 3])
    for form in (scipy.sparse.csr_matrix, scipy.sparse.csc_matrix):
        CASES.same(f"L x = b from {form.__name__}", list(wave.run(divided, form(rows), b)["x"]), [1, 2, 3, 4])
    with scratch() as folder:
        names = [os.path.join(folder, name) for name in ("a.mtx", "b.mtx")]
        scipy.io.mmwrite(names[0], scipy.sparse.coo_matrix(rows).astype("int64"), field="integer", symmetry="general")
        scipy.io.mmwrite(names[1], b.reshape(-1, 1).astype("int64"), field="integer", symmetry="general")
        CASES.same("L x = b from files of SciPy", list(wave.run(divided, *names)["x"]), [1, 2, 3, 4])


def with_program(program):
    if not has_program(program):
        CASES.skip("the built program", f"there is none at {program}", 8)
        return
    os.environ["WAVE_PROGRAM"] = program
    wave = wave_module()
    sweep = os.path.join(EXAMPLES, "gauss_seidel/sweep.loop")
    matrix = [[4, -1, 0, 0], [-1, 4, -1, 0], [0, -1, 4, -1], [0, 0, -1, 4]]
    b = [200000, 400000, 600000, 1300000]
    x = [0, 0, 0, 0]
    for _ in range(100):
        x = wave.run(sweep, matrix, b, x)["x"]
    CASES.judge("100 Gauss-Seidel sweeps", all(abs(got - wanted) < 4 for got, wanted in zip(x, [100000, 200000, 300000, 400000])), str(x))
    CASES.same("a sweep on 4 workers", wave.run(sweep, matrix, b, x, workers=4), wave.run(sweep, matrix, b, x))
    try:
        wave.run(sweep, matrix, b)
        CASES.judge("a file too few", False)
    except wave.Fault as fault:
        CASES.same("a file too few", fault.line, "shape files have 1 want 2")
        CASES.judge("a file too few names them", "b, x" in str(fault), str(fault))
    answer = call([program, "run", sweep, *(os.path.join(EXAMPLES, "gauss_seidel", name) for name in ("matrix.mtx",)), "1",
                   *(os.path.join(EXAMPLES, "gauss_seidel", name) for name in ("right_side.mtx", "start.mtx"))])[1]
    status, out, _ = call([os.path.join(TOOLS, "to_mtx"), "x"], answer.encode())
    CASES.judge("to_mtx of an answer", status == 0 and out.endswith("4 1\n50\n112\n178\n369\n"), out)
    with_scipy(wave)
    del os.environ["WAVE_PROGRAM"]


def main():
    for name in ("WAVE_PROGRAM", "WAVE_HINT", "NO_COLOR"):
        os.environ.pop(name, None)
    helps()
    to_mtx()
    draw_plan()
    with scratch() as folder:
        check_matrix(folder)
        why(folder)
        wave_without_program(folder)
    with_program(program_of(sys.argv))
    return CASES.end()


if __name__ == "__main__":
    sys.exit(main())
