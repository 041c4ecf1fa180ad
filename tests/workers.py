#!/usr/bin/env python3
"""Runs a loop on several workers, many times and where threads can't be had, and wants the same bytes each time.

usage: tests/workers.py [PROGRAM]

Nothing makes threads meet at a chosen moment, so there are some hundred runs of a grid whose tasks wait for each
other. Then the program is started by a user who may have no second thread (`ulimit -u`), and by one who may have a
few, and the deepest loop is run on 64 workers. What needs the program, or a limit on threads that holds, is skipped
where it isn't there. The last line is `N passed, M failed, K skipped`.
"""
import os
import resource
import shutil
import subprocess
import sys
import time

from harness import TOP, Cases, has_program, program_of, scratch, written

CASES = Cases("workers")
HEAD = "%%MatrixMarket matrix coordinate integer general\n"
VECTOR = "%%MatrixMarket matrix array integer general\n"
NOBODY = 65534
SIDE = 12
SECONDS = 4      # for the runs of one number of workers
MOST_RUNS = 300


def grid(side):
    """The matrix of a grid of points: 4 on the diagonal, and -1 for each neighbour."""
    entries = []
    for row in range(side * side):
        above, left = row - side, row - 1
        below, right = row + side, row + 1
        beside = [above] * (row >= side) + [left] * (row % side > 0) + [right] * (right % side > 0) + [below] * (below < side * side)
        entries += [f"{row + 1} {column + 1} -1\n" for column in beside] + [f"{row + 1} {row + 1} 4\n"]
    return HEAD + f"{side * side} {side * side} {len(entries)}\n" + "".join(entries)


def vector(entries):
    return VECTOR + f"{len(entries)} 1\n" + "".join(f"{entry}\n" for entry in entries)


def sweep(start, side):
    """One Gauss-Seidel sweep over the grid, row by row, with quotients that are cut off toward zero."""
    x = list(start)
    for row in range(side * side):
        beside = (row - side, row - 1 if row % side else -1, row + 1 if (row + 1) % side else -1, row + side)
        total = 1000 * row + sum(x[other] for other in beside if 0 <= other < side * side)
        x[row] = abs(total) // 4 * (1 if total >= 0 else -1)
    return x


def started(program, words, folder, limit=None):
    """Status, standard output and standard error of a call, by a user who may have that many threads."""

    def limited():
        if os.geteuid() == 0:
            os.setgroups([])
            os.setgid(NOBODY)
            os.setuid(NOBODY)
        resource.setrlimit(resource.RLIMIT_NPROC, (limit, limit))

    done = subprocess.run([program, *words], cwd=folder, capture_output=True, stdin=subprocess.DEVNULL,
                          preexec_fn=limited if limit is not None else None, timeout=60, check=False)
    return done.returncode, done.stdout.decode(), done.stderr.decode()


def right(program, words, folder, wanted, name):
    """What a call answers, where it ends with these arrays."""
    status, out, err = started(program, words, folder)
    CASES.judge(name, (status, err) == (0, "") and out.endswith(wanted), f"status {status}, {err}{out[:200]}")
    return status, out, err


def many(program, words, folder, first, name):
    """Calls of the same words, for a while: how many of them answered anything else than the first."""
    end = time.monotonic() + SECONDS
    runs = wrong = 0
    while runs < MOST_RUNS and time.monotonic() < end:
        runs += 1
        wrong += started(program, words, folder) != first
    CASES.judge(f"{name}: {runs} runs", wrong == 0 and runs > 0, f"{wrong} of {runs} were wrong")


def holds_limit(folder):
    """Whether a shell of that user can't have a second process, which the same limit forbids."""
    forks = ["-c", "/bin/true; exit 0"]
    try:
        return started("/bin/sh", forks, folder)[0] == 0 and started("/bin/sh", forks, folder, 1)[0] != 0
    except (OSError, subprocess.SubprocessError):
        return False


def without_threads(program, words, folder, first, name):
    """The same call where no thread can be had, and where a few can."""
    if not holds_limit(folder):
        CASES.skip(f"{name}, without threads", "a limit on threads doesn't hold here", 2)
        return
    copy = os.path.join(folder, "program")
    if not os.path.exists(copy):
        shutil.copy(program, copy)
        os.chmod(copy, 0o755)
        os.chmod(folder, 0o755)
    for limit in (1, 3):
        got = started(copy, words, folder, limit)
        CASES.judge(f"{name}, with at most {limit} threads", got == first, f"status {got[0]}, {got[2]}{got[1][:200]}")


def deepest_loop():
    """As many nested blocks and parentheses as the limits on lines leave."""
    text = ["matrix a csr", "vector x n zero", "loop i"] + ["when 0 <= i"] * 197
    return "\n".join(text + ["set x[i]=" + "(" * 95 + "7" + ")" * 95] + ["end"] * 198) + "\n"


def deep(program, folder):
    """A thread's stack holds the deepest loop."""
    rows = 130
    written(folder, "deep.loop", deepest_loop())
    written(folder, "diagonal.mtx", HEAD + f"{rows} {rows} {rows}\n" + "".join(f"{row} {row} 1\n" for row in range(1, rows + 1)))
    wanted = f"tasks 64 cross 0 waits 0\narray x {rows}\n" + "7\n" * rows
    right(program, ["run", "deep.loop", "diagonal.mtx", "64"], folder, wanted, "the deepest loop on 64 workers")


def main():
    program = program_of(sys.argv)
    if not has_program(program):
        CASES.skip("runs", f"there is no program at {program}", 9)
        return CASES.end()
    start = [(7 * row) % 23 - 11 for row in range(SIDE * SIDE)]
    wanted = f"array x {SIDE * SIDE}\n" + "".join(f"{entry}\n" for entry in sweep(start, SIDE))
    with scratch() as folder:
        shutil.copy(os.path.join(TOP, "examples/gauss_seidel/sweep.loop"), os.path.join(folder, "a.loop"))
        written(folder, "a.mtx", grid(SIDE))
        written(folder, "b.mtx", vector([1000 * row for row in range(SIDE * SIDE)]))
        written(folder, "x.mtx", vector(start))
        for workers in ("4", "64"):
            name = f"a grid on {workers} workers"
            words = ["run", "a.loop", "a.mtx", workers, "b.mtx", "x.mtx"]
            first = right(program, words, folder, wanted, name)
            many(program, words, folder, first, name)
            without_threads(program, words, folder, first, name)
        deep(program, folder)
    return CASES.end()


if __name__ == "__main__":
    sys.exit(main())
