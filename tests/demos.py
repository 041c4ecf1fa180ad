#!/usr/bin/env python3
"""Runs `demo` on grids and on drawn matrices, and compares its whole text with one that is made here.

usage: tests/demos.py [PROGRAM]

The matrices, the rows that depend on each other, their levels, tasks and waits are computed from their definitions,
by sets and in no clever way; the script shares nothing with the program. The right side is such that x is 1, 2, .., n,
so its sum is n(n+1)/2. The last line is `N passed, M failed, K skipped`.
"""
import sys

from harness import Cases, call, has_program, program_of

CASES = Cases("demos")
SIDES = range(1, 21)
SEEDS = (0, 7, 4294967295)
WORKERS = (1, 3, 64)
DRAWN_ROWS = 4096


def grid(side):
    """The columns of each row of a grid of points: the point, and its neighbours above, left, right and below."""
    rows = []
    for row in range(side * side):
        beside = {row}
        beside |= {row - side} if row >= side else set()
        beside |= {row - 1} if row % side else set()
        beside |= {row + 1} if (row + 1) % side else set()
        beside |= {row + side} if row + side < side * side else set()
        rows.append(beside)
    return rows


def drawn(seed):
    """The columns of each row of the lower triangular matrix that a seed draws."""
    state = seed

    def draw():
        nonlocal state
        state = (state * 6364136223846793005 + 1442695040888963407) % 2**64
        return state >> 33

    rows = []
    for row in range(DRAWN_ROWS):
        columns = {row}
        for _ in range(3 if row else 0):
            columns.add(draw() % row)
            draw()      # the value
        draw()          # the diagonal
        rows.append(columns)
    return rows


def levels_of(before):
    """The level of each row: one more than the greatest of the rows that it depends on."""
    levels = []
    for rows in before:
        levels.append(max((levels[row] + 1 for row in rows), default=0))
    return levels


def tasks_of(before, levels, workers):
    """The task of each row, as its worker and level: a row weighs 3, and one more for each entry left of the diagonal."""
    by_level = {}
    for row, level in enumerate(levels):
        by_level.setdefault(level, []).append(row)
    task = [None] * len(before)
    for level, rows in by_level.items():
        total, so_far = sum(3 + len(before[row]) for row in rows), 0
        for row in rows:
            task[row] = (so_far * workers // total, level)
            so_far += 3 + len(before[row])
    return task


def kept(cross):
    """The cross pairs with no task between: none that is crossed with both, or beside one of them and crossed with the other."""
    after, earlier = {}, {}
    for first, second in cross:
        after.setdefault(first, set()).add(second)
        earlier.setdefault(second, set()).add(first)

    def comes_before(first, second):
        return second in after.get(first, ()) or (first[0] == second[0] and first[1] < second[1])

    def has_between(first, second):
        return any(comes_before(first, task) and comes_before(task, second)
                   for task in after[first] | earlier[second])

    return [pair for pair in cross if not has_between(*pair)]


def text(kind, number, workers):
    """What `demo` has to print."""
    rows = grid(number) if kind == "grid" else drawn(number)
    before = [{column for column in columns if column < row} for row, columns in enumerate(rows)]
    levels = levels_of(before)
    task = tasks_of(before, levels, workers)
    cross = {(task[i], task[j]) for j, earlier in enumerate(before) for i in earlier if task[i][0] != task[j][0]}
    lines = [f"demo {kind} {number} workers {workers}", "relations 27 dropped 24 covered 2 kept 1",
             f"rows {len(rows)} stored {sum(map(len, rows))} edges {sum(map(len, before))}",
             f"levels {max(levels) + 1} tasks {len(set(task))} cross {len(cross)} waits {len(kept(cross))}",
             f"sum x {len(rows) * (len(rows) + 1) // 2}"]
    return "".join(line + "\n" for line in lines)


def main():
    program = program_of(sys.argv)
    calls = [("grid", side) for side in SIDES] + [("lower", seed) for seed in SEEDS]
    if not has_program(program):
        CASES.skip("demo", f"there is no program at {program}", len(calls) * len(WORKERS))
        return CASES.end()
    for kind, number in calls:
        for workers in WORKERS:
            words = ["demo", kind, str(number), str(workers)]
            CASES.same(" ".join(words), call([program, *words]), (0, text(kind, number, workers), ""))
    return CASES.end()


if __name__ == "__main__":
    sys.exit(main())
