"""Makes the files of bench/end_to_end.sh and measures the two programs on them.

    end_to_end.py make FOLDER SIDE ROWS FULL     writes a matrix and its right side for each shape
    end_to_end.py turns FOLDER TURNS TOP PROGRAM PLAIN
    end_to_end.py loops FOLDER TURNS TOP PROGRAM

The shapes:

- `grid_small`, `grid`: the 5-point matrix of a square of points, 4 on the diagonal and -1 for each neighbour;
  its side is three tenths of SIDE, and SIDE.
- `random`: ROWS rows with 7 random places before the diagonal, which may coincide, its entries in the order of rows.
- `shuffled`: the same matrix with its entries in random order.
- `stripe`: ROWS rows with the diagonal and the 7 places 1,024 to 1,030 before it, where they exist.
- `arrow`: ROWS rows with column 0 and the diagonal.
- `diagonal`: ROWS rows with the diagonal alone.
- `full`: FULL rows with every place up to the diagonal.

Entries before the diagonal are -9 to 9 and those on it 1 to 9, except in the grids. The right sides are those for
which forward substitution gives 1, 2, 3 and so on.
"""
import filecmp
import os
import random
import statistics
import sys
import time
from array import array

COORDINATE = "%%MatrixMarket matrix coordinate integer general\n"
ARRAY = "%%MatrixMarket matrix array integer general\n"
SHAPES = "grid_small", "grid", "random", "shuffled", "stripe", "arrow", "diagonal", "full"
LOOP = "examples/forward_divided/divided.loop"
LOOPS = (
    ("unit forward substitution", "forward/unit.loop", 1),
    ("forward substitution", "forward_divided/divided.loop", 1),
    ("Gauss-Seidel", "gauss_seidel/sweep.loop", 2),
    ("by columns", "by_columns/columns.loop", 1),
    ("incomplete LU", "incomplete_lu/factor.loop", 0),
)
THREE_ROWS = "3 3 7\n1 1 1\n1 2 2\n2 1 3\n2 2 4\n2 3 5\n3 2 6\n3 3 7\n"
PROCESSOR = "s", 1.5, 3
MEMORY = "MB", 1.8, 3
ANALYSIS = "ms", 5, 50


def grid_row(side, row):
    """the entries (column, value) of one point, columns ascending"""
    r, c = divmod(row, side)
    if r > 0:
        yield row - side, -1
    if c > 0:
        yield row - 1, -1
    yield row, 4
    if c < side - 1:
        yield row + 1, -1
    if r < side - 1:
        yield row + side, -1


def earlier_row(draw, row, columns):
    """an entry at each of these columns, and the diagonal"""
    for column in columns:
        yield column, int(draw() * 19) - 9
    yield row, 1 + int(draw() * 9)


def random_columns(draw, row):
    """seven places before the diagonal, none in the first row"""
    return [int(draw() * row) for _ in range(7 if row > 0 else 0)]


def stripe_columns(row):
    return range(max(row - 1030, 0), max(row - 1023, 0))


def arrow_columns(row):
    return range(min(row, 1))


class Matrix:
    """the entries of all rows, and the right side of the solution 1, 2, 3, .."""

    def __init__(self, rows, row_of):
        self.rows, self.columns, self.values = array("L"), array("L"), array("l")
        self.right_side = []
        for row in range(rows):
            wanted = 0
            for column, value in row_of(row):
                self.rows.append(row + 1)
                self.columns.append(column + 1)
                self.values.append(value)
                wanted += value * (column + 1) if column <= row else 0
            self.right_side.append(wanted)

    def write(self, folder, name, order):
        """the matrix file with its entries in this order, and the file of the right side"""
        size = len(self.right_side)
        with open(os.path.join(folder, name + ".mtx"), "w") as matrix:
            matrix.write(f"{COORDINATE}{size} {size} {len(self.values)}\n")
            for at in order:
                matrix.write(f"{self.rows[at]} {self.columns[at]} {self.values[at]}\n")
        with open(os.path.join(folder, name + "_b.mtx"), "w") as right_side:
            right_side.write(f"{ARRAY}{size} 1\n")
            right_side.writelines(f"{wanted}\n" for wanted in self.right_side)

    def by_rows(self):
        return range(len(self.values))

    def shuffled(self, draw):
        order = list(self.by_rows())
        draw.shuffle(order)
        return order


def make(folder, side, rows, full):
    draw = random.Random(1)
    few = max(side * 3 // 10, 1)

    def lower(size, columns_of):
        return Matrix(size, lambda row: earlier_row(draw.random, row, columns_of(row)))

    made = {
        "grid_small": lambda: Matrix(few * few, lambda row: grid_row(few, row)),
        "grid": lambda: Matrix(side * side, lambda row: grid_row(side, row)),
        "random": lambda: lower(rows, lambda row: random_columns(draw.random, row)),
        "stripe": lambda: lower(rows, stripe_columns),
        "arrow": lambda: lower(rows, arrow_columns),
        "diagonal": lambda: lower(rows, lambda row: ()),
        "full": lambda: lower(full, range),
    }
    for name, build in made.items():
        matrix = build()
        matrix.write(folder, name, matrix.by_rows())
        if name == "random":
            matrix.write(folder, "shuffled", matrix.shuffled(draw))


def measured(words, output):
    """the seconds, the seconds of the processor and the most megabytes of a process whose output goes to a file"""
    target = os.open(output, os.O_WRONLY | os.O_CREAT | os.O_TRUNC)
    start = time.perf_counter()
    child = os.posix_spawn(words[0], words, os.environ, file_actions=[(os.POSIX_SPAWN_DUP2, target, 1)])
    _, status, used = os.wait4(child, 0)
    seconds = time.perf_counter() - start
    os.close(target)
    if status != 0:
        sys.exit(f"end_to_end: {' '.join(words)}: status {os.waitstatus_to_exitcode(status)}")
    return seconds, used.ru_utime + used.ru_stime, used.ru_maxrss / 1024


def mark(value, aim, bar):
    """one star above the aim, two above the bar"""
    return "**" if value > bar else "* " if value > aim else "  "


def compared(taken, part, unit, aim=float("inf"), bar=float("inf")):
    """the medians of both programs and their ratio"""
    ours, plain = (statistics.median([one[part] for one in taken[body]]) for body in ("wave", "plain"))
    digits = 1 if unit == "MB" else 3
    return f"{ours:9.{digits}f} {plain:9.{digits}f} {ours / plain:6.2f}{mark(ours / plain, aim, bar)}"


def commands_of(name):
    """what is asked of a shape, with the number of workers"""
    return (("run", 1),) if name == "shuffled" else (("run", 1), ("run", 4), ("plan", 4), ("plan", 64))


def turn_about(folder, count, bodies):
    """the figures of both programs, which begin by turns, and whether they printed the same each time"""
    taken = {body: [] for body in bodies}
    same = True
    for turn in range(count):
        for body in ("wave", "plain") if turn % 2 == 0 else ("plain", "wave"):
            taken[body].append(measured(bodies[body], os.path.join(folder, body)))
        same = filecmp.cmp(os.path.join(folder, "wave"), os.path.join(folder, "plain"), shallow=False) and same
    return taken, same


def turns(folder, count, top, program, plain):
    """whether both programs printed the same for every matrix and command, each time"""
    print(f"medians of {count} turns: wave, C and their ratio; * above the aim, ** above the bar")
    print(f"{'':19}{'processor, s':>27}{'time, s':>29}{'memory, MB':>29}")
    all_same = True
    for name in SHAPES:
        matrix, right_side = (os.path.join(folder, name + end) for end in (".mtx", "_b.mtx"))
        for command, workers in commands_of(name):
            files = [matrix, str(workers), right_side]
            taken, same = turn_about(folder, count, {
                "wave": [program, command, os.path.join(top, LOOP), *files],
                "plain": [plain, command, *files],
            })
            figures = compared(taken, 1, *PROCESSOR), compared(taken, 0, "s"), compared(taken, 2, *MEMORY)
            said = "the same" if same else "OUTPUT DIFFERS"
            print(f"{name:10} {command:4} {workers:2}", *figures, said, flush=True)
            all_same = all_same and same
    return all_same


def file_of(folder, name, text):
    path = os.path.join(folder, name)
    with open(path, "w") as made:
        made.write(text)
    return path


def loops(folder, count, top, program):
    """the milliseconds of the commands that read and analyse a loop, and of a plan of three rows"""
    matrix = file_of(folder, "three.mtx", COORDINATE + THREE_ROWS)
    vector = file_of(folder, "three_b.mtx", ARRAY + "3 1\n1\n2\n3\n")
    above = f"* above {ANALYSIS[1]}, ** above {ANALYSIS[2]}"
    print(f"milliseconds from start to end and of the processor, the least of {count} turns; {above}")
    print(f"{'':26}{'show':>16}{'explain':>18}{'plan, three rows':>18}")
    for name, path, vectors in LOOPS:
        loop = os.path.join(top, "examples", path)
        asked = ["show", loop], ["explain", loop], ["plan", loop, matrix, "4", *[vector] * vectors]
        line = f"{name:26}"
        for words in asked:
            took = [measured([program, *words], os.path.join(folder, "wave")) for _ in range(count)]
            least, busy = (min(one[part] for one in took) * 1000 for part in (0, 1))
            line += f"{least:8.2f}{busy:8.2f}{mark(least, *ANALYSIS[1:])}"
        print(line.rstrip(), flush=True)


if __name__ == "__main__":
    command, folder, *rest = sys.argv[1:]
    if command == "make":
        make(folder, *map(int, rest))
    elif command == "loops":
        loops(folder, int(rest[0]), *rest[1:])
    elif not turns(folder, int(rest[0]), *rest[1:]):
        sys.exit(1)
