#!/usr/bin/env python3
"""What a whole proof costs: for each crate the processor seconds and the most memory of its proof, and
the processor seconds of its must-fail edits.

usage: bench/proofs.py [--no-edits] [--jobs N] [--table FILE] [NAME..]

In a copy of the crates in which nothing is kept each crate is proved by `rt check`, those that it uses
before it, up to N (4) side by side; a crate whose name begins with `tests_` is proved with its tests,
by `rt check --test`. Then its edits are tried, by `rt must-fail NAME`. The table is Markdown; below it
stand the sums, and the chain of crates with the greatest sum of wall times. Seconds are of
processors, user and system. `rt ci` spends about as much, and more for building and running tests and
programs.
"""
import argparse
import os
import shutil
import subprocess
import sys
import tempfile
import threading
import time

TOP = os.path.dirname(os.path.dirname(os.path.abspath(__file__)))


class Cost:
    """What one run of `rt` took: processor and wall seconds, and the most megabytes."""

    def __init__(self):
        self.processor = self.wall = 0.0
        self.megabytes = 0
        self.passed = True


def crates_of(path):
    """The crates of crates.txt in its order, each with the crates of the repository that it uses."""
    uses = {}
    for line in open(path):
        line = line.split("#")[0].strip()
        if line:
            name, _, below = line.partition(":")
            uses[name.split()[0]] = below.split()
    return {name: [low for low in below if low in uses] for name, below in uses.items()}


def run_rt(folder, *words):
    """Runs `rt` with these words in the folder."""
    cost, start = Cost(), time.time()
    child = subprocess.Popen(["rt", *words], cwd=folder, stdin=subprocess.DEVNULL,
                             stdout=subprocess.PIPE, stderr=subprocess.STDOUT, text=True, errors="replace")
    lines = list(child.stdout)
    _, status, used = os.wait4(child.pid, 0)
    child.returncode = status
    cost.wall = time.time() - start
    cost.processor = used.ru_utime + used.ru_stime
    cost.megabytes = used.ru_maxrss // 1024
    cost.passed = status == 0
    if not cost.passed:
        sys.stderr.write("".join(lines[-40:]))
    return cost


def copy_of():
    """A copy of what a proof reads, without what was kept."""
    folder = tempfile.mkdtemp(prefix="wave-proofs-")
    shutil.copytree(os.path.join(TOP, "crates"), os.path.join(folder, "crates"), ignore=shutil.ignore_patterns("out"))
    for name in ("crates.txt", "HANDLES"):
        shutil.copy(os.path.join(TOP, name), folder)
    # a root that the toolchain finds
    os.mkdir(os.path.join(folder, ".git"))
    return folder


def measure(folder, name, with_edits):
    """The cost of the proof, and that of the edits on top of it, where there are edits."""
    crate = os.path.join(folder, "crates", name)
    proof = run_rt(crate, "check", *(["--test"] if name.startswith("tests_") else []))
    if not (with_edits and proof.passed and os.path.isdir(os.path.join(crate, "must-fail"))):
        return proof, None
    return proof, run_rt(folder, "must-fail", name)


def measure_all(folder, uses, jobs, with_edits):
    """All crates, each after those that it uses."""
    costs, running, lock = {}, set(), threading.Condition()

    def ready():
        return [name for name in uses if name not in costs and name not in running
                and all(low in costs for low in uses[name])]

    def work():
        while True:
            with lock:
                while not ready() and len(costs) + len(running) < len(uses):
                    lock.wait()
                if not ready():
                    return
                name = ready()[0]
                running.add(name)
            cost = measure(folder, name, with_edits)
            print(f"{name}: {cost[0].processor:.0f} s", file=sys.stderr, flush=True)
            with lock:
                running.discard(name)
                costs[name] = cost
                lock.notify_all()

    workers = [threading.Thread(target=work) for _ in range(jobs)]
    for worker in workers:
        worker.start()
    for worker in workers:
        worker.join()
    return costs


def longest_chain(uses, costs):
    """The greatest sum of wall times of proofs along crates that use each other, and the crates."""
    best = {}
    for name in uses:
        low = max((best[below] for below in uses[name]), default=(0.0, []))
        best[name] = (low[0] + costs[name][0].wall, low[1] + [name])
    return max(best.values())


def table(uses, costs):
    lines = ["| crate | proof, s | memory, MB | edits | edits, s |", "|---|---|---|---|---|"]
    sums = {"proofs": 0.0, "tests": 0.0, "edits": 0.0}
    for name in uses:
        proof, edits = costs[name]
        folder = os.path.join(TOP, "crates", name, "must-fail")
        count = len(os.listdir(folder)) if os.path.isdir(folder) else 0
        spent = edits.processor if edits else 0.0
        sums["tests" if name.startswith("tests_") else "proofs"] += proof.processor
        sums["edits"] += spent
        failed = "" if proof.passed and (edits is None or edits.passed) else " (failed)"
        lines.append(f"| `{name}`{failed} | {proof.processor:.0f} | {proof.megabytes} | {count or ''} |"
                     f" {f'{spent:.0f}' if edits else ''} |")
    lines.append("")
    lines.append("Processor minutes: " + ", ".join(f"{what} {sums[what] / 60:.0f}" for what in sums)
                 + f", together {sum(sums.values()) / 60:.0f}.")
    wall, chain = longest_chain(uses, costs)
    lines.append(f"The longest chain takes {wall / 60:.1f} minutes: {', '.join(chain)}.")
    return "\n".join(lines) + "\n"


def main():
    words = argparse.ArgumentParser(description=__doc__, formatter_class=argparse.RawDescriptionHelpFormatter)
    words.add_argument("--no-edits", action="store_true", help="measure the proofs and tests alone")
    words.add_argument("--jobs", type=int, default=4, help="crates side by side")
    words.add_argument("--table", metavar="FILE", help="a file for the table, beside standard output")
    words.add_argument("names", nargs="*", help="these crates alone, with those below them")
    given = words.parse_args()
    uses = crates_of(os.path.join(TOP, "crates.txt"))
    if given.names:
        wanted = set()
        todo = list(given.names)
        while todo:
            name = todo.pop()
            if name not in wanted:
                wanted.add(name)
                todo += uses[name]
        uses = {name: below for name, below in uses.items() if name in wanted}
    folder = copy_of()
    try:
        costs = measure_all(folder, uses, given.jobs, not given.no_edits)
    finally:
        shutil.rmtree(folder)
    text = table(uses, costs)
    print(text, end="")
    if given.table:
        with open(given.table, "w") as file:
            file.write(text)
    return 0 if all(p.passed and (e is None or e.passed) for p, e in costs.values()) else 1


sys.exit(main())
