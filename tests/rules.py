#!/usr/bin/env python3
"""Lists the atoms and the rule instances of the systems of crates/bench_rules, straight from the table
of rules in docs/use/ANALYSIS.md. It shares nothing with the program. The gate compares what the program
prints with crates/bench_rules/stdout, which this script made:

    python3 tests/rules.py | cmp - crates/bench_rules/stdout

An atom is a name, or a pair of an array's number and a term. A term is a pair of an atom and a number.
"""

ZERO = ("0", 0)
LENGTHS = {0: ("n", 1), 1: ("nnz", 0), 2: ("n", 0)}


def text(atom):
    if isinstance(atom, str):
        return atom
    array, (inner, plus) = atom
    return f"f{array}[{text(inner)}{'+%d' % plus if plus else ''}]"


def diff(a, b, c):
    return f"{text(a)}-{text(b)}<={c}"


def at_most(s, t):
    return [diff(s[0], t[0], t[1] - s[1])]


def less(s, t):
    return [diff(s[0], t[0], t[1] - s[1] - 1)]


def equal(s, t):
    return at_most(s, t) + at_most(t, s)


def value(atom):
    return (atom, 0)


def after(term):
    return (term[0], term[1] + 1)


def parts(atom):
    return [atom] if isinstance(atom, str) else parts(atom[1][0]) + [atom]


def universe(base, terms, props):
    atoms = []

    def add(atom):
        if atom not in atoms:
            atoms.append(atom)

    for atom in ["0", "n", "nnz"]:
        add(atom)
    for a, b, _ in base:
        for atom in parts(a) + parts(b):
            add(atom)
    for term in terms:
        for atom in parts(term[0]):
            add(atom)
    for atom in list(atoms):
        for prop in props:
            if not isinstance(atom, str) and prop[0] == "diagonal" and prop[1] == atom[0]:
                _, _, f, p = prop
                for beside in [(f, value(atom)), (p, atom[1]), (p, after(atom[1]))]:
                    add(beside)
    return atoms


def ok(f, t):
    return at_most(ZERO, t) + less(t, LENGTHS[f])


def seg(f, t, p, u):
    ends = at_most(value((p, u)), t) + less(t, value((p, after(u))))
    return ends + ok(f, t) + ok(p, u) + ok(p, after(u))


def order_lines(kind):
    """The relation of the premise and of the result, from arguments to entries or back."""
    rising = [(at_most, False), (less, True)]
    return rising if kind == "rising" else rising + [(less, False), (at_most, True)]


SORTED_LINES = [(less, False), (at_most, False), (at_most, True), (less, True)]


def compared(relation, back, s, t, f):
    arguments = relation(s, t)
    entries = relation(value((f, s)), value((f, t)))
    return (entries, arguments) if back else (arguments, entries)


def by_property(prop, entries):
    kind, f = prop[0], prop[1]
    of_f = [e[1] for e in entries if e[0] == f]
    if kind == "range":
        for t in of_f:
            yield ok(f, t), at_most(prop[2], value((f, t))) + less(value((f, t)), prop[3])
    if kind in ("rising", "strict"):
        for relation, back in order_lines(kind):
            for s in of_f:
                for t in of_f:
                    premise, result = compared(relation, back, s, t, f)
                    yield ok(f, s) + ok(f, t) + premise, result
    if kind == "injective":
        for s in of_f:
            for t in of_f:
                yield ok(f, s) + ok(f, t) + equal(value((f, s)), value((f, t))), equal(s, t)
    if kind in ("sorted", "below", "upto"):
        p = prop[2]
        starts = [e[1] for e in entries if e[0] == p and (p, after(e[1])) in entries]
    if kind == "sorted":
        for relation, back in SORTED_LINES:
            for s in of_f:
                for t in of_f:
                    for u in starts:
                        premise, result = compared(relation, back, s, t, f)
                        yield seg(f, s, p, u) + seg(f, t, p, u) + premise, result
    if kind in ("below", "upto"):
        relation = less if kind == "below" else at_most
        for s in of_f:
            for u in starts:
                yield seg(f, s, p, u), relation(value((f, s)), u)
    if kind == "diagonal":
        d, g, p = prop[1], prop[2], prop[3]
        for t in of_f:
            here, start, stop = (d, t), (p, t), (p, after(t))
            back = (g, value(here))
            if back in entries and start in entries and stop in entries:
                inside = at_most(value(start), value(here)) + less(value(here), value(stop))
                yield ok(d, t) + ok(p, t) + ok(p, after(t)), inside + equal(value(back), t)
    if kind == "before":
        g = prop[2]
        for t in of_f:
            if (g, t) in entries:
                yield ok(f, t), at_most(value((f, t)), value((g, t)))


def instances(atoms, props):
    entries = [atom for atom in atoms if not isinstance(atom, str)]
    pairs = [(equal(s[1], t[1]), equal(value(s), value(t))) for s in entries for t in entries if s[0] == t[0]]
    for prop in props:
        pairs += by_property(prop, entries)
    return ["if " + " ".join(premises) + " then " + " ".join(results) for premises, results in pairs]


def show(base, terms, props):
    atoms = universe(base, terms, props)
    for atom in atoms:
        print("atom", text(atom))
    for line in instances(atoms, props):
        print(line)


# The unit forward substitution.


def entry(array, atom):
    return (array, value(atom))


def properties(with_range):
    of_col = [("range", 1, ZERO, ("n", 0))] if with_range else []
    return [("range", 0, ZERO, ("nnz", 1))] + of_col + [("rising", 0), ("sorted", 1, 0), ("diagonal", 2, 1, 0)]


def of_loop(i, p):
    return [(entry(0, i), p, 0), (p, entry(2, i), -1)]


SIZES = [("0", "n", 0), ("0", "nnz", 0)]
FIRST, SECOND, PLACE = "v9'", 'v9"', 'v11"'


# Systems made from a counter.


class Dice:
    def __init__(self, counter):
        self.state = (counter * 2654435761 + 12345) % 2**32

    def roll(self, sides):
        self.state = (self.state * 1664525 + 1013904223) % 2**32
        return (self.state >> 16) % sides

    def array(self):
        return self.roll(3)

    def size(self):
        return ["0", "n", "nnz"][self.roll(3)]

    def leaf(self):
        if self.roll(2) == 0:
            return self.size()
        line = 1 + self.roll(2)
        return f"v{line}" + ["", "'", '"'][self.roll(3)]

    def plus(self):
        return self.roll(4) - 1

    def atom(self):
        atom = self.leaf()
        for _ in range(self.roll(4)):
            plus = self.plus()
            atom = (self.array(), (atom, plus))
        return atom

    def bound(self):
        size = self.size()
        return (size, self.plus())

    def kind(self):
        f, g, h = self.array(), self.array(), self.array()
        kind = self.roll(12)
        if kind == 0:
            low = self.bound()
            return ("range", f, low, self.bound())
        kinds = [("rising", f), ("strict", f), ("injective", f), ("sorted", f, g), ("below", f, g)]
        kinds += [("upto", f, g), ("before", f, g)]
        return kinds[kind - 1] if kind <= 7 else ("diagonal", f, g, h)


def summed(total, line):
    for byte in line.encode():
        total = (total * 31 + byte) % 2**32
    return total


def show_made(counter):
    dice = Dice(counter)
    base = []
    for _ in range(dice.roll(6)):
        a = dice.atom()
        base.append((a, dice.atom(), 0))
    terms = [value(dice.atom()) for _ in range(dice.roll(3))]
    props = [dice.kind() for _ in range(dice.roll(5))]
    atoms = universe(base, terms, props)
    lines = instances(atoms, props)
    total = 0
    for atom in atoms:
        total = summed(total, text(atom))
    for line in lines:
        total = summed(total, line)
    print(f"system {counter} atoms {len(atoms)} instances {len(lines)} sum {total}")


print("relation 10:1 12:2")
show(
    SIZES + [("0", FIRST, 0), (FIRST, SECOND, -1), (SECOND, "n", -1)]
    + of_loop(SECOND, PLACE) + [(FIRST, SECOND, 0), (SECOND, FIRST, 0)],
    [], properties(True))
print("bracket 12:4")
show(SIZES + [("0", "v9", 0), ("v9", "n", -1)] + of_loop("v9", "v11"), [value(entry(1, "v11"))], properties(False))
# what the derivation in docs/use/ANALYSIS.md ends with, and where one with a step that names itself fails
print("certificate " + diff(entry(1, "v11"), "n", -1))
print("bad step 20")
for number in range(240):
    show_made(number)
