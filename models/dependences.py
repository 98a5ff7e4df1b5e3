"""The model of candl and audit: the list of a SCoP's dependence systems, the rows of each, whether they have a rational
point, whether multipliers contradict them, and the conflicts themselves, by going through instances."""
import itertools
from fractions import Fraction

from scops import WRITES

LARGEST = 2**127 - 1


def agreement(left, right):
    """How many leading numbers two vectors share."""
    return next((k for k, (a, b) in enumerate(zip(left, right)) if a != b), min(len(left), len(right)))


def order_levels(left, right):
    """The levels at which an instance under one beta vector can come before one under another; 0 is 'by the betas'."""
    if left == right:
        return list(range(1, len(left)))
    shared = agreement(left, right)
    return list(range(1, shared + 1)) + ([0] if left[shared] < right[shared] else [])


def systems(scop, betas=None):
    """(source, target, source access, target access, source part, target part, level), from 0 but for the level. The
    beta vectors are the statements' own, or those given."""
    betas = betas or [it.betas for it in scop.statements]
    for (s, a), (t, b) in itertools.product(enumerate(scop.statements), repeat=2):
        levels = order_levels(betas[s], betas[t])
        accesses = itertools.product(enumerate(a.accesses), enumerate(b.accesses))
        for (i, (kind, array, subscripts)), (j, (other, name, forms)) in accesses:
            if array != name or len(subscripts) != len(forms) or not (kind in WRITES or other in WRITES):
                continue
            for p, q, level in itertools.product(range(len(a.domain)), range(len(b.domain)), levels):
                yield s, t, i, j, p, q, level


class Pair:
    """Rows over a pair of instances: the source's iterators, the target's, the locals of both domain parts, the floors
    of both schedules, the parameters, the constant."""

    def __init__(self, scop, entry):
        s, t, i, j, p, q, self.level = entry
        self.scop, self.source, self.target = scop, scop.statements[s], scop.statements[t]
        self.parts = self.source.domain[p], self.target.domain[q]
        self.subscripts = zip(self.source.accesses[i][2], self.target.accesses[j][2])
        a, b = self.source, self.target
        sizes = [a.depth, b.depth, self.parts[0].locals, self.parts[1].locals, len(a.floors), len(b.floors)]
        self.sizes, self.starts = sizes, [sum(sizes[:k]) for k in range(len(sizes))]
        self.width = sum(sizes) + scop.parameters + 1

    def placed(self, form, side, floors=4):
        """The form of the source (0) or the target (1) in the pair's columns; its middle ones are floors, or locals."""
        depth, tail = self.sizes[side], self.scop.parameters + 1
        row = [0] * self.width
        row[self.starts[side] : self.starts[side] + depth] = form[:depth]
        middle = form[depth : len(form) - tail]
        row[self.starts[floors + side] : self.starts[floors + side] + len(middle)] = middle
        row[self.width - tail :] = form[len(form) - tail :]
        return row

    def difference(self, left, right):
        """The source's form less the target's."""
        return [a - b for a, b in zip(self.placed(left, 0), self.placed(right, 1))]

    def both(self):
        """That both are instances, have their floors, and touch one cell."""
        rows = [[row[0]] + [0] * (self.width - len(row) + 1) + row[1:] for row in self.scop.context.rows]
        for side in 0, 1:
            rows += [[row[0]] + self.placed(row[1:], side, 2) for row in self.parts[side].rows]
        for side, it in enumerate((self.source, self.target)):
            for k, (form, size) in enumerate(it.floors):
                low = self.placed(form, side)
                low[self.starts[4 + side] + k] -= size
                high = [-value for value in low]
                high[-1] += size - 1
                rows += [[1] + low, [1] + high]
        return rows + [[0] + self.difference(left, right) for left, right in self.subscripts]

    def ordered(self, first, second, level, sign):
        """That levels agree before the level, and there the source is before the target (-1), or behind it (1)."""
        equal = level - 1 if level else agreement(first.betas, second.betas)
        rows = [[0] + self.difference(first.levels[k], second.levels[k]) for k in range(equal)]
        if level:
            last = [sign * value for value in self.difference(first.levels[level - 1], second.levels[level - 1])]
            last[-1] -= 1
            rows.append([1] + last)
        return rows

    def rows(self):
        return self.both() + self.ordered(self.source, self.target, self.level, -1)

    def head(self, rows):
        return [len(rows), self.width + 1, self.sizes[0], self.sizes[1], sum(self.sizes[2:]), self.scop.parameters]


def value(form, point):
    return sum(a * b for a, b in zip(form, list(point) + [1]))


def meets(rows, point):
    return all(value(row[1:], point) == 0 if row[0] == 0 else value(row[1:], point) >= 0 for row in rows)


def substituted(rows):
    """The inequalities that are left when each equality gave one unknown, or None where an equality contradicts."""
    equal = [[Fraction(v) for v in row[1:]] for row in rows if row[0] == 0]
    least = [[Fraction(v) for v in row[1:]] for row in rows if row[0] == 1]
    while equal:
        row = equal.pop()
        at = next((k for k, v in enumerate(row[:-1]) if v), None)
        if at is None:
            if row[-1]:
                return None
            continue
        row = [v / row[at] for v in row]
        gone = lambda other: [a - other[at] * b for a, b in zip(other, row)] if other[at] else other
        equal, least = [gone(it) for it in equal], [gone(it) for it in least]
    return least


def has_point(rows):
    """Whether rows have a rational point: by pivoting from one violated bound to the next, the first of them each time,
    which ends. The program eliminates; this is another way."""
    rows = substituted(rows)
    if rows is None or any(row[-1] < 0 for row in rows if not any(row[:-1])):
        return False
    rows = sorted({tuple(row) for row in rows if any(row[:-1])})
    unknowns = len(rows[0]) - 1 if rows else 0
    least = {unknowns + k: -row[-1] for k, row in enumerate(rows)}
    at = dict.fromkeys(range(unknowns + len(rows)), Fraction(0))
    table = {unknowns + k: {j: v for j, v in enumerate(row[:-1]) if v} for k, row in enumerate(rows)}
    while True:
        low = min((k for k in table if k in least and at[k] < least[k]), default=None)
        if low is None:
            return True
        row = table.pop(low)
        enter = next((k for k in sorted(row) if row[k] > 0 or k not in least or at[k] > least[k]), None)
        if enter is None:
            return False
        step = (least[low] - at[low]) / row[enter]
        at[low], at[enter] = least[low], at[enter] + step
        new = {k: -v / row[enter] for k, v in row.items() if k != enter}
        new[low] = 1 / row[enter]
        for k, other in table.items():
            factor = other.pop(enter, 0)
            at[k] += factor * step
            for j, v in new.items() if factor else ():
                other[j] = other.get(j, 0) + factor * v
                if not other[j]:
                    del other[j]
        table[enter] = new


def contradicts(rows, multipliers):
    """Whether the sum of the rows by their multipliers is a negative number, inequalities by none below zero."""
    if len(multipliers) != len(rows) or any(row[0] and m < 0 for row, m in zip(rows, multipliers)):
        return False
    columns = [[m * v for m, v in zip(multipliers, column)] for column in list(zip(*rows))[1:]]
    sums = [sum(column) for column in columns]
    return not any(sums[:-1]) and sums[-1] < 0 and all(sum(map(abs, column)) <= LARGEST for column in columns)


def block(text):
    """The lines of the block of dependences at the end of a text, and the text before it."""
    lines = text.split("\n")
    at = max(k for k, line in enumerate(lines) if line == "<suite_dependences>")
    if lines[-3:] != ["</suite_dependences>", "</OpenScop>", ""]:
        raise ValueError("the block is not the last")
    return lines[at + 1 : -3], "\n".join(lines[:at] + lines[-2:])


def checked_block(scop, text):
    """Says first where the block of a text is not the model's; and each system's entry, rows and whether it is kept."""
    lines, verdicts = iter(block(text)[0]), []
    entries = list(systems(scop))
    wrong = lambda line, wanted: (f"the block has {line!r}, and not {wanted!r}", verdicts)
    line = next(lines, None)
    if line != str(len(entries)):
        return wrong(line, len(entries))
    for entry in entries:
        pair = Pair(scop, entry)
        rows, line = pair.rows(), next(lines, None)
        kept = has_point(rows)
        kinds = [scop.statements[entry[k]].accesses[entry[k + 2]][0] in WRITES for k in (0, 1)]
        kind = {(True, False): "RAW", (False, True): "WAR", (True, True): "WAW"}[tuple(kinds)]
        wanted = " ".join(map(str, [kind, *(k + 1 for k in entry[:6]), entry[6], "kept" if kept else "dropped"]))
        if line != wanted:
            return wrong(line, wanted)
        for wanted in [pair.head(rows)] + rows if kept else []:
            line = next(lines, None)
            if line != " ".join(map(str, wanted)):
                return wrong(line, wanted)
        if not kept:
            line = next(lines, "")
            if not contradicts(rows, [int(word) for word in line.split()]):
                return wrong(line, "multipliers that contradict")
        verdicts.append((entry, rows, kept))
    line = next(lines, None)
    return wrong(line, "nothing more") if line is not None else (None, verdicts)


def floors(it, iterators, parameters):
    """The values of a statement's floors at an instance."""
    found = []
    for form, size in it.floors:
        rest = [0] * (len(it.floors) - len(found))
        found.append(value(form, [*iterators, *found, *rest, *parameters]) // size)
    return found


def stamp(it, iterators, parameters):
    """When an instance runs: its betas and the values of its levels, in turn."""
    point = [*iterators, *floors(it, iterators, parameters), *parameters]
    found = [it.betas[0]]
    for level, beta in zip(it.levels, it.betas[1:]):
        found += [value(level, point), beta]
    return found


def cells(it, iterators, parameters):
    """What an instance touches: (writes, array and numbers)."""
    point = [*iterators, *parameters]
    return [(kind in WRITES, (array, *(value(form, point) for form in forms))) for kind, array, forms in it.accesses]


def witnesses(it, iterators, parameters):
    """For each part of the domain, the values of its locals, near zero, that put an instance into it."""
    return [
        [by for by in itertools.product(range(-6, 7), repeat=part.locals) if meets(part.rows, [*iterators, *by, *parameters])]
        for part in it.domain
    ]


def conflict_fault(draw, scop, verdicts, parameters):
    """Goes through pairs of instances with iterators from -1 to 2, and says where one conflicts and is in no kept
    system, or is in a system that should not have it; and how many conflict."""
    if not meets(scop.context.rows, parameters):
        return None, 0
    found = []
    for k, it in enumerate(scop.statements):
        for x in itertools.product(range(-1, 3), repeat=it.depth):
            by = witnesses(it, x, parameters)
            if any(by):
                found.append((k, x, floors(it, x, parameters), stamp(it, x, parameters), cells(it, x, parameters), by))
    conflicts = 0
    found = draw.sample(found, min(12, len(found)))
    for a, b in itertools.product(found, repeat=2):
        touch = any((w or v) and c == d for w, c in a[4] for v, d in b[4])
        conflict = touch and before(a[3], b[3])
        lies = False
        for entry, rows, kept in verdicts:
            if entry[:2] != (a[0], b[0]):
                continue
            for l, m in itertools.product(a[5][entry[4]], b[5][entry[5]]):
                if meets(rows, [*a[1], *b[1], *l, *m, *a[2], *b[2], *parameters]):
                    if not kept:
                        return f"the dropped system {entry} has {a[:2]}, {b[:2]} at {parameters}", 0
                    lies = True
        if lies != conflict:
            return f"{a[:2]}, {b[:2]} at {parameters}: conflict {conflict}, in a kept system {lies}", 0
        conflicts += conflict
    return None, conflicts


def before(left, right):
    """Whether one stamp comes first, by the first numbers in which they differ."""
    at = agreement(left, right)
    return at < min(len(left), len(right)) and left[at] < right[at]
