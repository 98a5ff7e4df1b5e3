"""The model of clay: what the ten commands make of a SCoP, why one is refused, whether a script reverses two instances
that may conflict, scripts drawn at random, and the order of the conflicts themselves, by going through instances."""
import copy
import itertools

from dependences import LARGEST, Pair, agreement, before, cells, has_point, meets, stamp, systems, witnesses


class Refused(Exception):
    """The message of a refusal, from its number on."""


NUMBERS = {"NoBeta": 19, "BadLevel": 20, "BadArgument": 21, "NotALoop": 22}


def written(script):
    """A script's text."""
    return "".join(f"{name}({', '.join(map(str, arguments))});\n" for name, arguments in script)


class Edit:
    """A SCoP that commands change: each is a method, which refuses or changes it. `origins` says of each statement
    which it comes from."""

    def __init__(self, scop):
        self.scop = copy.deepcopy(scop)
        self.parameters, self.origins = scop.parameters, list(range(len(scop.statements)))
        betas = [it.betas for it in scop.statements]
        for it in self.scop.statements:
            it.betas = [len({b[k] for b in betas if b[:k] == it.betas[:k] and b[k] < it.betas[k]}) for k in range(len(it.betas))]
            it.extensions = [each for each in it.extensions if each[0] == "body"][:1]
        self.scop.extensions = [each for each in self.scop.extensions if each[0] == "arrays"][:1]

    def under(self, prefix):
        return [it for it in self.scop.statements if it.betas[: len(prefix)] == prefix]

    def children(self, prefix):
        return sorted({it.betas[len(prefix)] for it in self.under(prefix) if len(it.betas) > len(prefix)})

    def is_loop(self, prefix):
        return bool(prefix) and bool(self.under(prefix)) and all(it.betas != prefix for it in self.under(prefix))

    def refuse_unless(self, condition, name):
        if not condition:
            raise Refused(name)

    def levels_of(self, prefix, *levels):
        """The statements under a prefix, which all have the levels."""
        found = self.under(prefix)
        self.refuse_unless(found, "NoBeta")
        self.refuse_unless(all(1 <= k <= len(it.levels) for it in found for k in levels), "BadLevel")
        return found

    def add(self, statements, level, added):
        """Adds to a level of each statement the form that is given for it."""
        sums = [[a + b for a, b in zip(it.levels[level - 1], added(it))] for it in statements]
        for it in statements:
            light = all(abs(a) + abs(b) <= LARGEST for a, b in zip(it.levels[level - 1], added(it)))
            self.refuse_unless(light, "Overflow")
        for it, form in zip(statements, sums):
            it.levels[level - 1] = form

    def fission(self, prefix, count):
        self.refuse_unless(self.under(prefix), "NoBeta")
        self.refuse_unless(self.is_loop(prefix), "NotALoop")
        self.refuse_unless(1 <= count < len(self.children(prefix)), "BadArgument")
        at = len(prefix)
        for it in self.scop.statements:
            b = it.betas
            if b[:at] == prefix:
                if b[at] >= count:
                    it.betas = prefix[:-1] + [prefix[-1] + 1, b[at] - count] + b[at + 1 :]
            elif b[: at - 1] == prefix[:-1] and b[at - 1] > prefix[-1]:
                b[at - 1] += 1

    def fuse(self, prefix):
        self.refuse_unless(self.under(prefix), "NoBeta")
        second, at = prefix[:-1] + [prefix[-1] + 1] if prefix else [], len(prefix)
        self.refuse_unless(self.under(second), "NoBeta")
        self.refuse_unless(self.is_loop(prefix) and self.is_loop(second), "NotALoop")
        first = len(self.children(prefix))
        for it in self.scop.statements:
            b = it.betas
            if b[:at] == second:
                it.betas = prefix + [b[at] + first] + b[at + 1 :]
            elif b[: at - 1] == prefix[:-1] and b[at - 1] > second[-1]:
                b[at - 1] -= 1

    def reorder(self, prefix, order):
        found = self.under(prefix)
        self.refuse_unless(found, "NoBeta")
        self.refuse_unless(all(it.betas != prefix for it in found), "NotALoop")
        self.refuse_unless(sorted(order) == self.children(prefix), "BadArgument")
        for it in found:
            it.betas[len(prefix)] = order.index(it.betas[len(prefix)])

    def interchange(self, prefix, first, second):
        for it in self.levels_of(prefix, first, second):
            it.levels[first - 1], it.levels[second - 1] = it.levels[second - 1], it.levels[first - 1]

    def skew(self, prefix, level, by, factor):
        found = self.levels_of(prefix, level, by)
        self.refuse_unless(level != by, "BadArgument")
        self.add(found, level, lambda it: [factor * value for value in it.levels[by - 1]])

    def shift(self, prefix, level, parameters, constant):
        found = self.levels_of(prefix, level)
        self.refuse_unless(len(parameters) == self.parameters, "BadArgument")
        self.add(found, level, lambda it: [0] * (it.depth + len(it.floors)) + parameters + [constant])

    def reverse(self, prefix, level):
        for it in self.levels_of(prefix, level):
            it.levels[level - 1] = [-value for value in it.levels[level - 1]]

    def stripmine(self, prefix, level, size):
        self.tile(prefix, level, size, level)

    def tile(self, prefix, level, size, outer):
        found = self.levels_of(prefix, level)
        self.refuse_unless(len(prefix) <= level and 1 <= outer <= level, "BadLevel")
        self.refuse_unless(size >= 1, "BadArgument")
        self.refuse_unless(all(len(it.levels) < 24 for it in found), "Limit levels")
        self.refuse_unless(all(len(it.floors) < 24 for it in found), "Limit locals")
        self.refuse_unless(all(abs(it.levels[level - 1][-1]) + size - 1 <= LARGEST for it in found), "Overflow")
        for it in found:
            at = it.depth + len(it.floors)
            wide = lambda form: form[:at] + [0] + form[at:]
            it.floors = [(wide(form), other) for form, other in it.floors] + [(wide(it.levels[level - 1]), size)]
            it.levels = [wide(form) for form in it.levels]
            it.levels.insert(outer - 1, [int(k == at) for k in range(at + self.parameters + 2)])
            it.betas.insert(level, 0)

    def iss(self, betas, iterators, parameters, constant):
        self.refuse_unless(self.under(betas), "NoBeta")
        at = next((k for k, it in enumerate(self.scop.statements) if it.betas == betas), None)
        self.refuse_unless(at is not None, "BadArgument")
        first = self.scop.statements[at]
        self.refuse_unless((len(iterators), len(parameters)) == (first.depth, self.parameters), "BadArgument")
        self.refuse_unless(len(self.scop.statements) < 1024, "Limit statements")
        self.refuse_unless(all(len(part.rows) < 256 for part in first.domain), "Limit rows")
        self.refuse_unless(abs(constant) < LARGEST, "Overflow")
        last = len(betas) - 1
        for it in self.scop.statements:
            if it.betas[:last] == betas[:-1] and it.betas[last] > betas[-1]:
                it.betas[last] += 1
        second = copy.deepcopy(first)
        second.betas[-1] += 1
        for it, sign, more in (first, 1, 0), (second, -1, -1):
            for part in it.domain:
                form = iterators + [0] * part.locals + parameters + [constant]
                row = [sign * value for value in form]
                part.rows.append([1] + row[:-1] + [row[-1] + more])
        self.scop.statements.insert(at + 1, second)
        self.origins.insert(at + 1, self.origins[at])

    def apply(self, script):
        for number, (name, arguments) in enumerate(script, 1):
            try:
                getattr(self, name)(*copy.deepcopy(arguments))
            except Refused as refused:
                kind = str(refused)
                if kind.startswith("Limit"):
                    raise Refused(f"17 {kind} {number}")
                if kind == "Overflow":
                    raise Refused(f"23 Overflow command {number}")
                raise Refused(f"{NUMBERS[kind]} {kind} {number}")


def reversing_levels(same, left, right):
    """The levels at which the source can come behind the target, or with it where both are one statement's."""
    if same:
        return list(range(1, len(left)))
    shared = agreement(left, right)
    return list(range(1, shared + 1)) + ([0] if right[shared] < left[shared] else [])


def violations(scop, edited, origins):
    """The rows of each violation system, in the program's order."""
    olds = [scop.statements[origin] for origin in origins]
    for entry in systems(edited, [it.betas for it in olds]):
        s, t, old = entry[0], entry[1], entry[-1]
        a, b = edited.statements[s], edited.statements[t]
        pair = Pair(edited, entry)
        rows = pair.both() + pair.ordered(olds[s], olds[t], old, -1)
        for level in reversing_levels(s == t, a.betas, b.betas):
            yield rows + pair.ordered(a, b, level, 1)


def clay(scop, script):
    """The edited SCoP and its statements' origins, or Refused."""
    edit = Edit(scop)
    edit.apply(script)
    for number, rows in enumerate(violations(scop, edit.scop, edit.origins), 1):
        if has_point(rows):
            raise Refused(f"25 Illegal {number}")
    return edit.scop, edit.origins


def instances(scop, parameters):
    """The instances with iterators from -2 to 6: of each statement, its iterators."""
    for k, it in enumerate(scop.statements):
        for x in itertools.product(range(-2, 7), repeat=it.depth):
            if any(witnesses(it, x, parameters)):
                yield k, x


def order_fault(scop, edited, origins, parameters):
    """Where two instances conflict, and the edited schedule does not keep their order; or the instances are others."""
    if not meets(scop.context.rows, parameters):
        return ""
    found = list(instances(edited, parameters))
    if sorted((origins[k], x) for k, x in found) != sorted(instances(scop, parameters)):
        return "the instances are not the original's"
    olds = [stamp(scop.statements[origins[k]], x, parameters) for k, x in found]
    news = [stamp(edited.statements[k], x, parameters) for k, x in found]
    touching = {}
    for number, (k, x) in enumerate(found):
        for writes, cell in cells(edited.statements[k], x, parameters):
            touching.setdefault(cell, set()).add((number, writes))
    for uses in touching.values():
        for (a, writes), (b, other) in itertools.product(uses, repeat=2):
            if (writes or other) and before(olds[a], olds[b]) and not before(news[a], news[b]):
                return f"{found[a]} and {found[b]} conflict and lose their order"
    return ""


def draw_command(draw, edit):
    """A command that often fits the SCoP as it is, and at times does not."""
    it = draw.choice(edit.scop.statements)
    name = draw.choice("fission fission fuse fuse reorder interchange skew shift reverse stripmine tile iss".split())
    whole = name == "iss" and draw.random() < 0.85
    prefix = it.betas[: len(it.betas) if whole else draw.randrange(len(it.betas) + 1)]
    loops = [each.betas[:k] for each in edit.scop.statements for k in range(1, len(each.betas))]
    if name == "fission":
        prefix = draw.choice([each for each in loops if len(edit.children(each)) > 1] or [prefix])
    if name == "fuse":
        prefix = draw.choice([each for each in loops if edit.is_loop(each[:-1] + [each[-1] + 1])] or [prefix])
    prefix = prefix + ([draw.choice([0, 1, -1, 7])] if draw.random() < 0.07 else [])
    levels = len(it.levels)
    level = lambda: draw.randint(1, max(levels, 1)) if draw.random() < 0.93 else draw.choice([0, levels + 1, -1])
    small = lambda: draw.choice([-3, -2, -1, 0, 1, 1, 2, 3])
    size = lambda: draw.choice([1, 2, 3, 4, 32, 0])
    forms = [draw.choice([0, 0, 1, -1]) for _ in range(edit.parameters + (draw.random() < 0.05))]
    children = list(range(len(edit.children(prefix)))) + ([0] if draw.random() < 0.1 else [])
    loop = prefix[: draw.randint(1, 2)]
    return name, {
        "fission": lambda: [prefix, draw.choice([0, 1, 1, 1, 2, 3])],
        "fuse": lambda: [prefix],
        "reorder": lambda: [prefix, draw.sample(children, len(children))],
        "interchange": lambda: [prefix, level(), level()],
        "skew": lambda: [prefix, level(), level(), small()],
        "shift": lambda: [prefix, level(), forms, small()],
        "reverse": lambda: [prefix, level()],
        "stripmine": lambda: [loop, level(), size()],
        "tile": lambda: [loop, level(), size(), level()],
        "iss": lambda: [prefix, [small() for _ in range(it.depth)], forms, small()],
    }[name]()


def draw_script(draw, scop):
    """One to four commands; most of those that are refused are drawn again, and another ends the script."""
    edit, script = Edit(scop), []
    wanted = draw.randint(1, 4)
    while len(script) < wanted:
        command = draw_command(draw, edit)
        try:
            edit.apply([command])
        except Refused:
            if draw.random() < 0.85:
                continue
            return script + [command]
        script.append(command)
    return script
