"""Regions of C as the models have them: read from a well-formed text, translated to the text of their SCoP.

A form is a list of integers: the coefficients of the loops round a place, of the parameters, and the constant. A row is a
kind (0 for 'equals zero', 1 for 'at least zero'), a form and the coefficient of the row's own local, or None. A part is a
list of groups of rows; the rows of a group share a local."""
import re, sys

sys.setrecursionlimit(20000)
TOKEN = re.compile(r"(?P<name>[A-Za-z_]\w*)|(?P<number>\.?\d(?:[eE][+-]|[\w.])*)|(?P<sign>\+=|-=|\*=|/=|%=|\+\+|--|<=|>=|==|!=|&&|\|\||[^\s])")
SEPARATOR = re.compile(r"(?:\s|//[^\n]*|/\*.*?\*/)+", re.S)
ASSIGNS, OPERATORS, LARGEST = ("=", "+=", "-=", "*=", "/=", "%="), ("max", "min", "ceild", "floord"), 2**127 - 1
OPPOSITE = {"<": ">=", ">=": "<", ">": "<=", "<=": ">", "==": "!=", "!=": "=="}


class Refused(Exception):
    """The words of a refusal."""


class Parser:
    """Trees are tuples: ('integer', n), ('literal',), ('name', name, at, subscripts), ('call', name, at, values),
    ('bracket', tree), ('sign', sign, tree), (operator, left, right), ('?', test, one, other); each operand with its place."""

    def __init__(self, text):
        lines = text.split("\n")
        pragma = lambda line, word: re.fullmatch(rf"[ \t\r]*#[ \t\r]*pragma[ \t\r]+{word}[ \t\r]*", line)
        first = next(k for k, line in enumerate(lines) if pragma(line, "scop"))
        last = next(k for k in range(first + 1, len(lines)) if pragma(lines[k], "endscop"))
        self.text, start = text, sum(len(line) + 1 for line in lines[: first + 1])
        end, self.tokens = sum(len(line) + 1 for line in lines[:last]), []
        while True:
            gap = SEPARATOR.match(text, start, end)
            start = gap.end() if gap else start
            if start >= end:
                break
            found = TOKEN.match(text, start, end)
            self.tokens.append((found.lastgroup, found.group(), start))
            start = found.end()
        self.tokens.append(("end", "", end))
        self.at = 0

    def place(self, at):
        return f"{self.text.count(chr(10), 0, at) + 1} {at - self.text.rfind(chr(10), 0, at)}"

    @property
    def word(self):
        return self.tokens[self.at][1]

    @property
    def start(self):
        return self.tokens[self.at][2]

    def take(self, wanted=None):
        kind, word, at = self.tokens[self.at]
        assert wanted is None or word == wanted, (wanted, word, self.place(at))
        self.at += 1
        return word

    def statements(self, end):
        found = []
        while self.word != end:
            found.append(self.statement())
        return found

    def statement(self):
        if self.word == "for":
            self.take(), self.take("(")
            if self.word == "int":
                self.take()
            at, name = self.start, self.take()
            self.take("=")
            start = self.located(self.sum)
            self.take(";"), self.take(name)
            sign = self.take()
            bound = self.located(self.sum)
            self.take(";")
            step_at, words = self.start, [self.take(), self.take()]
            size = self.take() if words[1] in ("+=", "-=") else "1"
            self.take(")")
            step = int(size) if "+" in words[0] + words[1] else -int(size)
            return ("for", name, at, start, sign, bound, step, step_at, self.statement())
        if self.word == "if":
            self.take(), self.take("(")
            condition = self.located(self.value)
            self.take(")")
            then, other = self.statement(), []
            if self.word == "else":
                self.take()
                other = [self.statement()]
            return ("if", condition, [then], other)
        if self.word == "{":
            self.take()
            inside = self.statements("}")
            self.take("}")
            return ("block", inside)
        if self.word == ";":
            self.take()
            return ("block", [])
        first = self.start
        target, sign = self.target(), self.take()
        right = self.located(self.value)
        text = SEPARATOR.sub(" ", self.text[first : self.start]) + ";"
        self.take(";")
        return ("assign", text, target, sign != "=", right)

    def located(self, read):
        at = self.start
        return at, read()

    def target(self):
        at, name, subscripts = self.start, self.take(), []
        while self.word == "[":
            self.take()
            subscripts.append(self.located(self.sum))
            self.take("]")
        return ("name", name, at, subscripts)

    def value(self):
        test = self.chain(0)
        if self.word != "?":
            return test
        self.take()
        one = self.value()
        self.take(":")
        return ("?", test, one, self.value())

    LEVELS = (("||",), ("&&",), ("==", "!="), ("<", "<=", ">", ">="), ("+", "-"), ("*", "/", "%"))

    def sum(self):
        return self.chain(4)

    def chain(self, level):
        if level == len(self.LEVELS):
            return self.unary()
        left = self.chain(level + 1)
        while self.word in self.LEVELS[level]:
            left = (self.take(), left, self.chain(level + 1))
        return left

    def unary(self):
        if self.word in ("+", "-", "!"):
            sign = self.take()
            return ("sign", sign, self.unary())
        if self.word == "(":
            self.take()
            inside = self.value()
            self.take(")")
            return ("bracket", inside)
        kind, word, at = self.tokens[self.at]
        if kind == "number":
            self.take()
            return ("integer", int(word)) if re.fullmatch(r"0|[1-9]\d*", word) else ("literal",)
        if self.tokens[self.at + 1][1] != "(":
            return self.target()
        self.take(), self.take()
        values = []
        while self.word != ")":
            values.append(self.located(self.value))
            if self.word == ",":
                self.take()
        self.take()
        return ("call", word, at, values)


def occurrences(tree, control, scope):
    """(name, role or None, shadows, place) of each name of a value, in the order of the text."""
    if tree[0] == "name":
        _, name, at, subscripts = tree
        role = f"array of {len(subscripts)}" if subscripts else "iterator" if name in scope else "parameter" if control else None
        yield name, role, False, at
        for _, each in subscripts:
            yield from occurrences(each, True, scope)
    elif tree[0] == "call":
        if tree[1] not in OPERATORS:
            yield tree[1], "function", False, tree[2]
        for _, each in tree[3]:
            yield from occurrences(each, control, scope)
    else:
        for each in tree[1:]:
            if isinstance(each, tuple):
                yield from occurrences(each, control, scope)


def names_in(statements, scope):
    for it in statements:
        if it[0] == "for":
            yield it[1], "iterator", it[1] in scope, it[2]
            yield from occurrences(it[3][1], True, scope)
            yield from occurrences(it[5][1], True, scope)
            yield from names_in([it[8]], scope + [it[1]])
        elif it[0] == "if":
            yield from occurrences(it[1][1], True, scope)
            yield from names_in(it[2] + it[3], scope)
        elif it[0] == "block":
            yield from names_in(it[1], scope)
        else:
            _, name, at, subscripts = it[2]
            yield name, f"array of {len(subscripts)}", False, at
            for _, each in subscripts:
                yield from occurrences(each, True, scope)
            yield from occurrences(it[4][1], False, scope)


class NotAffine(Exception):
    pass


class Region:
    """A region with its names, and its translation."""

    def __init__(self, text):
        self.parser = Parser(text)
        self.tree = self.parser.statements("")
        self.names()
        self.check(self.tree)
        self.count, self.refusals, self.lines = 0, {}, []
        self.walk(self.tree, [], [], [], [0])

    def names(self):
        found = list(names_in(self.tree, []))
        parameters = {name for name, role, _, _ in found if role == "parameter"}
        roles = [(name, role or ("parameter" if name in parameters else "array of 0"), shadows, at) for name, role, shadows, at in found]
        first = {}
        for name, role, shadows, at in roles:
            if shadows or first.setdefault(name, role) != role:
                raise Refused(f"9 NameClash {self.parser.place(at)}")
        self.parameters = [name for name in first if first[name] == "parameter"]
        self.arrays = [name for name in first if first[name].startswith("array")]

    # ---- rules

    def fault(self, at):
        raise Refused(f"8 NotAffine {self.parser.place(at)}")

    def affine(self, tree):
        """Whether names stand in an affine value."""
        if tree[0] == "integer":
            return False
        if tree[0] == "name" and not tree[3]:
            return True
        if tree[0] == "bracket" or tree[0] == "sign" and tree[1] != "!":
            return self.affine(tree[-1])
        if tree[0] in ("+", "-"):
            left, right = self.affine(tree[1]), self.affine(tree[2])
            return left or right
        if tree[0] == "*":
            left, right = self.affine(tree[1]), self.affine(tree[2])
            if not (left and right):
                return left or right
        raise NotAffine

    def bound(self, tree, many):
        if tree[0] != "call":
            self.affine(tree)
        elif tree[1] == many and len(tree[3]) == 2:
            for _, each in tree[3]:
                self.bound(each, many)
        elif tree[1] in ("ceild", "floord") and len(tree[3]) == 2 and tree[3][1][1][0] == "integer" and tree[3][1][1][1] >= 1:
            self.affine(tree[3][0][1])
        else:
            raise NotAffine

    def condition(self, tree):
        if tree[0] == "bracket" or tree[0] == "sign" and tree[1] == "!":
            self.condition(tree[-1])
        elif tree[0] in ("&&", "||"):
            self.condition(tree[1]), self.condition(tree[2])
        elif tree[0] in OPPOSITE:
            divided = remainder(tree[1])
            if divided and tree[0] in ("==", "!=") and integer(tree[2]) == 0 and (integer(divided[1]) or 0) >= 1:
                self.affine(divided[0])
            else:
                self.affine(tree[1]), self.affine(tree[2])
        else:
            raise NotAffine

    def asked(self, at, rule, *arguments):
        try:
            rule(*arguments)
        except NotAffine:
            self.fault(at)

    def references(self, tree):
        """The names of a right side with their subscripts, which have to be affine."""
        if tree[0] == "name":
            for at, each in tree[3]:
                self.asked(at, self.affine, each)
            return [tree]
        inside = [each for _, each in tree[3]] if tree[0] == "call" else [each for each in tree[1:] if isinstance(each, tuple)]
        return [it for each in inside for it in self.references(each)]

    def check(self, statements):
        for it in statements:
            if it[0] == "for":
                (at, start), (bound_at, bound), up = it[3], it[5], it[4][0] == "<"
                self.asked(at, self.bound, start, "max" if up else "min")
                if abs(it[6]) > 1:
                    self.asked(at, self.affine, start)
                self.asked(bound_at, self.bound, bound, "min" if up else "max")
                if it[6] == 0:
                    self.fault(it[7])
                self.check([it[8]])
            elif it[0] == "if":
                self.asked(it[1][0], self.condition, it[1][1])
                self.check(it[2] + it[3])
            elif it[0] == "block":
                self.check(it[1])
            else:
                self.references(it[2]), self.references(it[4][1])

    # ---- forms

    def form(self, tree, loops):
        """The form of an affine value; `wide` is set where a coefficient of it or of a part of it is out of range."""
        if tree[0] == "integer":
            found = [0] * (len(loops) + len(self.parameters)) + [tree[1]]
        elif tree[0] == "name":
            column = max(k for k, x in enumerate(loops) if x == tree[1]) if tree[1] in loops else len(loops) + self.parameters.index(tree[1])
            found = [int(k == column) for k in range(len(loops) + len(self.parameters) + 1)]
        elif tree[0] in ("bracket", "sign"):
            found = self.form(tree[-1], loops)
            found = [-x for x in found] if tree[1] == "-" else found
        else:
            left, right = self.form(tree[1], loops), self.form(tree[2], loops)
            if tree[0] == "*":
                found = [x * right[-1] for x in left] if self.affine(tree[1]) else [x * left[-1] for x in right]
            else:
                found = [x + y if tree[0] == "+" else x - y for x, y in zip(left, right)]
        self.wide = self.wide or any(abs(x) > LARGEST for x in found)
        return found

    def bound_rows(self, tree, loops, lower, shift):
        """The rows of x + shift against a bound, the coefficient of x apart from the form."""
        if tree[0] == "call" and tree[1] in ("max", "min"):
            return [row for _, each in tree[3] for row in self.bound_rows(each, loops, lower, shift)]
        size, rounds = 1, 0
        if tree[0] == "call":
            size, rounds = tree[3][1][1][1], int((tree[1] == "floord") == lower)
            tree = tree[3][0][1]
        sign = 1 if lower else -1
        form = [-sign * x for x in self.form(tree, loops)]
        form[-1] += sign * size * shift + rounds * (size - 1)
        return [(1, form[: len(loops)] + [sign * size] + form[len(loops) :], None)]

    def loop_part(self, it, loops):
        up, strict, step = it[4][0] == "<", len(it[4]) == 1, abs(it[6])
        rows = self.bound_rows(it[3][1], loops, up, 0)
        rows += self.bound_rows(it[5][1], loops, not up, (1 if up else -1) * strict)
        part = [rows]
        if step > 1:
            sign = 1 if up else -1
            form = [-sign * x for x in self.form(it[3][1], loops)]
            part.append([(0, form[: len(loops)] + [sign] + form[len(loops) :], -step)])
        return part

    def parts(self, tree, loops, truth):
        """The parts in which a condition has this truth, or how many they are where they are too many."""
        if tree[0] == "bracket":
            return self.parts(tree[1], loops, truth)
        if tree[0] == "sign":
            return self.parts(tree[2], loops, not truth)
        if tree[0] in ("&&", "||"):
            left, right = self.parts(tree[1], loops, truth), self.parts(tree[2], loops, truth)
            return crossed(left, right) if (tree[0] == "&&") == truth else both(left, right)
        sign, divided = tree[0] if truth else OPPOSITE[tree[0]], remainder(tree[1])
        if divided:
            form, size = self.form(divided[0], loops), integer(divided[1])
            if sign == "==":
                return [[[(0, form, -size)]]]
            opposite = [-x for x in form]
            return [[[(1, moved(form, -1), -size), (1, moved(opposite, size - 1), size)]]]
        left, right = self.form(tree[1], loops), self.form(tree[2], loops)
        less, more = [y - x for x, y in zip(left, right)], [x - y for x, y in zip(left, right)]
        rows = {"<": [(1, moved(less, -1))], "<=": [(1, less)], ">": [(1, moved(more, -1))], ">=": [(1, more)], "==": [(0, more)]}
        rows["!="] = rows[">"] + rows["<"]
        return [[[row + (None,)]] for row in rows[sign]]

    # ---- statements

    def walk(self, statements, loops, rounds, betas, counter):
        for it in statements:
            if it[0] == "for":
                inside = [0]
                wide, self.wide = getattr(self, "wide", False), False
                part = self.loop_part(it, loops)
                outer = rounds + [([part], self.wide, len(loops) + 1)]
                self.walk([it[8]], loops + [it[1]], outer, betas + [(counter[0], 1 if it[4][0] == "<" else -1)], inside)
                counter[0] += int(inside[0] > 0)
            elif it[0] == "if":
                for truth, branch in ((True, it[2]), (False, it[3])):
                    self.wide = False
                    parts = self.parts(it[1][1], loops, truth)
                    self.walk(branch, loops, rounds + [(parts, self.wide, len(loops))], betas, counter)
            elif it[0] == "block":
                self.walk(it[1], loops, rounds, betas, counter)
            else:
                self.assign(it, loops, rounds, betas + [(counter[0], 0)])
                counter[0] += 1

    def assign(self, it, loops, rounds, betas):
        _, text, target, updates, right = it
        self.count += 1
        wide = any(each for _, each, _ in rounds)
        self.wide = False
        reads = [("READ", target)] if updates else []
        reads += [("READ", r) for r in self.references(right[1]) if r[3] or not (r[1] in loops or r[1] in self.parameters)]
        accesses = [(kind, self.arrays.index(r[1]) + 1, [self.form(e, loops) for _, e in r[3]]) for kind, r in reads + [("WRITE", target)]]
        wide = wide or self.wide
        number, domain = 1, [[]]
        for parts, _, _ in rounds:
            number *= parts if isinstance(parts, int) else len(parts)
        k, P = self.count, len(self.parameters)
        if len(accesses) > 256:
            return self.refusals.setdefault(k, f"17 Limit accesses {k}")
        if any(len(subscripts) > 12 for _, _, subscripts in accesses):
            return self.refusals.setdefault(k, f"17 Limit subscripts {k}")
        if number > 64:
            return self.refusals.setdefault(k, f"10 TooManyParts {k}")
        for parts, _, depth in rounds:
            domain = [p + [(group, depth) for group in q] for p in domain for q in parts]
        made = [self.part(p, len(loops), P) for p in domain]
        if any(len(rows) > 256 for rows, _ in made):
            return self.refusals.setdefault(k, f"17 Limit rows {k}")
        if any(locals > 24 for _, locals in made):
            return self.refusals.setdefault(k, f"17 Limit locals {k}")
        if wide or any(abs(x) > LARGEST for rows, _ in made for row in rows for x in row):
            return self.refusals.setdefault(k, f"23 Overflow statement {k}")
        self.lines.append(self.printed(text, loops, betas, made, accesses))

    def part(self, groups, depth, P):
        locals = sum(group[0][2] is not None for group, _ in groups)
        rows, local = [], 0
        for group, at in groups:
            own = group and group[0][2] is not None
            for kind, form, size in group:
                columns = [size if own and k == local else 0 for k in range(locals)]
                rows.append([kind] + form[:at] + [0] * (depth - at) + columns + form[at:])
            local += int(bool(own))
        return rows, locals

    def printed(self, text, loops, betas, domain, accesses):
        L, P = len(loops), len(self.parameters)
        row = lambda *numbers: " ".join(map(str, numbers))
        lines = ["DOMAIN"] + ([str(len(domain))] if len(domain) > 1 else [])
        for rows, locals in domain:
            lines += [row(len(rows), L + locals + P + 2, L, 0, locals, P)] + [row(*each) for each in rows]
        outputs = 2 * L + 1
        lines += ["SCATTERING", row(outputs, outputs + L + P + 2, outputs, L, 0, P)]
        for k in range(outputs):
            level = [0] * L
            if k % 2:
                level[k // 2] = betas[k // 2][1]
            lines.append(row(0, *[-int(j == k) for j in range(outputs)], *level, *[0] * P, 0 if k % 2 else betas[k // 2][0]))
        for kind, array, subscripts in accesses:
            D = len(subscripts) + 1
            lines += [kind, row(D, D + L + P + 2, D, L, 0, P), row(0, -1, *[0] * (D - 1 + L + P), array)]
            lines += [row(0, *[-int(j == k + 1) for j in range(D)], *form) for k, form in enumerate(subscripts)]
        lines[0:0] = [str(2 + len(accesses))]
        return lines + ["1", "<body>", str(L)] + ([" ".join(loops)] if L else []) + [text, "</body>"]

    def scop(self):
        """The text of the SCoP, or the words of the first refusal."""
        for name, number, most in (("parameters", len(self.parameters), 16), ("arrays", len(self.arrays), 4096), ("statements", self.count, 1024)):
            if number > most:
                raise Refused(f"17 Limit {name} 0")
        if self.refusals:
            raise Refused(self.refusals[min(self.refusals)])
        P = len(self.parameters)
        names = ["1", "<strings>", " ".join(self.parameters), "</strings>"] if P else ["0"]
        lines = ["<OpenScop>", "C", "CONTEXT", f"0 {P + 2} 0 0 0 {P}"] + names + [str(self.count)]
        lines += [line for each in self.lines for line in each]
        lines += ["<arrays>", str(len(self.arrays))] + [f"{k + 1} {name}" for k, name in enumerate(self.arrays)] + ["</arrays>", "</OpenScop>"]
        return "".join(line + "\n" for line in lines)


def both(left, right):
    return count(left) + count(right) if isinstance(left, int) or isinstance(right, int) or len(left) + len(right) > 64 else left + right


def crossed(left, right):
    number = count(left) * count(right)
    return number if isinstance(left, int) or isinstance(right, int) or number > 64 else [p + q for p in left for q in right]


def count(parts):
    return parts if isinstance(parts, int) else len(parts)


def moved(form, shift):
    return form[:-1] + [form[-1] + shift]


def integer(tree):
    return tree[1] if tree[0] == "integer" else integer(tree[1]) if tree[0] == "bracket" else None


def remainder(tree):
    return tree[1:] if tree[0] == "%" else remainder(tree[1]) if tree[0] == "bracket" else None


def clan(text):
    return Region(text).scop()


# ---- regions drawn at random


class Draw:
    """Draws a region with few names, mostly by the rules: now and then a name has two roles or a value is not affine."""

    def __init__(self, draw):
        self.draw, self.loops = draw, []

    def odd(self, times=40):
        return self.draw.randrange(times) == 0

    def name(self):
        if self.odd(60):
            return self.draw.choice("AifNZ")
        return self.draw.choice(self.loops + ["N", "M"])

    def number(self):
        return str(self.draw.choice([0, 1, 2, 3, 5, 7, 32] + [LARGEST] * self.odd(30)))

    def value(self, depth=2):
        kind = self.draw.randrange(8 if depth else 3)
        if kind < 2:
            return self.name()
        if kind == 2:
            return self.number()
        if kind == 3:
            return "(" + self.value(depth - 1) + ")"
        if kind == 4:
            factors = [self.number(), self.value(0)] if not self.odd() else [self.name(), self.value(0)]
            return "*".join(self.draw.sample(factors, 2))
        if kind == 5:
            return self.draw.choice("-+") + self.value(0)
        return self.value(depth - 1) + self.draw.choice([" + ", " - ", "-", "/" if self.odd(30) else "+"]) + self.value(0)

    def bound(self, lower, depth=2):
        kind = self.draw.randrange(10 if depth else 8)
        if kind < 6:
            return self.value()
        if kind < 8:
            return f"{self.draw.choice(['ceild', 'floord'])}({self.value()}, {self.draw.choice([1, 2, 3, 32, 0 if self.odd() else 4])})"
        operator = "max" if lower != self.odd() else "min"
        return f"{operator}({self.bound(lower, depth - 1)}, {self.bound(lower, depth - 1)})"

    def condition(self, depth=2):
        kind = self.draw.randrange(7 if depth else 3)
        if kind < 2:
            return f"{self.value()} {self.draw.choice(['<', '<=', '>', '>=', '==', '!='])} {self.value()}"
        if kind == 2:
            return f"({self.value()}) % {self.draw.choice([1, 2, 3, 5])} {self.draw.choice(['==', '!=', '<' if self.odd() else '=='])} {self.draw.choice([0, 0, 1]) if self.odd() else 0}"
        if kind == 3:
            return f"!({self.condition(depth - 1)})"
        if kind == 4:
            return f"({self.condition(depth - 1)})"
        return f"({self.condition(depth - 1)}) {self.draw.choice(['&&', '||'])} ({self.condition(depth - 1)})"

    def element(self):
        if self.draw.randrange(4) == 0:
            return self.draw.choice(["x", "y", "A" if self.odd(30) else "x"])
        name = self.draw.choice(["A", "B"])
        return name + "".join(f"[{self.value()}]" for _ in range(1 if name == "A" else 2))

    def right(self, depth=2):
        kind = self.draw.randrange(7 if depth else 3)
        if kind < 2:
            return self.element()
        if kind == 2:
            return self.draw.choice(["1", "0.5", "N"] + self.loops)
        if kind == 3:
            return f"f({self.right(depth - 1)}, {self.right(depth - 1)})"
        if kind == 4:
            return f"({self.condition(0)} ? {self.right(0)} : {self.right(0)})"
        return f"{self.right(depth - 1)} {self.draw.choice('+-*/')} {self.right(depth - 1)}"

    def statement(self, depth):
        kind = self.draw.randrange(9 if depth else 4)
        if kind < 3:
            gap = self.draw.choice([" ", "", "\n ", " /* a */ "])
            return f"{self.element()}{gap}{self.draw.choice(ASSIGNS)}{gap}{self.right()};"
        if kind == 3:
            return ";"
        if kind < 6:
            return self.loop(depth - 1)
        if kind == 6:
            return "{" + " ".join(self.statement(depth - 1) for _ in range(self.draw.randrange(4))) + "}"
        other = f" else {self.statement(depth - 1)}" if self.draw.randrange(2) else ""
        return f"if ({self.condition()}) {{ {self.statement(depth - 1)} }}{other}"

    def loop(self, depth):
        name = self.draw.choice([x for x in "ijkt" if x not in self.loops]) if not self.odd() else self.draw.choice("ijA")
        up, step = self.draw.randrange(3) > 0, self.draw.choice([1, 1, 1, 2, 3, 0 if self.odd() else 1])
        words = {True: [f"{name}++", f"++{name}"], False: [f"{name}--", f"--{name}"]}[up] if step == 1 else [f"{name} {'+-'[not up]}= {step}"]
        sign = self.draw.choice(["<", "<="] if up else [">", ">="])
        start = self.value() if step > 1 and not self.odd(10) else self.bound(up)
        head = f"for ({name} = {start}; {name} {sign} {self.bound(not up)}; {self.draw.choice(words)}) "
        self.loops.append(name)
        body = self.statement(depth)
        self.loops.pop()
        return head + body

    def text(self):
        lines = [self.statement(4) for _ in range(self.draw.randrange(5))]
        return "".join(line + "\n" for line in ["#pragma scop", *lines, "#pragma endscop"])


def draw_region(draw):
    return Draw(draw).text()
