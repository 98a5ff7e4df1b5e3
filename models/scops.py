"""SCoPs as the models have them: read from a well-formed OpenScop text, printed in the suite's layout, drawn at random.

An affine form is a list of integers: the coefficients of the statement's iterators, of its floors, of the parameters,
and the constant. A row is the same with its kind before it: 0 for 'equals zero', 1 for 'at least zero'."""

WRITES = ("WRITE", "MAY_WRITE")


class Part:
    """One part of a relation: outputs, inputs, locals, parameters, and rows."""

    def __init__(self, outputs, inputs, locals, parameters, rows):
        self.outputs, self.inputs, self.locals, self.parameters, self.rows = outputs, inputs, locals, parameters, rows

    def lines(self):
        width = self.outputs + self.inputs + self.locals + self.parameters + 2
        head = [len(self.rows), width, self.outputs, self.inputs, self.locals, self.parameters]
        return [" ".join(map(str, row)) for row in [head] + self.rows]


class Statement:
    """depth; domain: parts; betas and levels: its schedule; floors: (form, size), each over the iterators and the
    floors before it; accesses: (kind, array, subscripts); extensions: (name, lines)."""


class Scop:
    """language, context, names (lines or None), statements, extensions."""


class Lines:
    """The lines of a text, read one by one; comments and blank lines are skipped where `content` is asked for."""

    def __init__(self, text):
        self.lines, self.at = text.split("\n"), 0

    def raw(self):
        self.at += 1
        return self.lines[self.at - 1]

    def content(self):
        while True:
            line = self.raw().split("#")[0].strip()
            if line:
                return line

    def peek(self):
        at = self.at
        line = self.content()
        self.at = at
        return line

    def numbers(self):
        return [int(word) for word in self.content().split()]

    def part(self):
        rows, width, outputs, inputs, locals, parameters = self.numbers()
        part = Part(outputs, inputs, locals, parameters, [self.numbers() for _ in range(rows)])
        assert all(len(row) == width for row in part.rows)
        return part

    def relation(self):
        kind = self.content()
        count = self.numbers()[0] if len(self.peek().split()) == 1 else 1
        return kind, [self.part() for _ in range(count)]

    def extension(self):
        lines = [self.content()]
        while lines[-1].strip() != "</" + lines[0][1:]:
            lines.append(self.raw())
        return lines[0][1:-1], lines


def solved(part):
    """The outputs' forms and the floors of a part whose rows give each: an equality for each output, two inequalities
    for each floor."""
    outputs, floors_at = part.outputs, part.inputs
    forms, floors = [None] * outputs, [None] * part.locals
    for row in part.rows:
        if row[0] == 0:
            [at] = [k for k in range(outputs) if row[1 + k]]
            forms[at] = [-row[1 + at] * value for value in row[1 + outputs :]]
            continue
        form = row[1 + outputs :]
        last = max(k for k in range(part.locals) if form[floors_at + k])
        if form[floors_at + last] < 0:
            size = -form[floors_at + last]
            form[floors_at + last] = 0
            floors[last] = (form, size)
    return forms, floors


def read_statement(lines):
    statement = Statement()
    relations = [lines.relation() for _ in range(lines.numbers()[0])]
    statement.domain, [schedule] = relations[0][1], relations[1][1]
    statement.depth = statement.domain[0].outputs
    forms, statement.floors = solved(schedule)
    statement.betas, statement.levels = [form[-1] for form in forms[0::2]], forms[1::2]
    statement.accesses = []
    for kind, [part] in relations[2:]:
        forms = solved(part)[0]
        statement.accesses.append((kind, forms[0][-1], forms[1:]))
    statement.extensions = [lines.extension() for _ in range(lines.numbers()[0])]
    return statement


def read(text):
    """The SCoP of a well-formed text."""
    lines, scop = Lines(text), Scop()
    assert lines.content() == "<OpenScop>"
    scop.language = lines.content()
    scop.context = lines.relation()[1][0]
    scop.parameters, scop.names = scop.context.parameters, None
    if lines.content() == "1":
        assert lines.content() == "<strings>"
        scop.names = [lines.content()] if scop.parameters else []
        assert lines.content() == "</strings>"
    scop.statements = [read_statement(lines) for _ in range(lines.numbers()[0])]
    scop.extensions = []
    while lines.peek() != "</OpenScop>":
        scop.extensions.append(lines.extension())
    return scop


def schedule_part(statement, parameters):
    """The schedule as the layout has it: the outputs in order, each with -1, then two rows for each floor."""
    outputs, at = 2 * len(statement.levels) + 1, statement.depth
    width = at + len(statement.floors) + parameters + 1
    rows = []
    for k in range(outputs):
        form = statement.levels[k // 2] if k % 2 else [0] * (width - 1) + [statement.betas[k // 2]]
        rows.append([0] + [-(k == j) for j in range(outputs)] + form)
    for k, (form, size) in enumerate(statement.floors):
        low = [value - size * (j == at + k) for j, value in enumerate(form)]
        high = [-value for value in low]
        high[-1] += size - 1
        rows += [[1] + [0] * outputs + low, [1] + [0] * outputs + high]
    return Part(outputs, at, len(statement.floors), parameters, rows)


def access_part(depth, parameters, array, subscripts):
    forms = [[0] * (depth + parameters) + [array]] + subscripts
    rows = [[0] + [-(k == j) for j in range(len(forms))] + form for k, form in enumerate(forms)]
    return Part(len(forms), depth, 0, parameters, rows)


def printed(scop):
    """The text of a SCoP in the suite's layout."""
    out = ["<OpenScop>", scop.language, "CONTEXT"] + scop.context.lines()
    out += ["0"] if scop.names is None else ["1", "<strings>", *scop.names, "</strings>"]
    out.append(str(len(scop.statements)))
    for it in scop.statements:
        out += [str(2 + len(it.accesses)), "DOMAIN"] + ([str(len(it.domain))] if len(it.domain) > 1 else [])
        out += [line for part in it.domain for line in part.lines()]
        out += ["SCATTERING"] + schedule_part(it, scop.parameters).lines()
        for kind, array, subscripts in it.accesses:
            out += [kind] + access_part(it.depth, scop.parameters, array, subscripts).lines()
        out += [str(len(it.extensions))] + [line for _, lines in it.extensions for line in lines]
    out += [line for _, lines in scop.extensions for line in lines]
    return "\n".join(out + ["</OpenScop>", ""])


def draw_betas(draw, most):
    """The beta vectors of the leaves of a random tree of loops, none the beginning of another."""
    found = []

    def below(prefix, depth):
        number = draw.choice([0, 0, 0, -1, 2])
        for _ in range(draw.randint(1, 2)):
            if len(found) >= most:
                return
            if depth == 0 or draw.random() < 0.4:
                found.append(prefix + [number])
            else:
                below(prefix + [number], depth - 1)
            number += draw.randint(1, 2)

    below([], 2)
    draw.shuffle(found)
    return found


def draw_domain(draw, depth, parameters):
    """A box round the iterators, at times with a local and a row more."""
    locals, rows = draw.choice([0, 0, 0, 1]), []
    few = lambda count, *values: [draw.choice(values) for _ in range(count)]
    for k in range(depth):
        unit = [int(k == j) for j in range(depth)]
        rows.append([1] + unit + [0] * (locals + parameters) + few(1, 0, 1))
        rows.append([1] + [-value for value in unit] + [0] * locals + few(parameters, 0, 1) + few(1, 1, 2, 3))
    if locals:
        rows.append([0] + few(depth, -1, 0, 1) + [-2] + [0] * parameters + few(1, 0, 1))
    if draw.random() < 0.2:
        rows.append(few(1, 0, 1) + few(depth, -1, 0, 1) + [0] * locals + few(parameters + 1, -1, 0, 1))
    return Part(depth, 0, locals, parameters, rows)


def draw_statement(draw, betas, parameters):
    it, few = Statement(), lambda count, *values: [draw.choice(values) for _ in range(count)]
    it.betas = betas
    it.depth = draw.randint(0, 2) if len(betas) > 1 else draw.choice([0, 0, 1])
    it.domain = [draw_domain(draw, it.depth, parameters) for _ in range(draw.choice([1, 1, 1, 2]))]
    floors = draw.choice([0, 0, 1, 2])
    form = lambda: few(it.depth, 0, 1, 1, -1) + few(floors, 0, 0, 1, -1) + few(parameters, 0, 0, 1) + few(1, -1, 0, 1)
    it.levels = [form() for _ in betas[1:]]
    it.floors = []
    for k in range(floors):
        earlier = few(k, 0, 1) + [0] * (floors - k)
        floor = few(it.depth, 0, 1, -1, 2) + earlier + few(parameters, 0, 1) + few(1, -2, -1, 0, 1, 2)
        it.floors.append((floor, draw.randint(1, 3)))
    subscript = lambda: few(it.depth, 0, 1, 1, -1, 2) + few(parameters, 0, 0, 1) + few(1, -1, 0, 1)
    it.accesses = []
    for _ in range(draw.randint(1, 3)):
        kind, array = draw.choice(["READ", "WRITE", "WRITE", "MAY_WRITE"]), draw.choice([1, 1, 2])
        it.accesses.append((kind, array, [subscript() for _ in range(draw.choice([0, 1, 1, 2]))]))
    iterators = [" ".join(f"x{k}" for k in range(it.depth))] if it.depth else []
    it.extensions = [("body", ["<body>", str(it.depth), *iterators, "f();", "</body>"])]
    return it


def draw_scop(draw):
    """A small random SCoP: up to two parameters, three statements, two iterators, three levels, two floors."""
    scop, parameters = Scop(), draw.randint(0, 2)
    few = lambda count, *values: [draw.choice(values) for _ in range(count)]
    rows = [[1] + few(parameters, 0, 1, 1, -1) + [draw.randint(-2, 3)]] if draw.random() < 0.5 else []
    if draw.random() < 0.05:
        rows.append([draw.randint(0, 1)] + [0] * parameters + [-1])
    scop.language, scop.names, scop.parameters, scop.extensions = "C", None, parameters, []
    scop.context = Part(0, 0, 0, parameters, rows)
    scop.statements = [draw_statement(draw, betas, parameters) for betas in draw_betas(draw, draw.randint(1, 3))]
    return scop
