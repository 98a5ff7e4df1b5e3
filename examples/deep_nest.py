"""Prints a SCoP text of statements in one nest of loops, for measuring `suite chlore`.

python3 examples/deep_nest.py STATEMENTS LOOPS [--constants K] [--reversed] [--lost]

The statements differ in their last beta. With --constants the first level of the first K statements has the constant 1, with
--reversed they stand in the other order, and with --lost the first level of the last one is 0.
"""

import sys


def row(*parts):
    return " ".join(str(number) for part in parts for number in part)


def unit(width, place, value):
    return [value if k == place else 0 for k in range(width)]


def statement(loops, last, level, constant):
    names = [f"i{k}" for k in range(loops)]
    lines = ["3", "DOMAIN", f"{2 * loops} {loops + 3} {loops} 0 0 1"]
    for k in range(loops):
        lines.append(row([1], unit(loops, k, 1), [0, 0]))
        lines.append(row([1], unit(loops, k, -1), [1, -1]))
    outputs = 2 * loops + 1
    lines += ["SCATTERING", f"{outputs} {outputs + loops + 3} {outputs} {loops} 0 1"]
    for t in range(outputs):
        iterators = unit(loops, t // 2, level if t == 1 else 1) if t % 2 else [0] * loops
        lines.append(row([0], unit(outputs, t, -1), iterators, [0, last if t == outputs - 1 else constant if t == 1 else 0]))
    lines += ["WRITE", f"{loops + 1} {2 * loops + 4} {loops + 1} {loops} 0 1"]
    lines.append(row([0], unit(loops + 1, 0, -1), [0] * loops, [0, 1]))
    for k in range(loops):
        lines.append(row([0], unit(loops + 1, k + 1, -1), unit(loops, k, 1), [0, 0]))
    subscripts = "".join(f"[{name}]" for name in names)
    return lines + ["1", "<body>", str(loops), " ".join(names), f"A{subscripts} = 0;", "</body>"]


def main(count, loops, *options):
    count, loops = int(count), int(loops)
    constants = int(options[options.index("--constants") + 1]) if "--constants" in options else 0
    print("\n".join(["<OpenScop>", "C", "CONTEXT", "0 3 0 0 0 1", "1", "<strings>", "N", "</strings>", str(count)]))
    for k in range(count):
        last = count - 1 - k if "--reversed" in options else k
        level = 0 if "--lost" in options and k == count - 1 else 1
        print("\n".join(statement(loops, last, level, 1 if k < constants else 0)))
    print("\n".join(["<arrays>", "1", "1 A", "</arrays>", "</OpenScop>"]))


main(*sys.argv[1:])
