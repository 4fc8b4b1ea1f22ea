#!/usr/bin/env python3
"""models.py OUT: writes the models of the bench as files of document 01's form, OUT/SET/NAME.bin.

Sets: `speed` (the table of ratios), `lines` (reports of many lines), `iterators` (nested iterators with three arrays, by records), `stack`
(the deepest accepted models).
"""
import os
import sys

sys.dont_write_bytecode = True
HERE = os.path.dirname(os.path.abspath(__file__))
sys.path.insert(0, os.path.join(HERE, "..", "tests", "oracle"))
import batch
import shapes
from shapes import BOOL, INT32, RECORD, equation, node, port, ports, project

V = lambda x: [(44, x)]
OP = lambda k, x, y: [(k, 0)] + x + y
PLUS, LESS, IF, ARROW, PRE = 57, 53, 67, 69, 68


def controller(name, callee):
    """A clean operator of 76 records: a counter with a limit, a filter, an alarm."""
    count = OP(ARROW, [(41, 0)], [(IF, 0)] + V(b"reset") + [(41, 0)] + OP(PLUS, [(PRE, 0)] + V(b"count"), V(b"step")))
    level = OP(ARROW, V(b"sample"), OP(PLUS, [(PRE, 0)] + V(b"level"), [(70, callee), (3, 2)] + V(b"sample") + V(b"step")))
    alarm = OP(48, OP(LESS, V(b"limit"), V(b"level")), [(45, 0)] + V(b"reset"))
    out = [(IF, 0)] + V(b"alarm") + OP(PLUS, V(b"count"), V(b"limit")) + V(b"level")
    inputs = [port(b"sample", INT32), port(b"step", INT32), port(b"reset", BOOL)]
    outputs = [port(b"out", INT32), port(b"alarm", BOOL)]
    local = [port(b"count", INT32), port(b"level", INT32)]
    return node(name, 11, inputs, outputs, local,
                [equation([x], e) for x, e in ((b"count", count), (b"level", level), (b"alarm", alarm), (b"out", out))])


def filled(records, head, nodes):
    """A clean project of exactly that many records: as many nodes as fit, and aliases and a list's end for what is left."""
    make = lambda n, m: project([[(4, b"t%03d" % i), INT32] for i in range(m)], [[(9, b"limit"), INT32, (41, 100)]], head + nodes[:n])
    fits = max(n for n in range(len(nodes) + 1) if len(make(n, 0)) <= records)
    model = make(fits, (records - len(make(fits, 0))) // 2)
    return model if len(model) == records else model[:-1] + [(3, 1), (8, b"sum")]


def clean(records):
    """A clean model of exactly that many records, of operators of 76."""
    sum_ = node(b"sum", 10, [port(b"sample", INT32), port(b"step", INT32)], [port(b"out", INT32)], [],
                [equation([b"out"], OP(PLUS, V(b"sample"), V(b"step")))])
    return filled(records, [sum_], [controller(b"n%03d" % i, b"sum") for i in range(records // 70)])


def stages(name, count):
    """A clean operator of so many names, each a function of the one before it."""
    xs = [b"stage%02d" % i for i in range(count)]
    rhs = lambda x, y: OP(ARROW, V(y), [(IF, 0)] + V(b"reset") + OP(PLUS, [(PRE, 0)] + V(x), V(b"step")) + V(y))
    inputs = [port(b"sample", INT32), port(b"step", INT32), port(b"reset", BOOL)]
    return node(name, 11, inputs, [port(xs[-1], INT32)], [port(x, INT32) for x in xs[:-1]],
                [equation([x], rhs(x, y)) for x, y in zip(xs, [b"sample"] + xs)])


def large(records, count):
    """A clean model of exactly that many records, of operators of so many names."""
    return filled(records, [], [stages(b"n%03d" % i, count) for i in range(records // (14 * count) + 1)])


def tiny(count):
    """So many functions without ports; names past 511 come again, each with E0001."""
    return project(nodes=[node(b"n%03d" % (i % 511), 10) for i in range(count)])


def faulty(count):
    """An operator whose equations each add a bool to an integer."""
    xs = [b"x%03d" % i for i in range(count)]
    return project(nodes=[node(b"n", 11, [port(b"a", INT32), port(b"b", BOOL)], [port(x, INT32) for x in xs], [],
                               [equation([x], OP(PLUS, V(b"a"), V(b"b"))) for x in xs])])


def deep():
    """Equations of 60 levels: sums, conditionals and minus by turns, as many as fit."""
    heads = [([(PLUS, 0)], V(b"a")), ([(IF, 0)] + V(b"b"), V(b"a")), ([(46, 0)], [])]
    before, after = [], []
    for i in range(59):
        before += heads[i % 3][0]
        after = heads[i % 3][1] + after
    rhs = before + V(b"a") + after
    make = lambda n: project(nodes=[node(b"n", 11, [port(b"a", INT32), port(b"b", BOOL)], [port(b"x%02d" % i, INT32) for i in range(n)], [],
                                         [equation([b"x%02d" % i], rhs) for i in range(n)])])
    return make((4096 - len(make(0))) // (len(make(1)) - len(make(0))))


def wide():
    """A struct of 400 fields, two values of it with every field, and 400 fields read, which are not typed since they stand in a tuple."""
    xs = [b"f%03d" % i for i in range(400)]
    value = [(75, b"R"), (3, 400)] + [r for x in xs for r in ((84, x), (41, 1))]
    outs = [b"r0", b"r1"]
    reads = [equation([b"y"], [(73, 1), (73, 400)] + [r for x in xs for r in ((71, x), (44, b"r0"))])]
    return project([[(5, b"R"), *ports(*[port(x, INT32) for x in xs])]], [],
                   [node(b"n", 11, [], [port(x, RECORD) for x in outs] + [port(b"y", INT32)], [], [equation([x], value) for x in outs] + reads)])


def chains():
    """A chain of 64 aliases; ports of its head, and sums of them."""
    xs = [b"t%02d" % i for i in range(64)]
    types = [[(4, x), (33, y)] for x, y in zip(xs, xs[1:])] + [[(4, xs[-1]), INT32]]
    outs = [b"x%03d" % i for i in range(400)]
    rhs = OP(PLUS, V(b"a"), V(b"b"))
    return project(types, [], [node(b"n", 11, [port(b"a", (33, xs[0])), port(b"b", (33, xs[0]))], [port(x, (33, xs[0])) for x in outs], [],
                                    [equation([x], rhs) for x in outs])])


def ladder(layers):
    """An operator of two names a layer, each of which reads both of the next."""
    xs = [(b"a%02d" % i, b"b%02d" % i) for i in range(layers)]
    rhs = [OP(PLUS, V(c), V(d)) for c, d in xs[1:]] + [[(41, 0)]]
    return project(nodes=[node(b"n", 11, [], [port(x, INT32) for pair in xs for x in pair], [],
                               [equation([x], r) for pair, r in zip(xs, rhs) for x in pair])])


def many_lines(values):
    """An operator with so many values of a struct whose 500 fields are missing in each."""
    fields = [b"f%03d" % i for i in range(500)]
    return project([[(5, b"R"), *ports(*[port(x, INT32) for x in fields])]], [],
                   [node(b"n", 11, [], [port(b"x", RECORD)], [], [equation([b"x"], [(75, b"R"), (3, 0)])] * values)])


def nested(equations, levels=60):
    """So many equations of maps of three arrays nested to that level."""
    before, after, ty = shapes.DEEP["map of three"]
    return shapes.among([shapes.nest(before, after, V(b"c"), levels)] * equations, ty)


def path(names):
    """An operator whose names define each other in one loop."""
    xs = shapes.many(names)
    return project(nodes=[node(xs[0], 11, [], [port(x, INT32) for x in xs], [], [equation([x], V(y)) for x, y in zip(xs, xs[1:] + xs[:1])])])


def path_of_512():
    """The longest path: 512 names, the package's and the operator's among them."""
    model = path(512)
    return [(2, b"v000") if r == (2, b"P") else r for r in model]


def nested_records(head, leaf):
    """A construct nested until the records are 4,096, or as many as fit; it is refused as too deep, once all records are seen."""
    around = project(nodes=[node(b"n", 11, [], [], [], [equation([], [])])])
    at = len(around) - 1
    times = (4096 - len(around) - len(leaf)) // len(head)
    return around[:at] + head * times + leaf + around[at:]


NESTED = {"not": ([(45, 0)], [(40, 1)]), "tuples": ([(73, 1)], [(40, 1)]), "calls": ([(70, b"n"), (3, 1)], [(40, 1)]),
          "fields": ([(75, b"n"), (3, 1), (84, b"n")], [(40, 1)]), "arrays of a type": ([(76, 0)] + [(32, 1)] * 4080, [INT32, (40, 1)])}


SETS = {
    "speed": {
        "clean of 4,096": clean(4096), "clean of 256": clean(256), "clean of 4,096, large nodes": large(4096, 95), "600 tiny nodes": tiny(600), "300 faulty equations": faulty(300),
        "deep expressions": deep(), "wide structs": wide(), "64 aliases": chains(), "ladder of 20": ladder(20), "ladder of 18": ladder(18),
    },
    "lines": {"%d values" % n: many_lines(n) for n in (1, 4, 200)},
    "iterators": {**{"%02d equations of 60 levels" % n: nested(n) for n in (1, 2, 4, 8, 11)},
                  **{"1 equation of %02d levels" % n: nested(1, n) for n in (8, 15, 30, 45, 60)}},
    "stack": {**{"deep " + label: model for label, model in shapes.deepest()}, "a path of 512": path_of_512(),
              **{"4,096 nested records, " + label: nested_records(*parts) for label, parts in NESTED.items()}, "clean of 4,096": clean(4096)},
}


def main():
    for folder, models in SETS.items():
        os.makedirs(os.path.join(sys.argv[1], folder), exist_ok=True)
        for name, model in models.items():
            with open(os.path.join(sys.argv[1], folder, name.replace(",", "").replace(" ", "-") + ".bin"), "wb") as f:
                f.write(batch.write(model))


main()
