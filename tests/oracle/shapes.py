"""Models that are not random: every small model of a family, models at the limits, and the deepest expressions.

Each function gives lists of records (batch.py says what a record is).
"""
import itertools

INT8, INT32, BOOL, FLOAT = (21, 0), (23, 0), (20, 0), (29, 0)
A, B, C = b"a", b"b", b"c"


def port(name, *ty):
    """A port of that type."""
    return [(7, name), *ty]


def ports(*items):
    """A list of ports."""
    return [(3, len(items))] + [r for item in items for r in item]


def names(*items):
    """A list of names."""
    return [(3, len(items))] + [(8, n) for n in items]


def equation(lhs, rhs):
    """An equation of names and a right-hand side."""
    return [(13, 0), *names(*lhs), *rhs]


def node(name, kind=11, inputs=(), outputs=(), local=(), equations=(), probes=()):
    """A node of ports, equations and probes."""
    body = [(3, len(equations))] + [r for e in equations for r in e]
    return [(kind, name), *ports(*inputs), *ports(*outputs), *ports(*local), *body, *names(*probes)]


def project(types=(), constants=(), nodes=()):
    """A project of one package."""
    flat = lambda items: [(3, len(items))] + [r for item in items for r in item]
    return [(1, 1), (2, b"P"), *flat(types), *flat(constants), *flat(nodes)]


def function(name, inputs, outputs):
    """A function whose outputs equal its first input; without inputs it has no equations."""
    equations = [equation([o[0][1]], [(44, inputs[0][0][1])]) for o in outputs if inputs]
    return node(name, 10, inputs, outputs, equations=equations)


# ---- every small model of a family

ARRAY = ((32, 2), INT32)
RECORD = (33, b"R")
TYPES = [[(4, b"T"), INT8], [(5, b"R"), *ports(port(b"u", INT32), port(b"v", BOOL))], [(6, b"E"), *names(b"p", b"q")]]
NODES = [function(b"f", [port(A, INT32)], [port(B, INT32)]), function(b"g", [port(A, INT32), port(B, INT32)], [port(C, INT32)]),
         function(b"h", [], [port(A, INT32), port(B, INT32)]), node(b"o", 11, [port(A, INT32)], [port(B, INT32)], [], [equation([B], [(44, A)])])]
INPUTS = [port(A, INT32), port(B, BOOL), port(C, *ARRAY), port(b"r", RECORD), port(b"d", (33, b"T")), port(b"l", FLOAT)]
OUTPUTS = [(INT32,), (BOOL,), ((33, b"T"),), ARRAY, (RECORD,)]

LEAVES = [[(40, 1)], [(41, 1)], [(41, 200)], [(42, 0)], [(43, 65)]] + [[(44, n)] for n in (A, B, C, b"r", b"d", b"l", b"k", b"p", b"x", b"z")]
NONE = [[(74, 0)], [(73, 0)], [(70, b"h"), (3, 0)], [(70, b"f"), (3, 0)], [(75, b"R"), (3, 0)], [(80, b"f"), (3, 0)], [(82, b"g"), (3, 0)]]
ONE = [[(45, 0)], [(46, 0)], [(68, 0)], [(71, b"u")], [(71, b"w")], [(77, B)], [(77, A)], [(78, b"z")], [(76, 0), INT32], [(76, 0), (33, b"T")],
       [(73, 1)], [(74, 1)], [(70, b"f"), (3, 1)], [(70, b"o"), (3, 1)], [(70, b"z"), (3, 1)], [(75, b"R"), (3, 1), (84, b"u")],
       [(75, b"T"), (3, 1), (84, b"u")], [(80, b"f"), (3, 1)], [(82, b"g"), (3, 1)], [(80, b"o"), (3, 1)]]
TWO = [[[(k, 0)], []] for k in [*range(47, 67), 69, 72]] + [
    [[(79, B)], []], [[(79, A)], []], [[(70, b"f"), (3, 2)], []], [[(70, b"g"), (3, 2)], []], [[(73, 2)], []], [[(74, 2)], []],
    [[(75, b"R"), (3, 2), (84, b"u")], [(84, b"v")]], [[(75, b"R"), (3, 2), (84, b"v")], [(84, b"v")]], [[(80, b"g"), (3, 2)], []],
    [[(81, b"f")], [(3, 1)]], [[(82, b"g"), (3, 2)], []], [[(83, b"g")], [(3, 1)]]]


def judged(rhs, output):
    """The operator n with output x of that type, x = rhs, among fixed declarations; z is declared nowhere."""
    n = node(b"n", 11, INPUTS, [port(b"x", *output)], [], [equation([b"x"], rhs)])
    return project(TYPES, [[(9, b"k"), INT32, (41, 1)]], NODES + [n])


def values():
    """Every construct on every choice of leaves under five types, conditionals under two, and every two constructs of one operand."""
    one = [head + leaf for head in ONE for leaf in LEAVES]
    two = [head + x + mid + y for head, mid in TWO for x in LEAVES for y in LEAVES]
    for rhs, output in itertools.product(LEAVES + NONE + one + two, OUTPUTS):
        yield judged(rhs, output)
    for x, y, z in itertools.product(LEAVES, repeat=3):
        yield judged([(67, 0)] + x + y + z, OUTPUTS[(len(x[0][1:]) + x[0][0]) % 2])
    for head, rhs in itertools.product(ONE, one):
        yield judged(head + rhs, OUTPUTS[0])


def graphs():
    """Every graph of three names, and every graph of four without an edge to itself."""
    for n, own in ((3, True), (4, False)):
        sorts = [b"a", b"b", b"c", b"d"][:n]
        sets = [s for k in range(n + 1) for s in itertools.combinations(sorts, k)]
        for choice in itertools.product(*[[s for s in sets if own or x not in s] for x in sorts]):
            rhs = [[(57, 0)] * (len(c) - 1) + [(44, y) for y in c] or [(41, 0)] for c in choice]
            equations = [equation([x], r) for x, r in zip(sorts, rhs)]
            yield project(nodes=[node(b"n", 11, [], [port(x, INT32) for x in sorts], [], equations)])


def temporal(size):
    """Every expression of that many records out of a, 0, pre and the arrow."""
    if size == 1:
        return [[(44, A)], [(41, 0)]]
    found = [[(68, 0)] + e for e in temporal(size - 1)]
    for left in range(1, size - 1):
        found += [[(69, 0)] + x + y for x in temporal(left) for y in temporal(size - 1 - left)]
    return found


def temporals():
    """Those of up to seven records, in an operator and in a function."""
    for size, kind in itertools.product(range(1, 8), (11, 10)):
        for rhs in temporal(size):
            yield project(nodes=[node(b"n", kind, [], [port(A, INT32)], [], [equation([A], rhs)])])


def declarations():
    """Every three type declarations of eight, and every node of up to two names in each list."""
    kinds = [[(4, A), INT32], [(4, A), (33, B)], [(4, B), (33, A)], [(4, A), (32, 1), (33, A)], [(5, A), *ports(port(A, (33, B)))],
             [(6, A), *names(A)], [(6, B), *names(A, B)], [(6, C), *names(A, A)]]
    n = node(b"n", 11, [port(A, (33, A))], [port(B, (33, B))], [], [equation([B], [(44, A)])])
    for three in itertools.product(kinds, repeat=3):
        yield project(list(three), [], [n])
    few = [(), (A,), (B,), (A, B), (A, A)]
    for kind, i, o, l, lhs in itertools.product((10, 11, 12), few, few, few, [(), (A,), (B,), (A, B), (C,), (A, A)]):
        one = lambda items: [port(x, INT32) for x in items]
        yield project(nodes=[node(b"n", kind, one(i), one(o), one(l), [equation(lhs, [(44, B)])], lhs)])


def members():
    """Every equation of up to three names with a call or a tuple, of up to two with two of them where types meet; z is declared nowhere."""
    declared = {A: (INT32,), B: (BOOL,), b"t": ((33, b"T"),)}
    given = lambda name, *outputs: node(name, 12, [], [port(b"o%d" % i, t) for i, t in enumerate(outputs)])
    nodes = [given(b"f", (33, b"T"), BOOL), given(b"g", INT32, INT32, INT32), given(b"h"), given(b"one", INT32)]
    sides = [[(70, x), (3, 0)] for x in (b"f", b"g", b"h", b"one")] + [[(73, n)] + [(41, 0)] * n for n in range(4)]
    heads = [[(67, 0), (40, 1)], [(69, 0)], [(79, C)], [(51, 0)], [(74, 2)], [(73, 2)]]
    pairs = [head + x + y for head in heads for x in sides for y in sides]
    for most, rhss in ((3, sides), (2, pairs)):
        for lhs in (lhs for n in range(most + 1) for lhs in itertools.product((A, B, b"t", b"z"), repeat=n)):
            outputs = [port(x, *declared[x]) for x in declared if x in lhs]
            for rhs in rhss:
                n = node(b"n", 11, [port(C, BOOL)], outputs, [], [equation(lhs, rhs)])
                yield project([[(4, b"T"), INT32]], [], nodes + [n])


def small():
    """All families."""
    return itertools.chain(values(), graphs(), temporals(), declarations(), members())


# ---- the deepest expressions

DEEP = {
    "not": ([(45, 0)], [], BOOL), "minus": ([(46, 0)], [], INT32), "pre": ([(68, 0)], [], INT32),
    "arrow first": ([(69, 0)], [(44, A)], INT32), "arrow second": ([(69, 0), (44, A)], [], INT32),
    "if condition": ([(67, 0)], [(44, B), (44, B)], BOOL), "if first": ([(67, 0), (44, B)], [(44, A)], INT32),
    "if second": ([(67, 0), (44, B), (44, A)], [], INT32), "call": ([(70, b"f"), (3, 1)], [], INT32),
    "call last": ([(70, b"g"), (3, 2), (44, A)], [], INT32), "field": ([(71, b"u")], [], RECORD), "tuple": ([(73, 1)], [], INT32),
    "index second": ([(72, 0), (44, C)], [], INT32), "struct": ([(75, b"R"), (3, 1), (84, b"u")], [], RECORD),
    "cast": ([(76, 0), INT32], [], INT32), "when": ([(77, B)], [], INT32), "when not": ([(78, B)], [], INT32),
    "merge first": ([(79, B)], [(44, A)], INT32), "merge second": ([(79, B), (44, A)], [], INT32),
    "map": ([(80, b"f"), (3, 1)], [], ARRAY), "map seed": ([(81, b"f")], [(3, 1), (44, C)], ARRAY),
    "map with seed": ([(81, b"f"), (41, 0), (3, 1)], [], ARRAY), "fold": ([(82, b"t"), (3, 1)], [], ARRAY),
    "fold seed": ([(83, b"t")], [(3, 1), (44, C)], ARRAY), "fold with seed": ([(83, b"t"), (44, C), (3, 1)], [], ARRAY),
    "map of three": ([(80, b"w"), (3, 3)], [(44, C), (44, C)], ARRAY), "map of three, last": ([(80, b"w"), (3, 3), (44, C), (44, C)], [], ARRAY),
}
for op in range(47, 67):
    ty = BOOL if op < 51 else INT32
    DEEP["binary %d left" % op] = ([(op, 0)], [(44, B if op < 51 else A)], ty)
    DEEP["binary %d right" % op] = ([(op, 0), (44, B if op < 51 else A)], [], ty)
DEEP_TYPES = [[(5, b"R"), *ports(port(b"u", RECORD))]]
DEEP_NODES = NODES[:2] + [function(b"t", [port(A, *ARRAY), port(B, INT32)], [port(C, *ARRAY)]),
                          function(b"w", [port(A, INT32), port(B, INT32), port(C, INT32)], [port(b"d", INT32)])]


def among(rhss, ty):
    """The operator n with an input of each sort and an equation a right-hand side."""
    ty = list(ty) if isinstance(ty[0], tuple) else [ty]
    inputs = [port(A, INT32), port(B, BOOL), port(C, *ARRAY), port(b"r", RECORD)]
    outs = [b"x%d" % i for i in range(len(rhss))]
    n = node(b"n", 11, inputs, [port(x, *ty) for x in outs], [], [equation([x], r) for x, r in zip(outs, rhss)])
    return project(DEEP_TYPES, [], DEEP_NODES + [n])


def nest(before, after, leaf, levels):
    """An expression of that many levels: the construct again and again around a leaf."""
    return before * (levels - 1) + leaf + after * (levels - 1)


def deepest(levels=60):
    """Each construct nested to that level around a leaf that suits it, and around an unknown name."""
    leaf = {INT32: A, BOOL: B, ARRAY: C, RECORD: b"r"}
    for label, (before, after, ty) in DEEP.items():
        yield label, among([nest(before, after, [(44, leaf[ty])], levels)], ty)
        yield label + ", unknown", among([nest(before, after, [(44, b"z")], levels)], ty)
    n = levels - 1
    one = lambda inner, outer, rhs: project(nodes=[node(b"n", 11, [port(A, *inner)], [port(b"x", *outer)], [], [equation([b"x"], rhs)])])
    yield "index", one([(32, 1)] * n + [INT32], [INT32], [(72, 0)] * n + [(44, A)] + [(41, 0)] * n)
    yield "array", one([INT32], [(32, 1)] * n + [INT32], [(74, 1)] * n + [(44, A)])


def iterators(most=4096):
    """Iterators nested to 58, 59 and 60 levels, with one to three arrays, filling up to so many records."""
    labels = ("map", "fold", "fold seed", "fold with seed", "map of three", "map of three, last")
    for levels, label in itertools.product((58, 59, 60), labels):
        before, after, ty = DEEP[label]
        for leaf in (C, b"z", B):
            rhs = nest(before, after, [(44, leaf)], levels)
            room = most - len(among([], ty))
            yield "%s, %d levels of %s" % (label, levels, leaf.decode()), among([rhs] * (room // (len(rhs) + 7)), ty)


# ---- models at the limits

def many(n, form=b"v%03d"):
    """So many names, in order."""
    return [form % i for i in range(n)]


def limits():
    """Models with as many names, records, levels, aliases, ports, fields, variants, equations and lines as fit."""
    loop = lambda xs: [equation([x], [(44, y)]) for x, y in zip(xs, xs[1:] + xs[:1])]
    xs = many(510)
    outputs = lambda items, equations=(): project(nodes=[node(b"n", 11, [], [port(x, INT32) for x in items], [], equations)])
    yield "a loop of 510 names", outputs(xs, loop(xs))
    yield "a chain of 510 names", outputs(xs, loop(xs)[:-1] + [equation([xs[-1]], [(41, 0)])])
    yield "510 aliases in a ring", project([[(4, x), (33, y)] for x, y in zip(xs, xs[1:] + xs[:1])])
    yield "a chain of 510 aliases", project([[(4, x), (33, y)] for x, y in zip(xs, xs[1:])] + [[(4, xs[-1]), INT32]])
    fields = [(5, b"R"), *ports(*[port(x, INT32) for x in xs[:500]])]
    one = lambda rhs, types=(), ty=(INT32,): project(list(types), [], [node(b"n", 11, [], [port(b"x", *ty)], [], [equation([b"x"], rhs)])])
    yield "a struct of 500 fields", one([(75, b"R"), (3, 500)] + [r for x in xs[:500] for r in ((84, x), (41, 1))], [fields], (RECORD,))
    yield "a struct with 500 fields missing", one([(75, b"R"), (3, 0)], [fields], (RECORD,))
    yield "500 variants twice", project([[(6, b"E"), *names(*xs[:500])], [(6, b"F"), *names(*xs[:500])]])
    yield "an array of 4,078, 4,096 records", one([(74, 4078)] + [(41, 1)] * 4078, (), ((32, 4078), INT32))
    yield "a call of 1,300 arguments", one([(70, b"n"), (3, 1300)] + [(46, 0), (41, 1)] * 1300)
    yield "675 nodes of one name", project(nodes=[node(b"n", 12)] * 675)
    yield "1,900 outputs of 510 names", outputs((xs * 4)[:1900])
    yield "1,024 lines", project([[(6, b"E"), *names(*[A] * 1025)]])
    yield "1,025 lines", project([[(6, b"E"), *names(*[A] * 1026)]])
    long = many(252, b"%03d" + b"n" * 61)
    yield "names of 64 bytes, 16,384 in all", outputs(long, loop(long))
    yield "types of 68 levels", project([[(4, x)] + [(32, 1)] * 67 + [(33, y)] for x, y in zip(xs[:50], xs[1:51])])
    yield "510 constants", project([], [[(9, x), INT32, (44, y)] for x, y in zip(xs, xs[1:] + xs[:1])])
    yield "500 probes", project(nodes=[node(b"n", 10, probes=xs[:500])])


def fitting():
    """Models like those above whose reports have more than 1,024 lines, but with fewer, so that all of them are seen."""
    yield "767 outputs of 510 names, 1,024 lines", project(nodes=[node(b"n", 11, [], [port(x, INT32) for x in (many(510) * 2)[:767]], [], [])])
    yield from iterators(2048)


def merged(models, most=4096):
    """The packages of several models in one project, as many as fit."""
    records, texts, packages = [], set(), 0
    for model in models:
        own = {w for _, w in model if type(w) is bytes}
        if len(records) + len(model) > most or len(texts | own) > 512 or sum(map(len, texts | own)) > 15000:
            break
        texts |= own
        packages += model[0][1]
        records += model[1:]
    return [(1, packages)] + records
