"""Pairs of models. For demand 3 the second has other locals, equations and probes in some nodes; for request 2.13 another right-hand side of
one equation. It has other name numbers, unused names, and other work memory and room, and everything else is the same text."""
STARTS = (10, 11, 12)


def nodes_of(records):
    """Where each node's records begin, where its locals begin (its third list) and where its records end, by kinds alone."""
    found = []
    for at, (kind, _) in enumerate(records):
        if kind in STARTS:
            lists = [i for i in range(at, len(records)) if records[i][0] == 3][:3]
            end = next((i for i in range(at + 1, len(records)) if records[i][0] in (2, *STARTS)), len(records))
            found.append((at, lists[2], end))
    return found


def unused_names(rng):
    """Some names that shift the numbers of others."""
    return [bytes([rng.choice(b"!0AMZ_amz~")]) + b"%d" % rng.randrange(100) for _ in range(rng.randrange(6))]


def edited(rng, records, bodies):
    """The records of a model of two nodes or more, with bodies of the pool in some of them, and the numbers of the other nodes."""
    spans = nodes_of(records)
    keep = set(rng.sample(range(len(spans)), rng.randrange(1, len(spans))))
    made = list(records)
    for i, (_, hidden, end) in reversed(list(enumerate(spans))):
        if i not in keep:
            made[hidden:end] = rng.choice(bodies)
    return made, keep


def sides_of(records):
    """Node, number, begin and end of each equation's right-hand side, by kinds alone. The last list of a node is its probes."""
    found = []
    for node, (start, _, end) in enumerate(nodes_of(records)):
        heads = [at for at in range(start, end) if records[at][0] == 13]
        probes = max(at for at in range(start, end) if records[at][0] == 3)
        found += [(node, i, at + 2 + records[at + 1][1], stop) for i, (at, stop) in enumerate(zip(heads, heads[1:] + [probes]))]
    return found


def replaced(rng, records, sides):
    """The records with another right-hand side in one equation, one of the same model or of the pool, and that equation's node and number."""
    own = sides_of(records)
    node, number, begin, end = rng.choice(own)
    side = rng.choice(sides) if rng.random() < 0.5 else records[slice(*rng.choice(own)[2:])]
    return records[:begin] + side + records[end:], node, number
