#!/usr/bin/env python3
"""hand.py ORACLE: runs models worked out by hand through `ORACLE check FILE`.

A model is a text of records, `kind` or `kind word` each, separated by commas; a word that is no
number is a name. Expected lines are written as document 01's program prints them.
"""
import json
import os
import struct
import subprocess
import sys
import tempfile

PLACES = ["package", "enum", "type", "constant", "node"]
NONE = 2 ** 64 - 1

# an operator n with the output and locals given, all Int32, up to its equations
def operator(ports, equations, kind=11):
    out, *local = ports.split()
    text = f"1 1, 2 p, 3 0, 3 0, 3 1, {kind} n, 3 0, 3 1, 7 {out}, 23, 3 {len(local)}"
    text += "".join(f", 7 {x}, 23" for x in local)
    text += f", 3 {len(equations)}"
    for lhs, rhs in equations:
        text += f", 13, 3 1, 8 {lhs}, {rhs}"
    return text + ", 3 0"


# one function h with these inputs, an operator n with output x of the type given, x = rhs
def value(rhs, ty="23", types="3 0", inputs="3 0"):
    return f"1 1, 2 p, {types}, 3 0, 3 1, 11 n, {inputs}, 3 1, 7 x, {ty}, 3 0, 3 1, 13, 3 1, 8 x, {rhs}, 3 0"


def chain(n):
    types = ", ".join(f"4 t{i:02}, " + (f"33 t{i + 1:02}" if i + 1 < n else "23") for i in range(n))
    return f"1 1, 2 p, 3 {n}, {types}, 3 0, 3 0"


# map(h, .. map(h, a)): n levels of iterators around a
def nested(n):
    rhs = "80 h, 3 1, " * n + "44 a"
    inputs = "3 1, 7 a, 32 1, 23"
    return (f"1 1, 2 p, 3 0, 3 0, 3 2, 10 h, 3 1, 7 i, 20, 3 1, 7 o, 20, 3 0, 3 1, 13, 3 1, 8 o, 44 i, 3 0, "
            f"11 n, {inputs}, 3 1, 7 x, 32 1, 20, 3 0, 3 1, 13, 3 1, 8 x, {rhs}, 3 0")


KNOWN = {"a": "23", "b": "20", "c": "23", "t": "33 T"}
F = "70 f, 3 1, 41 0"
G = "70 g, 3 1, 41 0"


# an operator n that defines the names given, those of KNOWN as outputs, by rhs; its inputs are s of Int32 and y of Bool. Imported are f
# with outputs T, an alias of Int32, and Bool, g with three of Int32, h with none
def bound(names, rhs):
    names = names.split()
    outs = [x for x in KNOWN if x in names]
    ports = "".join(f", 7 {x}, {KNOWN[x]}" for x in outs)
    lhs = "".join(f", 8 {x}" for x in names)
    return (f"1 1, 2 p, 3 1, 4 T, 23, 3 0, 3 4, 11 n, 3 2, 7 s, 23, 7 y, 20, 3 {len(outs)}{ports}, 3 0, 3 1, 13, 3 {len(names)}{lhs}, {rhs}, 3 0, "
            "12 f, 3 1, 7 s, 23, 3 2, 7 o, 33 T, 7 q, 20, 3 0, 3 0, 3 0, 12 g, 3 1, 7 s, 23, 3 3, 7 o, 23, 7 q, 23, 7 r, 23, 3 0, 3 0, 3 0, "
            "12 h, 3 0, 3 0, 3 0, 3 0, 3 0")


RECORD_T = "3 2, 4 X, 23, 5 X, 3 1, 7 u, 23"

CASES = [
    # document 01's worked example
    (operator("a b", [("a", "44 b"), ("b", "44 a")]), 2,
     ["E0060 node 0 - 0 a", "E0060 node 0 - 1 b", "E0060 node 0 - 2 a"]),
    (operator("x", [("x", "44 x")]), 1, ["E0060 node 0 - 0 x", "E0060 node 0 - 1 x"]),
    # request 2.6: a function is searched, and the body of an arrow is read, but not what stands under pre
    (operator("x", [("x", "44 x")], kind=10), 1, ["E0060 node 0 - 0 x", "E0060 node 0 - 1 x"]),
    (operator("x", [("x", "69, 41 0, 44 x")]), 1, ["E0060 node 0 - 0 x", "E0060 node 0 - 1 x"]),
    (operator("x", [("x", "69, 41 0, 68, 44 x")]), 0, []),
    # the body's edge to a smaller name is taken first
    (operator("a b c", [("a", "69, 44 c, 44 b"), ("b", "44 a"), ("c", "44 a")]), 2,
     ["E0060 node 0 - 0 a", "E0060 node 0 - 1 b", "E0060 node 0 - 2 a"]),
    # 0 -> pre pre a: the inner; 0 -> pre (0 -> pre a): none
    (operator("a", [("a", "69, 41 0, 68, 68, 44 a")]), 0, ["E0070 node 0 0 3 -"]),
    (operator("a", [("a", "69, 41 0, 68, 69, 41 0, 68, 44 a")]), 0, []),
    # literals: 127, 128, minus 128 under Int8
    (value("41 127", "21"), 0, []),
    (value("41 128", "21"), 0, ["E0040 node 0 0 - x"]),
    (value("46, 41 128", "21"), 0, []),
    # request 2.10: 3,000,000,000 under Int32, Int8, Float64, Int64; with one minus and two; 2^31 and minus 2^31
    (value("41 3000000000"), 0, ["E0095 node 0 0 0 -"]),
    (value("41 3000000000", "21"), 0, ["E0095 node 0 0 0 -"]),
    (value("41 3000000000", "30"), 0, ["E0095 node 0 0 0 -"]),
    (value("41 3000000000", "24"), 0, []),
    (value("46, 41 3000000000"), 0, ["E0095 node 0 0 0 -"]),
    (value("46, 46, 41 3000000000"), 0, ["E0095 node 0 0 1 -"]),
    (value("41 2147483648"), 0, ["E0095 node 0 0 0 -"]),
    (value("46, 41 2147483648"), 0, []),
    (value("57, 41 1, 41 3000000000"), 0, ["E0095 node 0 0 2 -"]),
    # request 2.8: the numbers of names and members, and the types by position where the side is itself a call
    (bound("a b", F), 0, []),
    (bound("a b c", F), 0, ["E0042 node 0 0 - -"]),
    (bound("a", F), 0, ["E0042 node 0 0 - -"]),
    (bound("", F), 0, ["E0042 node 0 0 - -"]),
    (bound("z", F), 0, ["E0020 node 0 0 - z", "E0042 node 0 0 - -"]),
    (bound("b a", F), 0, ["E0043 node 0 0 - b", "E0043 node 0 0 - a"]),
    (bound("b a", f"67, 40 1, {F}, {F}"), 0, []),
    (bound("a b", f"67, 40 1, {F}, {G}"), 0, ["E0091 node 0 0 0 -"]),
    (bound("b", "73 1, 41 0"), 0, []),
    (bound("", "73 0"), 0, []),
    (bound("", "70 h, 3 0"), 0, ["E0041 node 0 0 - -"]),
    # an empty array: without a hint, under an array of 5, under one of 0
    (value("74 0"), 0, ["E0123 node 0 0 0 -"]),
    (value("74 0", "32 5, 23"), 0, ["E0040 node 0 0 - x"]),
    (value("74 0", "32 0, 23"), 0, []),
    # chains of aliases
    (chain(64), 0, []),
    (chain(65), 0, ["E0008 type 0 - - t00"]),
    # a cast to an alias of Int32
    (value("76, 33 T, 41 1", types="3 1, 4 T, 23"), 0, ["E0094 node 0 0 0 -"]),
    # E0006 at the package of the later declaration, E0007 at the enum, the type's number
    ("1 2, 2 p, 3 1, 4 T, 23, 3 0, 3 0, 2 q, 3 1, 6 T, 3 2, 8 v, 8 v, 3 0, 3 0", 0,
     ["E0006 package 1 - - T", "E0007 enum 1 - - v"]),
    # E0008 at the last alias of the name, though a record of that name comes later
    ("1 1, 2 p, 3 3, 4 T, 23, 4 T, 33 T, 5 T, 3 0, 3 0, 3 0", 0,
     ["E0006 package 0 - - T", "E0006 package 0 - - T", "E0008 type 1 - - T"]),
    # nodes of equal names: the later gets E0001, both are judged
    ("1 1, 2 p, 3 0, 3 0, 3 2, 11 n, 3 0, 3 1, 7 x, 23, 3 0, 3 0, 3 0, "
     "11 n, 3 0, 3 1, 7 x, 23, 3 0, 3 0, 3 0", 0,
     ["E0001 node 1 - - n", "E0050 node 0 - - x", "E0050 node 1 - - x"]),
    # constants of equal names: the first is judged by its own type, the later one not at all
    ("1 1, 2 p, 3 0, 3 2, 9 k, 20, 41 1, 9 k, 23, 44 z, 3 0", 0,
     ["E0005 constant 0 - - k", "E0003 constant 1 - - k"]),
    # alias X = Int32 and record X: X {u: 0} is a value whose type resolves to Int32
    (value("75 X, 3 1, 84 u, 41 0", types=RECORD_T), 0, ["E0006 package 0 - - X"]),
    # the clock's line has the step of the when
    (value("45, 77 c, 44 x", "20"), 2,
     ["E0080 node 0 0 1 c", "E0060 node 0 - 0 x", "E0060 node 0 - 1 x"]),
    # unused local
    (operator("x y", [("x", "41 0")]), 0, ["W0051 node 0 - - y"]),
    # nested iterators: each is reported once and typed once, so lines grow by one a level
    (nested(1), 2, ["E0145 node 1 0 0 -"]),
    (nested(2), 2, ["E0146 node 1 0 2 -", "E0145 node 1 0 2 -"]),
    (nested(3), 2, ["E0146 node 1 0 2 -", "E0146 node 1 0 4 -", "E0145 node 1 0 4 -"]),
]


def records(text):
    kinds, words = [], []
    for record in text.split(", "):
        kind, *word = record.split()
        kinds.append(int(kind))
        words.append(word[0] if word else "0")
    names = sorted({w.encode() for w in words if not w.isdigit()})
    number = lambda w: int(w) if w.isdigit() else names.index(w.encode())
    return kinds, [number(w) for w in words], names


def file_of(kinds, words, names):
    text = b"".join(n + b"\0" for n in names)
    return (struct.pack("<II", len(kinds), len(text)) + bytes(kinds)
            + b"".join(struct.pack("<Q", w) for w in words) + text)


def printed(answer, names):
    lines = []
    for i, (code, place, number, equation, step, name) in enumerate(answer["lines"]):
        letter = "W" if i in answer["warnings"] else "E"
        fields = [str(x) if x != NONE else "-" for x in (equation, step)]
        shown = names[name].decode() if name != NONE else "-"
        lines.append(f"{letter}{code:04} {PLACES[place]} {number} {fields[0]} {fields[1]} {shown}")
    return lines


def main():
    wrong = 0
    for text, followed, lines in CASES:
        kinds, words, names = records(text)
        with tempfile.NamedTemporaryFile(delete=False) as f:
            f.write(file_of(kinds, words, names))
        run = subprocess.run([sys.argv[1], "check", f.name], capture_output=True, text=True)
        os.unlink(f.name)
        answer = json.loads(run.stdout) if run.returncode == 0 else {"lines": [], "warnings": [], "followed": None}
        got = (answer["followed"], printed(answer, names))
        if got != (followed, lines):
            wrong += 1
            print(f"{text}\n  expected {followed} {lines}\n  got {got[0]} {got[1]} {run.stderr}")
    print(f"{len(CASES)} models by hand, {wrong} wrong")
    sys.exit(wrong > 0)


if __name__ == "__main__":
    main()
