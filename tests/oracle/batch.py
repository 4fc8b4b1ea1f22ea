"""Models as lists of records, their files, and streams of many models to a checker and back.

A record is (kind, word); a word that is a name is its bytes. A model of a stream is: work words, room for lines and file length (4 bytes
each, low byte first), then the file. The answer to each is document 01's text followed by an empty line, so names hold no newline here.
"""
import importlib.machinery
import importlib.util
import os
import struct
import subprocess

HERE = os.path.dirname(os.path.abspath(__file__))
WORK, ROOM = 4096, 1024


def inputs():
    """The program tests/inputs/make, whose decoder was written from document 01 and requests 2.1 and 2.2 alone."""
    path = os.path.join(HERE, "..", "inputs", "make")
    loader = importlib.machinery.SourceFileLoader("inputs_make", path)
    module = importlib.util.module_from_spec(importlib.util.spec_from_loader("inputs_make", loader))
    loader.exec_module(module)
    return module


DECODER = inputs()
NAMED = DECODER.NAMED


def pack(kinds, words, text):
    """The file of these parts."""
    return struct.pack("<II", len(kinds), len(text)) + bytes(kinds) + struct.pack("<%dQ" % len(words), *words) + text


def write(records, unused=()):
    """The file of a model, with these further names in its text."""
    names = sorted({w for _, w in records if type(w) is bytes}.union(unused))
    number = {name: i for i, name in enumerate(names)}
    words = [number[w] if type(w) is bytes else w for _, w in records]
    return pack([k for k, _ in records], words, b"".join(n + b"\0" for n in names))


def parts(file):
    """Kinds, words and text of a file, or none if its length is wrong or too large; a file without bytes has nothing of each."""
    if not file:
        return b"", (), b""
    if len(file) < 8:
        return None
    n, t = struct.unpack_from("<II", file)
    if n > 4096 or t > 16384 or len(file) != 8 + 9 * n + t:
        return None
    return file[8:8 + n], struct.unpack_from("<%dQ" % n, file, 8 + n), file[8 + 9 * n:]


def spell(file):
    """The records of a good file."""
    kinds, words, text = parts(file)
    names = text.split(b"\0")
    return [(k, names[w] if k in NAMED else w) for k, w in zip(kinds, words)]


def decoded(file, work):
    """What the decoder says: a refusal from 1 to 6 or 8, `blank`, or `accepted` and the number of names."""
    told = parts(file)
    return DECODER.judge(*told, work) if told else "refused 1 at 0"


def nodes(file):
    """The kind of each node of a file, and whether an arrow stands in it, by kinds alone."""
    found, inside = [], False
    for kind in parts(file)[0]:
        if kind in (2, 10, 11, 12):
            inside = kind != 2
            found += [(kind, False)] if inside else []
        elif kind == 69 and inside:
            found[-1] = (found[-1][0], True)
    return found


def outputs(records):
    """How many outputs each node has, by name, of equal names the last."""
    found = {}
    for at, (kind, name) in enumerate(records):
        if kind in (10, 11, 12):
            left, at = records[at + 1][1], at + 2
            while left:
                at += 1
                while records[at][0] == 32:
                    at += 1
                at, left = at + 1, left - 1
            found[name] = records[at][1]
    return found


def has_tuple(file):
    """Whether a file holds a tuple or a call with several outputs, which the comparison with the unchanged Rust may leave out (request 2.8)."""
    records = spell(file)
    several = {name for name, count in outputs(records).items() if count > 1}
    return any(kind == 73 or kind == 70 and word in several for kind, word in records)


def frame(file, work=WORK, room=ROOM):
    """A model of a stream."""
    return struct.pack("<III", work, room, len(file)) + file


def frames(stream):
    """The models of a stream: work, room, file."""
    at = 0
    while at < len(stream):
        work, room, size = struct.unpack_from("<III", stream, at)
        yield work, room, stream[at + 12:at + 12 + size]
        at += 12 + size


class Stopped(Exception):
    """A checker ended early, hung or printed too much: the number of answers, and why."""


def ask(command, models, seconds=600):
    """The answers of a checker that reads a stream; models are (work, room, file)."""
    stream = b"".join(frame(file, work, room) for work, room, file in models)
    try:
        run = subprocess.run(command, input=stream, stdout=subprocess.PIPE, timeout=seconds)
    except subprocess.TimeoutExpired as late:
        raise Stopped((late.stdout or b"").count(b"\n\n"), "no end after %d s" % seconds)
    answers = run.stdout.split(b"\n\n")
    if run.returncode != 0 or len(answers) != len(models) + 1 or answers.pop():
        raise Stopped(min(len(answers), len(models)) - 1, "status %d" % run.returncode)
    return answers


def ask_each(command, models):
    """The answers of a program that reads one file, with 4,096 work words and 1,024 lines."""
    return [subprocess.run(command, input=file, stdout=subprocess.PIPE, timeout=60).stdout[:-1] for _, _, file in models]


def expected(report, room):
    """The answer with this room, where the whole report is as given."""
    count = int(report.split(b" ", 2)[1])
    return report if count <= room else b"refused 7 at %d" % count


def about(report):
    """The lines of a report by the node that they are about; those about no node under none."""
    lines = {}
    for line in report.split(b"\n")[1:]:
        fields = line.split(b" ", 3)
        lines.setdefault(int(fields[2]) if fields[1] == b"node" else None, []).append(line)
    return lines


PLACES = [b"package", b"enum", b"type", b"constant", b"node"]


def numbers(report, file):
    """The lines of a report as six numbers each; no name is `-` here."""
    names = {name: i for i, name in enumerate(parts(file)[2].split(b"\0")[:-1])}
    field = lambda w: (1 << 64) - 1 if w == b"-" else int(w)
    lines = []
    for line in report.split(b"\n")[1:]:
        code, place, number, equation, step, name = line.split(b" ", 5)
        lines.append([int(code[1:]), PLACES.index(place), int(number), field(equation), field(step), field(name) if name == b"-" else names[name]])
    return lines


def packed(lines):
    """Lines as 8-byte words, low byte first."""
    return b"".join(struct.pack("<6Q", *line) for line in lines)


def followed(report):
    """The number of edges followed of a report."""
    return int(report.split(b"\n")[0].split()[3])


def build(source, folder):
    """Builds the oracle and gives the command for streams."""
    subprocess.run([os.path.join(HERE, "build"), source, folder], check=True)
    return [os.path.join(folder, "oracle"), "answers"]
