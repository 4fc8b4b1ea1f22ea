"""Damaged files: one to three changes of a good file, blank ones among them, and work memory and room that may be too small."""
from batch import NAMED, pack, parts

EDGES = [0, 1, 2, 3, 4, 255, 256, 511, 512, 4095, 4096, 4097, (1 << 32) - 1, 1 << 32, (1 << 63) - 1, 1 << 63, (1 << 64) - 1]
PIECES = [b"\0", b"\0\0", b"a\0", b"__tuple__\0", b"__unit__\0", b"\xff\0", b"\x7f\xc3\0", b"n" * 65 + b"\0"]


def one_kind(rng, kinds, words, text):
    """Another kind at a record."""
    kinds[rng.randrange(len(kinds))] = rng.randrange(86) if rng.random() < 0.9 else rng.randrange(256)


def one_word(rng, kinds, words, text):
    """Another word at a record: at an edge, or one more or less."""
    at = rng.randrange(len(words))
    words[at] = rng.choice(EDGES) if rng.random() < 0.5 else (words[at] + rng.choice((-1, 1))) % (1 << 64)


def one_name(rng, kinds, words, text):
    """Another name at a record that has one."""
    named = [i for i, k in enumerate(kinds) if k in NAMED]
    if named:
        words[rng.choice(named)] = rng.randrange(text.count(0) + 2)


def cut(rng, kinds, words, text):
    """Some records left out, or written twice, or the end cut off."""
    at, size = rng.randrange(len(kinds)), rng.choice((1, 1, 2, 5, 5000))
    for items in (kinds, words):
        items[at:at + size] = [] if size == 5000 or at % 2 else items[at:at + size] * 2


def swap(rng, kinds, words, text):
    """Two records in each other's place."""
    i, j = rng.randrange(len(kinds)), rng.randrange(len(kinds))
    for items in (kinds, words):
        items[i], items[j] = items[j], items[i]


def deepen(rng, kinds, words, text):
    """Some records of one kind before a type or an expression, up to and past the limit of levels."""
    at = rng.randrange(len(kinds))
    kind, word = (32, 1) if 20 <= kinds[at] <= 33 else (rng.choice((45, 46, 68)), 0)
    count = rng.choice((1, 2, 40, 55, 58, 59, 60, 66, 67, 68, 300))
    kinds[at:at] = [kind] * count
    words[at:at] = [word] * count


def one_letter(rng, kinds, words, text):
    """A byte of the text changed, left out, or a piece put in."""
    at = rng.randrange(len(text) + 1)
    text[at:at + rng.randrange(2)] = rng.choice(PIECES) if rng.random() < 0.5 else bytes([rng.randrange(256)])


def many_names(rng, kinds, words, text):
    """As many names as fit, or some more."""
    text += b"".join(b"\xf0%03d\0" % i for i in range(rng.choice((500, 505, 510, 512)) - text.count(0) + rng.randrange(4)))


def emptied(rng, kinds, words, text):
    """No records, and no text or what there was of it."""
    del kinds[:], words[:]
    if rng.random() < 0.7:
        del text[:]


CHANGES = [one_kind, one_word, one_name, one_name, cut, swap, deepen, one_letter]


def damaged(rng, file):
    """A damaged file with work memory and room; none where a name would hold a newline."""
    kinds, words, text = parts(file)
    kinds, words, text = list(kinds), list(words), bytearray(text)
    for _ in range(rng.randrange(1, 4)):
        change = rng.choice((many_names, emptied)) if rng.random() < 0.02 else rng.choice(CHANGES)
        if kinds:
            change(rng, kinds, words, text)
    text = bytes(text)
    if b"\n" in text:
        return None
    made = pack(kinds, words, text)
    work = rng.choice((0, 1, 4095)) if rng.random() < 0.03 else rng.choice((4096, 4096, 4097, 5000))
    room = rng.choice((0, 1, 2, 3, 10, 1024, 1024, 1024, 1024))
    if not kinds and not text and rng.random() < 0.5:
        return work, room, b""
    if rng.random() < 0.05:
        made = bytearray(made)
        made[rng.randrange(8)] = rng.randrange(256)
        made = bytes(made)
    if rng.random() < 0.05:
        made = made[:rng.randrange(len(made))] if rng.random() < 0.5 else made + bytes(rng.randrange(1, 20))
    told = parts(made)
    if told and b"\n" in told[2]:
        return None
    return work, room, made
