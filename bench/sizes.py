#!/usr/bin/env python3
"""sizes.py FOLDER: puts documents of 1, 2, 4, 8 and 16 KB into a folder, as KIND-KB.json, for the time a byte by size. Each kind
has as many parts as fit, with the same parts and the same layout at each size, and at most 512 values. `names` is one record of
many members, in no order, up to 511 of them, whose names are short, so that the shape is no longer than a shape may be;
`ordered` has them in byte order."""

import json
import pathlib
import random
import sys

SIZES = (1, 2, 4, 8, 16)
WORDS = "belt rail strap pedal crank wheel chain seat motor fan".split()


def records(r):
    while True:
        record = {"serial": "VX-%05d" % r.randrange(100000), "note": " ".join(r.choices(WORDS, k=18)), "bay": r.randrange(60), "ok": True}
        yield json.dumps(record, indent=3)


def texts(r):
    while True:
        yield json.dumps(" ".join(r.choices(WORDS + ["\"quoted\"", "größer"], k=r.randrange(8, 20))), ensure_ascii=False)


def numbers(r):
    while True:
        yield "                %d.%03d" % (r.randrange(10**12), r.randrange(1000))


def member(name, r):
    return '"%s": %20d' % (name, r.randrange(10**11))


def names(r):
    listed = ["%s%03d" % (r.choice(WORDS)[:2], i) for i in range(511)]
    r.shuffle(listed)
    return (member(name, r) for name in listed)


def ordered(r):
    return (member("pt%03d" % i, r) for i in range(511))


def filled(parts, size):
    """As many parts as fit between two brackets."""
    taken, length = [], 2
    for part in parts:
        length += len(part.encode()) + 2
        if length > size:
            break
        taken.append(part)
    return ",\n".join(taken)


def main(folder):
    for kind in (records, texts, numbers, names, ordered):
        for size in SIZES:
            inner = filled(kind(random.Random(3)), 1024 * size)
            text = "{%s}" % inner if kind in (names, ordered) else "[%s]" % inner
            (pathlib.Path(folder) / f"{kind.__name__}-{size}.json").write_text(text, encoding="utf-8")


main(sys.argv[1])
