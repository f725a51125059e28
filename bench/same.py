#!/usr/bin/env python3
"""Compares what each peer made of each document with what the first one, ours, made of it: the same bytes, the same value,
or neither. A value's numbers are compared as exact decimals, its members in their order."""

import decimal
import json
import os
import sys


def value(data):
    return json.loads(data.decode("utf-8"), parse_float=decimal.Decimal, parse_int=decimal.Decimal, object_pairs_hook=list)


def judge(ours, theirs):
    if ours == theirs:
        return "the same bytes"
    try:
        same = value(ours) == value(theirs)
    except ValueError:
        return "NO JSON"
    return "the same value, numbers spelled otherwise" if same else "ANOTHER VALUE"


def main(folder, list_of_names):
    with open(list_of_names) as f:
        names = f.read().splitlines()
    documents = sorted({f.rsplit(".", 1)[0] for f in os.listdir(folder)})

    def made(document, peer):
        with open(os.path.join(folder, "%s.%d" % (document, peer)), "rb") as f:
            return f.read()

    for peer, name in enumerate(names):
        if peer == 0 or name == "memcpy":
            continue
        verdicts = {}
        for document in documents:
            verdicts.setdefault(judge(made(document, 0), made(document, peer)), []).append(document)
        print("- %s: %s" % (name, "; ".join("%s (%s)" % (v, ", ".join(d)) for v, d in verdicts.items())))


main(sys.argv[1], sys.argv[2])
