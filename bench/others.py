#!/usr/bin/env python3
"""others.py FOLDER DOCUMENT...: writes changed copies of each document into a folder, as NAME-CHANGE.json. Some are still
admitted by the shape of the document, most are not."""

import json
import pathlib
import sys


def mapped(value, change):
    """Changes every part of a value, the innermost first."""
    if isinstance(value, list):
        value = [mapped(part, change) for part in value]
    if isinstance(value, dict):
        value = {name: mapped(part, change) for name, part in value.items()}
    return change(value)


def with_last(value, change):
    """Changes the last part that is neither list nor record, so that all before it is as it was."""
    if isinstance(value, list) and value:
        return value[:-1] + [with_last(value[-1], change)]
    if isinstance(value, dict) and value:
        name = list(value)[-1]
        return {**value, name: with_last(value[name], change)}
    return change(value)


def with_last_record(value, change):
    """Changes the last record at the first level that has one."""
    if isinstance(value, list) and value:
        return value[:-1] + [with_last_record(value[-1], change)]
    return change(value) if isinstance(value, dict) else value


def is_int(value):
    return isinstance(value, int) and not isinstance(value, bool)


CHANGES = {
    # admitted still: members in another order, and int wherever dec is
    "reversed": lambda v: mapped(v, lambda p: dict(reversed(p.items())) if isinstance(p, dict) else p),
    "whole": lambda v: mapped(v, lambda p: int(p) if isinstance(p, float) else p),
    # a whole number written as a decimal
    "decimal": lambda v: mapped(v, lambda p: float(p) if is_int(p) else p),
    "null": lambda v: with_last(v, lambda _: None),
    "bool": lambda v: with_last(v, lambda _: True),
    "text": lambda v: with_last(v, lambda _: "seven"),
    "list": lambda v: with_last(v, lambda p: [p]),
    "lacking": lambda v: with_last_record(v, lambda p: dict(list(p.items())[1:])),
    "further": lambda v: with_last_record(v, lambda p: {**p, "further": None}),
    "empty-list": lambda v: [],
    "empty-record": lambda v: {},
}


def main(folder, documents):
    for document in map(pathlib.Path, documents):
        value = json.loads(document.read_text(encoding="utf-8"))
        for name, change in CHANGES.items():
            text = json.dumps(change(value), ensure_ascii=False)
            (pathlib.Path(folder) / f"{document.stem}-{name}.json").write_text(text, encoding="utf-8")


main(sys.argv[1], sys.argv[2:])
