#!/usr/bin/env python3
"""schema.py SHAPE...: writes beside each shape text the JSON Schema that admits the same documents, as NAME.schema.

Kinds are types: null, bool (boolean), text (string), list (array), rec (object), int (integer), and int with dec
(number). RapidJSON goes by draft 4 and by how a number is written, so that 4.0 is a number and no integer to it, as it is
a decimal and no int here. A list's element is `items`; a record's members are `properties`, those without null are
`required`, and no others are allowed. The shape with no kind admits nothing: `not` of what admits everything."""

import json
import pathlib
import re
import sys

TOKEN = re.compile(r'\s*([()]|"(?:[^"\\]|\\.)*"|[a-z]+)')
TYPES = {"null": "null", "bool": "boolean", "int": "integer", "text": "string", "list": "array", "rec": "object"}


class Tokens:
    def __init__(self, text):
        self.rest = TOKEN.findall(text)

    def take(self, wanted=None):
        token = self.rest.pop(0)
        if wanted is not None and token != wanted:
            raise ValueError("no shape text: %r where %r is to stand" % (token, wanted))
        return token

    def next_is(self, *row):
        return tuple(self.rest[: len(row)]) == row


def types_of(kinds):
    types = [TYPES[kind] for kind in kinds if kind != "dec"]
    return ["number" if kind == "integer" and "dec" in kinds else kind for kind in types]


def read_members(tokens):
    while tokens.next_is("(", "member"):
        tokens.take(), tokens.take()
        name = json.loads(tokens.take())
        yield name, read_shape(tokens)
        tokens.take(")")


def schema_of(kinds, element, members):
    """The schema, from the kinds and from the kinds and schemas below."""
    if not kinds:
        return {"not": {}}
    types = types_of(kinds)
    schema = {"type": types[0] if len(types) == 1 else types}
    if "list" in kinds:
        schema["items"] = element[1]
    if "rec" in kinds:
        schema["properties"] = {name: below for name, (_, below) in members}
        required = [name for name, (kinds_below, _) in members if "null" not in kinds_below]
        if required:
            schema["required"] = required
        schema["additionalProperties"] = False
    return schema


def read_shape(tokens):
    """The kinds of a shape, and its schema."""
    tokens.take("("), tokens.take("shape")
    kinds = []
    while not (tokens.next_is("(") or tokens.next_is(")")):
        kinds.append(tokens.take())
    element = read_shape(tokens) if "list" in kinds else None
    members = list(read_members(tokens))
    tokens.take(")")
    return kinds, schema_of(kinds, element, members)


def main(names):
    for name in map(pathlib.Path, names):
        tokens = Tokens(name.read_text(encoding="utf-8"))
        _, schema = read_shape(tokens)
        if tokens.rest:
            raise ValueError("%s goes on behind its shape" % name)
        name.with_suffix(".schema").write_text(json.dumps(schema) + "\n", encoding="utf-8")


main(sys.argv[1:])
