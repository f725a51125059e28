"""The rules on symbols and axioms: a reader who knows the library knows what is meant, and nothing is assumed."""
import re

from .declarations import Tokens, declared
from .imports import mentions, uses
from .library import SYMBOLS, is_unary
from .sources import sources


def symbols(root):
    """No definition, import or renaming gives a symbol of the library another meaning."""
    specs = sources(root, "crates/*/specs/**/*.antt")
    for source in specs:
        for name, at in declared(source):
            if name in SYMBOLS:
                yield source.place(at), f"`{name}` is declared here, and is a symbol of the library"
    for source in specs + sources(root, "crates/*/src/**/*.rt"):
        brought = set()
        for _, _, items in uses(source):
            for item in items:
                homes = SYMBOLS.get(item.name)
                if homes and (item.braced or item.renamed) and item.path not in homes:
                    brought.add(item.at)
                    unary = ", which is over unary numbers" if is_unary(item.path) else ""
                    yield source.place(item.at), f"`{item.name}` is {item.path} here{unary}, and not the library's symbol"
        for path, at in mentions(source):
            if at not in brought and is_unary(path):
                yield source.place(at), f"{path} is over unary numbers, and reads like the library's symbol"


def axioms(root):
    """No axiom is declared or used, and no C function is declared, whose contract would be one."""
    for source in sources(root, "crates/**/*.antt", "crates/**/*.rt"):
        for path, at in mentions(source):
            if path == "Prim.Axiom" or path.startswith("Prim.Axiom."):
                yield source.place(at), f"{path}: no proof may rest on an axiom"
        if source.is_rattle:
            for m in re.finditer(r'\bextern\s*(?:"C"\s*)?\{', source.text):
                yield source.place(m.start()), "a block of C functions: nothing proves their contracts"
            continue
        tokens = Tokens(source.text)
        for k, (word, at, _) in enumerate(tokens.all):
            if word == "axiom" and tokens.begins(k):
                yield source.place(at), "an axiom is declared"
