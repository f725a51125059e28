"""The rule on plain JSON's number writer (request Q-4): it makes its digits without a division or a remainder."""
import re

from .functions import functions
from .sources import Source, blanked

FOLDER = "crates/number/src"
# The writer's files: its calls, and all that these call.
FILES = ("write", "decimal", "short", "groups", "places")
CALLS = {"write_number", "number_length"}
# What a path in them may begin with: a file of the writer.
PATHS = {"crate", *FILES}
# Of the kit it is counting zeros, which is one instruction.
KIT = {"u64::leading_zeros"}

GHOST_USE = re.compile(r"\bghost\s+(?:pub\s+)?use\b[^;]*;")
DIVIDES = re.compile(r"[/%]=?")
# A method, or a loop over an iterator, is code of another crate.
METHOD = re.compile(r"\.\s*(\w+)\s*(?:::<[^()]*>\s*)?\(|\b(for)\b|>\s*::\s*(\w+)")
PATH = re.compile(r"(?<!:)\b(\w+)::(?:(\w+)|\{([^{}]*)\})?")


def undivided(root):
    """No `/` and no `%` stands in the code of the number writer's files, and they call no code of another file."""
    if not (root / "crates/number").is_dir():
        return
    written = set()
    for file in FILES:
        path = root / FOLDER / f"{file}.rt"
        if not path.is_file():
            yield f"{FOLDER}/{file}.rt", "there is none, and the number writer's files are held to have no division"
            continue
        source = Source(root, path)
        written |= {function.name for function in functions(source)}
        code = code_of(source)
        for m in DIVIDES.finditer(code):
            yield source.place(m.start()), f"`{m[0]}` in the number writer, which divides nothing"
        for m in METHOD.finditer(code):
            yield source.place(m.start()), f"the number writer calls `{m[1] or m[2] or m[3]}`, which is not held to have no division"
        for m in PATH.finditer(code):
            for first in [m[1]] if m[1] != "crate" else heads(m[3]) if m[3] else [m[2]]:
                if first not in PATHS and m[0] not in KIT:
                    yield source.place(m.start()), f"the number writer calls `{first}`, which is not held to have no division"
    for name in sorted(CALLS - written):
        yield f"{FOLDER}/{FILES[0]}.rt", f"{name} stands in none of the number writer's files"


def heads(items):
    """What each item of `{a, b::c}` begins with."""
    return [item.split("::")[0].split()[0] for item in items.split(",") if item.strip()]


def code_of(source):
    """The file's code: its clauses and what it imports for them blanked, as its comments are."""
    code = source.text
    for start, (_, end) in source.clauses.items():
        code = code[:start] + blanked(code[start:end]) + code[end:]
    return GHOST_USE.sub(lambda m: blanked(m[0]), code)
