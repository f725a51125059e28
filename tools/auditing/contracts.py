"""The rules on what the public crates ask and cite: nothing is asked, and only the definitions and the kit are cited."""
import re

from .functions import functions
from .imports import uses
from .library import KIT_CRATES, LIBRARIES
from .sources import blanked, sources

# The crates whose contracts a user reads, and the crate whose definitions those contracts cite.
PUBLIC = ("operations", "runvestol", "runvestol_c")
CITED = "definitions"

GHOST = re.compile(r"\bghost\b(?!\s+(?:pub\s+)?use\b)")


def public_sources(root):
    return sources(root, *(f"crates/{name}/src/**/*.rt" for name in PUBLIC))


def asked(root):
    """No function of the public crates has a `requires`, and nothing there is ghost.

    A caller who has to hand in a proof, or a value of a type that has none, is promised nothing."""
    for source in public_sources(root):
        clauses = set()
        for function in functions(source):
            for clause in function.of("requires"):
                yield source.place(clause.at), f"the function {function.name} has a `requires`"
            for clause in function.of("ghost"):
                clauses.add(GHOST.search(source.text, source.text.rfind("ghost", 0, clause.at)).start())
                yield source.place(clause.at), f"the function {function.name} has a `ghost` clause"
        for m in GHOST.finditer(without_clauses(source)):
            if m.start() not in clauses:
                yield source.place(m.start()), "something ghost that is no import: a struct of this crate has plain fields alone"


def without_clauses(source):
    """The file's text without what stands inside its contracts."""
    text = source.text
    for start, (_, end) in source.clauses.items():
        text = text[:start] + blanked(text[start:end]) + text[end:]
    return text


def cited(root):
    """The contracts of the public crates cite only the definitions and the kit."""
    words = f"cites another thing than crates/{CITED}/specs and the kit's libraries"
    for source in public_sources(root):
        text = source.text
        for start, end, items in uses(source):
            text = text[:start] + blanked(text[start:end]) + text[end:]
            other = next((item.path for item in items if not citable(item.path)), None)
            if other:
                yield source.place(start), f"the `ghost use` of {other} {words}"
        for m in re.finditer(r"(?<![\w.])Rattle\.[^\s(){};,]+", text):
            if not citable(m[0]):
                yield source.place(m.start()), f"{m[0]} {words}"


def citable(path):
    head = path.split(".")[0]
    if head in LIBRARIES:
        return True
    return any(path.startswith(f"Rattle.{name}.specs.") for name in (CITED, *KIT_CRATES))
