"""docs/STATEMENTS.lock: a checksum for all that a reader has to believe, so that no change of it goes by without a line in a diff.

A line is a sha256 and what it is of: a file (the definitions and the rows that are proved of them; the statements with all that they
import in `laws`; what `runvestol` and `runvestol_c` state of their calls), or a public function, whose signature and clauses it covers
with the `ghost use` lines of its file, comments dropped and white space collapsed."""
import hashlib

from .contracts import CITED, public_sources
from .functions import functions
from .imports import uses
from .promises import STATEMENTS
from .sources import Source

LOCK = "docs/STATEMENTS.lock"
# The crates of the C calls.
CALLS = ("runvestol", "runvestol_c")
# How a file of `laws` names another one.
OWN = "Rattle.laws.specs."


def believed(root):
    """The files that a reader has to believe."""
    files = {*root.glob(f"crates/{CITED}/src/lib.rt"), *root.glob(f"crates/{CITED}/specs/**/*.antt")}
    files.update(root.glob(f"crates/{CITED}/proofs/**/*.antt"))
    for crate in CALLS:
        files.update(root.glob(f"crates/{crate}/specs/**/*.antt"))
    waiting = [root / STATEMENTS]
    while waiting:
        path = waiting.pop()
        if path.is_file() and path not in files:
            files.add(path)
            waiting += imported(root, Source(root, path))
    return sorted(files)


def imported(root, source):
    """The files of `laws` that one of them brings something in from: the longest front of a path that is a file's."""
    for _, _, items in uses(source):
        for item in items:
            if item.path.startswith(OWN):
                parts = item.path.removeprefix(OWN).split(".")
                paths = [root / "crates/laws/specs" / ("/".join(parts[:k]) + ".antt") for k in range(len(parts), 0, -1)]
                yield from [path for path in paths if path.is_file()][:1]


def contracts(root):
    """Each public contract, as (what it is of, its text)."""
    for source in public_sources(root):
        brought = [" ".join(source.text[start:end].split()) for start, end, _ in uses(source)]
        for function in functions(source):
            if function.public or function.exported:
                yield f"{source.name} {function.name}", "\n".join([function.head, *brought]).encode()


def lines(root):
    """The lines of the lock, as {what: sha256}."""
    parts = [(path.relative_to(root).as_posix(), path.read_bytes()) for path in believed(root)]
    return {what: hashlib.sha256(text).hexdigest() for what, text in (*parts, *contracts(root))}


def written(root):
    return "".join(f"{checksum}  {what}\n" for what, checksum in lines(root).items())


def locked(root):
    """The lock has just the lines that tools/lock would write."""
    path, wanted = root / LOCK, lines(root)
    if not path.is_file():
        yield LOCK, "there is none: tools/lock writes it"
        return
    there = {}
    for number, line in enumerate(path.read_text(encoding="utf-8", errors="replace").split("\n"), 1):
        checksum, _, what = line.partition("  ")
        if not line:
            continue
        if what not in wanted or what in there:
            yield f"{LOCK}:{number}", f"a line too many: {what or line}"
        elif checksum != wanted[what]:
            yield f"{LOCK}:{number}", f"{what} is not what was locked; where that is meant, tools/lock writes the line anew"
        there[what] = checksum
    for what in wanted:
        if what not in there:
            yield LOCK, f"no line for {what}"
