"""The rules on must-fail edits: each is refused because a fact fails, and which there are, as docs/GATE.md has it."""
import re

from .contracts import CITED, PUBLIC
from .functions import functions
from .refusals import other_reason, returns_refused
from .sources import Source, sources

GATE = "docs/GATE.md"
# Crates whose edits are of rules and statements: any number of them.
RULES = (CITED, "laws")
# Any other crate has at most so many, one whose check takes longer than SLOW seconds has one, and one whose check takes no longer than
# QUICK so many more that each new function has an edit of its own, which holds one mistake.
MOST, SLOW, QUICK, MOST_OF_QUICK = 2, 20, 10, 5
# Each public function has this many of its own code.
EACH = 2
AGAINST = re.compile(r"^# against: (\w+)\s*$", re.M)
# The words and signs that make up the shape of code: a proof walks along them, so an edit that keeps them fails by a fact.
SHAPE = re.compile(r"[{}()\[\];]|\b(?:if|else|match|while|loop|for|let|return|break|continue)\b")

# The scope document's worthless versions and traps, in its words.
WORTHLESS = (
    "check passes no reader",
    "infer refuses every sample",
    "infer keeps the shape of the first sample and ignores later ones",
    "infer hands its shape back unchanged",
    "infer adds null to everything",
    "run writes null always",
    "run reports invented steps",
    "run says 13 before entering a form",
    "letting unlisted members through in the order",
    "giving the empty list a null element",
    "adding null to every member when the first record meets nothing",
    "dropping int from int and dec in the second branch of `when int`",
)


class Edit:
    """A must-fail edit: its crate, its name, and what it replaces, as (file, old, new)."""

    def __init__(self, root, path):
        self.root, self.path, self.crate, self.name = root, path, path.parent.parent.name, path.stem
        self.place = path.relative_to(root).as_posix()
        self.text = path.read_text(encoding="utf-8", errors="replace")
        self.against = AGAINST.findall(self.text)
        self.changes, file, old = [], "", ""
        self.line = 1
        for number, line in enumerate(self.text.split("\n"), 1):
            word, _, rest = line.partition(": ")
            if word == "file":
                file = rest
            elif word == "old":
                old = rest
            elif line.startswith("new:"):
                self.line = number if not self.changes else self.line
                self.changes.append((file, old, rest))

    def at(self):
        return f"{self.place}:{self.line}"

    def keeps_shape(self):
        shapes = [[SHAPE.findall(text.partition("//")[0]) for text in change[1:]] for change in self.changes]
        return all(old == new for old, new in shapes)

    def log(self):
        return self.root / "target/must-fail" / self.crate / self.name / ".log"


def edits(root):
    return [Edit(root, path) for path in sorted(root.glob("crates/*/must-fail/*.edit")) if path.is_file()]


def facts(root):
    """Each must-fail edit was tried, and was refused because a fact fails and for no other reason: by the logs that tools/try-edits
    leaves."""
    for path in sorted(root.glob("crates/*/must-fail/*")):
        if path.suffix != ".edit" or not path.is_file():
            yield path.relative_to(root).as_posix(), "not a file *.edit, so it is never tried"
    for edit in edits(root):
        if any(file.startswith("proofs/") for file, _, _ in edit.changes):
            yield edit.at(), "it edits a proof, and so shows nothing of a definition or of code"
        log = edit.log()
        if not log.is_file():
            yield edit.at(), f"never tried: there is no {log.relative_to(root).as_posix()}"
            continue
        yield from ((edit.at(), reason) for reason in reasons(edit, log.read_text(encoding="utf-8", errors="replace")))


def reasons(edit, log):
    """Why an edit's log does not show what the edit is for. One that changes several public functions shows a fact for each of
    them, and one that is against a clause shows it where each returns: at that clause, where the log tells which it is."""
    reason = other_reason(log)
    changed = [name for name in functions_changed(edit) if name] if edit.crate in PUBLIC else []
    if reason:
        yield reason
        return
    for name in changed:
        concerns = places_of(edit, name)
        wrong = other_reason(log, concerns) if len(changed) > 1 else ""
        if not wrong and edit.against and not returns_refused(log, concerns, edit.against):
            wrong = f"it is against {', '.join(edit.against)}, and no fact fails where the function returns"
        if wrong:
            yield f"of {name}: {wrong}"


def places_of(edit, name):
    """Whether a place of the log is one of a function that the edit changes: in its code, whose lines an edit leaves where they are,
    or in its proof."""
    lines = {}
    for file in {file for file, _, _ in edit.changes}:
        path = edit.root / "crates" / edit.crate / file
        if path.suffix == ".rt" and path.is_file():
            source = Source(edit.root, path)
            spans = [(function.first, function.body[1]) for function in functions(source) if function.name == name]
            lines.update({file: tuple(source.text.count("\n", 0, at) + 1 for at in span) for span in spans})

    def concerns(place):
        file, _, rest = place.partition(":")
        first, last = lines.get(file, (1, 0))
        return place.startswith(f"proofs/{name}/") or first <= int(rest.partition(":")[0] or 0) <= last

    return concerns


# ---- which there are


def chosen(root):
    """The edits are those that the rule of docs/GATE.md asks for: enough where a user looks, and few elsewhere."""
    found = edits(root)
    changed = {edit: list(functions_changed(edit)) for edit in found}
    for edit in found:
        if None in changed[edit]:
            yield edit.at(), "it edits a clause: what is asked or promised, and no code"
    for crate in PUBLIC:
        for source in sources(root, f"crates/{crate}/src/**/*.rt"):
            for function in functions(source):
                if function.public or function.exported:
                    own = [edit for edit in found if edit.crate == crate and function.name in changed[edit] and edit.keeps_shape()]
                    yield from ((source.place(function.at), words) for words in too_few(function, own))
    if not (root / GATE).is_file():
        yield GATE, "there is none: nothing says which must-fail edits there are to be"
        return
    yield from counted(root, found)
    yield from worthless(root, {f"{edit.crate}/{edit.name}" for edit in found})


def functions_changed(edit):
    """The names of the functions whose bodies an edit changes, and None for each clause that it changes."""
    for file, old, _ in edit.changes:
        path = edit.root / "crates" / edit.crate / file
        if path.suffix != ".rt" or not path.is_file() or not old:
            continue
        source, at = Source(edit.root, path), path.read_text(encoding="utf-8", errors="replace").find(old)
        if at < 0:
            continue
        if any(start < at + len(old) and at < end for start, (_, end) in source.clauses.items()):
            yield None
        yield from (function.name for function in functions(source) if function.body[0] <= at < function.body[1])


def too_few(function, own):
    """What a public function's edits lack."""
    if len(own) < EACH:
        yield f"the public function {function.name} has {len(own)} must-fail edits that keep its code's shape, and is to have {EACH}"
    if function.writes() and not any("written" in edit.against for edit in own):
        yield f"no must-fail edit of the public function {function.name} is marked `# against: written`"


def counted(root, found):
    """No other crate has more edits than the rule allows, and the table of docs/GATE.md tells their number."""
    seconds = {}
    for number, (name, took, count, *_) in table(root, "Crate", 3):
        name, here = name.strip("`"), sum(edit.crate == name.strip("`") for edit in found)
        seconds[name] = int(took) if took.isdigit() else 0
        if count != str(here):
            yield f"{GATE}:{number}", f"{name} has {here} must-fail edits, and not {count}"
    for crate in sorted({edit.crate for edit in found}):
        here, allowed = sum(edit.crate == crate for edit in found), most_of(seconds.get(crate, 0))
        if crate not in seconds:
            yield GATE, f"its table of crates has no row for {crate}"
        elif crate not in (*RULES, *PUBLIC) and here > allowed:
            yield f"crates/{crate}/must-fail", f"{here} edits, and at most {allowed} where a check takes {seconds[crate]} s"


def most_of(seconds):
    """How many edits a crate may have whose check takes so long."""
    if seconds > SLOW:
        return 1
    return MOST_OF_QUICK if seconds <= QUICK else MOST


def worthless(root, there):
    """Each worthless version and each trap of the scope document has its edit, or waits for the code that it is of."""
    rows = {}
    for number, (what, where, *code) in table(root, "Worthless version or trap", 2):
        rows.setdefault(what, (number, where))
        yield from ((f"{GATE}:{number}", f"there is no edit {edit}") for edit in code if edit and edit.strip("`") not in there)
    written = {function.name for source in sources(root, "crates/operations/src/**/*.rt") for function in functions(source)}
    for what in WORTHLESS:
        number, where = rows.get(what, (0, ""))
        waits = re.fullmatch(r"with `(check|run)`", where)
        if not number:
            yield GATE, f"its table has no row for: {what}"
        elif waits and waits[1] in written:
            yield f"{GATE}:{number}", f"{waits[1]} is there, and this has no edit: {what}"
        elif not waits and where.strip("`") not in there:
            yield f"{GATE}:{number}", f"there is no edit {where}"


def table(root, first, least):
    """The rows of the table of docs/GATE.md whose heading begins so, as (line, cells), with so many cells or more."""
    inside = False
    for number, line in enumerate((root / GATE).read_text(encoding="utf-8", errors="replace").split("\n"), 1):
        cells = [cell.strip() for cell in line.split("|")[1:-1]]
        if inside and len(cells) >= least and not set(cells[0]) <= set("-: "):
            yield number, cells
        inside = bool(cells) and (inside or cells[0] == first)
