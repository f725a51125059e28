"""The rule on docs/PROMISES.md: what it cites is there, and each theorem that it cites is the statement of its name.

The theorem `doubles_by_the_book` has the statement `DoublesByTheBook`.

How it cites: in backquotes, a path under crates/, a space and one name, as in
  `crates/NAME/specs/File.antt name`           a signature, data type, constructor or record of that file, or of one of proofs/
  `crates/NAME/specs/File.antt Record.field`   a field of a record, never by its own name alone
  `crates/NAME/src/file.rt function`           a function; a method is `Type::name`
A path under crates/ with no name behind it must be a file. Code fences and <!-- comments --> are passed over."""
import re

from .declarations import declared, fields, signature
from .functions import functions
from .imports import uses
from .sources import Source, blanked

DOCUMENT = "docs/PROMISES.md"
STATEMENTS = "crates/laws/specs/Statements.antt"
THEOREMS = "crates/laws/proofs/Theorems.antt"


def promises(root):
    """Every name that docs/PROMISES.md cites is there, and every theorem among them says what its name says."""
    path, names_cited = root / DOCUMENT, 0
    if not path.is_file():
        yield DOCUMENT, "there is none: nothing says which theorem or contract carries a promise"
        return
    text = path.read_text(encoding="utf-8", errors="replace")
    for pattern in (r"<!--.*?-->", r"^```.*?^```"):
        text = re.sub(pattern, lambda m: blanked(m[0]), text, flags=re.S | re.M)
    told = set()
    for number, line in enumerate(text.split("\n"), 1):
        for span in re.findall(r"`(crates/[^`]*)`", line):
            file, *names = span.split()
            names_cited += len(names) == 1
            wrong = cite_fault(root, file, names)
            if wrong and (number, wrong) not in told:
                told.add((number, wrong))
                yield f"{DOCUMENT}:{number}", wrong
    if not names_cited:
        yield f"{DOCUMENT}:1", "it cites no theorem and no contract"


def cite_fault(root, file, names):
    """What is wrong with one citation: "" where nothing is."""
    path = root / file
    if ".." in file.split("/") or not path.is_file():
        return f"there is no file {file}"
    if len(names) > 1:
        return f"`{file} {' '.join(names)}`: one name stands behind a path"
    if not names:
        return ""
    if path.suffix == ".antt":
        return spec_fault(root, Source(root, path), names[0])
    if path.suffix != ".rt":
        return f"{file} is no file of Rattle or antt, and declares no {names[0]}"
    there = {function.name for function in functions(Source(root, path))}
    return "" if names[0] in there else f"{file} declares no {names[0]}"


def spec_fault(root, source, name):
    """What is wrong with a citation of a name of an antt file."""
    records, inner = fields(source)
    record, dot, field = name.partition(".")
    if dot:
        return "" if field in records.get(record, ()) else f"{source.name} has no record {record} with a field {field}"
    if name not in {found for found, _ in declared(source)}:
        return f"{source.name} declares no {name}"
    if name in inner:
        return f"{name} of {source.name} is a field: it is cited as Record.{name}, so that the record cannot lose it unseen"
    return theorem_fault(root, source, name) if source.name == THEOREMS else ""


def theorem_fault(root, source, name):
    """A theorem's type is the statement of its name, which is declared among the statements and nowhere else."""
    statement, kind = "".join(part[:1].upper() + part[1:] for part in name.split("_")), signature(source, name)
    if kind != statement:
        return f"the type of the theorem {name} is `{kind}`, and not the statement {statement}"
    path = root / STATEMENTS
    if not path.is_file() or statement not in {found for found, _ in declared(Source(root, path))}:
        return f"{STATEMENTS} declares no {statement}"
    brought = [item.path for _, _, items in uses(source) for item in items if item.name == statement]
    own = [found for found, _ in declared(source) if found == statement]
    if own or brought != ["Rattle.laws.specs.Statements." + statement]:
        return f"{statement} in {THEOREMS} is {', '.join(own + brought) or 'brought in nowhere'}, and not that of {STATEMENTS}"
    return ""
