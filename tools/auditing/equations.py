"""The rule on public contracts: each is just the equations with the definition of its name, compared as text.

Of `runvestol_X` the definition is `X_call` of crates/definitions/specs/Calls.antt, in `runvestol` and in `runvestol_c`, which hands it
to C; of `X` in operations it is `X_operation` of Operations.antt there. The definition's signature says what it takes: a source, for
which the contract has `read_json`; limits, which stand before all other parameters, of a call as the four numbers of a set; then all
other parameters of the function, in order and by their names."""
import re

from .contracts import CITED
from .declarations import arguments, signature
from .functions import functions
from .imports import uses
from .sources import Source, sources

# What a contract has where a signature asks for a source, what makes limits of four numbers, and the files of what a contract names.
READS, MAKES = "read_json", "set_of"
HOMES = {READS: "Json", MAKES: "Limits"}
# The parameters that are the limits: of an operation, and of a call; and what stands for them in its contract.
LIMITS = [("limits", "Limits")]
SET = [(name, "u64") for name in ("bytes", "values", "nesting", "steps")]
HANDED = f"({MAKES} {' '.join(name for name, _ in SET)})"
# Where the published lengths of work slices are defined; and the sets that they are evaluated at, with the ending of the rows' names.
SLICES = "WorkSlices"
SETS = (("standard", ""), ("smallest", "_at_the_smallest"))
EVALUATED = f"crates/{CITED}/proofs/MoreSamples.antt"
# The crate whose functions C reaches, and how each of them is marked.
FOR_C = "runvestol_c"
MARK = re.compile(r"#\[unsafe\(no_mangle\)\]\s*$")

BYTES = {"&[u8]", "&mut [u8]"}
WORK = "&mut [u64]"
NUMBERS = {"u8", "u16", "u32", "u64", "usize"}


class Definition:
    """A definition that a contract cites: its name, its file, and its signature's arguments and result."""

    def __init__(self, root, name, file):
        self.name, self.file = name, f"crates/{CITED}/specs/{file}.antt"
        path = root / self.file
        kind = signature(Source(root, path), name) if path.is_file() else ""
        *self.arguments, (_, self.result) = arguments(kind)
        self.there = bool(kind)

    def handed(self, limits):
        """Takes a source and limits off the front, and gives what stands for them."""
        words, handed = [], {"Source": READS, "Limits": limits}
        while self.arguments and not self.arguments[0][0] and self.arguments[0][1] in handed:
            words.append(handed[self.arguments.pop(0)[1]])
        return words

    def rest(self):
        """The other arguments, as (name, type). The C calls' answer buffer is `buffer` there."""
        return [("answer" if name == "buffer" else name, kind) for names, kind in self.arguments for name in names or ("",)]


def equations(root):
    """Each public function has just the equations that the audit makes from its name and its definition's signature."""
    for crate, contract in (("operations", operation), ("runvestol", call), (FOR_C, call)):
        for source in sources(root, f"crates/{crate}/src/**/*.rt"):
            for function in functions(source):
                if function.public or function.exported:
                    yield from ((source.place(at), words) for at, words in contract(root, source, function))


def call(root, source, function):
    """What is wrong with a function of runvestol, or of the crate that hands it to C."""
    name = function.name.removeprefix("runvestol_")
    definition = Definition(root, f"{name}_call", "Calls")
    if name == function.name or not definition.there:
        yield function.at, f"the public function {function.name} is no runvestol_X with an X_call in {definition.file}"
        return
    for_c = source.name.startswith(f"crates/{FOR_C}/")
    if for_c and not (function.exported and function.public and MARK.search(source.text[: function.at])):
        yield function.at, f'{function.name} is not marked #[unsafe(no_mangle)] pub extern "C"'
    others = function.parameters[len(SET) :]
    yield from first(function, SET)
    words = [definition.name, *definition.handed(HANDED), *map(at_entry, others)]
    yield from limited(function, definition, HANDED in words)
    yield from fitting(function, others, definition, "Called")
    yield from imported(source, function, definition, words)
    yield from stated(function, " ".join(words), {"number": ("result", "number"), "answered": ("answer.new", "answer"), "written": ("output.new", "output")})


def operation(root, source, function):
    """What is wrong with a function of operations."""
    definition = Definition(root, f"{function.name}_operation", "Operations")
    if not definition.there:
        yield function.at, f"the public function {function.name} has no {function.name}_operation in {definition.file}"
        return
    work = [parameter for parameter in function.parameters if parameter.type == WORK]
    others = [parameter for parameter in function.parameters[len(LIMITS) :] if parameter.type != WORK]
    yield from first(function, LIMITS)
    words = [definition.name, *definition.handed("limits")]
    lengths, definition.arguments = definition.arguments[:1], definition.arguments[1:]
    if lengths != [(("published", "lent"), "List ℕ")]:
        yield function.at, f"{definition.name} does not take the published and the lent lengths of work slices first"
        return
    try:
        words.append(published(root, function.name, [parameter.name for parameter in work]))
    except ValueError as wrong:
        yield function.at, str(wrong)
        return
    words += [listed(f"length {at_entry(parameter)}" for parameter in work), *definition.handed("limits"), *map(at_entry, others)]
    yield from limited(function, definition, "limits" in words)
    yield from fitting(function, others, definition, "Done" if function.writes() else "Answer")
    yield from imported(source, function, definition, words)
    ends = {"answered": ("result", "answer"), "written": ("output.new", "output")}
    yield from stated(function, " ".join(words), ends if function.writes() else {"answered": ("result", "")})


def first(function, limits):
    """The limits stand before all other parameters."""
    found = [(parameter.name, parameter.type) for parameter in function.parameters[: len(limits)]]
    if found != limits:
        yield function.at, f"{function.name} does not take {', '.join(f'{name}: {kind}' for name, kind in limits)} first"


def limited(function, definition, takes):
    """The definition goes by limits too: a contract that names none would hold at no set of the caller's."""
    if not takes:
        yield function.at, f"{definition.name} of {definition.file} takes no Limits"


def at_entry(parameter):
    """A parameter as a contract has it: a number by itself, a slice by what it holds at entry."""
    if parameter.type in NUMBERS:
        return parameter.name
    return f"{parameter.name}.{'old' if parameter.type.startswith('&mut') else 'now'}"


def listed(words):
    return f"({' ∷ '.join([*words, '[]'])})"


def published(root, name, slices):
    """The published lengths of an operation's work slices, as its contract has them: the definition of its name at the limits handed
    over, which rows of the further samples evaluate at two sets to what the table of docs/WORK-SLICES.md prints."""
    rows = printed(root).get(name, [])
    if [row[0] for row in rows] != slices:
        told = ", ".join(row[0] for row in rows) or "none"
        raise ValueError(f"the work slices of {name} are {', '.join(slices) or 'none'}, and docs/WORK-SLICES.md prints {told}")
    for at, (limits, ending) in enumerate(SETS, 1):
        wanted = f"{name}_slices {limits} ≡ {listed(row[at] for row in rows)[1:-1]}"
        path, row = root / EVALUATED, f"published_for_{name}{ending}"
        kind = signature(Source(root, path), row) if path.is_file() else ""
        if " ".join(kind.split()) != wanted:
            raise ValueError(f"`{row}` of {EVALUATED} does not state {wanted}, as docs/WORK-SLICES.md prints")
    return f"({name}_slices limits)"


def printed(root):
    """The rows of the table of docs/WORK-SLICES.md: {operation: [(slice, words at the largest set, words at the smallest)]}."""
    path, found = root / "docs/WORK-SLICES.md", {}
    text = path.read_text(encoding="utf-8", errors="replace") if path.is_file() else ""
    table = re.search(r"^\| Operation \| Slice \| Words \| At the smallest set \|.*\n((?:\|.*\n)*)", text, re.M)
    for row in table[1].split("\n") if table else ():
        cells = [cell.strip() for cell in row.split("|")[1:-1]]
        for name in re.findall(r"`([^`]+)`", cells[0]) if len(cells) > 3 else ():
            found.setdefault(name, []).append((cells[1].strip("`"), cells[2].replace(",", ""), cells[3].replace(",", "")))
    return found


def fitting(function, parameters, definition, result):
    """The definition takes just these parameters, by these names, and gives what the function's kind gives."""
    kinds = ["Bytes" if p.type in BYTES else "ℕ" if p.type in NUMBERS else p.type for p in parameters]
    taken, handed = definition.rest(), list(zip((p.name for p in parameters), kinds))
    if taken != handed:
        told = [", ".join(f"{name} : {kind}".strip() for name, kind in pairs) or "nothing" for pairs in (taken, handed)]
        yield function.at, f"{definition.name} of {definition.file} takes {told[0]}, and {function.name} has {told[1]}"
    if definition.result != result:
        yield function.at, f"{definition.name} of {definition.file} gives {definition.result}, and {function.name} wants {result}"


def imported(source, function, definition, words):
    """The definition, the source and the limits are those of the crate of definitions, and nothing else of their name."""
    wanted = {definition.name: definition.file.rpartition("/")[2].removesuffix(".antt")}
    wanted.update({word: HOMES[word] for word in re.findall(r"[^\s()]+", " ".join(words)) if word in HOMES})
    wanted.update({m[1]: SLICES for word in words if (m := re.match(r"\((\S+_slices) ", word))})
    brought = [(item.name, item.path) for _, _, items in uses(source) for item in items]
    for name, module in wanted.items():
        paths = [path for brought_name, path in brought if brought_name == name]
        home = f"Rattle.{CITED}.specs.{module}.{name}"
        if paths != [home]:
            yield function.at, f"`{name}` of {function.name} is {', '.join(paths) or 'brought in nowhere'}, and not {home}"


def stated(function, value, ends):
    """Its clauses are these equations and no other, in this order: the result's, and each buffer's at exit."""
    ends = {label: end for label, end in ends.items() if label != "written" or function.writes()}
    labels = [clause.label for clause in function.of("ensures")]
    if labels != list(ends):
        told = ", ".join(label or "one without a name" for label in labels) or "none"
        yield function.at, f"the clauses of {function.name} are {told}, and not {', '.join(ends)}"
    for clause in function.of("ensures"):
        if clause.label in ends:
            side, part = ends[clause.label]
            wanted = f"{side} ≡ {f'({value}).{part}' if part else value}"
            if clause.starred or " ".join(clause.text.split()) != wanted:
                yield clause.at, f"`{clause.label}` of {function.name} is not {wanted}"
