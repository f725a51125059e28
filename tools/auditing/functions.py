"""The functions of a file of Rattle: their parameters, their clauses and where their bodies stand."""
import re
from collections import namedtuple

FN = re.compile(r'\b(pub\s+)?((?:(?:extern|const|unsafe|async|"C")\s+)*)fn\s+(\w+)')
IMPL = re.compile(r"\bimpl(?:\s*<[^>{]*>)?\s+(\w+)[^{;]*\{")
ATTRIBUTES = re.compile(r"(?:#\[[^\n]*\]\s*)*\Z")
LABEL = re.compile(r"\b(?:requires|ensures|ghost)(\*?)\s*(\w*)\s*[:=]?\s*$")

# A clause: its word, its name, its text, the offset of its brace, and whether a star stands at its word.
Clause = namedtuple("Clause", "word label text at starred")
Parameter = namedtuple("Parameter", "name type")


class Function:
    """A function of Rattle. Its head goes from its first word to its body, which lies between two offsets."""

    def __init__(self, source, match, name):
        self.name, self.at = name, match.start()
        # the prover tells what a function ensures at its first attribute
        self.first = ATTRIBUTES.search(source.text, 0, self.at).start()
        self.public, self.exported = bool(match[1]), '"C"' in match[2]
        self.clauses, start = clauses_from(source, match.end())
        self.body = (start, block_end(source.text, start + 1) if source.text[start : start + 1] == "{" else start)
        self.head = " ".join(source.text[self.at : start].split())
        self.parameters = parameters(source.text, match.end())

    def of(self, word):
        return [clause for clause in self.clauses if clause.word == word]

    def writes(self):
        return any(parameter.name == "output" for parameter in self.parameters)


def block_end(text, i):
    """The end of the block whose brace is just before i."""
    depth = 1
    while i < len(text) and depth:
        depth += {"{": 1, "}": -1}.get(text[i], 0)
        i += 1
    return i


def impls(source):
    """The impl blocks, as (start, end, type)."""
    for m in IMPL.finditer(source.text):
        yield m.start(), block_end(source.text, m.end()), m[1]


def clauses_from(source, i):
    """The clauses between a function's name and its body, and where that begins."""
    found, depth = [], 0
    while i < len(source.text):
        if i in source.clauses:
            word, end = source.clauses[i]
            head = LABEL.search(source.text, 0, i)
            found.append(Clause(word, head[2], source.text[i + 1 : end - 1], i, bool(head[1])))
            i = end
            continue
        depth += {"(": 1, "[": 1, ")": -1, "]": -1}.get(source.text[i], 0)
        if depth == 0 and source.text[i] in "{;":
            break
        i += 1
    return found, i


def parameters(text, i):
    """The parameters of the function whose name ends at i."""
    depth, found = 0, [""]
    for c in text[text.find("(", i) :]:
        depth += {"(": 1, "[": 1, ")": -1, "]": -1}.get(c, 0)
        if depth == 0:
            break
        if c == "," and depth == 1:
            found.append("")
        else:
            found[-1] += c
    pairs = (part.lstrip("(").partition(":") for part in found)
    return [Parameter(name.split()[-1], " ".join(kind.split())) for name, _, kind in pairs if name.strip()]


def functions(source):
    blocks = list(impls(source))
    for m in FN.finditer(source.text):
        name = "::".join([kind for start, end, kind in blocks if start < m.start() < end] + [m[3]])
        yield Function(source, m, name)
