"""What a file of antt declares."""
import re

ANTT_TOKEN = re.compile(r"«[^»]*»|[(){};,@]|[^\s(){};,@«»]+")
MARKS = {"unfoldable", "abbrev", "opaque", "pub", "axiom"}
KINDS = {"data", "record", "ruleset"}
NO_NAME = set("( ) } ; , @ = → λ | [ ] ↦ ← use mod let in open module unfolding unfold elim do where".split())


class Tokens:
    """The tokens of an antt file, each with whether it stands first on its line."""

    def __init__(self, text):
        self.all, last = [], 0
        for m in ANTT_TOKEN.finditer(text):
            first = not self.all or "\n" in text[last : m.start()]
            self.all.append((m[0], m.start(), first))
            last = m.end()

    def word(self, k):
        return self.all[k][0] if 0 <= k < len(self.all) else ""

    def begins(self, k):
        """A declaration can begin here: a line, a block or a record's label does."""
        before = self.word(k - 1)
        return self.all[k][2] or before in ("where", "mutual", ";") or (before == "{" and self.word(k - 2) == "record")


def named_at(tokens, k):
    """The names that a declaration which begins at token k gives: [] where none does."""
    while tokens.word(k) in MARKS:
        k += 1
    if tokens.word(k) in KINDS:
        return [tokens.all[k + 1][:2]] if tokens.word(k + 1) not in ("", "{") else []
    names, level = [], False
    while k < len(tokens.all):
        word, at, _ = tokens.all[k]
        if word in NO_NAME - {"}"} or word in MARKS or (level and word == ":"):
            return []
        if word == ":":
            return names
        if word in "{}" or level:
            level = word != "}"
        else:
            names.append((word, at))
        k += 1
        # a signature's colon may stand on the next line, and nothing else of its head
        if k < len(tokens.all) and tokens.all[k][2] and tokens.word(k) not in (":", "{"):
            return []
    return []


def opened_at(tokens, k):
    """The names that `open .. using (a, b as c)` or `deriving .. as c` gives."""
    names, using, depth = [], False, 0
    for j in range(k + 1, len(tokens.all)):
        word, at, first = tokens.all[j]
        if first and depth == 0:
            break
        depth += {"(": 1, ")": -1}.get(word, 0)
        if word == "using":
            using = True
        elif tokens.word(j - 1) == "as":
            # behind `as` stands the name that it gets, in place of its own
            names[-1:] = [(word, at)]
        elif using and word not in ("(", ")", ",", "as"):
            names.append((word, at))
    return names


def declared(source):
    """Each name that an antt file declares, with its offset."""
    tokens, names = Tokens(source.text), []
    for k in range(len(tokens.all)):
        if tokens.begins(k):
            names += named_at(tokens, k)
        if tokens.word(k) in ("open", "deriving"):
            names += opened_at(tokens, k)
    return [(name.strip("«»"), at) for name, at in names]


# ---- signatures and records


def signature(source, name):
    """The type that a file gives a name outside of every section, on one line: "" where it gives none."""
    marked = rf"^(?:(?:unfoldable|abbrev|opaque|pub)[ \t]+)*{re.escape(name)}\s*:\s(.*(?:\n[ \t].*)*)"
    found = re.search(marked, source.text, re.M)
    return " ".join(found[1].split()) if found else ""


def arguments(kind):
    """The parts of a function type between its arrows, the result last: `(a b : T)` is ("a", "b"), "T"."""
    parts, depth = [""], 0
    for c in kind:
        depth += {"(": 1, "{": 1, ")": -1, "}": -1}.get(c, 0)
        if c == "→" and depth == 0:
            parts.append("")
        else:
            parts[-1] += c
    bound = [(re.fullmatch(r"\(([^:()]+) : (.*)\)", part.strip()), part.strip()) for part in parts]
    return [(tuple(m[1].split()), m[2]) if m else ((), part) for m, part in bound]


def fields(source):
    """The fields of each record that a file declares, as {record: names}, with those names that are a field's alone."""
    tokens, found, at_top = Tokens(source.text), {}, set()
    record, column, inner = "", 0, None
    for k, (_, at, first) in enumerate(tokens.all):
        here = at - (source.text.rfind("\n", 0, at) + 1)
        if not (first and tokens.begins(k)):
            continue
        if record and here <= column:
            record, inner = "", None
        names = [name.strip("«»") for name, _ in named_at(tokens, k)]
        if record:
            inner = here if inner is None and names else inner
            found[record] += names if here == inner else []
        else:
            at_top.update(names)
        word = next(tokens.word(j) for j in range(k, len(tokens.all)) if tokens.word(j) not in MARKS)
        if not record and word == "record" and names:
            record, column = names[0], here
            found[record] = []
    return found, {name for names in found.values() for name in names} - at_top
