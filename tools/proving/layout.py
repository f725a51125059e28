"""Breaks lines over 160 columns of Rattle and antt, where the brackets are fewest; how far a line is indented is the formatter's.

An import list becomes several `use` lines of its module. Nothing but white space, the comma behind a tuple's last part and the
semicolon behind a record's last field changes otherwise.
"""
import re
import shutil
import subprocess
from pathlib import Path

WIDTH = 160
TOKEN = re.compile(r'--[^\n]*|"(?:\\.|[^"\\])*"|[(){}⌜⌝⟦⟧,;]|[^\s(){}⌜⌝⟦⟧,;"]+')
OPENS, CLOSES = set("({⌜⟦"), set(")}⌝⟧")
# Operators, the loosest first: a line is broken in front of them.
OPERATORS = ["→", "⊎ ↔", "×", "≡ ≢ ≤ <", "∙", "||", "&&", "++ ∷", "+ -", "* / %"]
LOOSE = {sign: rank for rank, signs in enumerate(OPERATORS) for sign in signs.split()}
# No line is broken behind these, nor in front of those.
HOLDS = set("λ let record use pub ghost abbrev unfoldable unfolding data module search omega rw simp cc at ensures requires using open : ←".split())
HELD = set("= in at where".split())
# Where a line is broken, the loosest first: behind a `let`, a part, a clause's sign, in front of a type, behind binders, at an operator, at an argument.
LET, PART, CLAUSE, TYPE, BINDERS, OPERATOR, ARGUMENT = 0, 1, 2, 3, 4, 10, 30


class Token:
    def __init__(self, text, spaced):
        self.text, self.spaced, self.depth = text, spaced, 0


def tokens_of(line):
    found, last = [], 0
    for m in TOKEN.finditer(line):
        found.append(Token(m[0], m.start() > last))
        last = m.end()
    depth = 0
    for token in found:
        depth -= token.text in CLOSES
        token.depth = depth
        depth += token.text in OPENS
    return found


def joined(tokens):
    return "".join((" " if token.spaced and i else "") + token.text for i, token in enumerate(tokens))


def ends_binders(token):
    return token.text.endswith(".") and token.text != ".."


def breaks(tokens, rattle):
    """Where the line can be broken: in front of which token, at which depth, and how loose that place is."""
    found, binders = {}, False
    for i, token in enumerate(tokens):
        last = tokens[i - 1].text if i else ""
        free = i and token.spaced and not binders
        binders = (binders or token.text == "λ") and not ends_binders(token)
        if not free or token.text in CLOSES | HELD or last in OPENS | HOLDS or last in LOOSE or re.match(r"\.[^.]", token.text):
            continue
        if last == "in":
            rank = LET
        elif last in (",", ";"):
            rank = PART
        elif last == "=":
            rank = CLAUSE
        elif token.text == ":":
            rank = TYPE
        elif ends_binders(tokens[i - 1]):
            rank = BINDERS
        else:
            rank = OPERATOR + LOOSE[token.text] if token.text in LOOSE else ARGUMENT
        if not (rank == CLAUSE and tokens[0].text == "let") and not (rattle and (rank == BINDERS or token.text == "{")):
            found[i] = (token.depth, rank)
    return found


def filled(parts, rank, first, rest, rattle):
    """The parts in lines, as many to a line as it holds."""
    lines, room = [], first
    for part in parts:
        if lines and rank not in (LET, CLAUSE, BINDERS) and len(joined(lines[-1])) + 1 + len(joined(part)) <= room:
            lines[-1] = lines[-1] + part
            continue
        if lines and rank == ARGUMENT and part[0].text in OPENS and len(joined(part)) > rest and len(joined(lines[-1])) <= 40:
            # a long argument begins behind a short function
            more = broken(part, room - len(joined(lines[-1])) - 1, rest, rattle)
            if len(more) > 1:
                lines[-1] = lines[-1] + more[0]
                lines += more[1:]
                room = rest
                continue
        room = rest if lines else first
        lines.append(part)
    return lines


def broken(tokens, first, rest, rattle):
    """The tokens in lines, of which the first has `first` columns and every other `rest`."""
    places = breaks(tokens, rattle) if len(joined(tokens)) > first else None
    if not places:
        return [tokens]
    depth, rank = min(places.values())
    cuts = [i for i, place in places.items() if place == (depth, rank)]
    cuts = cuts[:1] if rank == CLAUSE else cuts
    parts = [tokens[a:b] for a, b in zip([0] + cuts, cuts + [len(tokens)])]
    lines = filled(parts, rank, first, rest, rattle)
    for less in range(8, 64, 8) if rank == ARGUMENT and len(joined(lines[-1])) < 24 else ():
        # a last line of a word or two takes more of the line before it
        other = filled(parts, rank, first - less, rest - less, rattle)
        if len(other) == len(lines) and len(joined(other[-1])) >= 24:
            lines = other
            break
    if len(lines) == 1:
        return lines
    return [line for i, part in enumerate(lines) for line in broken(part, rest if i else first, rest, rattle)]


def use_lines(line):
    """An import list as several `use` lines of about one length; None where the line is none."""
    m = re.match(r"(\s*(?:pub |ghost )?use \S+?\.\{)(.*)(\};?)$", line)
    if not m:
        return None

    def lists(width):
        lines = []
        for name in re.split(r",\s*", m[2].strip()):
            if lines and len(f"{m[1]}{lines[-1]}, {name}{m[3]}") <= width:
                lines[-1] += f", {name}"
            else:
                lines.append(name)
        return [m[1] + names + m[3] for names in lines]

    count, width = len(lists(WIDTH)), WIDTH
    while width > 40 and len(lists(width - 1)) == count:
        width -= 1
    return lists(width)


def comment_lines(line):
    indent, sign, words = re.match(r"(\s*)(--|//)\s?(.*)", line).groups()
    lines = [indent + sign]
    for word in words.split(" "):
        if len(lines[-1]) + 1 + len(word) > WIDTH:
            lines.append(indent + sign)
        lines[-1] += f" {word}"
    return lines


def line_broken(line, rattle):
    """The line in lines that are narrow enough, wherever that can be."""
    if len(line) <= WIDTH:
        return [line]
    if re.match(r"\s*(--|//)", line):
        return comment_lines(line)
    uses = use_lines(line)
    if uses:
        return uses
    tokens = tokens_of(line)
    if any(token.text.startswith("--") for token in tokens) or rattle and not re.match(r"\s*(ensures|requires)", line):
        return [line]
    indent = len(line) - len(line.lstrip(" "))
    lines = [joined(part) for part in broken(tokens, WIDTH - indent, WIDTH - indent - 4, rattle)]
    return [" " * indent + lines[0]] + [" " * (indent + 4) + part for part in lines[1:]]


def formatted(path):
    """The file as the formatter lays it out; None, with what it says, where it does not parse."""
    tool = Path(shutil.which("rt")).resolve().parent / "rattle"
    run = subprocess.run([str(tool), "fmt", str(path)], capture_output=True, text=True)
    return (run.stdout, "") if run.returncode == 0 else (None, run.stdout + run.stderr)


def wrap(path):
    """Breaks the wide lines of a file; how many are left."""
    while True:
        text = path.read_text(encoding="utf-8")
        wide = sum(len(line) > WIDTH for line in text.split("\n"))
        if not wide:
            return 0
        path.write_text("\n".join(part for line in text.split("\n") for part in line_broken(line, path.suffix == ".rt")), encoding="utf-8")
        laid, words = formatted(path)
        path.write_text(text if laid is None else laid, encoding="utf-8")
        if laid is None:
            raise ValueError(f"{path}: {words}")
        if laid == text:
            return wide
