"""What is to be proved of a function, as rt prints it: its goals, each with the names that can be used there; and answers filled in."""
import re
from fnmatch import fnmatchcase

# A goal that is open where a file has a hole, and one that a check says must be answered.
HOLE = re.compile(r"\S+\.antt:\d+:\d+: goal \?\S* in `([^`]*)`$")
NOTE = re.compile(r"note: `([^`]*)` of (\S+) must prove: (.*)$")
# An answer that is a hole: its name and what it takes.
OPEN = re.compile(r"^(\S+)((?: \S+)*) = \?$", re.M)
ANSWER = re.compile(r"^(\S+)((?: \S+)*) =(.*(?:\n[ \t]+\S.*)*)", re.M)


def goals(said):
    """The goals that rt prints, as {name: lines}."""
    found, current = {}, None
    for line in said.split("\n"):
        hole, note = HOLE.match(line), NOTE.match(line)
        if hole or note:
            current = found.setdefault((hole or note)[1], [])
            current += [f"⊢ {note[3]}"] if note else []
        elif current is not None and line.startswith("  "):
            current.append(line)
        else:
            current = None
    return found


def answers(template):
    """The answers of a template, as (a pattern of goals' names, what it takes, the answer)."""
    return [(m[1], m[2], m[3]) for m in ANSWER.finditer(template)]


def filled(text, template):
    """A file of answers with each hole filled by the first answer of the template whose pattern has its goal's name."""

    def fill(m):
        found = next((answer for answer in answers(template) if fnmatchcase(m[1], answer[0])), None)
        return f"{m[1]}{found[1]} ={found[2]}" if found else m[0]

    return OPEN.sub(fill, text)
