"""Puts a file of antt in order: no place of the source as a comment, no idle import, the formatter's layout, no wide line."""
import re

from auditing import house
from proving import layout

PLACE = re.compile(r"(?m)^ *-- src/\S+:\d+:\d+\n")
USE = re.compile(r"^(?:unfoldable )?use (\S+?)(?:\.\{([^}]*)\}| as (\S+))$")


def without_places(text):
    return PLACE.sub("", text)


def without_idle(text):
    """Without the imported names that the text does not use."""
    gone, lines = {name for name, _ in house.idle(text)}, []
    for line in text.split("\n"):
        use = USE.match(line)
        names = [name for name in re.split(r",\s*", use[2] or use[3]) if name.split(" as ")[-1] not in gone] if use and (use[2] or use[3]) else None
        if names and use[2]:
            line = f"{line[: line.index('.{')]}.{{{', '.join(names)}}}"
        if names != []:
            lines.append(line)
    return "\n".join(lines)


def tidy(path):
    """Puts a file in order; how many wide lines are left."""
    was = path.read_text(encoding="utf-8")
    path.write_text(without_idle(without_places(was)), encoding="utf-8")
    laid, words = layout.formatted(path)
    path.write_text(was if laid is None else laid, encoding="utf-8")
    if laid is None:
        raise ValueError(words)
    return layout.wrap(path)
