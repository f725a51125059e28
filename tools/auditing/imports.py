"""What a file brings in by `use`, and the paths that it mentions."""
import re

from .sources import blanked

USE_ANTT = re.compile(r"^[ \t]*(?:(?:unfoldable|pub)[ \t]+)*use\b", re.M)
USE_RATTLE = re.compile(r"\bghost\s+use\b")
USE_TOKEN = re.compile(r"[{},]|[^\s{},;]+")
QUALIFIED = re.compile(r"[^\s(){};,@\"⟦⟧⌜⌝]+\.[^\s(){};,@\"⟦⟧⌜⌝]+")


class Item:
    """One thing that a `use` brings: its whole path, the name it gets here, and where it stands."""

    def __init__(self, path, at, braced):
        self.path = plain_path(path)
        self.name, self.at, self.braced, self.renamed = self.path.split(".")[-1], at, braced, False


def plain_path(path):
    return re.sub(r"[«»]", "", path).removeprefix("package.")


def use_end(source, start, column):
    """The end of a `use`: its semicolon in Rattle; in antt the next line, outside its braces, that is not further in."""
    text = source.text
    if source.is_rattle:
        end = text.find(";", start)
        return len(text) if end < 0 else end
    depth = 0
    for m in re.compile(r"[{}]|\n(?=([ \t]*)\S)").finditer(text, start):
        depth += {"{": 1, "}": -1}.get(m[0], 0)
        if m[0] == "\n" and depth <= 0 and len(m[1]) <= column:
            return m.start()
    return len(text)


def items_of(text, start, end):
    """The items of `M.{a, b as c, N.d}`."""
    tokens, items, prefixes, k = list(USE_TOKEN.finditer(text, start, end)), [], [""], 0
    while k < len(tokens):
        word = tokens[k][0]
        following = tokens[k + 1][0] if k + 1 < len(tokens) else ""
        if word == "}":
            prefixes = prefixes[:-1] or [""]
        elif word == "as" and items:
            items[-1].name, items[-1].renamed = following.strip("«»"), True
            k += 1
        elif following == "{" and word not in "{,":
            prefixes.append(prefixes[-1] + word.rstrip(".") + ".")
        elif word not in "{,":
            items.append(Item(prefixes[-1] + word, tokens[k].start(), len(prefixes) > 1))
        k += 1
    return items


def uses(source):
    """Each `use` of antt, or `ghost use` of Rattle, as (start, end, items)."""
    for m in (USE_RATTLE if source.is_rattle else USE_ANTT).finditer(source.text):
        column = len(m[0]) - len(m[0].lstrip())
        end = use_end(source, m.end(), column)
        yield m.start() + column, end, items_of(source.text, m.end(), end)


def mentions(source):
    """Each path that the file writes, whole, with its offset: in a `use`, and behind a module's name."""
    text, modules = source.text, {}
    for start, end, items in uses(source):
        text = text[:start] + blanked(text[start:end]) + text[end:]
        for item in items:
            head, _, rest = item.path.partition(".")
            if head in modules and rest:
                item.path = f"{modules[head]}.{rest}"
            if not item.braced:
                modules[item.name] = item.path
            yield item.path, item.at
    for m in QUALIFIED.finditer(text):
        head, _, rest = plain_path(m[0]).partition(".")
        yield f"{modules.get(head, head)}.{rest}", m.start()
