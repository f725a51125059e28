"""Two rules on how the tree reads: no line is wide, and no import of a proof or a definition is idle.

Each rule takes the repository's folder and yields its findings, as (place, what is wrong).
"""
import re
from pathlib import Path

WIDTH = 160
# What is held to the width: Rattle and antt, and the tools. Tests have the prover's own lines and others' answers as data.
CRATES = ("src", "specs", "proofs")
SUFFIXES = {"", ".py"}

# A comment to the line's end, a comment in braces, a quoted text.
ANTT_PASSED = re.compile(r'(?<![^\s(){}.;,@"«»])--[^\n]*|\{-.*?-\}|"(?:\\.|[^"\\])*"', re.S)
# A name ends at a space or at one of these. What stands right behind a dot is a field, or a name of the module in front of it.
ANTT_NAME = re.compile(r'(?<![^\s(){};,@"«»])[^\s(){}.;,@"«»]+')
# `use PATH.{NAMES}`, `use PATH as NAME`; what is passed on with `pub` is not asked after.
USE = re.compile(r"(?m)^[ \t]*(?:unfoldable )?(pub )?use (\S+?)(?:\.\{([^}]*)\}| as (\S+))?[ \t]*$")
# the same in Rattle, for its clauses; there a comment begins with two slashes
GHOST_USE = re.compile(r"(?m)^[ \t]*ghost (pub )?use (\S+?)(?:\.\{([^}]*)\}| as (\S+))?;[ \t]*$")
RATTLE_PASSED = re.compile(r"//[^\n]*")


def width(root):
    """No line of the crates and the tools has over 160 columns."""
    root = Path(root)
    for path in sorted({*crate_files(root, ".rt"), *crate_files(root, ".antt"), *script_files(root)}):
        for number, line in enumerate(text_of(path).split("\n"), 1):
            if len(line) > WIDTH:
                yield f"{path.relative_to(root).as_posix()}:{number}", f"the line has {len(line)} columns, and {WIDTH} are the most"


def imports(root):
    """Every name that an .antt file imports, or an .rt file for its clauses, is used in it."""
    root = Path(root)
    for path in crate_files(root, ".antt") + crate_files(root, ".rt"):
        text = text_of(path)
        for name, at in idle(text) if path.suffix == ".antt" else idle_ghosts(text):
            yield f"{path.relative_to(root).as_posix()}:{text.count(chr(10), 0, at) + 1}", f"`{name}` is imported and not used"


def crate_files(root, suffix):
    return sorted(path for part in CRATES for path in root.glob(f"crates/*/{part}/**/*{suffix}") if path.is_file())


def script_files(root):
    return sorted(path for path in root.glob("tools/**/*") if path.suffix in SUFFIXES and path.is_file())


def text_of(path):
    return path.read_text(encoding="utf-8", errors="replace")


def passed_over(text, passed):
    """The text with its comments and quoted texts blanked, each place where it was."""
    return passed.sub(lambda m: re.sub(r"[^\n]", " ", m[0]), text)


def imported(text, use_line):
    """Each name that the file's `use` lines bring in, with its place."""
    for use in use_line.finditer(text):
        if use[1]:
            continue
        if use[4]:
            yield use[4], use.start(4)
        for item in re.finditer(r"[^,\s](?:[^,]*[^,\s])?", use[3] or ""):
            yield item[0].split(" as ")[-1].strip(), use.start(3) + item.start()


def idle(text, use_line=USE, passed=ANTT_PASSED):
    """The imported names that nothing behind the `use` lines names, each with its place.

    An operator is used by all its parts, as `◌+◌` by `+`, or by its whole name."""
    text = passed_over(text, passed)
    said = set(ANTT_NAME.findall(use_line.sub("", text)))
    for name, at in imported(text, use_line):
        parts = {part for part in name.split("◌") if part} or {name}
        if name not in said and not ("◌" in name and parts <= said):
            yield name, at


def idle_ghosts(text):
    """The same of what an .rt file brings in for its clauses."""
    return idle(text, GHOST_USE, RATTLE_PASSED)
