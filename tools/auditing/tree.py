"""The rules on the tree: every crate is listed, the definitions stand on nothing, and C calls stand in one file."""
import re

from .contracts import CITED
from .sources import sources

EXPORTS = "crates/runvestol_c/src/lib.rt"
# How crates.txt has a crate that is no library for other crates.
KINDS = {"staticlib"}


def listed(root):
    """crates.txt and crates/ name the same crates: nothing proves a folder that is not listed. The definitions depend on nothing."""
    listing, names = root / "crates.txt", set()
    if not listing.is_file():
        yield "crates.txt", "there is none"
        return
    for number, line in enumerate(listing.read_text(encoding="utf-8", errors="replace").split("\n"), 1):
        head, colon, needed = (part.strip() for part in line.split("#")[0].partition(":"))
        if not colon:
            continue
        name, *kind = head.split() or [""]
        if set(kind) - KINDS:
            yield f"crates.txt:{number}", f"{name} is listed with {' '.join(kind)}, and a crate is a library, a program or a staticlib"
        names.add(name)
        if not (root / "crates" / name).is_dir():
            yield f"crates.txt:{number}", f"{name} is listed, and there is no folder crates/{name}"
        if name == CITED and needed:
            yield f"crates.txt:{number}", f"{name} depends on {needed}, and is to be read by itself"
    for folder in sorted((root / "crates").glob("*")):
        if folder.is_dir() and folder.name not in names:
            yield f"crates/{folder.name}", "crates.txt does not list this crate, so nothing proves it"


def exported(root):
    """What C can call stands in one file, so that no other crate has a call with a contract of its own."""
    for source in sources(root, "crates/**/*.rt"):
        if source.name != EXPORTS:
            for m in re.finditer(r'\bno_mangle\b|\bexport_name\b|\bextern\s*"C"(?!\s*\{)', source.text):
                yield source.place(m.start()), f"`{' '.join(m[0].split())}` outside of {EXPORTS}"
