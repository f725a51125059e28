"""Copies of the repository's crates, with their libraries as they are built, in which rt checks what is not in the tree."""
import os
import shutil
import subprocess

PARTS = ("src", "specs", "proofs")


def needs(root):
    """What each crate depends on, by crates.txt."""
    lines = (line.partition("#")[0].partition(":") for line in (root / "crates.txt").read_text(encoding="utf-8").split("\n"))
    return {head.split()[0]: words.split() for head, colon, words in lines if colon}


def rt(folder, *words):
    """The status of rt in a folder, and what it says."""
    how = {"stdin": subprocess.DEVNULL, "stdout": subprocess.PIPE, "stderr": subprocess.STDOUT, "text": True, "errors": "replace"}
    done = subprocess.run(("rt", *words), cwd=folder, **how)
    return done.returncode, done.stdout


def build_libraries(root, crates):
    """Builds the libraries that these crates stand on, where they are missing or old; gives what is said of those that are not built."""
    below, listing = set(), needs(root)
    for crate in crates:
        below.update(name for name in listing.get(crate, ()) if name in listing)
    for name in listing:
        if name in below:
            status, said = rt(root / "crates" / name, "lib")
            if status:
                yield f"{said[-3000:]}\nthe library {name} was not built"


def link(source, target):
    """Shares a file between the trees where that can be: rt puts new files in the place of such ones, and writes into none."""
    try:
        os.link(source, target)
    except OSError:
        shutil.copy2(source, target)


def copy(root, folder):
    """Fills an empty folder with a copy of the crates."""
    (folder / ".git").mkdir()
    for name in ("crates.txt", "HANDLES"):
        if (root / name).is_file():
            shutil.copy2(root / name, folder)
    for crate in sorted((root / "crates").iterdir()):
        for part in PARTS:
            if (crate / part).is_dir():
                shutil.copytree(crate / part, folder / "crates" / crate.name / part)
        if (crate / "out/rlib").is_dir():
            shutil.copytree(crate / "out/rlib", folder / "crates" / crate.name / "out/rlib", copy_function=link)
