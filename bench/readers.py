#!/usr/bin/env python3
"""readers.py FOLDER: puts into a folder the readers that check is measured on, each with a shape and a document of it.

`machine` and `laps` are those of the gym. `fields`, of 500 forms, and `branches`, of 498, are against a shape of 500 forms:
`fields` looks up 166 members, `branches` joins the whole shape into its result at each of 125 leaves of a tree of branches."""

import pathlib
import shutil
import sys

GYM = pathlib.Path(__file__).resolve().parent.parent / "examples/gym"
MEMBERS = 499


def branches(leaves):
    """Branches in each other, as evenly as can be: a leaf is two forms, and so is what joins two branches."""
    if leaves == 1:
        return "(keep(it 0))"
    return f"(if(yes){branches(leaves // 2)}{branches(leaves - leaves // 2)})"


def main(folder):
    folder = pathlib.Path(folder)
    for name in ("machine", "laps"):
        shutil.copy(GYM / f"readers/{name}.reader", folder)
        shutil.copy(GYM / "gym.shape", folder / f"{name}.shape")
        shutil.copy(GYM / "samples/bike-2018.json", folder / f"{name}.json")
    names = [f"m{i:03}" for i in range(MEMBERS)]
    shape = "(shape rec" + "".join(f'(member"{name}"(shape int))' for name in names) + ")"
    document = "{" + ",".join(f'"{name}":{i}' for i, name in enumerate(names)) + "}"
    fields = "(pack" + "".join(f'"{name}"(int(field"{name}"(it 0)))' for name in names[::3][:166]) + '"x"(yes))'
    for name, reader in (("fields", fields), ("branches", branches(125))):
        (folder / f"{name}.reader").write_text(reader)
        (folder / f"{name}.shape").write_text(shape)
        (folder / f"{name}.json").write_text(document)


main(sys.argv[1])
