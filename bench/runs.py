#!/usr/bin/env python3
"""runs.py ROUNDS TURN FOLDER DOCUMENT...: measures Python functions over orjson on the documents as runs.cc measures the others.
Prints their row of the table, relative to the times in FOLDER/times; leaves what they make in FOLDER/made, and their name
behind the others in FOLDER/names. Where orjson is not there it says so and prints nothing."""

import pathlib
import sys
import time

try:
    import orjson
except ImportError:
    sys.exit("bench: no orjson here; it is left out")


def project(data):
    records = orjson.loads(data)
    return orjson.dumps([{"serial": r["serial_number"], "bay": 0 if r.get("bay") is None else r["bay"]} for r in records])


def branch(data):
    records = orjson.loads(data)
    numbers = (int, float)
    return orjson.dumps([(r["bay"] if type(r.get("bay")) in numbers else -1) if r["in_service"] else None for r in records])


def copy(data):
    records = orjson.loads(data)
    return orjson.dumps({"units": len(records), "all": records})


READERS = {"A": project, "B": branch, "C": copy}


def fastest(function, data, rounds, turn):
    """The fastest round in nanoseconds a call, each of some `turn` nanoseconds or of one call."""
    start = time.perf_counter_ns()
    for _ in range(20):
        function(data)
    times = max(1, turn * 20 // (time.perf_counter_ns() - start))
    least = float("inf")
    for _ in range(rounds):
        start = time.perf_counter_ns()
        for _ in range(times):
            function(data)
        least = min(least, (time.perf_counter_ns() - start) / times)
    return least


def main(rounds, turn, folder, documents):
    folder = pathlib.Path(folder)
    ours = [float(line) for line in (folder / "times").read_text().split()]
    names = (folder / "names").read_text()
    name = f"Python over orjson, {orjson.__version__}"
    cells = []
    for path in map(pathlib.Path, documents):
        data = path.read_bytes()
        for reader, function in READERS.items():
            (folder / f"made/{path.stem}-{reader}.{names.count(chr(10))}").write_bytes(function(data))
            took = fastest(function, data, rounds, turn)
            cells.append(f" {took:.0f} ns, {took / ours[len(cells)]:.2f} |")
    print(f"| {name} |" + "".join(cells))
    (folder / "names").write_text(names + name + "\n")


main(int(sys.argv[1]), int(sys.argv[2]), sys.argv[3], sys.argv[4:])
