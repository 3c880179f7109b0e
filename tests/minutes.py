#!/usr/bin/env python3
"""How many processor minutes the gate takes for each crate: for its proof, the proof of its tests, and its wrong code.

`tests/minutes.py PROCESS FILE` looks every two seconds at the checks that run below a process, until that ends, and keeps the table in
the file, the longest first. `check` prints it. What a check does in its last two seconds may be missed."""

import collections
import os
import sys
import time

TICK = os.sysconf("SC_CLK_TCK")
APART = 2  # seconds
KINDS = ["proof", "tests", "wrong code"]
EDITED = "/rt-edit-"  # where `rt` checks a crate with wrong code in it


def read(path):
    with open(path, "rb") as file:
        return file.read().decode(errors="replace")


def stat_of(process):
    """The parent of a process, when it began, and the processor seconds that it has used."""
    fields = read(f"/proc/{process}/stat").rpartition(")")[2].split()
    return int(fields[1]), fields[19], (int(fields[11]) + int(fields[12])) / TICK


def checks_below(top):
    """Each check of a crate below a process: its name in the table, its process and beginning, and the seconds that it took."""
    parents, found = {}, []
    for process in filter(str.isdigit, os.listdir("/proc")):
        try:
            parents[int(process)], began, seconds = stat_of(process)
            words = read(f"/proc/{process}/cmdline").split("\0")
            if words[0].endswith("/rattle") and "--crate-name" in words:
                kind = 2 if EDITED in os.readlink(f"/proc/{process}/cwd") else 1 if "--test" in words else 0
                found.append(((words[words.index("--crate-name") + 1], kind), int(process), began, seconds))
        except (OSError, ValueError, IndexError):
            continue  # it ended meanwhile
    for name, process, began, seconds in found:
        above = process
        while above not in (top, 0, None):
            above = parents.get(above)
        if above == top:
            yield name, (process, began), seconds


def write(path, taken):
    """The table, one crate per line, and the sums."""
    minutes = collections.defaultdict(lambda: [0.0] * len(KINDS))
    for (crate, kind), seconds in taken.values():
        minutes[crate][kind] += seconds / 60
    rows = sorted(minutes.items(), key=lambda row: -sum(row[1]))
    rows.append(("all", [sum(row[kind] for _, row in rows) for kind in range(len(KINDS))]))
    with open(f"{path}.new", "w") as file:
        file.write(f"{'processor minutes':20}{'in all':>8}" + "".join(f"{kind:>12}" for kind in KINDS) + "\n")
        for crate, row in rows:
            file.write(f"{crate:20}{sum(row):8.1f}" + "".join(f"{part:12.1f}" for part in row) + "\n")
    os.replace(f"{path}.new", path)


def main():
    top, path, taken = int(sys.argv[1]), sys.argv[2], {}
    while os.path.exists(f"/proc/{top}"):
        for name, process, seconds in checks_below(top):
            taken[process] = name, seconds
        write(path, taken)
        time.sleep(APART)


main()
