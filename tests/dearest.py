#!/usr/bin/env python3
"""Which functions of a crate take long to prove: the seconds of each, the longest first.

`tests/dearest.py CRATE [COUNT]` proves the crate from nothing, with one job, and prints so many functions (20). `--test` after the crate's
name takes its unit tests, too. The prover keeps each part that it checked in a file of its own, so the time between two files is what the
second part took. It needs the toolchain, and the libraries below the crate, which are proved first if they are not built."""

import collections
import os
import re
import shutil
import subprocess
import sys

TOP = os.path.dirname(os.path.dirname(os.path.realpath(__file__)))
KEPT = "out/incremental"
FILE = re.compile(r"Rattle-(\w+)-(?:proofs|specs)\.(.*?)(?:\.decls)?\.oantt")
# what comes before and after the path of a function in the name of a file
BEFORE = re.compile(r"^(contracts|declared)\.")
AFTER = re.compile(r"(\.(Answers|Code|Contract|Goals|Invariants|Key|Kinds|Lts|Mir|Proof|Statement|Symbol|TheLinks?|TheVariants|Tie)\b.*)?$")


def parts(folder):
    """When each part was checked, and its function, in the order of their times."""
    found = [(os.lstat(os.path.join(at, name)).st_mtime_ns, name) for at, _, names in os.walk(folder) for name in names]
    for when, name in sorted(found):
        part = FILE.fullmatch(name)
        yield when, f"{part[1]}::{AFTER.sub('', BEFORE.sub('', part[2]))}" if part else "other"


def main():
    words = sys.argv[1:]
    flags = [word for word in words if word.startswith("--")]
    name, *count = [word for word in words if not word.startswith("--")]
    crate = os.path.join(TOP, "crates", name)
    shutil.rmtree(os.path.join(crate, KEPT), ignore_errors=True)
    status = subprocess.run(["rt", "check", "--jobs", "1", *flags], cwd=crate, stdout=subprocess.DEVNULL).returncode
    seconds, last = collections.Counter(), None
    for when, function in parts(os.path.join(crate, KEPT)):
        seconds[function] += 0 if last is None else (when - last) / 1e9
        last = when
    for function, took in seconds.most_common(int(count[0]) if count else 20):
        print(f"{took:8.1f}  {function}")
    return status


if __name__ == "__main__":
    sys.exit(main())
