"""Times the program named as the first argument on journals in the folder named as the second.

Prints saves a second, of one entry each; how many a second the disk allows, by the same writes and syncs with nothing
between them; the one by the other; and how long a journal of 100,000 entries takes to be opened. Each is the best of
five runs, in turn.
"""
import os
import subprocess
import sys
import tempfile
import time

RUNS = 5
SAVES = 1000
ENTRIES = 100_000
HEADER = b"RBSTOR02"


def number(n):
    return n.to_bytes(8, "big")


def record(place):
    """A save of one entry of the body 7 behind so many."""
    entry = number(1) + (1).to_bytes(4, "big") + b"\x07"
    payload = number(1) + number(1) + b"\x00" + number(place) + (1).to_bytes(2, "big") + entry
    return len(payload).to_bytes(4, "big") + payload


def journal(entries):
    return HEADER + b"".join(b"\x01" + record(place) for place in range(entries)) + b"\x00"


def timed(task):
    start = time.perf_counter()
    task()
    return time.perf_counter() - start


def asked(words, wanted):
    said = subprocess.run(words, check=True, capture_output=True, text=True).stdout
    if said != f"{wanted}\n":
        raise SystemExit(f"{words} said {said!r}, not {wanted}")


def saved(program, path):
    if os.path.exists(path):
        os.remove(path)
    opened = timed(lambda: asked([program, "save", path, "0"], 0))
    return timed(lambda: asked([program, "save", path, str(SAVES)], SAVES)) - opened


def synced(path):
    """The device calls of as many saves, alone."""
    size = len(HEADER)
    file = os.open(path, os.O_RDWR | os.O_CREAT | os.O_TRUNC)
    os.pwrite(file, HEADER + b"\x00", 0)
    os.fsync(file)
    start = time.perf_counter()
    for place in range(SAVES):
        staged = record(place) + b"\x00"
        os.pwrite(file, staged, size + 1)
        os.fdatasync(file)
        os.pwrite(file, b"\x01", size)
        os.fdatasync(file)
        size += len(staged)
    took = time.perf_counter() - start
    os.close(file)
    return took


def main(program, folder):
    with tempfile.TemporaryDirectory(dir=folder) as room:
        ours, own, long = (os.path.join(room, name) for name in ("ours", "own", "long"))
        runs = [(saved(program, ours), synced(own)) for _ in range(RUNS)]
        with open(ours, "rb") as left, open(own, "rb") as alone:
            if left.read() != alone.read():
                raise SystemExit("the two files differ")
        saves, syncs = (SAVES / min(run) for run in zip(*runs))
        print(f"saves a second: {saves:.0f}, of {syncs:.0f} that the disk allows: {saves / syncs:.2f}")
        with open(long, "wb") as file:
            file.write(journal(ENTRIES))
        read = min(timed(lambda: asked([program, "read", long], ENTRIES)) for _ in range(RUNS))
        print(f"a journal of {ENTRIES} entries is opened in {read:.2f} s")


main(*sys.argv[1:3])
