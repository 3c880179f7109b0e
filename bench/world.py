"""Times `world` of the programs named as arguments over events of three nodes, at a length and at twice that.

Node 1 leads. In turn it is asked for five requests, sends what it has to both others, hears of them, and applies the five;
node 2 applies as many. So a quarter of the events append an entry to the logs of all nodes.

Prints for each program the least time of five runs, events a second, and the greatest peak memory; how many times as long
twice the events take; and how many times as long each further program takes as the first.
"""
import os
import subprocess
import sys
import tempfile
import time

RUNS = 5
T = 1700000000


def asked(count, action):
    numbers = b"".join(n.to_bytes(8, "big") for n in (1, 1, count, T + count))
    return (b"\x01\x01" + numbers + action).hex()


def said(count):
    if count == 1:
        return asked(count, b"\x01")
    text = b"reply %d" % count
    return asked(count, b"\x03\x00" + b"\x00\x02#x" + len(text).to_bytes(2, "big") + text)


def events(count):
    """So many events: an election, and rounds of twenty."""
    yield from ("timeout 1", "deliver 1 1", "deliver 2 1")
    made, last, round_number = 3, 0, 0
    while made < count:
        round_number += 1
        batch = []
        for _ in range(5):
            last += 1
            batch.append("ask 1 " + said(last))
        batch.append("beat 1")
        batch += [f"deliver 1 {2 * round_number + 1}", f"deliver 1 {2 * round_number + 2}"]
        batch += [f"deliver 2 {round_number + 1}", f"deliver 3 {round_number}"]
        batch += ["apply 1"] * 5 + ["apply 2"] * 5
        yield from batch[: count - made]
        made += len(batch)


def world(program, path):
    """The seconds and the peak bytes of one run."""
    with open(path, "rb") as source:
        start = time.perf_counter()
        child = subprocess.Popen([program, "world", "3"], stdin=source, stdout=subprocess.DEVNULL)
        _, status, usage = os.wait4(child.pid, 0)
        taken = time.perf_counter() - start
    if status != 0:
        sys.exit(f"world ended with {status}")
    return taken, usage.ru_maxrss * 1024


def timed(programs, count, path):
    """The least seconds of each program, which take turns."""
    with open(path, "w") as file:
        for event in events(count):
            file.write(event + "\n")
    size = os.path.getsize(path)
    runs = {program: [] for program in programs}
    for _ in range(RUNS):
        for program in programs:
            runs[program].append(world(program, path))
    least = []
    for program, taken in runs.items():
        seconds, peak = min(run[0] for run in taken), max(run[1] for run in taken)
        rate = f"{count / seconds:,.0f} a second"
        memory = f"input {size:,} bytes, peak {peak:,} bytes, {peak / size:.2f} of the input"
        print(f"{count} events: {seconds:.3f} s, {rate}, {memory} ({program})")
        least.append(seconds)
    return least


def main():
    programs = sys.argv[1:]
    with tempfile.TemporaryDirectory() as folder:
        path = os.path.join(folder, "events")
        once, twice = timed(programs, 200_000, path), timed(programs, 400_000, path)
    for program, one, two, first in zip(programs, once, twice, [once[0]] * len(programs)):
        print(f"twice the events take {two / one:.2f} times as long; {one / first:.2f} times the first ({program})")


main()
