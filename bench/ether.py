"""Times the program named as argument: two threads, on two processors, each of which posts a message and takes one in turn,
over an ether, and over one queue under a lock.

Prints for each way the least and the middle time of nine runs, which take turns, with the posts and takes a second, and how
many times the rate over the lock the ether has, by both.
"""
import os
import statistics
import subprocess
import sys
import time

RUNS = 9
ROUNDS = 5_000_000
THREADS = 2


def trade(program, way):
    """The seconds of one run."""
    start = time.perf_counter()
    ended = subprocess.run([program, way, str(ROUNDS)])
    taken = time.perf_counter() - start
    if ended.returncode != 0:
        sys.exit(f"{way} ended with {ended.returncode}")
    return taken


def main():
    program = sys.argv[1]
    if len(os.sched_getaffinity(0)) < THREADS:
        sys.exit("this wants two processors")
    runs = {"ether": [], "queue": []}
    for _ in range(RUNS):
        for way, taken in runs.items():
            taken.append(trade(program, way))
    calls = 2 * THREADS * ROUNDS
    for name, pick in (("least", min), ("middle", statistics.median)):
        rates = {way: calls / pick(taken) for way, taken in runs.items()}
        for way, rate in rates.items():
            print(f"{name} of {RUNS}, {way}: {calls:,} posts and takes in {calls / rate:.3f} s, {rate:,.0f} a second")
        print(f"the ether makes {rates['ether'] / rates['queue']:.2f} times as many as the queue under a lock")



main()
