"""Times `fold` of the programs named as arguments on mixes of commands, each at a length and at twice that.

Prints for each program the least time of five runs, commands a second, and the greatest peak memory; how many times as
long twice the commands take; and how many times as long each further program takes as the first. The mixes of clients with
names, which older programs do not read, are timed by the first program alone, and beside the same clients without names.
"""
import os
import subprocess
import sys
import tempfile
import time

RUNS = 5
T = 1700000000
NAME = b"#x"


def number(n):
    return n.to_bytes(8, "big")


def field(content):
    return len(content).to_bytes(2, "big") + content


def asked(client, count, at, action):
    return b"\x01\x01" + number(1) + number(client) + number(count) + number(at) + action


def upstream(at, line):
    return b"\x00\x02" + number(at) + field(line)


def few(count):
    """Two clients attach; then six lines from upstream to each three Says and one Play."""
    last = {1: 1, 2: 1}
    yield asked(1, 1, T, b"\x01")
    yield asked(2, 1, T, b"\x01")
    for i in range(count - 2):
        kind, client = i % 10, 1 + i % 2
        if kind < 6:
            yield upstream(T + i, b":a!b@c PRIVMSG #x :line %d of the day" % i)
            continue
        last[client] += 1
        said = b"\x03\x00" + field(NAME) + field(b"reply %d" % i)
        yield asked(client, last[client], T + i, b"\x08" + field(NAME) if kind == 9 else said)


def channel(n):
    return NAME if n == 0 else b"#c%d" % n


def many(count):
    """50 clients attach, 99 channels more are joined and half of all are detached; then in ten commands six lines from
    upstream to the channels in turn, two Says, a Play, and a Detach or a Reattach."""
    last = {}

    def ask(client, at, action):
        last[client] = last.get(client, 0) + 1
        return asked(client, last[client], at, action)

    for client in range(1, 51):
        yield ask(client, T, b"\x01")
    for n in range(1, 100):
        yield upstream(T, b":me!u@h JOIN " + channel(n))
    for n in range(1, 100, 2):
        yield ask(1, T, b"\x06" + field(channel(n)))
    for i in range(count - 199):
        kind, client, name = i % 10, 1 + i % 50, channel(i * 7 % 100)
        if kind < 6:
            yield upstream(T + i, b":a!b@c PRIVMSG %s :line %d of the day" % (name, i))
        elif kind < 8:
            yield ask(client, T + i, b"\x03\x00" + field(name) + field(b"reply %d" % i))
        elif kind == 8:
            yield ask(client, T + i, b"\x08" + field(name))
        else:
            yield ask(client, T + i, (b"\x06" if i // 10 % 2 else b"\x07") + field(name))


def attach(client, is_named):
    return b"\x0f" + field(b"device-%d" % client) if is_named else b"\x01"


def coming(count, is_named):
    """Eight clients attach; then in ten commands six lines from upstream, two Says, and one of them leaves and attaches again."""
    last = {}

    def ask(client, at, action):
        last[client] = last.get(client, 0) + 1
        return asked(client, last[client], at, action)

    for client in range(1, 9):
        yield ask(client, T, attach(client, is_named))
    for i in range(count - 8):
        kind, client = i % 10, 1 + i // 10 % 8
        if kind < 6:
            yield upstream(T + i, b":a!b@c PRIVMSG #x :line %d of the day" % i)
        elif kind < 8:
            yield ask(1 + i % 8, T + i, b"\x03\x00" + field(NAME) + field(b"reply %d" % i))
        else:
            yield ask(client, T + i, b"\x02" if kind == 8 else attach(client, is_named))


def nameless(count):
    return coming(count, False)


def named(count):
    return coming(count, True)


def fold(program, path):
    """The seconds and the peak bytes of one run."""
    with open(path, "rb") as source:
        start = time.perf_counter()
        child = subprocess.Popen([program, "fold"], stdin=source, stdout=subprocess.DEVNULL)
        _, status, usage = os.wait4(child.pid, 0)
        taken = time.perf_counter() - start
    if status != 0:
        sys.exit(f"fold ended with {status}")
    return taken, usage.ru_maxrss * 1024


def timed(programs, bodies, count, path):
    """The least seconds of each program, which take turns."""
    with open(path, "wb") as file:
        for body in bodies(count):
            file.write(body.hex().encode() + b"\n")
    size = os.path.getsize(path)
    runs = {program: [] for program in programs}
    for _ in range(RUNS):
        for program in programs:
            runs[program].append(fold(program, path))
    least = []
    for program, taken in runs.items():
        seconds, peak = min(run[0] for run in taken), max(run[1] for run in taken)
        rate = f"{count / seconds:,.0f} a second"
        memory = f"input {size:,} bytes, peak {peak:,} bytes, {peak / size:.2f} of the input"
        print(f"{count} commands: {seconds:.3f} s, {rate}, {memory} ({program})")
        least.append(seconds)
    return least


def compared(title, programs, bodies, count, path):
    """Times a mix at this length and at twice that. The least seconds of the first program at the latter."""
    print(f"{title}:")
    first = timed(programs, bodies, count, path)
    second = timed(programs, bodies, 2 * count, path)
    print(f"twice the commands take {second[0] / first[0]:.2f} times as long")
    for program, seconds in list(zip(programs, second))[1:]:
        print(f"{program} takes {seconds / second[0]:.2f} times as long as the first")
    return second[0]


def main():
    programs = sys.argv[1:]
    with tempfile.TemporaryDirectory() as work:
        path = os.path.join(work, "bodies")
        compared("two clients, one channel", programs, few, 200_000, path)
        compared("50 clients, 100 channels", programs, many, 20_000, path)
        without = compared("eight clients who come and go", programs, nameless, 200_000, path)
        seconds = compared("the same clients with names", programs[:1], named, 200_000, path)
        print(f"with names they take {seconds / without:.2f} times as long as without")


main()
