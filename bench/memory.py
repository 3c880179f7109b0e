"""Measures what a log costs in memory: `run` of the program named as argument over journals in a new folder (of TMPDIR, if
that is set), and a server that is played here, which says lines of 100 bytes to one channel.

For three, five and seven nodes, and 100,000 lines, and for three nodes 300,000 more: the resident memory a line, over that of
the program at rest; whether it grows while clients come and go; and how long a start over these journals takes until it
listens, and what it takes then.
"""
import os
import socket
import sys
import time

sys.dont_write_bytecode = True
from run import LIMIT, Run, begin

LINES = 100_000
MORE = 200_000
BATCH = 500
VISITS = 50


class Kept(Run):
    """A program over so many nodes, whose journals stay when it ends."""

    def __init__(self, program, nodes):
        self.nodes = nodes
        super().__init__(program)

    def again(self, program):
        """Starts over the journals: the seconds until it listens."""
        self.upstream.close()
        began = time.perf_counter()
        self.start(program)
        while not self.listens():
            if time.perf_counter() - began > LIMIT:
                sys.exit("it does not listen")
            time.sleep(0.002)
        return time.perf_counter() - began

    def listens(self):
        try:
            socket.create_connection(("127.0.0.1", self.ports[0])).close()
        except ConnectionRefusedError:
            return False
        return True


def said(number):
    """A line of 100 bytes, its end not counted."""
    head = b":nick!user@host.example PRIVMSG #x :line %d " % number
    return head + b"x" * (100 - len(head)) + b"\r\n"


def tell(run, client, first, count):
    """The server says so many lines; the client has seen them all then."""
    seen = client.count
    for number in range(first, first + count, BATCH):
        run.upstream.send(b"".join(said(one) for one in range(number, number + BATCH)))
        run.serve(0)
    run.until(lambda: client.count >= seen + count)
    run.rest()


def visits(run):
    """Clients come and go."""
    for number in range(VISITS):
        run.client(number % run.nodes).close()
    run.rest()


def measure(program, nodes, more):
    run = Kept(program, nodes)
    begin(run)
    client = run.client(run.leader())
    client.keeps, client.count, client.rest = False, 0, b""
    run.rest()
    rest = run.memory()
    lines = 0
    for count in [LINES, MORE] if more else [LINES]:
        tell(run, client, lines, count)
        lines += count
        used = run.memory()
        visits(run)
        bytes_a_line = (used - rest) * 1024 * 1024 / lines
        grown = run.memory() - used
        print(f"{nodes} nodes, {lines:,} lines: {bytes_a_line:,.0f} bytes a line, {used:.0f} MB; {grown:+.1f} MB after {VISITS} clients")
    client.close()
    run.stop()
    begun = run.again(program)
    run.welcome()
    run.rest()
    print(f"{nodes} nodes, a start over {lines:,} lines: listens after {begun:.2f} s, {run.memory():.0f} MB")
    run.end()


if __name__ == "__main__":
    for nodes in (3, 5, 7):
        measure(sys.argv[1], nodes, nodes == 3)
