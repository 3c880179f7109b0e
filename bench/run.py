"""Times `run` of the program named as argument: three nodes over journals in a new folder (of TMPDIR, if that is set), and
a server on loopback that is played here, which says lines to one channel. bench/beside.py times ZNC and bip the same way.

Prints the disk's own rate of syncs; the memory and the processor of a run at rest; for 1, 10 and 50 clients spread over the
nodes how long 20,000 lines take that are said at once, with the lines and the deliveries a second, and the delay of 2,000
lines at 200 a second from the server to the clients of the node that leads, and to those of the others, as median and 99th
percentile; how long a client waits for a playback of 500 lines; the memory at the end; and the lines a second of the flood to
1 client where each sync takes 2 ms longer.

All is read and written by this one process, so its own time is in the rates. It is not in the delays, nor in the wait for a
playback: these end when the bytes reach a client's socket, by the kernel's clock.
"""
import os
import re
import selectors
import shutil
import socket
import statistics
import struct
import subprocess
import sys
import tempfile
import time

sys.dont_write_bytecode = True
sys.path.append(os.path.join(os.path.dirname(os.path.realpath(__file__)), os.pardir, "tests"))
from shims import built

FLOOD = 20_000
PACED = 2_000
RATE = 200
PLAYED = 500
PLAYBACKS = 5
LIMIT = 200
MARK = b" PRIVMSG #x :"
SYNC_MS = 2
SO_TIMESTAMPNS = 35  # Linux's option by which a read also tells when its bytes came, in seconds and nanoseconds
QUIET = 2.5  # seconds without a change of a journal after which all that was said is in it


def free_port():
    with socket.socket() as chosen:
        chosen.bind(("127.0.0.1", 0))
        return chosen.getsockname()[1]


class Closed(Exception):
    """The program closed a connection."""


class Late(Exception):
    """What was waited for did not come."""


class End:
    """One end of a connection: what is to be sent, and the lines that came, each with its moment in nanoseconds since 1970."""

    def __init__(self, room, stream):
        self.room, self.stream, self.rest = room, stream, b""
        self.lines, self.times, self.count = [], [], 0
        self.keeps = True
        stream.setblocking(False)
        stream.setsockopt(socket.IPPROTO_TCP, socket.TCP_NODELAY, 1)
        stream.setsockopt(socket.SOL_SOCKET, SO_TIMESTAMPNS, 1)
        room.register(stream, selectors.EVENT_READ, self)

    def send(self, data):
        self.stream.setblocking(True)
        self.stream.sendall(data)
        self.stream.setblocking(False)

    def read(self):
        try:
            data, notes, _, _ = self.stream.recvmsg(1 << 20, socket.CMSG_SPACE(16))
        except ConnectionResetError:
            data = b""
        if not data:
            raise Closed
        if self.keeps:
            self.keep(moment(notes), self.rest + data)
            return
        # a part of a mark at the end is counted with what comes next
        whole = self.rest + data
        self.count += whole.count(MARK)
        self.rest = whole[1 - len(MARK) :]

    def keep(self, at, whole):
        """Keeps the lines that came at a moment."""
        *lines, self.rest = whole.split(b"\r\n")
        said = [line for line in lines if MARK in line]
        self.count += len(said)
        self.lines += lines
        self.times += [(at, line) for line in said]

    def close(self):
        self.room.unregister(self.stream)
        self.stream.close()


class Run:
    """The program, the server, and clients."""

    nodes = 3
    password = "word"
    environment = {}

    def __init__(self, program):
        self.room = selectors.DefaultSelector()
        self.folder = tempfile.mkdtemp()
        self.ports = [free_port() for _ in range(self.nodes)]
        self.server = socket.create_server(("127.0.0.1", 0))
        self.start(program)
        self.welcome()

    def welcome(self):
        """The server takes the session that the program opens."""
        self.server.settimeout(LIMIT)
        stream, _ = self.server.accept()
        self.upstream = End(self.room, stream)
        self.until(lambda: any(line.startswith(b"USER ") for line in self.upstream.lines))
        self.upstream.send(b":server 001 me :hi\r\n:server 422 me :no words\r\n")
        self.until(self.is_open)

    def start(self, program):
        config = os.path.join(self.folder, "hukbarg.toml")
        with open(config, "w") as out:
            out.write(
                'nick = "me"\npassword = "word"\n'
                f'upstream = "127.0.0.1:{self.server.getsockname()[1]}"\n'
                f"listen = {[f'127.0.0.1:{port}' for port in self.ports]}\n".replace("'", '"')
                + f'store = "{self.folder}/store"\nchan_buffer_size = {PLAYED}\nmulti_clients = true\nflood_ms = 0\n'
            )
        self.log = open(os.path.join(self.folder, "log"), "w+")
        self.program = subprocess.Popen(
            [program, "run", config],
            stdin=subprocess.PIPE,
            stderr=self.log,
            cwd=self.folder,
            env=os.environ | self.environment,
        )

    def is_open(self):
        """Whether the session stands for the program, too."""
        return "upstream opened" in self.told()

    def serve(self, wait):
        """Reads whatever came, or comes within so many seconds."""
        for key, _ in self.room.select(wait):
            key.data.read()

    def until(self, done):
        """Reads until something is so."""
        limit = time.perf_counter() + LIMIT
        while not done():
            if time.perf_counter() > limit:
                raise Late
            self.serve(1)

    def rest(self):
        """Waits until the journals grow no more."""
        before = None
        while before != (before := self.sizes()):
            end = time.perf_counter() + QUIET
            while time.perf_counter() < end:
                self.serve(max(0, end - time.perf_counter()))

    def sizes(self):
        return [os.path.getsize(f"{self.folder}/store/node-{node + 1}") for node in range(self.nodes)]

    def told(self):
        """The program's log, but for what it says of clients."""
        self.log.seek(0)
        return "".join(line for line in self.log if ": client " not in line)

    def leader(self):
        """The node that leads, 0 for node 1, as the log tells."""
        self.log.seek(0)
        leads = re.findall(r"node (\d).*lead", self.log.read())
        return int(leads[-1]) - 1 if leads else 0

    def client(self, node):
        stream = socket.create_connection(("127.0.0.1", self.ports[node]))
        client = End(self.room, stream)
        client.send(self.hello())
        self.until(lambda: any(b" 001 " in line for line in client.lines))
        return client

    def hello(self):
        """What a client sends first."""
        return f"PASS {self.password}\r\nNICK me\r\nUSER me 0 * me\r\n".encode()

    def join(self, client):
        client.send(b"JOIN #x\r\n")
        self.until(lambda: any(line.startswith(b"JOIN #x") for line in self.upstream.lines))
        self.upstream.send(b":me!me@here JOIN #x\r\n")
        time.sleep(0.2)

    def spread(self, count):
        """So many clients, the first at the node that leads. Each was told that it is in the channel, and nothing is left
        to do for those before."""
        self.rest()
        first = self.leader()
        clients = [self.client((first + place) % 3) for place in range(count)]
        self.until(lambda: all(any(b" JOIN " in line for line in client.lines) for client in clients))
        return clients

    def memory(self):
        with open(f"/proc/{self.program.pid}/status") as status:
            return int(re.search(r"VmRSS:\s+(\d+)", status.read())[1]) / 1024

    def processor(self):
        with open(f"/proc/{self.program.pid}/stat") as stat:
            fields = stat.read().rsplit(")", 1)[1].split()
        return (int(fields[11]) + int(fields[12])) / os.sysconf("SC_CLK_TCK")

    def stop(self):
        """The program ends; its folder stays."""
        self.program.stdin.close()
        status = self.program.wait(LIMIT)
        if status != 0:
            sys.exit(f"the program ended with {status}")

    def end(self):
        self.stop()
        shutil.rmtree(self.folder)


def moment(notes):
    """When the bytes came that were read with these notes, in nanoseconds since 1970; now, where the kernel does not tell."""
    for _, kind, value in notes:
        if kind == SO_TIMESTAMPNS:
            seconds, nanoseconds = struct.unpack("qq", value)
            return seconds * 10**9 + nanoseconds
    return time.time_ns()


def said(number):
    return b":bob!b@there PRIVMSG #x :line %d\r\n" % number


def at_rest(run):
    """The share of a processor that it takes while nothing happens, in percent."""
    before, began = run.processor(), time.perf_counter()
    time.sleep(10)
    return 100 * (run.processor() - before) / (time.perf_counter() - began)


def flood(run, count):
    """Lines a second where all are said at once, and the microseconds of processor that each delivery takes."""
    clients = run.spread(count)
    for client in clients:
        client.keeps, client.count, client.rest = False, 0, b""
    data = b"".join(said(number) for number in range(FLOOD))
    used = run.processor()
    began, sent, stream = time.perf_counter(), 0, run.upstream.stream
    while sent < len(data):
        try:
            sent += stream.send(data[sent : sent + 65536])
            wait = 0
        except BlockingIOError:
            wait = 0.001
        run.serve(wait)
    run.until(lambda: all(client.count >= FLOOD for client in clients))
    taken = time.perf_counter() - began
    used = run.processor() - used
    for client in clients:
        client.close()
    return FLOOD / taken, 1e6 * used / (count * FLOOD)


def delays(run, count):
    """How late lines come, 200 a second, in milliseconds: median and 99th percentile at the node that leads, and at others."""
    clients = run.spread(count)
    sent = {}
    began = time.perf_counter()
    for number in range(PACED):
        due = began + number / RATE
        while time.perf_counter() < due:
            run.serve(max(0, due - time.perf_counter()))
        sent[b"line %d" % number] = time.time_ns()
        run.upstream.send(said(number))
    run.until(lambda: all(client.count >= PACED for client in clients))
    leading = late(clients[::3], sent)
    others = late([client for place, client in enumerate(clients) if place % 3 != 0], sent)
    for client in clients:
        client.close()
    return leading, others


def late(clients, sent):
    """How late lines came to these clients, in milliseconds: median and 99th percentile, if there are clients."""
    delays = sorted(at - sent[line.split(b" :", 1)[1]] for client in clients for at, line in client.times)
    if not delays:
        return None
    return statistics.median(delays) / 1e6, delays[len(delays) * 99 // 100] / 1e6


def playback(run):
    """How long a client waits for what it missed, from PASS to the last line, in milliseconds: the median of PLAYBACKS clients."""
    return statistics.median(played(run) for _ in range(PLAYBACKS))


def played(run):
    """How long one client waits for what it missed."""
    run.rest()
    run.upstream.send(b"".join(said(number) for number in range(PLAYED)))
    run.rest()
    stream = socket.create_connection(("127.0.0.1", run.ports[run.leader()]))
    client = End(run.room, stream)
    began = time.time_ns()
    client.send(run.hello())
    run.until(lambda: client.count >= PLAYED)
    client.close()
    return (client.times[-1][0] - began) / 1e6


def syncs(folder):
    """How many small writes the disk of a folder takes in a second, each synced."""
    path = os.path.join(folder, "syncs")
    with open(path, "wb", buffering=0) as file:
        began = time.perf_counter()
        for number in range(1000):
            file.write(b"x" * 64)
            os.fdatasync(file.fileno())
        taken = time.perf_counter() - began
    os.unlink(path)
    print(f"the disk: {1000 / taken:,.0f} syncs a second")


def begin(run):
    """A client joins the channel, and leaves."""
    first = run.client(run.leader())
    run.join(first)
    first.close()


def on_a_slow_disk(program):
    """Lines a second of the flood to 1 client where each sync takes longer."""

    class Slow(Run):
        environment = {"LD_PRELOAD": built(tempfile.mkdtemp(), "slow_sync"), "SYNC_MS": str(SYNC_MS)}

    run = Slow(program)
    begin(run)
    lines, _ = flood(run, 1)
    run.end()
    return lines


def shown(delay):
    return "no client" if delay is None else f"median {delay[0]:.2f} ms, 99th percentile {delay[1]:.2f} ms"


def measure(run):
    syncs(run.folder)
    share = at_rest(run)
    print(f"at rest: {run.memory():.1f} MB, {share:.2f} % of a processor")
    begin(run)
    for count in (1, 3, 10, 50):
        leading, others = delays(run, count)
        print(f"{RATE} lines a second to {count} clients: {shown(leading)} at the node that leads, {shown(others)} at the others")
    for count in (1, 10, 50):
        lines, used = flood(run, count)
        print(f"{FLOOD:,} lines to {count} clients: {lines:,.0f} lines a second, {count * lines:,.0f} deliveries at {used:.1f} µs of processor")
    print(f"playback of {PLAYED} lines, from PASS to the last: {playback(run):.2f} ms")
    print(f"in the end: {run.memory():.1f} MB")


def main():
    run = Run(sys.argv[1])
    try:
        measure(run)
    except (Closed, Late) as fault:
        sys.exit(f"{type(fault).__doc__}\n{run.told()}")
    run.end()
    print(f"where a sync takes {SYNC_MS} ms longer: {on_a_slow_disk(sys.argv[1]):,.0f} lines a second to 1 client")


if __name__ == "__main__":
    main()
