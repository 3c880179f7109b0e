"""Measures the run of a bouncer, the program named by BOUNCER, where it gets difficult. The server is played here, on
loopback; the journals stand in a new folder (of TMPDIR, if that is set).

With three, five and seven nodes: how long 90 lines that are pasted at the leader and at another node take to the server, and
how many requests and claims they are in the log; how long 50 clients that attach at once, spread over the nodes, wait until
they are shown their channel, at rest and while the server says 200 lines a second. With three nodes: how many leaders and
sessions a follower's syncs of 1.4 s cost, one every six seconds; and of the lines that clients say at all nodes while the
nodes' journals fail at random, how many come to the server, and how many came twice. Of the lines that a server says, 200 a
second, while a client QUITs and comes back 30 times, at the nodes in turn, how many are seen by nobody: without a name and with
one, also where each sync takes 4 ms longer, and at ZNC, where it is installed. How long it takes until a client of a node whose
disk hangs is told so.
"""

import os
import shutil
import subprocess
import sys
import tempfile
import time

sys.path.insert(0, os.path.join(os.path.dirname(os.path.dirname(os.path.realpath(__file__))), "tests"))
sys.dont_write_bytecode = True
import journal
from beside import ZNC
from client import Client, Late, until
from harness import Ports
from people import Person, talk_while_journals_fail
from shims import built
from stand_in import Flood, StandIn, flooded, running

PASTED = 90
CROWD = 50
RATE = 200
SLOW_SECONDS = 40
FAULT_SECONDS = 45
QUITS = 30
STAY = 0.3  # seconds for which a client stays
SYNC_MS = 4
KEPT = 500
HUNG_SECONDS = 30


def paste(server, bouncer, node):
    """Milliseconds until lines pasted at a node are all at the server, and the requests and claims that they are."""
    client = bouncer.attach(node)
    client.wait("JOIN #x")
    path = bouncer.journal(bouncer.leader())
    before = [journal.count(path, kind) for kind in (journal.ASKED, journal.CLAIM)]
    had = len(server.said())
    texts = [f"node {node} line {number}" for number in range(PASTED)]
    begun = time.monotonic()
    client.say("\r\n".join(f"PRIVMSG #x :{text}" for text in texts))
    until(lambda: len(server.said()) >= had + PASTED, "all lines")
    took = 1000 * (server.last - begun)
    grown = [journal.count(path, kind) - old for kind, old in zip((journal.ASKED, journal.CLAIM), before)]
    order = "in order" if server.said()[had:] == texts else "NOT in order"
    client.close()
    return f"{took:.0f} ms, {order}, {grown[0]} requests and {grown[1]} claims"


def crowd(bouncer):
    """Milliseconds until clients that attach at once are shown their channel: the median, and the last."""
    begun = time.monotonic()
    waiting = [Client(bouncer.ports[number % len(bouncer.ports)], "me", "pw") for number in range(CROWD)]
    clients, took = list(waiting), []
    while waiting:
        for client in list(waiting):
            if client.has("JOIN #x"):
                took.append(1000 * (time.monotonic() - begun))
                waiting.remove(client)
        if time.monotonic() - begun > 60:
            return f"{len(waiting)} of {CROWD} are not shown their channel in 60 s"
    for client in clients:
        client.close()
    return f"{took[len(took) // 2]:.0f} ms, the last {took[-1]:.0f} ms"


def bursts(room):
    for nodes in (3, 5, 7):
        server, bouncer = running(room, f"burst-{nodes}", nodes=nodes)
        print(f"{nodes} nodes, {PASTED} lines pasted at the leader: {paste(server, bouncer, bouncer.leader())}", flush=True)
        print(f"{nodes} nodes, the same at another node: {paste(server, bouncer, bouncer.followers()[0])}", flush=True)
        print(f"{nodes} nodes, {CROWD} clients attach at once: {crowd(bouncer)}", flush=True)
        flood = Flood(server, RATE)
        time.sleep(0.5)
        print(f"{nodes} nodes, the same while the server says 200 lines a second: {crowd(bouncer)}", flush=True)
        flood.stop()
        print(f"{nodes} nodes: {bouncer.log().count(' leads in term ')} leader", flush=True)
        bouncer.end()


def slow_syncs(room):
    control = os.path.join(room, "slow")
    server, bouncer = running(room, "slow-syncs", environment={"LD_PRELOAD": built(room, "slow_sync"), "SLOW": control})
    end = time.monotonic() + SLOW_SECONDS
    count = 0
    while time.monotonic() < end:
        with open(control, "w") as file:
            file.write(f"/node-{bouncer.followers()[0]} 1400")
        server.say("a line that is saved")
        count += 1
        time.sleep(6)
    leaders, sessions = bouncer.log().count(" leads in term "), len(server.sessions)
    print(f"{count} syncs of a follower of 1.4 s in {SLOW_SECONDS} s: {leaders} leader, {sessions} session", flush=True)
    bouncer.end()


def faults(room):
    control = os.path.join(room, "failing")
    server, bouncer = running(room, "faults", environment={"LD_PRELOAD": built(room, "fail_write"), "FAILING": control})
    people = [Person(bouncer, node) for node in bouncer.nodes]
    count = talk_while_journals_fail(people, control, FAULT_SECONDS, seed=1)
    time.sleep(10)
    said = [text for person in people for text, _ in person.said]
    kept = [text for person in people for text in person.kept()]
    came = server.said()
    lost, silent = sum(text not in came for text in said), sum(text not in came for text in kept)
    twice = len(came) - len(set(came))
    print(
        f"journals that fail {count} times in {FAULT_SECONDS} s: {len(said)} lines said, {lost} did not come, of which {silent} by a "
        f"client that was not hung up; {twice} came twice; {len(server.sessions)} sessions",
        flush=True,
    )
    bouncer.end()


class Znc:
    """ZNC, which has one address, over the same server."""

    def __init__(self, folder, server):
        self.ports = Ports(1).numbers * 3
        os.makedirs(f"{folder}/configs")
        with open(f"{folder}/configs/znc.conf", "w") as config:
            config.write(ZNC.format(port=self.ports[0], upstream=server.port, kept=KEPT))
        who = {}
        if os.geteuid() == 0:  # as root it waits for half a minute
            subprocess.run(["chown", "-R", "nobody", folder], check=True)
            who = {"user": "nobody"}
        quiet = {"stdin": subprocess.DEVNULL, "stdout": subprocess.DEVNULL, "stderr": subprocess.DEVNULL}
        self.program = subprocess.Popen(["znc", "--foreground", "--datadir", folder], cwd=folder, **quiet, **who)
        until(server.is_joined, "ZNC's session")

    def attach(self, node, password):
        return Client(self.ports[0], "me", password)

    def end(self):
        self.program.kill()
        self.program.wait()


def quit_and_back(server, bouncer, password):
    """Lines that are said while a client QUITs and comes back, and how many of them nobody saw."""
    seen, flood = [], None
    for turn in range(QUITS):
        client = bouncer.attach(1 + turn % 3, password=password)
        client.wait("#x")  # the end of a JOIN
        flood = flood or Flood(server, RATE)
        time.sleep(STAY)
        client.say("QUIT")
        client.wait_closed()
        seen += flooded(client)
    count = len(flood.stop())
    client = bouncer.attach(1, password=password)
    client.wait("#x")
    server.say("the mark")
    client.wait("the mark")
    seen += flooded(client)
    return f"of {count} lines {count - len(set(seen))} are seen by nobody, {len(seen) - len(set(seen))} twice"


def quits(room):
    slow = {"LD_PRELOAD": built(room, "slow_sync"), "SYNC_MS": str(SYNC_MS)}
    for name, password in (("without a name", "pw"), ("with a name", "x@phone:pw")):
        for more, environment in (("", {}), (f", each sync {SYNC_MS} ms longer", slow)):
            folder = f"{name}{more}".replace(" ", "-").replace(",", "")
            server, bouncer = running(room, folder, environment, chan_buffer_size=str(KEPT))
            print(f"{QUITS} QUITs {name}{more}: {quit_and_back(server, bouncer, password)}", flush=True)
            bouncer.end()
            server.close()
    if shutil.which("znc") is None:
        print("ZNC is not installed")
        return
    server = StandIn()
    znc = Znc(os.path.join(room, "znc"), server)
    try:
        print(f"ZNC, {QUITS} QUITs: {quit_and_back(server, znc, 'me/n:word')}", flush=True)
    finally:
        znc.end()
        server.close()


def hangs(room):
    for role in ("the leader", "a follower"):
        control = os.path.join(room, "hanging")
        environment = {"LD_PRELOAD": built(room, "hang_sync"), "HANGING": control}
        server, bouncer = running(room, role.replace(" ", "-"), environment)
        node = bouncer.leader() if role == "the leader" else bouncer.followers()[0]
        client = bouncer.attach(node)
        client.wait("JOIN #x")
        with open(control, "w") as file:
            file.write(f"/node-{node}")
        server.say("a line that is saved")
        begun = time.monotonic()
        try:
            until(lambda: client.read() is not None and not client.is_open, "", HUNG_SECONDS)
            told = f"{client.lines[-1]!r} after {time.monotonic() - begun:.1f} s"
        except Late:
            told = f"told nothing in {HUNG_SECONDS} s"
        print(f"the disk of {role} hangs: a client there is {told}", flush=True)
        os.unlink(control)
        bouncer.end()
        server.close()


def main():
    room = tempfile.mkdtemp(prefix="hukbarg-")
    os.chmod(room, 0o755)
    try:
        for case in (bursts, slow_syncs, faults, quits, hangs):
            if len(sys.argv) == 1 or case.__name__ in sys.argv[1:]:
                case(room)
    except Late as late:
        print(f"late: {late}")
    finally:
        shutil.rmtree(room, ignore_errors=True)


main()
