"""Clients that give a name when they attach: each name has its own place in every buffer."""

import os
import subprocess

import harness
from client import bare, until
from harness import check
from ircd import bouncer_in, hears, peer, plain

ABSENCES = 10
FRAMES = ("Buffer Playback...", "Playback Complete.")


class Device:
    """A client with a name, which comes and goes; what it was shown in the channel, whenever that was."""

    def __init__(self, bouncer, name):
        self.bouncer, self.name = bouncer, name
        self.client = None
        self.node = 0
        self.shown = []

    def come(self, node, other):
        """It attaches to a node, and hears what is said from now on."""
        self.node = node
        self.client = self.bouncer.attach(node, password=f"any@{self.name}:pw")
        self.client.wait("JOIN #x")
        hears(self.client, other)

    def leave(self, other):
        """It leaves, and nothing more is shown to it: what is said later at its node came after its leave."""
        hears(self.client, other)
        self.client.say("QUIT")
        self.client.wait_closed()
        self.shown += lines(self.client)
        witness = self.bouncer.attach(self.node)
        hears(other, witness)
        witness.close()


def lines(client):
    """The texts that were shown to a client, without times, frames and marks."""
    return [text for text in map(bare, plain(client.texts("#x"))) if text not in FRAMES]


def failing_writes(room):
    """The environment in which the journal that a file names fails, and the path of that file."""
    shim = os.path.join(room, "fail_write_of_names.so")
    source = os.path.join(harness.TOP, "tests", "fail_write.c")
    subprocess.run(["gcc", "-shared", "-fPIC", "-o", shim, source, "-ldl"], check=True)
    control = os.path.join(room, "failing_of_names")
    return {"LD_PRELOAD": shim, "FAILING": control}, control


def named(room):
    """Two clients with names leave ten times and come back at other nodes, while one without a name stays, and the node that leads goes
    down meanwhile: each is shown each line once, in order."""
    environment, control = failing_writes(room)
    bouncer = bouncer_in(room, "named", chan_buffer_size="500").start(**environment).ready()
    old = bouncer.leader()
    stays = [node for node in bouncer.nodes if node != old]
    gus = peer(room, "gus")
    still = bouncer.attach(stays[0])
    still.wait("JOIN #x")
    hears(still, gus)
    phone, laptop = Device(bouncer, "phone"), Device(bouncer, "laptop")
    said = []

    def say(what):
        said.append(f"line {len(said)} {what}")
        gus.say(f"PRIVMSG #x :{said[-1]}")

    for turn in range(ABSENCES):
        nodes = stays if turn == ABSENCES // 2 else list(bouncer.nodes)
        phone.come(nodes[turn % len(nodes)], gus)
        say("with the phone")
        if turn % 2 == 0:
            phone.leave(gus)
        say("on the way")
        laptop.come(nodes[(turn + 1) % len(nodes)], gus)
        say("with the laptop")
        if turn % 2 == 1:
            phone.leave(gus)
        laptop.leave(gus)
        say("with nobody")
        if turn == ABSENCES // 2 - 1:
            # what is on its way to a leader that goes down is lost to all
            hears(still, gus)
            fails(bouncer, old, control, gus)
            hears(still, gus)
            say("with another leader")
        if turn == ABSENCES // 2:
            os.unlink(control)
            bouncer.wait(f"node {old}: up, run 2")
    for device in (phone, laptop):
        device.come(stays[1], gus)
        device.leave(gus)
        check(f"the {device.name} is shown each line once, in order", device.shown == said, (device.shown, said))
    hears(still, gus)
    check("so is a client without a name that stays", lines(still) == said, (lines(still), said))
    plain_one = bouncer.attach(stays[1])
    plain_one.wait("JOIN #x")
    hears(plain_one, gus)
    check("a client without a name is played everything kept", lines(plain_one) == said, (lines(plain_one), said))
    log = bouncer.log()
    check("the log says who attached", " attached as phone" in log and " attached as laptop" in log and "pw" not in log, log[-2000:])
    check("it ends", bouncer.end() == 0)
    gus.close()


def fails(bouncer, node, control, other):
    """The node's journal fails when something is said, so that it goes down, and another one leads."""
    with open(control, "w") as names:
        names.write(f"/node-{node}")
    other.say("PRIVMSG #x :mark of the end")
    until(lambda: bouncer.leader() != node, "another node leads")


def wrong_names(room):
    """An invalid name is a wrong password, and a password that contains the marks is a password."""
    bouncer = bouncer_in(room, "marks", password='"a@b:c"').start().ready()
    for password, is_taken in (("a@b:c", True), ("x@phone:a@b:c", True), ("x@b:c", False), ("@:a@b:c", False), ("phone:a@b:c", False)):
        client = harness.Client(bouncer.ports[0], "me", password)
        client.wait("Welcome to the bouncer" if is_taken else "464 * :Password incorrect")
        check(f"PASS {password}", True)
        client.close()
    check("it ends", bouncer.end() == 0)
