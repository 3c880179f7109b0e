"""What a bouncer does when its nodes' journals fail: cases of tests/edge."""

import os
import random
import re
import time

import journal
from client import Client, until
from harness import check, figures, said
from people import Person, talk_while_journals_fail
from shims import built
from stand_in import attached, running, say_all

FAULT_SECONDS = 12
BURSTS = 32


def no_majority(room):
    """A leader whose followers are down is sent what waits once, and it goes out once they are back."""
    control = os.path.join(room, "failing")
    environment = {"LD_PRELOAD": built(room, "fail_write"), "FAILING": control}
    server, bouncer = running(room, "no-majority", environment=environment, timeout_ms="300", beat_ms="60")
    client = attached(bouncer, bouncer.leader())
    path = bouncer.journal(bouncer.leader())
    before = len(journal.bodies(path))
    leader, followers = bouncer.leader(), bouncer.followers()
    with open(control, "w") as file:
        file.write("\n".join(f"/node-{node}" for node in followers))
    server.say("a line that is saved")
    for node in followers:
        bouncer.wait(f" node {node}: down: ")
    wanted = [f"line {number}" for number in range(20)]
    say_all(client, wanted)
    time.sleep(3)
    grown = len(journal.bodies(path)) - before
    # a node that fails to start takes a new number each time, and that is entered once
    check("the log does not fill", grown <= len(wanted) + 20, grown)
    os.unlink(control)
    until(lambda: sorted(set(server.said())) == sorted(wanted), lambda: f"all lines, of which came {server.said()}")
    check("each line goes out once", server.said() == wanted, server.said())
    check("it ends", bouncer.end() == 0)


def claims_without_a_majority(room):
    """If a leader claims a line while its followers are down, the claim is entered once, and the line goes out once."""
    control = os.path.join(room, "failing")
    environment = {"LD_PRELOAD": built(room, "fail_write"), "FAILING": control}
    more = {"flood_burst": "1", "flood_ms": "1000", "timeout_ms": "300", "beat_ms": "60"}
    server, bouncer = running(room, "claims", environment=environment, **more)
    leader, followers = bouncer.leader(), bouncer.followers()
    client, path = attached(bouncer, leader), bouncer.journal(leader)
    wanted = [f"line {number}" for number in range(3)]
    say_all(client, wanted)
    until(lambda: server.said() == wanted[:1], lambda: f"the first line, of which came {server.said()}")
    before = journal.count(path, journal.CLAIM)
    with open(control, "w") as file:
        file.write("\n".join(f"/node-{node}" for node in followers))
    server.say("a line that is saved")
    for node in followers:
        bouncer.wait(f" node {node}: down: ")
    time.sleep(4)
    grown = journal.count(path, journal.CLAIM) - before
    check("a claim is entered once", grown <= 1, grown)
    os.unlink(control)
    until(lambda: len(server.said()) >= len(wanted), lambda: f"all lines, of which came {server.said()}")
    check("each line goes out once", server.said() == wanted, server.said())
    figures("claims without a majority", f"{grown} claims in 4 s")
    check("it ends", bouncer.end() == 0)


def faults_at_random(room):
    """Nodes' journals fail at random while people at all nodes talk: what reaches the server arrives once and in order, nobody is cut off
    without a reason, and each line that was said on a connection that stayed arrives."""
    control = os.path.join(room, "failing")
    environment = {"LD_PRELOAD": built(room, "fail_write"), "FAILING": control}
    server, bouncer = running(room, "faults", environment=environment, timeout_ms="300", beat_ms="60")
    people = [Person(bouncer, node) for node in bouncer.nodes]
    count = talk_while_journals_fail(people, control, FAULT_SECONDS, seed=1)
    for person in people:
        kept = person.kept()
        lacking = lambda: [text for text in kept if text not in server.said()]
        until(lambda: not lacking(), lambda: f"of node {person.node}'s lines these: {lacking()}\n{bouncer.log()}", 20)
    check("each line of a connection that stayed arrives", True)
    came = server.said()
    check("none arrives twice", len(came) == len(set(came)), came)
    for person in people:
        said = [text for text, _ in person.said]
        places = [said.index(text) for text in came if text in said]
        check(f"in the order of who said them, at node {person.node}", places == sorted(places), places)
    ends = [end for person in people for end in person.ends]
    check("a client that is cut off gets the reason", all(end.startswith("ERROR :") for end in ends), ends)
    said = sum(len(person.said) for person in people)
    figures("faults at random", f"{count} faults, {len(ends)} hung up, {said} lines said, {len(came)} came")
    check("it ends", bouncer.end() == 0)


def bursts_while_the_leader_fails(room):
    """Lines that come in bursts are saved together. If the leader's journal fails in such a save, none of them is in the log twice, those
    that are in it are in order, and the record of the run replays."""
    control, record = os.path.join(room, "failing"), os.path.join(room, "bursts.record")
    environment = {"LD_PRELOAD": built(room, "fail_write"), "FAILING": control}
    server, bouncer = running(room, "bursts", environment=environment, timeout_ms="300", beat_ms="60", record=f'"{record}"')
    dice, count = random.Random(1), 0
    for burst in range(BURSTS):
        fails = burst % 4 == 3
        for place in range(dice.randint(1, 20)):
            if fails and place == 1:
                with open(control, "w") as file:
                    file.write(f"/node-{bouncer.leader()}")
            server.say(f"line {count}")
            count += 1
        time.sleep(dice.uniform(0.02, 0.08))
        if fails:
            if os.path.exists(control):
                os.unlink(control)
            time.sleep(0.5)
            until(server.is_joined, lambda: f"a session:\n{bouncer.log()}")
    leader = bouncer.leader()
    time.sleep(1)
    check("it ends", bouncer.end() == 0)
    log = b"\n".join(journal.bodies(bouncer.journal(leader)))
    came = [int(number) for number in re.findall(rb"PRIVMSG #x :line (\d+)", log)]
    check("no line of a burst is in the log twice", len(came) == len(set(came)), came)
    check("in order", came == sorted(came), came)
    stops = bouncer.log().count(": down: ")
    check("the leader's journal failed", stops >= 3, bouncer.log())
    check("its record replays", said("replay", record) == (0, ["same"], []))
    figures("bursts while the leader fails", f"{count} lines said, {len(came)} came, {stops} stops")


def a_node_that_goes_down(room):
    """Clients of a node that goes down get the reason and are closed at once, new ones too, and a client that then attaches elsewhere is
    played what came since."""
    control = os.path.join(room, "failing")
    server, bouncer = running(room, "down", environment={"LD_PRELOAD": built(room, "fail_write"), "FAILING": control})
    node = bouncer.followers()[0]
    client = attached(bouncer, node)
    with open(control, "w") as file:
        file.write(f"/node-{node}")
    server.say("a line that is saved")
    bouncer.wait(f" node {node}: down: ")
    gone = time.monotonic()
    client.wait_closed()
    check("it is closed at once", time.monotonic() - gone < 0.5, time.monotonic() - gone)
    check("it gets the reason", client.lines[-1:] == [f"ERROR :node {node} is down"], client.lines[-3:])
    until(lambda: bouncer.is_refusing(node), f"node {node} refuses connections", 1)
    time.sleep(0.1)
    came = [f"came {number}" for number in range(20)]
    for text in came:
        server.say(text)
        time.sleep(0.02)
    other = attached(bouncer, [n for n in bouncer.followers() if n != node][0])
    other.wait_texts("#x", lambda texts: any(came[-1] in text for text in texts), "what came meanwhile")
    heard = [text for text in other.texts("#x") if "came" in text]
    check("all that came meanwhile is played", len(heard) == len(came), heard)
    os.unlink(control)
    bouncer.wait(f" node {node}: up, run 2")
    check("it ends", bouncer.end() == 0)
