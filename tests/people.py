"""People who talk while nodes fail."""

import os
import random
import time

from client import Client

LINES = 3  # lines a second that each person says


class Person:
    """A person at one node, who says numbered lines, and attaches again when cut off."""

    def __init__(self, bouncer, node):
        self.bouncer, self.node = bouncer, node
        self.client = None
        self.count = 0
        self.said = []  # each line, and the client on which it was said
        self.ends = []  # the last line of each connection that was cut off

    def go_on(self):
        """Says a line, if there is a connection on which to say it."""
        if self.client is None:
            self.come()
            return
        has_come = self.client.has("Welcome to the bouncer")
        if not self.client.is_open:
            self.ends.append(self.client.lines[-1] if self.client.lines else "")
            self.client = None
        elif has_come:
            self.count += 1
            text = f"node {self.node} line {self.count}"
            self.said.append((text, self.client))
            self.client.say(f"PRIVMSG #x :{text}")

    def come(self):
        try:
            self.client = Client(self.bouncer.ports[self.node - 1], "me", "pw")
        except OSError:
            self.client = None

    def kept(self):
        """The lines said on a connection that was not cut off."""
        return [text for text, client in self.said if client.read() is not None and client.is_open]


def talk_while_journals_fail(people, control, seconds, seed):
    """People talk while the journals of nodes fail, one at a time, at random moments and for a random time. How often one did."""
    chosen = random.Random(seed)
    begun = time.monotonic()
    moment, fails, count = 1.0, False, 0
    for step in range(int(seconds * LINES)):
        time.sleep(max(0, begun + step / LINES - time.monotonic()))
        for person in people:
            person.go_on()
        if step / LINES < moment:
            continue
        if fails:
            os.unlink(control)
            moment += chosen.uniform(0.5, 3)
        else:
            with open(control, "w") as file:
                file.write(f"/node-{chosen.choice(people).node}")
            moment += chosen.uniform(0.05, 1.2)
            count += 1
        fails = not fails
    if fails:
        os.unlink(control)
    return count
