"""The story of `./demo`: an IRC server, a bouncer of three nodes, a client in a terminal, and what happens to a chat when a client leaves
and when a disk fails.

It shows the story above and the client below, in tmux; a key ends it. `--script` prints the story without a terminal. Server and disk are
small ones of this repository. The client is irssi if it is installed, else examples/chat.py. It uses only the loopback, and leaves
nothing behind.
"""

import os
import re
import shutil
import subprocess
import sys
import tempfile
import threading
import time

sys.dont_write_bytecode = True
TESTS = os.path.dirname(os.path.realpath(__file__))

import failing_disk
from client import Client, Late, until
from harness import Bouncer, note_children, program_is_there
from screen import SHOWN, Screen
from small_server import EXAMPLES, small_server

CHANNEL = "#hukbarg"
MISSED = ("are you there?", "the meeting is at ten", "bring the report")
WORDS_A_SECOND = 4  # how fast a step is read
END = 30  # seconds for which the last step stays
HALF = "50%"


class Ended(Exception):
    """Somebody pressed a key."""


class Pane(Screen):
    """A client in the lower pane of a terminal, and a story in the upper one, where a key ends both."""

    def __init__(self, room, command, port):
        super().__init__(room, command)
        self.port = port

    def text(self):
        done = subprocess.run([*self.tmux, "capture-pane", "-p", "-t", "%0"], capture_output=True, text=True)
        return done.stdout

    def type(self, line):
        subprocess.run([*self.tmux, "send-keys", "-t", "%0", "-l", line], check=True)
        subprocess.run([*self.tmux, "send-keys", "-t", "%0", "Enter"], check=True)

    def show(self, path):
        """Shows the story, until it ends or a key is pressed."""
        reader = f"{sys.executable} {os.path.join(TESTS, 'story_pane.py')} {path}"
        run = lambda *words: subprocess.run([*self.tmux, *words], check=True)
        run("set-option", "-g", "status", "off")
        run("split-window", "-v", "-b", "-l", HALF, f"{reader}; tmux kill-server")
        run("set-hook", "-g", "client-attached", f"resize-pane -t %1 -y {HALF}")
        run("set-hook", "-g", "client-resized", f"resize-pane -t %1 -y {HALF}")
        # also inside a tmux
        environment = {key: value for key, value in os.environ.items() if key != "TMUX"}
        subprocess.run([*self.tmux, "attach-session"], env=environment)


class Irssi(Pane):
    """irssi, attached at a port."""

    def __init__(self, room, port):
        super().__init__(room, f"irssi --home={os.path.join(room, 'irssi')} -n me", port)
        self.wait("[(status)]")
        # else it waits between its commands, for servers that count them
        self.type("/set cmd_queue_speed 10msec")
        # a pane of a small terminal has few rows
        self.type("/set show_names_on_join off")
        self.connect(port)

    def connect(self, port):
        self.type(f"/connect 127.0.0.1 {port} pw")
        until(self.is_in_channel, lambda: f"a window of {CHANNEL}:\n{self.text()}")

    def is_in_channel(self):
        """Shows the window of the channel. Returns whether it has one."""
        self.type(f"/window goto {CHANNEL}")
        time.sleep(SHOWN)
        return re.search(rf"\[\d+:\S*{CHANNEL}[\](]", self.text())


class Chat(Pane):
    """The small client of the examples, attached at a port."""

    def __init__(self, room, port):
        super().__init__(room, f"{sys.executable} {os.path.join(EXAMPLES, 'chat.py')} {port} me pw", port)
        self.wait(f"you are in {CHANNEL}")

    def connect(self, port):
        self.type(f"/connect {port}")
        until(lambda: f"connected to 127.0.0.1:{port}" in self.text(), lambda: f"a connection:\n{self.text()}")


class Told:
    """The small client without a terminal: what it shows is kept, not drawn."""

    def __init__(self, room, port):
        command = [sys.executable, os.path.join(EXAMPLES, "chat.py"), str(port), "me", "pw"]
        self.path = os.path.join(room, "chat")
        with open(self.path, "w") as shown:
            self.process = subprocess.Popen(command, stdin=subprocess.PIPE, stdout=shown, text=True)
        self.wait(f"you are in {CHANNEL}")

    def text(self):
        with open(self.path) as shown:
            return shown.read()

    def type(self, line):
        self.process.stdin.write(line + "\n")
        self.process.stdin.flush()

    def wait(self, words):
        until(lambda: words in self.text(), lambda: f"{words!r} of the client:\n{self.text()}")

    def connect(self, port):
        self.type(f"/connect {port}")
        self.wait(f"connected to 127.0.0.1:{port}")

    def stop(self):
        self.process.kill()


class Story:
    """Writes what is told to a file and, without a terminal, to standard output."""

    def __init__(self, room, is_script):
        self.path = os.path.join(room, "story")
        self.is_script = is_script
        self.is_over = threading.Event()
        open(self.path, "w").close()

    def tell(self, text, seconds=None):
        """Tells one more step, and leaves it on the screen for a while."""
        with open(self.path, "a") as file:
            print(f"\n{text}", file=file)
        if self.is_script:
            print(text, flush=True)
        elif self.is_over.wait(seconds or len(text.split()) / WORDS_A_SECOND):
            raise Ended


def client_of(is_script):
    """Which client is shown."""
    if is_script:
        return Told
    return Irssi if shutil.which("irssi") else Chat


class Group:
    """A server, a bouncer connected to it, a client at node 1, and Ann, who is at the server."""

    def __init__(self, room, is_script):
        port = small_server()
        folder = os.path.join(room, "bouncer")
        self.disk = failing_disk.FailingDisk() if failing_disk.is_possible() else None
        self.bouncer = Bouncer(folder, port, channels=f'["{CHANNEL}"]')
        if self.disk:
            self.bouncer.start(preexec_fn=self.disk.watched)
            self.disk.begin()
        else:
            self.bouncer.start()
        self.bouncer.ready()
        self.ann = Client(port, "ann")
        self.ann.wait("are supported on this server")
        self.ann.say(f"JOIN {CHANNEL}")
        self.ann.wait("End of NAMES list")
        self.client = client_of(is_script)(room, self.bouncer.ports[0])

    def ann_says(self, text):
        self.ann.say(f"PRIVMSG {CHANNEL} :{text}")

    def hears_ann(self, text):
        """Ann says something, and the client shows it."""
        self.ann_says(text)
        self.client.wait(text)

    def is_heard(self, text):
        """The client says something, and Ann hears it."""
        self.client.type(text)
        self.ann.wait(f"PRIVMSG {CHANNEL} :{text}")


def tell_of_clients(story, group):
    """A line each way, and lines that come while nobody is there."""
    bouncer = group.bouncer
    story.tell(f"1. Three nodes are up. Node {bouncer.leader()} leads, and holds the session at the IRC server. You are attached at node 1.")
    group.hears_ann("hello from Ann")
    group.is_heard("hello from me")
    story.tell("2. Ann said a line, and you said one. Each was saved by two of three nodes before anybody saw it.")
    group.client.type("/disconnect")
    bouncer.wait(" left")
    for text in MISSED:
        group.ann_says(text)
    story.tell("3. You left. Ann said three lines, which the bouncer keeps.")
    other = [node for node in bouncer.followers() if node != 1][-1]
    group.client.connect(bouncer.ports[other - 1])
    for text in MISSED:
        group.client.wait(text)
    story.tell(f"4. You attached at node {other}, where you never were, and were played what you missed, once.")


def tell_of_a_disk(story, group):
    """The disk of the leader fails, and is mended."""
    bouncer, leader = group.bouncer, group.bouncer.leader()
    group.disk.fail(f"/node-{leader}")
    group.ann_says("the disk of the leader refuses this line")
    bouncer.wait(f" node {leader}: down: ")
    group.client.type("I say this while nobody leads")
    story.tell(f"5. The disk of node {leader} fails, so that it is down. What you say now waits for the next leader.")
    group.ann.wait(f"PRIVMSG {CHANNEL} :I say this while nobody leads")
    group.hears_ann("I heard you, once")
    story.tell(f"6. Node {bouncer.leader()} leads, connected to the server anew, and said your line, once.")
    group.disk.mend()
    bouncer.wait(f" node {leader}: up, run 2")
    story.tell(f"7. The disk is mended: node {leader} started again by itself, and takes the log from the others.")


def tell_all(story, group):
    tell_of_clients(story, group)
    if group.disk:
        tell_of_a_disk(story, group)
    else:
        story.tell("This system lets nobody make a disk fail, so that part of the story is left out.")
    group.bouncer.end()
    story.tell("That is all. A key ends this, and so does half a minute; nothing is left behind.", END)


def play(story, group, faults):
    """Tells the story, and then ends the terminal. A reason for which it was cut short is a fault."""
    try:
        tell_all(story, group)
    except Ended:
        pass
    except (Late, OSError, subprocess.SubprocessError) as fault:
        faults.append(fault)
    finally:
        group.client.stop()


def run(room, is_script):
    """Tells the story in this folder. Why it was cut short, if it was."""
    story, faults = Story(room, is_script), []
    if not is_script:
        print("demo: a server and three nodes begin ..", flush=True)
    group = Group(room, is_script)
    teller = threading.Thread(target=play, args=(story, group, faults))
    teller.start()
    if not is_script:
        group.client.show(story.path)
        story.is_over.set()
    teller.join()
    return faults


def main():
    is_script = sys.argv[1:] == ["--script"]
    if not program_is_there():
        return 1
    children = note_children()
    room = tempfile.mkdtemp(prefix="hukbarg-")
    os.chmod(room, 0o755)
    try:
        faults = run(room, is_script)
    except (Late, OSError, subprocess.SubprocessError) as fault:
        faults = [fault]
    finally:
        for child in children:
            if child.poll() is None:
                child.kill()
                child.wait()
        shutil.rmtree(room, ignore_errors=True)
    for fault in faults:
        print(f"demo: {fault}", file=sys.stderr)
    return 1 if faults else 0


sys.exit(main())
