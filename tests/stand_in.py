"""A server that the tests play: it accepts every session, keeps what is said to #x, and says there what a test wants."""

import os
import selectors
import socket
import threading
import time

from client import PAUSE, bare, until
from harness import Bouncer, Ports


def running(room, name, environment=None, nodes=3, **more):
    """A server, and a bouncer that joined #x there."""
    server = StandIn()
    bouncer = Bouncer(os.path.join(room, name), server.port, nodes, **more).start(**(environment or {})).ready()
    until(server.is_joined, lambda: f"a session with #x:\n{bouncer.log()}")
    return server, bouncer


def attached(bouncer, node):
    client = bouncer.attach(node)
    client.wait("JOIN #x")
    return client


def flooded(client):
    """The numbers of a flood's lines that a client was shown, played or live, in order."""
    texts = [bare(text) for text in client.texts("#x")]
    return [int(text.removeprefix("flood ")) for text in texts if text.startswith("flood ")]


def say_all(client, texts):
    """Says lines in #x, all in one write."""
    client.say("\r\n".join(f"PRIVMSG #x :{text}" for text in texts))


class Flood(threading.Thread):
    """A server that says numbered lines in #x, this many a second, until it is stopped."""

    def __init__(self, server, rate):
        super().__init__(daemon=True)
        self.server, self.rate, self.said, self.goes_on = server, rate, [], True
        self.start()

    def run(self):
        begun = time.monotonic()
        while self.goes_on:
            self.said.append(f"flood {len(self.said)}")
            self.server.say(self.said[-1])
            time.sleep(max(0, begun + len(self.said) / self.rate - time.monotonic()))

    def stop(self):
        """All lines that were said."""
        self.goes_on = False
        self.join()
        return self.said


class StandIn:
    """A server, in its own thread while it is there. Nobody is given a nick that is taken; a session's nick is taken until it is closed,
    which happens this many seconds after it sent QUIT or its connection ended."""

    def __init__(self, taken=(), late=0.0):
        self.taken = taken
        self.late = late
        self.held = Ports(1)
        self.port = self.held.numbers[0]
        self.lock = threading.Lock()
        self.joined = None  # the session that joined #x last, if it lasts
        self.sessions = []  # what each session said to #x
        self.last = 0.0  # when something was said there last
        self.heard = []  # each line that came, with its moment
        self.live = []  # all sessions, those too that ended
        self.is_mute = False  # it answers no PING
        self.keys = {}  # channels with keys, without which nobody joins them
        self.parting = 0.0  # seconds that it takes over a PART, before it reads on
        self.open()

    def open(self):
        """It is there."""
        listener = socket.create_server(("127.0.0.1", self.port))
        self.is_open = True
        self.thread = threading.Thread(target=self.run, args=(listener,), daemon=True)
        self.thread.start()

    def close(self):
        """It goes away: no session is accepted any more, and existing ones end."""
        self.is_open = False
        self.thread.join()

    def run(self, listener):
        room = selectors.DefaultSelector()
        room.register(listener, selectors.EVENT_READ, None)
        ending = []  # sessions that will soon be closed, with their moments
        while self.is_open:
            for moment, session in [over for over in ending if over[0] <= time.monotonic()]:
                ending.remove((moment, session))
                session.stream.close()
                session.nick = None
            for key, _ in room.select(PAUSE):
                if key.data is None:
                    stream, _ = listener.accept()
                    session = Session(stream, self)
                    self.live.append(session)
                    self.sessions.append(session.said)
                    room.register(stream, selectors.EVENT_READ, session)
                elif not self.read(key.data):
                    room.unregister(key.fileobj)
                    ending.append((time.monotonic() + self.late, key.data))
        for _, session in ending:
            session.stream.close()
        self.live = []
        for key in list(room.get_map().values()):
            key.fileobj.close()
        with self.lock:
            self.joined = None

    def read(self, session):
        """Reads what came in a session. Returns whether it lasts."""
        try:
            data = session.stream.recv(65536)
        except OSError:
            data = b""
        *lines, session.rest = (session.rest + data).split(b"\r\n")
        for line in lines:
            text = line.decode(errors="replace")
            self.heard.append((time.monotonic(), text))
            session.answer(text)
            self.last = time.monotonic()
        with self.lock:
            if session.is_joined:
                self.joined = session if data and not session.has_quit else None
                session.is_joined = False
            elif (not data or session.has_quit) and self.joined is session:
                self.joined = None
        return bool(data) and not session.has_quit

    def is_joined(self):
        with self.lock:
            return self.joined is not None

    def say(self, text):
        """Says a line in #x; it is lost if there is no session."""
        with self.lock:
            if self.joined is not None:
                self.joined.send(f":eve!e@h PRIVMSG #x :{text}")

    def force(self, nick):
        """Gives the session another nick."""
        with self.lock:
            if self.joined is not None:
                self.joined.rename(nick)

    def said(self):
        """All that was said to #x, in order."""
        return [text for session in list(self.sessions) for text in list(session)]


class Session:
    """A connection of a bouncer."""

    def __init__(self, stream, server):
        self.stream = stream
        self.server = server
        self.rest = b""
        self.said = []
        self.is_joined = False  # it has just joined #x
        self.nick = None
        self.has_quit = False
        self.has_user = self.is_registered = False

    def send(self, line):
        try:
            self.stream.sendall(line.encode() + b"\r\n")
        except OSError:
            pass

    def answer(self, line):
        if line.startswith("USER"):
            self.has_user = True
            self.welcome()
        elif line.startswith("NICK"):
            self.name(line[5:].lstrip(":"))
        elif line.startswith("PING"):
            if not self.server.is_mute:
                self.send(":irc.test PONG irc.test" + line[4:])
        elif line.startswith("QUIT"):
            self.has_quit = True
        elif line.startswith("JOIN "):
            channels, _, keys = line.removeprefix("JOIN ").partition(" ")
            self.join(channels.lstrip(":").split(","), keys.lstrip(":").split(","))
        elif line.startswith("PART "):
            time.sleep(self.server.parting)
            for channel in line.split(" ")[1].split(","):
                self.send(f":{self.nick}!u@h PART {channel}")
        elif line.startswith("PRIVMSG #x :"):
            self.said.append(line.split(" :", 1)[1])

    def join(self, channels, keys):
        """These channels are joined, except those that need another key."""
        for place, channel in enumerate(channels):
            wanted = self.server.keys.get(channel)
            if wanted is None or keys[place : place + 1] == [wanted]:
                self.send(f":{self.nick}!u@h JOIN {channel}")
            else:
                self.send(f":irc.test 475 {self.nick} {channel} :Cannot join channel (+k)")
        if "#x" in channels:
            self.is_joined = True

    def name(self, nick):
        """A nick is asked for."""
        if nick in self.server.taken or any(other.nick == nick for other in self.server.live if other is not self):
            self.send(f":irc.test 433 {self.nick or '*'} {nick} :Nickname is already in use")
            return
        self.rename(nick)
        self.welcome()

    def rename(self, nick):
        was, self.nick = self.nick, nick
        if self.is_registered:
            self.send(f":{was}!u@h NICK {nick}")

    def welcome(self):
        if self.nick and self.has_user and not self.is_registered:
            self.send(f":irc.test 001 {self.nick} :Welcome")
            self.is_registered = True
