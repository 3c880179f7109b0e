#!/usr/bin/env python3
"""A small IRC client: `examples/chat.py PORT [NICK [PASSWORD]]` attaches at 127.0.0.1, shows what is said, and says what is
typed in the channel it shows. `/connect PORT` goes to another address, `/disconnect` leaves, `/quit` ends it, `/join #name`
shows another channel, `/raw LINE` sends a line as it stands."""

import selectors
import socket
import sys

PATIENCE = 10  # seconds for a connection to stand
UP = "\x1b[A\x1b[2K"  # to the line above, which is cleared


def nick_of(prefix):
    return prefix.split("!", 1)[0]


class Chat:
    def __init__(self, nick, password):
        self.nick, self.password = nick, password
        self.socket, self.rest, self.channel = None, b"", None
        self.selector = selectors.DefaultSelector()

    def show(self, text):
        print(text, flush=True)

    def connect(self, port):
        self.disconnect()
        try:
            self.socket = socket.create_connection(("127.0.0.1", port), PATIENCE)
        except OSError as fault:
            self.show(f"-- 127.0.0.1:{port}: {fault}")
            return
        self.rest = b""
        self.selector.register(self.socket, selectors.EVENT_READ, self.hear)
        self.show(f"-- connected to 127.0.0.1:{port}")
        if self.password:
            self.send(f"PASS {self.password}")
        self.send(f"NICK {self.nick}")
        self.send(f"USER {self.nick} 0 * :{self.nick}")

    def disconnect(self):
        if self.socket is not None:
            self.selector.unregister(self.socket)
            self.socket.close()
            self.socket = None
            self.show("-- not connected")

    def send(self, line):
        if self.socket is None:
            self.show("-- not connected: /connect PORT")
            return
        try:
            self.socket.sendall(line.encode() + b"\r\n")
        except OSError:
            self.disconnect()

    def hear(self):
        try:
            data = self.socket.recv(65536)
        except OSError:
            data = b""
        if not data:
            self.disconnect()
            return
        *lines, self.rest = (self.rest + data).split(b"\n")
        for line in lines:
            self.take(line.decode(errors="replace").rstrip("\r"))

    def take(self, line):
        prefix, _, rest = line[1:].partition(" ") if line.startswith(":") else ("", "", line)
        front, colon, text = rest.partition(" :")
        words = front.split()
        if not words:
            return
        command, target = words[0], (words[1] if len(words) > 1 else text)
        who = nick_of(prefix)
        if command == "PING":
            self.send(f"PONG :{text or target}")
        elif command == "PRIVMSG":
            where = "" if target == self.channel else f"{target} "
            self.show(f"{where}<{who}> {text}")
        elif command == "NOTICE":
            self.show(f"-{who}- {text}")
        elif command == "JOIN" and who == self.nick:
            self.channel = target
            self.show(f"-- you are in {target}")
        elif command in ("JOIN", "PART", "QUIT", "NICK", "KICK", "TOPIC"):
            self.show(f"-- {who} {command.lower()} {' '.join(words[1:])} {text if colon else ''}".rstrip())
        elif command in ("433", "464", "ERROR"):
            self.show(f"-- {text}")

    def type(self):
        line = sys.stdin.readline()
        if not line:
            return False
        word, _, rest = line.rstrip("\n").partition(" ")
        if word == "/quit":
            self.send("QUIT")
            return False
        if word == "/connect" and rest.split(" ")[0].isdigit():
            self.connect(int(rest.split(" ")[0]))
        elif word == "/disconnect":
            self.disconnect()
        elif word == "/join":
            self.channel = rest
            self.send(f"JOIN {rest}")
        elif word == "/raw":
            self.send(rest)
        elif word.startswith("/"):
            self.show("-- /connect PORT, /disconnect, /join #CHANNEL, /raw LINE, /quit")
        elif self.channel is None:
            self.show("-- no channel: /join #CHANNEL")
        elif line.strip():
            self.send(f"PRIVMSG {self.channel} :{line.rstrip()}")
            # over what was typed
            self.show(f"{UP if sys.stdin.isatty() else ''}<{self.nick}> {line.rstrip()}")
        return True

    def run(self, port):
        self.connect(port)
        self.selector.register(sys.stdin, selectors.EVENT_READ, None)
        goes_on = True
        while goes_on:
            for key, _ in self.selector.select():
                if key.data is None:
                    goes_on = self.type()
                elif key.fileobj is self.socket:
                    key.data()


def main():
    if not 2 <= len(sys.argv) <= 4 or not sys.argv[1].isdigit():
        print("usage: chat.py PORT [NICK [PASSWORD]]", file=sys.stderr)
        return 2
    nick, password = (sys.argv[2:] + [None, None])[:2]
    try:
        Chat(nick or "me", password).run(int(sys.argv[1]))
    except KeyboardInterrupt:
        pass
    return 0


sys.exit(main())
