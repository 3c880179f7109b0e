#!/usr/bin/env python3
"""A small IRC server for one machine: `examples/ircd.py [PORT]` listens at 127.0.0.1, at port 6667 by default, until it is
interrupted. Channels, messages, nicks, topics and names, no modes, no operators. It is for trying a bouncer, not for a network.
"""

import selectors
import socket
import sys

NAME = "irc.example.local"
NICK_LEN = 20
LINE_LEN = 510
MOST_WAITING = 1 << 20  # bytes that a client may leave unread before its connection is closed


class Person:
    """A connection, and who is at its other end."""

    def __init__(self, server, connection):
        self.server, self.connection = server, connection
        self.nick = self.user = ""
        self.is_welcomed = self.is_gone = False
        self.rest = self.waiting = b""

    def mask(self):
        return f"{self.nick}!{self.user}@localhost"

    def send(self, line):
        """Sends a line, now or when the other end reads again."""
        if self.is_gone:
            return
        self.waiting += line.encode("utf-8", "surrogateescape")[:LINE_LEN] + b"\r\n"
        self.flush()

    def answer(self, number, words):
        self.send(f":{NAME} {number} {self.nick or '*'} {words}")

    def flush(self):
        try:
            while self.waiting:
                self.waiting = self.waiting[self.connection.send(self.waiting):]
        except BlockingIOError:
            pass
        except OSError:
            self.server.leave(self, "Connection reset")
            return
        if len(self.waiting) > MOST_WAITING:
            self.server.leave(self, "It reads too slowly")
        self.server.watch(self)

    def read(self):
        try:
            data = self.connection.recv(65536)
        except BlockingIOError:
            return
        except OSError:
            data = b""
        if not data:
            self.server.leave(self, "Connection closed")
            return
        *lines, self.rest = (self.rest + data).split(b"\n")
        for line in lines:
            if not self.is_gone:
                self.server.take(self, line.rstrip(b"\r").decode("utf-8", "surrogateescape"))


class Channel:
    def __init__(self, name):
        self.name, self.topic, self.people = name, "", []


class Server:
    """All connections of a port, and the channels that those behind them are in."""

    def __init__(self, port):
        self.selector = selectors.DefaultSelector()
        self.people, self.channels = [], {}
        self.listener = socket.create_server(("127.0.0.1", port))
        self.listener.setblocking(False)
        self.port = self.listener.getsockname()[1]
        self.goes_on = True
        self.selector.register(self.listener, selectors.EVENT_READ)

    def run(self):
        """Serves until it is stopped, which it notices within a second."""
        while self.goes_on:
            for key, events in self.selector.select(1):
                if key.data is None:
                    self.accept()
                    continue
                if events & selectors.EVENT_READ:
                    key.data.read()
                if events & selectors.EVENT_WRITE and not key.data.is_gone:
                    key.data.flush()
        for person in list(self.people):
            self.leave(person, "The server ends")
        self.listener.close()

    def accept(self):
        try:
            connection, _ = self.listener.accept()
        except OSError:
            return
        connection.setblocking(False)
        person = Person(self, connection)
        self.people.append(person)
        self.selector.register(connection, selectors.EVENT_READ, person)

    def watch(self, person):
        if not person.is_gone:
            wanted = selectors.EVENT_READ | (selectors.EVENT_WRITE if person.waiting else 0)
            self.selector.modify(person.connection, wanted, person)

    def leave(self, person, reason):
        """A connection ends, and all who saw its person are told."""
        if person.is_gone:
            return
        person.is_gone = True
        self.selector.unregister(person.connection)
        person.connection.close()
        self.people.remove(person)
        told = self.neighbours(person)
        for channel in list(self.channels.values()):
            self.part(channel, person)
        for other in told:
            other.send(f":{person.mask()} QUIT :{reason}")

    def part(self, channel, person):
        if person in channel.people:
            channel.people.remove(person)
            if not channel.people:
                del self.channels[channel.name.lower()]

    def neighbours(self, person):
        """Everybody else in one of its channels, once."""
        found = []
        for channel in self.channels.values():
            if person in channel.people:
                found += [other for other in channel.people if other is not person and other not in found]
        return found

    def named(self, nick):
        return next((person for person in self.people if person.nick.lower() == nick.lower()), None)

    def take(self, person, line):
        """A line that came from a person."""
        front, colon, trailing = line.partition(" :")
        words = front.split()
        if words and words[0].startswith(":"):
            words = words[1:]
        if not words:
            return
        if colon:
            words.append(trailing)
        command, *values = words
        does = getattr(self, f"on_{command.lower()}", None)
        if command.upper() in ("NICK", "USER", "PASS", "PING", "QUIT", "CAP", "PONG"):
            if does:
                does(person, values)
        elif not person.is_welcomed:
            person.answer(451, ":You have not registered")
        elif does:
            does(person, values)
        else:
            person.answer(421, f"{command} :Unknown command")

    def on_nick(self, person, values):
        nick = values[0] if values else ""
        if not nick or len(nick) > NICK_LEN or nick[0] in "#&:0123456789-" or any(c in nick for c in " ,*?!@."):
            person.answer(432, f"{nick} :Erroneous nickname")
            return
        other = self.named(nick)
        if other is not None and other is not person:
            person.answer(433, f"{nick} :Nickname is already in use")
            return
        told = [person, *self.neighbours(person)] if person.is_welcomed else []
        before, person.nick = person.mask(), nick
        for one in told:
            one.send(f":{before} NICK :{nick}")
        self.welcome(person)

    def on_user(self, person, values):
        if not person.is_welcomed:
            person.user = values[0] if values else "user"
            self.welcome(person)

    def welcome(self, person):
        if person.is_welcomed or not (person.nick and person.user):
            return
        person.is_welcomed = True
        person.answer("001", f":Welcome to {NAME}, {person.nick}")
        person.answer("002", f":Your host is {NAME}")
        person.answer("003", ":This server was made to try a bouncer")
        person.answer("004", f"{NAME} small - -")
        person.answer("005", f"CHANTYPES=# NICKLEN={NICK_LEN} PREFIX=(ov)@+ :are supported on this server")
        person.answer(422, ":No message of the day")

    def on_ping(self, person, values):
        person.send(f":{NAME} PONG {NAME} :{values[-1] if values else NAME}")

    def on_quit(self, person, values):
        person.send(f"ERROR :Closing connection ({values[0] if values else person.nick})")
        self.leave(person, values[0] if values else person.nick)

    def on_join(self, person, values):
        for name in (values[0] if values else "").split(","):
            if not name.startswith("#") or len(name) < 2:
                person.answer(403, f"{name} :No such channel")
                continue
            channel = self.channels.setdefault(name.lower(), Channel(name))
            if person in channel.people:
                continue
            channel.people.append(person)
            for one in channel.people:
                one.send(f":{person.mask()} JOIN :{channel.name}")
            if channel.topic:
                person.answer(332, f"{channel.name} :{channel.topic}")
            self.on_names(person, [channel.name])

    def joined(self, person, values):
        """The channel that is named first, if the person is in it."""
        name = values[0] if values else ""
        channel = self.channels.get(name.lower())
        if channel is None or person not in channel.people:
            person.answer(442, f"{name} :You're not on that channel")
            return None
        return channel

    def on_part(self, person, values):
        for name in (values[0] if values else "").split(","):
            channel = self.joined(person, [name])
            if channel:
                reason = f" :{values[1]}" if len(values) > 1 else ""
                for one in list(channel.people):
                    one.send(f":{person.mask()} PART {channel.name}{reason}")
                self.part(channel, person)

    def on_names(self, person, values):
        for name in (values[0] if values else "").split(","):
            channel = self.channels.get(name.lower())
            if channel:
                person.answer(353, f"= {channel.name} :{' '.join(one.nick for one in channel.people)}")
            person.answer(366, f"{name} :End of NAMES list")

    def on_topic(self, person, values):
        channel = self.joined(person, values)
        if channel and len(values) > 1:
            channel.topic = values[1]
            for one in channel.people:
                one.send(f":{person.mask()} TOPIC {channel.name} :{channel.topic}")
        elif channel:
            person.answer(*((332, f"{channel.name} :{channel.topic}") if channel.topic else (331, f"{channel.name} :No topic is set")))

    def on_privmsg(self, person, values, command="PRIVMSG"):
        if len(values) < 2:
            person.answer(412, ":No text to send")
            return
        for target in values[0].split(","):
            channel = self.channels.get(target.lower())
            other = self.named(target)
            if channel:
                people = [one for one in channel.people if one is not person]
            elif other:
                people = [other]
            else:
                person.answer(401, f"{target} :No such nick or channel")
                continue
            for one in people:
                one.send(f":{person.mask()} {command} {target} :{values[1]}")

    def on_notice(self, person, values):
        self.on_privmsg(person, values, "NOTICE")

    def on_mode(self, person, values):
        if values and values[0].startswith("#"):
            person.answer(324, f"{values[0]} +")

    def on_who(self, person, values):
        name = values[0] if values else "*"
        channel = self.channels.get(name.lower())
        for one in channel.people if channel else []:
            person.answer(352, f"{name} {one.user} localhost {NAME} {one.nick} H :0 {one.nick}")
        person.answer(315, f"{name} :End of WHO list")


def main():
    if len(sys.argv) > 2 or not all(word.isdigit() for word in sys.argv[1:]):
        print("usage: ircd.py [PORT]", file=sys.stderr)
        return 2
    try:
        server = Server(int(sys.argv[1]) if len(sys.argv) == 2 else 6667)
    except (OSError, OverflowError) as fault:
        print(f"ircd.py: {fault}", file=sys.stderr)
        return 1
    print(f"an IRC server at 127.0.0.1:{server.port}; ^C ends it", flush=True)
    try:
        server.run()
    except KeyboardInterrupt:
        pass
    return 0


if __name__ == "__main__":
    sys.exit(main())
