"""An IRC server, ngircd, and people at it."""

import itertools
import os
import socket
import subprocess

from client import Client, Late, bare, until
from harness import Bouncer, Ports

HEARD = 3  # seconds after which a mark is said again
MARKS = 20
marks = itertools.count()


class Server:
    """An IRC server, with further lines of its configuration and its limits."""

    def __init__(self, folder, more=(), limits=()):
        self.held = Ports(1)
        self.port = self.held.numbers[0]
        path = os.path.join(folder, "ngircd.conf")
        with open(path, "w") as conf:
            conf.write(f"[Global]\nName = irc.test.local\nInfo = test\nListen = 127.0.0.1\nPorts = {self.port}\n")
            conf.write("ServerUID = nobody\nServerGID = nogroup\n")
            conf.write("[Limits]\nMaxConnectionsIP = 50\nMaxNickLength = 20\nMaxPenaltyTime = 0\n")
            conf.writelines(f"{line}\n" for line in limits)
            conf.write("[Options]\nDNS = no\nIdent = no\nPAM = no\n")
            conf.writelines(f"{line}\n" for line in more)
        with open(os.path.join(folder, "ngircd.log"), "w") as log:
            self.process = subprocess.Popen(
                ["ngircd", "-n", "-f", path], stdin=subprocess.DEVNULL, stdout=log, stderr=log
            )
        until(self.answers, "the server listens")

    def answers(self):
        try:
            socket.create_connection(("127.0.0.1", self.port), 1).close()
            return True
        except OSError:
            return False


servers = []


def server_in(room):
    """The server of all cases."""
    if not servers:
        servers.append(Server(room))
    return servers[0]


def bouncer_in(room, name, **more):
    return Bouncer(os.path.join(room, name), server_in(room).port, **more)


def peer(room, nick, channel="#x"):
    """Someone else at the server, in a channel."""
    client = Client(server_in(room).port, nick)
    client.wait("are supported on this server")
    client.say(f"JOIN {channel}")
    client.wait("End of NAMES list")
    return client


def hears(client, other, channel="#x"):
    """Waits until a client hears at once what another one says in a channel: everything said before has then arrived, too."""
    for _ in range(MARKS):
        mark = f"mark {next(marks)}"
        other.say(f"PRIVMSG {channel} :{mark}")
        try:
            return until(lambda: client.has(f"PRIVMSG {channel} :{mark}"), "a mark", HEARD)
        except Late:
            pass
    raise Late(f"a mark that is heard at once, in {client.lines[-5:]}")


def plain(texts):
    """The texts without those that only mark a moment."""
    return [text for text in texts if not bare(text).startswith("mark ")]
