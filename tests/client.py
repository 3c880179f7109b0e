"""A client that speaks plain IRC, and functions that wait."""

import socket
import time

LONGEST = 60  # seconds that anything may take
PAUSE = 0.02  # seconds between two tries


class Late(Exception):
    """What was waited for did not come."""


def until(test, what, seconds=LONGEST):
    """Waits until a test holds, and returns its value. A text, or a call that makes one, says what was waited for."""
    end = time.monotonic() + seconds
    while True:
        value = test()
        if value:
            return value
        if time.monotonic() > end:
            raise Late(what() if callable(what) else what)
        time.sleep(PAUSE)


class Client:
    """A client of a node, or of a server. It answers PING as it reads."""

    def __init__(self, port, nick, password=None):
        self.lines = []
        self.rest = b""
        self.is_open = True
        self.socket = socket.create_connection(("127.0.0.1", port), LONGEST)
        self.socket.setblocking(False)
        if password is not None:
            self.say(f"PASS {password}")
        self.say(f"NICK {nick}")
        self.say("USER u 0 * :r")

    def say(self, line):
        """Says a line; if the other side is gone the line is lost, and `is_open` shows that."""
        try:
            self.socket.settimeout(LONGEST)
            self.socket.sendall(line.encode() + b"\r\n")
        except (BrokenPipeError, ConnectionResetError):
            self.is_open = False
        finally:
            self.socket.setblocking(False)

    def read(self):
        """All lines so far."""
        try:
            while self.is_open:
                data = self.socket.recv(65536)
                if not data:
                    self.is_open = False
                self.rest += data
        except BlockingIOError:
            pass
        except (ConnectionResetError, BrokenPipeError):
            self.is_open = False
        *whole, self.rest = self.rest.split(b"\n")
        for line in whole:
            text = line.decode(errors="replace").rstrip("\r")
            if text.startswith("PING"):
                self.say("PONG" + text[4:])
            self.lines.append(text)
        return self.lines

    def has(self, end):
        return any(line.endswith(end) for line in self.read())

    def wait(self, end):
        """Waits for a line with this end."""

        def came():
            if self.has(end):
                return True
            if not self.is_open:
                raise Late(f"a line that ends in {end!r}, of a connection that was closed after {self.lines[-5:]}")
            return False

        until(came, lambda: f"a line that ends in {end!r}, in {self.lines[-5:]}")

    def wait_closed(self):
        until(lambda: self.read() is not None and not self.is_open, "the connection is closed")

    def texts(self, target):
        """The texts said to a target, in the order in which they came."""
        marked = [line.split(f" PRIVMSG {target} :", 1) for line in self.read()]
        return [parts[1] for parts in marked if len(parts) == 2]

    def wait_texts(self, target, test, what):
        until(lambda: test(self.texts(target)), lambda: f"{what}; {len(self.texts(target))} came, the last ones {self.texts(target)[-5:]}")

    def close(self):
        self.socket.close()


def bare(text):
    """A text without its time, if it was played."""
    return text.split("] ", 1)[-1] if text.startswith("[") else text
