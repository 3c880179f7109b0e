"""Random lists of bodies, as nodes may have agreed on them (docs/FORMATS.md, "Values as bytes")."""

import said

CHANNELS = ["#x", "#X", "#a", "#A", "&b", "#c{", "#C["]
PEOPLE = ["ann", "Ann", "bob", "cy", "me", "dee", "x!y"]
NICKS = ["me", "ME", "you"]
NAMES = ["phone", "desk", "web", "Phone"]
LONG = 480  # letters with which a line from the server has nearly no room for more
LONG_SAID = 497  # with these a client's message is a line of 509 bytes, and as it is kept, after a nick, one of more than 511
TO_BUFFERS, TO_FENCE, TO_CLAIMS = b"\0\0\0", b"\0\0", b"\0"  # how bodies begin
CLIENT, UPSTREAM, GONE, UP, DOWN = b"\1", b"\2", b"\3", b"\4", b"\5"
OPENED, SHUT, HEARD = b"\1", b"\2", b"\3"
CLAIM, ASKED, BLANK, MARK = b"\1", b"\1", b"\2", b"\3"
CLEAR_SOME = [b"\x0a", b"\x0b", b"\x0c"]  # the channels, the queries, all
PASS = b"\x0e"


def text(dice):
    """What somebody says: usually a letter."""
    letter = dice.choice("abcdefghij")
    return dice.choice([letter] * 4 + [f":{letter}", f"{letter} and more", f"\1ACTION {letter}\1", f"\1ACTION {letter}", "\1VERSION\1"])


def line(dice):
    """A line from the server."""
    channel, person, nick = dice.choice(CHANNELS), dice.choice(PEOPLE), dice.choice(NICKS)
    long = dice.choice("xyz") * LONG
    return dice.choice(
        [
            f"001 {nick}",
            f":me!u@h NICK {nick}",
            f":me!u@h JOIN {channel}",
            f":{nick}!u@h JOIN {channel}",
            f":{nick}!u@h PART {channel}",
            f":op!u@h KICK {channel} {nick}",
            f":{person}!u@h JOIN {channel}",
            f":{person}!u@h PRIVMSG {channel} :{text(dice)}",
            f":{person}!u@h PRIVMSG {channel} :{text(dice)}",
            f":{person} NOTICE {channel} :{text(dice)}",
            f":{person} PRIVMSG {channel} :{long}",
            f":{person}!u@h PRIVMSG {nick} :{text(dice)}",
            f":{person}!u@h PRIVMSG {nick} :{text(dice)}",
            f":{person} PRIVMSG {nick} :{long}",
            f":{person} NOTICE {nick} :{text(dice)}",
        ]
    )


def action(dice, names=NAMES):
    """What a client asks for. It attaches, leaves or says something as often as it does anything else. It gives one of these names, if
    there are any."""
    channel, target = dice.choice(CHANNELS), dice.choice(CHANNELS + PEOPLE)
    words = dice.choice(
        ["attach"] * 3
        + [f"attach {dice.choice(names)}" if names else "attach"] * 4
        + ["leave"] * 3
        + [f"say {target} {text(dice)}"] * 3
        + [f"{dice.choice(['say', 'notice'])} {target} {dice.choice('xyz') * LONG_SAID}"]
        + [f"notice {target} {text(dice)}"]
        + [f"{verb} {channel}" for verb in ("join", "part", "detach", "detach", "reattach", "reattach")]
        + [f"play {target}", f"clear {target}", f"size {target} {dice.randrange(6)}", f"size {target} {dice.randrange(6)}"]
        + ["some", "pass"]
    )
    if words == "some":
        return dice.choice(CLEAR_SOME)
    if words == "pass":
        return PASS + said.field(f"MODE {channel}")
    return said.action(words)


class Clients:
    """Clients of some runs of each node, that give these names."""

    def __init__(self, dice, boots, names):
        self.dice, self.boots, self.names, self.asked = dice, boots, names, {}

    def origin(self):
        node = self.dice.choice([*self.boots])
        return said.origin(f"{node}.{self.dice.choice(self.boots[node])}.{self.dice.randrange(1, 3)}")

    def request(self, at):
        """A request with its client's next number, and seldom with another one; or what a client without numbers asks for."""
        origin, what = self.origin(), action(self.dice, self.names)
        if self.dice.randrange(4) == 0:
            return TO_BUFFERS + CLIENT + origin + at + what
        due = self.asked.get(origin, 0) + 1
        number = due if self.dice.randrange(12) else self.dice.randrange(1, due + 2)
        if number == due:
            self.asked[origin] = due
        return ASKED + origin + said.number(number, 8) + at + what

    def gone(self):
        """A node's runs below one of these are gone."""
        node = self.dice.choice([*self.boots])
        return TO_BUFFERS + GONE + said.number(node, 1) + said.number(self.dice.choice(self.boots[node]), 8)


class Sessions:
    """Sessions of a term: what comes in them, and claims of what goes out, which seldom are of an older session or have another number
    than the next."""

    def __init__(self, dice, term):
        self.dice, self.term, self.attempt, self.heard_last, self.claimed_last = dice, term, 0, 0, 0

    def id(self):
        attempt = self.attempt if self.dice.randrange(10) else self.dice.randrange(self.attempt + 1)
        return said.number(self.term, 8) + said.number(attempt, 8)

    def opened(self):
        self.attempt, self.heard_last = self.attempt + 1, 0
        return TO_FENCE + OPENED + said.number(self.term, 8) + said.number(self.attempt, 8)

    def shut(self):
        return TO_FENCE + SHUT + self.id()

    def heard(self, at):
        self.heard_last += 1
        number = self.heard_last if self.dice.randrange(10) else self.dice.randrange(1, self.heard_last + 2)
        return TO_FENCE + HEARD + self.id() + said.number(number, 8) + at + said.field(line(self.dice))

    def claim(self):
        self.claimed_last += 1 if self.dice.randrange(4) else 0
        return TO_CLAIMS + CLAIM + self.id() + said.number(max(1, self.claimed_last), 8)


def bodies(dice, count, boots, term, second, names=NAMES):
    """Bodies of a session and others, this many, of clients of these runs of each node, from this second on. The clients give these
    names, if there are any."""
    clients, sessions = Clients(dice, boots, names), Sessions(dice, term)
    log = [sessions.opened()]
    for place in range(1, count):
        kind, at = dice.randrange(40), said.moment(second + place)
        if kind == 0:
            log.append(clients.gone())
        elif kind == 1:
            log.append(dice.choice([TO_BUFFERS + UP, TO_BUFFERS + DOWN, BLANK, MARK + said.origin("2.1.7")]))
        elif kind == 2:
            log.append(dice.choice([sessions.opened, sessions.shut])())
        elif kind < 6:
            log.append(sessions.claim())
        elif kind < 14:
            log.append(TO_BUFFERS + UPSTREAM + at + said.field(line(dice)))
        elif kind < 20:
            log.append(sessions.heard(at))
        else:
            log.append(clients.request(at))
    return log


def from_fold(body):
    """A body of a fold, as nodes have it."""
    return TO_FENCE + body if body[:1] == TO_CLAIMS else body


class Fence:
    """Which of the nodes' bodies reach the buffers, as bodies of a fold: a session in force lets each of its lines in once, in order."""

    def __init__(self):
        self.newest, self.open, self.heard_last = b"", False, 0

    def lowered(self, body):
        """What of a body reaches the buffers."""
        if body[:1] != TO_CLAIMS:
            return [body]
        if body[:3] == TO_BUFFERS:
            return [body[2:]]
        if body[:2] != TO_FENCE:
            return []
        kind, session = body[2:3], body[3:19]
        if kind == OPENED and session > self.newest:
            down = [b"\0" + DOWN] if self.open else []
            self.newest, self.open, self.heard_last = session, True, 0
            return [*down, b"\0" + UP]
        if not self.open or session != self.newest:
            return []
        if kind == SHUT:
            self.open = False
            return [b"\0" + DOWN]
        if kind == HEARD and int.from_bytes(body[19:27], "big") == self.heard_last + 1:
            self.heard_last += 1
            return [b"\0" + UPSTREAM + body[27:]]
        return []

    def claims(self, body, number):
        """Whether a body claims the line of this number in the session in force."""
        session = body[2:18] if body[:2] == TO_CLAIMS + CLAIM else b""
        return self.open and session == self.newest and int.from_bytes(body[18:], "big") == number
