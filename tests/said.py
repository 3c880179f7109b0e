#!/usr/bin/env python3
"""Writes the lines that `bouncer fold` reads from bodies in words, one per line of standard input: `up`, `down`, `gone 2 2` (the runs of
node 2 below its second), `heard 0 :a!b@c PRIVMSG #x :hi` (a line from upstream at the second 0, which is 22:13:20), `1.1.1 #2 play #x` (a
client's second request, at the second 0; `attach phone` attaches with a name), `blank`, and `mark 2.5.7` (the mark 7 of the run 5 of node
2)."""

import sys

START = 1_700_000_000
KINDS = {
    "attach": 1,
    "leave": 2,
    "say": 3,
    "notice": 3,
    "join": 4,
    "part": 5,
    "detach": 6,
    "reattach": 7,
    "play": 8,
    "clear": 9,
    "size": 13,
}
SPEECHES = {"say": b"\0", "notice": b"\1"}
NAMED = 15  # attaches with a name


def number(word, length):
    return int(word).to_bytes(length, "big")


def moment(second):
    return (START + int(second)).to_bytes(8, "big")


def field(text):
    return len(text.encode()).to_bytes(2, "big") + text.encode()


def origin(word):
    """`node.boot.client`, or `node.boot.number` for a mark."""
    node, boot, client = word.split(".")
    return number(node, 1) + number(boot, 8) + number(client, 8)


def action(words):
    verb, _, rest = words.partition(" ")
    kind = bytes([KINDS[verb]])
    target, _, last = rest.partition(" ")
    if verb == "attach" and target:
        return bytes([NAMED]) + field(target)
    if verb in ("attach", "leave"):
        return kind
    if verb in ("say", "notice"):
        return kind + SPEECHES[verb] + field(target) + field(last)
    if verb == "size":
        return kind + field(target) + number(last, 2)
    return kind + field(target)


def request(words):
    """A client's origin, `#` and the number of the request, and its action."""
    client, count, rest = words.split(" ", 2)
    return b"\1" + origin(client) + number(count.removeprefix("#"), 8) + moment(0) + action(rest)


def body(words):
    """The bytes of a body given in words."""
    first, _, rest = words.partition(" ")
    second, _, last = rest.partition(" ")
    if first == "up":
        return b"\0\4"
    if first == "down":
        return b"\0\5"
    if first == "gone":
        return b"\0\3" + number(second, 1) + number(last, 8)
    if first == "heard":
        return b"\0\2" + moment(second) + field(last)
    if first == "blank":
        return b"\2"
    if first == "mark":
        return b"\3" + origin(second)
    return request(words)


if __name__ == "__main__":
    for line in sys.stdin:
        print(body(line.rstrip("\n")).hex())
