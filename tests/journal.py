"""Journals, read and made by hand (docs/FORMATS.md, "The journal")."""

import struct

HEADER = b"RBSTOR02"
CHANGE = struct.Struct(">QQBQH")  # boot, term, vote, entries kept, entries that follow
ENTRY = struct.Struct(">QI")  # term, length of the body
MOST_ENTRIES = 256  # in one change
ASKED, BLANK, CLAIM, SAID = b"\x01", b"\x02", b"\x00\x01", b"\x00\x00\x00\x02"  # how bodies begin


def said(line, at=1_700_000_000):
    """A line from the server, as a body."""
    text = line.encode()
    return SAID + struct.pack(">QH", at, len(text)) + text


def heard(line, at):
    """A line of a session that is over, as a body."""
    text = line.encode()
    return b"\x00\x00\x03" + struct.pack(">QQQQH", 1, 1, 1, at, len(text)) + text



def records(data):
    """The content of each open record of a journal."""
    place = len(HEADER)
    while place < len(data) and data[place] != 0:
        (length,) = struct.unpack_from(">I", data, place + 1)
        yield data[place + 5 : place + 5 + length]
        place += 5 + length


def bodies(path):
    """The bodies of the log that a journal holds."""
    with open(path, "rb") as file:
        data = file.read()
    log = []
    for record in records(data):
        _, _, _, kept, count = CHANGE.unpack_from(record, 0)
        del log[kept:]
        place = CHANGE.size
        for _ in range(count):
            _, length = ENTRY.unpack_from(record, place)
            place += ENTRY.size
            log.append(record[place : place + length])
            place += length
    return log


def count(path, beginning):
    """How many bodies of a journal's log begin with this."""
    return sum(body.startswith(beginning) for body in bodies(path))


def make(path, log, boot=1, term=1):
    """Makes a journal with these bodies, all of one term."""
    with open(path, "wb") as file:
        file.write(HEADER)
        for first in range(0, max(len(log), 1), MOST_ENTRIES):
            some = log[first : first + MOST_ENTRIES]
            entries = b"".join(ENTRY.pack(term, len(body)) + body for body in some)
            payload = CHANGE.pack(boot, term, 0, first, len(some)) + entries
            file.write(b"\x01" + struct.pack(">I", len(payload)) + payload)
        file.write(b"\x00")
