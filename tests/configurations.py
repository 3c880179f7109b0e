"""Configurations with faults, as the bytes of a file, and the lines that are printed for each, without the file's path and a colon before
each line."""

# the smallest configuration without its addresses to listen at, which are line 5
LISTENING = b'nick = "me"\npassword = "pass"\nupstream = "127.0.0.1:6667"\nstore = "store"\nlisten = '

# the smallest configuration, in five lines
LEAST = LISTENING + b'["127.0.0.1:1", "127.0.0.1:2", "127.0.0.1:3"]\n'

UPSTREAM = "3: upstream: needs an address 127.0.0.1:PORT: of a server elsewhere, or with TLS, that of a tunnel to it"
NAME = "needs a name: 1 to 64 bytes without space or comma, the first no colon"
ADDRESS = "is no address: write 127.0.0.1:PORT, with a PORT from 1 to 65535"
EXPECTED = "invalid value, expected a string, number, boolean, date-time, array or inline table"
QUOTES = "invalid value: put a text in quotes"


def missing(*keys):
    """The lines for keys that are needed and missing."""
    return [f" {key}: is missing" for key in keys]


def channels(count):
    """So many channels, as a list of texts without its brackets."""
    return b", ".join(b'"#%03d"' % number for number in range(count))


# at each limit, past which a text or a number is refused
MOST = LEAST.replace(b'"me"', b'"' + b"n" * 64 + b'"').replace(b'"pass"', b'"' + b"p" * 64 + b'"') + b"\n".join(
    [
        b"channels = [" + channels(100) + b"]",
        b"chan_buffer_size = 500\nquery_buffer_size = 500\nmax_query_buffers = 50",
        b"offset_minutes = 1439\nbeat_ms = 10000\ntimeout_ms = 60000\nflood_burst = 100\nflood_ms = 60000\nrenew_at = 1000000",
        b'upstream_password = "' + b"u" * 64 + b'"\n',
    ]
)

# texts that are not TOML
NO_TOML = [
    (b'nick = "me"\npassword = \n', f"2: is no TOML: {EXPECTED}"),
    (b"beat_ms = 01\n", f"1: is no TOML: {EXPECTED}"),
    (b"nick = me\n", f"1: is no TOML: {QUOTES}"),
    (b'nick = "me"\nupstream = 127.0.0.1:6667\n', f"2: is no TOML: {QUOTES}"),
    (b"store = /var/lib/store # a folder\n", f"1: is no TOML: {QUOTES}"),
    (b"nick\n", "1: is no TOML: key with no value, expected `=`"),
    (b'nick = "me"\nnick = "you"\n', "2: is no TOML: duplicate key"),
    (b'nick = "me"\n\xff\n', "2: is no TOML: invalid UTF-8"),
]

# texts without keys that are needed, or with bad ones
NEEDED = [
    (b"", missing("nick", "password", "upstream", "listen", "store")),
    (b"nick = 3", ["1: nick: needs a text", *missing("password", "upstream", "listen", "store")]),
    (b'nick = "a b"', [f"1: nick: {NAME}", *missing("password", "upstream", "listen", "store")]),
    (b'nick = "' + b"a" * 65 + b'"', [f"1: nick: {NAME}", *missing("password", "upstream", "listen", "store")]),
    (b'nick = "me"', missing("password", "upstream", "listen", "store")),
    (
        b'nick = "me"\npassword = ""',
        ["2: password: needs 1 to 64 bytes without space", *missing("upstream", "listen", "store")],
    ),
    (
        b'nick = "me"\npassword = "' + b"a" * 65 + b'"',
        ["2: password: needs 1 to 64 bytes without space", *missing("upstream", "listen", "store")],
    ),
    (b'nick = "me"\npassword = "pass"\nupstream = "127.0.0.1:0"', [UPSTREAM, *missing("listen", "store")]),
    (b'nick = "me"\npassword = "pass"\nupstream = "127.0.0.1:65536"', [UPSTREAM, *missing("listen", "store")]),
    (
        b'colour = "red"',
        ["1: colour: is no key of a configuration", *missing("nick", "password", "upstream", "listen", "store")],
    ),
]

# addresses to listen at
LISTEN = [
    (b'["127.0.0.1:1", "127.0.0.1:2"]\n', "5: listen: needs three, five or seven addresses"),
    (b'"127.0.0.1:1"\n', "5: listen: needs a list of texts"),
    (b'["127.0.0.1:1", "127.0.0.1:2", "localhost:3"]\n', f'5: listen: "localhost:3" {ADDRESS}'),
    (b'["127.0.0.1:1", "127.0.0.1:2", "127.0.0.1:0"]\n', f'5: listen: "127.0.0.1:0" {ADDRESS}'),
    (b'["127.0.0.1:1", "127.0.0.1:2", 3]\n', "5: listen: needs addresses 127.0.0.1:PORT"),
    (
        b'[\n  "127.0.0.1:1",\n  "127.0.0.1:2",\n  "localhost:3",\n]\n',
        f'8: listen: "localhost:3" {ADDRESS}',
    ),
    (
        b'["127.0.0.1:1", "127.0.0.1:2", "127.0.0.1:1"]\n',
        "5: listen: needs addresses that differ, and none of upstream's",
    ),
    (
        b'["127.0.0.1:1", "127.0.0.1:2", "127.0.0.1:6667"]\n',
        "5: listen: needs addresses that differ, and none of upstream's",
    ),
]

# further lines with values
RANGES = [
    (b"chan_buffer_size = 501", "6: chan_buffer_size: needs 0 to 500"),
    (b"query_buffer_size = -1", "6: query_buffer_size: needs 0 to 500"),
    (b"query_buffer_size = 501", "6: query_buffer_size: needs 0 to 500"),
    (b"max_query_buffers = 0", "6: max_query_buffers: needs 1 to 50"),
    (b"max_query_buffers = 51", "6: max_query_buffers: needs 1 to 50"),
    (b"offset_minutes = 1440", "6: offset_minutes: needs -1439 to 1439"),
    (b"offset_minutes = -1440", "6: offset_minutes: needs -1439 to 1439"),
    (b"multi_clients = 1", "6: multi_clients: needs true or false"),
    (b"\nbeat_ms = 9", "7: beat_ms: needs 10 to 10000"),
    (b"timeout_ms = 60001", "6: timeout_ms: needs 50 to 60000"),
    (b"flood_burst = 0", "6: flood_burst: needs 1 to 100"),
    (b"flood_ms = 60001", "6: flood_ms: needs 0 to 60000"),
    (b"renew_at = 1000001", "6: renew_at: needs 0 to 1000000"),
    (b"renew_at = -1", "6: renew_at: needs 0 to 1000000"),
    (b'beat_ms = "100"', "6: beat_ms: needs a whole number"),
]

# further lines with texts and channels
OPTIONAL = [
    (b'upstream_password = "a b"', "6: upstream_password: needs 1 to 64 bytes without space"),
    (b'record = ""', "6: record: needs a path"),
    (b'log = "loud"', "6: log: needs quiet, info or debug"),
    (b'input = "close"', "6: input: needs stop or ignore"),
    (b"input = false", "6: input: needs a text"),
    (b'channels = ["#x", "y"]', '6: channels: "y" is no channel\'s name: begin it with #'),
    (b'channels = [\n  "#x",\n  "y",\n]', '8: channels: "y" is no channel\'s name: begin it with #'),
    (
        b'channels = ["#a b"]',
        '6: channels: "#a b" is no channel\'s name: write # and up to 63 bytes without space or comma',
    ),
    (b"channels = [3]", "6: channels: needs names of channels"),
    (b'channels = ["#x", "#y", "#X"]', "6: channels: names a channel twice"),
    (b"channels = [" + channels(101) + b"]", "6: channels: takes at most 100 names"),
]

# further lines with a name that no key has: the closest key is named, if one is close
NAMES = [
    (b'chanels = ["#x"]', "6: chanels: is no key of a configuration: did you mean channels?"),
    (b"Log = 1", "6: Log: is no key of a configuration: did you mean log?"),
    (b"floodms = 1", "6: floodms: is no key of a configuration: did you mean flood_ms?"),
    (b"lo = 1", "6: lo: is no key of a configuration"),
    (b"colour = 1", "6: colour: is no key of a configuration"),
]

# further lines with several faults, which are reported in the order of the lines
SEVERAL = [
    (
        b'log = "loud"\nbeat_ms = 9\nchannels = ["x"]\n',
        [
            "6: log: needs quiet, info or debug",
            "7: beat_ms: needs 10 to 10000",
            '8: channels: "x" is no channel\'s name: begin it with #',
        ],
    ),
    (
        b'colour = 1\nchan_buffer_size = 501\nchannels = ["#x", "#X"]\naside = 2\n',
        [
            "6: colour: is no key of a configuration",
            "7: chan_buffer_size: needs 0 to 500",
            "8: channels: names a channel twice",
            "9: aside: is no key of a configuration",
        ],
    ),
]

# keys that are missing beside other faults, and equal addresses beside a bad server
BESIDE = [
    (
        LEAST.replace(b'nick = "me"\n', b"").replace(b'"store"', b'""') + b"flood_burst = 0\n",
        ["3: store: needs a path", "5: flood_burst: needs 1 to 100", *missing("nick")],
    ),
    (
        LEAST.replace(b"127.0.0.1:6667", b"localhost").replace(b":3", b":1"),
        [UPSTREAM, "5: listen: needs addresses that differ, and none of upstream's"],
    ),
]

FAULTY = [
    *((text, [line]) for text, line in NO_TOML),
    *NEEDED,
    *((LISTENING + text, [line]) for text, line in LISTEN),
    *((LEAST + text, [line]) for text, line in RANGES + OPTIONAL + NAMES),
    *((LEAST + text, lines) for text, lines in SEVERAL),
    *BESIDE,
]
