"""Times the program named as argument beside ZNC and bip, where these are installed, one after the other and in the same way
(bench/run.py says how): a table with a row for each figure.

Each has one user and one channel, keeps 500 lines, and paces nothing. ZNC and bip have one address, so all their clients are
at it; the program's are spread over three nodes, and its delays are those of the node that leads and of the others.
"""

import os
import pty
import shutil
import subprocess
import sys
import time

sys.dont_write_bytecode = True
import run
from run import PLAYED, Run

COUNTS = (1, 10, 50)

ZNC = """Version = 1.8.2
AnonIPLimit = 10000
ConnectDelay = 0
ServerThrottle = 0
MaxBufferSize = 1000
<Listener l>
Port = {port}
Host = 127.0.0.1
IPv4 = true
IPv6 = false
SSL = false
AllowIRC = true
AllowWeb = false
</Listener>
<User me>
Pass = plain#word
Admin = true
Nick = me
AltNick = me_
Ident = me
RealName = me
ChanBufferSize = {kept}
AutoClearChanBuffer = true
MultiClients = true
<Network n>
FloodRate = 1000.00
FloodBurst = 100
IRCConnectEnabled = true
Server = 127.0.0.1 {upstream}
<Chan #x>
</Chan>
</Network>
</User>
"""

BIP = """ip = "127.0.0.1";
port = {port};
client_side_ssl = false;
pid_file = "{folder}/bip.pid";
log = true;
log_root = "{folder}/logs";
log_level = 1;
log_system = false;
backlog_reset_on_talk = false;
network {{
    name = "n";
    server {{ host = "127.0.0.1"; port = {upstream}; }};
}};
user {{
    name = "me";
    password = "{password}";
    default_nick = "me";
    default_user = "me";
    default_realname = "me";
    backlog = true;
    backlog_lines = {kept};
    backlog_always = false;
    connection {{
        name = "c";
        network = "n";
        channel {{ name = "#x"; }};
    }};
}};
"""


class Other(Run):
    """Another bouncer, which has one address."""

    def write(self, name, text, **more):
        """Writes its configuration. The path of that."""
        self.ports = self.ports[:1] * 3
        path = os.path.join(self.folder, name)
        os.makedirs(os.path.dirname(path), exist_ok=True)
        upstream = self.server.getsockname()[1]
        with open(path, "w") as out:
            out.write(text.format(port=self.ports[0], upstream=upstream, folder=self.folder, kept=PLAYED, **more))
        return path

    def launch(self, *words):
        """Starts it, as nobody where this is root, since ZNC waits for half a minute as root."""
        who = {}
        if os.geteuid() == 0:
            subprocess.run(["chown", "-R", "nobody", self.folder], check=True)
            who = {"user": "nobody"}
        quiet = {"stdin": subprocess.DEVNULL, "stdout": subprocess.DEVNULL, "stderr": subprocess.DEVNULL}
        self.program = subprocess.Popen(words, cwd=self.folder, **quiet, **who)

    def is_open(self):
        """It joins its channel by itself."""
        return any(line.startswith(b"JOIN") for line in self.upstream.lines)

    def join(self, client):
        self.upstream.send(b":me!me@here JOIN #x\r\n:server 366 me #x :End\r\n")
        time.sleep(0.5)

    def sizes(self):
        return []

    def leader(self):
        return 0

    def told(self):
        return ""

    def end(self):
        self.program.kill()
        self.program.wait()
        shutil.rmtree(self.folder, ignore_errors=True)


class Znc(Other):
    password = "me/n:word"

    def start(self, program):
        self.write("configs/znc.conf", ZNC)
        self.launch(program, "--foreground", "--datadir", self.folder)


class Bip(Other):
    password = "me:word:c"

    def start(self, program):
        path = self.write("bip.conf", BIP, password=hashed("word"))
        os.chmod(path, 0o600)
        os.makedirs(f"{self.folder}/logs", exist_ok=True)
        self.launch(program, "-n", "-f", path, "-s", self.folder)


def hashed(password):
    """A password as bip wants it: its own program reads it from a terminal alone."""
    child, terminal = pty.fork()
    if child == 0:
        os.execlp("bipmkpw", "bipmkpw")
    time.sleep(0.5)
    os.write(terminal, password.encode() + b"\n")
    os.waitpid(child, 0)
    return os.read(terminal, 1000).split()[-1].decode()


def figures(bouncer):
    """The rows of a bouncer: their names, and its figures."""
    rows = [("at rest: % of a processor", f"{run.at_rest(bouncer):.2f}")]
    run.begin(bouncer)
    for count in COUNTS:
        medians = [delay[0] for delay in run.delays(bouncer, count) if delay is not None]
        rows.append((f"200 lines a second, {count} clients: median, ms", ", ".join(f"{ms:.2f}" for ms in medians)))
    for count in COUNTS:
        lines, used = run.flood(bouncer, count)
        rows.append((f"a flood to {count} clients: deliveries a second", f"{count * lines:,.0f}"))
        rows.append((f"a flood to {count} clients: µs of processor a delivery", f"{used:.1f}"))
    rows.append((f"{PLAYED} lines that were missed: ms", f"{run.playback(bouncer):.1f}"))
    rows.append(("memory in the end: MB", f"{bouncer.memory():.0f}"))
    return rows


def columns(program):
    """Each bouncer's name and figures."""
    for name, kind, path in (("Hukbarg", Run, program), ("ZNC", Znc, shutil.which("znc")), ("bip", Bip, shutil.which("bip"))):
        if path is None:
            print(f"{name} is not installed", file=sys.stderr)
            continue
        bouncer = kind(path)
        try:
            yield name, figures(bouncer)
        finally:
            bouncer.end()


def main():
    table = dict(columns(os.path.abspath(sys.argv[1])))
    print(f"| | {' | '.join(table)} |")
    print("|---" * (len(table) + 1) + "|")
    for row in zip(*table.values()):
        print(f"| {row[0][0]} | {' | '.join(figure for _, figure in row)} |")


if __name__ == "__main__":
    main()
