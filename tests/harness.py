"""What the tests of a running bouncer share: checks, waits, ports, bouncers, and the run of the cases."""

import os
import shutil
import signal
import socket
import subprocess
import tempfile
import threading
import time

from client import Client, Late, until, LONGEST, PAUSE

TOP = os.path.dirname(os.path.dirname(os.path.realpath(__file__)))
PROGRAM = os.environ.get("BOUNCER", "")  # else found by program_is_there
os.umask(0o077)  # passwords are in the configurations
STAYS = 0.5  # seconds after which a leader is taken to stay
passed = failed = 0
counting = threading.Lock()


class TooLong(BaseException):
    """All cases together take too long."""


def check(name, holds, shown=""):
    global passed, failed
    with counting:
        if holds:
            passed += 1
        else:
            failed += 1
            print(f"failed: {name} {shown}", flush=True)


def figures(name, text):
    """What was measured, if it is asked for."""
    if "TIMES" in os.environ:
        print(f"{name}: {text}", flush=True)


class Ports:
    """Ports that nobody else gets, chosen by the system, all different. They are bound here but nothing listens, so that a program that
    asks to reuse an address may listen there, and nobody else is given them, even while it is down."""

    def __init__(self, count):
        self.holders = [socket.socket() for _ in range(count)]
        for holder in self.holders:
            holder.setsockopt(socket.SOL_SOCKET, socket.SO_REUSEADDR, 1)
            holder.bind(("127.0.0.1", 0))
        self.numbers = [holder.getsockname()[1] for holder in self.holders]


class Bouncer:
    """A program that runs three nodes, or another number."""

    def __init__(self, folder, upstream_port, nodes=3, **more):
        self.folder = folder
        self.nodes = range(1, nodes + 1)
        self.held = Ports(nodes)
        self.ports = self.held.numbers
        self.config = os.path.join(folder, "hukbarg.toml")
        self.log_path = os.path.join(folder, "log")
        self.process = None
        os.makedirs(folder, exist_ok=True)
        values = {
            "nick": '"me"',
            "password": '"pw"',
            "upstream": f'"127.0.0.1:{upstream_port}"',
            "listen": "[" + ", ".join(f'"127.0.0.1:{port}"' for port in self.ports) + "]",
            "store": f'"{folder}/store"',
            "channels": '["#x"]',
            "flood_burst": "100",
            "flood_ms": "0",
        }
        values.update(more)
        with open(self.config, "w") as config:
            for key, value in values.items():
                config.write(f"{key} = {value}\n")

    def start(self, preexec_fn=None, **environment):
        with open(self.log_path, "a") as log:
            self.begun = os.path.getsize(self.log_path)
            self.process = subprocess.Popen(
                [PROGRAM, "run", self.config],
                stdin=subprocess.PIPE,
                stdout=subprocess.DEVNULL,
                stderr=log,
                env={**os.environ, **environment},
                preexec_fn=preexec_fn,
            )
        return self

    def log(self):
        """What was written to standard error since the start."""
        with open(self.log_path) as log:
            log.seek(self.begun)
            return log.read()

    def wait(self, words, times=1):
        """Waits until the log has these words this many times."""

        def came():
            if self.log().count(words) >= times:
                return True
            if self.process.poll() is not None:
                raise Late(f"{words!r} in the log of a program that ended:\n{self.log()}")
            return False

        until(came, lambda: f"{words!r} {times} times in the log:\n{self.log()}")

    def leader(self):
        """The number of the node that led last."""
        return [int(line.split(" node ")[1][0]) for line in self.log().splitlines() if " leads in term " in line][-1]

    def leaders(self):
        """How often a node came to lead."""
        return self.log().count(" leads in term ")

    def followers(self):
        """The other nodes."""
        leader = self.leader()
        return [node for node in self.nodes if node != leader]

    def journal(self, node):
        return f"{self.folder}/store/node-{node}"

    def up(self):
        """All nodes are up, and there was a session."""
        for node in self.nodes:
            self.wait(f" node {node}: up, run ")
        self.wait("upstream opened")
        return self

    def ready(self):
        """All nodes are up, and there is a session, of a leader that stays: soon after a start another one may be elected."""
        self.up()
        until(self.stays, lambda: f"a leader that stays:\n{self.log()}")
        return self

    def stays(self):
        """Whether there is a session, and no node came to lead for a while."""
        before = self.leaders()
        time.sleep(STAYS)
        log = self.log()
        is_open = log.rfind("upstream opened") > log.rfind("upstream closed")
        return is_open and self.leaders() == before

    def end(self):
        """Ends standard input. Returns the exit code."""
        self.process.stdin.close()
        return self.process.wait(LONGEST)

    def kill(self):
        self.process.send_signal(signal.SIGKILL)
        self.process.wait(LONGEST)
        self.process.stdin.close()

    def is_refusing(self, node):
        """Whether a node's address refuses connections, as when the node is down."""
        try:
            socket.create_connection(("127.0.0.1", self.ports[node - 1]), LONGEST).close()
            return False
        except ConnectionRefusedError:
            return True

    def attach(self, node, nick="me", password="pw"):
        """A client that a node accepted. A node that is not up accepts none."""
        end = time.monotonic() + LONGEST
        while True:
            try:
                client = Client(self.ports[node - 1], nick, password)
            except ConnectionRefusedError:
                if time.monotonic() > end:
                    raise
                time.sleep(PAUSE)
                continue
            try:
                client.wait("Welcome to the bouncer")
                return client
            except Late:
                if client.is_open or time.monotonic() > end:
                    raise
                client.close()


def said(*words, folder=None, environment=None):
    """What the program answers to these arguments, in this folder and environment, while its standard input is held open: the exit code,
    and the lines of its output and of its errors."""
    reading, writing = os.pipe()
    room = {"cwd": folder, "env": {**os.environ, **(environment or {})}}
    try:
        done = subprocess.run([PROGRAM, *words], stdin=reading, capture_output=True, timeout=LONGEST, text=True, errors="replace", **room)
    finally:
        os.close(reading)
        os.close(writing)
    return done.returncode, done.stdout.splitlines(), done.stderr.splitlines()


def program_is_there():
    """Finds the program, and builds it if there is none of these sources, unless another one is named."""
    global PROGRAM
    if "BOUNCER" not in os.environ:
        which = subprocess.run([os.path.join(TOP, "bouncer"), "--which"], stdout=subprocess.PIPE, text=True)
        PROGRAM = which.stdout.strip()
    return PROGRAM != "" and subprocess.run([PROGRAM, "--version"], stdout=subprocess.DEVNULL).returncode == 0


def run_case(case, room):
    """Runs a case in this folder. If a wait was in vain, that is a failure."""
    begun = time.monotonic()
    try:
        case(room)
    except (Late, OSError, subprocess.SubprocessError) as fault:
        check(f"{case.__name__}: {fault}", False)
    if "TIMES" in os.environ:
        print(f"{case.__name__}: {time.monotonic() - begun:.1f} s", flush=True)


def run_at_once(cases, room, most):
    """Runs the cases, at most this many at once, each in its own thread. An exception in a case is a failure, too."""
    turns = threading.Semaphore(most)

    def guarded(case):
        with turns:
            try:
                run_case(case, room)
            except Exception as fault:
                check(f"{case.__name__}: {fault!r}", False)

    threads = [threading.Thread(target=guarded, args=(case,), daemon=True) for case in cases]
    for thread in threads:
        thread.start()
    for thread in threads:
        thread.join()


def note_children():
    """A list of all processes that are started from now on."""
    children = []
    start = subprocess.Popen.__init__

    def noted(self, *args, **kwargs):
        start(self, *args, **kwargs)
        children.append(self)

    subprocess.Popen.__init__ = noted
    return children


def run_cases(cases, seconds, at_once=1):
    """Runs the cases in a new folder, this many at once, for at most this many seconds, ends what they started, and prints how many
    checks passed."""
    global failed

    def too_long(*_):
        raise TooLong

    children = note_children()
    room = tempfile.mkdtemp(prefix="hukbarg-")
    os.chmod(room, 0o755)
    signal.signal(signal.SIGALRM, too_long)
    signal.alarm(seconds)
    try:
        if at_once > 1:
            run_at_once(cases, room, at_once)
        else:
            for case in cases:
                run_case(case, room)
    except TooLong:
        failed += 1
        print(f"failed: cut off after {seconds} s", flush=True)
    finally:
        signal.alarm(0)
        for child in children:
            if child.poll() is None:
                child.kill()
                child.wait()
        if failed and "KEEP" in os.environ:
            print(f"kept: {room}", flush=True)
        else:
            shutil.rmtree(room, ignore_errors=True)
    print(f"{passed} passed, {failed} failed")
    return 1 if failed else 0
