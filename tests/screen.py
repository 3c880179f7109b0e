"""irssi and WeeChat, each in a terminal (tmux)."""

import os
import re
import subprocess
import time

from client import LONGEST, Late, until
from ircd import HEARD


SHOWN = 0.3  # seconds after which a screen shows what was typed


class Screen:
    """A program in its own terminal."""

    count = 0

    def __init__(self, room, command):
        Screen.count += 1
        self.tmux = ["tmux", "-S", os.path.join(room, f"tmux-{Screen.count}")]
        start = ["-f", "/dev/null", "new-session", "-d", "-x", "120", "-y", "50", command]
        subprocess.run([*self.tmux, *start], check=True)

    def text(self):
        done = subprocess.run([*self.tmux, "capture-pane", "-p"], capture_output=True, text=True)
        return done.stdout

    def wait(self, words, seconds=LONGEST):
        until(lambda: words in self.text(), lambda: f"{words!r} on the screen:\n{self.text()}", seconds)

    def type(self, line):
        subprocess.run([*self.tmux, "send-keys", "-l", line], check=True)
        subprocess.run([*self.tmux, "send-keys", "Enter"], check=True)

    def is_there(self):
        return subprocess.run([*self.tmux, "has-session"], stderr=subprocess.DEVNULL).returncode == 0

    def shows(self, other, channel):
        """Whether it shows what another one says in a channel now."""
        mark = f"mark {time.monotonic()}"
        self.type(f"/window goto {channel}")
        other.say(f"PRIVMSG {channel} :{mark}")
        try:
            return until(lambda: mark in self.text(), "a mark", HEARD)
        except Late:
            return False

    def stop(self):
        subprocess.run([*self.tmux, "kill-server"], stderr=subprocess.DEVNULL)


class Irssi(Screen):
    """An irssi that connects to a node."""

    def __init__(self, room, port):
        super().__init__(room, f"irssi --home={os.path.join(room, 'irssi')} -n me")
        self.wait("[(status)]")
        # else it waits between its commands, for servers that count them
        self.type("/set cmd_queue_speed 10msec")
        self.type(f"/connect 127.0.0.1 {port} pw")

    def window(self, channel):
        """The number of a channel's window, which is then shown, if there is one."""
        self.type(f"/window goto {channel}")
        time.sleep(SHOWN)
        found = re.search(rf"\[(\d+):\S*{channel}[\](]", self.text())
        return found and int(found[1])


class Weechat(Screen):
    """A WeeChat that connects to a node."""

    def __init__(self, room, port):
        connects = f"/server add b 127.0.0.1/{port} -password=pw -notls -nicks=me;/connect b"
        super().__init__(room, f"weechat -d {os.path.join(room, f'weechat-{port}-{Screen.count}')} -r '{connects}'")

    def window(self, channel):
        """The number of a channel's buffer, which is then shown, if there is one."""
        self.type(f"/buffer {channel}")
        time.sleep(SHOWN)
        found = re.search(rf"\] (\d+):{channel}[\s({{]", self.text())
        return found and int(found[1])
