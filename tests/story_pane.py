"""Shows a growing text in a pane of any size, its end at the bottom, words whole: `story_pane.py FILE`. A key ends it."""

import os
import select
import signal
import sys
import termios
import textwrap
import tty

LOOK = 0.2  # seconds between two checks of the file


def lines_of(text, width):
    """The text in lines that fit. A step begins after an empty line, and its further lines are below its words."""
    lines = []
    for step in text.split("\n"):
        lines += textwrap.wrap(step, width - 2, initial_indent=" ", subsequent_indent="    ") or [""]
    return lines


def draw(text):
    width, height = os.get_terminal_size(1)
    shown = lines_of(text, max(width, 20))[-height:]
    sys.stdout.write("\x1b[H\x1b[2J" + "\r\n".join(shown))
    sys.stdout.flush()


def main():
    path = sys.argv[1]
    before, shown, changed = termios.tcgetattr(0), None, [True]
    signal.signal(signal.SIGWINCH, lambda *_: changed.__setitem__(0, True))
    tty.setcbreak(0)
    try:
        while True:
            with open(path) as file:
                text = file.read().rstrip("\n")
            if changed[0] or text != shown:
                changed[0], shown = False, text
                draw(text)
            try:
                if select.select([0], [], [], LOOK)[0]:
                    return
            except InterruptedError:
                pass
    finally:
        termios.tcsetattr(0, termios.TCSANOW, before)


main()
