#!/usr/bin/env python3
"""What the Tab key makes of a command line, in a real shell on a pseudo-terminal.

Starts the shell without start-up files, runs the setup line in it, types the text and Tab, waits until the line stops changing,
and then presses Enter. The setup makes `gtd` and `gtdesk` functions that print their words, each in angle brackets, in place of
running the programs: `<year><town.csv>`.

Usage: tests/press_tab.py bash|zsh SETUP TEXT
"""
import os
import pty
import re
import select
import signal
import sys
import time

SHELLS = {"bash": ["bash", "--norc", "--noprofile", "-i"], "zsh": ["zsh", "-f", "-i"]}
READY, BEGIN, END = "ready> ", "[words ", " words]"
PRINT = "gtd() { printf '\\133words '; printf '<%s>' \"$@\"; printf ' words\\135'; }; gtdesk() { gtd \"$@\"; }"


class Shell:
    """A shell on a pseudo-terminal, and all that it has written since the last key press."""

    def __init__(self, name):
        pid, self.terminal = pty.fork()
        if pid == 0:
            os.environ.update(PS1="", TERM="dumb", HISTFILE="", INPUTRC="/dev/null")
            os.execvp(SHELLS[name][0], SHELLS[name])
        self.pid, self.seen = pid, ""

    def press(self, keys):
        self.seen = ""
        os.write(self.terminal, keys.encode())

    def wait(self, text, seconds=20):
        """Waits until the text has been written."""
        end = time.monotonic() + seconds
        while text not in self.seen:
            if time.monotonic() > end:
                sys.exit(f"no {text!r} in {self.seen!r}")
            self.read(0.2)

    def settle(self):
        """Waits until nothing has been written for half a second."""
        while self.read(0.5):
            pass

    def read(self, seconds):
        if not select.select([self.terminal], [], [], seconds)[0]:
            return False
        try:
            self.seen += os.read(self.terminal, 65536).decode(errors="replace")
        except OSError:
            sys.exit(f"the shell ended: {self.seen!r}")
        return True

    def stop(self):
        """Ends the shell."""
        os.kill(self.pid, signal.SIGKILL)
        os.waitpid(self.pid, 0)


def main():
    name, setup, text = sys.argv[1:]
    shell = Shell(name)
    shell.press(f"{setup}; {PRINT}; PS1='re''ady> '\n")
    shell.wait(READY)
    shell.press(text + "\t")
    shell.settle()
    shell.press("\n")
    shell.wait(END)
    print(re.search(re.escape(BEGIN) + "(.*?)" + re.escape(END), shell.seen, re.S).group(1))
    shell.stop()


main()
