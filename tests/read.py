#!/usr/bin/env python3
"""Drives 'mealplan read' through a pseudo-terminal: keys in, the last frame that it drew out, and the terminal's settings before and after,
at its end and when a signal ends it. Called with the command and the folder of sample plans."""

import fcntl
import os
import pty
import select
import signal
import struct
import subprocess
import sys
import termios
import time

COMMAND, SAMPLES = sys.argv[1:3]
HOME, CLEAR_LINE, CLEAR_BELOW = "\x1b[H", "\x1b[K", "\x1b[J"
ENTER, LEAVE = "\x1b[?1049h\x1b[?25l", "\x1b[?25h\x1b[?1049l"
SECONDS = 10


def fail(what):
    raise SystemExit("read: " + what)


class Terminal:
    """A reader of a plan in a terminal of so many rows and columns."""

    def __init__(self, plan, *options, rows=24, columns=80):
        self.ours, self.its = pty.openpty()
        self.resize(rows, columns)
        self.before = termios.tcgetattr(self.its)
        self.text = ""
        self.running = subprocess.Popen([COMMAND, "read", *options, plan], stdin=self.its, stdout=self.its, stderr=self.its,
                                        start_new_session=True,
                                        preexec_fn=lambda: fcntl.ioctl(0, termios.TIOCSCTTY, 0))

    def resize(self, rows, columns):
        fcntl.ioctl(self.its, termios.TIOCSWINSZ, struct.pack("HHHH", rows, columns, 0, 0))

    def hear(self, seconds):
        """Takes what it has written, for a moment."""
        if select.select([self.ours], [], [], seconds)[0]:
            self.text += os.read(self.ours, 65536).decode()

    def frame(self):
        """The lines of the last whole frame."""
        frames = self.text.split(CLEAR_BELOW)
        whole = frames[-2] if len(frames) > 1 else ""
        return [line.removesuffix(CLEAR_LINE) for line in whole.split(HOME)[-1].split("\r\n")]

    def shows(self, *lines):
        """Waits until a frame has these lines."""
        end = time.monotonic() + SECONDS
        while not all(line in self.frame() for line in lines):
            if time.monotonic() > end:
                fail("%r is not in\n%s" % (lines, "\n".join(self.frame())))
            self.hear(0.05)

    def press(self, keys):
        os.write(self.ours, keys)

    def ends(self, status):
        """Waits for its end, with all settings as they were and its own screen left."""
        end = time.monotonic() + SECONDS
        while self.running.poll() is None:
            if time.monotonic() > end:
                self.running.kill()
                fail("it doesn't end")
            self.hear(0.05)
        self.hear(0.05)
        if self.running.returncode != status:
            fail("it ends with %d, not %d:\n%s" % (self.running.returncode, status, self.text))
        if termios.tcgetattr(self.its) != self.before:
            fail("the terminal isn't as it was")
        if ENTER in self.text and self.text.rindex(LEAVE) < self.text.rindex(ENTER):
            fail("its screen isn't left")
        os.close(self.ours), os.close(self.its)

    def is_raw(self):
        return not termios.tcgetattr(self.its)[3] & (termios.ICANON | termios.ECHO | termios.ISIG)


def walked():
    """Letters and arrows, the path, the label and the cells."""
    t = Terminal(SAMPLES + "/plan.bin")
    t.shows("path   above the forest", "label  none", "cells  0", "above the forest: a or z leads in")
    if not t.is_raw():
        fail("the terminal isn't raw")
    t.press(b"f")
    t.shows("f: above the forest only a and z lead in", "path   above the forest")
    t.press(b"a")
    t.shows("path   1", "label  99 c", "cells  4", "  > 99 c", "        97 a", "    97 a")
    t.press(b"\x1b[D")  # left
    t.shows("u: this is a root: nothing is above it", "path   1")
    t.press(b"fnnfnn")
    t.shows("path   1 / 3 / 3", "label  97 a", "cells  5", "trail  99 c / 99 c / 97 a")
    t.press(b"n")
    t.shows("path   1 / 3 / 4", "label  98 b", "cells  6")
    t.press(b"\x1b[D\x1b[A")  # left, up
    t.shows("path   1 / 2", "label  98 b")
    t.press(b"\x1bOB\x1b[C\x1b[B")  # down, right, down
    t.shows("path   1 / 3 / 2")
    t.press(b"\x1b")
    time.sleep(0.1)
    t.press(b"[F")  # End, in two parts
    t.shows("path   3", "label  98 b")
    t.press(b"\x1b[Hm")
    t.shows("path   1", "remembered: 1")
    t.press(b"fnn=")
    t.shows("path   1 / 3", "another than remembered, at 4")
    t.press(b"gl")
    t.shows("path   1 / 4", "label  98 b")
    t.press(b"xq")
    t.ends(0)
    if not t.text.replace("\r\n", "\n").endswith(LEAVE + "stopped at 1 / 4, 6 cells\n"):
        fail("its last line is %r" % t.text[-60:])


def one_rule():
    """The forest of one rule alone, an empty one, and one that is holed."""
    t = Terminal(SAMPLES + "/plan.bin", "--rule", "3")
    t.shows(SAMPLES + "/plan.bin: 8 narrow rules, rule 3; 2 trees, 2 entries, 1 levels", "path   above the forest")
    t.press(b"zm")
    t.shows("path   2", "label  98 b", "cells  3", "remembered: 2")
    t.press(b"n")
    t.shows("n: this is the last of its siblings: nothing comes next", "path   2")
    t.press(b"f")
    t.shows("f: this has no children: nothing is below it", "path   2")
    t.press(b"p=")
    t.shows("path   1", "label  97 a", "another than remembered, at 1")
    t.press(b"p")
    t.shows("p: this is the first of its siblings: nothing comes before it", "path   1")
    t.press(b"q")
    t.ends(0)
    t = Terminal(SAMPLES + "/plan.bin", "--rule=0")
    t.shows("path   above the forest", "the forest is empty: no key leads anywhere")
    t.press(b"a")
    t.shows("a: the forest is empty: no key leads anywhere")
    t.press(b"q")
    t.ends(0)
    t = Terminal(SAMPLES + "/plan.bin", "--rule=4")
    t.ends(1)
    if ENTER in t.text or "rule 4: refused 10 at 0: " not in t.text:
        fail("of a holed rule it says %r" % t.text)


def resized():
    """A window of another size is drawn anew, and its lines fit."""
    t = Terminal(SAMPLES + "/wide.bin")
    t.press(b"af")
    t.shows("path   1 / 1", "label  65535")
    t.resize(12, 30)
    os.kill(t.running.pid, signal.SIGWINCH)
    end = time.monotonic() + SECONDS
    while len(t.frame()) > 12 or max(map(len, t.frame())) > 30:
        if time.monotonic() > end:
            fail("it doesn't fit the window:\n" + "\n".join(t.frame()))
        t.hear(0.05)
    t.shows("path   1 / 1")
    t.press(b"\x04")
    t.ends(0)


def signalled():
    """Signals that end it, and one that stops it until it goes on."""
    for number in (signal.SIGTERM, signal.SIGHUP, signal.SIGINT, signal.SIGQUIT):
        t = Terminal(SAMPLES + "/plan.bin")
        t.press(b"a")
        t.shows("path   1")
        os.kill(t.running.pid, number)
        t.ends(-number)
    t = Terminal(SAMPLES + "/plan.bin")
    t.press(b"a")
    t.shows("path   1")
    for stop in (lambda: os.kill(t.running.pid, signal.SIGTSTP), lambda: t.press(b"\x1a")):
        stop()
        _, status = os.waitpid(t.running.pid, os.WUNTRACED)
        if not os.WIFSTOPPED(status):
            fail("it isn't stopped")
        if termios.tcgetattr(t.its) != t.before:
            fail("the terminal of a stopped reader isn't as it was")
        t.text = ""
        os.kill(t.running.pid, signal.SIGCONT)
        t.shows("path   1", "label  99 c")
        if not t.is_raw():
            fail("the terminal of a reader that goes on isn't raw")
    t.press(b"n\x03")
    t.ends(0)


def refused():
    """What is no plan is said before the terminal is touched."""
    t = Terminal(SAMPLES + "/classes.txt")
    t.ends(1)
    if ENTER in t.text or "refused 1 at 0: " not in t.text:
        fail("of what is no plan it says %r" % t.text)


walked()
one_rule()
resized()
signalled()
refused()
print("read: keys, window and signals as expected")
