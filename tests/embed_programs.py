#!/usr/bin/env python3
"""Types by fcitx5 (pinyin) into foot and an entry of GTK 4, through the compositor of examples/embed.

    tests/embed_programs.py FOLDER [ROUNDS]

FOLDER has `compositor`, `entry` and `method`, as tests/embed_programs.sh builds them. Prints what each program got.
"""
import os
import signal
import subprocess
import sys
import tempfile
import time

from pinyin_desk import FCITX5, Programs, keys_of, moved, until

KEYS = keys_of({16: "qwertyuiop", 30: "asdfghjkl", 44: "zxcvbnm", 57: " ", 28: "\n"})
WINDOWS = {"term": "term.out", "entry": "entry.out"}


class Desk(Programs):
    """The compositor, and the programs that were started under it; all end with it."""

    def __init__(self, built, work):
        super().__init__(work, ASAN_OPTIONS="detect_leaks=0")
        self.compositor = self.start(built + "/compositor", stdin=subprocess.PIPE, stdout=subprocess.PIPE, text=True)
        self.env["WAYLAND_DISPLAY"] = self.compositor.stdout.readline().split()[1]

    def ask(self, line):
        self.compositor.stdin.write(line + "\n")
        self.compositor.stdin.flush()
        return self.compositor.stdout.readline().rstrip("\n")

    def type(self, text):
        for letter in text:
            self.ask(f"key {KEYS[letter]} 1")
            self.ask(f"key {KEYS[letter]} 0")

    def look(self):
        """The labels of the field, the method and the grab that have the seat."""
        return [int(label) for label in self.ask("look").split()]

    def popups(self):
        return [[int(value) for value in popup.split()] for popup in self.ask("popups").split(";") if popup]

    def press(self, *codes):
        """Keys pressed one after another, and released in reverse."""
        for state, keys in ((1, codes), (0, codes[::-1])):
            for code in keys:
                self.ask(f"key {code} {state}")

    def focus(self, window):
        """Waits till fcitx5 grabs the keyboard for it, as at each focus: what goes to its last grab is lost."""
        if self.focused == window:
            return
        had = self.look()
        self.ask(f"focus {window}")
        until(f"fcitx5 grabs the keys of {window}", lambda: all(
            now not in (0, old) for now, old in zip(self.look()[::2], had[::2])))
        self.focused = window

    def unfocus(self):
        self.ask("unfocus")
        self.focused = None

    def got(self, window):
        return self.read(WINDOWS[window])

    def end(self):
        """Each has its own session, so that what it started ends too."""
        code = None
        for process in self.started[1:]:
            if process.poll() is None:
                os.killpg(process.pid, signal.SIGTERM)
        try:
            self.compositor.stdin.write("quit\n")
            self.compositor.stdin.flush()
            code = self.compositor.wait(10)
        except (subprocess.TimeoutExpired, BrokenPipeError):
            pass
        super().end()
        return code


def out_of_time(*_):
    raise TimeoutError("out of time")


def start_fcitx5(desk):
    """It has loaded pinyin once a field is focused; before, it gives all keys back."""
    fcitx5 = desk.start("env", f"DBUS_SESSION_BUS_ADDRESS=unix:path={desk.path('bus')}", *FCITX5)
    until("fcitx5", lambda: desk.look()[1])
    until("pinyin", lambda: "addon pinyin" in desk.read(fcitx5.log))
    desk.unfocus()
    return fcitx5


def typed(desk, window, keys, wanted):
    """Keys into a window, one after another, and what it has then."""
    before = desk.got(window)
    desk.focus(window)
    desk.type(keys)
    until(f"{window} gets {wanted!r}", lambda: desk.got(window) == before + wanted)
    print(f"{window}: {keys!r} gave {wanted!r}")


def candidates(desk):
    """They are shown inside of the screen while there is something to choose, in the window that has the focus."""
    desk.focus("term")
    desk.type("ni")
    until("candidates", desk.popups)
    x, y, width, height = desk.popups()[0]
    if x < 0 or y < 0 or x + width > 800 or y + height > 600:
        raise AssertionError(f"candidates at {desk.popups()}")
    desk.unfocus()
    until("no candidates", lambda: not desk.popups())
    print(f"candidates of {width} times {height} at {x}, {y}, which go with the focus")


def copied(desk):
    """Ctrl+A and Ctrl+C in the entry, Ctrl+Shift+V in the terminal."""
    before = desk.got("term")
    desk.focus("entry")
    desk.press(29, KEYS["a"])
    desk.press(29, KEYS["c"])
    desk.press(107)  # End: nothing is selected any more
    time.sleep(1)  # till the method has given them back
    desk.focus("term")
    time.sleep(0.5)
    desk.press(29, 42, KEYS["v"])
    until("the terminal gets what was copied", lambda: desk.got("term") == before + desk.got("entry"))
    print("what was copied in the entry is pasted into the terminal")


def sandboxed(desk, built):
    """A program with mounts of its own is no method, and one without them is."""
    if subprocess.run(["unshare", "--mount", "true"], capture_output=True, check=False).returncode:
        print("no sandbox is tried: that needs root")
        return
    for words in (["unshare", "--mount"], []):
        program = desk.start(*words, built + "/method", "10", "10", "us", stdin=subprocess.PIPE, stdout=subprocess.PIPE,
                             text=True)
        first = program.stdout.readline().strip()
        program.kill()
        program.wait(10)
        if (first == "unavailable") != bool(words):
            raise AssertionError(f"a method {' '.join(words)} is told {first!r}")
    print("a program in a sandbox is no method")


def killed(desk, fcitx5):
    """Without fcitx5 keys pass; where it starts again it types again."""
    fcitx5.kill()
    until("fcitx5's end", lambda: not desk.look()[1])
    for window in WINDOWS:
        before = desk.got(window)
        desk.ask(f"focus {window}")
        desk.type("abc")
        until(f"{window} gets keys", lambda: desk.got(window) == before + "abc")
        print(f"{window}: 'abc' gave 'abc' after fcitx5 was killed")


def main():
    built, rounds = os.path.abspath(sys.argv[1]), int(sys.argv[2]) if len(sys.argv) > 2 else 20
    for end in (signal.SIGALRM, signal.SIGTERM):
        signal.signal(end, out_of_time)
    signal.alarm(180)
    with tempfile.TemporaryDirectory() as work:
        desk = Desk(built, work)
        try:
            desk.start_bus()
            desk.start("foot", "-c", "/dev/null", "-a", "term", "sh", "-c", "stty raw -echo; exec cat > term.out")
            desk.start(built + "/entry", "entry.out")
            until("both windows", lambda: set(desk.ask("windows").split()) == set(WINDOWS))
            sandboxed(desk, built)
            fcitx5 = start_fcitx5(desk)
            typed(desk, "term", "nihao ", "你好")
            typed(desk, "entry", "shijie ", "世界")
            typed(desk, "term", "\n", "\r")
            candidates(desk)
            copied(desk)
            moved(desk, rounds, {"term": ("nihao ", "你好"), "entry": ("shijie ", "世界")})
            killed(desk, fcitx5)
            start_fcitx5(desk)
            typed(desk, "term", "nihao ", "你好")
        except (TimeoutError, AssertionError) as error:
            print(f"failed: {error}; what they have: {[desk.got(window) for window in WINDOWS]}")
            for process in desk.started:
                print(f"-- {process.args}\n{desk.read(process.log)[-1500:]}")
            return 1
        finally:
            code = desk.end()
    print(f"the compositor ended with {code}")
    return code


sys.exit(main())
