#!/usr/bin/env python3
"""fcitx5 (pinyin) into GTK 4 and foot beside Mutter without a screen, which has no input-method-v2.

    tests/gateway_mutter.py FOLDER

FOLDER has `wlim-gateway`, `entry` and `keys`, as tests/gateway_mutter.sh builds them.
"""
import os
import re
import subprocess
import sys
import tempfile
import time

from gateway_desk import KEYS, Desk, until

SHIFT, BUTTON_LEFT = 42, 0x110
SECOND = (62, 15)  # where the second candidate of one syllable is, on a popup


class MutterDesk(Desk):
    """The last window that was made has the focus."""

    def start_compositor(self):
        self.compositor = self.start("mutter", "--headless", "--wayland", "--no-x11", "--virtual-monitor", "1280x720",
                                     "--wayland-display", "wayland-1")
        until("mutter's keyboard", lambda: "RemoteDesktop" in self.bus_names())
        self.keys = self.start(self.built + "/keys", stdin=subprocess.PIPE, stdout=subprocess.PIPE, text=True)
        self.keys.stdout.readline()

    def start_typist(self):
        self.press(SHIFT)  # Mutter ends where a client asks for a keyboard before there was a key
        time.sleep(1)

    def bus_names(self):
        return subprocess.run(["dbus-send", "--session", "--print-reply", "--dest=org.freedesktop.DBus", "/",
                               "org.freedesktop.DBus.ListNames"], env=self.env, capture_output=True, text=True,
                              check=False).stdout

    def say(self, *words):
        self.keys.stdin.write(" ".join(map(str, words)) + "\n")
        self.keys.stdin.flush()
        self.keys.stdout.readline()

    def press(self, key):
        for state in (1, 0):
            self.say("key", key, state)

    def click(self, x, y):
        """From the corner, where the pointer is moved at first."""
        self.say("move", -5000, -5000)
        self.say("move", x, y)
        for state in (1, 0):
            time.sleep(0.1)
            self.say("button", BUTTON_LEFT, state)

    def shown(self):
        """Where a popup is shown, and how: inside a window, or beside it; None: none is."""
        log = self.read(self.gateway.log)
        found = re.findall(r"popup is (?:shown|moved) (inside|beside) \((-?\d+), (-?\d+), (\d+), (\d+)\)", log)
        hidden = log.rfind("popup is hidden") > max(log.rfind("popup is shown"), log.rfind("popup is moved"))
        return None if hidden or not found else (found[-1][0], *map(int, found[-1][1:]))

    def write_words(self, window, keys, wanted):
        for letter in keys:
            self.press(KEYS[letter])
            time.sleep(0.05)
        until(f"{window} has {wanted!r}: {self.got(window)!r}", lambda: self.got(window) == wanted)
        print(f"{window}: {keys!r} gave {wanted!r}", flush=True)


def candidates(desk, small):
    """In a window that fills the screen the second candidate is clicked; a small one's are an xdg_popup."""
    words = ["foot", "-c", "/dev/null", "-a", "full", *(["-w", "120x40"] if small else ["-F"])]
    window = desk.start(*words, "sh", "-c", "stty raw -echo; exec cat > full.out", display="wlim-programs")
    entered = desk.logged(r"<- zwp_text_input_v3@\d+\.enter\(")
    until("a field", lambda: desk.logged(r"<- zwp_text_input_v3@\d+\.enter\(") > entered)
    time.sleep(2)
    for letter in "shi":
        desk.press(KEYS[letter])
        time.sleep(0.05)
    until("candidates", desk.shown)
    time.sleep(0.5)
    way, left, top, width, height = desk.shown()
    if not small:
        desk.click(left + SECOND[0], top + SECOND[1])
        until("the second candidate", lambda: len(desk.got("full")) == 1)
    else:
        desk.press(KEYS[" "])
        until("the first candidate", lambda: len(desk.got("full")) == 1)
    until("it is hidden", lambda: not desk.shown())
    if way != ("beside" if small else "inside") or window.poll() is not None:
        raise AssertionError(f"{way}; {window.poll()}")
    by = "a space" if small else "a click"
    print(f"foot: candidates {way} at {left}, {top}, {width} by {height}; {desk.got('full')} by {by}", flush=True)
    for letter in "shi":
        desk.press(KEYS[letter])
    until("candidates", desk.shown)
    entered = desk.logged(r"<- zwp_text_input_v3@\d+\.enter\(")
    desk.kill(window)
    until("it is hidden", lambda: not desk.shown())
    until("another field", lambda: desk.logged(r"<- zwp_text_input_v3@\d+\.enter\(") > entered)
    time.sleep(1)


def run(desk):
    desk.start_gateway(records=False)
    fcitx5 = desk.start_method()
    desk.start_entry("entry")
    until("a field", lambda: desk.logged(r"grab_keyboard\("))
    until("pinyin", lambda: "addon pinyin" in desk.read(fcitx5.log))
    time.sleep(1)
    desk.write_words("entry", "nihao shijie ", "你好世界")
    terminal = desk.start_terminal("term")
    until("another field", lambda: desk.logged(r"<- zwp_text_input_v3@\d+\.enter\(") > 1)
    time.sleep(2)
    desk.write_words("term", "nihao \nshijie ", "你好\r世界")
    entered = desk.logged(r"<- zwp_text_input_v3@\d+\.enter\(")
    desk.kill(terminal)
    until("the first field again", lambda: desk.logged(r"<- zwp_text_input_v3@\d+\.enter\(") > entered)
    time.sleep(1)
    desk.write_words("entry", "nihao ", "你好世界你好")
    for small in (False, True):
        candidates(desk, small)


def main():
    with tempfile.TemporaryDirectory() as work:
        desk = MutterDesk(os.path.abspath(sys.argv[1]), work)
        try:
            run(desk)
            return desk.end_gateway()
        except TimeoutError as error:
            print(f"failed: {error}")
            print(desk.read(desk.gateway.log)[-3000:])
            return 1
        finally:
            desk.end()


sys.exit(main())
