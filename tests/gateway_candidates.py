#!/usr/bin/env python3
"""fcitx5's candidates in real programs, through the gateway beside sway: seen, clicked, hidden; and who ends under them.

    tests/gateway_candidates.py FOLDER [MOVES [PROGRAM..]]

FOLDER is as tests/gateway.sh builds it. The candidates are found in a screenshot by the pixels that the method drew.
Pictures stay in FOLDER.
"""
import glob
import os
import random
import re
import subprocess
import sys
import time

from gateway_client import Client
from gateway_desk import PAUSE, Desk, play
from pinyin_desk import until

SHOWN = r"popup is (?:shown|moved) (?:inside|beside) \((-?\d+), (-?\d+), (\d+), (\d+)\)"
BUTTON_LEFT, SECOND = 0x110, (62, 15)  # where the second candidate is, of one syllable
EDGE = 5  # pixels at a popup's edges that may be translucent
PAGE = ("<meta charset=utf-8><title>-</title><input id=i autofocus oninput='document.title=this.value'>"
        "<script>i.focus()</script>")


class Screen:
    """A screenshot, as rows of RGB bytes."""

    def __init__(self, desk, name):
        file = f"{desk.built}/{name}.ppm"
        subprocess.run(["grim", "-t", "ppm", file], env={**desk.env, "WAYLAND_DISPLAY": "wayland-1"}, check=True)
        with open(file, "rb") as data:
            kind, size, _, pixels = data.read().split(b"\n", 3)
        if kind != b"P6":
            raise AssertionError(f"a screenshot of {kind}")
        width, height = map(int, size.split())
        self.rows = [pixels[at * width * 3:(at + 1) * width * 3] for at in range(height)]

    def find(self, picture):
        """Where rows of a picture stand, from the left and the top; None: nowhere."""
        width = len(picture[0])
        for top in range(len(self.rows) - len(picture) + 1):
            left = self.rows[top].find(picture[0])
            while left >= 0:
                rows = (self.rows[top + at][left:left + width] == row for at, row in enumerate(picture))
                if left % 3 == 0 and all(rows):
                    return left // 3, top
                left = self.rows[top].find(picture[0], left + 1)
        return None


class Mouse(Client):
    """A pointer at the compositor itself, beside the gateway."""

    def __init__(self, desk):
        super().__init__(desk.path("wayland-1"), desk.interfaces)
        self.pointer = self.send(self.bind("zwlr_virtual_pointer_manager_v1", 1), "create_virtual_pointer", 0)

    def move(self, x, y):
        self.send(self.pointer, "motion_absolute", int(time.monotonic() * 1000) & 0x7FFFFFFF, x, y, 1280, 720)
        self.send(self.pointer, "frame")
        self.roundtrip()

    def click(self, x, y):
        for place in ((x - 1, y - 1), (x, y)):
            self.move(*place)
            time.sleep(0.05)
        for state in (1, 0):
            self.send(self.pointer, "button", int(time.monotonic() * 1000) & 0x7FFFFFFF, BUTTON_LEFT, state)
            self.send(self.pointer, "frame")
            self.roundtrip()
            time.sleep(0.02)


class CandidateDesk(Desk):
    """A desk with programs of each kind; what a browser's field has is its window's title."""

    def launch(self, window):
        kind, wayland = window.rstrip("0123456789"), {"QT_QPA_PLATFORM": "wayland", "MOZ_ENABLE_WAYLAND": "1"}
        here, page = os.path.dirname(os.path.abspath(__file__)), self.path("page.html")
        self.write("page.html", PAGE)
        if window == "kitty":
            wayland["LIBGL_ALWAYS_SOFTWARE"] = "1"
        if kind == "firefox":
            os.makedirs(self.path("profile"), exist_ok=True)
            self.write("profile/user.js", "".join(f'user_pref("{name}", {value});\n' for name, value in (
                ("browser.shell.checkDefaultBrowser", "false"), ("browser.aboutwelcome.enabled", "false"),
                ("datareporting.policy.dataSubmissionEnabled", "false"), ("browser.tabs.inTitlebar", "0"),
                ("toolkit.telemetry.reportingpolicy.firstRun", "false"), ("gfx.webrender.software", "true"))))
        raw = ["sh", "-c", f"stty raw -echo; exec cat > {window}.out"]
        command = {
            "foot": ["foot", "-c", "/dev/null", "-a", window, *raw],
            "kitty": ["kitty", "--config", "NONE", "--class", window, *raw],
            "gtk3": [self.built + "/entry3", window + ".out", window],
            "gtk4": [self.built + "/entry", window + ".out", window],
            "qt5": [here + "/gateway_qt_entry.py", "5", window + ".out", window],
            "qt6": [here + "/gateway_qt_entry.py", "6", window + ".out", window],
            "firefox": ["env", "HOME=" + self.path("profile"), "XDG_RUNTIME_DIR=" + self.path("profile"),  # root's
                        "WAYLAND_DISPLAY=" + self.path("wlim-programs"), "firefox-esr", "--no-remote", "--name", window,
                        "--profile", self.path("profile"), "file://" + page],
            "chromium": ["chromium", "--no-sandbox", "--ozone-platform=wayland", "--enable-wayland-ime",
                         "--disable-gpu", "--no-first-run", "--class=" + window,
                         "--user-data-dir=" + self.path("chromium"), "file://" + page],
        }[window if window in ("gtk3", "gtk4", "qt5", "qt6") else kind]
        self.env.update(wayland)
        return self.start(*command, display="wlim-programs")

    def titles(self):
        found, trees = {}, [self.sway("", 4)]
        while trees:
            tree = trees.pop()
            trees += tree["nodes"] + tree["floating_nodes"]
            if tree.get("app_id"):
                found[tree["app_id"]] = tree["name"] or ""
        return found

    def app(self, window):
        """The window's application id, which browsers choose."""
        return next((app for app in self.windows() if app.lower().startswith(window)), window)

    def got(self, window):
        if window.startswith("foot"):  # foot 1.13 may keep a word back: what it is told is looked at
            return "".join(re.findall(r'<- zwp_text_input_v3@\d+\.commit_string\("(.*?)"\)',
                                      self.read(self.gateway.log)))
        if window in ("firefox", "chromium"):
            return re.split(r" [-\u2014] ", self.titles().get(self.app(window), "-"))[0].strip("-")
        return self.read(window + ".out")

    def stands(self):
        return f"{self.windows()}; {self.shown()}"

    def shown(self):
        """Where the popup that is shown stands on its window, and how large it is; None: none is shown."""
        log = self.read(self.gateway.log)
        if log.rfind("popup is hidden") > max(log.rfind("popup is shown"), log.rfind("popup is moved")):
            return None
        found = re.findall(SHOWN, log)
        return [int(word) for word in found[-1]] if found else None

    def start_method(self):
        self.method = super().start_method()
        return self.method

    def pictures(self, width, height):
        """All pixels that the method shares, of that size, without edges, as rows of RGB; root alone can look there,
        others at the gateway's copies."""
        files = f"/proc/{self.method.pid}/map_files/*" if os.getuid() == 0 else f"/proc/{self.gateway.pid}/fd/*"
        for file in glob.glob(files):
            try:
                if "memfd" not in os.readlink(file) or os.stat(file).st_size != width * height * 4:
                    continue
                with open(file, "rb") as data:
                    pixels = data.read()
            except OSError:
                continue
            yield [b"".join(pixels[at + 2:at + 3] + pixels[at + 1:at + 2] + pixels[at:at + 1]
                            for at in range((row * width + EDGE) * 4, (row * width + width - EDGE) * 4, 4))
                   for row in range(EDGE, height - EDGE)]

    def seen(self, name):
        """Where the popup is seen on the screen; None: it isn't."""
        place, found = self.shown(), []
        if not place or place[2] == 0:
            return None
        screen = Screen(self, name)
        found = [screen.find(picture) for picture in self.pictures(place[2], place[3])]
        return next(((at[0] - EDGE, at[1] - EDGE) for at in found if at), None)


def compose(desk, window, keys="shi"):
    """Types a syllable, and waits till its candidates are seen. Where they are on the screen."""
    desk.type(keys, PAUSE)
    place = []
    until(f"{window} has candidates", lambda: place.append(desk.seen(window)) or place[-1], 8)
    return place[-1]


def chosen(desk, mouse, window):
    """A syllable whose first candidate a space takes, and then the second by a click. Both come to the program."""
    before = desk.got(window)
    compose(desk, window)
    desk.type(" ", PAUSE)
    until(f"{window} gets the first candidate", lambda: len(desk.got(window)) == len(before) + 1)
    until("it is hidden", lambda: not desk.shown())
    first = desk.got(window)[-1]
    left, top = compose(desk, window)
    mouse.click(left + SECOND[0], top + SECOND[1])
    until(f"{window} gets the second candidate", lambda: len(desk.got(window)) == len(before) + 2)
    second = desk.got(window)[-1]
    until("it is hidden", lambda: not desk.shown())
    if desk.seen(window + "-after") or second == first or not "\u4e00" <= second <= "\u9fff":
        raise AssertionError(f"{window}: {first}, {second}")
    mouse.move(1279, 719)
    print(f"{window}: candidates were seen at {left}, {top}; {first} by a space, {second} by a click", flush=True)


def moved(desk, moves):
    """The focus goes on with a popup up, at any moment: no program ends."""
    pick, shown = random.Random(2), desk.logged("popup is shown")
    windows = ["foot1", "gtk4"]
    for at in range(moves):
        desk.sway(f'[app_id="^{windows[at % 2]}$"] focus')
        desk.type("shi", pick.uniform(0, 0.03))
        time.sleep(pick.uniform(0, 0.15))
    time.sleep(1)
    if not set(windows) <= desk.windows().keys():
        raise AssertionError(f"of {windows} some ended: {desk.windows()}")
    print(f"{moves} moves of the focus, {desk.logged('popup is shown') - shown} popups: no program ended", flush=True)


def killed(desk, method):
    """The method ends under its popup, and a program; the others go on."""
    desk.focused = None
    desk.focus("gtk4", grabs=False)
    time.sleep(0.5)
    desk.type("\b" * 6)
    compose(desk, "gtk4")
    desk.kill(method)
    until("it is hidden", lambda: not desk.shown())
    desk.unfocus()
    desk.start_method()
    third = desk.launch("foot3")
    until("a third window", lambda: "foot3" in desk.windows())
    desk.focused = None
    desk.focus("foot3", grabs=False)
    time.sleep(2)
    compose(desk, "foot3")
    desk.kill(third)
    until("the third window is gone", lambda: "foot3" not in desk.windows())
    until("it is hidden", lambda: not desk.shown())
    desk.unfocus()
    desk.focus("gtk4", grabs=False)
    time.sleep(1)
    compose(desk, "gtk4")
    if not {"foot1", "gtk4"} <= desk.windows().keys():
        raise AssertionError(f"{desk.windows()}")
    print("kill -9 of the method and of a program under a popup: the others go on", flush=True)


def run(desk, moves, windows):
    desk.start_gateway(records=False)
    method, mouse = desk.start_method(), Mouse(desk)
    mouse.move(1279, 719)
    for window in windows:
        desk.unfocus()
        program = desk.launch(window)
        until(window, lambda: desk.app(window) in desk.windows(), 60)
        desk.focused = None
        desk.focus(desk.app(window), grabs=False)
        until("a field", lambda: desk.grabbed(), 30)
        until("pinyin", lambda: "addon pinyin" in desk.read(method.log))
        time.sleep(2 if window in ("firefox", "chromium") else 0.5)
        chosen(desk, mouse, window)
        if program.poll() is not None:
            raise AssertionError(f"{window} ended")
        if window not in ("foot1", "gtk4"):
            desk.kill(program)
            until(f"{window} is gone", lambda: desk.app(window) not in desk.windows())
    mouse.close()
    if {"foot1", "gtk4"} <= set(windows):
        moved(desk, moves)
        killed(desk, method)


def main():
    moves = int(sys.argv[2]) if len(sys.argv) > 2 else 300
    windows = sys.argv[3:] or ["foot1", "gtk4", "gtk3", "kitty", "qt5", "qt6", "firefox", "chromium"]
    return play(CandidateDesk, lambda desk: run(desk, moves, windows), 800)


if __name__ == "__main__":
    sys.exit(main())
