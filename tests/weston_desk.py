"""A headless Weston with the plug-in and tests/weston_drive.c, programs in it, and fcitx5: for tests/weston_trials.py."""
import os
import signal
import socket
import subprocess
import time

from pinyin_desk import FCITX5, Programs, keys_of, until

KEYS = keys_of({2: "1234567890", 16: "qwertyuiop", 30: "asdfghjkl", 44: "zxcvbnm", 57: " ", 28: "\n", 14: "\b", 1: "\x1b"})
SHIFT, CTRL, SUPER, TAB = 42, 29, 125, 15


class Desk(Programs):
    """Weston, and the programs that were started in it; all end with it."""

    def __init__(self, built, work, shell="desktop", scale=1, outputs=1, methods="started", method=FCITX5, modules=None):
        super().__init__(work)
        self.built, self.lines, self.loaded, self.lost = built, b"", False, 0
        self.start_bus()
        path = ""
        if method:
            path = self.path("method")
            self.write("method", f"#!/bin/sh\necho start >> {work}/starts\nunset LD_PRELOAD\n"
                       f"exec {' '.join(method)} >> {work}/method.log 2>&1\n")
            os.chmod(path, 0o755)
        self.write("weston.ini", f"[core]\nidle-time=0\n[shell]\nanimation=none\nstartup-animation=none\nlocking=false\n"
                   f"close-animation=none\n[input-method]\npath={path}\n[wlim]\nmethods={methods}\n")
        modules = modules or f"{built}/wlim.so,{built}/drive.so"
        self.env.update(WESTON_DRIVE=self.path("drive"), WESTON_OUTPUTS=str(outputs),
                        DBUS_SESSION_BUS_ADDRESS=f"unix:path={self.path('bus')}",
                        ASAN_OPTIONS="detect_leaks=0:abort_on_error=0", UBSAN_OPTIONS="print_stacktrace=1:halt_on_error=1")
        self.weston = self.start(
            "env", *([f"LD_PRELOAD={os.environ['WESTON_PRELOAD']}"] if os.environ.get("WESTON_PRELOAD") else []),
            "weston", "--backend=headless-backend.so", "--use-pixman", "--width=800", "--height=600",
            f"--scale={scale}", f"--shell={shell}-shell.so", f"--modules={modules}", "--socket=screen",
            f"--config={self.path('weston.ini')}")
        self.env["WAYLAND_DISPLAY"] = "screen"
        until("the driver", self.connected)

    def connected(self):
        self.link = socket.socket(socket.AF_UNIX)
        return self.link.connect_ex(self.path("drive")) == 0

    def ask(self, line):
        self.link.sendall(line.encode() + b"\n")
        while b"\n" not in self.lines:
            got = self.link.recv(65536)
            if not got:
                raise AssertionError(f"Weston ended: {self.read(self.weston.log)[-3000:]}")
            self.lines += got
        answer, _, self.lines = self.lines.partition(b"\n")
        return answer.decode(errors="replace")

    def key(self, code, state):
        self.ask(f"key {code} {state}")

    def press(self, *codes):
        """Keys pressed one after another, and released in reverse."""
        for code in codes:
            self.key(code, 1)
        for code in reversed(codes):
            self.key(code, 0)

    def type(self, text):
        for letter in text:
            if letter.isupper():
                self.press(SHIFT, KEYS[letter.lower()])
            else:
                self.press(KEYS[letter])

    def count(self, message):
        return int(self.ask(f"count {message}"))

    def grabs(self):
        """How often the method grabbed the keyboard, and how often it was activated."""
        return [self.count("zwp_input_method_v2." + name) for name in ("grab_keyboard", "activate")]

    def windows(self):
        """Of each window with a label: its place, size, output and whether it has the focus."""
        rows = [row.rsplit("|", 6) for row in self.ask("windows").split(";") if row]
        return {row[0]: [int(value) for value in row[1:5]] + [row[5], row[6] == "1"] for row in rows}

    def window(self, name):
        """The place and so on of the window whose label has the name; None where there is none."""
        return next((row for label, row in self.windows().items() if name in label), None)

    def popups(self):
        return [[int(value) for value in row.split()] for row in self.ask("popups").split(";") if row]

    def popup(self):
        """The only popup that is shown, once there is one."""
        until("a popup", lambda: len(self.popups()) == 1)
        return self.popups()[0]

    def no_popup(self):
        until("no popup", lambda: not self.popups())

    def focus(self, name, grabbed=True):
        """Waits till the method grabs the keyboard for it, as at each focus: what goes to its last grab is lost."""
        if self.focused == name:
            return
        self.let_go()
        had = self.grabs()
        if self.ask(f"focus {name}") != "ok":
            raise AssertionError(f"there is no window {name}: {self.windows()}")
        if grabbed:
            until(f"the method has the keys of {name}", lambda: all(is_ > was for is_, was in zip(self.grabs(), had)))
        self.focused = name

    def standing(self):
        """How many grabs of the keyboard weren't released; a method that is killed releases none."""
        return self.count("zwp_input_method_v2.grab_keyboard") - self.count(
            "zwp_input_method_keyboard_grab_v2.release")

    def let_go(self):
        """No window has the focus, and the method has released its grab, or is slow."""
        self.ask("unfocus")
        ends = time.monotonic() + 1
        while self.standing() > self.lost and time.monotonic() < ends:
            time.sleep(0.01)
        self.lost = self.standing()

    def unfocus(self):
        self.let_go()
        self.focused = None

    def shot(self, name, output=0):
        """What is shown, as a PPM in the folder of shots, if there is one."""
        to = os.environ.get("WESTON_SHOTS")
        time.sleep(0.2)
        if to:
            self.ask(f"shot {to}/{name}.ppm {output}")

    # Programs: `name` is what the window's label has, and NAME.out has what was typed into it.

    def start_foot(self, name):
        process = self.start("foot", "-c", "/dev/null", "-a", name, "-T", name, "sh", "-c",
                             f"stty raw -echo; exec cat > {name}.out")
        until(f"the window {name}", lambda: self.window(name))
        return process

    def start_entry(self, name, kind="entry"):
        process = self.start(self.built + "/entry", f"{name}.out", name, kind)
        until(f"the window {name}", lambda: self.window(name))
        return process

    def got(self, name):
        return self.read(f"{name}.out")

    def starts(self):
        return self.read("starts").count("start")

    def ready(self, name):
        """fcitx5 loads pinyin once a field is focused; before, it gives all keys back."""
        def composes():
            self.type("n")
            for _ in range(20):
                if self.popups():
                    return True
                time.sleep(0.05)
            self.focused = None
            self.focus(name)
            return False
        until("fcitx5 starts", lambda: self.read("method.log").count("addon pinyin") >= self.starts() > 0, 40)
        self.focused = None
        self.focus(name)
        until("fcitx5 composes", composes, 40)
        self.type("\x1b")
        self.no_popup()

    def typed(self, name, keys, wanted, seconds=20):
        """Keys into a window, one after another, and what came.

        foot passes over a done that is older than its last commit, and takes what came then at the next one.
        """
        before = self.got(name)
        self.focus(name)
        self.type(keys)
        ends = time.monotonic() + 3
        while self.got(name) != before + wanted and time.monotonic() < ends:
            time.sleep(0.01)
        if self.got(name) != before + wanted and len(wanted) > 1:
            self.type("n\b")
        until(f"{name} gets {wanted!r}, and has {self.got(name)!r}", lambda: self.got(name) == before + wanted, seconds)

    def method_pid(self):
        """The process of fcitx5, which Weston or the plug-in started."""
        found = subprocess.run(["pgrep", "-f", "-s", str(self.weston.pid), "^fcitx5"], capture_output=True, text=True)
        pids = [int(pid) for pid in found.stdout.split()]
        for pid in pids or self.children(self.weston.pid):
            return pid
        raise AssertionError("fcitx5 doesn't run")

    @staticmethod
    def children(pid):
        found = subprocess.run(["pgrep", "-P", str(pid), "fcitx5"], capture_output=True, text=True)
        return [int(child) for child in found.stdout.split()]

    def kill_method(self):
        os.kill(self.method_pid(), signal.SIGKILL)

    def end(self):
        """Ends Weston by SIGTERM, while its clients live; its status."""
        self.weston.terminate()
        try:
            code = self.weston.wait(20)
        except subprocess.TimeoutExpired:
            code = "not at all"
        super().end()
        for pid in self.strays():
            os.kill(pid, signal.SIGKILL)
        return code

    def strays(self):
        """What programs that were started here left running in sessions of their own."""
        mark = f"XDG_RUNTIME_DIR={self.work}\0".encode()
        for pid in filter(str.isdigit, os.listdir("/proc")):
            try:
                with open(f"/proc/{pid}/environ", "rb") as file:
                    if mark in file.read() + b"\0":
                        yield int(pid)
            except OSError:
                pass
