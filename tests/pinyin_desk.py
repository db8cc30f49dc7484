"""What the tests that type pinyin by fcitx5 share: its profile, and programs in a folder that end with the test."""
import os
import random
import shutil
import signal
import subprocess
import time

PROFILE = os.path.dirname(os.path.abspath(__file__)) + "/../conformance/suite/fcitx5.profile"  # pinyin alone
FCITX5 = ("fcitx5", "--disable=notificationitem,kimpanel,xim,xcb,cloudpinyin,notifications")


def keys_of(rows):
    """The number of each key's letter; of each row, the first key and the letters from there on."""
    return {letter: first + at for first, row in rows.items() for at, letter in enumerate(row)}


def until(what, holds, seconds=20):
    """Waits till it holds. What never comes fails the test."""
    ends = time.monotonic() + seconds
    while not holds():
        if time.monotonic() > ends:
            raise TimeoutError(what)
        time.sleep(0.01)


def moved(desk, rounds, words):
    """The focus moves while the method is at work: what was typed for a window comes to no other."""
    for window, came in desk.type_while_it_moves(rounds, words).items():
        word = words[window][1]
        if came.replace(word, ""):
            raise AssertionError(f"{window} got {came!r}")
        print(f"{window}: {came.count(word)} of {rounds} words, where the focus moved within 0.3 s, and nothing else")


class Programs:
    """Programs that were started in a folder, each with a log there and a session of its own."""

    def __init__(self, work, **variables):
        self.work, self.started, self.focused = work, [], None
        self.env = dict(os.environ, XDG_RUNTIME_DIR=work, HOME=work, LC_ALL="C.UTF-8", GTK_IM_MODULE="wayland",
                        GSK_RENDERER="cairo", GDK_BACKEND="wayland", GTK_A11Y="none", XDG_CONFIG_HOME=work + "/config",
                        **variables)
        for unset in {"DISPLAY", "WAYLAND_DISPLAY", "DBUS_SESSION_BUS_ADDRESS", "XMODIFIERS"} - set(variables):
            self.env.pop(unset, None)
        os.makedirs(work + "/config/fcitx5")
        shutil.copyfile(PROFILE, self.path("config/fcitx5/profile"))

    def path(self, name):
        return f"{self.work}/{name}"

    def write(self, name, text):
        with open(self.path(name), "w", encoding="utf-8") as file:
            file.write(text)

    def read(self, name):
        try:
            with open(self.path(name), encoding="utf-8", newline="", errors="replace") as file:
                return file.read()
        except FileNotFoundError:
            return ""

    def start(self, *command, display=None, **pipes):
        name = f"log.{len(self.started)}"
        log = open(self.path(name), "wb")
        env = dict(self.env, WAYLAND_DISPLAY=display) if display else self.env
        process = subprocess.Popen(command, env=env, stderr=log, cwd=self.work, start_new_session=True,
                                   **{"stdin": subprocess.DEVNULL, "stdout": log} | pipes)
        process.log = name
        self.started.append(process)
        return process

    def start_bus(self):
        self.start("dbus-daemon", "--session", "--nofork", "--nopidfile", f"--address=unix:path={self.path('bus')}")
        until("a bus", lambda: os.path.exists(self.path("bus")))

    def type_while_it_moves(self, rounds, words):
        """Keys for each window in turn, from which the focus goes within 0.3 s; what each got then."""
        before, pick = {window: self.got(window) for window in words}, random.Random(1)
        for _ in range(rounds):
            for window, (keys, _) in words.items():
                self.focus(window)
                self.type(keys)
                time.sleep(pick.uniform(0, 0.3))
        self.unfocus()
        time.sleep(1)
        return {window: self.got(window)[len(before[window]):] for window in words}

    def end(self):
        """Ends all that were started, the last first."""
        for process in reversed(self.started):
            try:
                os.killpg(process.pid, signal.SIGKILL)
            except (ProcessLookupError, PermissionError):
                process.kill()
            process.wait(10)
