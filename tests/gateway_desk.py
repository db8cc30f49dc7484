"""A desk for the gateway's tests: sway without a screen, a typist at it, the gateway, and programs behind that."""
import glob
import json
import os
import re
import shutil
import signal
import socket
import struct
import sys
import tempfile
import time

from gateway_client import Ended, Typist, Window, tables
from pinyin_desk import FCITX5, Programs, keys_of, until

KEYS = keys_of({2: "1234567890", 16: "qwertyuiop", 30: "asdfghjkl", 44: "zxcvbnm", 57: " ", 28: "\n", 14: "\b",
                15: "\t"})
CONTROL, CONTROL_MASK = 29, 4
SWAY = "output * resolution 1280x720\ndefault_border none\nfocus_follows_mouse no\nfocus_on_window_activation none\n"
PAUSE = 0.05  # between keys, in seconds: foot 1.13 drops a batch that crosses a commit of its own
RAW = "stty raw -echo; exec cat > {}.out"


def interfaces(protocols):
    """Of the XML files that the gateway's tables are made of."""
    shared = "/usr/share/wayland-protocols"
    files = [file for file in glob.glob(shared + "/unstable/*/*.xml") if "xdg-shell-unstable-v5" not in file]
    files += glob.glob(shared + "/staging/*/*.xml") + glob.glob(shared + "/stable/*/*.xml")
    files = glob.glob(protocols + "/more/*.xml") + files
    return tables(files + ["/usr/share/wayland/wayland.xml"] + glob.glob(protocols + "/*.xml"))


class Desk(Programs):
    """All that is started ends with it."""

    def __init__(self, built, work):
        super().__init__(work, WLR_BACKENDS="headless", WLR_LIBINPUT_NO_DEVICES="1", WLR_RENDERER="pixman",
                         SWAYSOCK=work + "/sway", DBUS_SESSION_BUS_ADDRESS=f"unix:path={work}/bus")
        self.built, self.gateways = built, 0
        self.interfaces = interfaces(built + "/protocols")
        self.write("sway.conf", SWAY)
        self.start_bus()
        self.start_compositor()
        self.start_typist()

    def start_compositor(self):
        """sway refuses to run as root."""
        as_nobody = ["setpriv", "--reuid=65534", "--regid=65534", "--clear-groups"] if os.getuid() == 0 else []
        if as_nobody:
            os.chown(self.work, 65534, 65534)
        self.compositor = self.start(*as_nobody, "sway", "-c", self.path("sway.conf"))
        until("the compositor", lambda: os.path.exists(self.path("wayland-1")) and os.path.exists(self.path("sway")))

    def start_typist(self):
        self.typist = Typist(self.path("wayland-1"), self.interfaces)

    def start_gateway(self, *words, logs=True, records=True, descriptors=None):
        """With a log, and a record of its own; it may have so many descriptors."""
        limit = ["prlimit", f"--nofile={descriptors}:{descriptors}"] if descriptors else []
        self.gateways += 1
        if logs:
            words += ("--log", "--log-text")
        if records:
            for what, file in (("record", "session"), ("taken", "taken"), ("calls", "calls")):
                words += ("--" + what, self.path(f"{file}.{self.gateways}"))
        self.gateway = self.start(*limit, self.built + "/wlim-gateway", "--compositor", "wayland-1", *words)
        until("the gateway", lambda: "ready" in self.read(self.gateway.log))

    def logged(self, what):
        return len(re.findall(what, self.read(self.gateway.log)))

    def words_told(self):
        """How many strings fields were told."""
        return self.logged(r"<- zwp_text_input_v3@\d+\.commit_string\(")

    def start_method(self):
        """fcitx5, which has loaded pinyin once a field is focused; before, it gives all keys back."""
        fcitx5 = self.start(*FCITX5, display="wlim-methods")
        until("fcitx5's method", lambda: "get_input_method(" in self.read(self.gateway.log))
        return fcitx5

    def window(self, name):
        """A program of our own."""
        return Window(self.path("wlim-programs"), self.interfaces, name)

    def start_terminal(self, name):
        return self.start("foot", "-c", "/dev/null", "-a", name, "sh", "-c", RAW.format(name), display="wlim-programs")

    def start_entry(self, name):
        return self.start(self.built + "/entry", name + ".out", name, display="wlim-programs")

    def sway(self, line, kind=0):
        """A command of sway's, or a question."""
        link = socket.socket(socket.AF_UNIX)
        link.connect(self.path("sway"))
        data = line.encode()
        link.sendall(b"i3-ipc" + struct.pack("<II", len(data), kind) + data)
        answer = b""
        while len(answer) < 14 or len(answer) < 14 + struct.unpack_from("<I", answer, 6)[0]:
            answer += link.recv(65536)
        link.close()
        return json.loads(answer[14:])

    def windows(self):
        """The windows that there are, each with whether it has the focus."""
        found, trees = {}, [self.sway("", 4)]
        while trees:
            tree = trees.pop()
            trees += tree["nodes"] + tree["floating_nodes"]
            if tree.get("app_id"):
                found[tree["app_id"]] = tree["focused"]
        return found

    def focus(self, window, grabs=True):
        """Moves the focus; where there is a method that grabs the keyboard, waits till it did."""
        if self.focused == window:
            return
        moves, before = not self.windows()[window], self.logged(r"\.enter\(")
        self.sway(f'[app_id="^{window}$"] focus')
        self.focused = window
        if grabs:
            until(f"the method grabs the keys of {window}",
                  lambda: self.logged(r"\.enter\(") >= before + moves and self.grabbed())

    def grabbed(self):
        """Since a field was entered last, the method was activated, has grabbed the keyboard, and has the grab."""
        log = self.read(self.gateway.log)
        names = ("enter", "activate", "grab_keyboard", "release")
        enter, activate, grab, release = (log.rfind(f".{name}(") for name in names)
        return enter < activate < grab > release

    def unfocus(self):
        """No window has the focus: an empty workspace does."""
        self.sway("workspace empty")
        self.focused = None

    def press(self, key):
        self.typist.key(key, 1)
        self.typist.key(key, 0)

    def type(self, text, pause=0):
        for letter in text:
            self.press(KEYS[letter])
            time.sleep(pause)
        self.typist.roundtrip()

    def control(self, letter):
        self.typist.key(CONTROL, 1)
        self.typist.modifiers(CONTROL_MASK)
        self.press(KEYS[letter])
        self.typist.key(CONTROL, 0)
        self.typist.modifiers(0)
        self.typist.roundtrip()

    def got(self, window):
        return self.read(window + ".out")

    def stands(self):
        return self.windows()

    def kill(self, process):
        process.send_signal(signal.SIGKILL)
        process.wait(10)

    def end_gateway(self):
        self.gateway.terminate()
        return self.gateway.wait(20)

    def keep_records(self, name):
        """Copies the sessions and what was taken beside the programs."""
        for file in os.listdir(self.work):
            if file.startswith(("session.", "taken.", "calls.")):
                shutil.copy(self.path(file), f"{self.built}/{name}.{file}")


def typed(desk, window, keys, wanted):
    """Keys into a window, and the word that it has then. foot 1.13 may keep one back: it is typed thrice at most."""
    before = desk.got(window)
    for _ in range(3):
        told = desk.words_told()
        desk.focus(window)
        desk.type(keys, PAUSE)
        until(f"{window} is told {wanted!r}", lambda: desk.words_told() == told + 1)
        ends = time.monotonic() + 2
        while time.monotonic() < ends and desk.got(window) == before:
            time.sleep(0.01)
        if desk.got(window) != before:
            break
    if desk.got(window) != before + wanted:
        raise AssertionError(f"{window} got {desk.got(window)[len(before):]!r} and not {wanted!r}")
    print(f"{window}: {keys!r} gave {wanted!r}", flush=True)


def out_of_time(*_):
    raise TimeoutError("out of time")


def play(desk_of, run, seconds, records=None):
    """Runs it at a desk of its own, in so many seconds at most. The gateway's status; where it fails, 1, and what all said."""
    for end in (signal.SIGALRM, signal.SIGTERM):
        signal.signal(end, out_of_time)
    signal.alarm(seconds)
    code = 1
    with tempfile.TemporaryDirectory() as work:
        desk = desk_of(os.path.abspath(sys.argv[1]), work)
        try:
            run(desk)
            code = desk.end_gateway()
            print(f"the gateway ended with {code}")
        except (TimeoutError, AssertionError, Ended) as error:
            print(f"failed: {error}; {desk.stands()}")
            for process in desk.started:
                print(f"-- {process.args}\n{desk.read(process.log)[-20000:]}")
        finally:
            desk.end()
            if records:
                desk.keep_records(records)
    return code
