"""Desks: a compositor without a screen, with a way to move its focus and to press keys. One class for each kind."""
import json
import os
import re
import shutil
import signal
import socket
import struct
import subprocess
import sys
import tempfile
import time

from .peer import NoAnswer, Peer
from .xkeys import XKeys

HERE = os.path.dirname(os.path.abspath(__file__))


def until(what, holds, seconds=15):
    ends = time.monotonic() + seconds
    while not (found := holds()):
        if time.monotonic() > ends:
            raise NoAnswer(what)
        time.sleep(0.01)
    return found


class Desk:
    """What all share. `command` starts the compositor; where it is empty, WAYLAND_DISPLAY names one that runs."""

    name = "compositor"
    rounds, pause = 1, 0  # how often nobody may hear anything before a step counts as done, and the pauses between
    keys = "board"  # who presses keys: a virtual keyboard of the desk's, the seat's own, or None
    can_unfocus = False
    cannot = {}  # scenarios that mean nothing here, and why
    variables = {}
    line_of_beginning = "the desk"

    def __init__(self, client, command=()):
        self.client, self.command, self.started = os.path.abspath(client), list(command), []
        self.helper, self.offered, self.last_moment = None, {}, 1000
        self.work = tempfile.mkdtemp(prefix="conformance-")
        os.chmod(self.work, 0o700)
        self.runtime, self.compositor = self.work, None

    # ---- Its life ----

    def env(self, display=None):
        env = dict(os.environ, XDG_RUNTIME_DIR=self.runtime, HOME=self.work, LC_ALL="C.UTF-8", **self.variables)
        for name in {"DISPLAY", "WAYLAND_DISPLAY"} - set(self.variables):
            env.pop(name, None)
        if display:
            env["WAYLAND_DISPLAY"] = display
        return env

    def start(self, *command, env=None, **pipes):
        with open(f"{self.work}/log.{len(self.started)}", "wb") as log:
            process = subprocess.Popen(
                command,
                env=env or self.env(),
                cwd=self.work,
                start_new_session=True,
                **{"stdin": subprocess.DEVNULL, "stdout": log, "stderr": log} | pipes,
            )
        process.log = log.name
        self.started.append(process)
        return process

    def begin(self):
        """Starts the compositor, and the desk's own client."""
        if self.command:
            self.start_compositor()
        else:
            self.display = os.environ.get("WAYLAND_DISPLAY") or sys.exit("no COMMAND, and no WAYLAND_DISPLAY")
            self.runtime = os.environ["XDG_RUNTIME_DIR"]
        self.start_helper()

    def sockets(self):
        return [name for name in sorted(os.listdir(self.work)) if re.fullmatch(r"wayland-\d+", name)]

    def start_compositor(self):
        self.compositor = self.start(*self.words())
        self.display = until("the compositor's socket", lambda: self.compositor.poll() is None and self.sockets())[0]

    def words(self):
        """The command, with what the suite adds to it."""
        return self.command

    def start_helper(self):
        self.helper = Peer(self.client, "desk", self.env(self.display))
        if "zwp_virtual_keyboard_manager_v1" not in self.helper.list_globals():
            self.keys = None if self.keys == "board" else self.keys
        if self.keys == "board":
            self.helper.send("board keys", "vkeymap keys us")
        self.sync()

    def moment(self):
        """A time of a key: no two keys have the same."""
        self.last_moment += 1
        return self.last_moment

    def sync(self):
        self.helper.ask_sync()
        self.helper.wait_sync()
        self.helper.take()
        if self.helper.ended:
            raise NoAnswer("the compositor ended")

    def why_ended(self):
        """What is known of a compositor that ended by itself; None: it runs."""
        if self.compositor is None or self.compositor.poll() is None:
            return None
        return f"status {self.compositor.returncode}"

    def after_scenario(self):
        """All clients ended. Answers what is known of a compositor that ended, or None."""
        try:
            self.tidy()
            self.sync()
        except (NoAnswer, OSError):
            self.wait_end()
            return self.why_ended() or "it doesn't answer"
        return self.why_ended()

    def wait_end(self):
        if self.compositor:
            try:
                self.compositor.wait(1)
            except subprocess.TimeoutExpired:
                pass

    def tidy(self):
        """What a scenario may leave behind at the compositor is put right."""

    def end(self):
        if self.helper:
            self.helper.end()
        for process in reversed(self.started):
            try:
                os.killpg(process.pid, signal.SIGTERM)
                process.wait(3)
            except (ProcessLookupError, PermissionError, subprocess.TimeoutExpired):
                pass
            if process.poll() is None:
                try:
                    os.killpg(process.pid, signal.SIGKILL)
                except (ProcessLookupError, PermissionError):
                    process.kill()
                process.wait(10)
        shutil.rmtree(self.work, ignore_errors=True)

    # ---- For scenarios ----

    def display_of(self, kind):
        return self.display

    def environment(self, kind):
        return self.env(self.display_of(kind))

    def globals(self, kind):
        display = self.display_of(kind)
        if display not in self.offered:
            peer = Peer(self.client, kind, self.env(display))
            self.offered[display] = peer.list_globals()
            peer.end()
        return self.offered[display]

    def focus(self, window):
        """By a list of toplevels, which a taskbar has."""
        if "zwlr_foreign_toplevel_manager_v1" not in self.helper.globals:
            raise NoAnswer("no way to move the focus")
        self.sync()
        self.helper.send(f"activate {window}")
        self.sync()

    def unfocus(self):
        raise NoAnswer("no way to take the focus away")

    def start_method(self, command, variables):
        """A real input method."""
        self.start(*command, env=dict(self.environment("method"), **variables))

    def key(self, moment, key, state):
        self.helper.send(f"vkey keys {moment} {key} {state}")
        self.sync()

    def version(self):
        """The compositor and its version, as the table has it."""
        words = (
            subprocess.run(
                [self.command[0], "--version"], capture_output=True, text=True, check=False, env=self.env()
            ).stdout.split("\n")
            if self.command
            else [""]
        )
        return words[0].strip() or self.name


class Sway(Desk):
    """sway by its IPC. As root it is started as nobody, since it refuses to run as root."""

    name = "sway"
    can_unfocus = True
    config = (
        "output * resolution 1280x720\ndefault_border none\nfocus_follows_mouse no\n"
        "focus_on_window_activation none\nxwayland disable\n"
    )

    def __init__(self, client, command=("sway",)):
        super().__init__(client, command)
        self.variables = dict(
            WLR_BACKENDS="headless", WLR_LIBINPUT_NO_DEVICES="1", WLR_RENDERER="pixman", SWAYSOCK=self.work + "/sway"
        )

    def words(self):
        with open(self.work + "/config", "w", encoding="utf-8") as file:
            file.write(self.config)
        nobody = ["setpriv", "--reuid=65534", "--regid=65534", "--clear-groups"] if os.getuid() == 0 else []
        if nobody:
            os.chown(self.work, 65534, 65534)
        return [*nobody, *self.command, "-c", self.work + "/config"]

    def start_compositor(self):
        super().start_compositor()
        until("sway's socket", lambda: os.path.exists(self.work + "/sway"))

    def ipc(self, line, kind=0):
        link = socket.socket(socket.AF_UNIX)
        link.settimeout(5)
        link.connect(self.work + "/sway")
        data = line.encode()
        link.sendall(b"i3-ipc" + struct.pack("<II", len(data), kind) + data)
        answer = b""
        while len(answer) < 14 or len(answer) < 14 + struct.unpack_from("<I", answer, 6)[0]:
            answer += link.recv(65536)
        link.close()
        return json.loads(answer[14:])

    def focus(self, window):
        self.ipc(f'[app_id="^{window}$"] focus')

    def unfocus(self):
        self.ipc("workspace empty")

    def tidy(self):
        self.ipc("workspace 1")

    def version(self):
        return self.ipc("", 7)["human_readable"].split(" (")[0].join(["sway ", ""])


class Embed(Desk):
    """The project's example compositor: the focus and the keys by lines."""

    name = "example compositor"
    keys, can_unfocus = "seat", True

    def start_compositor(self):
        self.compositor = self.start(*self.command, stdin=subprocess.PIPE, stdout=subprocess.PIPE)
        line = self.compositor.stdout.readline().decode().split()
        if line[:1] != ["ready"]:
            raise NoAnswer("the compositor doesn't start")
        self.display = line[1]

    def ask(self, line):
        try:
            self.compositor.stdin.write(line.encode() + b"\n")
            self.compositor.stdin.flush()
        except BrokenPipeError:
            raise NoAnswer("the compositor ended") from None
        return self.compositor.stdout.readline().decode().strip()

    def focus(self, window):
        if self.ask("focus " + window) != "ok":
            raise NoAnswer(f"no window {window}")

    def unfocus(self):
        self.ask("unfocus")

    def key(self, moment, key, state):
        self.ask(f"key {key} {state}")

    def version(self):
        return "wlim's example compositor"


class Mir(Desk):
    """mir_demo_server in an X server without a screen. It does many things a little later."""

    name = "Mir"
    keys = "seat"
    rounds, pause = 3, 0.006

    def start_compositor(self):
        screen = self.start(
            "Xvfb", "-displayfd", "1", "-screen", "0", "1280x720x24", "-nolisten", "tcp", stdout=subprocess.PIPE
        )
        number = screen.stdout.readline().decode().strip()
        self.variables = {"DISPLAY": f":{number}"}
        super().start_compositor()
        until("Mir's socket", self.can_connect)
        try:
            self.board = XKeys(f":{number}")
        except OSError:
            self.keys = "board"

    def can_connect(self):
        try:
            Peer(self.client, "first", self.env(self.display)).end()
            return True
        except NoAnswer:
            return False

    def key(self, moment, key, state):
        if self.keys == "board":
            super().key(moment, key, state)
        else:
            self.board.key(key, state)
            time.sleep(0.03)

    def words(self):
        return [
            *self.command,
            "--platform-display-libs",
            "mir:x11",
            "--x11-output",
            "1280x720",
            "--add-wayland-extensions",
            "all",
        ]

    def version(self):
        with open(self.compositor.log, encoding="utf-8", errors="replace") as log:
            found = re.search(r"Mir version (\S+)", log.read())
        return "Mir " + (found[1] if found else "")


class Weston(Desk):
    """Weston with the plug-in and the driver of its trials, which `make weston` and `make weston-test` build."""

    name = "Weston"
    keys, can_unfocus = "seat", True

    def words(self):
        folder = os.environ.get("WESTON_MODULES", f"{HERE}/../../out/weston/10")
        with open(self.work + "/weston.ini", "w", encoding="utf-8") as file:
            file.write(
                "[core]\nidle-time=0\n[shell]\nanimation=none\nstartup-animation=none\nclose-animation=none\n"
                f"locking=false\n[input-method]\npath={self.work}/method\n[wlim]\nmethods=user\n"
            )
        with open(self.work + "/method", "w", encoding="utf-8") as file:
            file.write("#!/bin/sh\nuntil [ -e go ]; do sleep 0.1; done\n. ./go\n")
        os.chmod(self.work + "/method", 0o700)
        self.variables = {"WESTON_DRIVE": self.work + "/drive"}
        return [
            *self.command,
            "--backend=headless-backend.so",
            "--use-pixman",
            "--width=1280",
            "--height=720",
            "--socket=wayland-1",
            f"--modules={folder}/wlim.so,{folder}/drive.so",
            f"--config={self.work}/weston.ini",
        ]

    def start_compositor(self):
        super().start_compositor()
        self.link = socket.socket(socket.AF_UNIX)
        self.link.settimeout(5)
        until("the driver", lambda: self.link.connect_ex(self.work + "/drive") == 0)

    def ask(self, line):
        self.link.sendall(line.encode() + b"\n")
        answer = b""
        while not answer.endswith(b"\n"):
            more = self.link.recv(65536)
            if not more:
                raise NoAnswer("Weston ended")
            answer += more
        return answer.decode(errors="replace").strip()

    def focus(self, window):
        until(f"no window {window}", lambda: self.ask(f"focus '{window}'") != "no", 2)

    def unfocus(self):
        self.ask("unfocus")

    def start_method(self, command, variables):
        """Weston ends a method of input-method-v1 that it didn't start itself, and fcitx5 asks for both."""
        with open(self.work + "/now", "w", encoding="utf-8") as file:
            file.write(
                "".join(f"export {name}={value}\n" for name, value in variables.items()) + f"exec {' '.join(command)}\n"
            )
        os.rename(self.work + "/now", self.work + "/go")

    def key(self, moment, key, state):
        self.ask(f"key {key} {state}")

    def version(self):
        return super().version() + " with wlim's plug-in"


class Gateway(Sway):
    """wlim-gateway before sway: programs and methods connect to it, and the desk to sway."""

    name = "wlim-gateway before sway"
    keys = "seat"
    rounds, pause = 2, 0.003
    cannot = {"a popup on a window's surface": "it shows no popups, so it gives no surface that role"}

    def __init__(self, client, command):
        self.gateway_command = list(command)
        super().__init__(client, ["sway"])

    def start_helper(self):
        Desk.start_helper(self)
        if self.helper.globals.get("zwp_virtual_keyboard_manager_v1"):
            self.helper.send("board keys", "vkeymap keys us")
            self.sync()
        gateway = self.start(*self.gateway_command, "--compositor", self.display)
        until("the gateway", lambda: os.path.exists(self.work + "/wlim-programs") and gateway.poll() is None)
        time.sleep(0.1)

    def display_of(self, kind):
        return "wlim-programs" if kind == "program" else "wlim-methods"

    def version(self):
        return "wlim-gateway before " + super().version()


KINDS = {"weston": Weston, "sway": Sway, "compositor": Embed, "mir_demo_server": Mir, "wlim-gateway": Gateway}


class Commanded(Desk):
    """A compositor whose focus a command moves: `{}` in it is the window's app id."""

    def __init__(self, client, command, focus, unfocus):
        super().__init__(client, command)
        self.focus_command, self.unfocus_command, self.can_unfocus = focus, unfocus, bool(unfocus)

    def run(self, command):
        if subprocess.run(
            command, shell=True, env=self.env(self.display), stdout=subprocess.DEVNULL, timeout=10, check=False
        ).returncode:
            raise NoAnswer(f"{command} failed")

    def focus(self, window):
        self.run(self.focus_command.replace("{}", window))

    def unfocus(self):
        self.run(self.unfocus_command)


def desk_for(client, command, focus="", unfocus=""):
    command = [os.path.abspath(word) if "/" in word and os.path.exists(word) else word for word in command]
    if focus:
        return Commanded(client, command, focus, unfocus)
    kind = KINDS.get(os.path.basename(command[0]) if command else "", Desk)
    return kind(client, command)
