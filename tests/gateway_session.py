#!/usr/bin/env python3
"""From login to logout: units, sockets that systemd opens, --check, a new broker by SIGHUP while fcitx5 composes.

    tests/gateway_session.py FOLDER

FOLDER has `wlim-gateway`, `entry` and `protocols`, as tests/gateway.sh builds them.
"""
import glob
import os
import re
import shutil
import signal
import socket
import stat
import subprocess
import sys
import tempfile

from gateway_desk import Desk, play, typed, until

UNITS = os.path.dirname(os.path.abspath(__file__)) + "/../gateway/systemd"
GENERATOR = "/usr/lib/systemd/user-generators/systemd-xdg-autostart-generator"
ACTIVATED = 'LISTEN_PID=$$ LISTEN_FDS=2 exec "$0" --log'


def holds(what, found, wanted):
    if found != wanted:
        raise AssertionError(f"{what}: {found!r} and not {wanted!r}")


def units(built, work):
    """systemd takes the units with their drop-ins, and that of fcitx5 is named as its autostart entry's service is."""
    folder = work + "/units"
    shutil.copytree(UNITS, folder)
    unit = folder + "/wlim-gateway.service"
    with open(unit, encoding="ascii") as file:
        text = file.read()
    holds("the program's name in the unit", text.count("ExecStart=/usr/bin/wlim-gateway\n"), 1)
    with open(unit, "w", encoding="ascii") as file:
        file.write(text.replace("/usr/bin/", f"{built}/"))
    services = {"program.conf": "program.service"}
    with open(folder + "/fcitx5.conf", encoding="ascii") as file:
        services["fcitx5.conf"] = re.search(r"user/(.*)\.d/\n", file.read())[1]
    entries = work + "/config/autostart"
    os.makedirs(entries)
    shutil.copy("/usr/share/applications/org.fcitx.Fcitx5.desktop", entries)
    for name in ("normal", "early", "late"):
        os.mkdir(f"{work}/{name}")
    env = dict(os.environ, XDG_CONFIG_HOME=work + "/config", XDG_CONFIG_DIRS="/nowhere", XDG_RUNTIME_DIR=work)
    subprocess.run([GENERATOR, work + "/normal", work + "/early", work + "/late"], env=env, check=True)
    shutil.copy(f"{work}/late/{services['fcitx5.conf']}", folder)
    with open(folder + "/program.service", "w", encoding="ascii") as file:
        file.write("[Service]\nExecStart=true\n")
    for drop_in, service in services.items():
        os.mkdir(f"{folder}/{service}.d")
        os.rename(f"{folder}/{drop_in}", f"{folder}/{service}.d/wlim.conf")
    names = sorted(glob.glob(folder + "/*.service") + glob.glob(folder + "/*.socket"))
    said = subprocess.run(["systemd-analyze", "verify", "--user", *names], env=env, capture_output=True, text=True,
                          check=False)
    holds("systemd-analyze verify", (said.returncode, said.stderr), (0, ""))
    print(f"units: systemd takes {len(names)} with drop-ins")


def check(desk, status, *wanted):
    """--check ends with that status, and has these lines."""
    said = subprocess.run([desk.built + "/wlim-gateway", "--check"], env=dict(desk.env, WAYLAND_DISPLAY="wayland-1"),
                          capture_output=True, text=True, timeout=30, check=False)
    lines = said.stdout + said.stderr
    for line in wanted:
        if not re.search(f"^{line}$", lines, re.M):
            raise AssertionError(f"--check has no line {line!r}:\n{lines}")
    holds("the status of --check", said.returncode, status)


class Sockets:
    """The two sockets of the unit, held open as systemd does."""

    def __init__(self, desk):
        self.desk, self.sockets = desk, []
        for name in ("wlim-programs", "wlim-methods"):
            self.sockets.append(socket.socket(socket.AF_UNIX))
            self.sockets[-1].bind(desk.path(name))
            self.sockets[-1].listen(100)

    def start(self):
        """They are descriptors 4 and 3: which is which, their addresses say."""
        numbers = [self.sockets[1].fileno(), self.sockets[0].fileno()]

        def give():
            high = [os.dup2(number, 90 + at) for at, number in enumerate(numbers)]
            for at, number in enumerate(high):
                os.dup2(number, 3 + at)
                os.close(number)
        self.desk.gateway = self.desk.start("sh", "-c", ACTIVATED, self.desk.built + "/wlim-gateway",
                                            display="wayland-1", preexec_fn=give, close_fds=False)

    def close(self):
        for each in self.sockets:
            each.close()
            os.unlink(self.desk.path(("wlim-programs", "wlim-methods")[self.sockets.index(each)]))


def activated(desk):
    """Programs that came before the gateway are let in when it starts; its end leaves the sockets, where the next starts."""
    sockets = Sockets(desk)
    check(desk, 1, "the compositor: wayland-1", "  wl_compositor 4", r"  zwp_text_input_manager_v3 1: hidden, .* its own",
          "no gateway runs")
    for turn in range(2):
        desk.start_terminal(f"early{turn}")
        sockets.start()
        until("foot", lambda: f"early{turn}" in desk.windows())
        holds("the socket's mode", stat.S_IMODE(os.stat(desk.path("wlim-programs.check")).st_mode) & 0o077, 0)
        check(desk, 1, "the compositor: wayland-1", r"the gateway: process \d+", r"program 1.*: process \d+, foot",
              "no input method serves")
        holds("the gateway's status", desk.end_gateway(), 0)
        left = [os.path.exists(desk.path("wlim-programs" + end)) for end in ("", ".check")]
        holds("the socket, and that of --check", left, [True, False])
        until("foot ends", lambda: f"early{turn}" not in desk.windows())
    sockets.close()
    print("activated: who came before it is let in, two times; its end leaves the sockets")


def by_systemd(desk):
    """systemd's own program opens the sockets, and starts it at the first client; it is the user's own gateway then."""
    paths = [desk.path(name) for name in ("wlim-programs", "wlim-methods")]
    desk.gateway = desk.start("systemd-socket-activate", "-E", "WAYLAND_DISPLAY=wayland-1", "-E", "XDG_RUNTIME_DIR",
                              "-l", paths[0], "-l", paths[1], desk.built + "/wlim-gateway", "--log", "--record",
                              desk.path("session.9"), "--taken", desk.path("taken.9"), "--calls", desk.path("calls.9"))
    until("the sockets", lambda: all(os.path.exists(path) for path in paths))
    desk.start_entry("entry")
    until("a window", lambda: "entry" in desk.windows())
    fcitx5 = desk.start_method()
    desk.focus("entry", grabs=False)
    until("pinyin", lambda: "addon pinyin" in desk.read(fcitx5.log))
    desk.unfocus()
    typed(desk, "entry", "shijie ", "世界")
    check(desk, 0, r"program \d+, has the focus, holds the seat with its text input \d+: process \d+, entry",
          r"method \d+, serves a text input: process \d+, fcitx5", "an input method serves")
    print("by systemd: a program, fcitx5, a word; --check names them")


def renewed(desk):
    """SIGHUP while fcitx5 composes: what was typed of the word is lost, the next comes, and nobody ends."""
    for turn in range(3):
        before, grabs = desk.got("entry"), desk.logged(r"-> .*\.grab_keyboard\(")
        preedits = desk.logged(r"-> .*\.set_preedit_string\(")
        desk.type("shi")
        until("a preedit", lambda: desk.logged(r"-> .*\.set_preedit_string\(") > preedits)
        desk.gateway.send_signal(signal.SIGHUP)
        until("another record", lambda: os.path.exists(desk.path(f"session.9.{turn + 2}")))
        until("fcitx5's next grab", lambda: desk.logged(r"-> .*\.grab_keyboard\(") > grabs)
        typed(desk, "entry", "shijie ", "世界")
        holds("the entry", desk.got("entry"), before + "世界")
    check(desk, 0, "an input method serves")
    print("renewed: three times while fcitx5 composes; the word that was begun is lost, the next comes")


def run(desk):
    activated(desk)
    by_systemd(desk)
    renewed(desk)


with tempfile.TemporaryDirectory() as place:
    units(os.path.abspath(sys.argv[1]), place)
sys.exit(play(Desk, run, 200, "session"))
