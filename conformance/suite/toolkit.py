"""Real programs: entries of GTK 4, the second for a password, and fcitx5 as the method."""
import os
import random
import shutil
import time

from .desks import until
from .peer import NoAnswer, Peer
from .player import Skip
from .words import GRAVE, SERIOUS, Fault

KEYS = {
    letter: first + at
    for first, row in {16: "qwertyuiop", 30: "asdfghjkl", 44: "zxcvbnm", 57: " "}.items()
    for at, letter in enumerate(row)
}
TAB = 15
PROFILE = os.path.dirname(os.path.abspath(__file__)) + "/fcitx5.profile"  # pinyin alone
FCITX5 = ("fcitx5", "--disable=notificationitem,kimpanel,xim,xcb,cloudpinyin,notifications")
PLACE = "A batch reaches the field that its serial names, while that is in use, or nobody."


class Case:
    """A scenario of real programs. `play` is given a Table and answers faults."""

    family = "toolkit"

    def __init__(self, name, says, play):
        self.name, self.says, self.play = name, says, play


class Table:
    """A desk with programs on it, and a small method of the suite's or fcitx5."""

    def __init__(self, desk, entries):
        if not os.path.exists(entries):
            raise Skip("GTK 4 isn't there")
        if not desk.keys:
            raise Skip("no way to press keys")
        for kind, face in (("program", "zwp_text_input_manager_v3"), ("method", "zwp_input_method_manager_v2")):
            if face not in desk.globals(kind):
                raise Skip(f"it offers no {face}")
        self.desk, self.entries, self.programs, self.method, self.dones = desk, entries, {}, None, 0

    def window(self, name):
        env = dict(
            self.desk.environment("program"),
            GTK_IM_MODULE="wayland",
            GSK_RENDERER="cairo",
            GDK_BACKEND="wayland",
            GTK_A11Y="none",
        )
        self.programs[name] = self.desk.start(self.entries, name, env=env)
        until(f"{name} can have the focus", lambda: self.try_focus(name))

    def try_focus(self, name):
        time.sleep(0.3)
        try:
            self.desk.focus(name)
            return True
        except (NoAnswer, OSError):
            return False

    def text(self, name, entry):
        """What the entry holds."""
        with open(self.programs[name].log, encoding="utf-8") as log:
            rows = [line.split() for line in log if line[:2] == f"{entry} "]
        return bytes.fromhex((rows[-1][1:] or [""])[0]).decode() if rows else ""

    # ---- The suite's method ----

    def start_method(self):
        self.method = Peer(self.desk.client, "m", self.desk.environment("method"))
        self.method.send("method m")

    def activated(self, more=1):
        """Waits until the method was activated so often again; answers the serial of its last done."""

        def holds():
            self.method.ask_sync()
            self.method.wait_sync()
            events = [event for _, to, event, _ in self.method.heard if to == "m"]
            return events.count("activate") >= more and events[-1] == "done"

        try:
            until("the method is activated", holds, 5)
        except NoAnswer:
            pass
        self.dones += sum(event == "done" for _, to, event, _ in self.method.take() if to == "m")
        return self.dones

    def commit(self, text, serial):
        self.method.send(f"mstring m {text.encode().hex()}", f"mcommit m {serial}")
        self.method.ask_sync()
        self.method.wait_sync()
        time.sleep(0.3)

    def press(self, key, pause=0.0):
        for state in (1, 0):
            self.desk.key(self.desk.moment(), key, state)
        time.sleep(pause)

    # ---- fcitx5 ----

    def start_fcitx5(self):
        if not shutil.which("fcitx5") or not shutil.which("dbus-daemon"):
            raise Skip("fcitx5 isn't there")
        work = self.desk.work
        os.makedirs(work + "/xdg/fcitx5", exist_ok=True)
        shutil.copyfile(PROFILE, work + "/xdg/fcitx5/profile")
        bus = f"unix:path={work}/bus"
        self.desk.start("dbus-daemon", "--session", "--nofork", "--nopidfile", "--address=" + bus)
        until("a bus", lambda: os.path.exists(work + "/bus"))
        self.desk.start_method(FCITX5, {"XDG_CONFIG_HOME": work + "/xdg", "DBUS_SESSION_BUS_ADDRESS": bus})

    def type(self, word, pause=0.02):
        for letter in word + " ":
            self.press(KEYS[letter], pause)

    def end(self):
        if self.method:
            self.method.end()


def from_entry_to_password(table):
    table.start_method()
    table.window("A")
    old = table.activated()
    table.press(TAB, 0.2)
    now = table.activated()
    table.commit("late", old)
    late = table.text("A", 2)
    table.commit("here", now)
    here = table.text("A", 2)
    faults = []
    if "late" in late or "late" in here:
        faults.append(
            Fault(
                GRAVE,
                PLACE,
                "the password entry got the batch that was meant for the entry before it",
                f"the password is {here!r}",
            )
        )
    if "here" not in here:
        faults.append(
            Fault(
                SERIOUS,
                "A batch for the field in use comes to it.",
                f"the password entry has {here!r}",
                "nothing can be composed there",
            )
        )
    return faults


def from_window_to_window(table):
    table.start_method()
    table.window("B")
    table.activated()
    table.window("A")
    old = table.activated()
    table.desk.focus("B")
    time.sleep(0.2)
    table.activated()
    table.commit("late", old)
    if late := table.text("B", 1):
        return [
            Fault(GRAVE, PLACE, f"the other program's entry got {late!r}", "text comes into another program's window")
        ]
    return []


def a_word_by_fcitx5(table):
    table.window("A")
    table.start_fcitx5()
    for _ in range(5):
        time.sleep(1)
        table.type("nihao")
        time.sleep(0.5)
        if "你好" in table.text("A", 1):
            return []
    return [
        Fault(
            SERIOUS,
            "A word that is composed comes to the field in use.",
            f"the entry has {table.text('A', 1)!r}",
            "no word can be composed",
        )
    ]


def the_focus_moves_under_fcitx5(table):
    """Words in two programs' windows in turn, the focus moved within 0.1 s of each."""
    if a_word_by_fcitx5(table):
        raise Skip("no word can be composed")
    table.window("B")
    pick = random.Random(1)
    for _ in range(15):
        for window, word in (("A", "nihao"), ("B", "women")):
            table.desk.focus(window)
            time.sleep(0.05)
            table.type(word, 0)
            time.sleep(pick.uniform(0, 0.05))
    time.sleep(1)
    a, b = table.text("A", 1), table.text("B", 1)
    strayed = a.count("我们") + b.count("你好")
    if strayed:
        return [
            Fault(
                GRAVE,
                PLACE,
                f"{strayed} of 30 words came into the other program's window",
                "text comes into another program's window",
            )
        ]
    return []


CASES = [
    Case(
        "GTK: from an entry to a password entry",
        "The method's batch for the first comes after Tab: the password is not to have it.",
        from_entry_to_password,
    ),
    Case(
        "GTK: from one program to another",
        "The method's batch for the first program comes after the focus moved.",
        from_window_to_window,
    ),
    Case("fcitx5: a word in GTK", "fcitx5 types a word of pinyin into an entry.", a_word_by_fcitx5),
    Case(
        "fcitx5: the focus moves",
        "Words are typed in two programs' windows in turn: each word in its own window or nowhere.",
        the_focus_moves_under_fcitx5,
    ),
]
