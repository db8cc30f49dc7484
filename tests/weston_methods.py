"""Trials of the plug-in for Weston with the method of tests/weston_method.c, which hides nothing itself."""
import subprocess
import time

from pinyin_desk import until
from weston_cases import inside, same, trial, window
from weston_desk import KEYS, SHIFT, SUPER, TAB


def own_method(desk, *words):
    """The method of tests/weston_method.c; `ask` gives it a line, and waits till it is done."""
    window(desk, "entry", "entry")
    method = desk.start(desk.built + "/method", *words, stdin=subprocess.PIPE, stdout=subprocess.PIPE, text=True, bufsize=1)
    method.heard = []

    def hear(wanted):
        while not method.heard or method.heard[-1] != wanted:
            line = method.stdout.readline()
            if not line:
                raise AssertionError(f"the method ended: {method.heard}")
            method.heard.append(line.rstrip("\n"))

    def ask(line):
        method.heard.append("")
        method.stdin.write(line + "\n")
        hear("ok")
    method.ask = ask
    hear("ready")
    return method


@trial("user")
def what_is_not_placed_is_not_shown(desk):
    """A popup that is always there is shown with a field's cursor alone."""
    window(desk, "term")
    method = own_method(desk, "100", "30", "us")
    desk.ask("focus entry")
    desk.popup()
    desk.shot("own")
    desk.ask("unfocus")
    desk.no_popup()
    desk.ask("focus entry")
    desk.popup()
    method.ask("hide")
    desk.no_popup()
    method.terminate()
    method.wait(10)
    desk.no_popup()


@trial("user")
def a_popup_ends(desk):
    method = own_method(desk, "100", "30", "us")
    desk.ask("unfocus")
    desk.ask("focus entry")
    desk.popup()
    method.ask("drop")
    desk.no_popup()
    method.terminate()
    method.wait(10)


@trial("user")
def a_killed_method_leaves_no_popup(desk):
    method = own_method(desk, "100", "30", "us")
    desk.ask("unfocus")
    desk.ask("focus entry")
    desk.popup()
    method.kill()
    desk.no_popup()


@trial("user")
def a_large_popup_is_kept_inside(desk):
    method = own_method(desk, "700", "200", "us")
    at = desk.window("entry")
    desk.ask("unfocus")
    desk.ask("focus entry")
    desk.ask("move entry 500 500")
    until("it is inside", lambda: desk.popup()[:2] == [100, desk.popup()[1]] and desk.popup()[1] < 400)
    inside("the popup", desk.popup(), [0, 0, 800, 600])
    desk.shot("large")
    desk.ask(f"move entry {at[0]} {at[1]}")
    until("it follows", lambda: desk.popup()[1] > at[1] or desk.popup()[1] >= 0)
    method.terminate()
    method.wait(10)


@trial("user")
def keys_have_their_own_modifiers(desk):
    """Shift of the virtual keyboard holds for its own keys: A and C, and b of the seat's keyboard between them."""
    method = own_method(desk, "10", "10", "us")
    desk.ask("unfocus")
    desk.ask("focus entry")
    time.sleep(0.3)
    before = desk.got("entry")
    method.ask("shift 1")
    method.ask(f"board {KEYS['a']} 1")
    method.ask(f"board {KEYS['a']} 0")
    until("A", lambda: desk.got("entry") == before + "A")
    desk.type("b")
    until("b", lambda: desk.got("entry") == before + "Ab")
    method.ask(f"board {KEYS['c']} 1")
    method.ask(f"board {KEYS['c']} 0")
    until(f"C: {desk.got('entry')}", lambda: desk.got("entry") == before + "AbC")
    method.terminate()
    method.wait(10)


@trial("user")
def keys_have_their_own_keymap(desk):
    """The virtual keyboard is German, the seat's isn't; and the next window has the seat's from the start."""
    method = own_method(desk, "10", "10", "de")
    window(desk, "term")
    desk.ask("focus entry")
    time.sleep(0.3)
    before = desk.got("entry")
    for code, state in ((KEYS["y"], 1), (KEYS["y"], 0)):
        method.ask(f"board {code} {state}")
    until("z", lambda: desk.got("entry") == before + "z")
    desk.type("y")
    until("y", lambda: desk.got("entry") == before + "zy")
    for code, state in ((KEYS["y"], 1), (KEYS["y"], 0)):
        method.ask(f"board {code} {state}")
    until("z again", lambda: desk.got("entry") == before + "zyz")
    desk.ask("focus term")
    was = desk.got("term")
    desk.type("y")
    until("y in the other window", lambda: desk.got("term") == was + "y")
    desk.ask("focus entry")
    desk.type("y")
    until("y in the first", lambda: desk.got("entry") == before + "zyzy")
    method.terminate()
    method.wait(10)


@trial("user")
def modifiers_after_a_grab(desk):
    """Shift is pressed while the method has the keyboard, and gives it back."""
    method = own_method(desk, "10", "10", "us")
    desk.ask("focus term")
    desk.ask("focus entry")
    time.sleep(0.3)
    before = desk.got("entry")
    method.ask("grab")
    desk.key(SHIFT, 1)
    method.ask("release")
    desk.type("a")
    until(f"A: {desk.got('entry')}", lambda: desk.got("entry") == before + "A")
    desk.key(SHIFT, 0)
    desk.type("a")
    until("Aa", lambda: desk.got("entry") == before + "Aa")
    method.terminate()
    method.wait(10)


@trial("user")
def keys_of_a_grab_reach_no_window(desk):
    method = own_method(desk, "10", "10", "us")
    desk.ask("focus entry")
    time.sleep(0.3)
    method.ask("grab")
    had = desk.count("wl_keyboard.key")
    desk.press(KEYS["m"], KEYS["n"])
    method.ask("shift 0")
    same("what the method was told", [line for line in method.heard if line.startswith("key")],
         [f"key {KEYS[letter]} {state}" for letter, state in (("m", 1), ("n", 1), ("n", 0), ("m", 0))])
    same("keys that a window was told", desk.count("wl_keyboard.key") - had, 0)
    method.terminate()
    method.wait(10)


@trial("user")
def a_key_whose_release_another_grab_had(desk):
    """A key is pressed in the method's grab; its release goes to Weston's switcher. The method is told it."""
    method = own_method(desk, "10", "10", "us")
    desk.ask("focus entry")
    method.ask("grab")
    desk.key(SUPER, 1)
    desk.key(KEYS["n"], 1)
    desk.key(TAB, 1)
    desk.key(TAB, 0)
    desk.key(KEYS["n"], 0)
    desk.key(SUPER, 0)
    time.sleep(0.3)
    desk.ask("focus entry")
    desk.press(KEYS["m"])
    method.ask("shift 0")
    same("releases of n", method.heard.count(f"key {KEYS['n']} 0"), 1)
    same("releases of Super", method.heard.count(f"key {SUPER} 0"), 1)
    same("presses of m", method.heard.count(f"key {KEYS['m']} 1"), 1)
    method.terminate()
    method.wait(10)
