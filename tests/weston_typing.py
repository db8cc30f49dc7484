"""Trials of the plug-in for Weston: what is typed by fcitx5, the focus, the method's end."""
import os
import signal
import subprocess
import time

from pinyin_desk import until
from weston_cases import again, both, inside, same, trial, window
from weston_desk import CTRL, KEYS, SUPER, TAB


@trial("desktop")
def foot_is_typed_into(desk):
    both(desk)
    desk.typed("term", "nihao ", "你好")


@trial("desktop")
def gtk_is_typed_into(desk):
    both(desk)
    desk.typed("entry", "shijie ", "世界")


@trial("desktop")
def keys_are_given_back(desk):
    both(desk)
    desk.typed("term", "\n", "\r")
    desk.typed("entry", "nihao ", "你好")
    desk.type("\b")
    until("a character is deleted", lambda: desk.got("entry").endswith("世界你"))


@trial("desktop")
def modifiers_are_given_back(desk):
    """Ctrl+A takes all, which the next word replaces."""
    both(desk)
    desk.focus("entry")
    desk.press(CTRL, KEYS["a"])
    time.sleep(0.3)
    desk.type("shijie ")
    until("all is replaced", lambda: desk.got("entry") == "世界")


@trial("desktop", "kiosk")
def a_password_is_not_composed(desk):
    both(desk)
    window(desk, "secret", "password")
    desk.typed("secret", "niHao", "niHao")
    desk.no_popup()


@trial("desktop", "kiosk")
def a_popover_is_typed_into(desk):
    """The key that opens it is the method's; while it is open keys still go to the method."""
    both(desk)
    program = window(desk, "button", "popover")
    desk.ask("focus button")
    desk.focused = None
    time.sleep(0.3)
    had = desk.grabs()
    desk.type("\n")
    until("the method has the keys of the popover", lambda: desk.grabs()[1] > had[1])
    time.sleep(0.5)
    desk.type("nihao ")
    until(f"the popover has {desk.got('button')!r}", lambda: desk.got("button") == "你好")
    desk.type("ni")
    desk.popup()
    desk.shot("popover")
    desk.type("\x1b")
    desk.no_popup()
    # Weston 10's kiosk-shell reads what it freed, where it ends with a menu open: so the program ends before.
    program.terminate()
    until("the program ends", lambda: not desk.window("button"))
    desk.focused = None


@trial("desktop")
def words_without_pauses(desk):
    both(desk)
    desk.typed("term", "nihao shijie women " * 10, "你好世界我们" * 10, 40)


@trial("desktop", "kiosk")
def the_focus_moves(desk):
    """40 times within 0.3 s of a word: it comes to its window or to none."""
    both(desk)
    came, words = 0, {"term": ("nihao ", "你好"), "entry": ("shijie ", "世界")}
    for name, new in desk.type_while_it_moves(20, words).items():
        same(f"what {name} has besides its words", new.replace(words[name][1], ""), "")
        came += new.count(words[name][1])
    print(f"    {came} of 40 words came")
    same("that words came", came > 4, True)


@trial("desktop")
def the_switcher_between_press_and_release(desk):
    both(desk)
    desk.focus("term")
    before = desk.got("term") + desk.got("entry")
    for _ in range(3):
        desk.key(KEYS["n"], 1)
        desk.key(SUPER, 1)
        desk.press(TAB)
        desk.key(KEYS["n"], 0)
        desk.key(SUPER, 0)
        time.sleep(0.5)
        desk.type("\x1b")
        time.sleep(0.2)
    desk.unfocus()
    same("what came of it", (desk.got("term") + desk.got("entry")).count("nn"), 0)
    same("how much came", len(desk.got("term") + desk.got("entry")) - len(before) <= 6, True)
    desk.typed("term", "nihao ", "你好")


@trial("desktop")
def a_host_takes_the_focus_with_a_key_down(desk):
    both(desk)
    desk.focus("term")
    desk.type("\x1b")
    desk.key(KEYS["n"], 1)
    desk.ask("host 0")
    desk.ask("host 1")
    desk.focused = None
    time.sleep(0.5)
    desk.ask("focus term")
    desk.type("\x1b")
    time.sleep(0.3)
    desk.typed("term", "nihao ", "你好")


@trial("desktop", "kiosk")
def a_window_is_killed_while_it_composes(desk):
    both(desk)
    victim = window(desk, "victim")
    desk.focus("victim")
    desk.type("ni")
    desk.popup()
    os.killpg(victim.pid, signal.SIGKILL)
    desk.no_popup()
    until("it is gone", lambda: not desk.window("victim"))
    desk.focused = None
    desk.typed("term", "nihao ", "你好")


@trial("desktop")
def the_method_is_killed_while_it_composes(desk):
    both(desk)
    desk.focus("term")
    desk.type("ni")
    desk.popup()
    starts = desk.starts()
    desk.kill_method()
    desk.no_popup()
    until("it is started again", lambda: desk.starts() > starts)
    again(desk)


@trial("desktop")
def a_stranger_is_no_method(desk):
    """What Weston didn't start has neither a method nor a virtual keyboard."""
    both(desk)
    ran = subprocess.run([desk.built + "/method", "10", "10", "us"], env=desk.env, cwd=desk.work, capture_output=True,
                         text=True, timeout=20, check=False, stdin=subprocess.DEVNULL)
    same("how it ended", ran.returncode, 3)
    same("that it was told", ran.stdout, "unavailable\n")
    desk.typed("term", "nihao ", "你好")


@trial("desktop")
def keymaps_change(desk):
    """The method and the windows read keys by the new layout: z and y are exchanged."""
    both(desk)
    window(desk, "secret", "password")
    before = desk.got("secret")
    desk.focus("secret")
    desk.ask("keymap de")
    time.sleep(0.3)
    desk.type("y")
    until(f"a z: {desk.got('secret')}", lambda: desk.got("secret") == before + "z")
    desk.ask("keymap us")
    time.sleep(0.3)
    desk.type("y")
    until("a y", lambda: desk.got("secret") == before + "zy")


@trial("desktop")
def the_keyboard_goes_and_comes(desk):
    both(desk)
    desk.focus("term")
    desk.ask("seat 0")
    time.sleep(0.3)
    desk.ask("seat 1")
    desk.focused = None
    time.sleep(0.3)
    desk.typed("term", "nihao ", "你好")


@trial("desktop")
def firefox_is_typed_into(desk):
    """Its title has what is in its text field."""
    both(desk)
    desk.write("page.html", "<!doctype html><meta charset=utf-8><title>page:</title><textarea autofocus rows=4 "
               "oninput=\"document.title='page:'+this.value\"></textarea><script>onfocus=()=>"
               "document.querySelector('textarea').focus()</script>")
    os.makedirs(desk.path("profile"), exist_ok=True)
    desk.write("profile/user.js", "".join(f'user_pref("{name}", {value});\n' for name, value in (
        ("browser.aboutwelcome.enabled", "false"), ("browser.shell.checkDefaultBrowser", "false"),
        ("datareporting.policy.dataSubmissionEnabled", "false"), ("toolkit.startup.max_resumed_crashes", "-1"),
        ("browser.sessionstore.resume_from_crash", "false"), ("trailhead.firstrun.didSeeAboutWelcome", "true"),
        ("app.update.auto", "false"), ("browser.startup.homepage_override.mstone", '"ignore"'),
        ("termsofuse.acceptedVersion", "999"), ("termsofuse.bypassNotification", "true"))))
    desk.env.update(MOZ_ENABLE_WAYLAND="1", MOZ_WEBRENDER="0", LIBGL_ALWAYS_SOFTWARE="1")
    browser = desk.start("firefox-esr", "--no-remote", "--profile", desk.path("profile"), f"file://{desk.path('page.html')}")
    until("Firefox", lambda: desk.window("page:"), 90)
    desk.focused = None
    desk.ask("focus page:")
    time.sleep(3)
    had = desk.grabs()
    desk.unfocus()
    desk.ask("focus page:")
    until("the method has the keys of Firefox", lambda: desk.grabs()[1] > had[1], 30)
    time.sleep(0.5)
    desk.type("nihao ")
    until(f"the word: {desk.windows()}", lambda: desk.window("page:你好"), 30)
    desk.type("ni")
    desk.popup()
    time.sleep(0.5)
    desk.shot("firefox")
    inside("the candidates", desk.popup(), desk.window("page:你好")[:4])
    desk.type("\x1b")
    desk.no_popup()
    browser.terminate()
    until("Firefox ends", lambda: not desk.window("page:"), 30)
    desk.focused = None
