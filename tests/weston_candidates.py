"""Trials of the plug-in for Weston: where candidates stand, also in other shells and on other screens."""
import time

from pinyin_desk import until
from weston_cases import again, both, clear, inside, same, trial, window
from weston_desk import KEYS, SHIFT, SUPER


@trial("desktop")
def candidates_stand_at_the_cursor(desk):
    both(desk)
    desk.focus("term")
    desk.type("ni")
    x, y, width, height = desk.popup()
    place = desk.window("term")
    desk.shot("foot")
    inside("the candidates' corner", [x, y, 1, 1], place[:4])
    same("they stand at its left edge or further", x >= place[0] and y >= place[1], True)
    inside("the candidates", [x, y, width, height], [0, 0, 800, 600])
    clear(desk, "term")


@trial("desktop")
def candidates_follow_their_window(desk):
    both(desk)
    desk.focus("term")
    desk.type("ni")
    x, y = desk.popup()[:2]
    at = desk.window("term")
    desk.ask(f"move term {at[0] - 40} {at[1] + 30}")
    until("they follow", lambda: desk.popup()[:2] == [x - 40, y + 30])
    desk.ask(f"move term {at[0]} {at[1]}")
    until("they follow back", lambda: desk.popup()[:2] == [x, y])
    clear(desk, "term")


@trial("desktop")
def candidates_stay_inside(desk):
    both(desk)
    at = desk.window("entry")
    desk.focus("entry")
    desk.ask(f"move entry {780 - at[2] // 2} {590 - at[3] // 2}")
    desk.type("ni")
    popup = desk.popup()
    desk.shot("corner")
    inside("the candidates", popup, [0, 0, 800, 600])
    clear(desk, "entry")
    desk.ask(f"move entry {at[0]} {at[1]}")


@trial("desktop")
def candidates_are_clicked(desk):
    both(desk)
    desk.focus("term")
    before = desk.got("term")
    desk.type("nihao")
    until("the candidates of the word", lambda: desk.popup()[2] > 100)
    time.sleep(0.3)
    x, y, _, height = desk.popup()
    desk.shot("click")

    def click():
        desk.ask(f"point {x + 25} {y + height // 2}")
        time.sleep(0.2)
        desk.ask("button 1")
        desk.ask("button 0")
        time.sleep(1)
        return desk.got("term") == before + "你好"
    until("the candidate is taken", click)
    desk.no_popup()
    desk.focused = None


@trial("desktop")
def candidates_go_with_the_focus(desk):
    both(desk)
    desk.focus("term")
    desk.type("ni")
    desk.popup()
    desk.unfocus()
    desk.no_popup()
    desk.focus("term")
    clear(desk, "term")


@trial("desktop")
def candidates_over_a_fullscreen_window(desk):
    both(desk)
    desk.focus("term")
    desk.press(SUPER, SHIFT, KEYS["f"])
    until("it is fullscreen", lambda: desk.window("term")[:4] == [0, 0, 800, 600])
    desk.focused = None
    desk.ask("focus term")
    time.sleep(0.5)
    desk.focused = "term"
    desk.type("ni")
    inside("the candidates", desk.popup(), [0, 0, 800, 600])
    desk.shot("fullscreen")
    clear(desk, "term")
    desk.press(SUPER, SHIFT, KEYS["f"])
    until("it is a window again", lambda: desk.window("term")[2] < 800)


@trial("kiosk")
def kiosk_is_typed_into(desk):
    both(desk)
    desk.typed("term", "nihao ", "你好")
    desk.typed("entry", "shijie ", "世界")
    desk.typed("term", "\n", "\r")
    desk.focus("entry")
    desk.type("ni")
    inside("the candidates", desk.popup(), [0, 0, 800, 600])
    time.sleep(0.2)
    desk.shot("kiosk")
    clear(desk, "entry")


@trial("kiosk")
def kiosk_starts_the_method_again(desk):
    both(desk)
    for _ in range(2):
        starts = desk.starts()
        desk.focus("term")
        desk.type("ni")
        desk.popup()
        desk.kill_method()
        desk.no_popup()
        until("it is started again", lambda: desk.starts() > starts)
        again(desk)


@trial("failing")
def a_method_that_ends_at_once(desk):
    window(desk, "term")
    until("it was tried", lambda: desk.starts() >= 5)
    time.sleep(0.5)
    same("how often it was started", desk.starts(), 5)
    desk.ask("focus term")
    desk.type("abc")
    until("keys pass", lambda: desk.got("term") == "abc")


@trial("scaled")
def candidates_at_scale_2(desk):
    both(desk)
    desk.typed("entry", "nihao ", "你好")
    desk.type("ni")
    time.sleep(0.3)
    popup, at = desk.popup(), desk.window("entry")
    desk.shot("scaled")
    inside("the candidates", popup, [0, 0, 800, 600])
    same("they stand at the entry", at[0] <= popup[0] < at[0] + at[2] and at[1] < popup[1], True)
    clear(desk, "entry")


@trial("two")
def candidates_on_the_second_output(desk):
    both(desk)
    desk.focus("entry")
    desk.ask("move entry 1000 200")
    until("it is on the second output", lambda: desk.window("entry")[4] == "second")
    desk.type("ni")
    time.sleep(0.3)
    x, y = desk.popup()[:2]
    same("they stand at the entry", 1000 <= x < 1100 and 200 < y < 300, True)
    desk.ask("move entry 1500 400")
    until("they follow, and stay inside", lambda: desk.popup()[1] == y + 200)
    desk.shot("second", 1)
    inside("the candidates", desk.popup(), [800, 0, 800, 600])
    clear(desk, "entry")
    desk.ask("move entry 100 100")
    until("it is back", lambda: desk.window("entry")[4] == "headless")
    desk.type("ni")
    inside("the candidates", desk.popup(), [0, 0, 800, 600])
    clear(desk, "entry")


@trial("twice")
def it_is_loaded_once(desk):
    both(desk)
    desk.typed("term", "nihao ", "你好")
