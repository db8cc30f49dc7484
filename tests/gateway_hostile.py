#!/usr/bin/env python3
"""What a bad method's popups can't do beside sway: the program that they are shown in lives, and others hardly notice.

    tests/gateway_hostile.py FOLDER

FOLDER is as tests/gateway.sh builds it.
"""
import os
import signal
import sys
import tempfile
import time

from gateway_client import Client, Ended, Method, message, words
from gateway_desk import Desk, until

ARGB, WIDE = 0, 1448  # 1448 * 1448 * 4 bytes are as many as a popup may have


class Drawer(Method):
    """A method that draws a popup."""

    def __init__(self, desk):
        super().__init__(desk.path("wlim-methods"), desk.interfaces)
        self.compositor, self.memory = self.bind("wl_compositor"), self.bind("wl_shm")
        self.surface, self.popup = self.make_popup()

    def make_popup(self):
        surface = self.send(self.compositor, "create_surface")
        return surface, self.send(self.method, "get_input_popup_surface", surface)

    def make_buffer(self, width, height, true_size=None):
        """A buffer, its pool and its file, which may be shorter."""
        size = width * height * 4
        file = os.memfd_create("popup")
        os.ftruncate(file, size if true_size is None else true_size)
        pool = self.send(self.memory, "create_pool", file, size)
        return self.send(pool, "create_buffer", 0, width, height, width * 4, ARGB), pool, file

    def draw(self, buffer, surface=None, frame=False):
        surface = surface or self.surface
        self.send(surface, "attach", buffer, 0, 0)
        callback = self.send(surface, "frame") if frame else None
        self.send(surface, "commit")
        return callback


def ends(method, seconds=10):
    """It is told an error, and ends."""
    try:
        method.until("its end", lambda: False, seconds)
    except Ended:
        return method.close()
    raise AssertionError("it isn't ended")


class Scene:
    """A window with a field that has the focus, and the method of a trial."""

    def __init__(self, desk, name="one"):
        self.desk, self.one = desk, desk.window(name)
        self.one.send(self.one.xdg, "set_window_geometry", 0, 0, 640, 480)
        self.one.send(self.one.surface, "commit")
        self.one.make_field()
        desk.focused = None
        desk.sway(f'[app_id="^{name}$"] focus')
        self.one.wait(self.one.field, "enter")
        self.method = Drawer(desk)
        self.activate()

    def activate(self):
        self.one.send(self.one.field, "enable")
        self.one.send(self.one.field, "set_cursor_rectangle", 20, 20, 2, 16)
        self.one.send(self.one.field, "commit")
        self.method.until("the method is active", lambda: self.method.active)

    def shown(self):
        log = self.desk.read(self.desk.gateway.log)
        return log.rfind("popup is shown") > log.rfind("popup is hidden")

    def show(self, width=200, height=40):
        buffer, _, file = self.method.make_buffer(width, height)
        self.method.draw(buffer)
        self.method.wait(buffer, "release")
        os.close(file)
        until("it is shown", self.shown)
        return buffer

    def end(self):
        """Whoever is there still lives."""
        for client in (self.one, self.method):
            if client:
                client.roundtrip()
                client.close()
        until("the window is gone", lambda: not self.desk.windows())


def lying_pool(scene):
    """A file that is shorter than its pool says ends the method."""
    scene.method.draw(scene.method.make_buffer(200, 40, 1000)[0])
    ends(scene.method)
    scene.method = None


def cut_off(scene):
    """So does one that is cut off later, while it is drawn on and on."""
    buffer, _, file = scene.method.make_buffer(200, 40)
    scene.method.draw(buffer)
    scene.method.wait(buffer, "release")
    os.ftruncate(file, 4096)
    time.sleep(0.1)
    try:
        scene.method.draw(buffer)
        ends(scene.method)
    except Ended:
        pass
    scene.method = None


def destroyed(scene):
    """Its buffer and its pool go at once after the commit: they were committed."""
    buffer, pool, file = scene.method.make_buffer(200, 40)
    scene.method.draw(buffer)
    for each in (buffer, pool):
        scene.method.send(each, "destroy")
    os.close(file)
    scene.method.roundtrip()
    until("it is shown", scene.shown)


def request_of(method, name, *arguments):
    """A request of the popup's surface, as bytes."""
    opcode = next(at for at, row in enumerate(method.interfaces["wl_surface"][1]) if row[0] == name)
    return message(method.surface, opcode, words(*arguments))


def many_commits(scene):
    """20,000 commits at once."""
    buffer = scene.show()
    drawn = request_of(scene.method, "attach", buffer, 0, 0) + request_of(scene.method, "commit")
    scene.method.socket.sendall(drawn * 20000)
    scene.method.roundtrip()


def many_popups(scene):
    """100 popups: as many as are kept are shown."""
    buffer = scene.show()
    for _ in range(100):
        scene.method.draw(buffer, scene.method.make_popup()[0])
    scene.method.roundtrip()
    time.sleep(0.2)


def larger(scene):
    """Buffers larger than a popup may be aren't shown."""
    scene.show()
    for size in ((5000, 10), (10, 5000), (3000, 3000)):
        buffer, _, file = scene.method.make_buffer(*size)
        scene.method.draw(buffer)
        scene.method.wait(buffer, "release")
        os.close(file)
    until("it is hidden", lambda: not scene.shown())


def moving_cursor(scene):
    """5,000 moves of the cursor under a popup, and as many of the window's geometry."""
    scene.show()
    for at in range(5000):
        scene.one.send(scene.one.field, "set_cursor_rectangle", at % 600, at % 400, 2, 16)
        scene.one.send(scene.one.field, "commit")
        scene.one.send(scene.one.xdg, "set_window_geometry", 0, 0, 640 - at % 300, 480)
        scene.one.send(scene.one.surface, "commit")
        if at % 100 == 0:
            scene.one.roundtrip()
            scene.one.heard.clear()


def window_goes(scene):
    """The window goes under its popup: unmapped, and then its role and its surface."""
    one = scene.one
    scene.show()
    one.send(one.surface, "attach", 0, 0, 0)
    one.send(one.surface, "commit")
    until("it is hidden", lambda: not scene.shown())
    one.wait(one.field, "leave")
    one.roundtrip()
    one.send(one.top, "destroy")
    one.roundtrip()
    one.send(one.xdg, "destroy")
    one.send(one.surface, "destroy")
    one.roundtrip()


def role_goes(scene):
    """Its role goes, without a word before."""
    scene.show()
    scene.one.send(scene.one.top, "destroy")
    scene.one.send(scene.one.xdg, "destroy")
    until("it is hidden", lambda: not scene.shown())
    scene.one.wait(scene.one.field, "leave")


def surface_goes(scene):
    """Its surface goes with the program."""
    scene.show()
    scene.one.close()
    until("it is hidden", lambda: not scene.shown())
    scene.one = None


def method_goes(scene):
    """The method goes without a word."""
    scene.show()
    scene.method.close()
    until("it is hidden", lambda: not scene.shown())
    scene.method = None


def round_trips(client, seconds):
    """The times of round trips in microseconds, sorted: at most 20,000, since the client uses no id again."""
    times, end = [], time.monotonic() + seconds
    while time.monotonic() < end and len(times) < 20000:
        start = time.perf_counter()
        client.roundtrip()
        client.heard.clear()
        times.append((time.perf_counter() - start) * 1e6)
    return sorted(times)


def draws_on(scene, width, height):
    """A process's worth of drawing: at each frame. Answers the child."""
    child = os.fork()
    if child:
        return child
    method = scene.method
    buffers = [method.make_buffer(width, height)[0] for _ in range(2)]
    at = 0
    while True:
        method.wait(method.draw(buffers[at % 2], frame=True), "done", 60)
        method.heard.clear()
        at += 1


def largest(scene):
    """Popups as large as may be, at each frame: others' round trips at p99 take at most twice as long as beside small ones."""
    desk, times = scene.desk, []
    for size in ((200, 40), (WIDE, WIDE)):
        other = Client(desk.path("wlim-programs"), desk.interfaces)
        child = draws_on(scene, *size)
        time.sleep(0.5)
        times.append(round_trips(other, 3))
        os.kill(child, signal.SIGKILL)
        os.waitpid(child, 0)
        other.close()
        scene.method.close()
        scene.method = Drawer(desk)
        scene.activate()
    small, large = (each[len(each) * 99 // 100] for each in times)
    print(f"a round trip: p50 {times[0][len(times[0]) // 2]:.0f} us, p99 {small:.0f} beside a small popup; "
          f"{times[1][len(times[1]) // 2]:.0f}, {large:.0f} beside one of {WIDE} by {WIDE}", flush=True)
    return large <= 2 * small


def trial(desk, what):
    scene = Scene(desk)
    holds = what(scene)
    scene.end()
    return holds is not False


def run(desk):
    desk.start_gateway(records=False)
    for what in (lying_pool, cut_off, destroyed, many_commits, many_popups, larger, moving_cursor, window_goes,
                 role_goes, surface_goes, method_goes):
        trial(desk, what)
        print(f"{what.__name__}: {what.__doc__}", flush=True)
    if not any(trial(desk, largest) for _ in range(5)):  # other processes disturb times
        raise AssertionError(largest.__doc__)
    if desk.end_gateway() != 0:
        raise AssertionError("the gateway's end")


def main():
    code = 1
    signal.signal(signal.SIGTERM, lambda *_: sys.exit(1))
    with tempfile.TemporaryDirectory() as work:
        desk = Desk(os.path.abspath(sys.argv[1]), work)
        try:
            run(desk)
            code = 0
        finally:
            if code:
                print(desk.read(desk.gateway.log)[-5000:])
            desk.end()
    return code


sys.exit(main())
