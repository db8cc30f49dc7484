#!/usr/bin/env python3
"""What programs and methods see through the gateway beside sway, message by message; and what a bad client can't do.

    tests/gateway_peers.py FOLDER

FOLDER is as tests/gateway.sh builds it. The sessions stay there, with what was taken.
"""
import os
import signal
import socket
import sys
import tempfile
import time

from gateway_client import Client, Ended, Method, Window, keymap_text, memory_file, message, words
from gateway_desk import Desk, until

A, B, C = 30, 48, 46  # keys


def holds(what, found, wanted):
    if found != wanted:
        raise AssertionError(f"{what}: {found!r} and not {wanted!r}")


def nothing(client, object_id, name):
    """The client isn't told such an event: a round trip comes first."""
    client.roundtrip()
    holds(f"no {name}", client.told(object_id, name), None)


class Pair:
    """Two windows, of which the first has the focus, and a method."""

    def __init__(self, desk):
        self.desk = desk
        self.one, self.two = (desk.window(name) for name in ("one", "two"))
        for window in (self.one, self.two):
            window.make_field()
        self.method = Method(desk.path("wlim-methods"), desk.interfaces)
        self.enter(self.one, "one")

    def enter(self, window, name):
        """The focus goes to a window, whose field is enabled, and the method knows it."""
        self.desk.unfocus()
        self.method.until("the method rests", lambda: not self.method.active)
        window.roundtrip()
        window.heard.clear()
        self.desk.focus(name, grabs=False)
        window.wait(window.field, "enter")
        window.enable()
        self.method.until("the method is active", lambda: self.method.active)

    def close(self):
        for client in (self.method, self.one, self.two):
            client.close()


def batches(pair):
    """A string comes with a done that counts the field's commits, and a preedit goes with its method."""
    one, method = pair.one, pair.method
    method.commit("hé", "né")
    holds("preedit", one.wait(one.field, "preedit_string"), ["né", 3, 3])
    holds("string", one.wait(one.field, "commit_string"), ["hé"])
    holds("done", one.wait(one.field, "done"), [1])
    one.send(one.field, "set_surrounding_text", "hé", 3, 3)
    one.send(one.field, "commit")
    holds("surrounding text", method.wait(method.method, "surrounding_text"), ["hé", 3, 3])
    method.commit("x")
    holds("done", (one.wait(one.field, "commit_string"), one.wait(one.field, "done")), (["x"], [2]))


def late_batch(pair):
    """The focus moves before the method knows: what it commits then comes to nobody."""
    one, two, method, serial = pair.one, pair.two, pair.method, pair.method.dones
    two.roundtrip()
    two.heard.clear()
    pair.desk.focus("two", grabs=False)
    two.wait(two.field, "enter")
    two.enable()
    two.roundtrip()
    method.send(method.method, "commit_string", "for one")
    method.send(method.method, "commit", serial)
    method.roundtrip()
    nothing(one, one.field, "commit_string")
    nothing(two, two.field, "commit_string")
    pair.enter(one, "one")


def keys(pair):
    """Keys that no method takes come to the window; those that one takes come to it, and back behind its batch."""
    one, method, typist = pair.one, pair.method, pair.desk.typist
    pair.desk.press(A)
    holds("a key", [one.wait(one.keyboard, "key")[2:] for _ in range(2)], [[A, 1], [A, 0]])
    method.take_keys()
    method.wait(method.grab, "keymap")
    pair.desk.press(B)
    came = [method.wait(method.grab, "key") for _ in range(2)]
    nothing(one, one.keyboard, "key")
    method.commit("before")
    for _, when, key, state in came:
        method.send(method.board, "key", when, key, state)
    method.roundtrip()
    one.until("a key", lambda: [name for _, name, _ in one.heard].count("key") == 2)
    names = [name for _, name, _ in one.heard if name in ("commit_string", "done", "key")]
    holds("order", names, ["commit_string", "done", "key", "key"])
    holds("keys", [one.told(one.keyboard, "key")[1:] for _ in range(2)], [list(each[1:]) for each in came])
    one.heard.clear()
    typist.modifiers(1)
    typist.roundtrip()
    holds("modifiers", method.wait_last(method.grab, "modifiers")[1:], [1, 0, 0, 0])
    nothing(one, one.keyboard, "modifiers")
    method.send(method.board, "modifiers", 1, 0, 0, 0)
    holds("modifiers", one.wait(one.keyboard, "modifiers")[1:], [1, 0, 0, 0])
    typist.modifiers(0)
    typist.roundtrip()


def late_key(pair):
    """A key that is given back after the focus moved comes to nobody, nor does a repeat; one never typed does."""
    one, two, method = pair.one, pair.two, pair.method
    pair.desk.press(A)
    came = [method.wait(method.grab, "key") for _ in range(2)]
    _, when, key, _ = came[0]
    method.send(method.board, "key", when, key, 1)
    method.send(method.board, "key", when + 500, key, 1)
    method.roundtrip()
    holds("a key and its repeat", [one.wait(one.keyboard, "key")[1:] for _ in range(2)],
          [[when, A, 1], [when + 500, A, 1]])
    two.roundtrip()
    two.heard.clear()
    pair.desk.focus("two", grabs=False)
    two.wait(two.field, "enter")
    for _, when, key, state in came:
        method.send(method.board, "key", when, key, state)
        method.send(method.board, "key", when + 530, key, state)
    method.roundtrip()
    nothing(two, two.keyboard, "key")
    nothing(one, one.keyboard, "key")
    method.send(method.board, "key", 7, 59, 1)
    method.send(method.board, "key", 7, 59, 0)
    method.roundtrip()
    holds("a key of the method's own", [two.wait(two.keyboard, "key")[2:] for _ in range(2)], [[59, 1], [59, 0]])
    pair.enter(one, "one")


def held_key(pair):
    """A key that is down when the focus goes is released for the method; a board's key, where the grab goes."""
    one, method, typist = pair.one, pair.method, pair.desk.typist
    method.heard.clear()
    typist.key(A, 1)
    typist.roundtrip()
    _, when, key, state = method.wait(method.grab, "key")
    holds("press", (key, state), (A, 1))
    pair.desk.focus("two", grabs=False)
    holds("release", method.wait(method.grab, "key")[2:], [A, 0])
    typist.key(A, 0)
    pair.enter(one, "one")
    one.heard.clear()
    typist.key(B, 1)
    typist.roundtrip()
    _, when, key, state = method.wait(method.grab, "key")
    method.send(method.board, "key", when, key, state)
    holds("press", one.wait(one.keyboard, "key")[2:], [B, 1])
    method.send(method.grab, "release")
    method.roundtrip()
    typist.key(B, 0)
    typist.roundtrip()
    holds("release", one.wait(one.keyboard, "key")[2:], [B, 0])


def keymaps(pair):
    """A board with another keymap: the window has it while its keys come, and the seat's after. Nobody changes it."""
    one, method = pair.one, pair.method
    text = keymap_text(b"de")
    file = memory_file(text)
    method.send(method.board, "keymap", 1, file, len(text))
    method.send(method.board, "key", 1, A, 1)
    method.send(method.board, "key", 1, A, 0)
    _, keymap, size = one.wait(one.keyboard, "keymap")
    os.ftruncate(file, 0)
    os.close(file)
    holds("keymap", os.pread(keymap, size, 0), text)
    for change in (lambda: os.pwrite(keymap, b"x", 0), lambda: os.ftruncate(keymap, 0)):
        try:
            change()
        except PermissionError:
            continue
        raise AssertionError("a program can change the keymap")
    one.wait(one.keyboard, "key")
    one.wait(one.keyboard, "key")
    pair.desk.press(A)
    _, keymap, size = one.wait(one.keyboard, "keymap")
    holds("keymap", os.pread(keymap, size, 0), keymap_text())
    holds("key", [one.wait(one.keyboard, "key")[2:] for _ in range(2)], [[A, 1], [A, 0]])


def board_ends(pair):
    """A client ends with its board's key down: the window is told the release."""
    one, text = pair.one, keymap_text()
    other, file = Method(pair.desk.path("wlim-methods"), pair.desk.interfaces), memory_file(text)
    other.send(other.board, "keymap", 1, file, len(text))
    os.close(file)
    other.send(other.board, "key", 1, C, 1)
    holds("press", one.wait(one.keyboard, "key")[2:], [C, 1])
    other.close()
    holds("release", one.wait(one.keyboard, "key")[2:], [C, 0])


def method_ends(pair):
    """Its field is left and entered, so that it keeps no preedit; keys pass; another method serves."""
    one, method, desk = pair.one, pair.method, pair.desk
    second = Method(desk.path("wlim-methods"), desk.interfaces)
    second.wait(second.method, "unavailable")
    second.close()
    one.roundtrip()
    one.heard.clear()
    method.commit(preedit="half")
    one.wait(one.field, "preedit_string")
    method.close()
    one.wait(one.field, "leave")
    one.wait(one.field, "enter")
    desk.press(A)
    one.wait(one.keyboard, "key")
    pair.method = Method(desk.path("wlim-methods"), desk.interfaces)
    pair.enter(one, "one")
    batches_again(pair, "again")


def batches_again(pair, text):
    pair.one.heard.clear()
    pair.method.commit(text)
    holds("string", pair.one.wait(pair.one.field, "commit_string"), [text])


def renewed(desk):
    """The broker is renewed at each pause: counts go on, each batch comes once, a manager, popup and board live on."""
    desk.start_gateway("--entries", "150")
    pair = Pair(desk)
    one, method, commits, idle = pair.one, pair.method, 1, Client(desk.path("wlim-programs"), desk.interfaces)
    seat, manager = idle.bind("wl_seat"), idle.bind("zwp_text_input_manager_v3")
    idle.roundtrip()
    surface = method.send(method.bind("wl_compositor"), "create_surface")
    popup = method.send(method.method, "get_input_popup_surface", surface)
    method.take_keys()
    for at in range(100):
        if at % 20 == 19:
            one.wait(one.field, "leave")
            one.wait(one.field, "enter")
            one.enable()
            commits += 1
            one.roundtrip()
            method.roundtrip()
        method.commit(f"word {at}")
        holds("string", one.wait(one.field, "commit_string"), [f"word {at}"])
        holds("count", one.wait(one.field, "done"), [commits])
        desk.press(A)
        came = [method.wait(method.grab, "key") for _ in range(2)]
        for _, when, key, state in came:
            method.send(method.board, "key", when, key, state)
        holds("keys", [one.wait(one.keyboard, "key")[2:] for _ in range(2)], [[A, 1], [A, 0]])
    method.send(popup, "destroy")
    method.roundtrip()
    idle.send(manager, "get_text_input", seat)
    idle.roundtrip()
    idle.close()
    pair.close()
    count = len([name for name in os.listdir(desk.work) if name.startswith(f"session.{desk.gateways}")])
    holds("the gateway's end", desk.end_gateway(), 0)
    return count


# ---- What a bad client can't do: each is told an error or its end, and nobody else notices ----

def refused(client, code=None, seconds=10):
    """The client is told an error, and then it ends."""
    try:
        client.until("its end", lambda: False, seconds)
    except Ended as end:
        if code is not None:
            holds("the error's code", end.args[0] and end.args[0][1], code)
    client.close()


def bad_messages(desk):
    """Cut messages, bad sizes, ids, opcodes and arguments."""
    def client(role="wlim-programs"):
        return Client(desk.path(role), desk.interfaces)
    half = client()
    half.raw(words(1)[:3])
    half.close()
    for data, code in (
            (words(1, 4 << 16), 1), (words(1, 10 << 16) + b"abcd", 1), (words(1, 0), 1),
            (words(1, 0xFFFC << 16) + bytes(65524), 1), (message(77, 0), 0), (message(1, 9), 1), (message(1, 0), 1),
            (message(1, 0, words(900)), 0), (message(1, 0, words(0)), 1), (message(1, 0, words(1)), 0),
            (message(1, 0, words(0xFF000000)), 0), (message(1, 0, words(0x7E000001)), 0), (message(0x7E000001, 0), 0),
            (message(2, 0, words(1, 9)), 1), (message(2, 0, words(1, 0xFFFFFFFF)), 1)):
        bad = client()
        bad.raw(data)
        refused(bad, code)
    for face in ("zwp_text_input_manager_v3", "zwp_input_method_manager_v2", "wl_nothing"):
        bad, names = client(), Client(desk.path("wayland-1"), desk.interfaces).globals
        bad.interfaces = dict(bad.interfaces, wl_nothing=(1, [], []))
        bad.send(bad.registry, "bind", names.get(face, (1, 1))[0], face, 1, face=face)
        refused(bad, 0)
    long = desk.window("long")
    long.make_field()
    long.send(long.field, "set_surrounding_text", "a" * 5000, 0, 0)
    refused(long, 1)


def bad_descriptors(desk):
    """Too many that no message takes, and too few."""
    file = memory_file(b"x")
    many = Client(desk.path("wlim-programs"), desk.interfaces)
    try:
        for _ in range(40):
            many.raw(words(1)[:1], [file] * 25)
        refused(many)
    except Ended:
        many.close()
    none = Client(desk.path("wlim-programs"), desk.interfaces)
    none.raw(message(none.bind("wl_shm"), 0, words(none.new("wl_shm_pool"), 4096)))
    refused(none, 1)
    board = Method(desk.path("wlim-methods"), desk.interfaces)
    board.send(board.board, "keymap", 1, file, 4096)
    refused(board, 0)
    os.close(file)


def too_many(desk):
    """Who has too many objects is ended; programs for which there is no place run on, and have one when others went."""
    greedy = desk.window("greedy")
    manager = greedy.bind("zwp_text_input_manager_v3")
    try:
        for _ in range(300):
            greedy.send(manager, "get_text_input", greedy.seat)
        refused(greedy, 3)
    except Ended:
        greedy.close()
    before = desk.logged("has no place")
    crowd = [Client(desk.path("wlim-programs"), desk.interfaces) for _ in range(64)]
    for client in crowd:
        client.send(client.bind("zwp_text_input_manager_v3"), "get_text_input", client.bind("wl_seat"))
        client.roundtrip()
    holds("without a place", desk.logged("has no place") - before, 64 - 13)  # a process has 16, and three are in use
    for client in crowd:
        client.close()


def never_reads(desk):
    """Who doesn't read what it asks for is ended."""
    deaf = Client(desk.path("wlim-programs"), desk.interfaces)
    deaf.socket.settimeout(10)
    try:
        for first in range(3, 150000, 100):
            deaf.socket.sendall(b"".join(message(1, 0, words(at)) for at in range(first, first + 100)))
            time.sleep(0.001)
    except (BrokenPipeError, ConnectionResetError):
        return deaf.close()
    raise AssertionError("it isn't ended")


def round_trips(client, count):
    """The times of round trips in microseconds, sorted."""
    times = []
    for _ in range(count):
        start = time.perf_counter()
        client.roundtrip()
        client.heard.clear()
        times.append((time.perf_counter() - start) * 1e6)
    return sorted(times)


def flood(path):
    """A process that sends round trips without end, and reads what comes."""
    child = os.fork()
    if child:
        return child
    os.sched_setscheduler(0, os.SCHED_OTHER, os.sched_param(0))
    link = socket.socket(socket.AF_UNIX)
    link.connect(path)
    data = b"".join(message(1, 0, words(at)) for at in range(2, 2002))
    try:
        while True:
            link.sendall(data)
            left = 2000 * 24  # a done and a delete_id for each
            while left > 0:
                came = len(link.recv(65536))
                left -= came or sys.exit("the flood was ended")
    finally:
        os._exit(0)


def beside_flood(desk, name):
    """The times of one's round trips alone, and beside a process that floods, from its beginning on."""
    good = Client(desk.path(name), desk.interfaces)
    quiet = round_trips(good, 3000)
    child = flood(desk.path(name))
    loud = round_trips(good, 20000)
    holds("the flood goes on", os.waitpid(child, os.WNOHANG), (0, 0))
    os.kill(child, signal.SIGKILL)
    os.waitpid(child, 0)
    good.close()
    print(f"a round trip at {name}: p50 {quiet[1500]:.0f} us, p99 {quiet[2970]:.0f}; "
          f"beside a flood {loud[10000]:.0f}, {loud[19800]:.0f}", flush=True)
    return loud[19800] / quiet[2970]


def schedule(desk, policy, priority):
    """As root all but the flood runs above all that else keeps the processors busy."""
    for process in (desk.compositor.pid, desk.gateway.pid, 0) if os.getuid() == 0 else ():
        os.sched_setscheduler(process, policy, os.sched_param(priority))


def floods(desk):
    """Beside a process that floods others' round trips take at p99 at most thrice as long as alone; it ends, and is named."""
    schedule(desk, os.SCHED_RR, 1)
    beside_flood(desk, "wayland-1")
    if not any(beside_flood(desk, "wlim-programs") <= 3 for _ in range(3)):  # other processes disturb times
        raise AssertionError(floods.__doc__)
    schedule(desk, os.SCHED_OTHER, 0)
    child, good = flood(desk.path("wlim-programs")), Client(desk.path("wlim-programs"), desk.interfaces)
    until("the flood is ended", lambda: round_trips(good, 10) and os.waitpid(child, os.WNOHANG)[0], 60)
    holds("its process is named", desk.logged(rf"process {child}, python3\) ends: it sends more than the gateway takes"), 1)
    good.close()


def bad(desk, pair):
    for trial in (bad_messages, bad_descriptors, too_many, never_reads, floods):
        trial(desk)
        pair.enter(pair.one, "one")
        batches_again(pair, trial.__name__)
        print(f"{trial.__name__}: {trial.__doc__}", flush=True)


def hung_up(desk):
    """A compositor's error comes to the client, also where it is behind more than is read at once, and that hung up."""
    stand_in, client = socket.socket(socket.AF_UNIX), socket.socket(socket.AF_UNIX)
    stand_in.bind(desk.path("stand-in"))
    stand_in.listen()
    desk.start_gateway("--compositor", "stand-in")
    own, _ = stand_in.accept()
    client.connect(desk.path("wlim-programs"))
    link, _ = stand_in.accept()
    desk.gateway.send_signal(signal.SIGSTOP)
    error = message(1, 0, words(1, 7, 4) + b"why\0")
    link.sendall(message(1, 1, words(60000)) * 3000 + error)
    link.close()
    client.sendall(message(1, 0, words(2)))
    desk.gateway.send_signal(signal.SIGCONT)
    client.settimeout(10)
    came = b""
    while data := client.recv(65536):
        came += data
    holds("the last that came", came[-len(error):], error)
    holds("the gateway's end", desk.end_gateway(), 0)
    for each in (client, own, stand_in):
        each.close()


def compositor_ends(desk, pair):
    desk.kill(desk.compositor)
    try:
        pair.one.until("its end", lambda: False)
    except Ended:
        pass
    holds("the gateway's status", desk.gateway.wait(20), 1)
    holds("why", "the compositor has ended" in desk.read(desk.gateway.log), True)


def run(desk):
    desk.start_gateway()
    pair = Pair(desk)
    for trial in (batches, late_batch, keys, late_key, held_key, keymaps, board_ends, method_ends):
        trial(pair)
        print(f"{trial.__name__}: {trial.__doc__}", flush=True)
    bad(desk, pair)
    pair.close()
    holds("the gateway's end", desk.end_gateway(), 0)
    print(f"renewed: {renewed(desk)} brokers, one after the other", flush=True)
    hung_up(desk)
    print(f"hung_up: {hung_up.__doc__}", flush=True)
    desk.start_gateway()
    compositor_ends(desk, Pair(desk))
    print("compositor_ends: the gateway ends too, and says why", flush=True)


def main():
    built, code = os.path.abspath(sys.argv[1]), 1
    signal.signal(signal.SIGTERM, lambda *_: sys.exit(1))
    with tempfile.TemporaryDirectory() as work:
        desk = Desk(built, work)
        try:
            run(desk)
            code = 0
        except (TimeoutError, AssertionError, Ended) as error:
            print(f"failed: {type(error).__name__} {error}")
            raise
        finally:
            if code:
                print(desk.read(desk.gateway.log)[-3000:])
            desk.end()
            desk.keep_records("peers")
    return code


sys.exit(main())
