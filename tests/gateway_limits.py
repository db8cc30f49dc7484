#!/usr/bin/env python3
"""One bad program beside honest ones, through the gateway beside sway: a crowd, floods, descriptors, comings and goings.

    tests/gateway_limits.py FOLDER [CONNECTIONS]

FOLDER is as tests/gateway.sh builds it. Each honest program is a process of its own, as programs are.
"""
import os
import signal
import socket
import struct
import sys
import tempfile
import time

from gateway_client import Client, Ended, Method, Window, memory_file, message, words
from gateway_desk import Desk, until

PROGRAMS, MORE, PLACES = 64, 40, 56
CHILDREN = []  # that are to end with the test


def holds(what, found, wanted):
    if found != wanted:
        raise AssertionError(f"{what}: {found!r} and not {wanted!r}")


def at_most(what, found, most):
    if found > most:
        raise AssertionError(f"{what}: {found} and not at most {most}")


class Program:
    """A window with a field in a process of its own: a byte tells it to look for a word, and it says how many came."""

    def __init__(self, desk, name):
        self.name = name
        self.link, other = socket.socketpair()
        self.child = os.fork()
        if self.child:
            CHILDREN.append(self.child)
            other.close()
            return
        try:
            self.run(desk, name, other)
        except (Ended, OSError):
            pass
        os._exit(0)

    def run(self, desk, name, other):
        signal.signal(signal.SIGTERM, signal.SIG_DFL)
        window = Window(desk.path("wlim-programs"), desk.interfaces, name)
        window.make_field()
        window.roundtrip()
        other.sendall(b"r")
        entered, count = False, 0
        while other.recv(1):
            ends = time.monotonic() + 5
            while time.monotonic() < ends:
                window.read(0.02)
                while window.told(window.field, "enter"):
                    entered = True
                    window.enable()
                if window.told(window.field, "commit_string"):
                    count += 1
                    break
                if not entered and time.monotonic() > ends - 4.5:
                    break
            window.heard.clear()
            other.sendall(struct.pack("<I", count))
            entered = False

    def ready(self):
        return self.link.recv(1) == b"r"

    def end(self):
        self.link.close()
        os.kill(self.child, signal.SIGKILL)
        os.waitpid(self.child, 0)


def type_into(desk, method, program):
    """The focus goes to it, and the method commits a word once it is active. Answers how many words it got in all."""
    program.link.sendall(b"t")
    desk.sway(f'[app_id="^{program.name}$"] focus')
    ends = time.monotonic() + 0.4
    method.roundtrip()
    while not method.active and time.monotonic() < ends:
        method.read(0.02)
    if method.active:
        method.commit("word")
        method.roundtrip()
    count = struct.unpack("<I", program.link.recv(4))[0]
    desk.sway("workspace empty")
    until("the method rests", lambda: method.roundtrip() or not method.active)
    return count


def crowd(desk):
    """64 programs and 40 more, the method restarted among them: none is ended, all that have a place are typed into."""
    method = Method(desk.path("wlim-methods"), desk.interfaces)
    before = desk.logged(r"\) ends:")
    programs = [Program(desk, f"p{number}") for number in range(PROGRAMS)]
    for program in programs:
        program.ready()
    for number in range(PROGRAMS, PROGRAMS + MORE):
        programs.append(Program(desk, f"p{number}"))
        programs[-1].ready()
        if number == PROGRAMS + MORE // 2:
            method.socket.shutdown(socket.SHUT_RDWR)  # a fork has it too
            method.close()
            time.sleep(0.2)
            method = Method(desk.path("wlim-methods"), desk.interfaces)
    holds("a method has its place", method.told(method.method, "unavailable"), None)
    desk.sway("workspace empty")
    typed = sum(type_into(desk, method, program) == 1 for program in programs)
    holds("typed into", typed, PLACES)
    holds("ended", desk.logged(r"\) ends:") - before, 0)
    for program in programs:
        program.end()
    method.close()


class Pair:
    """An honest window that has the focus, and its method; a bad process beside them."""

    def __init__(self, desk):
        self.desk, self.window = desk, desk.window("honest")
        self.window.make_field()
        self.method = Method(desk.path("wlim-methods"), desk.interfaces)
        desk.sway("workspace empty")
        desk.sway('[app_id="^honest$"] focus')
        self.window.wait(self.window.field, "enter")
        self.window.enable()
        self.method.until("the method is active", lambda: self.method.active)

    def batches(self, count):
        """The times in microseconds till a batch comes, sorted: each comes."""
        times = []
        for number in range(count):
            start = time.perf_counter()
            self.method.commit(f"w{number}")
            holds("a batch", self.window.wait(self.window.field, "commit_string"), [f"w{number}"])
            times.append((time.perf_counter() - start) * 1e6)
            self.window.heard.clear()
            self.method.heard.clear()
        return sorted(times)

    def close(self):
        self.window.close()
        self.method.close()


def forked(run, *arguments):
    child = os.fork()
    if child:
        CHILDREN.append(child)
        return child
    signal.signal(signal.SIGTERM, signal.SIG_DFL)
    try:
        run(*arguments)
    except (Ended, OSError):
        pass
    os._exit(0)


def floods_of(desk):
    """Commits of an idle field, as fast as they are taken, until it is ended."""
    client = Client(desk.path("wlim-programs"), desk.interfaces)
    field = client.send(client.bind("zwp_text_input_manager_v3"), "get_text_input", client.bind("wl_seat"))
    rows = desk.interfaces["zwp_text_input_v3"][1]
    commit = message(field, next(at for at, row in enumerate(rows) if row[0] == "commit"))
    while True:
        client.socket.sendall(commit * 1000)


def flood(desk):
    """Beside a flood of commits each batch comes, at p99 within thrice its time alone; the flood ends, named by process."""
    before = desk.logged("it sends more than the broker takes")
    pair = Pair(desk)
    for _ in range(5):  # other processes disturb times
        alone = pair.batches(2000)
        child = forked(floods_of, desk)
        time.sleep(0.5)
        loud = pair.batches(2000)
        os.kill(child, signal.SIGKILL)
        os.waitpid(child, 0)
        print(f"a batch: p50 {alone[1000]:.0f} us, p99 {alone[1980]:.0f}; beside a flood "
              f"{loud[1000]:.0f}, {loud[1980]:.0f}", flush=True)
        if loud[1980] <= 3 * alone[1980]:
            break
    else:
        raise AssertionError("the honest program's times")
    child = forked(floods_of, desk)
    until("the flood is ended", lambda: pair.batches(20) and os.waitpid(child, os.WNOHANG)[0], 90)
    holds("ended", desk.logged("it sends more than the broker takes") - before, 1)
    holds("its process is named", desk.logged(rf"process {child}, python3\) ends: it sends more"), 1)
    holds("renewals", pair.window.told(pair.window.field, "leave"), None)
    pair.close()


def hoards_of(desk):
    """Clients with 200 descriptors each that no message takes."""
    file, clients = memory_file(b"x"), []
    while True:
        clients.append(Client(desk.path("wlim-programs"), desk.interfaces))
        clients[-1].raw(words(1, 0xFFF8 << 16))
        for _ in range(8):
            clients[-1].raw(b"\0", [file] * 25)
        time.sleep(0.005)


def hoard(desk):
    """Beside one that hoards descriptors each batch comes, and pools are made: who hoards is ended, and nobody else."""
    pair = Pair(desk)
    others = desk.logged(r"\) ends:") - desk.logged(r"process \d+, python3\) ends: descriptors run short")
    child = forked(hoards_of, desk)
    ends = time.monotonic() + 10
    memory = pair.window.bind("wl_shm")
    while time.monotonic() < ends and desk.logged("descriptors run short") < 3:
        pair.batches(5)
        file = memory_file(b"x" * 4096)
        pair.window.send(pair.window.send(memory, "create_pool", file, 4096), "destroy")
        os.close(file)
        pair.window.roundtrip()
    os.kill(child, signal.SIGKILL)
    os.waitpid(child, 0)
    if desk.logged("descriptors run short") == 0:
        raise AssertionError("nobody was ended for descriptors")
    holds("its process alone", desk.logged(rf"process {child}, python3\) ends"), desk.logged(r"\) ends:") - others)
    pair.batches(5)
    pair.close()


def resident(desk):
    with open(f"/proc/{desk.gateway.pid}/statm", encoding="ascii") as file:
        return int(file.read().split()[1]) * 4096 // 1048576  # MiB


def soak(desk, count):
    """Programs come, make a field, and go, while somebody types: the gateway's memory stays flat."""
    pair, sizes = Pair(desk), []
    start = time.monotonic()
    for number in range(count):
        client = Client(desk.path("wlim-programs"), desk.interfaces)
        if number % 4 == 0:
            client.send(client.bind("zwp_text_input_manager_v3"), "get_text_input", client.bind("wl_seat"))
            client.roundtrip()
        client.close()
        if number % 50 == 0:
            pair.batches(20)
        if number % (count // 10) == 0:
            sizes.append(resident(desk))
    print(f"{count} connections in {time.monotonic() - start:.0f} s, {count * 20 // 50} batches: "
          f"{sizes[2]} MiB, then {sizes[-1]}", flush=True)
    at_most("memory", sizes[-1], sizes[2] * 1.2 + 10)
    pair.close()


def run(desk, connections):
    desk.start_gateway(records=False)
    for trial in (crowd, flood):
        trial(desk)
        print(f"{trial.__name__}: {trial.__doc__}", flush=True)
    soak(desk, connections)
    print(f"soak: {soak.__doc__}", flush=True)
    holds("the gateway's end", desk.end_gateway(), 0)
    desk.start_gateway(records=False, descriptors=1024)
    hoard(desk)
    print(f"hoard: {hoard.__doc__}", flush=True)
    holds("the gateway's end", desk.end_gateway(), 0)


def main():
    code, connections = 1, int(sys.argv[2]) if len(sys.argv) > 2 else 10000
    signal.signal(signal.SIGTERM, lambda *_: sys.exit(1))
    with tempfile.TemporaryDirectory() as work:
        desk = Desk(os.path.abspath(sys.argv[1]), work)
        try:
            run(desk, connections)
            code = 0
        finally:
            for child in CHILDREN if code else []:
                try:
                    os.kill(child, signal.SIGKILL)
                except ProcessLookupError:
                    pass
            if code:
                print(desk.read(desk.gateway.log)[-3000:])
            desk.end()
    return code


sys.exit(main())
