#!/usr/bin/env python3
"""How the gateway starts and what it leaves alone: its words, files that are there, a reader of its log that goes.

    tests/gateway_start.py FOLDER

FOLDER has `wlim-gateway`. The compositor is a socket that nobody serves.
"""
import os
import resource
import shutil
import signal
import socket
import stat
import struct
import subprocess
import sys
import tempfile
import time


def holds(what, found, wanted):
    if found != wanted:
        raise AssertionError(f"{what}: {found!r} and not {wanted!r}")


class Start:
    """A gateway with these words, in a folder of its own."""

    def __init__(self, program, work):
        self.program, self.work = program, work
        self.compositor = socket.socket(socket.AF_UNIX)
        self.compositor.bind(work + "/wayland-0")
        self.compositor.listen(100)

    def begin(self, *words, folder=True, **pipes):
        environment = {"XDG_RUNTIME_DIR": self.work} if folder else {}
        where = [] if folder else ["--compositor", self.work + "/wayland-0"]
        return subprocess.Popen([self.program, *where, *words], env=environment, text=True, cwd=self.work,
                                **{"stdout": subprocess.PIPE, "stderr": subprocess.PIPE} | pipes)

    def refused(self, what, *words, folder=True):
        """It ends at once with status 2, and says why."""
        process = self.begin(*words, folder=folder)
        _, why = process.communicate(timeout=20)
        holds(f"{words}: status", process.returncode, 2)
        if what not in why:
            raise AssertionError(f"{words}: it said {why!r}")

    def ready(self, *words, **pipes):
        process = self.begin(*words, **pipes)
        line = process.stdout.readline()
        if not line.startswith("ready"):
            raise AssertionError(f"{words}: {line!r}{process.stderr.read()}")
        return process

    def ends(self, process):
        process.send_signal(signal.SIGTERM)
        process.wait(20)
        holds("status", process.returncode, 0)


def words(start):
    for entries in ("0", "x", "5x", "4000000", "-1"):
        start.refused("--entries", "--entries", entries)
    start.refused("--programs", "--nothing")
    start.refused("--programs", "--record")
    print("words: faulty ones end it with status 2")


def files(start):
    """A plain file isn't taken for an old socket; without a folder there is none; an old socket is replaced."""
    path = start.work + "/wlim-programs"
    with open(path, "w", encoding="ascii") as file:
        file.write("mine")
    start.refused("File exists")
    with open(path, encoding="ascii") as file:
        holds("the file", file.read(), "mine")
    os.remove(path)
    start.refused("XDG_RUNTIME_DIR isn't set", folder=False)
    old = socket.socket(socket.AF_UNIX)
    old.bind(path)
    old.close()
    process = start.ready()
    holds("the socket's mode", stat.S_IMODE(os.stat(path).st_mode) & 0o077, 0)
    start.refused("Address already in use")
    start.ends(process)
    holds("the sockets", [name for name in os.listdir(start.work) if name.startswith("wlim-")], [])
    print("files: only a socket that nobody serves is replaced; a folder is wanted")


def records(start):
    """A record is a new file that is the user's alone; one that is there stays, and so does what a link names."""
    path, link = start.work + "/record", start.work + "/link"
    process = start.ready("--record", path)
    start.ends(process)
    holds("the record's mode", stat.S_IMODE(os.stat(path).st_mode), 0o600)
    with open(path, encoding="ascii") as file:
        text = file.read()
    holds("the record", (text.split()[0], text.split()[-1]), ("session", "end"))
    start.refused("File exists", "--record", path)
    os.symlink(start.work + "/elsewhere", link)
    start.refused("File exists", "--record", link)
    holds("elsewhere", os.path.exists(start.work + "/elsewhere"), False)
    with open(path, encoding="ascii") as file:
        holds("the record", file.read(), text)
    print("records: new files, the user's alone")


def pipe_goes(start):
    """Who reads the log goes: the gateway goes on."""
    process = start.ready("--log")
    process.stdout.close()
    process.stderr.close()
    for _ in range(20):
        client = socket.socket(socket.AF_UNIX)
        client.connect(start.work + "/wlim-programs")
        client.sendall(b"\1\0\0\0\0\0\4\0")  # a message of a bad size: it is said why the client ends
        client.recv(100)
        client.close()
        time.sleep(0.01)
    holds("status", process.poll(), None)
    start.ends(process)
    print("a pipe: who reads the log goes, the gateway goes on")


def processor_time(process):
    with open(f"/proc/{process.pid}/stat", encoding="ascii") as file:
        words_of = file.read().rsplit(")", 1)[1].split()
    return (int(words_of[11]) + int(words_of[12])) / os.sysconf("SC_CLK_TCK")


def crowded(start):
    """Where descriptors run out, who waits to be let in doesn't keep the processor busy; later ones are let in."""
    process = start.ready(preexec_fn=lambda: resource.setrlimit(resource.RLIMIT_NOFILE, (40, 40)))
    crowd = []
    for _ in range(60):
        crowd.append(socket.socket(socket.AF_UNIX))
        crowd[-1].connect(start.work + "/wlim-programs")
    time.sleep(0.3)
    before = processor_time(process)
    time.sleep(1)
    spent = processor_time(process) - before
    if spent > 0.3:
        raise AssertionError(f"{spent} s of a second")
    for client in crowd:
        client.close()
    time.sleep(0.5)
    client = socket.socket(socket.AF_UNIX)
    client.settimeout(10)
    client.connect(start.work + "/wlim-programs")
    client.sendall(b"\1\0\0\0\0\0\4\0")
    holds("the error's head", client.recv(100)[:4], b"\1\0\0\0")
    start.ends(process)
    print(f"descriptors run out: {spent:.2f} s of a second, and later ones are let in")


class Program:
    """A program with a text input: what the broker is told of it counts, and what it tells comes without a compositor."""

    MANAGER = 0xffff0003  # the name of the gateway's own zwp_text_input_manager_v3

    def __init__(self, start):
        self.link = socket.socket(socket.AF_UNIX)
        self.link.settimeout(10)
        self.link.connect(start.work + "/wlim-programs")
        name = b"zwp_text_input_manager_v3\0"
        bound = struct.pack("<II", self.MANAGER, len(name)) + name.ljust(28, b"\0") + struct.pack("<II", 1, 3)
        self.send((1, 1, struct.pack("<I", 2)), (2, 0, bound), (3, 1, struct.pack("<II", 4, 4)))
        self.heard = b""

    def send(self, *messages):
        self.link.sendall(b"".join(struct.pack("<IHH", number, opcode, 8 + len(body)) + body
                                   for number, opcode, body in messages))

    def commits(self, count):
        self.send(*[(4, 7, b"")] * count)

    def is_served(self):
        """The broker makes and ends a text input: it says that the number is free."""
        self.send((3, 1, struct.pack("<II", 5, 4)), (5, 0, b""))
        while struct.pack("<III", 1, 12 << 16 | 1, 5) not in self.heard:
            came = self.link.recv(65536)
            if not came:
                raise AssertionError("the program was ended")
            self.heard += came
        self.heard = b""


def said(process, what):
    """Waits till it says that."""
    for line in process.stderr:
        if what in line:
            return
    raise AssertionError(f"it didn't say {what!r}")


def begins(path):
    """Waits till the file has something."""
    for _ in range(100):
        if os.path.exists(path) and os.path.getsize(path) > 0:
            return
        time.sleep(0.1)
    raise AssertionError(f"{path} doesn't begin")


def disk_full(start):
    """A record that can't be written on, or begun, is cut off, which is said; programs live, and a later one is whole."""
    folder = start.work + "/records"
    path = folder + "/record"
    os.mkdir(folder)
    limits = {"preexec_fn": lambda: resource.setrlimit(resource.RLIMIT_FSIZE, (20000, 20000))}
    process = start.ready("--record", path, "--entries", "1000", **limits)
    program = Program(start)
    program.commits(2000)
    said(process, "record isn't whole, and goes on in another file at the next renewal: File too large")
    holds("the record's size", os.path.getsize(path), 20000)
    begins(path + ".2")
    program.is_served()
    shutil.rmtree(folder)
    process.send_signal(signal.SIGHUP)
    said(process, "record.3: No such file or directory")
    program.is_served()
    os.mkdir(folder)
    process.send_signal(signal.SIGHUP)
    begins(path + ".4")
    program.is_served()
    start.ends(process)
    with open(path + ".4", encoding="ascii") as file:
        text = file.read().split()
    holds("the last record", (text[0], text[-1]), ("session", "end"))
    print("a full disk, or a folder that goes: the record is cut off, programs are served, and SIGHUP begins another")


def main():
    for trial in (words, files, records, pipe_goes, crowded, disk_full):
        with tempfile.TemporaryDirectory() as work:
            trial(Start(os.path.abspath(sys.argv[1]) + "/wlim-gateway", work))


main()
