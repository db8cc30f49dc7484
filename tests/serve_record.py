#!/usr/bin/env python3
"""Servers whose record can't be written any more, or that are killed: serve_record.py PROGRAM [SMALL]

Each case serves an application `a` whose every step is a `sync`, which is answered, and ends in its own way at a step
that is fixed. Then what is recorded has to be a front of a session that `wlim replay` plays, and in that replay everything
is owed that a client was sent; where the record failed, but for the answers that were underway. SMALL is a folder on a
disk that fills after a few kilobytes.
"""
import os
import shutil
import signal
import subprocess
import sys
import time

sys.path.insert(0, os.path.join(os.path.dirname(os.path.abspath(__file__)), "..", "examples", "serve"))
from frames import Server, frame, read_frame, sync, synced  # noqa: E402

PATIENCE = 20  # seconds for a server that has to end by itself
STEPS = 300  # syncs before a kill
FLOOD = 20_000  # syncs that a server doesn't get to where its record fails
QUIET = 0.5  # seconds after which a recorder has written all that came
LAG = 24 * 50  # bytes of the answers that may be underway when a write fails; each answer has 24
MOST_GROWTH = 65_536  # kilobytes that a server may grow by until its record fails
WRITE_FAULT, NET_FAULT = 5, 8


def fail(why):
    raise SystemExit(f"serve_record: {why}")


class Client:
    """A link, what it sent, and all bytes that it was sent."""

    def __init__(self, server, letter="a"):
        self.link = server.connect(letter)
        self.link.settimeout(PATIENCE)
        self.got = b""
        self.ended = False
        self.callback = 1

    def read(self):
        try:
            got = read_frame(self.link)
        except TimeoutError:
            fail("a client waits for an answer or its end in vain")
        except OSError:
            got = None
        self.ended = got is None
        self.got += got[0] if got else b""

    def ask(self):
        """One `sync`, and its answer; false where the link has ended."""
        self.callback += 1
        try:
            self.link.sendall(frame(sync(self.callback)))
        except OSError:
            pass
        while not self.ended and synced(self.callback) not in self.got[-64:]:
            self.read()
        return not self.ended

    def close(self):
        self.link.close()


def owed(program, record):
    """What each peer is owed by a front of a session, of which the last line may be cut."""
    whole = record[: record.rfind(b"\n") + 1]
    lines = whole.splitlines(keepends=True)
    if lines and lines[-1] == b"end\n":
        lines.pop()
    run = subprocess.run([program, "replay"], input=b"".join(lines) + b"end\n", stdout=subprocess.PIPE)
    if run.returncode != 0:
        fail(f"the record isn't a front of a session: status {run.returncode}")
    bytes_of = {}
    for line in run.stdout.decode().splitlines():
        words = line.split(" ")
        if words[1] == "out":
            peer = int(words[2])
            bytes_of[peer] = bytes_of.get(peer, b"") + bytes.fromhex(words[3])
    return bytes_of


def check_front(what, program, record, clients, may_lack=0):
    """That nothing which was delivered is missing from the record, but for so many bytes at most."""
    bytes_of = owed(program, record) if record else {}
    for number, client in enumerate(clients, 1):
        recorded = bytes_of.get(number, b"")
        front = min(len(recorded), len(client.got))
        if recorded[:front] != client.got[:front]:
            fail(f"{what}: peer {number} was sent what the record doesn't owe it")
        if len(client.got) - front > may_lack:
            fail(f"{what}: {len(client.got) - front} bytes that peer {number} was sent are missing from the record")
    return max(len(client.got) - len(bytes_of.get(number, b"")) for number, client in enumerate(clients, 1))


def kilobytes(pid):
    """The most memory that a process had."""
    with open(f"/proc/{pid}/status") as status:
        for line in status:
            if line.startswith("VmHWM:"):
                return int(line.split()[1])
    return 0


def clear(server):
    """What a server that was killed leaves."""
    shutil.rmtree(server.folder)


def ends(what, server, status):
    """Waits for the end of a server that has to end by itself."""
    try:
        said = server.process.wait(PATIENCE)
    except subprocess.TimeoutExpired:
        server.process.kill()
        fail(f"{what}: the server goes on")
    if said != status:
        fail(f"{what}: status {said}, not {status}")
    if any(os.path.exists(path) for path in server.paths.values()):
        fail(f"{what}: a socket file is left")


def read_back(path):
    with open(path, "rb") as file:
        return file.read()


def until_the_end(what, server, client, record_of, may_lack):
    """A server whose record fails: its client is answered, and then its link ends, and the server."""
    program = server.words[0]
    before = kilobytes(server.process.pid)
    count = 0
    most = before
    while count < FLOOD and client.ask():
        count += 1
        if count % 100 == 0:
            most = max(most, kilobytes(server.process.pid))
    if not client.ended:
        fail(f"{what}: {count} steps were served without a record")
    ends(what, server, WRITE_FAULT)
    clear(server)
    if most - before > MOST_GROWTH:
        fail(f"{what}: it grew from {before} to {most} kilobytes")
    lacks = check_front(what, program, record_of(), [client], may_lack)
    print(f"{what}: status 5 after {count} answers, {lacks} bytes of them not recorded, {most - before} kB more memory")


def full_disk(program, small):
    path = os.path.join(small, "session") if small else "/dev/full"
    with open(path, "wb") as output:
        server = Server(program, "a", output=output)
        client = Client(server)
        if small:
            until_the_end("full disk", server, client, lambda: read_back(path), LAG)
        else:
            until_the_end("full disk", server, client, lambda: b"", FLOOD)


def closed_pipe(program):
    """The pipe's other end is closed after a hundred steps."""
    ours, theirs = os.pipe()
    with os.fdopen(theirs, "wb") as output:
        server = Server(program, "a", output=output)
    client = Client(server)
    for _ in range(100):
        client.ask()
    time.sleep(QUIET)
    record = os.read(ours, 1 << 20)
    os.close(ours)
    until_the_end("closed pipe", server, client, lambda: record, LAG)


def killed(program, how, name, order="a", options=(), quiet=QUIET):
    """The server is killed when all is quiet: all that was delivered is in its record."""
    server = Server(program, order, options)
    client = Client(server)
    for _ in range(STEPS):
        client.ask()
    time.sleep(quiet)
    os.kill(server.process.pid, how)
    server.process.wait(PATIENCE)
    server.session.seek(0)
    check_front(name, program, server.session.read(), [client])
    clear(server)
    print(f"{name}: {STEPS} answers, all in the record")


def nobody_came(program):
    """The second letter's client doesn't come: the wait for it ends, and the record is written from then on."""
    server = Server(program, "aa", ("--wait", "1"))
    client = Client(server)
    for _ in range(STEPS):
        client.ask()
    time.sleep(3)
    for _ in range(STEPS):
        client.ask()
    time.sleep(QUIET)
    server.session.seek(0)
    check_front("nobody came", program, server.session.read(), [client])
    client.close()
    ends("nobody came", server, NET_FAULT)
    clear(server)
    print("nobody came: the first link was served on and recorded, status 8")


def killed_clients(program):
    """Each of two clients goes at its own step, with what it was sent unread."""
    server = Server(program, "aa")
    clients = [Client(server), Client(server)]
    for step in range(STEPS):
        for number, client in enumerate(clients, 1):
            if step < 100 * number:
                client.ask()
            elif step == 100 * number:
                client.link.sendall(frame(sync(STEPS + 2)))
                client.close()
    ends("killed clients", server, 0)
    server.session.seek(0)
    record = server.session.read()
    if not record.endswith(b"\nend\n"):
        fail("killed clients: the record has no end")
    check_front("killed clients", program, record, clients)
    clear(server)
    print("killed clients: the record is whole, status 0")


def main():
    program, *small = sys.argv[1:]
    full_disk(program, small[0] if small else None)
    closed_pipe(program)
    killed(program, signal.SIGINT, "ctrl-c")
    killed(program, signal.SIGKILL, "killed")
    killed(program, signal.SIGINT, "ctrl-c after a wait", "aa", ("--wait", "1"), 3)
    nobody_came(program)
    killed_clients(program)


if __name__ == "__main__":
    main()
