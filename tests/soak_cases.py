"""What operators meet: floods, peers that hardly read, half frames, lack of descriptors, second starts, kills, guests.

    soak_cases.py PROGRAM [SECONDS]

Each case has a server of its own, honest peers that type through it all the while, and a bound of time. Whatever else
happens, each honest peer gets what the recorded session says. SECONDS is how long the flood lasts: 60, if not given.
The guests come and go in a replay.
"""
import contextlib
import os
import re
import resource
import signal
import socket
import struct
import subprocess
import sys
import threading
import time

from soak_peers import APP, REGISTRY, Field, Hostile, Method, Reactive, Shell, frame, frames_of, message, word
from frames import Server

PATIENCE = 120.0  # seconds for something that comes at once on a machine that does nothing else
PACE = 0.01  # seconds before an honest answer
APPS = 3
HONEST = "sm" + "a" * APPS
OK, JOURNAL_FULL, NET_FAULT = 0, 7, 8
GUESTS = 100_000
GUESTS_ROOM = 8 << 20  # bytes for all that a replay keeps of them


class PacedShell(Shell):
    apps = range(2, 2 + APPS)


class PacedMethod(Method):
    def answer(self, object_id, opcode, body):
        time.sleep(PACE)
        super().answer(object_id, opcode, body)


class PacedField(Field):
    pace = PACE


class Flood(Hostile):
    """Commits of a surface, as fast as it can: each is an entry and tells nothing."""

    pause_behind = 0.0  # seconds behind 512 of them

    def play(self):
        self.send(frames_of(b"".join(APP)))
        many = frame(message(6, 6) * 512)
        with contextlib.suppress(OSError):
            while not self.stop.wait(self.pause_behind):
                self.link.sendall(many)


class PacedFlood(Flood):
    """Some 10,000 a second, so that a minute of them leaves room in the journal."""

    pause_behind = 0.05


class TinyFrames(Hostile):
    """A frame for each byte of its messages."""

    def play(self):
        self.send(frames_of(b"".join(APP)))
        tiny = b"".join(frame(bytes([byte])) for byte in message(6, 6) * 64)
        with contextlib.suppress(OSError):
            while not self.stop.wait(0.05):
                self.link.sendall(tiny)


class ByteASecond(Hostile):
    """Asks as an honest app does, and reads a byte of the answers each second."""

    def play(self):
        self.send(frames_of(b"".join(APP)))
        self.raw = b""
        self.link.settimeout(0.2)
        while not self.stop.wait(1.0):
            with contextlib.suppress(OSError):
                self.raw += self.link.recv(1)
        self.link.settimeout(None)

    def read_on(self):
        with contextlib.suppress(OSError):
            while more := self.link.recv(65536):
                self.raw += more
        self.got = unframed(self.raw)


class AskingByteASecond(ByteASecond):
    """Asks more than it reads: it ends when its store is full, or a write to it waited too long."""

    def play(self):
        asking = threading.Thread(target=self.ask, daemon=True)
        asking.start()
        super().play()
        asking.join()

    def ask(self):
        while not self.stop.wait(0.02):
            self.send(frame(message(1, 0, word(99))))


class HalfFrame(Hostile):
    """Begins a frame and stays."""

    def play(self):
        self.send(frames_of(b"".join(APP)) + frame(message(6, 6) * 100)[:300])
        self.stop.wait()


def unframed(data):
    """The bytes of whole frames."""
    found = []
    while len(data) >= 4:
        size, count = struct.unpack_from("<HH", data)
        whole = 4 + 4 * count + size
        found.append(data[whole - size : whole])
        data = data[whole:]
    return b"".join(found)


# ---- a server and its honest peers


class Run:
    """A server with honest peers. `peers` has all peers in the order of their joins, None for one that is a process."""

    def __init__(self, program, more="", options=(), folder=None):
        self.server = Server(program, HONEST + more, list(options), folder)
        self.stop = threading.Event()
        self.links = []
        self.peers = []
        self.victims = []
        try:
            for kind, letter in zip([PacedShell, PacedMethod] + [PacedField] * APPS, HONEST):
                self.add(kind, letter)
        except BaseException:
            self.close()
            raise

    def add(self, kind, letter="a"):
        link = kind(self.server.connect(letter), len(self.links), self.stop)
        self.links.append(link)
        if letter != "s":
            self.peers.append(link)
        link.start()
        return link

    def add_victim(self):
        """An app in a process of its own, which types until it is killed."""
        words = [sys.executable, __file__, "--victim", self.server.paths["app"]]
        victim = subprocess.Popen(words, stdout=subprocess.PIPE)
        victim.stdout.readline()
        self.victims.append(victim)
        self.peers.append(None)

    def batches(self):
        return sum(link.batches for link in self.links if isinstance(link, Field))

    def type_on(self, count=20):
        """Waits until the honest fields got so many batches more."""
        wanted = self.batches() + count
        wait_for(lambda: self.batches() >= wanted, "honest peers don't type")

    def finish(self, status):
        """Lets all hang up: the recorded session. The server's status is this."""
        self.stop.set()
        got, session = self.server.finish()
        for link in self.links:
            link.join(PATIENCE)
        check("the status", got, status)
        return session

    def close(self):
        self.stop.set()
        for process in self.victims + [self.server.process]:
            process.kill()


@contextlib.contextmanager
def bounded(run, seconds):
    """The run is over by then: its server is killed, so that nothing waits for it."""
    timer = threading.Timer(seconds, run.close)
    timer.daemon = True
    timer.start()
    try:
        yield run
    finally:
        timer.cancel()
        run.close()


def wait_for(happens, otherwise):
    end = time.time() + PATIENCE
    while not happens():
        if time.time() > end:
            raise SystemExit(otherwise)
        time.sleep(0.05)


def check(what, got, wanted):
    if got != wanted:
        raise SystemExit(f"{what}: {got!r}, wanted {wanted!r}")


def told_and_taken(program, session):
    """For each peer the bytes that it is told, and how many of them were taken to be sent, as `wlim replay` says."""
    replay = subprocess.run([program, "replay"], input=session, stdout=subprocess.PIPE, check=True).stdout.decode()
    told, taken = {}, {}
    for peer, data in re.findall(r"^\d+ out (\d+) (\w+)", replay, re.MULTILINE):
        told.setdefault(int(peer), []).append(data)
    for peer, count in re.findall(r"^\d+ took (\d+) (\d+)$", replay, re.MULTILINE):
        taken[int(peer)] = taken.get(int(peer), 0) + int(count)
    return {peer: bytes.fromhex("".join(parts)) for peer, parts in told.items()}, taken


def compare(program, session, run, whole=True):
    """Each honest peer got what was taken for it, and that is all where the server wasn't out of room."""
    told, taken = told_and_taken(program, session)
    for number, peer in enumerate(run.peers, 1):
        if isinstance(peer, (Reactive, ByteASecond, HalfFrame)):
            wanted = told.get(number, b"")
            sent = len(wanted) if whole else taken.get(number, 0)
            if isinstance(peer, AskingByteASecond):
                sent = len(peer.got)
            if peer.got != wanted[:sent]:
                raise SystemExit(f"peer {number} got {len(peer.got)} bytes, and is sent {sent}")


def compare_front(program, run):
    """What a killed server left replays, and tells each peer what it got, as far as both go. How many entries it has."""
    with open(f"{run.server.folder}/session", "rb") as file:
        left = file.read()
    lines = left[: left.rfind(b"\n") + 1]
    check("an end is left", lines.endswith(b"\nend\n"), False)
    check("something is left", lines.count(b" bytes ") > 0, True)
    told, _ = told_and_taken(program, lines + b"end\n")
    for number, peer in enumerate(run.peers, 1):
        wanted = told.get(number, b"")
        both = min(len(wanted), len(peer.got))
        check(f"what peer {number} got", peer.got[:both], wanted[:both])
    return lines.count(b"\n") - 1


# ---- the cases


def flood_and_kills(program, seconds):
    """Floods, peers that hardly read, a half frame, and two apps that are killed."""
    run = Run(program, "a" * 7)
    with bounded(run, seconds + PATIENCE * 3):
        for kind in (PacedFlood, TinyFrames, ByteASecond, AskingByteASecond, HalfFrame):
            run.add(kind)
        run.add_victim()
        run.add_victim()
        for victim in run.victims:
            run.stop.wait(seconds / 3)
            victim.kill()
            run.type_on()
        run.stop.wait(seconds / 3)
        batches = run.batches()
        session = run.finish(OK)
        compare(program, session, run)
        gone = {int(peer) for peer in re.findall(rb"gone (\d+)$", session, re.MULTILINE)}
        victims = {number for number, peer in enumerate(run.peers, 1) if peer is None}
        check("the killed are gone", victims - gone, set())
        return f"{batches} batches beside {session.count(b' bytes ')} messages"


def full_journal(program):
    """A flood at full speed fills the journal: all links end, none with less than was sent to it."""
    run = Run(program, "a", ["--entries", "100000"])
    with bounded(run, PATIENCE * 3):
        run.type_on()
        flood = run.add(Flood)
        flood.join(PATIENCE)
        check("the flood ended", flood.is_alive(), False)
        session = run.finish(JOURNAL_FULL)
        compare(program, session, run, whole=False)
        lines = session.count(b"\n") - 2
        return f"{lines} lines recorded, and each link ended"


def lack_of_descriptors(program, spare):
    """No descriptor, or only one, is left for the next link: no link comes any more, the others go on."""
    run = Run(program, "aa")
    with bounded(run, PATIENCE * 3):
        run.type_on()
        used = {int(number) for number in os.listdir(f"/proc/{run.server.process.pid}/fd")}
        limit = [number for number in range(len(used) + 2) if number not in used][spare]
        resource.prlimit(run.server.process.pid, resource.RLIMIT_NOFILE, (limit, limit))
        late = run.server.connect("a")
        run.type_on()
        session = run.finish(NET_FAULT)
        late.close()
        compare(program, session, run)
        check("no late link joined", session.count(b" join app"), APPS)
        return f"no link beyond {session.count(b' join ')} peers and the shell"


def no_descriptors_at_all(program):
    """A server that can't make its doors says so, and leaves nothing."""
    run = Run(program)
    with bounded(run, PATIENCE * 2):
        other = run.server.folder + "/other"
        os.mkdir(other)
        words = [word.replace(run.server.folder, other) for word in run.server.words]
        start = subprocess.run(["sh", "-c", 'ulimit -n 4 && exec "$@"', "sh"] + words, stdout=subprocess.PIPE,
                               timeout=PATIENCE, check=False)
        check("a start without descriptors", (start.returncode, os.listdir(other)), (NET_FAULT, []))
        compare(program, run.finish(OK), run)
        return "refused, and nothing is left"


def second_start(program):
    """The same command once more while the first waits for a link: it is refused, and the first keeps its links."""
    run = Run(program, "a")
    with bounded(run, PATIENCE * 3):
        run.type_on()
        for _ in range(3):
            again = subprocess.run(run.server.words, stdout=subprocess.PIPE, timeout=PATIENCE, check=False)
            check("a second start", (again.returncode, again.stdout.splitlines()[1:]), (NET_FAULT, [b"end"]))
        run.add(PacedField)
        run.type_on()
        session = run.finish(OK)
        compare(program, session, run)
        check("all links of the first", session.count(b" join app"), APPS + 1)
        return "refused three times, and the first took its last link"


def killed_server(program):
    """A server that is told to end: each link ends, a front of its session is left, and the next server takes its doors
    over."""
    run = Run(program)
    with bounded(run, PATIENCE * 3):
        run.type_on()
        run.server.process.send_signal(signal.SIGTERM)
        check("the status", run.server.process.wait(PATIENCE), -signal.SIGTERM)
        run.stop.set()
        for link in run.links:
            link.join(PATIENCE)
        check("a link is left", [link for link in run.links if link.is_alive()], [])
        left = sorted(os.listdir(run.server.folder))
        check("what is left", left, ["app", "app.lock", "method", "method.lock", "session", "shell", "shell.lock"])
        entries = compare_front(program, run)
        run.server.session.close()
    after = Run(program, folder=run.server.folder)
    with bounded(after, PATIENCE * 3):
        after.type_on()
        compare(program, after.finish(OK), after)
    return f"{entries} entries of its session are left, its doors are taken over"


def guests(program):
    """Peers that come and go, each with something stored that is taken only then: next to nothing is kept of them."""
    lines = ["session 1 1000000 65536\n"]
    for number in range(1, GUESTS + 1):
        lines.append(f"join app\nbytes {number} {REGISTRY.hex()}\ngone {number}\ntake {number} 4096\n")
    lines.append("end\n")
    replay = subprocess.run([program, "replay"], input="".join(lines).encode(), stdout=subprocess.PIPE, check=False,
                            preexec_fn=lambda: resource.setrlimit(resource.RLIMIT_DATA, (GUESTS_ROOM, GUESTS_ROOM)))
    check("the status of their replay", replay.returncode, OK)
    check("their ends", replay.stdout.count(b" ended "), GUESTS)
    check("their takes", replay.stdout.count(b" took "), GUESTS)
    return f"{GUESTS} of them in {GUESTS_ROOM >> 20} MB"


def be_a_victim(path):
    """An app that sends commits, cut in mid-message and in mid-frame, until somebody kills it."""
    link = socket.socket(socket.AF_UNIX)
    link.connect(path)
    print("connected", flush=True)
    link.sendall(frames_of(b"".join(APP)))
    while True:
        link.sendall(frame(message(7, 7)[:5]) + frame(message(7, 7)[5:])[:6])
        time.sleep(PACE)
        link.sendall(frame(message(7, 7)[5:])[6:])


def main():
    if sys.argv[1] == "--victim":
        return be_a_victim(sys.argv[2])
    program = os.path.abspath(sys.argv[1])
    seconds = float(sys.argv[2]) if len(sys.argv) > 2 else 60.0
    cases = [
        ("floods and kills", lambda: flood_and_kills(program, seconds)),
        ("a full journal", lambda: full_journal(program)),
        ("no descriptor for a link", lambda: lack_of_descriptors(program, 0)),
        ("one descriptor for a link", lambda: lack_of_descriptors(program, 1)),
        ("no descriptor at all", lambda: no_descriptors_at_all(program)),
        ("a second start", lambda: second_start(program)),
        ("a killed server", lambda: killed_server(program)),
        ("peers that come and go", lambda: guests(program)),
    ]
    for name, case in cases:
        print(f"{name}: {case()}", flush=True)
    return None


if __name__ == "__main__":
    main()
