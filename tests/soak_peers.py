"""Peers of a server under attack, for soak.py and soak_cases.py: honest ones that type, and hostile ones."""
import os
import random
import struct
import sys
import threading
import time

sys.path.insert(0, os.path.join(os.path.dirname(os.path.abspath(__file__)), "..", "examples", "serve"))
from frames import frame, frames_of, read_frame  # noqa: E402

HONEST_APPS = 7
EDGE_IDS = (0, 1, 2, 3, 7, 255, 256, 0xFEFFFFFF, 0xFF000000, 0xFFFFFFFE, 0xFFFFFFFF)


def message(object_id, opcode, body=b""):
    return struct.pack("<IHH", object_id, opcode, 8 + len(body)) + body


def word(number):
    return struct.pack("<I", number)


def text(string):
    data = string.encode() + b"\0"
    return word(len(data)) + data + b"\0" * (-len(data) % 4)


def bind(name, interface, object_id):
    return message(2, 0, word(name) + text(interface) + word(1) + word(object_id))


REGISTRY = message(1, 1, word(2))
APP = [
    REGISTRY,
    bind(1, "wl_compositor", 3),
    bind(2, "wl_seat", 4),
    bind(3, "zwp_text_input_manager_v3", 5),
    message(3, 0, word(6)),
    message(5, 1, word(7) + word(4)),
]
METHOD = [
    REGISTRY,
    bind(2, "wl_seat", 3),
    bind(4, "zwp_input_method_manager_v2", 4),
    message(4, 0, word(3) + word(5)),
]


class Link(threading.Thread):
    """One peer: it sends until the round ends, or as long as its kind does."""

    def __init__(self, link, seed, stop):
        super().__init__(daemon=True)
        self.link = link
        self.random = random.Random(seed)
        self.stop = stop
        self.got = b""
        self.sent = 0
        self.events = []

    def send(self, data):
        try:
            self.link.sendall(data)
            self.sent += 1
        except OSError:
            pass

    def run(self):
        self.play()
        try:
            self.link.shutdown(1)
        except OSError:
            pass
        self.read_on()

    def play(self):
        raise NotImplementedError

    def read_on(self):
        """Reads to the end."""
        while self.receive():
            pass

    def receive(self):
        try:
            got = read_frame(self.link)
        except OSError:
            got = None
        if got is None:
            return False
        self.got += got[0]
        self.events += self.cut_events()
        return True

    def cut_events(self):
        """The whole events that weren't looked at yet."""
        at = getattr(self, "looked", 0)
        found = []
        while len(self.got) - at >= 8:
            object_id, opcode, size = struct.unpack_from("<IHH", self.got, at)
            if len(self.got) - at < size:
                break
            found.append((object_id, opcode, self.got[at + 8 : at + size]))
            at += size
        self.looked = at
        return found


class Reactive(Link):
    """An honest peer, which answers what it is told."""

    set_up = []

    def play(self):
        for request in self.set_up:
            self.send(frame(request))
        self.link.settimeout(0.2)
        while not self.stop.is_set():
            try:
                if not self.take_more():
                    break
            except TimeoutError:
                continue
            for event in self.cut_events():
                self.answer(*event)
        self.link.settimeout(None)

    def take_more(self):
        """What the link has next, without its frames; False where it ended."""
        try:
            more = self.link.recv(65536)
        except TimeoutError:
            raise
        except OSError:
            return False
        self.pending = getattr(self, "pending", b"") + more
        self.unframe()
        return bool(more)

    def unframe(self):
        while len(self.pending) >= 4:
            size, count = struct.unpack_from("<HH", self.pending)
            whole = 4 + 4 * count + size
            if len(self.pending) < whole:
                break
            self.got += self.pending[whole - size : whole]
            self.pending = self.pending[whole:]

    def read_on(self):
        while self.take_more():
            pass

    def answer(self, object_id, opcode, body):
        raise NotImplementedError


class Field(Reactive):
    """Enables itself where it is entered, and commits after each done."""

    set_up = APP
    batches = 0
    pace = 0.0  # seconds before an answer

    def answer(self, object_id, opcode, body):
        time.sleep(self.pace)
        if (object_id, opcode) == (7, 0):
            self.send(frame(message(7, 1) + message(7, 7)))
        elif (object_id, opcode) == (7, 5):
            self.batches += 1
            self.send(frame(message(7, 7)))


class Method(Reactive):
    """Types a letter after each done."""

    set_up = METHOD
    serial = 0
    active = False

    def answer(self, object_id, opcode, body):
        if object_id != 5:
            return
        if opcode in (0, 1):
            self.active = opcode == 0
        elif opcode == 5:
            self.serial += 1
            if self.active:
                self.send(frame(message(5, 0, text("a")) + message(5, 3, word(self.serial))))


class Shell(Link):
    """Focuses one honest app after the other."""

    apps = range(2, 2 + HONEST_APPS)

    def play(self):
        turn = 0
        while not self.stop.is_set():
            self.send(f"focus {self.apps[turn]} 6\n".encode())
            turn = (turn + 1) % len(self.apps)
            time.sleep(0.2)

    def read_on(self):
        self.link.settimeout(None)
        while self.link.recv(4096):
            pass


class Hostile(Link):
    def pause(self):
        time.sleep(self.random.uniform(0.0, 0.01))


class RandomBytes(Hostile):
    """Frames of random bytes."""

    def play(self):
        while not self.stop.is_set():
            self.send(frame(self.random.randbytes(self.random.randint(1, 4096))))
            self.pause()


class RandomRequests(Hostile):
    """Requests with random arguments, of objects at every edge."""

    def play(self):
        for request in APP:
            self.send(frame(request))
        while not self.stop.is_set():
            object_id = self.random.choice(EDGE_IDS)
            body = b"".join(word(self.random.choice(EDGE_IDS)) for _ in range(self.random.randint(0, 4)))
            self.send(frame(message(object_id, self.random.randint(0, 9), body)))
            self.pause()


class CutFrames(Hostile):
    """A frame that never ends."""

    def play(self):
        self.send(struct.pack("<HH", 4096, 0) + REGISTRY)


class BadHeaders(Hostile):
    """Headers past their limits."""

    def play(self):
        self.send(struct.pack("<HH", *self.random.choice([(0, 0), (4097, 0), (12, 257), (65535, 65535)])))


class BadSizes(Hostile):
    """Messages whose size is none."""

    def play(self):
        self.send(frame(struct.pack("<IHH", 1, 0, self.random.choice([0, 4, 10, 4100, 65535]))))


class ManyObjects(Hostile):
    """A new surface as often as it may, and once more."""

    def play(self):
        self.send(frames_of(b"".join(APP[:2])))
        for number in range(6, 4000):
            if self.stop.is_set():
                break
            self.send(frame(message(3, 0, word(number))))


class NeverReads(Hostile):
    """Asks for answers again and again, and reads none of them until its store is full."""

    def play(self):
        for number in range(2, 250):
            self.send(frame(message(1, 1, word(number))))
        while not self.stop.is_set():
            self.send(frame(message(1, 0, word(250)) * 100))
            self.pause()


class ManyTokens(Hostile):
    """Tokens that no message takes."""

    def play(self):
        while not self.stop.is_set():
            self.send(frame(message(1, 0, word(9)), [self.random.randrange(2**32) for _ in range(256)]))
            self.pause()


class HangsUp(Hostile):
    """Goes in the middle of a frame, without a word."""

    def play(self):
        self.send(frames_of(b"".join(APP)))
        self.send(struct.pack("<HH", 12, 0) + b"\1\0")
        self.link.close()

    def run(self):
        self.play()


HOSTILE = [
    RandomBytes, RandomRequests, CutFrames, BadHeaders, BadSizes, ManyObjects, NeverReads, ManyTokens, HangsUp,
]
