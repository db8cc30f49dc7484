"""What the examples of `wlim serve` share: frames, and a server with its three doors."""
import os
import shutil
import socket
import struct
import subprocess
import tempfile
import time

MOST_BYTES = 4096


def frame(data, tokens=()):
    """One frame: 1 to 4,096 bytes and up to 256 tokens, little-endian."""
    return struct.pack(f"<HH{len(tokens)}I", len(data), len(tokens), *tokens) + data


def frames_of(data):
    """The frames of any number of bytes, without tokens."""
    return b"".join(frame(data[at : at + MOST_BYTES]) for at in range(0, len(data), MOST_BYTES))


def sync(callback):
    """The request `sync` of the display, which makes this callback."""
    return struct.pack("<IHHI", 1, 0, 12, callback)


def synced(callback):
    """The event `done` of the callback of a `sync`."""
    return struct.pack("<IHHI", callback, 0, 12, 0)


def read_exactly(link, size):
    """So many bytes of the link, or fewer where it ends."""
    data = b""
    while len(data) < size:
        more = link.recv(size - len(data))
        if not more:
            break
        data += more
    return data


def read_frame(link):
    """The next frame's bytes and tokens, or None where the link ended."""
    head = read_exactly(link, 4)
    if len(head) < 4:
        return None
    size, count = struct.unpack("<HH", head)
    tokens = struct.unpack(f"<{count}I", read_exactly(link, 4 * count))
    return read_exactly(link, size), tokens


class Server:
    """`wlim serve` in a folder of its own, or in that of one which is gone, with a link for each letter."""

    def __init__(self, program, order, options=(), folder=None, output=None):
        self.folder = folder or tempfile.mkdtemp(prefix="wlim-")
        self.paths = {door: os.path.join(self.folder, door) for door in ("app", "method", "shell")}
        words = [program, "serve", "--order", order]
        for door, path in self.paths.items():
            words += ["--" + door, path]
        self.words = words + list(options)
        self.session = output or open(os.path.join(self.folder, "session"), "w+b")
        self.process = subprocess.Popen(self.words, stdout=self.session, stderr=subprocess.DEVNULL)

    def connect(self, letter):
        """A link to the door of the letter, once the server listens there."""
        path = self.paths[{"a": "app", "m": "method", "k": "method", "s": "shell"}[letter]]
        for _ in range(3000):
            link = socket.socket(socket.AF_UNIX)
            try:
                link.connect(path)
                return link
            except OSError:
                link.close()
                time.sleep(0.01)
        raise SystemExit(f"nobody listens at {path}")

    def finish(self):
        """Waits until the server ends: its status, and the session that it recorded. Its socket files are gone then."""
        status = self.process.wait()
        if any(os.path.exists(path) for path in self.paths.values()):
            raise SystemExit("a socket file is left")
        self.session.seek(0)
        session = self.session.read()
        self.session.close()
        shutil.rmtree(self.folder)
        return status, session


def told(program, session):
    """What each peer is told, by its number, as `wlim replay` says of the session."""
    run = subprocess.run([program, "replay"], input=session, stdout=subprocess.PIPE)
    if run.returncode != 0:
        raise SystemExit(f"the recorded session isn't replayed: status {run.returncode}")
    bytes_of = {}
    for line in run.stdout.decode().splitlines():
        words = line.split(" ")
        if words[1] == "out":
            peer = int(words[2])
            bytes_of[peer] = bytes_of.get(peer, b"") + bytes.fromhex(words[3])
    return bytes_of
