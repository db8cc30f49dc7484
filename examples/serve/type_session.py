#!/usr/bin/env python3
"""Types a session through `wlim serve`: type_session.py PROGRAM SESSION [FOLDER]

Each `join` of the session is a link to the app's or the method's door, its `bytes` go as frames, with its `tokens`,
and its other lines to the shell's door. Each is waited for: a peer's by a `sync` behind it, the shell's by its answer.
At the end the recorded session is printed, and what each peer's link got is compared with what `wlim replay` says of
it. With a FOLDER the session and the frames of each peer P, byte for byte, are left there as `session` and `P.frames`.
"""
import os
import sys
import threading

from frames import MOST_BYTES, Server, frame, frames_of, read_frame, sync, synced, told

LETTERS = {"app": "a", "method": "m", "keyed": "k"}
FIRST_FENCE = 0x00F00000  # the id of a first `sync`, far from those of a session
PATIENCE = 60  # seconds for an answer


class Peer(threading.Thread):
    """A peer's link, and what was read from it."""

    def __init__(self, link):
        super().__init__(daemon=True)
        self.link = link
        self.got = b""
        self.frames = b""
        self.news = threading.Condition()
        self.ended = False
        self.waiting = b""
        self.tokens = []
        self.fence = FIRST_FENCE
        self.start()

    def run(self):
        while not self.ended:
            try:
                got = read_frame(self.link)
            except OSError:
                got = None
            with self.news:
                self.ended = got is None
                if got:
                    self.got += got[0]
                    self.frames += frame(*got)
                self.news.notify_all()

    def put(self, frames):
        """Writes to the link, unless the server hung up since it ended the peer."""
        try:
            self.link.sendall(frames)
        except OSError:
            pass

    def send(self, data):
        """Sends bytes, the first of them with the tokens that wait."""
        self.put(frame(data[:MOST_BYTES], self.tokens) + frames_of(data[MOST_BYTES:]))
        self.tokens = []
        self.waiting = behind_messages(self.waiting + data)

    def settle(self):
        """Waits until all that was sent is taken, unless a message of it isn't whole."""
        if self.waiting:
            return
        self.fence += 1
        self.put(frame(sync(self.fence)))
        with self.news:
            if not self.news.wait_for(lambda: self.ended or synced(self.fence) in self.got, PATIENCE):
                raise SystemExit("a sync isn't answered")


def behind_messages(data):
    """What stands behind the whole messages; a size that is none ends the peer."""
    while len(data) >= 8:
        size = int.from_bytes(data[6:8], "little")
        if size < 8 or size > len(data):
            break
        data = data[size:]
    return data


def letters(lines):
    joins = "".join(LETTERS[line.split()[1]] for line in lines if line.startswith("join "))
    return "s" + joins


def play(lines, server):
    """Plays all lines, and gives the peers in the order in which they joined."""
    shell = server.connect("s")
    shell.settimeout(PATIENCE)
    answers = shell.makefile("rb")
    peers = []
    for line in lines:
        words = line.split(" ")
        if words[0] == "join":
            peers.append(Peer(server.connect(LETTERS[words[1]])))
            peers[-1].settle()
        elif words[0] == "bytes":
            peers[int(words[1]) - 1].send(bytes.fromhex(words[2]))
            peers[int(words[1]) - 1].settle()
        elif words[0] == "tokens":
            peers[int(words[1]) - 1].tokens += [int(token) for token in words[2:]]
        elif words[0] not in ("session", "end", "take", "gone"):
            shell.sendall(line.encode() + b"\n")
            answers.readline()
    for peer in peers:
        peer.link.shutdown(1)
    shell.shutdown(1)
    for peer in peers:
        peer.join()
    return peers


def lines_of(path):
    """The lines of a session; in form 2 a moment and an author stand before each, which a link doesn't say."""
    with open(path) as file:
        lines = file.read().splitlines()
    if not lines[0].startswith("session 2 "):
        return lines
    return lines[:1] + [line.split(" ", 2)[-1] for line in lines[1:]]


def keep(folder, session, peers):
    os.makedirs(folder, exist_ok=True)
    files = {"session": session}
    files.update({f"{number}.frames": peer.frames for number, peer in enumerate(peers, 1)})
    for name, data in files.items():
        with open(os.path.join(folder, name), "wb") as file:
            file.write(data)


def main():
    program, path, *folder = sys.argv[1:]
    lines = lines_of(path)
    server = Server(program, letters(lines))
    peers = play(lines, server)
    status, session = server.finish()
    sys.stdout.write(session.decode())
    bytes_of = told(program, session)
    same = all(peer.got == bytes_of.get(number, b"") for number, peer in enumerate(peers, 1))
    print(f"status {status}, {len(peers)} peers, each got what replay says: {'yes' if same else 'NO'}")
    if folder:
        keep(folder[0], session, peers)
    return 0 if status == 0 and same else 1


if __name__ == "__main__":
    sys.exit(main())
