#!/usr/bin/env python3
"""Makes an input of `wlim audit` from a session that a server recorded, and from what its clients got.

The session is of form 1 or 2. A file of frames is what the link of the peer P brought its client, byte for byte, as
`examples/serve/type_session.py` writes it. The program replays the session, which says where the server ended a peer
whose queue was full: the input has `gone P` there, since in an audit no queue is ever full. `take` lines are left out.

Of a client's bytes nobody wrote down when they came. So the `out` lines of all peers stand at the latest place there
is, before `end`: all that they can be owed for stands above them, and no line is `no` only because it is too early.
With --takes they stand where the record says that bytes of the peer were taken to be sent to it. Then what was sent
before its cause is `no` too, as far as the record is right. What was taken and didn't come is left out: who stops early
is good.
"""
import argparse
import subprocess

MOST_BYTES = 4096
MOST_TOKENS = 256
MOST_LIVE = 64
OF_A_PEER = {"bytes", "tokens", "take", "gone"}


def unframed(data):
    """The bytes of frames, of a torn one at the end those that came."""
    at, found = 0, []
    while len(data) - at >= 4:
        size, count = (int.from_bytes(data[place : place + 2], "little") for place in (at, at + 2))
        if not 1 <= size <= MOST_BYTES or count > MOST_TOKENS:
            raise ValueError(f"no frame at byte {at}")
        at += 4 + 4 * count
        found.append(data[at : at + size])
        at += size
    return b"".join(found)


def stamped_lines(session):
    """The stamp and the line of each step of a session, between its header and its end."""
    header, *lines = session.splitlines()
    form = header.split(" ")[:2]
    if form not in (["session", "1"], ["session", "2"]) or "end" not in lines:
        raise ValueError("no whole session")
    for line in lines[: lines.index("end")]:
        moment, author, said = line.split(" ", 2) if form[1] == "2" else ("0", "0", line)
        yield f"{moment} {author}", said


def message_ends(waiting, data):
    """Where in the data each message ends that it completes, with what waited; and what waits behind the last.

    A header with a bad size counts as one, and nothing of its peer is looked at after it.
    """
    joined = waiting + data
    at, ends = 0, []
    while len(joined) - at >= 8:
        size = int.from_bytes(joined[at + 6 : at + 8], "little")
        if not 8 <= size <= MOST_BYTES or size % 4:
            return ends + [len(data)], b""
        if len(joined) - at < size:
            break
        at += size
        ends.append(at - len(waiting))
    return ends, joined[at:]


class Journal:
    """The entries that the lines of a session make, counted beside the transcript of its replay."""

    def __init__(self, transcript):
        self.ended = {}
        self.took = {}
        self.entry = 0
        self.entries = None
        self.live = set()
        self.joined = 0
        self.waiting = {}
        for line in transcript.splitlines():
            words = line.split(" ")
            if words[0] == "end":
                self.entries = int(words[1])
            elif words[1] == "ended":
                self.ended[int(words[0])] = (int(words[2]), words[3])
            elif words[1] == "took":
                self.took[int(words[0])] = (int(words[2]), int(words[3]))
        if self.entries is None:
            raise ValueError("the session isn't replayed to its end")

    def step(self):
        """One entry from outside. Gives the peers that were ended behind it because their queues were full."""
        self.entry += 1
        if self.entry in self.ended:
            self.live.discard(self.ended[self.entry][0])
        full = []
        while self.ended.get(self.entry + 1, (0, "gone"))[1] != "gone":
            self.entry += 1
            peer, cause = self.ended[self.entry]
            self.live.discard(peer)
            if cause == "full":
                full.append(peer)
        return full

    def join(self):
        if len(self.live) == MOST_LIVE:
            return []
        self.joined += 1
        self.live.add(self.joined)
        self.waiting[self.joined] = b""
        return self.step()

    def take(self, peer):
        """How many bytes of the peer's are taken: 0 where none are stored, and then there is no entry."""
        of, count = self.took.get(self.entry + 1, (0, 0))
        if of != peer:
            return 0
        self.step()
        return count

    def pieces(self, peer, data):
        """The data in pieces, each with the peers that were ended behind it because their queues were full."""
        if peer not in self.live:
            return
        ends, self.waiting[peer] = message_ends(self.waiting[peer], data)
        begun = 0
        for end in ends:
            full = self.step() if peer in self.live else []
            if full:
                yield data[begun:end], full
                begun = end
        if data[begun:]:
            yield data[begun:], []


class Clients:
    """What each client got, and how much of it stands in `out` lines."""

    def __init__(self, got):
        self.got = got
        self.said = {peer: 0 for peer in got}

    def lines(self, peer, count):
        """`out` lines of the next bytes of the peer, so many or as many as it got."""
        begin = self.said.get(peer, 0)
        data = self.got.get(peer, b"")[begin : begin + count]
        self.said[peer] = begin + len(data)
        return [f"out {peer} {data[at : at + MOST_BYTES].hex()}" for at in range(0, len(data), MOST_BYTES)]

    def all_lines(self):
        return [line for peer in sorted(self.got) for line in self.lines(peer, len(self.got[peer]))]


def step_lines(stamp, line, journal, clients, at_takes):
    """The lines of an audit that stand for a line of the session."""
    word, *rest = line.split(" ")
    peer = int(rest[0]) if word in OF_A_PEER else 0
    if word == "take":
        count = journal.take(peer)
        return clients.lines(peer, count) if at_takes else []
    if word == "bytes":
        lines = []
        for piece, full in journal.pieces(peer, bytes.fromhex(rest[1])):
            lines += [f"{stamp} bytes {peer} {piece.hex()}"] + [f"{stamp} gone {ended}" for ended in full]
        return lines
    if word == "join":
        full = journal.join()
    else:
        full = journal.step() if word not in OF_A_PEER or peer in journal.live else []
    return [f"{stamp} {line}"] + [f"{stamp} gone {ended}" for ended in full]


def audit_input(session, transcript, got, at_takes=False):
    """The lines of an audit, of a session, the transcript of its replay, and the bytes that each peer got."""
    journal, clients = Journal(transcript), Clients(got)
    lines = ["audit 1"]
    for stamp, line in stamped_lines(session):
        lines += step_lines(stamp, line, journal, clients, at_takes)
    if journal.entry != journal.entries:
        raise ValueError(f"the transcript has {journal.entries} entries, and the session makes {journal.entry}")
    return lines + clients.all_lines() + ["end"]


def replayed(program, session):
    run = subprocess.run([program, "replay"], input=session.encode(), stdout=subprocess.PIPE, check=False)
    return run.stdout.decode()


def read_got(pairs):
    got = {}
    for pair in pairs:
        peer, _, path = pair.partition("=")
        with open(path, "rb") as file:
            got[int(peer)] = unframed(file.read())
    return got


def main():
    parser = argparse.ArgumentParser(description=__doc__, formatter_class=argparse.RawDescriptionHelpFormatter)
    parser.add_argument("--takes", action="store_true", help="`out` lines stand at the takes of the session")
    parser.add_argument("program", help="crates/wlim/out/wlim")
    parser.add_argument("session", help="a recorded session")
    parser.add_argument("frames", nargs="+", metavar="P=FILE", help="the frames that the peer P got")
    words = parser.parse_args()
    with open(words.session, encoding="ascii") as file:
        session = file.read()
    try:
        lines = audit_input(session, replayed(words.program, session), read_got(words.frames), words.takes)
    except ValueError as problem:
        raise SystemExit(str(problem)) from problem
    print("\n".join(lines))


if __name__ == "__main__":
    main()
