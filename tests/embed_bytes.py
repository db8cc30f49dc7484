#!/usr/bin/env python3
"""Sessions by bytes through libwlim in C beside `wlim replay`: the examples, and sessions that `wlim gen` makes.

    tests/embed_bytes.py PROGRAM PLAYER [SESSIONS]

PROGRAM is wlim as `make build` makes it; PLAYER is examples/embed/play_session, and may have words before it (valgrind ..).
"""
import collections
import glob
import os
import re
import shlex
import subprocess
import sys

TOP = os.path.dirname(os.path.dirname(os.path.abspath(__file__)))
PIECE = 4096


class Store:
    """What a transcript puts for a peer, until it is taken: its bytes, and where messages with tokens begin in them."""

    def __init__(self):
        self.bytes, self.tokens = bytearray(), []

    def put(self, words):
        self.tokens += [(len(self.bytes) + int(at), token) for at, token in (pair.split(":") for pair in words[1:])]
        self.bytes += bytes.fromhex(words[0])

    def take(self, peer, count):
        line = " ".join(["took", peer, self.bytes[:count].hex(), *(token for at, token in self.tokens if at < count)])
        self.tokens = [(at - count, token) for at, token in self.tokens if at >= count]
        del self.bytes[:count]
        return line


def wanted(transcript, peers):
    """What the player is to print of a session with so many peers whose transcript this is."""
    stores, causes, lines = collections.defaultdict(Store), {}, []
    *entries, last = transcript.splitlines()
    for entry in entries:
        _, what, *words = entry.split(" ")
        if what == "out":
            stores[words[0]].put(words[1:])
        elif what == "took":
            lines.append(stores[words[0]].take(words[0], int(words[1])))
        elif what == "ended":
            causes[words[0]] = words[1]
        else:
            lines.append(" ".join([what, *words]))
    names = [str(peer) for peer in range(1, peers + 1)]
    if not set(stores) | set(causes) <= set(names):
        return [f"there are only {peers} peers"]
    lines += [f"stands {name} {causes.get(name, 'alive')} {len(stores[name].bytes)}" for name in names] + [last]
    for name in names:
        while stores[name].bytes:
            lines.append(stores[name].take(name, PIECE))
    return lines


def without_what_is_full(lines, full):
    """Where the journal was full for a take at the end, what is left isn't told; where it was full before, nobody's end."""
    end = next((at for at, line in enumerate(lines) if line.startswith(("end ", "journal full "))), len(lines))
    if end < len(lines) and lines[end].startswith("journal full "):
        return [line for line in lines[:end + 1] if not line.startswith("stands ")]
    return lines[:end + 1] + [line for line in lines[end + 1:] if line.split(" ")[1] not in full]


def told(command, text):
    run = subprocess.run(command, input=text, capture_output=True, text=True, check=False)
    return run.stdout if run.returncode in (0, 7) else f"{run.stdout}status {run.returncode}\n{run.stderr}"


def sessions(program, count):
    for path in sorted(glob.glob(f"{TOP}/examples/*.session")):
        with open(path, encoding="ascii") as file:
            yield os.path.basename(path), file.read()
    for number in range(count):
        yield f"gen {number}", told([program, "gen", str(number), "text"], "")


def main():
    program, player = sys.argv[1], shlex.split(sys.argv[2])
    count, lines, played = int(sys.argv[3]) if len(sys.argv) > 3 else 5, 0, 0
    for name, text in sessions(program, count):
        got = told(player, text).splitlines()
        full = {line.split(" ")[2] for line in got if line.startswith("full for ")}
        got = without_what_is_full([line for line in got if not line.startswith("full for ")], full)
        peers = len([line for line in got if line.startswith("stands ")])
        want = without_what_is_full(wanted(told([program, "replay"], text), peers), full)
        if want != got or not any(re.match(r"(end|journal full) \d+$", line) for line in got):
            pairs = zip(want + ["nothing"], got + ["nothing"])
            print(f"{name}: differs: {next((pair for pair in pairs if pair[0] != pair[1]), 'in length')}")
            return 1
        lines, played = lines + len(got), played + 1
    print(f"{played} sessions the same, of {lines} lines")
    return 0


sys.exit(main())
