#!/usr/bin/env python3
"""Replays each session that the gateway recorded, and compares what each peer is told with what clients got; and plays
again what its core was told, which has to write the same bytes.

    tests/gateway_replay.py PROGRAM FOLDER

In FOLDER a file `X.session..` has beside it `X.taken..`, and `X.calls..` has all that a gateway's core was told. FOLDER
has `play`.
"""
import collections
import glob
import subprocess
import sys


def told(program, path):
    """Of each peer all bytes that a replay says are put for it."""
    bytes_of = collections.defaultdict(str)
    with open(path, encoding="ascii") as session:
        run = subprocess.run([program, "replay"], stdin=session, capture_output=True, text=True, check=False)
    for line in run.stdout.splitlines():
        line = line.split(" ")
        if line[1:2] == ["out"]:
            bytes_of[line[2]] += line[3]
    return bytes_of, run.returncode, (run.stdout.splitlines() or [run.stderr.strip()])[-1]


def taken(path):
    bytes_of = collections.defaultdict(str)
    with open(path, encoding="ascii") as file:
        for line in file:
            peer, data = line.split()
            bytes_of[peer] += data
    return bytes_of


def main():
    program, folder = sys.argv[1:]
    sessions = sorted(glob.glob(folder + "/*.session*"))
    for path in sessions:
        wanted, status, last = told(program, path)
        got = taken(path.replace(".session", ".taken"))
        if status != 0 or wanted != got:
            peers = [peer for peer in wanted.keys() | got.keys() if wanted[peer] != got[peer]]
            sys.exit(f"{path}: status {status}, {last}; other bytes for the peers {peers}")
        print(f"{path}: {last}, {len(got)} peers got what replay says: {sum(map(len, got.values())) // 2} bytes")
    calls = sorted(glob.glob(folder + "/*.calls*"))
    for path in calls:
        with open(path, encoding="ascii") as file:
            run = subprocess.run([folder + "/play"], stdin=file, capture_output=True, text=True, check=False)
        if run.returncode != 0:
            sys.exit(f"{path}: {run.stdout}{run.stderr[-3000:]}")
        print(f"{path}: {run.stdout.strip()}, and the same asked for and written")
    if not sessions or not calls:
        sys.exit("no session was recorded")


main()
