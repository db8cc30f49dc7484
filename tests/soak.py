"""Honest and hostile peers of one server: soak.py PROGRAM MINUTES SEED

Each round starts a server with 64 links: a shell, a method, honest apps, and hostile peers of each kind. After some
seconds all hang up, the recorded session is replayed, and each honest peer's bytes are compared with it.
"""
import collections
import os
import re
import subprocess
import sys
import threading
import time

from soak_peers import HONEST_APPS, HOSTILE, Field, Method, Reactive, Shell
from frames import Server, told

ROUND = 6.0  # seconds of one round


def one_round(program, seed, totals):
    stop = threading.Event()
    kinds = [Shell, Method] + [Field] * HONEST_APPS
    kinds += [HOSTILE[number % len(HOSTILE)] for number in range(64 - len(kinds))]
    order = "s" + "m" + "a" * (len(kinds) - 2)
    server = Server(program, order, ["--entries", "4000000", "--weight", "536870912"])
    links = []
    for number, (kind, letter) in enumerate(zip(kinds, order)):
        links.append(kind(server.connect(letter), f"{seed} {number}", stop))
        links[-1].start()
    end = time.time() + ROUND
    most_threads = most_files = 0
    while time.time() < end:
        time.sleep(0.25)
        most_threads = max(most_threads, count(server, "task"))
        most_files = max(most_files, count(server, "fd"))
    memory = most_memory(server)
    stop.set()
    status, session = server.finish()
    for link in links:
        link.join(60)
    compare(program, session, links, status)
    check_limits(session, most_threads, most_files, memory)
    totals["rounds"] += 1
    totals["messages"] += session.count(b" bytes ")
    totals["batches"] += sum(link.batches for link in links if isinstance(link, Field))
    for name, most in (("threads", most_threads), ("files", most_files), ("memory KB", memory)):
        totals["most " + name] = max(totals["most " + name], most)
    for cause in ends(program, session):
        totals["ended " + cause] += 1


def count(server, what):
    try:
        return len(os.listdir(f"/proc/{server.process.pid}/{what}"))
    except FileNotFoundError:
        return 0


def most_memory(server):
    with open(f"/proc/{server.process.pid}/status") as file:
        return int(re.search(r"VmHWM:\s+(\d+)", file.read()).group(1))


def check_limits(session, most_threads, most_files, memory):
    """A thread, a stack and a buffer for each job, the stores of all peers, and the journal: no more was in use."""
    jobs = 2 * 64
    bodies = sum(len(line.rpartition(b" ")[2]) // 2 for line in session.splitlines() if b" bytes " in line)
    allowed = jobs * 65_536 + 64 * 2 * 65_536 + session.count(b"\n") * 192 + 2 * bodies + 8_000_000
    if most_threads > jobs + 1 or most_files > 2 * 64 + 16 or memory * 1024 > allowed:
        raise SystemExit(f"{most_threads} threads, {most_files} files, {memory} KB, allowed {allowed // 1024} KB")


def ends(program, session):
    run = subprocess.run([program, "replay"], input=session, stdout=subprocess.PIPE)
    return re.findall(r"^\d+ ended \d+ (\w+)$", run.stdout.decode(), re.MULTILINE)


def compare(program, session, links, status):
    bytes_of = told(program, session)
    if status != 0:
        raise SystemExit(f"the server's status is {status}")
    peers = [link for link in links if not isinstance(link, Shell)]
    for number, peer in enumerate(peers, 1):
        if isinstance(peer, Reactive) and peer.got != bytes_of.get(number, b""):
            raise SystemExit(f"peer {number} got {len(peer.got)} bytes, and is told {len(bytes_of.get(number, b''))}")


def main():
    program, minutes, seed = sys.argv[1], float(sys.argv[2]), sys.argv[3]
    print(f"seed {seed}", flush=True)
    totals = collections.Counter()
    end = time.time() + 60 * minutes
    while time.time() < end:
        one_round(program, f"{seed} {totals['rounds']}", totals)
    print(", ".join(f"{name} {totals[name]}" for name in totals))
    print("each honest peer got what the recorded session says")


if __name__ == "__main__":
    main()
