#!/usr/bin/env python3
"""How much memory a replay takes at most, whatever its length.

  tools/memory.py            builds nothing: measures crates/wlim/out/wlim, which `rt run` in crates/wlim builds
  tools/memory.py PROGRAM    measures another build

It prints the peak of `replay` for a short and a long session of each kind: all kinds of steps by turns, objects that are
made and gone at once, and peers that come and go, with and without something left in their stores. It ends with status 1
where a long one takes more than 8 MB, or over one and a half times what the short one takes and a byte or so a peer.
"""
import array
import fcntl
import os
import re
import subprocess
import sys
import termios
import time

from cost import BUILT, application, input_method, message, session, text, word

MOST = 8 << 10  # KiB
A_PEER = 8  # bytes that may stay of a peer that ended: its label, why it ended, and what a list grows by


def form_2(lines):
    """A whole session of form 2 but for its last line, at its highest limits."""
    yield "session 2 4000000 65536 536870912"
    for line in lines:
        yield f"0 0 {line}"


def usual(steps):
    """All kinds of steps by turns: one block of them, again and again, after what makes the objects."""
    lines = session(20000)[1:-1]
    begun = 4 * len(application(1)) + len(input_method(5))
    yield from lines[:begun]
    for number in range(steps - begun):
        yield lines[begun + number % (len(lines) - begun)]


def objects(steps):
    """An application whose objects are answered and gone at once."""
    yield from application(1)
    sync, take = message(1, 1, 0, word(8)), "take 1 4096"
    for number in range(steps):
        yield take if number % 64 == 63 else sync


def peers(steps):
    """Applications that come, ask, and go: of every other one something is never taken."""
    ask = "bytes {} " + message(1, 1, 0, word(2)).split(" ")[2]
    for peer in range(1, steps // 4 + 1):
        yield "join app"
        yield ask.format(peer)
        if peer % 2:
            yield f"take {peer} 4096"
        yield f"gone {peer}"
        if peer % 2 == 0:
            yield f"take {peer} 4096"


def waits(pipe):
    """How many bytes of it nobody has read yet."""
    count = array.array("i", [0])
    fcntl.ioctl(pipe, termios.FIONREAD, count)
    return count[0]


def peak(program, lines):
    """The most memory that one run takes up to its last line, in KiB."""
    run = subprocess.Popen([program, "replay"], stdin=subprocess.PIPE, stdout=subprocess.DEVNULL, text=True)
    for line in form_2(lines):
        run.stdin.write(line + "\n")
    run.stdin.flush()
    while waits(run.stdin):
        time.sleep(0.01)
    time.sleep(0.1)
    with open(f"/proc/{run.pid}/status", encoding="utf-8") as file:
        most = int(re.search(r"VmHWM:\s+(\d+)", file.read()).group(1))
    run.communicate("end\n")
    if run.returncode != 0:
        sys.exit(f"a replay ended with status {run.returncode}")
    return most


def main():
    if len(sys.argv) > 2:
        sys.exit(__doc__)
    program = sys.argv[1] if len(sys.argv) == 2 else BUILT
    is_well = True
    for name, make, few, many, ended in [
        ("steps of all kinds", usual, 20_000, 3_900_000, 0),
        ("objects made and gone", objects, 20_000, 3_900_000, 0),
        ("peers that come and go", peers, 4_000, 400_000, 100_000),
    ]:
        less, more = peak(program, make(few)), peak(program, make(many))
        fits = more <= MOST and more <= 1.5 * less + ended * A_PEER / 1024
        is_well = is_well and fits
        print(f"{name}: {few:,} {less:,} KiB; {many:,} {more:,} KiB{'' if fits else '   TOO MUCH'}")
    sys.exit(0 if is_well else 1)


if __name__ == "__main__":
    main()
