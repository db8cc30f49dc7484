#!/usr/bin/env python3
"""What a replay costs, in instructions, which are the same on every run whatever else the machine does.

  tools/cost.py            builds nothing: measures crates/wlim/out/wlim, which `rt run` in crates/wlim builds
  tools/cost.py PROGRAM    measures another build

It prints, by valgrind's callgrind, instructions a step of `replay` in both forms, of `explain`, and of `replay-seats` with
one and with eight seats that take turns, an act of `replay-acts`, a batch that is replayed and taken, and that is
audited with what was sent for it, and of one honest step (an application types by way of a method) alone, beside 62
peers of 240 surfaces each, and beside 62 peers whose objects and stores are nearly as many as they may be, with 64 keys
down. The start of the program is taken off by measuring two lengths of each input.
"""
import os
import random
import re
import subprocess
import sys
import tempfile

HERE = os.path.dirname(os.path.abspath(__file__))
BUILT = os.path.join(HERE, "..", "crates", "wlim", "out", "wlim")


def word(number):
    return number.to_bytes(4, "little")


def text(string):
    raw = string.encode() + b"\0"
    return word(len(raw)) + raw + bytes(-len(raw) % 4)


def message(peer, receiver, opcode, *body):
    """The line of a whole message of a peer."""
    body = b"".join(body)
    whole = word(receiver) + opcode.to_bytes(2, "little") + (8 + len(body)).to_bytes(2, "little") + body
    return f"bytes {peer} {whole.hex()}"


def bind(peer, name, interface, made):
    return message(peer, 2, 0, word(name), text(interface), word(1), word(made))


def application(peer):
    """Joins with the surface 6 and the field 7."""
    return [
        "join app",
        message(peer, 1, 1, word(2)),
        bind(peer, 1, "wl_compositor", 3),
        bind(peer, 2, "wl_seat", 4),
        bind(peer, 3, "zwp_text_input_manager_v3", 5),
        message(peer, 3, 0, word(6)),
        message(peer, 5, 1, word(7), word(4)),
    ]


def input_method(peer):
    """Joins with the method 5."""
    return [
        "join method",
        message(peer, 1, 1, word(2)),
        bind(peer, 2, "wl_seat", 3),
        bind(peer, 4, "zwp_input_method_manager_v2", 4),
        message(peer, 4, 0, word(3), word(5)),
    ]


def session(steps):
    """Four applications and a method, all of whose kinds of steps come by turns."""
    draw = random.Random(5)
    lines = ["session 1 1000000 65536"]
    for peer in range(1, 5):
        lines += application(peer)
    lines += input_method(5)
    commits = 0
    while len(lines) < steps:
        peer, letter = draw.randint(1, 4), draw.choice("abcdefgh")
        kind = draw.randrange(16)
        if kind < 1:
            lines.append(f"focus {peer} 6")
        elif kind < 4:
            lines.append(message(peer, 7, 1))
        elif kind < 7:
            lines.append(message(peer, 7, 7))
            commits += 1
        elif kind < 8:
            lines.append(message(peer, 7, 3, text("ab"), word(1), word(1)))
        elif kind < 9:
            lines.append(message(peer, 7, 4, word(1)))
        elif kind < 11:
            lines.append(message(5, 5, 0, text(letter)))
        elif kind < 12:
            lines.append(message(5, 5, 1, text(letter), word(0), word(1)))
        elif kind < 13:
            lines.append(message(5, 5, 2, word(1), word(0)))
        elif kind < 15:
            lines.append(message(5, 5, 3, word(max(0, commits // 6 - draw.randrange(4)))))
        else:
            lines.append(f"take {draw.randint(1, 5)} 4096")
    return lines + ["end"]


def stamped(steps):
    """The same session in form 2."""
    lines = session(steps)
    return ["session 2 1000000 65536 134217728"] + [f"0 0 {line}" for line in lines[1:-1]] + lines[-1:]


def seats(count, steps):
    """The same session on each of so many seats, line by line in turn; so many steps in all."""
    lines = session(steps // count)
    told = [f"{seat} {line}" for line in lines[1:-1] for seat in range(1, count + 1)]
    return [f"seats {count} 1000000 65536"] + told + lines[-1:]


def act_list(acts):
    """Sixteen peers with 200 fields among them, and a method that grabs the keyboard."""
    draw = random.Random(6)
    lines, surfaces, fields = [], [], {}
    for place in range(16):
        lines.append("peer")
        peer = len(lines)
        lines.append(f"surface {peer}")
        surfaces.append(len(lines))
        fields[place] = []
        for _ in range(13 if place < 8 else 12):
            lines.append(f"field {peer}")
            fields[place].append(len(lines))
    lines.append("peer")
    lines.append(f"method {len(lines)}")
    method = len(lines)
    lines.append(f"grab {method}")
    focus, commits, around = 0, 0, "61c3a9" + "62" * 37
    while len(lines) < acts:
        kind, field = draw.random(), draw.choice(fields[focus])
        if kind < 0.04:
            focus = draw.randrange(16)
            lines.append(f"focus {surfaces[focus]}")
        elif kind < 0.16:
            lines.append(f"enable {field}")
        elif kind < 0.30:
            lines.append(f"surround {field} {around} 3 3")
        elif kind < 0.34:
            lines.append(f"rect {field} {draw.randrange(500)} 20 2 18")
        elif kind < 0.58:
            lines.append(f"commit {field}")
            commits += 1
        elif kind < 0.72:
            lines.append(f"mstring {method} {draw.randrange(97, 123):02x}")
        elif kind < 0.78:
            lines.append(f"mpreedit {method} 6162 0 2")
        elif kind < 0.92:
            lines.append(f"mcommit {method} {max(0, commits // 3 - draw.randrange(4))}")
        else:
            lines.append(f"key {len(lines)} {draw.randrange(1, 60)} {draw.randrange(2)}")
    return lines[:acts] + ["end"]


def pair(crowd, batches):
    """An application types by way of a method, three steps a letter, beside so many peers of 240 surfaces each."""
    lines = ["session 1 1000000 65536"] + application(1) + input_method(2)
    for peer in range(3, 3 + crowd):
        lines += application(peer)
        lines += [message(peer, 3, 0, word(8 + surface)) for surface in range(240)]
        lines.append(f"take {peer} 4096")
    lines += ["focus 1 6", message(1, 7, 1), message(1, 7, 7)]
    for _ in range(batches):
        lines += [message(2, 5, 0, text("a")), message(2, 5, 3, word(1)), "take 1 4096"]
    return lines + ["end"]


def audited(batches):
    """The same pair by itself, in an audit: each batch, and what its field was sent."""
    lines = pair(0, 0)[1:-1]
    sent = message(1, 7, 3, text("a"))[len("bytes 1 "):] + message(1, 7, 5, word(1))[len("bytes 1 "):]
    for _ in range(batches):
        lines += [message(2, 5, 0, text("a")), message(2, 5, 3, word(1)), f"out 1 {sent}"]
    return ["audit 1"] + [line if line.startswith("out") else f"0 0 {line}" for line in lines] + ["end"]


def attacked(crowd, batches):
    """The same where each of the crowd has 255 objects and a store that is nearly full, and 64 keys are down."""
    store = 8192
    lines = [f"session 1 1000000 {store}"] + application(1) + input_method(2)
    lines += [message(2, 5, 5, word(6)), "take 1 4096", "take 2 4096"]
    for peer in range(3, 3 + crowd):
        lines += application(peer)
        lines += [message(peer, 3, 0, word(8 + surface)) for surface in range(249)]
        # A sync is answered by 24 bytes, and its object is gone again.
        lines += [message(peer, 1, 0, word(1000)) for _ in range((store - 400) // 24)]
    lines += [f"key {key} {key + 1} 1" for key in range(64)]
    lines += ["take 2 4096", "focus 1 6", message(1, 7, 1), message(1, 7, 7), "take 2 4096"]
    for _ in range(batches):
        lines += [message(2, 5, 0, text("a")), message(2, 5, 3, word(1)), "take 1 4096"]
    return lines + ["end"]


def instructions(program, command, lines):
    """All instructions of one run."""
    with tempfile.TemporaryDirectory() as folder:
        source = os.path.join(folder, "input")
        with open(source, "w") as file:
            file.write("\n".join(lines) + "\n")
        with open(source) as file:
            run = subprocess.run(
                ["valgrind", "--tool=callgrind", f"--callgrind-out-file={folder}/out", program, command],
                stdin=file, stdout=subprocess.DEVNULL, stderr=subprocess.PIPE, text=True, check=False)
    counted = re.search(r"Collected : (\d+)", run.stderr)
    if run.returncode != 0 or not counted:
        sys.exit(f"{command} failed with status {run.returncode}:\n{run.stderr}")
    return int(counted.group(1))


def each(program, command, make, few, many, a_step=1):
    """Instructions of one more step."""
    less = instructions(program, command, make(few))
    more = instructions(program, command, make(many))
    return (more - less) / (many - few) / a_step


def main():
    if len(sys.argv) > 2:
        sys.exit(__doc__)
    program = sys.argv[1] if len(sys.argv) == 2 else BUILT
    print(f"a step of replay:        {each(program, 'replay', session, 2000, 20000):8.0f}")
    print(f"the same in form 2:      {each(program, 'replay', stamped, 2000, 20000):8.0f}")
    print(f"a step of explain:       {each(program, 'explain', session, 2000, 20000):8.0f}")
    print(f"a step of replay-seats:  {each(program, 'replay-seats', lambda n: seats(1, n), 2000, 20000):8.0f}")
    print(f"the same of eight seats: {each(program, 'replay-seats', lambda n: seats(8, n), 16000, 80000):8.0f}")
    print(f"an act of replay-acts:   {each(program, 'replay-acts', act_list, 2000, 20000):8.0f}")
    print(f"a batch, and its take:   {each(program, 'replay', lambda n: pair(0, n), 1000, 5000):8.0f}")
    print(f"a batch that is audited: {each(program, 'audit', audited, 1000, 5000):8.0f}")
    alone = each(program, "replay", lambda n: pair(0, n), 1000, 5000, 3)
    beside = each(program, "replay", lambda n: pair(62, n), 1000, 5000, 3)
    print(f"an honest step alone:    {alone:8.0f}")
    print(f"beside 62 peers of 240:  {beside:8.0f}   {beside / alone:.2f} times")
    calm = each(program, "replay", lambda n: attacked(0, n), 1000, 5000, 3)
    hostile = each(program, "replay", lambda n: attacked(62, n), 1000, 5000, 3)
    print(f"under attack:            {hostile:8.0f}   {hostile / calm:.2f} times")


if __name__ == "__main__":
    main()
