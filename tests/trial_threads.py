#!/usr/bin/env python3
"""Runs `trial-threads` with many numbers, several at once so that the machine is loaded, and holds each output against
the script that the number draws, which is worked out here.

    tests/trial_threads.py crates/wlim/out/wlim [RUNS]      RUNS: 120 where it isn't given; after `make build`

Each run has to end with status 0 and to show four fields and `end`. A field's text has no letter more often than its
user inserted it and the shell pressed its key; the cursor stands within the text, at a letter's edge. That each field
was told what a replay of the session tells it, crates/test_trials compares.
"""
import collections
import concurrent.futures
import os
import random
import subprocess
import sys

MASK = (1 << 64) - 1
FIELDS, ACTIONS, SECONDS = 4, 400, 120


def rotated(word, by):
    return ((word >> by) | (word << (-by % 32))) & 0xFFFFFFFF


def step(state, increment):
    return (state * 6364136223846793005 + increment) & MASK


def word_of(state):
    return rotated((((state >> 18) ^ state) >> 27) & 0xFFFFFFFF, state >> 59)


def words(number):
    """The words of PCG32, seeded with the number as the crate rand_core seeds it."""
    state, seed = number, b""
    for _ in range(4):
        state = step(state, 11634580027462260723)
        seed += word_of(state).to_bytes(4, "little")
    increment = int.from_bytes(seed[8:], "little") | 1
    state = step((int.from_bytes(seed[:8], "little") + increment) & MASK, increment)
    while True:
        yield word_of(state)
        state = step(state, increment)


def most_letters(number):
    """How often each field's text may have each letter."""
    inserted = [collections.Counter() for _ in range(FIELDS)]
    pressed = collections.Counter()
    source = words(number)
    for _ in range(ACTIONS):
        word = next(source)
        field, letter = word // 256 % FIELDS, chr(97 + word // 65536 % 26)
        if word % 4 == 1:
            pressed[letter] += 1
        elif word % 4 == 2:
            inserted[field][letter] += 1
    return [own + pressed for own in inserted]


def unhex(word):
    return "" if word == "-" else bytes.fromhex(word).decode("ascii")


def fault(number, status, output):
    """What is wrong with a run, or None."""
    lines = output.split("\n")
    if status != 0 or len(lines) != FIELDS + 2 or lines[FIELDS:] != ["end", ""]:
        return f"status {status}, {len(lines)} lines"
    for index, (line, most) in enumerate(zip(lines, most_letters(number))):
        name, field, text, cursor, preedit = line.split(" ")
        text = unhex(text)
        if (name, field, preedit) != ("show", str(index + 1), "-") or not 0 <= int(cursor) <= len(text):
            return f"line {line!r}"
        if collections.Counter(text) - most:
            return f"line {line!r} has letters that nobody typed"
    return None


def run(program, number):
    try:
        done = subprocess.run([program, "trial-threads", str(number)], stdin=subprocess.DEVNULL, capture_output=True,
                              text=True, timeout=SECONDS, check=False)
    except subprocess.TimeoutExpired:
        return number, f"not done after {SECONDS} seconds"
    return number, fault(number, done.returncode, done.stdout)


def main():
    program, runs = os.path.abspath(sys.argv[1]), int(sys.argv[2]) if len(sys.argv) > 2 else 120
    chosen = random.Random(1)
    numbers = list(range(runs - 2)) + [MASK, chosen.randrange(MASK)]
    for bad in (["trial-threads"], ["trial-threads", "07"], ["trial-threads", str(MASK + 1)], ["trial-threads", "7", "8"]):
        if subprocess.run([program, *bad], capture_output=True, check=False).returncode != 2:
            sys.exit(f"{bad}: not status 2")
    with concurrent.futures.ThreadPoolExecutor(2 * (os.cpu_count() or 1)) as pool:
        faults = [(number, what) for number, what in pool.map(lambda n: run(program, n), numbers) if what]
    for number, what in faults:
        print(f"trial-threads {number}: {what}")
    print(f"{runs} runs, {len(faults)} faults")
    sys.exit(1 if faults else 0)


main()
