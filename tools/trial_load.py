#!/usr/bin/env python3
"""Writes a script for `wlim trial`: so many actions of all kinds over so many fields, by a fixed seed.

  tools/trial_load.py ACTIONS FIELDS | crates/wlim/out/wlim trial

In every ten actions a field is used, keys are pressed, one of which begins a sequence, and fields are edited by hand and
by a batch. No text grows beyond a few hundred bytes: as much is taken away as was put in.
"""
import random
import sys


def actions(count, fields):
    draw = random.Random(7)
    used = 1
    for number in range(count):
        kind = number % 10
        if kind == 0:
            used = draw.randint(1, fields)
            yield f"use {used}"
        elif kind in (1, 2, 3, 4):
            yield f"press {draw.choice((18, 30, 40, 48))}"
        elif kind == 5:
            yield f"insert {draw.randint(1, fields)} c3a9"
        elif kind == 6:
            yield f"{draw.choice(('left', 'right'))} {draw.randint(1, fields)}"
        elif kind in (7, 8):
            yield f"rub {used}"
        else:
            yield "batch 4 0 78 79 0 1"


def main():
    count, fields = int(sys.argv[1]), int(sys.argv[2])
    lines = ["trial 1", "single 18 65", "single 30 61", "single 40 27", "single 48 62", "compose c3a9 40 18",
             f"fields {fields}", *actions(count, fields)]
    lines += [f"show {field}" for field in range(1, fields + 1)]
    print("\n".join(lines + ["end"]))


main()
