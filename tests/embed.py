#!/usr/bin/env python3
"""Act lists through libwlim in C beside `wlim replay-acts`: the examples, the worked rows, and lists made from numbers. What
the library alone says, which popups an act hides, is held against the example's list and against where they were placed.

    tests/embed.py PROGRAM PLAYER [LISTS] [ACTS]

PROGRAM is wlim as `make build` makes it; PLAYER is examples/embed/play_acts, and may have words before it (valgrind ..).
"""
import os
import random
import re
import shlex
import subprocess
import sys

TOP = os.path.dirname(os.path.dirname(os.path.abspath(__file__)))
BEGINNING = ["peer", "surface 1", "field 1", "peer", "method 4", "focus 2", "enable 3", "commit 3"]
TEXTS = ["-", "61", "c3a9", "e38182", "6869", "f09f9880", "41" * 100, "62" * 4075]


def rows():
    """The worked rows of the test that holds the relay against its slow twin, each with an `end`."""
    with open(os.path.join(TOP, "crates/test_relay/src/plain_relay_tests.rt"), encoding="utf-8") as file:
        block = re.search(r"static ROWS[^=]*= \[(.*?)\n\];", file.read(), flags=re.S).group(1)
    texts = re.findall(r'"([^"]*)"', re.sub(r"\\\n *", "", block))
    return [text.replace("\\n", "\n") + "\nend\n" for text in texts]


def made(number, count):
    """A list of so many acts. Its labels are mostly of the right kind, some are dead, and some were never made."""
    pick = random.Random(number)
    kinds = {}

    def one(*wanted):
        of = [label for label, kind in kinds.items() if kind in wanted]
        if not of or pick.random() < 0.03:
            return pick.randrange(0, len(kinds) + 40)
        return pick.choice(of[:2] if pick.random() < 0.8 else of[-4:])

    def number_of(low=-3, high=40):
        return pick.choice([low, 0, 1, 2, pick.randrange(low, high)])

    def size():
        return pick.randrange(0, 60)

    acts = {
        "peer": (1, lambda: []),
        "gone": (0, lambda: [one("peer")]),
        "surface": (3, lambda: [one("peer")]),
        "field": (3, lambda: [one("peer")]),
        "method": (2, lambda: [one("peer")]),
        "popup": (2, lambda: [one("method"), one("surface")]),
        "grab": (2, lambda: [one("method")]),
        "vboard": (2, lambda: [one("peer")]),
        "drop": (1, lambda: [one("surface", "field", "method", "popup", "grab", "vboard")]),
        "focus": (4, lambda: [one("surface")]),
        "unfocus": (1, lambda: []),
        "area": (3, lambda: [one("surface"), number_of(), number_of(), size(), size()]),
        "screen": (1, lambda: [size(), size()]),
        "enable": (16, lambda: [one("field")]),
        "disable": (2, lambda: [one("field")]),
        "surround": (5, lambda: [one("field"), pick.choice(TEXTS), number_of(), number_of()]),
        "cause": (2, lambda: [one("field"), pick.randrange(0, 2)]),
        "content": (2, lambda: [one("field"), size(), pick.randrange(0, 14)]),
        "rect": (3, lambda: [one("field"), number_of(), number_of(), number_of(), number_of()]),
        "commit": (20, lambda: [one("field")]),
        "mstring": (6, lambda: [one("method"), pick.choice(TEXTS)]),
        "mpreedit": (4, lambda: [one("method"), pick.choice(TEXTS), number_of(), number_of()]),
        "mdelete": (3, lambda: [one("method"), size(), size()]),
        "mcommit": (16, lambda: [one("method"), pick.randrange(0, 7)]),
        "key": (6, lambda: [size(), pick.randrange(1, 9), pick.randrange(0, 2)]),
        "mods": (2, lambda: [size(), size(), size(), pick.randrange(0, 4)]),
        "keymap": (1, lambda: [1, size(), size()]),
        "repeat": (1, lambda: [number_of(), number_of()]),
        "vkeymap": (2, lambda: [one("vboard"), 1, size(), size()]),
        "vkey": (4, lambda: [one("vboard"), size(), pick.randrange(1, 9), pick.randrange(0, 2)]),
        "vmods": (2, lambda: [one("vboard"), size(), size(), size(), pick.randrange(0, 4)]),
    }
    acts["gone"] = (pick.randrange(0, 2), acts["gone"][1])
    words = [word for word, (weight, _) in acts.items() for _ in range(weight)]
    lines = list(BEGINNING)
    kinds.update({label: line.split()[0] for label, line in enumerate(lines, 1)})
    while len(lines) < count:
        if pick.random() < 0.2:
            # What a person's word comes to: a field is enabled, and a method commits with one of the last serials.
            field, method, serial = one("field"), one("method"), pick.randrange(0, 3 + len(lines) // 10)
            edits = [f"mstring {method} {pick.choice(TEXTS)}", f"mpreedit {method} {pick.choice(TEXTS)} 0 1", f"mdelete {method} 1 2"]
            some = [f"enable {field}", f"commit {field}", *pick.sample(edits, pick.randrange(1, 4)), f"mcommit {method} {serial}"]
        else:
            word = pick.choice(words)
            some = [" ".join([word, *map(str, acts[word][1]())])]
        for line in some:
            lines.append(line)
            kinds[len(lines)] = line.split()[0]
    return "\n".join(lines + ["end"]) + "\n"


def told(command, acts):
    run = subprocess.run(command, input=acts, capture_output=True, text=True, check=False)
    return run.stdout if run.returncode == 0 else f"{run.stdout}status {run.returncode}\n{run.stderr}"


def apart(told_lines):
    """The lines that say that a popup is hidden, and all others."""
    lines = told_lines.splitlines(True)
    return [line for line in lines if " hidden " in line], "".join(line for line in lines if " hidden " not in line)


def is_hidden_rightly(told_lines):
    """Each popup that is hidden was placed and not hidden since, and its line stands behind the others of its act."""
    placed, last = set(), ""
    for line in told_lines.splitlines():
        number, _, what, *arguments = (line + " ").split(" ")
        if last.startswith(f"{number} 0 hidden") and what != "hidden":
            return False
        if what == "placed":
            placed.add(arguments[0])
        elif what == "hidden" and arguments[0] not in placed:
            return False
        elif what == "hidden":
            placed.remove(arguments[0])
        last = line
    return True


def main():
    program, player = [sys.argv[1], "replay-acts"], shlex.split(sys.argv[2])
    lists, count = int(sys.argv[3]) if len(sys.argv) > 3 else 1000, int(sys.argv[4]) if len(sys.argv) > 4 else 400
    work, wanted_hidden = [], {}
    for name in ("one_string", "hidden_popups"):
        with open(os.path.join(TOP, f"examples/{name}.acts"), encoding="utf-8") as file:
            work.append((name, file.read()))
    with open(os.path.join(TOP, "examples/hidden_popups.hidden"), encoding="utf-8") as file:
        wanted_hidden["hidden_popups"] = file.readlines()
    work += [(f"row {at + 1}", row) for at, row in enumerate(rows())]
    work += [(f"list {number}", made(number, count)) for number in range(lists)]
    lines = hidden_lines = 0
    for name, acts in work:
        # The ids of a link are no event of a seat in C.
        wanted = "".join(line for line in told(program, acts).splitlines(True) if " delete_id " not in line)
        all_told = told(player, acts)
        hidden, got = apart(all_told)
        hidden_lines += len(hidden)
        if not is_hidden_rightly(all_told) or hidden != wanted_hidden.get(name, hidden):
            print(f"{name}: hidden: {hidden}")
            return 1
        lines += wanted.count("\n")
        if wanted != got or not wanted.startswith("end ") and "\nend " not in wanted:
            pairs = zip((wanted + "\n").split("\n"), (got + "\n").split("\n"))
            print(f"{name}: differs: {next((pair for pair in pairs if pair[0] != pair[1]), 'in length')}")
            return 1
    print(f"{len(work)} lists the same, of {lines} lines, and {hidden_lines} popups hidden")
    return 0


sys.exit(main())
