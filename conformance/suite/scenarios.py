"""Scenarios, as their files say them: README.md beside this folder has the format."""
import glob
import os
import re
import shlex

# How many words each command has, itself counted, and the names of what it can do only where the compositor offers it.
COMMANDS = {
    "window": 2,
    "close": 2,
    "surface": 2,
    "paint": 2,
    "field": 2,
    "enable": 2,
    "disable": 2,
    "commit": 2,
    "surround": 5,
    "cause": 3,
    "content": 4,
    "rect": 6,
    "method": 2,
    "mstring": 3,
    "mpreedit": 5,
    "mdelete": 4,
    "mcommit": 3,
    "grab": 3,
    "popup": 4,
    "board": 2,
    "vkeymap": 3,
    "vkey": 4,
    "vmods": 6,
    "drop": 2,
    "raw": 4,
}
TEXTS = {"surround", "mstring", "mpreedit"}
FAMILIES = ["focus", "windows", "entries", "serials", "edits", "methods", "ends", "keys", "popups", "slow", "bad"]
KINDS = {"programs": "program", "methods": "method"}
ALONE = {
    "focus": 2,
    "unfocus": 1,
    "press": 2,
    "release": 2,
    "mark": 3,
    "pause": 2,
    "resume": 2,
    "kill": 2,
    "quit": 2,
    "refused": 2,
}


class BadScenario(Exception):
    """A line that isn't in the format."""


class Step:
    """One thing that is done, and then waited for: a client's commands, or a line of the desk."""

    def __init__(self, line, who, commands):
        self.line, self.who, self.commands = line, who, commands


class Scenario:
    """Its name, family, sentence, clients (name to kind), and steps."""

    def __init__(self, name, family):
        self.name, self.family, self.says, self.clients, self.steps = name, family, "", {}, []

    def commands(self):
        return [command for step in self.steps for command in step.commands]


def words_of(text, where):
    """The words of a command; a text is between quotation marks, and becomes hex."""
    lexer = shlex.shlex(text, posix=True, punctuation_chars="")
    lexer.whitespace_split, lexer.commenters, lexer.escape = True, "", ""
    words = list(lexer)
    if words and words[0] in TEXTS and len(words) > 2:
        words[2] = words[2].encode().hex() or "-"
    wanted = COMMANDS.get(words[0]) if words else None
    if wanted != len(words):
        raise BadScenario(f"{where}: {text!r}")
    return words


def split(text):
    """At each `;` outside of quotation marks."""
    return [part.strip() for part in re.findall(r'(?:[^;"]|"[^"]*")+', text)]


def read_step(line, where):
    times, rest = 1, line
    if found := re.match(r"times (\d+) (.*)", line):
        times, rest = int(found[1]), found[2]
    if found := re.match(r"(\w+): (.*)", rest):
        commands = [words_of(part, where) for part in split(found[2])]
        return Step(line, found[1], commands * times)
    words = line.split()
    if ALONE.get(words[0]) != len(words):
        raise BadScenario(f"{where}: {line!r}")
    return Step(line, None, [words])


def family_of(path):
    return os.path.basename(path)[:-4]


def read_file(path):
    """All scenarios of a file, which is a family."""
    family, found, beginnings, now = family_of(path), [], {}, None
    with open(path, encoding="utf-8") as file:
        for number, line in enumerate(file, 1):
            line, where = line.strip(), f"{os.path.basename(path)}:{number}"
            first, _, rest = line.partition(" ")
            if not line or line.startswith("#"):
                continue
            if first == "scenario":
                now = Scenario(rest, family)
                found.append(now)
            elif first == "beginning":
                now = beginnings[rest] = Scenario(rest, family)
            elif now is None:
                raise BadScenario(f"{where}: {line!r}")
            elif first == "says":
                now.says = f"{now.says} {rest}".strip()
            elif first == "begins":
                now.clients.update(beginnings[rest].clients)
                now.steps += beginnings[rest].steps
            elif first in KINDS:
                now.clients.update({name: KINDS[first] for name in rest.split()})
            else:
                now.steps.append(read_step(line, where))
    return found


def read_all(folder):
    paths = sorted(glob.glob(folder + "/*.txt"), key=lambda path: (FAMILIES.index(family_of(path)), path))
    found = [scenario for path in paths for scenario in read_file(path)]
    names = [scenario.name for scenario in found]
    if len(names) != len(set(names)):
        raise BadScenario("two scenarios have one name: " + ", ".join({n for n in names if names.count(n) > 1}))
    return found
