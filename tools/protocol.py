#!/usr/bin/env python3
"""Holds crates/wl_proto against tools/protocol.txt, the table of the protocols' messages: protocol.py [--write]

1. The sources of wl_proto have each message as the table has it (protocol_sources.py makes that part of them), in any
   layout that `rt fmt` gives them.
2. crates/test_base has a row of each message, whose words are those of its values by the table.
3. The protocols' XML files that lie in the repository, that the gateway's build fetched or that packages have say the
   same: which messages there are in that version, their opcodes and the kinds of their arguments, as gateway/tables.py
   reads them.
4. The globals are told in the table's version.

Prints what differs, and ends with 1 if anything does. With --write it writes the sources of wl_proto first.
"""
import glob
import os
import re
import shutil
import subprocess
import sys
import xml.etree.ElementTree as xml

import protocol_sources

ROOT = os.path.abspath(os.path.join(os.path.dirname(os.path.abspath(__file__)), ".."))
sys.path.append(f"{ROOT}/gateway")
import tables  # pylint: disable=wrong-import-position

TABLE = "tools/protocol.txt"
CRATE = "crates/wl_proto"
TESTS = "crates/test_base/src/message_row_tests.rt"
GLOBALS = "crates/relay_model/specs/Globals.antt"
LETTERS = {"uint": "u", "int": "i", "object": "o", "new_id": "n", "text": "s", "text?": "S", "fd": "h"}
LINE = re.compile(r"(?:(interface) (\w+) (\w+) (\d+)( partly)?|(request|event) (\d+) (\w+)((?: \w+:[\w?]+)*))"
                  r"(?: -- (.*))?")
TEST_ROW = re.compile(r"\(Interface::(\w+), (Request|Event)::(\w+)(?: \{ (.*?) \})?,\s*&\[([^\]]*)\]\)")
VALUE = re.compile(r'(\w+): (?:Some\()?("[^"]*"|None|-?\d+)')


class Interface:
    def __init__(self, name, protocol, version, partly, comment):
        self.name, self.protocol, self.version, self.partly = name, protocol, int(version), bool(partly)
        self.comment = [comment] if comment else []
        self.messages = {"request": [], "event": []}


class Message:
    def __init__(self, interface, word, opcode, name, arguments, comment):
        self.interface, self.word, self.opcode, self.name = interface, word, int(opcode), name
        self.arguments = [tuple(argument.split(":")) for argument in arguments.split()]
        self.comment = [comment] if comment else []
        self.protocol = protocol_sources.snake(name.removeprefix(interface.name) or name)


class Table:
    def __init__(self, interfaces):
        self.interfaces = interfaces

    def messages(self, word):
        return [message for interface in self.interfaces for message in interface.messages[word]]


def read(path):
    with open(f"{ROOT}/{path}", encoding="utf-8") as file:
        return file.read()


def fault(message, others):
    """What is wrong with a message beside those before it, if anything."""
    own = message.interface.messages[message.word]
    if own and own[-1].opcode >= message.opcode:
        return "its opcode isn't above the one before"
    if message.name in others:
        return "its name was there before"
    if len(message.arguments) > 5:
        return "it has more than five arguments"
    unknown = [kind for _, kind in message.arguments if kind not in LETTERS]
    return f"no kind {unknown[0]}" if unknown else None


def read_table():
    table, names, last = Table([]), {"request": set(), "event": set()}, None
    for number, line in enumerate(read(TABLE).splitlines(), 1):
        if not line or line.startswith("#"):
            continue
        if line.startswith("    -- ") and last:
            last.comment.append(line[7:])
            continue
        parts = LINE.fullmatch(line)
        if not parts or not (parts[1] or table.interfaces):
            sys.exit(f"{TABLE}:{number}: no line of the table")
        if parts[1]:
            last = Interface(*parts.group(2, 3, 4, 5, 10))
            table.interfaces.append(last)
            continue
        last = Message(table.interfaces[-1], *parts.group(6, 7, 8, 9, 10))
        wrong = fault(last, names[last.word])
        if wrong:
            sys.exit(f"{TABLE}:{number}: {wrong}")
        names[last.word].add(last.name)
        last.interface.messages[last.word].append(last)
    return table


def tokens(text):
    """The text without its layout."""
    return re.findall(r"\w+|[^\w\s]", re.sub(r",(?=\s*[)\]}])", "", text))


def sources(table, write):
    """A problem, or none, for each file of wl_proto that has messages."""
    for name, maker in protocol_sources.makers(read(f"{CRATE}/src/bodies.rt")).items():
        path = f"{CRATE}/{name}"
        stands = read(path)
        try:
            made = maker(stands, table)
        except ValueError as error:
            yield f"{path}: {error}"
            continue
        same = made == stands or name.endswith(".rt") and tokens(made) == tokens(stands)
        if not same and write:
            with open(f"{ROOT}/{path}", "w", encoding="utf-8") as file:
                file.write(made)
            print(f"{path} is written")
        pairs = enumerate(zip(made.splitlines(), stands.splitlines()), 1)
        line = next((number for number, (one, other) in pairs if one != other), "end")
        yield None if same or write else f"{path}:{line}: {TABLE} has it otherwise"


def words_of(message, values):
    """The words of a message to the object 7."""
    body = []
    for (name, kind), (own, value) in zip(message.arguments, values):
        if name != own:
            return None
        if value.startswith('"'):
            text = value.strip('"').encode() + b"\0"
            body += [len(text)] + [int.from_bytes(text[at:at + 4], "little") for at in range(0, len(text), 4)]
        elif kind != "fd":
            body.append(0 if value == "None" else int(value) % 2 ** 32)
    return [7, (8 + 4 * len(body)) * 2 ** 16 + message.opcode] + body


def tested(table):
    """A problem, or none, for each message and its row of the tests."""
    rows = {(kind.lower(), name): (interface, VALUE.findall(values), [int(word, 0) for word in words.split(", ")])
            for interface, kind, name, values, words in TEST_ROW.findall(read(TESTS))}
    for message in table.messages("request") + table.messages("event"):
        interface, values, words = rows.pop((message.word, message.name), (None, [], []))
        good = interface == message.interface.name and len(values) == len(message.arguments) \
            and words == words_of(message, values)
        yield None if good else f"{TESTS}: the {message.word} {message.name} has no row, or one of other words"
    for word, name in rows:
        yield f"{TESTS}: {TABLE} has no {word} {name}"


def data_of(package):
    """The folder of a package's data, where Debian has it unless pkg-config says otherwise."""
    usual = f"/usr/share/{package.removesuffix('-scanner')}"
    if not shutil.which("pkg-config"):
        return usual
    run = subprocess.run(["pkg-config", "--variable=pkgdatadir", package], capture_output=True, text=True, check=False)
    return os.path.normpath(run.stdout.strip() or usual)


def xml_interfaces():
    """The interfaces of the XML files that are there: pairs of the file and the interface."""
    shared = data_of("wayland-protocols")
    patterns = [f"{ROOT}/*/protocol*/*.xml", f"{ROOT}/out/gateway/protocols/**/*.xml", f"{shared}/*/*/*.xml",
                f"{data_of('wayland-scanner')}/wayland.xml"]
    for file in sorted({file for pattern in patterns for file in glob.glob(pattern, recursive=True)}):
        for interface in xml.parse(file).getroot().findall("interface"):
            yield os.path.relpath(file, ROOT) if file.startswith(ROOT) else file, interface


def otherwise(own, interface):
    """What an XML file says otherwise of an interface."""
    if int(interface.get("version")) < own.version:
        yield f"has version {interface.get('version')}"
    for word in ("request", "event"):
        theirs = {opcode: (message.get("name"), tables.kinds_of(message)[0])
                  for opcode, message in enumerate(interface.findall(word))
                  if int(message.get("since", "1")) <= own.version}
        ours = {message.opcode: (message.protocol, "".join(LETTERS[kind] for _, kind in message.arguments))
                for message in own.messages[word]}
        for opcode in sorted(ours.keys() | theirs.keys() if not own.partly else ours.keys()):
            if ours.get(opcode) != theirs.get(opcode):
                yield f"its {word} {opcode} is {theirs.get(opcode)}, here {ours.get(opcode)}"


def published(table, missing):
    """A problem, or none, for each interface in each XML file that has it; `missing` gets those that are in none."""
    left = {one.protocol: one for one in table.interfaces}
    missing.update(left)
    for file, interface in xml_interfaces():
        own = left.get(interface.get("name"))
        if own:
            missing.pop(own.protocol, None)
            problems = list(otherwise(own, interface))
            yield f"{file}: {own.protocol}: {'; '.join(problems)}" if problems else None


def told(table):
    """A problem, or none, for each interface's version: all globals are told in one."""
    version = re.search(r"said\.Global offer\.0 offer\.1 (\d+)\)", read(GLOBALS))
    for one in table.interfaces:
        good = version and int(version[1]) == one.version
        yield None if good else f"{GLOBALS}: {one.protocol} isn't told in version {one.version}"


def problems_of(write=False):
    """A problem, or none, for each file, row and interface held against the table; interfaces without an XML file."""
    table, missing = read_table(), {}
    return [*sources(table, write), *tested(table), *published(table, missing), *told(table)], list(missing)


def main():
    found, missing = problems_of("--write" in sys.argv[1:])
    problems = [problem for problem in found if problem]
    for problem in problems:
        print(problem)
    if missing:
        print(f"no XML file is there of {', '.join(missing)}")
    print(f"{len(found)} files, rows and interfaces, {len(problems)} that differ from {TABLE}")
    return 1 if problems else 0


if __name__ == "__main__":
    sys.exit(main())
