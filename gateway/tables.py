#!/usr/bin/env python3
"""Makes the gateway's tables of interfaces from protocols' XML files.

    tables.py FOLDER FILE..

Writes FOLDER/tables.c and FOLDER/tables.h. A later file's interface takes the place of an earlier one's with its name.
"""
import re
import sys
import xml.etree.ElementTree as xml

KINDS = {"uint": "u", "int": "i", "fixed": "f", "string": "s", "array": "a", "fd": "h", "object": "o", "new_id": "n"}
OPTIONAL = {"s": "S", "o": "O"}
HEAD = "/* Made by gateway/tables.py: the interfaces of the protocols' XML files. */\n"


def kinds_of(message):
    """A letter for each argument; an untyped new id is the name of its interface, a version, and the id."""
    kinds, made = "", None
    for argument in message.findall("arg"):
        kind = KINDS[argument.get("type")]
        if argument.get("allow-null") == "true":
            kind = OPTIONAL.get(kind, kind)
        if kind == "n":
            made = argument.get("interface")
        kinds += "sun" if kind == "n" and not made else kind
    return kinds, made


def rows(interface, word):
    found = []
    for message in interface.findall(word):
        name, (kinds, made) = message.get("name"), kinds_of(message)
        if not re.fullmatch(r"\w+", name) or len(kinds) > 20:
            sys.exit(f"{interface.get('name')}.{name}: no message")
        found.append((name, kinds, made, message.get("type") == "destructor"))
    return found


def read(files):
    found = {}
    for file in files:
        for interface in xml.parse(file).getroot().findall("interface"):
            name, version = interface.get("name"), int(interface.get("version"))
            if not re.fullmatch(r"\w+", name):
                sys.exit(f"{file}: an interface's name")
            found[name] = (version, rows(interface, "request"), rows(interface, "event"))
    return found


def address(found, made):
    return f"&{made}_table" if made in found else "NULL"


def write_header(found, file):
    file.write(HEAD + '#ifndef TABLES_H\n#define TABLES_H\n#include "message.h"\n\n')
    for name, (_, requests, events) in found.items():
        file.write(f"extern const struct interface {name}_table;\n")
        for word, messages in (("request", requests), ("event", events)):
            file.write(f"extern const struct signature {name}_{word}s[];\n")
            if messages:
                opcodes = ", ".join(f"{name}_{word}_{row[0]}" for row in messages)
                file.write(f"enum {{ {opcodes} }};\n")
    file.write("\n#endif\n")


def write_tables(found, file):
    file.write(HEAD + '#include "tables.h"\n#include <stddef.h>\n')
    for name, (version, requests, events) in found.items():
        for word, messages in (("requests", requests), ("events", events)):
            lines = "".join(f'\t{{ "{row}", "{kinds}", {kinds.find("n")}, {address(found, made)}, {int(ends)} }},\n'
                            for row, kinds, made, ends in messages)
            file.write(f"\nconst struct signature {name}_{word}[] = {{\n{lines}\t{{ NULL, NULL, -1, NULL, 0 }},\n}};\n")
        file.write(f'const struct interface {name}_table = {{ "{name}", {version}, '
                   f"{{ {len(events)}, {len(requests)} }},\n\t{{ {name}_events, {name}_requests }} }};\n")
    listed = "".join(f"\t&{name}_table,\n" for name in found)
    file.write(f"\nconst struct interface *const interfaces[] = {{\n{listed}\tNULL,\n}};\n")


def main():
    folder, found = sys.argv[1], read(sys.argv[2:])
    with open(f"{folder}/tables.h", "w", encoding="utf-8") as file:
        write_header(found, file)
    with open(f"{folder}/tables.c", "w", encoding="utf-8") as file:
        write_tables(found, file)


if __name__ == "__main__":
    main()
