#!/usr/bin/env python3
"""Holds what libwlim promises a compiled program against packaging/libwlim.abi: each function with its types, each
number and struct of include/wlim.h, with the version of CHANGELOG.md that brought it.

    tools/abi.py [--header FILE] [LIBRARY.so]   says what differs, and ends with 1 where anything does
    tools/abi.py --write [SONAME]               takes the header's in. What is new needs a new version in CHANGELOG.md,
                                                what changed or went another soname
    tools/abi.py --soname, --map, --symbols     what the linker and Debian's tools are told
"""
import os
import re
import subprocess
import sys

from manual import read, released

ROOT = os.path.abspath(os.path.join(os.path.dirname(os.path.abspath(__file__)), ".."))
KEPT = "packaging/libwlim.abi"


def declared(header):
    """Each promise of the header in a line."""
    text = re.sub(r"/\*.*?\*/", "", header, flags=re.S)
    found = [" ".join(one.split()) for one in re.findall(r"^(\w+ wlim_\w+\([^)]*\));", text, flags=re.M)]
    for kind, body in re.findall(r"^((?:enum|struct)[ \w]*)\{(.*?)^\};", text, flags=re.S | re.M):
        parts = [" ".join(part.split()) for part in re.split("[,;]", body) if part.strip()]
        found += [f"enum {part}" for part in parts] if kind.startswith("enum") else [f"{kind}{{ {'; '.join(parts)} }}"]
    return found


def kept():
    """The soname, and each promise with the version that brought it."""
    soname, *lines = read(KEPT).splitlines()
    return soname, {line.split(" ", 1)[1]: line.split(" ", 1)[0] for line in lines}


def named(promise):
    found = re.match(r"\w+ (wlim_\w+)\(", promise)
    return found[1] if found else None


def symbols(promises):
    """The functions that each version brought."""
    found = {}
    for promise, version in promises.items():
        if named(promise):
            found.setdefault(version, []).append(named(promise))
    return {version: sorted(found[version]) for version in sorted(found, key=numbers)}


def numbers(version):
    return [int(part) for part in version.split(".")]


def given_away(library):
    """The soname of a library, and its functions with their versions."""
    told = subprocess.run(["objdump", "-p", library], capture_output=True, text=True, check=True).stdout
    lines = subprocess.run(["nm", "-D", "--defined-only", library], capture_output=True, text=True, check=True).stdout
    names = {line.split()[-1] for line in lines.splitlines() if " A " not in line}
    return re.search(r"SONAME +(\S+)", told)[1], names


def differences(header, library):
    """What the header, and the library, have otherwise than what was kept."""
    soname, promises = kept()
    now = declared(header)
    yield from (f"gone or changed: {one}" for one in promises if one not in now)
    yield from (f"new or changed: {one}" for one in now if one not in promises)
    if library:
        its, names = given_away(library)
        wanted = {f"{name}@@WLIM_{version}" for version, ours in symbols(promises).items() for name in ours}
        yield from (f"{library}: without {one}" for one in sorted(wanted - names))
        yield from (f"{library}: also {one}" for one in sorted(names - wanted))
        if its != soname:
            yield f"{library}: is {its}, not {soname}"


def write(words):
    """Takes in what the header has, where the versions allow it."""
    soname, promises = kept() if os.path.exists(f"{ROOT}/{KEPT}") else (words[0], {})
    now, version = declared(read("include/wlim.h")), released()[0]
    gone = [one for one in promises if one not in now]
    if gone and words[:1] in ([], [soname]):
        return f"changed or gone, so the library needs another soname than {soname}: {'; '.join(gone)}"
    if set(now) - set(promises) and promises and numbers(version) <= max(map(numbers, promises.values())):
        return f"CHANGELOG.md has to begin with a version after {version}"
    lines = [f"{promises.get(one, version)} {one}" for one in sorted(now)]
    with open(f"{ROOT}/{KEPT}", "w", encoding="utf-8") as file:
        file.write("\n".join([*words[:1], *lines] if words else [soname, *lines]) + "\n")
    return None


def version_script():
    """The library's symbols for the linker, a version after the other."""
    lines, before = [], ""
    for version, names in symbols(kept()[1]).items():
        local = "" if before else "local:\n\t*;\n"
        listed = "".join(f"\t{name};\n" for name in names)
        lines.append(f"WLIM_{version} {{\nglobal:\n{listed}{local}}}{before};")
        before = f" WLIM_{version}"
    return "\n".join(lines)


def debian_symbols():
    """The same for dpkg-shlibdeps."""
    soname, promises = kept()
    lines = [f"{soname} lib{soname[3:].replace('.so.', '')} #MINVER#"]
    for version, names in symbols(promises).items():
        lines += [f" WLIM_{version}@WLIM_{version} {version}", *[f" {name}@WLIM_{version} {version}" for name in names]]
    return "\n".join(lines)


def main():
    words = sys.argv[1:]
    if words[:1] == ["--write"]:
        refused = write(words[1:])
        print(refused or "written")
        return int(bool(refused))
    for word, tell in [("--soname", lambda: kept()[0]), ("--map", version_script), ("--symbols", debian_symbols)]:
        if words[:1] == [word]:
            print(tell())
            return 0
    header = read(words[1] if words[:1] == ["--header"] else "include/wlim.h")
    left = words[2:] if words[:1] == ["--header"] else words
    wrong = list(differences(header, left[0] if left else None))
    for one in wrong:
        print(one)
    print(f"abi: {len(kept()[1])} promises of {kept()[0]}, {len(wrong)} that differ")
    return int(bool(wrong))


if __name__ == "__main__":
    sys.exit(main())
