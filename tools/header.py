#!/usr/bin/env python3
"""Holds include/wlim.h against the crates that it is of: each export of c_library with the same parameters, by name and type,
and no other; the answers, the kinds of events, the fields of the structs, the version. With a library, also against the
names that it gives away.

    tools/header.py [LIBRARY.a | LIBRARY.so]
"""
import glob
import os
import re
import subprocess
import sys

TOP = os.path.dirname(os.path.dirname(os.path.abspath(__file__)))
IN_C = {"u32": "uint32_t", "i32": "int32_t", "u64": "uint64_t", "i64": "int64_t", "usize": "size_t", "bool": "bool"}
STRUCTS = {
    "Wlim": "wlim", "Given": "wlim_event", "Shown": "wlim_shown", "Batch": "wlim_batch",
    "WlimBroker": "wlim_broker", "Taken": "wlim_taken", "Told": "wlim_told", "Used": "wlim_used",
}
# A text is of characters, other bytes are numbers.
SLICES = {
    "&[u8]": "const {} *{}, size_t length", "&mut [u8]": "{} *{}, size_t room",
    "&[u32]": "const {} *{}, size_t count", "&mut [u32]": "{} *{}, size_t places",
}


def read(path):
    with open(os.path.join(TOP, path), encoding="utf-8") as file:
        return file.read()


def parameters_in_c(name, kind):
    """The parameters in C of one parameter of an export."""
    if kind == "Global":
        return []
    if kind in SLICES:
        element = "uint32_t" if "u32" in kind else "char" if name == "text" else "uint8_t"
        return SLICES[kind].format(element, name).split(", ")
    if kind.startswith("&mut "):
        return [f"struct {STRUCTS[kind[5:]]} *{name}"]
    return [f"{IN_C[kind]} {name}"]


def exports():
    """Each export: its result and its parameters, as C has them."""
    found = {}
    for path in sorted(glob.glob(os.path.join(TOP, "crates/c_library/src/*.rt"))):
        for name, parameters, result in re.findall(r'pub extern "C" fn (\w+)\(([^)]*)\)(?: -> (\w+))?', read(path)):
            pairs = [pair.split(":") for pair in parameters.split(",") if pair.strip()]
            in_c = [one for name_, kind in pairs for one in parameters_in_c(name_.strip(), kind.strip())]
            found[name] = (IN_C[result] if result else "void", in_c)
    return found


def prototypes(header):
    found = {}
    for result, name, parameters in re.findall(r"^(\w+) (wlim_\w+)\(([^)]*)\);", header, flags=re.M):
        parts = [" ".join(one.split()) for one in parameters.split(",")]
        found[name] = (result, [] if parts == ["void"] else parts)
    return found


def constants(path, kind):
    return {f"WLIM_{name}": int(value) for name, value in re.findall(rf"pub const (\w+): {kind} = (-?\d+);", read(path))}


def enumerators(header):
    return {name: int(value) for name, value in re.findall(r"^\t(WLIM_\w+) = (-?\d+),", header, flags=re.M)}


def fields(path, struct):
    body = re.search(rf"pub struct {struct} {{(.*?)\n}}", read(path), flags=re.S).group(1)
    return [(name, IN_C[kind]) for name, kind in re.findall(r"^    pub (\w+): (\w+),", body, flags=re.M) if kind in IN_C]


def fields_in_c(header, struct):
    body = re.search(rf"^struct {struct} {{(.*?)^}}", header, flags=re.S | re.M).group(1)
    return [(name, kind) for kind, name in re.findall(r"^\t(\w+) (\w+);", body, flags=re.M)]


def given_away(library):
    shared = ["-D"] if library.endswith(".so") else []
    lines = subprocess.run(["nm", "-g", "--defined-only", *shared, library], capture_output=True, text=True, check=True).stdout
    found = [line.split() for line in lines.splitlines()]
    return {words[-1].split("@")[0] for words in found if len(words) == 3 and words[1] != "A"}


def main():
    header = re.sub(r"/\*.*?\*/", "", read("include/wlim.h"), flags=re.S)
    ours, theirs = exports(), prototypes(header)
    values = constants("crates/c_library/src/answer.rt", "i64") | constants("crates/c_relay/src/event.rt", "u32")
    values |= constants("crates/c_library/src/codes.rt", "u32")
    version = int(re.search(r"fn wlim_version\(\) -> u32\s+ensures { result ≡ (\d+) }", read("crates/c_library/src/readers.rt")).group(1))
    sides = [
        ("functions", ours, theirs),
        ("constants", values, enumerators(header)),
        # A struct in a struct lies as its fields do, since none of these is narrower than those behind it.
        ("struct wlim_event", fields("crates/c_relay/src/event.rt", "Event") + fields("crates/c_library/src/events.rt", "Given"),
         fields_in_c(header, "wlim_event")),
        ("struct wlim_shown", fields("crates/c_library/src/readers.rt", "Shown"), fields_in_c(header, "wlim_shown")),
        ("struct wlim_batch", fields("crates/c_library/src/batches.rt", "Batch"), fields_in_c(header, "wlim_batch")),
        *[(f"struct {STRUCTS[name]}", fields(f"crates/c_library/src/{file}.rt", name), fields_in_c(header, STRUCTS[name]))
          for file, name in [("broker_peers", "Taken"), ("broker_told", "Told"), ("broker_looks", "Used")]],
        ("version", version, int(re.search(r"#define WLIM_VERSION (\d+)", header).group(1))),
    ]
    if len(sys.argv) > 1:
        sides.append((f"names of {sys.argv[1]}", set(ours), given_away(sys.argv[1])))
    wrong = [(what, mine, its) for what, mine, its in sides if mine != its or (mine != 0 and not mine)]
    for what, mine, its in wrong:
        print(f"{what}: the crate has {mine}, the header or the library {its}")
    print(f"header: {len(ours)} functions, {len(values)} constants, {len(sides) - len(wrong)} of {len(sides)} the same")
    return bool(wrong)


sys.exit(main())
