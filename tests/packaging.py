#!/usr/bin/env python3
"""Tests what installs, without a network: packaging.py. After `make libwlim`; the rest as far as it is built.

A line for each test, the last is `N passed, M failed`. A test whose tools aren't there is left out, and said.
"""
import os
import re
import shutil
import subprocess
import sys
import tempfile

ROOT = os.path.abspath(os.path.join(os.path.dirname(os.path.abspath(__file__)), ".."))
LIBRARY = "out/libwlim/lib/libwlim.a"
COMMANDS = "audit explain gen migrate replay replay-acts replay-seats serve trial trial-threads".split()


def run(*words, status=0, **variables):
    """What a command writes; it ends with the status."""
    ended = subprocess.run(words, cwd=ROOT, env=dict(os.environ, **variables), stdout=subprocess.PIPE,
                           stderr=subprocess.STDOUT, text=True, check=False)
    if ended.returncode != status:
        raise AssertionError(f"{words} ended with {ended.returncode}: {ended.stdout}")
    return ended.stdout


def files(folder):
    return {os.path.relpath(os.path.join(at, name), folder) for at, _, names in os.walk(folder) for name in names}


def installed(work):
    """What make install puts down is whole, stands where PREFIX says, and make uninstall takes all of it away."""
    to, other = f"{work}/to", f"{work}/to/opt/wlim/share/doc/wlim/a_file_of_others"
    where = {"DESTDIR": to, "PREFIX": "/opt/wlim", "LIBDIR": "lib/here"}
    run("packaging/install.sh", "install", **where)
    there = files(to)
    for name in ["lib/here/libwlim.so.0", "lib/here/libwlim.so", "lib/here/libwlim.a", "include/wlim.h"]:
        assert f"opt/wlim/{name}" in there, name
    assert all(name.startswith("opt/wlim/") for name in there), there
    assert os.readlink(f"{to}/opt/wlim/lib/here/libwlim.so") == "libwlim.so.0"
    with open(f"{to}/opt/wlim/lib/here/pkgconfig/wlim.pc", encoding="utf-8") as file:
        text = file.read()
    assert "prefix=/opt/wlim\n" in text and "libdir=${prefix}/lib/here\n" in text, text
    os.makedirs(os.path.dirname(other), exist_ok=True)
    with open(other, "w", encoding="utf-8") as file:
        file.write("kept")
    run("packaging/install.sh", "uninstall", **where)
    assert files(to) == {os.path.relpath(other, to)}, files(to)


def compiled(work):
    """The example of libwlim(3), by pkg-config of what was installed, shared and static."""
    to = f"{work}/prefix"
    run("packaging/install.sh", "install", PREFIX=to, DESTDIR="")
    flags = run("pkg-config", "--cflags", "--libs", "wlim", PKG_CONFIG_PATH=f"{to}/lib/pkgconfig").split()
    run("cc", "-Wall", "-Wextra", "-Werror", f"{ROOT}/examples/libwlim/relay.c", *flags, "-o", f"{work}/relay")
    run("cc", f"{ROOT}/examples/libwlim/relay.c", "-static", *flags, "-o", f"{work}/fixed")
    told = "object 7 is told the string hello\n"
    assert run(f"{work}/relay", LD_LIBRARY_PATH=f"{to}/lib") == told
    assert run(f"{work}/fixed") == told
    assert "wlim_open@WLIM_0.1.0" in run("nm", "-D", f"{work}/relay")


CHANGES = {
    "a function more": ("bool wlim_look(", "bool wlim_more(struct wlim *seat);\n\nbool wlim_look("),
    "a function less": ("uint64_t wlim_number(struct wlim *seat, uint32_t label);", ""),
    "another type": ("int64_t wlim_peer(struct wlim *seat);", "int32_t wlim_peer(struct wlim *seat);"),
    "another number": ("WLIM_SHORT = -6,", "WLIM_SHORT = -16,"),
    "a member more": ("\tuint32_t serving;", "\tuint32_t added;\n\tuint32_t serving;"),
    "members in another order": ("\tbool live;\n\tvoid *place;", "\tvoid *place;\n\tbool live;"),
}


def changed(work):
    """A header that promises otherwise is refused; one that says the same otherwise isn't."""
    with open(f"{ROOT}/include/wlim.h", encoding="utf-8") as file:
        header = file.read()
    for name, (old, new) in {**CHANGES, "the same": ("/* A client joins. */", "/* A client\n * comes. */")}.items():
        assert old in header, name
        with open(f"{work}/wlim.h", "w", encoding="utf-8") as file:
            file.write(header.replace(old, new, 1))
        run("tools/abi.py", "--header", f"{work}/wlim.h", status=int(name in CHANGES))


def other_library(work):
    """A library with a function too many, too few, or another soname is refused."""
    for name, script, soname in [("more", "WLIM_0.1.0 { global: *; };", "libwlim.so.0"),
                                 ("unversioned", None, "libwlim.so.0"), ("renamed", "", "libwlim.so.1")]:
        flags = [f"-Wl,-soname,{soname}"]
        if script is not None:
            with open(f"{work}/map", "w", encoding="utf-8") as file:
                file.write(script or run("tools/abi.py", "--map"))
            flags.append(f"-Wl,--version-script={work}/map")
        with open(f"{work}/added.c", "w", encoding="utf-8") as file:
            file.write("int wlim_added(void) { return 1; }\n")
        run("cc", "-shared", "-fPIC", f"{work}/added.c", "-Wl,--whole-archive", f"{ROOT}/out/libwlim/lib/libwlim.a",
            "-Wl,--no-whole-archive", *flags, "-o", f"{work}/{name}.so")
        run("tools/abi.py", f"{work}/{name}.so", status=1)


def bash(_):
    line = ("source packaging/completions/wlim.bash; COMP_WORDS=({}); COMP_CWORD={}; _wlim; "
            'printf "%s\\n" "${{COMPREPLY[@]}}"')

    def completed(words, at):
        return run("bash", "-c", line.format(words, at)).split()
    assert completed("wlim ''", 1) == COMMANDS
    assert completed("wlim repl", 1) == ["replay", "replay-acts", "replay-seats"]
    assert completed("wlim serve --", 2) == "--app --method --shell --order --entries --store --weight".split()
    assert completed("wlim gen 7 ''", 3) == ["text"]
    assert "--bad-only" in completed("wlim explain ''", 2)


def fish(_):
    def completed(line):
        return [one.split("\t")[0] for one in run(
            "fish", "-c", f"source packaging/completions/wlim.fish; complete -C '{line}'").splitlines()]
    assert completed("wlim ") == COMMANDS
    assert completed("wlim trial") == ["trial", "trial-threads"]
    assert "--bad-only" in completed("wlim explain ")
    assert {"--app", "--order", "--weight"} <= set(completed("wlim serve --"))


TERMINAL = r"""
zmodload zsh/zpty
zpty z zsh -f -i
zpty -w z "fpath=($PWD/packaging/completions \$fpath); autoload -U compinit; compinit -u -D; print be''gun"
zpty -r -m z got '*begun*' || exit 1
for line wanted in 'wlim ' trial-threads 'wlim serve --' weight 'wlim gen 7 t' text 'wlim explain --b' bad-only; do
    zpty -w -n z $'\x15'"$line"$'\t'
    zpty -r -m z got "*$wanted*" || exit 1
    print -r -- "$got"
done
zpty -d z
"""


def zsh(_):
    """At a terminal, where alone zsh completes."""
    for name in ("_wlim", "_wlim-gateway"):
        run("zsh", "-n", f"packaging/completions/{name}")
    told = re.sub(r"\x1b\[[0-9;?]*[A-Za-z]", " ", run("timeout", "30", "zsh", "-f", "-c", TERMINAL))
    assert all(re.search(rf"(?<![\w-]){command}\s+-- ", told) for command in COMMANDS), told


def manual(work):
    """Each page that another names is there, and each function of the library has one."""
    run("tools/manual.py", f"{work}/man")
    there = {name for _, _, names in os.walk(f"{work}/man") for name in names}
    with open(f"{ROOT}/packaging/libwlim.abi", encoding="utf-8") as file:
        functions = re.findall(r" (wlim_\w+)\(", file.read())
    assert len(functions) > 50
    assert not [name for name in functions if f"{name}.3" not in there]
    for name in there:
        with open(f"{work}/man/man{name[-1]}/{name}", encoding="utf-8") as file:
            for other, section in re.findall(r"\b((?:lib)?wlim[\w-]*)\((\d)\)", file.read()):
                assert f"{other}.{section}" in there, f"{name}: {other}({section})"


def main():
    tests = [("install and uninstall", installed, [LIBRARY]),
             ("the example compiles", compiled, [LIBRARY, "cc", "pkg-config"]),
             ("a changed header is refused", changed, []),
             ("another library is refused", other_library, [LIBRARY, "cc"]),
             ("bash completes", bash, ["bash"]), ("fish completes", fish, ["fish"]), ("zsh completes", zsh, ["zsh"]),
             ("the manual is whole", manual, ["pandoc"])]
    passed = failed = 0
    for name, test, needs in tests:
        if [need for need in needs if not os.path.exists(f"{ROOT}/{need}") and not shutil.which(need)]:
            print(f"left out: {name} (needs {' '.join(needs)})")
            continue
        with tempfile.TemporaryDirectory() as work:
            try:
                test(work)
                passed += 1
                print(f"ok: {name}")
            except AssertionError as wrong:
                failed += 1
                print(f"FAILED: {name}: {wrong}")
    print(f"{passed} passed, {failed} failed")
    return int(bool(failed))


if __name__ == "__main__":
    sys.exit(main())
