#!/usr/bin/env python3
"""Checks what is made to be installed, as far as the tools for it are there, and says what it left out.

1. Each command of docs/FORMATS.md has a page of the manual, stands in wlim(1), and in what each shell completes; each
   of its options too.
2. The library's promises are those of packaging/libwlim.abi (tools/abi.py), those of out/libwlim too where it is built.
3. `mandoc -Tlint` finds nothing in a page of the manual, and `man` no fault; each link of the site leads somewhere.
4. lintian finds no error and no warning in the packages of out/deb.

Ends with 1 if anything is wrong.
"""
import glob
import os
import re
import shutil
import subprocess
import sys
import tempfile

from manual import ROOT, read

LIBRARY = "out/libwlim/lib/libwlim.so"


def lacks(*tools):
    """Which of the tools isn't there."""
    return [tool for tool in tools if not shutil.which(tool)]


def said(*words):
    """What a command says of what is wrong."""
    ended = subprocess.run(words, cwd=ROOT, stdout=subprocess.PIPE, stderr=subprocess.STDOUT, text=True, check=False)
    return ended.returncode, ended.stdout.splitlines()


def commands():
    """Each command, with the options that docs/FORMATS.md names beside it."""
    found = {}
    for cell in re.findall(r"^\| (`wlim .*?) \|", read("docs/FORMATS.md"), flags=re.M):
        for command, after in re.findall(r"`wlim ([a-z-]+)([^`]*)`", cell):
            found.setdefault(command, set()).update(re.findall(r"--([a-z-]+)", after))
    return found


def words():
    """Where a command or an option is missing."""
    completions = [path for path in sorted(glob.glob("packaging/completions/*", root_dir=ROOT)) if "gateway" not in path]
    for command, options in commands().items():
        page = f"man/wlim-{command}.1.md"
        if not os.path.exists(f"{ROOT}/{page}"):
            yield f"no {page}"
            continue
        wanted = [(path, f"(?<![a-z-]){command}") for path in ["man/wlim.1.md", *completions]]
        wanted += [(path, f"(?:--|-l ){option}") for path in [page, *completions] for option in sorted(options)]
        for path, word in wanted:
            if not re.search(rf"{word}(?![a-z-])", read(path).replace("\\", "")):
                yield f"{path}: without {word.rpartition(')')[2]}"


def promises():
    built = os.path.exists(f"{ROOT}/{LIBRARY}") and not lacks("nm", "objdump")
    status, lines = said(sys.executable, "tools/abi.py", *([LIBRARY] if built else []))
    return lines if status else []


def pages(folder):
    """What is wrong with a page of the manual."""
    status, lines = said(sys.executable, "tools/manual.py", folder)
    if status:
        return lines or ["the manual isn't made"]
    found = sorted(glob.glob(f"{folder}/man*/*"))
    whole = [path for path in found if not read(path).startswith(".so ")]
    wrong = said("mandoc", "-Tlint", *whole)[1]
    for path in whole:
        if shutil.which("man"):
            wrong += subprocess.run(["man", "--warnings", "-l", path], stdout=subprocess.DEVNULL,
                                    stderr=subprocess.PIPE, text=True, check=False).stderr.splitlines()
    return wrong


def site(folder):
    status, lines = said(sys.executable, "tools/site.py", folder)
    return lines if status else []


def packages():
    """Running as root is no fault of a package."""
    return [line for line in said("lintian", "--fail-on", "none", *sorted(glob.glob("out/deb/*.deb", root_dir=ROOT)))[1]
            if re.match("[EW]: ", line)]


def main():
    with tempfile.TemporaryDirectory() as folder:
        checks = [
            ("commands", [], words),
            ("the library's promises", [], promises),
            ("pages of the manual", lacks("pandoc", "mandoc"), lambda: pages(f"{folder}/man")),
            ("links of the site", lacks("pandoc"), lambda: site(f"{folder}/site")),
            ("packages", lacks("lintian") + ([] if glob.glob(f"{ROOT}/out/deb/*.deb") else ["make deb"]), packages),
        ]
        if not os.path.exists(f"{ROOT}/{LIBRARY}") or lacks("nm", "objdump"):
            checks.append(("the built library's symbols", ["make libwlim, nm, objdump"], None))
        wrong, left = [], []
        for name, without, check in checks:
            if without:
                left.append(f"{name} (without {', '.join(without)})")
            else:
                wrong += check()
    for one in wrong:
        print(one)
    if left:
        print(f"not looked at: {'; '.join(left)}")
    print(f"{len(checks) - len(left)} checks of what is installed, {len(wrong)} faults")
    return int(bool(wrong))


if __name__ == "__main__":
    sys.exit(main())
