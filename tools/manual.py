#!/usr/bin/env python3
"""Makes the manual: manual.py FOLDER

FOLDER/manN/NAME.N, by pandoc, of man/NAME.N.md and, for libwlim(3), of the comments in include/wlim.h. A line of a
source may stand for more: `@include FILE HEADING` for that section of a document, `@but FILE HEADING; ..` for all its
sections but those, `@usage FILE` for the options of a program's help, `@code FILE` for a file. Each section of
docs/FORMATS.md has to stand in a page.
"""
import glob
import os
import re
import subprocess
import sys

import manual_c

ROOT = os.path.abspath(os.path.join(os.path.dirname(os.path.abspath(__file__)), ".."))
FORMATS = "docs/FORMATS.md"
READER = "markdown-smart-tex_math_dollars-subscript-superscript"


def read(path):
    with open(os.path.join(ROOT, path), encoding="utf-8") as file:
        return file.read()


def released():
    """The version and its date, as the first heading of CHANGELOG.md has them."""
    found = re.search(r"^## (\d+\.\d+\.\d+), (\d{4}-\d{2}-\d{2})$", read("CHANGELOG.md"), flags=re.M)
    if not found:
        raise SystemExit("CHANGELOG.md has no line `## VERSION, DATE`")
    return found.groups()


def plain(heading):
    return heading.replace("`", "").strip().lower()


def sections(path):
    """The sections of a document, by their headings."""
    parts = re.split(r"^## (.*)\n", read(path), flags=re.M)[1:]
    return {plain(heading): (heading, body.strip()) for heading, body in zip(parts[::2], parts[1::2])}


def options(path):
    """The options of a program's help, each with what it says."""
    found = []
    for line in read(path).splitlines():
        option = re.match(r"  (--\S.*?)  +(.*)", line)
        more = re.match(r" {12,}(\S.*)", line)
        if option:
            words = option[1].split(" ")
            found.append(" ".join([f"**{words[0]}**".replace("--", r"\-\-"), *[f"*{word}*" for word in words[1:]]])
                         + f"\n:   {option[2]}")
        elif more and found:
            found[-1] += f"\n    {more[1]}"
    return "\n\n".join(found)


class Manual:
    """The pages, as pandoc reads them, and which sections of FORMATS stand in one."""

    def __init__(self):
        self.told = set()
        self.pages = {os.path.basename(path)[:-3]: self.page(os.path.relpath(path, ROOT))
                      for path in sorted(glob.glob(f"{ROOT}/man/*.md"))}
        for name, text in manual_c.pages(read("include/wlim.h")).items():
            self.pages[name] = self.filled(text, "include/wlim.h", "")
        left = [heading for key, (heading, _) in sections(FORMATS).items() if key not in self.told]
        if left:
            raise SystemExit(f"{FORMATS}: in no page of the manual: {', '.join(left)}")

    def page(self, path):
        """A source whose lines that begin with @ are filled in."""
        return self.filled(read(path), path, os.path.basename(path).split(".")[0])

    def filled(self, text, path, name):
        lines, heading = [], ""
        for line in text.splitlines():
            heading = line[2:] if line.startswith("# ") else heading
            lines.append(self.directive(line, path, heading) if line.startswith("@") else line)
        return "\n".join(lines) + "\n"

    def directive(self, line, path, below):
        word, file, *heading = line.split(" ", 2)
        if word == "@usage":
            return options(file)
        if word == "@code":
            return f"```\n{read(file)}```"
        if word == "@but":
            left_out = [plain(one) for one in heading[0].split("; ")]
            return "\n\n".join(self.included(file, one, path, below) for one in sections(file) if one not in left_out)
        return self.included(file, heading[0], path, below)

    def included(self, file, heading, path, below):
        """A section of a document, below a heading of its own where the page has others."""
        title, body = self.section(file, heading, path)
        if below == "EXIT STATUS" or re.fullmatch(r"`[\w-]+`|What `[\w-]+` (?:reads|writes).*", title) and "-" in path:
            head = ""
        else:
            head = f"## {title}\n\n" if path == "man/wlim.5.md" else f"# {title.replace('`', '').upper()}\n\n"
        return head + re.sub(r"^(#+ )", r"#\1", body, flags=re.M)

    def section(self, file, heading, path):
        there = sections(file)
        if plain(heading) not in there:
            raise SystemExit(f"{path}: {file} has no section {heading}")
        if file == FORMATS:
            self.told.add(plain(heading))
        title, body = there[plain(heading)]
        # A link of the document, as it is from the folder of the manual.
        return title, re.sub(r"\]\(([\w./-]+\.\w+)", lambda it: "](" + os.path.relpath(
            os.path.join(os.path.dirname(file), it[1]), "man"), body)


def troff(name, text):
    """A page as troff has it."""
    base, number = name.rsplit(".", 1)
    version, date = released()
    head = [f"--variable=title:{base.upper()}", f"--variable=section:{number}", f"--variable=date:{date}",
            f"--variable=footer:wlim {version}", "--variable=header:wlim"]
    made = subprocess.run(["pandoc", "-s", "-f", READER, "-t", "man", f"--lua-filter={ROOT}/man/man.lua", *head],
                          input=text, capture_output=True, text=True, check=True).stdout
    body = made[made.index(".TH "):].replace(".hy\n", "")
    body = re.sub(r"^\\f\[C\]\n", "", body, flags=re.M).replace("\n\\f[R]\n.fi", "\n.fi")
    return re.sub(r"^(\.S[HS] .*\n)\.PP\n", r"\1", body, flags=re.M)


def names_of(text):
    """All names that a page has: `man` finds it by each."""
    line = re.search(r"^# NAME\n\n(.*?) - ", text, flags=re.S | re.M)
    if not line:
        raise SystemExit(f"a page has no NAME: {text[:60]!r}")
    return [name.strip() for name in line[1].replace("\n", " ").replace("\\", "").split(",")]


def main():
    to = sys.argv[1]
    for name, text in Manual().pages.items():
        number = name.rsplit(".", 1)[1]
        os.makedirs(f"{to}/man{number}", exist_ok=True)
        with open(f"{to}/man{number}/{name}", "w", encoding="utf-8") as file:
            file.write(troff(name, text))
        for other in names_of(text):
            if f"{other}.{number}" != name:
                with open(f"{to}/man{number}/{other}.{number}", "w", encoding="utf-8") as file:
                    file.write(f".so man{number}/{name}\n")


if __name__ == "__main__":
    main()
