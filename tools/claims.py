#!/usr/bin/env python3
"""Checks the documents against the sources: claims.py [--program PATH]

1. Tables `claim | call | clause` of README.md, docs/ and crates/NAME/README.md: each call is a function of the crate
   whose README it is, else of those that the row names, else of any; of its type, where the row says `Type::call` or
   did before. Each clause is the name of an `ensures` of one of the row's calls, or of a ghost member or a definition
   of these crates or of those below them, where none of theirs has a clause of that name (a crate's own README may
   name a field of its own records all the same). `ensures` and `definitions` name no clause.
2. Links resolve. Words in back quotes that are a path or a file's name are there; those that are a name with `_`, a
   path with `::` or a word `InThisForm` stand somewhere in the sources.
3. docs/AUDIT.md tells how many must-fail edits there are, and how many exports; docs/EMBEDDING.md how many crates the
   library is of. All documents together, and those of docs/ with README.md and CONTRIBUTING.md, have
   at most so many words; none has a mark of an unfinished merge.
4. Each crate of crates.txt stands in the row of its layer of docs/ARCHITECTURE.md, in this order, and on none that
   comes later.
5. What tools/protocol.py says of the protocols' messages.
6. With a program: each line `$ COMMAND` in a block of README.md, docs/TOUR.md, docs/FORMATS.md and docs/AUDITING.md
   ends well, and writes what stands below it, if anything does. Without one it says how many were not run.

Prints what fails, and how many were looked at; ends with 1 if any failed.
"""
import glob
import os
import re
import subprocess
import sys
import tempfile

import protocol

ROOT = os.path.abspath(os.path.join(os.path.dirname(os.path.abspath(__file__)), ".."))
FUNCTION = re.compile(r"\bfn\s+(\w+)")
OWNER = re.compile(r"^(?:pub\s+)?(?:impl\b(?:<.*?>)?\s+(?:.*\bfor\s+)?|trait\s+)(?:\w+::)*(\w+)"
                   r"|^ +for ([A-Z]\w*)(?:<.*>)? \{$")
ENSURES = re.compile(r"\bensures\s*\*?\s*(\w+)\s*\{")
GHOST = re.compile(r"\b(?:ghost|struct|enum|trait)\s+(\w+)\s*[:={<(]")
DEFINED = re.compile(r"^\s*(?:(?:abbrev|unfoldable|record|data)\s+)*pub\s+(?:record\s+)?(\w+)", re.M)
WORDS_OF_NO_CLAUSE = {"ensures", "requires", "result"}
MOST_WORDS = 56_400
MOST_WORDS_OF_GUIDES = 26_000  # of docs/, README.md and CONTRIBUTING.md
RUN = ["README.md", "docs/TOUR.md", "docs/FORMATS.md", "docs/AUDITING.md"]
FILE = re.compile(r"[\w./-]+\.(?:rt|antt|py|sh|c|h|md|txt|session|acts|transcript|trial|shown|edit)")
NAME = re.compile(r"[a-z]\w*_\w+|(?:[A-Z][a-z0-9]+){2,}|\w+(?:::\w+)+")


def sources(pattern):
    return glob.glob(f"{ROOT}/{pattern}", recursive=True)


def read(path):
    with open(path, encoding="utf-8") as file:
        return file.read()


def clauses_of(folder):
    """For each function of a crate's sources, as `name` and as `Type::name`, the names of its clauses."""
    found = {}
    for path in glob.glob(f"{folder}/src/**/*.rt", recursive=True):
        owner, names_of_it = None, []
        for line in read(path).splitlines():
            begins = OWNER.match(line)
            owner = begins.group(1) or begins.group(2) if begins else None if line.startswith("}") else owner
            function = FUNCTION.search(line.split("//")[0])
            if function:
                name = function.group(1)
                names_of_it = [name, f"{owner}::{name}"] if owner else [name]
            for name in names_of_it:
                found.setdefault(name, set()).update(ENSURES.findall(line))
    return found


def words_of(folder):
    """What a crate's specifications define, fields of records with them, its ghost members and its types."""
    found = set()
    for path in glob.glob(f"{folder}/specs/**/*.antt", recursive=True):
        found.update(DEFINED.findall(read(path)))
    for path in glob.glob(f"{folder}/src/**/*.rt", recursive=True):
        found.update(GHOST.findall(read(path)))
    return found


def code_words(cell):
    """What stands in back quotes in a cell, without the words in brackets after it."""
    return re.findall(r"`([^`]+)`", re.sub(r"\([^()]*\)", "", cell))


def called(word):
    """The functions that a word names: `Store::{put, take}` names two, each with its type."""
    *path, last = word.split("::")
    owner = f"{path[-1]}::" if path and path[-1][:1].isupper() else ""
    return [owner + name.strip() for name in last.strip("{}").split(",")]


def typed(calls, functions):
    """Calls of which one without a type has that of the call before it, if that type has such a function."""
    found, owner = [], ""
    for name in calls:
        owner = name.split("::")[0] if "::" in name else owner
        found.append(f"{owner}::{name}" if f"{owner}::{name}" in functions else name)
    return found


def below():
    """For each crate of crates.txt, itself and all those on which it stands."""
    found = {}
    for line in read(f"{ROOT}/crates.txt").splitlines():
        names_of_it, _, stands_on = line.partition(":")
        if stands_on or names_of_it.strip():
            name = names_of_it.split(" ")[0]
            found[name] = {name}.union(*[found.get(other, set()) for other in stands_on.split()])
    return found


def stood_on(crate):
    """The crate and all those on which it stands, in whichever order crates.txt has them."""
    lines = (line.partition(":") for line in read(f"{ROOT}/crates.txt").splitlines() if line[:1] not in ("", "#"))
    deps = {names_of_it.split(" ")[0]: others.split() for names_of_it, _, others in lines}
    found, left = set(), [crate]
    while left:
        name = left.pop()
        if name in deps and name not in found:
            found.add(name)
            left += deps[name]
    return found


def rows_of(path):
    """The rows of each table of claims."""
    inside = False
    for number, line in enumerate(read(path).splitlines(), 1):
        cells = [cell.strip() for cell in line.strip().strip("|").split("|")]
        if line.startswith("|") and len(cells) == 3:
            if cells[1:] in (["call", "clause"], ["public call", "clause"]):
                inside = True
            elif inside and not set(cells[0]) <= set("-: "):
                yield number, cells
        else:
            inside = False


def merged(crates):
    """The clauses of the functions of several crates."""
    found = {}
    for functions, _ in crates:
        for name, clauses in functions.items():
            found.setdefault(name, set()).update(clauses)
    return found


def claims(documents):
    """A problem, or none, for each row of a table of claims."""
    crates = {os.path.basename(folder): (clauses_of(folder), words_of(folder))
              for folder in sources("crates/*") if os.path.isdir(folder)}
    stands_on = below()
    for path in documents:
        own = os.path.basename(os.path.dirname(path))
        for number, (_, call, clause) in rows_of(path):
            named = {word.split("/")[0] for word in re.findall(r"`([^`]+)`", call)} & set(crates)
            where = {own} if own in crates else named or set(crates)
            functions = merged(crates[name] for name in where)
            own_words = set().union(*[crates[name][1] for name in where])
            lower = set().union(*[crates[name][1] for crate in where for name in stands_on.get(crate, set())
                                  if name in crates])
            others = set().union(*functions.values())
            words = own_words | lower - others if own in crates else (own_words | lower) - others
            calls = typed([name for word in code_words(call) for name in called(word) if "/" not in word], functions)
            known = [name for name in calls if name in functions]
            problems = [f"no call `{name}`" for name in calls
                        if name not in functions and name not in words and name.split("::")[-1][:1].islower()]
            clauses = set().union(*[functions[name] for name in known or functions])
            for word in code_words(clause):
                if re.fullmatch(r"\w+", word) and word not in WORDS_OF_NO_CLAUSE \
                        and word not in clauses and word not in words:
                    problems.append(f"no clause `{word}`")
            yield f"{path}:{number}: {'; '.join(problems)}" if problems else None


def names(documents):
    """A problem, or none, for each link and each word in back quotes that names something of the repository."""
    files = {os.path.relpath(path, ROOT) for path in sources("**/*")}
    bases = {os.path.basename(path) for path in files}
    vocabulary = set(bases)
    for path in files:
        if re.search(r"\.(rt|antt|py|sh|c|h|toml|txt)$", path) or os.path.basename(path) == "Makefile":
            vocabulary.update(re.findall(r"\w+", read(f"{ROOT}/{path}")))
        vocabulary.update(re.findall(r"\w+", path))
    for path in documents:
        text = re.sub(r"^```.*?^```$", "", read(path), flags=re.M | re.S)
        folder = os.path.dirname(path)
        for target in re.findall(r"\]\(([^)#]+)[^)]*\)", text):
            there = "://" in target or os.path.exists(os.path.join(folder, target))
            yield None if there else f"{path}: no {target}"
        for word in set(re.findall(r"`([^`\n]+)`", text)):
            if FILE.fullmatch(word) and not re.search("NAME|PATH", word):
                there = any(file == word or file.endswith("/" + word) for file in files)
                yield None if there else f"{path}: no file {word}"
            elif NAME.fullmatch(word):
                gone = [part for part in word.split("::") if part not in vocabulary]
                yield f"{path}: no {word}" if gone else None


def blocks(path):
    """Each command of the blocks of a document, with what stands below it."""
    for block in re.findall(r"^```\n(.*?)^```$", read(path), flags=re.M | re.S):
        for part in re.split(r"^\$ ", block.replace("\\\n    ", ""), flags=re.M)[1:]:
            command, _, below = part.partition("\n")
            yield command, below


def runs(program):
    """A problem, or none, for each command of a block."""
    with tempfile.TemporaryDirectory() as folder:
        os.symlink(os.path.abspath(program), f"{folder}/wlim")
        environment = dict(os.environ, PATH=f"{folder}:{os.environ['PATH']}")
        for document in RUN:
            for command, below in blocks(f"{ROOT}/{document}"):
                run = subprocess.run(command.replace("crates/wlim/out/wlim", f"{folder}/wlim"), shell=True, cwd=ROOT,
                                     env=environment, stdout=subprocess.PIPE, text=True, timeout=60, check=False)
                good = run.returncode == 0 and below in ("", run.stdout)
                yield None if good else f"{document}: `{command}` ended with {run.returncode} and wrote {run.stdout!r}"


def counts(documents):
    """A problem, or none, for what docs/AUDIT.md and docs/EMBEDDING.md count, the number of words, and each merge."""
    edits = sources("crates/*/must-fail/*.edit")
    counted = (len({os.path.dirname(edit) for edit in edits}), len(edits))
    told = re.search(r"of (\d+) crates have (\d+)\s+such\s+changes", read(f"{ROOT}/docs/AUDIT.md"))
    good = told and tuple(map(int, told.groups())) == counted
    yield None if good else f"docs/AUDIT.md: {counted[1]} edits of {counted[0]} crates are there"
    exports = sum(read(path).count("#[unsafe(no_mangle)]") for path in sources("crates/*/src/*.rt"))
    told = re.search(r"its (\d+) exports", read(f"{ROOT}/docs/AUDIT.md"))
    yield None if told and int(told[1]) == exports else f"docs/AUDIT.md: {exports} exports are there"
    proved = len(stood_on("c_library"))
    told = re.search(r"make libwlim +# proves (\d+) crates", read(f"{ROOT}/docs/EMBEDDING.md"))
    yield None if told and int(told[1]) == proved else f"docs/EMBEDDING.md: c_library is proved with {proved} crates"
    guides = {f"{ROOT}/README.md", f"{ROOT}/CONTRIBUTING.md", *sources("docs/*.md")}
    words = {path: len(re.findall(r"\S*\w\S*", read(path))) for path in documents}
    total, guiding = sum(words.values()), sum(words[path] for path in guides)
    yield None if total <= MOST_WORDS else f"{total} words in all documents"
    yield None if guiding <= MOST_WORDS_OF_GUIDES else f"{guiding} words in docs/, README.md and CONTRIBUTING.md"
    for path in documents:
        marked = re.search(r"<<<<<<< |>>>>>>> ", read(path))
        yield f"{path}: a merge isn't finished" if marked else None


def layers():
    """A problem, or none, for each crate of crates.txt: its layer's row of docs/ARCHITECTURE.md has it, in this order, and it stands on none below it."""
    layer, listed, seen = None, {}, set()
    for line in read(f"{ROOT}/crates.txt").splitlines():
        if re.match("# [a-z ]+:", line):
            layer = line[2:].split(":")[0]
        elif ":" in line and not line.startswith("#"):
            left, _, right = line.partition(":")
            listed.setdefault(layer, []).append(left.split()[0])
            seen.add(left.split()[0])
    told = {}
    for line in read(f"{ROOT}/docs/ARCHITECTURE.md").splitlines():
        cells = [cell.strip() for cell in line.strip("|").split("|")]
        if line.startswith("|") and len(cells) == 3:
            told[cells[0]] = re.findall(r"`(\w+)`", cells[1])
    for layer, crates in listed.items():
        yield None if told.get(layer) == crates else f"docs/ARCHITECTURE.md: of the layer {layer} are {' '.join(crates)}"
    before = set()
    for line in read(f"{ROOT}/crates.txt").splitlines():
        if ":" in line and not line.startswith("#"):
            left, _, right = line.partition(":")
            for other in right.split():
                yield f"crates.txt: {left.split()[0]} stands on {other}, which comes later" \
                    if other in seen and other not in before else None
            before.add(left.split()[0])


def main():
    folders = ["*.md", "docs/*.md", "crates/*/README.md", "examples/**/*.md", "gateway/*.md", "modules/**/*.md",
               "conformance/*.md"]
    documents = sorted(path for pattern in folders for path in sources(pattern))
    found = list(claims(documents)) + list(names(documents)) + list(counts(documents)) + list(layers())
    messages, unpublished = protocol.problems_of()
    found += messages
    if unpublished:
        print(f"no XML file is there of {', '.join(unpublished)}")
    if sys.argv[1:2] == ["--program"]:
        found += list(runs(sys.argv[2]))
    else:
        unrun = [f"{path}: {len(list(blocks(f'{ROOT}/{path}')))}" for path in RUN]
        print(f"commands that no program was given for: {', '.join(unrun)}")
    problems = [problem for problem in found if problem]
    for problem in problems:
        print(problem.replace(f"{ROOT}/", ""))
    print(f"{len(found)} claims, names and commands, {len(problems)} that don't stand")
    return 1 if problems else 0


if __name__ == "__main__":
    sys.exit(main())
