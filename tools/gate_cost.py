#!/usr/bin/env python3
"""What the gate costs, in minutes of processor time, as Markdown.

  tools/gate_cost.py [CRATE ..]             runs `rt ci --anew` and prints what the whole costs, then for each crate
                                            what its proof, its tests and its must-fail edits cost, from nothing, then
                                            the dearest functions (each with its share of the first check of its
                                            crate's edits), and the edits over half a minute
  tools/gate_cost.py --kept [CRATE ..]      the same of what no earlier run on this machine kept, for a gate in parts
  tools/gate_cost.py --beside PID [FOLDER]  the same of a gate that runs already as that process, in that checkout
  tools/gate_cost.py --counts               crates, functions and edits alone
  tools/gate_cost.py --functions CRATE ..   proves each crate anew, function by function, and prints the dearest ten

It looks at the prover's processes while the gate runs, so a process that lives for less than a fifth of a second is
missed; after a run of its own the last line has the exact sum of all that ran. Run it on an idle machine.
"""
import glob
import os
import re
import resource
import subprocess
import sys
import time

TICKS = os.sysconf("SC_CLK_TCK")
KIT = "/opt/rattle"
INTERVAL = 0.2


def processes():
    """The live prover processes: (pid, start) with arguments and working folder."""
    for name in os.listdir("/proc"):
        if not name.isdigit():
            continue
        try:
            with open(f"/proc/{name}/stat") as file:
                fields = file.read().rpartition(")")[2].split()
            with open(f"/proc/{name}/cmdline") as file:
                words = file.read().split("\0")
            if not words or os.path.basename(words[0]) != "rattle":
                continue
            folder = os.readlink(f"/proc/{name}/cwd")
        except (OSError, ValueError):
            continue
        seconds = (int(fields[11]) + int(fields[12])) / TICKS
        yield (int(name), fields[19]), int(fields[1]), words, folder, seconds


def descends(pid, root):
    """Whether the process stands below the root process."""
    while pid > 1:
        if pid == root:
            return True
        try:
            with open(f"/proc/{pid}/stat") as file:
                pid = int(file.read().rpartition(")")[2].split()[1])
        except (OSError, ValueError):
            return False
    return False


def kind_of(words, folder):
    if os.path.basename(folder).startswith("rt-edit"):
        return "edits"
    return "tests" if "--test" in words else "proof"


def edit_of(folder, crate):
    """Which edit of the crate was applied in the folder; none in that of the first check before its edits."""
    base = f"crates/{crate}/must-fail"
    for name in sorted(os.listdir(base)) if os.path.isdir(base) else []:
        try:
            with open(f"{base}/{name}") as file:
                words = re.findall(r"^(file|new): ?(.*)$", file.read(), re.M)
            path = next(value for word, value in words if word == "file")
            with open(f"crates/{crate}/{path}") as file, open(f"{folder}/{path}") as edited:
                before, after = file.read(), edited.read()
        except (OSError, StopIteration):
            continue
        if before != after and all(value in after for word, value in words if word == "new"):
            return name
    return ""


def watch(gate, is_over):
    """What each prover process below the gate's costs until it is over, by crate, kind and edit."""
    seen, names, functions_of, looked = {}, {}, {}, 0.0
    while not is_over():
        for key, parent, words, folder, seconds in processes():
            if "--crate-name" not in words:
                continue
            if key not in seen and not descends(parent, gate):
                continue
            crate = words[words.index("--crate-name") + 1]
            kind = kind_of(words, folder)
            if key not in names:
                names[key] = edit_of(folder, crate) if kind == "edits" else ""
            seen[key] = (crate, kind, folder, seconds, names[key])
        if time.monotonic() - looked > 10:
            look_at_seeds(gate, functions_of)
            looked = time.monotonic()
        time.sleep(INTERVAL)
    return list(seen.values()), functions_of


def look_at_seeds(gate, functions_of):
    """Notes for each crate when each module of its edits' first check was finished."""
    for seed in glob.glob(f"/tmp/rt-edits-{gate}-*/seed"):
        found = []
        try:
            for at, _, names in os.walk(seed):
                found += [(os.lstat(f"{at}/{it}").st_mtime, it) for it in names if it.endswith(".oantt")]
        except OSError:
            continue
        own = [it for it in sorted(found) if re.match(r"Rattle-\w+[-.]", it[1])]
        if own:
            crate = re.match(r"Rattle-(\w+)[-.]", own[-1][1]).group(1)
            if len(own) > len(functions_of.get(crate, [])):
                functions_of[crate] = own


# What the prover makes of one function: the modules behind its name.
PARTS = re.compile(r"\.(Code|Lts|Tie|Symbol|Goals|Proof|Proved|Answers|Arms|Mir)\b.*")


def dearest_functions(functions_of, number=20):
    """The functions that took most of the first checks, in seconds by the clock."""
    costs = {}
    for crate, modules in functions_of.items():
        for (before, _), (now, name) in zip(modules, modules[1:]):
            path = re.match(rf"Rattle-{crate}[-.](?:proofs\.)?(.*?)(\.decls)?\.oantt", name)
            if path:
                key = f"{crate}: {PARTS.sub('', path.group(1))}"
                costs[key] = costs.get(key, 0.0) + now - before
    top = sorted(costs.items(), key=lambda item: -item[1])[:number]
    return [f"{seconds:8.1f}  {name}" for name, seconds in top]


def dear_edits(seen):
    """The edits that cost more than half a minute."""
    dear = [(seconds, crate, name) for crate, _, _, seconds, name in seen if name and seconds > 30]
    return [f"{seconds:8.1f}  {crate}: {name}" for seconds, crate, name in sorted(dear, reverse=True)]


def counts():
    """How many crates, functions and edits there are, those of tests and benches apart."""
    functions = {"tests": 0, "others": 0}
    crates = sorted(edges())
    for crate in crates:
        kind = "tests" if is_of_tests(crate) else "others"
        for path in glob.glob(f"crates/{crate}/src/**/*.rt", recursive=True):
            with open(path) as file:
                functions[kind] += len(re.findall(r"^\s*(?:pub(?:\(\w+\))? )?(?:unsafe )?fn \w", file.read(), re.M))
    edits = glob.glob("crates/*/must-fail/*.edit")
    return [("crates", len(crates)), ("of them tests and benches", len([it for it in crates if is_of_tests(it)])),
            ("functions, tests and benches apart", functions["others"]),
            ("functions of tests and benches", functions["tests"]), ("must-fail edits", len(edits)),
            ("crates with edits", len({os.path.dirname(it) for it in edits}))]


def is_of_tests(crate):
    return crate.startswith("test_") or crate == "benches"


def summary(seen):
    """The whole, as a table: counts, and minutes by kind."""
    minutes = {"proofs": 0.0, "tests, and crates of tests and benches": 0.0, "first checks of crates with edits": 0.0,
               "edits": 0.0}
    for crate, kind, _, seconds, name in seen:
        if kind == "edits":
            row = "edits" if name else "first checks of crates with edits"
        else:
            row = "tests, and crates of tests and benches" if kind == "tests" or is_of_tests(crate) else "proofs"
        minutes[row] += seconds / 60
    lines = ["| the gate from nothing | |", "|---|---|"]
    lines += [f"| {name} | {number:,} |" for name, number in counts()]
    lines += [f"| minutes: {name} | {number:.0f} |" for name, number in minutes.items()]
    lines.append(f"| minutes: all | {sum(minutes.values()):.0f} |")
    return "\n".join(lines)


def table(seen):
    costs = {}
    edits = {}
    for crate, kind, _, seconds, name in seen:
        row = costs.setdefault(crate, {"proof": 0.0, "tests": 0.0, "edits": 0.0, "number": 0})
        row[kind] += seconds / 60
        if kind == "edits" and name and name not in edits.setdefault(crate, set()):
            edits[crate].add(name)
            row["number"] += 1
    lines = ["| crate | proof | tests | edits | edits tried | sum |", "|---|---|---|---|---|---|"]
    total = {"proof": 0.0, "tests": 0.0, "edits": 0.0, "number": 0}
    for crate, row in sorted(costs.items(), key=lambda item: -sum_of(item[1])):
        lines.append(line_of(crate, row))
        for key in total:
            total[key] += row[key]
    lines.append(line_of("all", total))
    return "\n".join(lines)


def sum_of(row):
    return row["proof"] + row["tests"] + row["edits"]


def line_of(name, row):
    minutes = " | ".join(f"{row[kind]:.1f}" for kind in ("proof", "tests", "edits"))
    return f"| `{name}` | {minutes} | {row['number']} | {sum_of(row):.1f} |"


def edges():
    """What each crate stands on, as crates.txt says."""
    stands_on = {}
    with open("crates.txt") as file:
        for line in file:
            line = line.split("#")[0].strip()
            if line:
                head, _, names = line.partition(":")
                stands_on[head.split()[0]] = names.split()
    return stands_on


def libraries(crate, stands_on):
    """The arguments that name the crate's libraries: those of the kit and those of the repository."""
    words = [f"--extern=std={KIT}/rlibs/std.rlib", "-L", f"dependency={KIT}/rlibs"]
    for name in stands_on[crate]:
        folder = f"crates/{name}/out/rlib" if name in stands_on else f"{KIT}/rlibs"
        words.append(f"--extern={name}={os.path.abspath(folder)}/{name}.rlib")
    for name in stands_on:
        folder = os.path.abspath(f"crates/{name}/out/rlib")
        if name != crate and os.path.isdir(folder):
            words += ["-L", f"dependency={folder}"]
    return words


def functions(crate, stands_on):
    """Proves the crate from nothing with one job, and prints its ten dearest functions."""
    folder = f"crates/{crate}"
    subprocess.run(["rt", "check"], cwd=folder, check=True, stdout=subprocess.DEVNULL)
    root = "src/main.rt" if os.path.exists(f"{folder}/src/main.rt") else "src/lib.rt"
    command = [f"{KIT}/bin/rattle", "check", "--crate-name", crate, root, *libraries(crate, stands_on),
               "--antt-project", f"{KIT}/rattle/logic/antt-project.json",
               "--logic-built", f"{KIT}/logic_built", "--links", f"{crate}=", "--jobs", "1", "--progress"]
    run = subprocess.Popen(command, cwd=folder, stdout=subprocess.PIPE, stderr=subprocess.STDOUT, text=True)
    before, costs = time.monotonic(), []
    for line in run.stdout:
        found = re.match(r"checked (.*), \d+ of \d+", line)
        now = time.monotonic()
        if found:
            costs.append((now - before, found.group(1)))
            before = now
    run.wait()
    print(f"{crate}: the dearest of {len(costs)}, in seconds; each has what was read before it")
    for seconds, name in sorted(costs, reverse=True)[:10]:
        print(f"{seconds:8.1f}  {name}")


def is_running(pid):
    try:
        with open(f"/proc/{pid}/stat") as file:
            return file.read().rpartition(")")[2].split()[0] != "Z"
    except OSError:
        return False


def told(seen, functions_of):
    print(summary(seen), "", table(seen), "", sep="\n")
    print("The dearest functions of crates with edits, in seconds by the clock:", "", sep="\n")
    print(*dearest_functions(functions_of), sep="\n")
    print("", "Edits over half a minute, in seconds of processor time:", "", sep="\n")
    print(*dear_edits(seen), sep="\n", flush=True)


def main(words):
    if words[:1] == ["--beside"]:
        pid = int(words[1])
        os.chdir(words[2] if words[2:] else os.readlink(f"/proc/{pid}/cwd"))
        told(*watch(pid, lambda: not is_running(pid)))
        return 0
    os.chdir(os.path.join(os.path.dirname(os.path.abspath(__file__)), ".."))
    if words[:1] == ["--counts"]:
        print(*(f"{name}: {number:,}" for name, number in counts()), sep="\n")
        return 0
    if words[:1] == ["--functions"]:
        stands_on = edges()
        for crate in words[1:]:
            functions(crate, stands_on)
        return 0
    command = ["rt", "ci", *words[1:]] if words[:1] == ["--kept"] else ["rt", "ci", "--anew", *words]
    gate = subprocess.Popen(command)
    told(*watch(gate.pid, lambda: gate.poll() is not None))
    used = resource.getrusage(resource.RUSAGE_CHILDREN)
    print("", f"All that ran: {(used.ru_utime + used.ru_stime) / 60:.1f} minutes of processor time.", sep="\n")
    return gate.returncode


if __name__ == "__main__":
    sys.exit(main(sys.argv[1:]))
