"""A server's run of each example, judged by `wlim audit`: audit.py PROGRAM

What each client got is owed to it: `yes`. With a byte of a text, the serial of a done, or the outputs of two fields
exchanged, and with an output before its cause, it isn't: `no L`, and L is the line with the first change.
"""
import glob
import os
import re
import subprocess
import sys
import tempfile

TOP = os.path.abspath(os.path.join(os.path.dirname(os.path.abspath(__file__)), ".."))
sys.path.insert(0, os.path.join(TOP, "tools"))
from audit_input import audit_input, read_got, unframed  # noqa: E402
from messages import application, commit, commit_batch, commit_string, enable, input_method  # noqa: E402
from stories import Session  # noqa: E402

COMMIT_STRING, DONE = 3, 5
MODES = (False, True)  # whether `out` lines stand at the takes


def read(path):
    with open(path, encoding="ascii") as file:
        return file.read()


def messages(data):
    """Each whole message: its first byte's place, its object, its opcode and its bytes."""
    at = 0
    while len(data) - at >= 8:
        size = int.from_bytes(data[at + 6 : at + 8], "little")
        if len(data) - at < size:
            break
        yield at, int.from_bytes(data[at : at + 4], "little"), data[at + 4], data[at : at + size]
        at += size


def field_messages(data):
    return [found for found in messages(data) if 2 <= found[2] <= DONE]


def put_bytes(transcript):
    """What a transcript puts into each peer's store."""
    got = {}
    for peer, data in re.findall(r"^\d+ out (\d+) (\w+)", transcript, re.MULTILINE):
        got[int(peer)] = got.get(int(peer), b"") + bytes.fromhex(data)
    return got


def sent_bytes(lines):
    """What an audit says that was sent to each peer, with the number of each line and where its bytes end."""
    sent, ends = {}, []
    for number, line in enumerate(lines, 1):
        if line.startswith("out "):
            _, peer, data = line.split(" ")
            sent[int(peer)] = sent.get(int(peer), b"") + bytes.fromhex(data)
            ends.append((number, int(peer), len(sent[int(peer)])))
    return sent, ends


def applications(lines):
    joins = [line.split(" ")[-1] for line in lines if " join " in line]
    return [peer for peer, role in enumerate(joins, 1) if role == "app"]


def dones(lines):
    sent, _ = sent_bytes(lines)
    return sum(opcode == DONE for peer in applications(lines) for _, _, opcode, _ in messages(sent.get(peer, b"")))


def first_change(lines, owed):
    """The number of the line by which a field message is whole that isn't the one that is owed at its place."""
    sent, ends = sent_bytes(lines)
    found = []
    for peer in applications(lines):
        wanted = [message for *_, message in field_messages(owed.get(peer, b""))]
        for place, (at, _, _, message) in enumerate(field_messages(sent.get(peer, b""))):
            if wanted[place : place + 1] != [message]:
                found.append(min(line for line, of, end in ends if of == peer and end >= at + len(message)))
                break
    return min(found)


def check(what, got, wanted):
    if got != wanted:
        raise SystemExit(f"{what}: {got}, wanted {wanted}")


# ---- what the tool makes of the examples


def tool_keeps_all(path):
    """All lines of a session but its takes, in order, and all that its clients got; at takes just what they take."""
    session, transcript = read(path), read(path.replace(".session", ".transcript"))
    got = put_bytes(transcript)
    header, *steps = session.splitlines()
    stamp = "0 0 " if header.startswith("session 1") else ""
    kept = [stamp + line for line in steps[:-1] if "take" not in line.split(" ")]
    took = [int(count) for count in re.findall(r"^\d+ took \d+ (\d+)$", transcript, re.MULTILINE)]
    for at_takes in MODES:
        lines = audit_input(session, transcript, got, at_takes)
        check(f"{path}: what was sent", sent_bytes(lines)[0], got)
        steps = [line for line in lines[1:-1] if not line.startswith("out ")]
        for peer in re.findall(r"^\d+ ended (\d+) full$", transcript, re.MULTILINE):
            steps.remove(f"0 0 gone {peer}")
        check(f"{path}: the steps", steps, kept)
        sizes = [len(line.split(" ")[2]) // 2 for line in lines if line.startswith("out ")]
        check(f"{path}: one line at each take", sizes[: len(took)] == took, at_takes or not took)
        if not at_takes:
            outs = [line for line in lines if line.startswith("out ")]
            check(f"{path}: behind all steps", lines[-1 - len(outs) : -1], outs)


def tool_ends_a_full_peer(path):
    """The end of a peer whose queue was full stands behind the step by which it was."""
    lines = audit_input(read(path), read(path.replace(".session", ".transcript")), {})
    third = [number for number, line in enumerate(lines) if line.endswith(commit_batch(1).hex())][2]
    check("the full peer's end", lines[third + 1], "0 0 gone 1")


def tool_reads_frames():
    """Frames are read to their end, a torn one as far as it came; and what is none is refused."""
    frames = bytes.fromhex("02000200" "0700000004030201" "6162" "0c000000" "0100")
    check("torn frames", unframed(frames), b"ab\1\0")
    for bad in ("00000000", "01100000", "01000101"):
        try:
            check(f"the frame {bad}", unframed(bytes.fromhex(bad)), "refused")
        except ValueError:
            pass


# ---- what the program says


def verdict(program, lines):
    text = "\n".join(lines) + "\n"
    run = subprocess.run([program, "audit"], input=text, stdout=subprocess.PIPE, text=True, check=False)
    return run.returncode, run.stdout


def is_good(program, what, lines):
    check(what, verdict(program, lines), (0, f"yes {dones(lines)}\n"))


def is_bad(program, what, lines, line):
    check(what, verdict(program, lines), (12, f"no {line}\n"))


def replayed(program, session):
    return subprocess.run([program, "replay"], input=session, stdout=subprocess.PIPE, text=True, check=True).stdout


def typed(program, path, folder):
    """The session that the server recorded while the example was typed, and what each peer got."""
    command = [sys.executable, f"{TOP}/examples/serve/type_session.py", program, path, folder]
    subprocess.run(command, stdout=subprocess.DEVNULL, check=True)
    peers = [name.partition(".")[0] for name in os.listdir(folder) if name.endswith(".frames")]
    return read(f"{folder}/session"), read_got(f"{peer}={folder}/{peer}.frames" for peer in peers)


def changed(data, at, byte):
    return data[:at] + bytes([byte]) + data[at + 1 :]


def other_text(got, peer):
    at, *_ = next(found for found in messages(got[peer]) if found[2] == COMMIT_STRING)
    return {**got, peer: changed(got[peer], at + 12, got[peer][at + 12] ^ 1)}


def other_serial(got, peer):
    at, *_ = next(found for found in messages(got[peer]) if found[2] == DONE)
    return {**got, peer: changed(got[peer], at + 8, got[peer][at + 8] + 1)}


def exchanged_fields(got, peer):
    """The events of the fields 7 and 8 of one application, under one another's id."""
    data = got[peer]
    for at, field, opcode, _ in messages(data):
        if 2 <= opcode <= DONE:
            data = changed(data, at, {7: 8, 8: 7}[field])
    return {**got, peer: data}


def exchanged_peers(got, peer, other):
    return {**got, peer: got[other], other: got[peer]}


def too_early(lines):
    """The line that brings a done, moved above the batch of the method for which it is owed, and where it is then."""
    done = next(number for number, line in enumerate(lines) if line.startswith("out ") and "05000c00" in line)
    cause = max(number for number, line in enumerate(lines[:done]) if line.endswith(commit_batch(1).hex()))
    return lines[:cause] + [lines[done]] + lines[cause:done] + lines[done + 1 :], cause + 1


def example_is_judged(program, name, folder):
    path = f"{TOP}/examples/{name}.session"
    session, got = typed(program, path, folder)
    transcript = replayed(program, session)
    changes = {}
    if any(field_messages(got[peer]) for peer in applications(session.splitlines())):
        peer = next(peer for peer in applications(session.splitlines()) if field_messages(got[peer]))
        if any(found[2] == COMMIT_STRING for found in messages(got[peer])):
            changes["a text"] = other_text(got, peer)
        changes["a serial"] = other_serial(got, peer)
    if name == "field_loses_the_seat":
        changes["two fields"] = exchanged_fields(got, 1)
    if name == "peer_that_stops_reading":
        changes["two applications"] = exchanged_peers(got, 1, 3)
    for at_takes in MODES:
        where = f"{name}, {'at takes' if at_takes else 'at the end'}"
        good = audit_input(session, transcript, got, at_takes)
        is_good(program, where, good)
        for what, other in changes.items():
            lines = audit_input(session, transcript, other, at_takes)
            is_bad(program, f"{where}, {what}", lines, first_change(lines, got))
    if name == "one_batch":
        is_bad(program, "before its cause", *too_early(good))
    return dones(good), len(changes)


def overflow():
    """A method that never reads ends in the middle of another's line; a later one types."""
    session = Session(store=300)
    app = session.join("app", *application())
    deaf = session.join("method", *input_method())
    session.say(f"take {app} 4096", f"focus {app} 6")
    session.send(app, enable(), commit())
    session.say(f"bytes {app} {(commit() * 20).hex()}")
    method = session.join("method", *input_method())
    session.send(method, commit_string("heard"), commit_batch(1))
    return session.text(), deaf


def full_peer_is_judged(program):
    """An audit's queues are never full: without the end that the server made, an honest output isn't owed."""
    session, deaf = overflow()
    transcript = replayed(program, session)
    got = put_bytes(transcript)
    for at_takes in MODES:
        lines = audit_input(session, transcript, got, at_takes)
        check("a done behind the end", dones(lines), 1)
        is_good(program, "a full peer", lines)
        without = [line for line in lines if line != f"0 0 gone {deaf}"]
        is_bad(program, "without its end", without, first_change(without, {}))


def main():
    program = os.path.abspath(sys.argv[1])
    sessions = sorted(glob.glob(f"{TOP}/examples/*.session"))
    for path in sessions:
        tool_keeps_all(path)
    tool_ends_a_full_peer(f"{TOP}/examples/peer_that_stops_reading.session")
    tool_reads_frames()
    if verdict(program, ["audit 1", "end"]) != (0, "yes 0\n"):
        raise SystemExit(f"{program} has no audit")
    full_peer_is_judged(program)
    totals = [0, 0]
    for path in sessions:
        with tempfile.TemporaryDirectory() as folder:
            found = example_is_judged(program, os.path.basename(path).partition(".")[0], folder)
            totals = [total + more for total, more in zip(totals, found)]
    print(f"{len(sessions)} runs of the server are owed, with {totals[0]} dones; {totals[1]} changes of them aren't")


if __name__ == "__main__":
    main()
