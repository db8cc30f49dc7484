#!/usr/bin/env python3
"""Writes the sessions of examples/: each is a story of one thing that a broker has to get right.

  tools/stories.py            writes examples/NAME.session for each story, and copies all examples to test_lines
  tools/stories.py --check    says whether the files are those that it would write

What each comes to stands beside it as NAME.transcript, and examples/README.md tells the stories. The program test_lines
plays all examples; since the kit takes no links, its data/examples/ has copies.
"""
import glob
import os
import sys

from messages import (application, board_key, board_keymap, commit, commit_batch, commit_string, cursor_rectangle, delete,
                      disable, enable, input_method, keyed_method, message, preedit, surrounding, text, word)

ROOT = os.path.join(os.path.dirname(os.path.abspath(__file__)), "..")
FOLDER = os.path.join(ROOT, "examples")
COPIES = os.path.join(ROOT, "crates", "test_lines", "data", "examples")


class Session:
    """The lines of a session. Peers are numbered from 1 as they join. Where tokens come it has form 2."""

    def __init__(self, entries=1000, store=4096, form=1):
        self.header = f"session {form} {entries} {store}" + (" 134217728" if form == 2 else "")
        self.stamp = "0 0 " if form == 2 else ""
        self.lines = []
        self.peers = 0

    def join(self, role, *messages):
        self.say(f"join {role}")
        self.peers += 1
        self.send(self.peers, *messages)
        return self.peers

    def send(self, peer, *messages):
        self.say(*[f"bytes {peer} {sent.hex()}" for sent in messages])

    def say(self, *lines):
        self.lines += [self.stamp + line for line in lines]

    def text(self):
        return "\n".join([self.header] + self.lines + ["end"]) + "\n"


def typing(session):
    """An application whose field 7 holds the seat, and a method. Both have taken what was stored for them."""
    app = session.join("app", *application())
    method = session.join("method", *input_method())
    session.say(f"focus {app} 6")
    session.send(app, enable(), commit())
    session.say(f"take {app} 4096", f"take {method} 4096")
    return app, method


def stale_serial():
    """A batch that names a done to come is dropped whole; one that names a done of this activation is relayed."""
    session = Session()
    app, method = typing(session)
    session.send(method, commit_string("too early"), commit_batch(2))
    session.send(app, surrounding("new state", 9, 9), commit())
    session.send(method, commit_string("in time"), commit_batch(1))
    return session


def field_loses_the_seat():
    """A second field is enabled and takes the seat in the middle of a batch; the batch reaches nobody."""
    session = Session()
    app, method = typing(session)
    session.send(app, message(5, 1, word(8), word(4)))
    session.send(method, commit_string("for the first"))
    session.send(app, enable(8), commit(8))
    session.send(method, commit_batch(1))
    session.send(method, commit_string("for the second"), commit_batch(2))
    return session


def peer_that_stops_reading():
    """An application never takes what is stored for it, until a group doesn't fit. It ends; the other types on."""
    session = Session(store=300)
    deaf = session.join("app", *application())
    method = session.join("method", *input_method())
    session.say(f"take {method} 4096", f"focus {deaf} 6")
    session.send(deaf, enable(), commit())
    for _ in range(3):
        session.send(method, commit_string("forty bytes of text that nobody reads"), commit_batch(1))
        session.say(f"take {method} 4096")
    heard = session.join("app", *application())
    session.say(f"focus {heard} 6")
    session.send(heard, enable(), commit())
    session.say(f"take {heard} 4096", f"take {method} 4096")
    session.send(method, commit_string("heard"), commit_batch(3))
    return session


def preedit_and_deletion():
    """A method shows a preedit, replaces it, and commits a word in place of what stood before the cursor."""
    session = Session()
    app, method = typing(session)
    session.send(method, preedit("ni", 2, 2), commit_batch(1))
    session.send(method, preedit("nih", 3, 3), commit_batch(1))
    session.send(method, delete(1, 0), commit_string("\u4f60"), commit_batch(1))
    return session


def keys_through_a_grab():
    """A method grabs the keyboard: presses go to it; a key that was down before is released to the shell."""
    session = Session()
    app, method = typing(session)
    session.say("keymap 1 9 100", "repeat 25 600", "key 10 30 1")
    session.send(method, message(5, 5, word(6)))
    session.say("key 20 30 0", "key 30 31 1", "mods 1 0 0 0", "key 40 31 0")
    session.send(method, message(6, 0))
    session.say("key 50 32 1")
    return session


def key_given_back():
    """A method gives back the key that it doesn't compose: that passes by its own grab, behind its commit."""
    session = Session(form=2)
    app = session.join("app", *application())
    method = session.join("keyed", *keyed_method())
    session.say(f"focus {app} 6", "keymap 1 9 100")
    session.send(app, enable(), commit())
    session.send(method, message(5, 5, word(8)))
    session.say(f"tokens {method} 9")
    session.send(method, board_keymap(1, 100))
    session.say("key 10 30 1", "key 20 30 0")
    session.send(method, preedit("a", 1, 1), commit_batch(1))
    session.say("key 30 28 1")
    session.send(method, commit_string("a"), commit_batch(1), board_key(30, 28, 1))
    session.say("key 40 28 0")
    session.send(method, board_key(40, 28, 0))
    return session


def popup_at_the_edge():
    """A method's popup follows the cursor; where it would leave the screen it goes above, and is moved in."""
    session = Session()
    app, method = typing(session)
    session.send(method, message(2, 0, word(1), text("wl_compositor"), word(1), word(7)),
                 message(7, 0, word(8)), message(5, 4, word(9), word(8)))
    session.say(f"area {method} 8 0 0 200 60", f"area {app} 6 700 500 300 250", "screen 1024 768")
    session.send(app, cursor_rectangle(20, 10, 2, 20), commit())
    session.send(app, cursor_rectangle(250, 220, 2, 20), commit())
    return session


def hostile_peer():
    """Peers that send what no client would: each is told why and ends, and nobody else is told anything."""
    session = Session()
    app, method = typing(session)
    unknown = session.join("app", message(77, 0))
    thief = session.join("app", *application())
    session.send(thief, message(8, 1))
    huge = session.join("app")
    session.say(f"bytes {huge} 0100000001000400")
    liar = session.join("app", message(1, 1, word(2)))
    session.send(liar, message(2, 0, word(4), text("zwp_input_method_manager_v2"), word(1), word(3)))
    torn = session.join("app")
    session.say(f"bytes {torn} 0100000001000c", f"gone {torn}")
    session.send(method, commit_string("untouched"), commit_batch(1))
    return session


def disable_in_time():
    """A field is disabled and enabled again: a batch for its first activation is late, though its number fits."""
    session = Session()
    app, method = typing(session)
    session.send(app, disable(), commit(), enable(), commit())
    session.send(method, commit_string("late"), commit_batch(1))
    session.send(method, commit_string("now"), commit_batch(3))
    return session


def without_effect():
    """What is asked too early or out of range does nothing; what is asked rightly beside it does."""
    session = Session()
    session.join("app", *application())
    session.join("method", *input_method())
    session.say("unfocus")
    session.send(1, enable())
    session.say("focus 1 6", "focus 1 6")
    session.send(1, enable(), cursor_rectangle(0, 0, -1, 20), cursor_rectangle(0, 0, 1, 20), commit())
    session.send(2, commit_string("hi"), commit_batch(1), commit_batch(9))
    session.say("key 100 30 1", "key 110 30 0", "take 1 100", "gone 2")
    session.send(1, message(7, 99))
    return session


def every_line():
    """Something of each kind that `explain` has words for: requests, keys, batches, what is refused, what ends."""
    session = Session(store=700, form=2)
    app = session.join("app", *application())
    method = session.join("keyed", *keyed_method())
    session.say("keymap 1 9 100", "repeat 25 600", "screen 1024 768", f"area {app} 6 0 0 800 600")
    session.say("unfocus", f"focus {app} 3")
    session.send(app, enable())
    session.say(f"focus {app} 6", f"focus {app} 6")
    session.send(app, enable(), surrounding("\u00e9", 1, 0), cursor_rectangle(0, 0, -1, 20), commit())
    session.say(f"take {app} 4096", f"take {method} 4096")
    session.send(method, preedit("a", 1, 1), commit_batch(1), commit_batch(9))
    session.say("key 10 30 1")
    session.send(method, message(5, 5, word(8)))
    session.say("key 20 30 0", "key 30 31 1", "mods 1 0 0 0", f"tokens {method} 9")
    session.send(method, board_keymap(1, 100), board_key(40, 28, 1), message(8, 0))
    session.say("key 50 31 0", f"take {method} 4096")
    for wrong in [message(77, 0), message(1, 9), message(1, 1), message(1, 1, word(1)),
                  message(2, 0, word(9), text("wl_seat"), word(1), word(3))]:
        peer = session.join("app", message(1, 1, word(2)))
        session.send(peer, wrong)
    for wrong in [message(5, 1, word(8), word(6)), message(4, 0, word(8))]:
        peer = session.join("app", *application())
        session.send(peer, wrong)
    keyed = session.join("keyed", *keyed_method())
    session.send(keyed, board_key(60, 28, 1))
    torn = session.join("app")
    session.say(f"bytes {torn} 0100000001000400")
    gone = session.join("app")
    session.say(f"bytes {gone} 0100000001000c", f"gone {gone}")
    session.send(app, disable(), commit(), enable(), commit())
    for letter in "ab":
        session.send(method, commit_string(500 * letter), commit_batch(3))
    session.say(f"gone {method}")
    return session


STORIES = [stale_serial, field_loses_the_seat, peer_that_stops_reading, preedit_and_deletion, keys_through_a_grab,
           key_given_back, popup_at_the_edge, hostile_peer, disable_in_time, without_effect, every_line]


def read(path):
    if not os.path.exists(path):
        return ""
    with open(path, encoding="utf-8") as file:
        return file.read()


def write(path, text):
    with open(path, "w", encoding="utf-8") as file:
        file.write(text)


def wanted():
    """What each file is to hold, by its path: the stories' sessions first, then the copies of all examples."""
    sessions = {os.path.join(FOLDER, story.__name__ + ".session"): story().text() for story in STORIES}
    yield from sessions.items()
    for path in sorted({*glob.glob(f"{FOLDER}/*.*"), *sessions}):
        if not path.endswith(".md"):
            yield os.path.join(COPIES, os.path.basename(path)), sessions.get(path) or read(path)


def main():
    changed = [(path, text) for path, text in wanted() if read(path) != text]
    for path, text in changed:
        if "--check" not in sys.argv:
            write(path, text)
        print(os.path.relpath(path, ROOT), "is another" if "--check" in sys.argv else "written")
    return 1 if changed and "--check" in sys.argv else 0


if __name__ == "__main__":
    sys.exit(main())
