"""Plays a scenario at a compositor, and writes down what was done and what each client was told, step by step."""
import time

from .peer import NoAnswer, Peer
from .scenarios import BadScenario

NEEDS = {
    "field": "zwp_text_input_manager_v3",
    "method": "zwp_input_method_manager_v2",
    "board": "zwp_virtual_keyboard_manager_v1",
    "window": "xdg_wm_base",
}


class Skip(Exception):
    """The compositor can't do what the scenario needs."""


class Trace:
    """What was played. A step has its line, its acts, and what was told: (client, object, event, arguments)."""

    def __init__(self, scenario):
        self.scenario, self.steps, self.crashed, self.stuck = scenario, [], None, None

    def told_to(self, name):
        """Each (step, event, arguments) of an object."""
        return [
            (at, event, words)
            for at, step in enumerate(self.steps)
            for _, to, event, words in step["told"]
            if to == name
        ]


class Player:
    """One scenario at one desk, whose compositor stands."""

    AT_ONCE = 100  # requests, then the client waits until they are done

    def __init__(self, desk, scenario):
        self.desk, self.scenario, self.trace = desk, scenario, Trace(scenario)
        self.peers, self.owner, self.focus, self.dones, self.marks = {}, {}, None, {}, {}
        self.methods, self.grabs, self.windows, self.left = {}, {}, set(), False
        self.times = {}

    # ---- What the compositor can do ----

    def look_what_is_missing(self):
        if why := self.desk.cannot.get(self.scenario.name):
            raise Skip(why)
        for command in self.scenario.commands():
            if command[0] in ("press", "release") and not self.desk.keys:
                raise Skip("no way to press keys")
            if command[0] == "unfocus" and not self.desk.can_unfocus:
                raise Skip("no way to take the focus away")
        for step in self.scenario.steps:
            for command in step.commands:
                kind = self.scenario.clients.get(step.who)
                needed = NEEDS.get(command[0])
                if kind and needed and needed not in self.desk.globals(kind):
                    raise Skip(f"it offers no {needed}")

    # ---- Steps ----

    def play(self):
        self.look_what_is_missing()
        try:
            self.step(self.desk.line_of_beginning, self.begin)
            for step in self.scenario.steps:
                self.step(step.line, lambda acts, step=step: self.carry_out(step, acts))
        except NoAnswer as fault:
            self.trace.stuck = str(fault)
        finally:
            for peer in self.peers.values():
                peer.end()
        self.trace.crashed = self.desk.after_scenario()
        return self.trace

    def step(self, line, does):
        acts = []
        step = {"line": line, "acts": acts, "told": [], "paused": [], "ended": []}
        self.trace.steps.append(step)
        alive = {name for name, peer in self.peers.items() if not (peer.ended or peer.hung)}
        try:
            does(acts)
            self.settle(step)
        finally:
            step["paused"] = [name for name, peer in self.peers.items() if peer.paused]
            for name in sorted(alive):
                peer = self.peers[name]
                if peer.paused and not peer.hung:
                    peer.read(0)
                if peer.ended or peer.hung:
                    step["ended"].append([name, *(peer.ended or ["-", "-", "hung-up"])])
                    acts.append(("gone", "@" + name))
        self.follow(step)

    def begin(self, acts):
        """The desk's own keyboard, where it is a client's."""
        if self.desk.keys == "board":
            acts += [("peer", "@desk"), ("vboard", "@desk", "desk's keyboard"), ("vkeymap", "desk's keyboard", 1, 0, 1)]
        elif self.desk.keys == "seat":
            acts.append(("keymap", 1, 0, 1))

    def peer(self, name, acts):
        if name not in self.peers:
            kind = self.scenario.clients[name]
            self.peers[name] = Peer(self.desk.client, name, self.desk.environment(kind))
            acts.append(("peer", "@" + name))
        return self.peers[name]

    def settle(self, step):
        """All that was sent is done, and what it told was read: nobody hears more."""
        quiet = 0
        while quiet < self.desk.rounds:
            peers = [peer for peer in self.peers.values() if not peer.ended]
            for peer in peers:
                peer.ask_sync()
            for peer in peers:
                peer.wait_sync()
            heard = [(name, *told) for name, peer in self.peers.items() for told in peer.take()]
            heard.sort(key=lambda told: told[1])
            for name, _, to, event, words in heard:
                self.hear(to, event, words)
                step["told"].append((name, to if to != "keyboard" else f"{name}'s keyboard", event, words))
            if wrong := [line for peer in peers for line in peer.wrong]:
                raise BadScenario(f"{self.scenario.name}: {step['line']}: {wrong[0]}")
            quiet = 0 if heard else quiet + 1
            if not heard and quiet < self.desk.rounds and self.desk.pause:
                time.sleep(self.desk.pause)

    def hear(self, to, event, words):
        if event == "done" and to in self.methods:
            self.dones[to] += 1
        elif event == "key" and len(words) == 3:
            self.times[words[1], words[2]] = int(words[0])

    def follow(self, step):
        """The focus as the keyboards' enters and leaves say it; and where a method ended, as fields were told."""
        was = self.focus
        for name, to, event, words in step["told"]:
            if to == f"{name}'s keyboard" and event == "enter":
                self.focus = words[0]
            elif (
                to == f"{name}'s keyboard"
                and event == "leave"
                and self.owner.get(self.focus) == name
                and words[0] in (self.focus, "-")
            ):
                self.focus = None
        if self.focus and self.peers[self.owner[self.focus]].ended:
            self.focus = None
        if self.focus != was:
            step["acts"].append(("focus", self.focus) if self.focus else ("unfocus",))
            self.left = False
        elif self.focus:
            self.follow_method(step)

    def follow_method(self, step):
        """A compositor may leave a field whose method ends, and enter it again, now or when another method comes."""
        events = [event for _, _, event, _ in step["told"] if event in ("enter", "leave")]
        ends = any(
            act[0] == "gone" and act[1][1:] in self.methods.values() or act[0] == "drop" and act[1] in self.methods
            for act in step["acts"]
        )
        if ends and "leave" in events:
            step["acts"].append(("unfocus", "of text inputs alone"))
            self.left = True
        if self.left and "enter" in events:
            step["acts"].append(("focus", self.focus, "of text inputs alone"))
            self.left = False

    # ---- What a step does ----

    def carry_out(self, step, acts):
        if step.who is None:
            getattr(self, "do_" + step.commands[0][0])(acts, *step.commands[0][1:])
            return
        peer = self.peer(step.who, acts)
        for at, command in enumerate(step.commands, 1):
            self.command(peer, acts, list(command))
            if at % self.AT_ONCE == 0 or at == len(step.commands):
                self.fence(peer)
        for window in [command[1] for command in step.commands if command[0] == "window"]:
            peer.until(
                lambda window=window: peer.ended or ("mapped" in {e for _, to, e, _ in peer.heard if to == window})
            )

    @staticmethod
    def fence(peer):
        """What the client sent is done; of one that doesn't read, it is sent."""
        if peer.paused:
            peer.send_all()
        else:
            peer.ask_sync()
            peer.wait_sync()

    def command(self, peer, acts, words):
        act = tuple(words)
        if words[0] in ("window", "surface"):
            self.owner[words[1]] = peer.name
            act = ("surface", "@" + peer.name, words[1])
        elif words[0] in ("field", "method"):
            self.methods.update({words[1]: peer.name} if words[0] == "method" else {})
            self.dones.setdefault(words[1], 0)
            act = (words[0], "@" + peer.name, words[1])
        elif words[0] == "board":
            act = ("vboard", "@" + peer.name, words[1])
        elif words[0] == "mcommit":
            words[2] = str(self.serial(words[1], words[2]))
            act = tuple(words)
        elif words[0] in ("grab", "popup"):
            act = (words[0], *words[2:], words[1])
        elif words[0] == "vkeymap":
            act = ("vkeymap", words[1], 1, 0, 1)
        elif words[0] == "vkey":
            words.insert(2, str(self.time_of(words[2], words[3])))
            act = tuple(words)
        elif words[0] == "close":
            act = ("drop", words[1])
        if words[0] not in ("paint", "raw"):
            acts.append(act)
        peer.send(" ".join(words))

    def time_of(self, key, state):
        """A method gives a key back with the time that its grab was told of it."""
        return self.times.get((key, state), self.desk.moment())

    def serial(self, method, word):
        """`now` is the number of dones that the method was told, `now-1` one less, a name what was marked."""
        if word.startswith("now"):
            return (self.dones[method] + int(word[3:] or 0)) % (1 << 32)
        return self.marks[word] if word in self.marks else int(word)

    # ---- Lines of the desk ----

    def do_focus(self, acts, window):
        if self.focus == window:
            return
        peer = self.peers[self.owner[window]]
        self.desk.focus(window)
        if peer.paused:
            self.focus = window
            acts.append(("focus", window))
            return
        try:
            peer.until(
                lambda: peer.ended
                or any((to, event, words) == ("keyboard", "enter", [window]) for _, to, event, words in peer.heard),
                3,
            )
        except NoAnswer:
            raise Skip(f"the focus can't be moved to {window}") from None

    def do_unfocus(self, acts):
        if self.focus is None:
            return
        peer, window = self.peers[self.owner[self.focus]], self.focus
        self.desk.unfocus()
        if not peer.paused:
            peer.until(
                lambda: peer.ended or any((to, event) == ("keyboard", "leave") for _, to, event, _ in peer.heard), 3
            )
        elif self.focus == window:
            self.focus = None
            acts.append(("unfocus",))

    def do_press(self, acts, key, state=1):
        moment = self.desk.moment()
        self.desk.key(moment, int(key), state)
        acts.append(
            ("vkey", "desk's keyboard", moment, key, state)
            if self.desk.keys == "board"
            else ("key", moment, key, state)
        )

    def do_release(self, acts, key):
        self.do_press(acts, key, 0)

    def do_mark(self, acts, name, method):
        self.marks[name] = self.dones[method]

    def do_pause(self, acts, name):
        self.peers[name].send("pause")
        self.peers[name].paused = True

    def do_resume(self, acts, name):
        self.peers[name].send("resume")
        self.peers[name].paused = False

    def do_kill(self, acts, name):
        self.peers[name].kill()

    def do_quit(self, acts, name):
        self.peers[name].quit()

    def do_refused(self, acts, name):
        """What the client sent before has to end it with an error."""
        acts.append(("refused", name))
