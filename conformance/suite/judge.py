"""Holds what clients were told against what they were owed, object by object and step by step."""
from .rules import MAKES, Owed

READINGS = [
    ("", {}),
    ("last done", {"last_done": True}),
    ("first enable", {"first_enable": True}),
    ("last done, first enable", {"last_done": True, "first_enable": True}),
]


class Difference:
    """At a step an object was told other units than it was owed."""

    def __init__(self, at, name, kind, owed, seen):
        self.at, self.name, self.kind, self.owed, self.seen = at, name, kind, owed, seen

    def key(self):
        return (self.at, self.name, str(self.owed), str(self.seen))


def field_units(events):
    """Enters, leaves, and whole groups: what an application applies at a done, whatever the order before it."""
    units, group = [], {}
    for event, words in events:
        if event in ("enter", "leave"):
            units.append((event, words[0]))
        elif event == "preedit_string":
            group["preedit"] = tuple(words) if words[0] != "-" else None
        elif event == "commit_string":
            group["string"] = words[0] if words[0] != "-" else None
        elif event == "delete_surrounding_text":
            group["delete"] = tuple(words) if words != ["0", "0"] else None
        elif event == "done":
            units.append(("group", *(group.get(part) for part in ("delete", "string", "preedit")), words[0]))
            group = {}
    if group:
        units.append(("half", *(group.get(part) for part in ("delete", "string", "preedit"))))
    return units


class MethodState:
    """What a method knows after each done: told again what it knows, it is told nothing."""

    def __init__(self):
        self.known = (False, None, None, ("0", "0"))
        self.active, self.content, self.pending = False, ("0", "0"), {}

    def units(self, events):
        units = []
        for event, words in events:
            if event == "unavailable":
                units.append((event,))
            elif event != "done":
                self.pending[event] = tuple(words)
                if event in ("activate", "deactivate"):
                    self.active = event == "activate"
            else:
                units += self.apply()
        # Deactivated and activated at once is activated anew.
        return [
            unit
            for at, unit in enumerate(units)
            if unit != ("deactivated",) or not units[at + 1 :] or units[at + 1][0] != "activated"
        ]

    def apply(self):
        pending, self.pending = self.pending, {}
        if "activate" in pending:
            self.content = ("0", "0")
        self.content = pending.get("content_type", self.content)
        text = pending.get("surrounding_text") if self.active else None
        cause = pending.get("text_change_cause", ("0",))[0] if text else None
        had, self.known = self.known, (self.active, text, cause, self.content if self.active else ("0", "0"))
        if "activate" in pending and self.active:
            return [("activated", *self.known[1:])]
        if self.known == had:
            return []
        return [("updated", *self.known[1:]) if self.active else ("deactivated",)]


def grab_units(events):
    return [("key", *words[-2:]) for event, words in events if event == "key"]


def popup_units(events):
    """Where the popup is told the cursor: a compositor may place it as it likes."""
    sizes = [("rectangle", *words[-2:]) for event, words in events if event == "text_input_rectangle"]
    return sizes[-1:]


def keyboard_units(events):
    return [("key", *words[-2:]) for event, words in events if event in ("key", "pass")]


UNITS = {"field": field_units, "grab": grab_units, "popup": popup_units, "keyboard": keyboard_units}


class Compared:
    """A trace against one reading of the rules."""

    def __init__(self, program, trace, reading):
        self.trace, self.owed = trace, Owed(program, trace, **reading)
        self.kinds, self.owners = {}, {}
        for step in trace.steps:
            for act in step["acts"]:
                if act[0] in MAKES:
                    self.kinds[act[-1]] = act[0]
                    self.owners[act[-1]] = self.owners.get(act[1], act[1][1:])
                elif act[0] == "peer":
                    keyboard = f"{act[1][1:]}'s keyboard"
                    self.kinds[keyboard], self.owners[keyboard] = "keyboard", act[1][1:]
        self.ended = {}
        for at, step in enumerate(trace.steps):
            for name, *_ in step["ended"]:
                self.ended[name] = at
        self.differences = []
        for name, kind in self.kinds.items():
            if kind in UNITS or kind == "method":
                self.compare(name, kind)
        for peer in sorted(set(self.owners.values())):
            self.compare_order(peer)
        self.differences.sort(key=lambda difference: difference.at)

    def order(self, told):
        """Texts and keys of a client in the order in which they came."""
        found = []
        for name, event, words in told:
            if event == "commit_string" and self.kinds.get(name) == "field":
                found.append("told a text")
            elif event in ("key", "pass") and self.kinds.get(name) == "keyboard":
                found.append(f"told the key {words[-2]}")
        return found

    def compare_order(self, peer):
        """Where each object was told what it was owed, still texts and keys may have changed places."""
        differing = {difference.at for difference in self.differences}
        for at, step in enumerate(self.trace.steps):
            if at in differing or peer in step["paused"] or peer in self.ended:
                continue
            owed = self.order(told for told in self.owed.told[at] if self.owners.get(told[0]) == peer)
            seen = self.order((to, event, words) for _, to, event, words in step["told"] if self.owners.get(to) == peer)
            if owed != seen and sorted(owed) == sorted(seen):
                self.differences.append(Difference(at, f"{peer}'s order", "order", owed, seen))

    def events(self, name):
        """Of an object, what it was owed and what it was told, by the step at which its client read it."""
        peer, count = self.owners[name], len(self.trace.steps)
        owed, seen = [[] for _ in range(count)], [[] for _ in range(count)]
        for at in range(count):
            owed[self.owed.delivered(at, peer)] += [
                (event, words) for to, event, words in self.owed.told[at] if to == name
            ]
            seen[at] += [(event, words) for _, to, event, words in self.trace.steps[at]["told"] if to == name]
        return owed, seen

    def without_leaves_of_gone(self, at, name, owed, seen):
        """Where a surface goes nobody is owed a leave; who is told one all the same takes no harm."""
        gone = {act[1] for act in self.trace.steps[at]["acts"] if act[0] == "drop"}
        return (
            seen
            if not gone
            else [unit for unit in seen if unit in owed or unit[0] != "leave" or unit[1] not in gone | {"-"}]
        )

    def compare(self, name, kind):
        owed, seen = self.events(name)
        states = (MethodState(), MethodState()) if kind == "method" else None
        was_paused = any(self.owners[name] in step["paused"] for step in self.trace.steps)
        for at, (events, others) in enumerate(zip(owed, seen)):
            if kind == "method":
                units, others = states[0].units(events), states[1].units(others)
            else:
                units, others = UNITS[kind](events), UNITS[kind](others)
            ends = self.ended.get(self.owners[name], len(owed)) <= at
            if self.owners[name] in self.trace.steps[at]["paused"] or ends and not was_paused:
                continue
            if ends and others == units[: len(others)]:
                continue
            if kind == "field":
                others = self.without_leaves_of_gone(at, name, units, others)
            if units != others:
                self.differences.append(Difference(at, name, kind, units, others))


def judge(program, trace):
    """The base reading's comparison, and the name of the reading by which nothing differs, if there is one."""
    first = None
    for name, reading in READINGS:
        compared = Compared(program, trace, reading)
        first = first or compared
        if not compared.differences:
            return compared, name
    return first, None
