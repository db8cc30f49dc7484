"""What each client was owed: a trace's acts, given to `wlim replay-acts`, which is the judge."""
import subprocess

NOTHING = "drop 4000000000"  # an act that does nothing, in the place of one that isn't given
FENCE = "key 0 4000000000 0"  # a release that passes: its answer comes after all that was told before
FENCED = ["0", "pass", "0", "4000000000", "0"]
MAKES = {"surface", "field", "method", "popup", "grab", "vboard"}
DESK = {"focus", "unfocus", "key", "keymap"}


class JudgeFault(Exception):
    """The judge took no such act: the suite is at fault."""


class Judge:
    """`wlim replay-acts`, asked a few acts at a time."""

    AT_ONCE = 50

    def __init__(self, program):
        self.process = subprocess.Popen(
            [program, "replay-acts"], stdin=subprocess.PIPE, stdout=subprocess.PIPE, text=True
        )
        self.acts, self.waiting, self.told = 0, [], []

    def give(self, act):
        """Gives an act, whose number is `acts` then."""
        if len(self.waiting) == self.AT_ONCE:
            self.ask()
        self.waiting.append(act)
        self.acts += 1

    def next(self):
        """The number of the act that is given next."""
        return self.acts + 1 + (len(self.waiting) == self.AT_ONCE)

    def ask(self):
        self.process.stdin.write("".join(act + "\n" for act in [*self.waiting, FENCE]))
        self.process.stdin.flush()
        self.acts += 1
        while (words := self.process.stdout.readline().split())[1:] != FENCED:
            if not words or not words[0].isdigit():
                raise JudgeFault(f"{' '.join(words)}: {self.waiting}")
            self.told.append((int(words[0]), int(words[1]), words[2], words[3:]))
        self.waiting = []

    def take(self):
        """What all acts since the last call told: (number, label, event, arguments)."""
        self.ask()
        told, self.told = self.told, []
        return told

    def end(self):
        self.process.stdin.close()
        self.process.stdout.close()
        self.process.wait(10)


class Holds:
    """Who holds the seat and who serves, by the rules: to say for whom a batch was meant, and to leave enables out."""

    def __init__(self, first_enable=False):
        self.first_enable = first_enable
        self.owner, self.kind, self.focus, self.word, self.holder, self.serving = {}, {}, None, {}, None, None
        self.enables, self.ignored = {}, set()

    def entered(self, field):
        return self.focus is not None and field in self.owner and self.owner[field] == self.owner.get(self.focus)

    def clear(self, focus):
        self.focus, self.word, self.holder = focus, {}, None

    def take(self, number, act):
        name, *words = act
        if name in MAKES:
            made = words[-1]
            self.owner[made], self.kind[made] = self.owner.get(words[0], words[0]), name
            if name == "method" and self.serving is None:
                self.serving = made
        elif name == "focus" and words[0] != self.focus and words[0] in self.owner:
            self.clear(words[0])
        elif name == "unfocus":
            self.clear(None)
        elif name in ("enable", "disable") and self.entered(words[0]):
            self.word[words[0]] = name
            self.enables.setdefault(words[0], []).append(number)
        elif name == "commit":
            self.commit(words[0])
        elif name in ("drop", "gone"):
            self.drop([x for x, owner in self.owner.items() if words[0] in (x, owner)])

    def commit(self, field):
        word, enables = self.word.pop(field, None), self.enables.pop(field, [])
        if word == "enable":
            if self.first_enable and self.holder not in (None, field):
                self.ignored.update(enables)
            else:
                self.holder = field
        elif word == "disable" and self.holder == field:
            self.holder = None

    def drop(self, names):
        for name in names:
            self.owner.pop(name, None)
            if name == self.focus:
                self.clear(None)
            self.holder = None if name == self.holder else self.holder
            self.serving = None if name == self.serving else self.serving
            self.word.pop(name, None)


class Batch:
    """A method's commit: the field that held the seat when the done was told that it names, if one did, and its window;
    whether that was the last done; whether the method serves; and its edits."""

    def __init__(self, field=None, window=None, is_last=False, serves=True, edits=None):
        self.field, self.window, self.is_last, self.serves, self.edits = field, window, is_last, serves, edits or {}


class Owed:
    """
    What each object was owed, step by step, by the rules or by a reading of the protocols that departs from them:
    `first_enable`, a second field's enable is ignored; `last_done`, a batch must name the last done.
    """

    def __init__(self, program, trace, first_enable=False, last_done=False):
        self.trace, self.last_done = trace, last_done
        self.labels, self.names, self.told, self.lines, self.batches, self.edits = {}, {0: None}, [], [], {}, {}
        self.heard = {}  # of each method, (how many dones it was told, step by step)
        self.owed_dones, self.holders, self.windows, self.servings = {}, [], [], []
        holds = Holds(first_enable)
        number = 0
        for step in trace.steps:
            for act in step["acts"]:
                number += 1
                holds.take(number, act)
        judge = Judge(program)
        try:
            self.play(judge, holds.ignored)
        finally:
            judge.end()

    def play(self, judge, ignored):
        holds, number, keyboard = Holds(), 0, None
        for at, step in enumerate(self.trace.steps):
            focus = {}
            for act in step["acts"]:
                number += 1
                if act[0] == "refused":
                    continue
                line = NOTHING if number in ignored else self.line(judge.next(), act, at)
                judge.give(line)
                self.lines.append(line)
                if number not in ignored:
                    holds.take(number, act)
                if act[0] in ("focus", "unfocus") and "of text inputs alone" not in act:
                    keyboard = act[1] if act[0] == "focus" else None
                focus[judge.acts] = f"{holds.owner[keyboard][1:]}'s keyboard" if keyboard in holds.owner else None
                self.batch(act, at, holds.serving)
            told = judge.take()
            self.told.append(
                [
                    (self.names[label] if label else focus[act], event, self.named(event, words))
                    for act, label, event, words in told
                    if label in self.names
                ]
            )
            self.holders.append(holds.holder)
            self.windows.append(holds.focus)
            self.servings.append(holds.serving)
            for name, event, _ in self.told[-1]:
                if event == "done" and holds.kind.get(name) == "method":
                    self.owed_dones.setdefault(name, []).append(self.delivered(at, holds.owner.get(name, "@")[1:]))

    def named(self, event, words):
        return [self.names.get(int(words[0]), "-")] if event in ("enter", "leave") else words

    def delivered(self, at, peer):
        """The step at which a client that may be paused reads what it was told at a step."""
        while at + 1 < len(self.trace.steps) and peer in self.trace.steps[at]["paused"]:
            at += 1
        return at

    def line(self, label, act, at):
        """An act in the words of an act list, with labels in the place of names."""
        name, *words = act
        if name == "peer":
            self.label(label, words[0])
            return "peer"
        if name in MAKES:
            *of, made = words
            line = " ".join([name, *(str(self.labels.get(word, 4000000000)) for word in of)])
            self.label(label, made)
            return line
        if name == "mcommit":
            words = [words[0], str(self.serial(words[0], int(words[1]), at))]
        if name not in DESK:
            words = [str(self.labels.get(words[0], 4000000000)), *words[1:]]
        elif name == "focus":
            words = [str(self.labels[words[0]])]
        elif name == "unfocus":
            words = []
        return " ".join(str(word) for word in (name, *words))

    def label(self, label, name):
        self.labels[name], self.names[label] = label, name

    def dones(self, method, at):
        """The steps at which the method was told a done, up to the step `at`, that one not counted."""
        if method not in self.heard:
            self.heard[method] = [step for step, event, _ in self.trace.told_to(method) if event == "done"]
        return [step for step in self.heard[method] if step < at]

    def serial(self, method, serial, at):
        """What a serial is where each done is counted that was owed: it names the done that it named."""
        dones, owed = self.dones(method, at), self.owed_dones.get(method, [])
        if self.last_done and serial != len(dones):
            return 0
        if serial == 0 or serial > 1 << 31:
            return serial
        if serial > len(dones):
            return len(owed) + serial - len(dones)
        step = dones[serial - 1]
        before, same = sum(k < step for k in owed), sum(k == step for k in owed)
        return before + min(same, sum(k == step for k in dones[:serial]))

    def batch(self, act, at, serving):
        """Keeps for whom each batch of a step is meant."""
        if act[0] not in ("mstring", "mpreedit", "mdelete", "mcommit"):
            return
        edits = self.edits.setdefault(act[1], {})
        if act[0] == "mcommit":
            dones, serial = self.dones(act[1], at), int(act[2])
            step = dones[serial - 1] if 0 < serial <= len(dones) else None
            holder, window = (None, None) if step is None else (self.holders[step], self.windows[step])
            self.batches.setdefault(at, []).append(
                Batch(holder, window, serial == len(dones), act[1] == serving, self.edits.pop(act[1]))
            )
        else:
            edits[act[0]] = act[2]

    def batch_of(self, at, group):
        """The batch of a step, or of one before, that has the edits of a group that was told; else the last one."""
        found = [batch for step in sorted(self.batches, reverse=True) if step <= at for batch in self.batches[step]]
        same = [
            batch
            for batch in found
            if group[2]
            and batch.edits.get("mstring") == group[2]
            or not group[2]
            and group[3]
            and batch.edits.get("mpreedit") == group[3][0]
        ]
        return (same or found or [Batch()])[0]
