"""Differences in plain words: the rule, what the compositor did, what a user sees, and how grave that is."""

GRAVE, SERIOUS, LIGHT = "grave", "serious", "light"
ORDER = [GRAVE, SERIOUS, LIGHT]

# The rules, each said once.
PLACE = "A batch reaches the field that its serial names, while that is in use, or nobody."
SERVES = "Only the method that serves types."
WHOLE = "A batch has what its method said in this activation since its last commit, and nothing else."
COMES = "A batch for the field in use comes to it, whole and in order."
COUNT = "A done has the count of the field's commits."
ENTER = "A field is entered where its window gets the focus."
LEAVE = "A field is left where its window loses the focus."
STATE = "A method is told the state of the field that it serves: what it set since its enable, and committed."
CURSOR = "A text whose cursor isn't in it is told to nobody."
NOTICES = {
    "activated": "A method is activated for each field, and each time, anew.",
    "deactivated": "A method is told where the field that it serves is left.",
    "updated": "A method is told what the field commits.",
    "unavailable": "A second method is told that it is unavailable.",
}
GRAB = "The grab of the serving method gets each key, and no other grab."
KEYS = "A key that a grab has reaches no window, any other the window in use."
IN_TURN = "Texts and keys come to a program in the order in which the method gave them."
POPUP = "A popup is told where the cursor is, of the field in use."
ENDS = "A client that keeps to the protocols isn't ended."
REFUSED = "A client that sends what is forbidden ends with an error."
LIVES = "The compositor goes on and answers, whatever clients do."
PREEDIT = "Where a method ends, the field that it served is told so."

# What a user sees of a method's notice that isn't sent, and of one that is sent and not owed.
NOT_TOLD = {
    "activated": ("wasn't told that another field is in use now",
                  "nothing can be composed there, or the method goes on with the composition of the field before"),
    "deactivated": ("wasn't told that the field was left",
                    "the method goes on typing for a field that isn't in use, and keeps the keys"),
    "updated": ("wasn't told the field's new state", "the method composes by an old text"),
    "unavailable": ("wasn't told that another method serves", "two methods take themselves for the one in use"),
}
TOLD_TOO = {
    "activated": "the method composes for a field that isn't in use",
    "deactivated": "nothing can be composed in the field",
    "updated": "the method composes by a text that the field hasn't committed",
    "unavailable": "the only method takes itself for superfluous",
}


class Fault:
    """A difference as a person reads it."""

    def __init__(self, grave, rule, did, user, at=0, name=""):
        self.grave, self.rule, self.did, self.user, self.at, self.name = grave, rule, did, user, at, name

    def line(self):
        return f"{self.grave}: {self.did}; {self.user}"

    def as_dict(self, trace):
        return {"grave": self.grave, "rule": self.rule, "did": self.did, "user": self.user, "step": self.at,
                "line": trace.steps[self.at]["line"] if trace else "", "object": self.name}


# ---- Words ----


def shown(text):
    try:
        return '"' + bytes.fromhex(text).decode() + '"' if len(text) < 80 else f"{len(text) // 2} bytes"
    except ValueError:
        return "bytes that are no text"


def parts(group):
    """A group's edits."""
    _, delete, string, preedit = group[:4]
    found = [f"{delete[0]}, {delete[1]} bytes deleted"] if delete else []
    found += [f"the string {shown(string)}"] if string else []
    found += [f"the preedit {shown(preedit[0])}"] if preedit else []
    return " and ".join(found) or "an empty batch"


def state(unit):
    """The text that a method is told, with cursor, anchor and cause."""
    return f"{shown(unit[1][0])}, {unit[1][1]}, {unit[1][2]}, cause {unit[2]}" if unit[1] else "no text"


def is_bad(unit):
    """A text whose cursor or anchor isn't in it, or is inside a letter."""
    if len(unit) < 2 or not unit[1]:
        return False
    text = b"" if unit[1][0] == "-" else bytes.fromhex(unit[1][0])
    places = [int(place) for place in unit[1][1:]]
    return any(not 0 <= at <= len(text) or at < len(text) and text[at] & 0xC0 == 0x80 for at in places)


def without_common(owed, seen):
    """Both lists without what stands in both, each as often as it does."""
    owed, rest = list(owed), []
    for unit in seen:
        if unit in owed:
            owed.remove(unit)
        else:
            rest.append(unit)
    return owed, rest


class Teller:
    """What a comparison's differences are, in words."""

    def __init__(self, compared):
        self.compared, self.owed, self.trace = compared, compared.owed, compared.trace

    def faults(self, departs=False):
        """What differs, but where a reading of the protocols explains it, and what ended; the gravest first."""
        found = []
        for difference in [] if departs else self.compared.differences:
            for fault in getattr(self, "of_" + difference.kind)(difference):
                fault.at, fault.name = difference.at, difference.name
                found.append(fault)
        found += self.ends() + self.stale_preedits()
        return sorted(found, key=lambda fault: (ORDER.index(fault.grave), fault.at))

    # ---- Fields ----

    def of_field(self, difference):
        at, name, (owed, seen) = difference.at, difference.name, without_common(difference.owed, difference.seen)
        found = []
        for unit in seen:
            match = next((other for other in owed if other[0] == unit[0] == "group"), None)
            if match:
                owed.remove(match)
                found.append(self.other_group(name, match, unit))
            elif unit[0] in ("group", "half"):
                found.append(self.seen_group(at, name, unit))
            else:
                found.append(self.seen_move(name, unit))
        for unit in owed:
            found.append(self.owed_group(name, unit) if unit[0] == "group" else self.owed_move(at, name, unit))
        return found or [Fault(SERIOUS, COMES, f"{name} was told all in another order", "text stands in another order")]

    def seen_group(self, at, name, unit):
        """A group that this field isn't owed: for whom was it meant?"""
        batch, text = self.owed.batch_of(at, unit), bool(unit[1] or unit[2])
        grave, what = (GRAVE, "text") if text else (SERIOUS, "a composition")
        did = f"{name} was told {parts(unit)}"
        if not (text or unit[3]):
            return Fault(LIGHT, PLACE, f"{name} was told an empty done", "the composition that is shown goes away")
        if not batch.serves:
            return Fault(grave, SERVES, f"{did} by a second method", "two methods type at once")
        if batch.field is None:
            return Fault(grave, PLACE, f"{did} by a batch that is meant for nobody",
                         f"{what} comes that nobody is typing")
        if batch.field != name:
            other = self.compared.owners.get(batch.field) != self.compared.owners.get(name)
            where = "another program's window" if other else "another entry of the program"
            return Fault(grave, PLACE, f"{did}, which was meant for {batch.field}", f"{what} comes into {where}")
        if batch.window != self.owed.windows[at]:
            return Fault(grave, PLACE, f"{did}, which was meant for it in {batch.window}",
                         f"{what} comes into another window of the program")
        if self.owed.holders[at] != name:
            return Fault(grave, PLACE, f"{did} while it wasn't in use", f"{what} comes late, where the user has left")
        if batch.is_last:
            return Fault(SERIOUS, PLACE, f"{did} by a method that wasn't told of this activation",
                         "the method types by what it knew of the entry or window before")
        return Fault(grave, PLACE, f"{did}, which was meant for an earlier activation of it",
                     "what was meant for the entry before comes into this one, a password too")

    @staticmethod
    def other_group(name, owed, seen):
        if owed[:4] == seen[:4]:
            return Fault(SERIOUS, COUNT, f"{name} was told {seen[4]} where it had made {owed[4]} commits",
                         "the program may drop the edit, or apply it to another text")
        did = f"{name} was told {parts(seen)}, and was owed {parts(owed)}"
        if any(part and part != other for part, other in zip(seen[1:4], owed[1:4])):
            return Fault(GRAVE, WHOLE, did,
                         "an edit from before stands in another entry or window, or text is deleted there")
        return Fault(SERIOUS, COMES, did, "half an edit is applied")

    @staticmethod
    def owed_group(name, unit):
        if unit[1] or unit[2]:
            user = "text that is typed is lost"
        else:
            user = "the composition isn't shown" if unit[3] else "a composition that was taken back stays on the screen"
        return Fault(SERIOUS, COMES, f"{name} wasn't told {parts(unit)}", user)

    @staticmethod
    def seen_move(name, unit):
        if unit[0] == "enter":
            return Fault(SERIOUS, ENTER, f"{name} was told an enter of {unit[1]}",
                         "the program takes itself for the one that is typed into")
        return Fault(SERIOUS, LEAVE, f"{name} was told a leave of {unit[1]}",
                     "the program stops composing in the window that is in use")

    def owed_move(self, at, name, unit):
        did = f"{name} wasn't told the {unit[0]} of {unit[1]}"
        if unit[0] == "enter" and self.owed.servings[at] is None:
            return Fault(LIGHT, ENTER, did + " while there was no method",
                         "a field that asks before the method comes isn't served when it comes")
        if unit[0] == "enter":
            return Fault(SERIOUS, ENTER, did, "nothing can be composed in the window")
        return Fault(SERIOUS, LEAVE, did,
                     "a preedit stays in the window that was left, and the program takes itself for the one in use")

    # ---- Methods ----

    def of_method(self, difference):
        name, (owed, seen) = difference.name, without_common(difference.owed, difference.seen)
        bad = [unit for unit in seen if is_bad(unit)]
        if bad:
            (text, cursor, anchor), user = bad[0][1], "the method reads past the text, and may end"
            did = f"{name} was told {shown(text)} with the cursor {cursor} and the anchor {anchor}"
            return [Fault(LIGHT, CURSOR, did, user)]
        found = []
        for unit in owed:
            match = next((other for other in seen if other[0] == unit[0] and len(unit) > 1), None)
            if match:
                seen.remove(match)
                found.append(self.other_state(name, unit, match))
            else:
                did, user = NOT_TOLD[unit[0]]
                found.append(Fault(LIGHT if unit[0] == "updated" else SERIOUS, NOTICES[unit[0]], f"{name} {did}", user))
        return found + [Fault(SERIOUS, NOTICES[unit[0]], f"{name} was told that it is {unit[0]}", TOLD_TOO[unit[0]])
                        for unit in seen]

    @staticmethod
    def other_state(name, owed, seen):
        if seen[1] and not owed[1]:
            return Fault(GRAVE, STATE, f"{name} was told the text {shown(seen[1][0])}, which this field never said",
                         "the method sees the text of another entry, a password too")
        if owed[3] != seen[3]:
            did = f"{name} was told the content type {' '.join(seen[3])} and not {' '.join(owed[3])}"
            return Fault(SERIOUS, STATE, did, "a password is taken for plain text, or plain text for a password")
        return Fault(LIGHT, STATE, f"{name} was told {state(seen)} and not {state(owed)}",
                     "the method composes by another text than the field has")

    # ---- Keys and popups ----

    @staticmethod
    def of_grab(difference):
        owed, seen = without_common(difference.owed, difference.seen)
        keys = ", ".join(f"{key} {'pressed' if state == '1' else 'released'}" for _, key, state in owed or seen)
        if owed:
            return [Fault(SERIOUS, GRAB, f"{difference.name} wasn't told the key {keys}",
                          "a key goes past the method: a letter stands where a word should be composed")]
        return [Fault(SERIOUS, GRAB, f"{difference.name} was told the key {keys}",
                      "a method that isn't in use reads what is typed")]

    @staticmethod
    def of_keyboard(difference):
        owed, seen = without_common(difference.owed, difference.seen)
        if seen:
            return [Fault(SERIOUS, KEYS, f"{difference.name} was told the key {seen[0][1]} {seen[0][2]}",
                          "a key is typed though the method took it, or twice, or stays down")]
        lost = (owed or difference.owed)[0]
        return [Fault(SERIOUS, KEYS, f"{difference.name} wasn't told the key {lost[1]} {lost[2]}", "a key is lost")]

    @staticmethod
    def of_order(difference):
        did = f"{difference.name} was {', '.join(difference.seen)} and not {', '.join(difference.owed)}"
        return [Fault(SERIOUS, IN_TURN, did, "a word stands after the key that ended it")]

    @staticmethod
    def of_popup(difference):
        if not difference.seen:
            return [Fault(LIGHT, POPUP, f"{difference.name} wasn't told the cursor's rectangle",
                          "candidates stand in a wrong place, or aren't shown")]
        return [Fault(LIGHT, POPUP, f"{difference.name} was told a rectangle of {' by '.join(difference.seen[0][1:])}",
                      "candidates stand where no cursor is")]

    # ---- Ends ----

    def ends(self):
        """Clients that ended and should not have, or the other way round; the compositor's own end."""
        steps, found, asked = self.trace.steps, [], {}
        for at, step in enumerate(steps):
            words = step["line"].split()
            asked.update({act[1]: at for act in step["acts"] if act[0] == "refused"})
            if words[0] in ("kill", "quit"):
                asked.setdefault(words[1], -1)
        for at, step in enumerate(steps):
            for name, code, face, how in step["ended"]:
                slow = any(name in earlier["paused"] for earlier in steps[: at + 1])
                if name not in asked and not slow and not self.trace.crashed:
                    did = f"{name} was ended ({how} {face} {code})"
                    found.append(Fault(SERIOUS, ENDS, did, "a program or the method is gone", at, name))
        for name, at in asked.items():
            if at >= 0 and not any(ended[0] == name for step in steps for ended in step["ended"]):
                did = f"{name} wasn't ended"
                found.append(Fault(LIGHT, REFUSED, did, "a fault of a program stays unseen", at, name))
        last = len(steps) - 1
        if self.trace.crashed:
            did = f"the compositor ended ({self.trace.crashed})"
            found.append(Fault(GRAVE, LIVES, did, "the whole session is gone", last))
        elif self.trace.stuck:
            did = f"the compositor hung: {self.trace.stuck}"
            found.append(Fault(GRAVE, LIVES, did, "the session stands still", last))
        return found

    def ended_methods(self, step):
        """Whether a method ends in a step."""
        methods = {name for name, kind in self.compared.kinds.items() if kind == "method"}
        return any(act[0] == "drop" and act[1] in methods or
                   act[0] == "gone" and any("@" + self.compared.owners[method] == act[1] for method in methods)
                   for act in step["acts"])

    def stale_preedits(self):
        """Where a method ends, no field goes on showing its preedit."""
        stands, found = {}, []
        for at, step in enumerate(self.trace.steps):
            for _, to, event, words in step["told"]:
                if event == "preedit_string":
                    stands[to] = "pending" if words[0] != "-" else None
                elif event == "done" and to in stands:
                    stands[to] = "shown" if stands[to] == "pending" else None
                elif event == "leave":
                    stands.pop(to, None)
            ended = self.ended_methods(step)
            for field in [field for field, is_shown in stands.items() if is_shown == "shown" and ended]:
                found.append(Fault(LIGHT, PREEDIT, f"{field} was told nothing when the method ended",
                                   "a preedit stays on the screen for good", at, field))
                del stands[field]
        return found
