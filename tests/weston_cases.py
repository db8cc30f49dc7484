"""What the trials of the plug-in for Weston share: the list of them, and steps."""

TRIALS = []


def trial(*kinds):
    def of(function):
        TRIALS.extend((kind, function) for kind in kinds)
        return function
    return of


def same(what, is_, wanted):
    if is_ != wanted:
        raise AssertionError(f"{what}: {is_!r}, not {wanted!r}")


def inside(what, inner, outer):
    x, y, width, height = inner
    if not (outer[0] <= x and outer[1] <= y and x + width <= outer[0] + outer[2] and y + height <= outer[1] + outer[3]):
        raise AssertionError(f"{what}: {inner} isn't inside of {outer}")


def window(desk, name, kind="foot"):
    """A window that is there, and made where it isn't."""
    if not desk.window(name):
        desk.focused = None
        return desk.start_foot(name) if kind == "foot" else desk.start_entry(name, kind)
    return None


def both(desk):
    window(desk, "term")
    window(desk, "entry", "entry")
    if not desk.loaded:
        desk.ask("focus term")
        desk.ready("term")
        desk.loaded = True


def clear(desk, name):
    """Nothing is composed there any more."""
    desk.focus(name)
    desk.type("\x1b")
    desk.no_popup()


def again(desk):
    """What was started again composes."""
    desk.ready("term")
    desk.typed("term", "nihao ", "你好")
