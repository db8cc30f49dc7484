"""Spells the messages of the protocols, and reads them, for the tools and examples beside it. Not proved."""


def word(number):
    """One argument of 32 bits: a uint, an int, an object or a new id."""
    return (number % 2**32).to_bytes(4, "little")


def text(string):
    """A string argument: its length with the zero byte, its bytes, and what fills them up to whole words."""
    raw = string.encode() + b"\0"
    return word(len(raw)) + raw + bytes(-len(raw) % 4)


def message(receiver, opcode, *body):
    """A whole message: the object that it goes to, its opcode, and its arguments."""
    arguments = b"".join(body)
    return word(receiver) + opcode.to_bytes(2, "little") + (8 + len(arguments)).to_bytes(2, "little") + arguments


def bind(registry, name, interface, made):
    """wl_registry.bind of the global of that name, in version 1."""
    return message(registry, 0, word(name), text(interface), word(1), word(made))


def application():
    """What an application sends first: it binds its globals, and makes the surface 6 and the text input 7."""
    return [
        message(1, 1, word(2)),
        bind(2, 1, "wl_compositor", 3),
        bind(2, 2, "wl_seat", 4),
        bind(2, 3, "zwp_text_input_manager_v3", 5),
        message(3, 0, word(6)),
        message(5, 1, word(7), word(4)),
    ]


def input_method():
    """What an input method sends first: it binds its globals, and makes the input method 5."""
    return [
        message(1, 1, word(2)),
        bind(2, 2, "wl_seat", 3),
        bind(2, 4, "zwp_input_method_manager_v2", 4),
        message(4, 0, word(3), word(5)),
    ]


def keyed_method():
    """What an input method sends first that has a virtual keyboard: its method is 5 as before, and its board 7."""
    return input_method() + [bind(2, 5, "zwp_virtual_keyboard_manager_v1", 6), message(6, 0, word(3), word(7))]


def board_keymap(form, size, board=7):
    """zwp_virtual_keyboard_v1.keymap, whose descriptor is the first token that waits."""
    return message(board, 0, word(form), word(size))


def board_key(time, key, state, board=7):
    return message(board, 1, word(time), word(key), word(state))


def enable(field=7):
    return message(field, 1)


def disable(field=7):
    return message(field, 2)


def surrounding(string, cursor, anchor, field=7):
    return message(field, 3, text(string), word(cursor), word(anchor))


def cursor_rectangle(x, y, width, height, field=7):
    return message(field, 6, word(x), word(y), word(width), word(height))


def commit(field=7):
    return message(field, 7)


def commit_string(string, method=5):
    return message(method, 0, text(string))


def preedit(string, begin, end, method=5):
    return message(method, 1, text(string), word(begin), word(end))


def delete(before, after, method=5):
    return message(method, 2, word(before), word(after))


def commit_batch(serial, method=5):
    """zwp_input_method_v2.commit: all that was said since the last one is one batch, for the done of that number."""
    return message(method, 3, word(serial))
