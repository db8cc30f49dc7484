"""A small Wayland client for the gateway's tests: raw messages by the protocols' XML files, no library between."""
import array
import ctypes
import importlib.util
import os
import select
import socket
import struct
import time

HERE = os.path.dirname(os.path.abspath(__file__))


def tables(files):
    """The interfaces of XML files, as gateway/tables.py reads them."""
    spec = importlib.util.spec_from_file_location("tables", HERE + "/../gateway/tables.py")
    module = importlib.util.module_from_spec(spec)
    spec.loader.exec_module(module)
    return module.read(files)


def words(*numbers):
    return struct.pack(f"<{len(numbers)}I", *(number & 0xFFFFFFFF for number in numbers))


def text(value):
    if value is None:
        return words(0)
    data = value.encode() + b"\0"
    return words(len(data)) + data + bytes(-len(data) % 4)


def message(object_id, opcode, body=b""):
    return words(object_id, (8 + len(body)) << 16 | opcode) + body


def keymap_text(layout=b"us"):
    """A keymap of xkbcommon's, as bytes with a zero behind."""
    library = ctypes.CDLL("libxkbcommon.so.0")
    for name in ("xkb_context_new", "xkb_keymap_new_from_names", "xkb_keymap_get_as_string"):
        getattr(library, name).restype = ctypes.c_void_p
    names = (ctypes.c_char_p * 5)(None, None, layout, None, None)
    context = ctypes.c_void_p(library.xkb_context_new(0))
    keymap = ctypes.c_void_p(library.xkb_keymap_new_from_names(context, names, 0))
    return ctypes.string_at(library.xkb_keymap_get_as_string(keymap, 1)) + b"\0"


def memory_file(data):
    file = os.memfd_create("keymap")
    os.write(file, data)
    return file


class Ended(Exception):
    """The connection ended; what stands in it is the error that was told, if one was."""


class Client:
    """A connection. `faces` has the interface of each id, `heard` what came and wasn't looked at."""

    def __init__(self, path, interfaces):
        self.interfaces, self.faces, self.heard, self.error = interfaces, {1: "wl_display"}, [], None
        self.socket = socket.socket(socket.AF_UNIX)
        self.socket.connect(path)
        self.buffer, self.files, self.last, self.globals = b"", [], 1, {}
        self.registry = self.send(1, "get_registry")
        self.roundtrip()

    def new(self, face):
        self.last += 1
        self.faces[self.last] = face
        return self.last

    def send(self, object_id, name, *arguments, face=None):
        """Sends a request by its name, where `*` isn't given a new id: it is made and answered."""
        face_rows = self.interfaces[self.faces[object_id]][1]
        opcode = next(at for at, row in enumerate(face_rows) if row[0] == name)
        _, kinds, made, _ = face_rows[opcode]
        body, files, new, given = b"", [], None, list(arguments)
        for kind in kinds:
            if kind == "n":
                new = self.new(made or face)
                body += words(new)
            elif kind == "h":
                files.append(given.pop(0))
            elif kind in "sS":
                body += text(given.pop(0))
            else:
                body += words(given.pop(0))
        self.raw(message(object_id, opcode, body), files)
        return new

    def raw(self, data, files=()):
        rights = [(socket.SOL_SOCKET, socket.SCM_RIGHTS, array.array("i", files))] if files else []
        try:
            self.socket.sendmsg([data], rights)
        except (BrokenPipeError, ConnectionResetError):
            while True:  # what was told before the end
                self.read(1)

    def bind(self, face, version=None):
        name, highest = self.globals[face]
        return self.send(self.registry, "bind", name, face, version or highest, face=face)

    def read(self, seconds):
        """Reads once, waiting so long; what came stands in `heard` as (id, name, arguments)."""
        if not select.select([self.socket], [], [], max(seconds, 0))[0]:
            return
        try:
            data, extra, _, _ = self.socket.recvmsg(65536, socket.CMSG_SPACE(4 * 64))
        except ConnectionResetError:
            data, extra = b"", []
        for _, _, part in extra:
            self.files += array.array("i", part[:len(part) // 4 * 4])
        if not data:
            raise Ended(self.error)
        self.buffer += data
        while len(self.buffer) >= 8:
            object_id, word = struct.unpack_from("<II", self.buffer)
            if len(self.buffer) < word >> 16:
                break
            body, self.buffer = self.buffer[8:word >> 16], self.buffer[word >> 16:]
            self.event(object_id, word & 0xFFFF, body)

    def event(self, object_id, opcode, body):
        name, kinds, made, _ = self.interfaces[self.faces[object_id]][2][opcode]
        arguments, at = [], 0
        for kind in kinds:
            if kind == "h":
                arguments.append(self.files.pop(0))
                continue
            number, at = struct.unpack_from("<I", body, at)[0], at + 4
            if kind in "sSa":
                data, at = body[at:at + number], at + (number + 3) // 4 * 4
                arguments.append(data[:-1].decode() if kind != "a" else data)
            else:
                arguments.append(number - (1 << 32) if kind == "i" and number >> 31 else number)
            if kind == "n":
                self.faces[number] = made
        if (object_id, name) == (1, "error"):
            self.error = tuple(arguments)
        elif name == "global":
            self.globals[arguments[1]] = (arguments[0], arguments[2])
        elif name == "ping":
            self.send(object_id, "pong", arguments[0])
        self.heard.append((object_id, name, arguments))

    def until(self, what, holds, seconds=10):
        """Reads until it holds of the client, and answers what it says."""
        ends = time.monotonic() + seconds
        while not (found := holds()):
            if time.monotonic() > ends:
                raise TimeoutError(what)
            self.read(min(0.1, ends - time.monotonic()))
        return found

    def told(self, object_id, name):
        """The arguments of the first such event, which is looked at then; None: none came."""
        for at, (to, event, arguments) in enumerate(self.heard):
            if (to, event) == (object_id, name):
                del self.heard[at]
                return arguments or [None]
        return None

    def wait(self, object_id, name, seconds=10):
        return self.until(name, lambda: self.told(object_id, name), seconds)

    def wait_last(self, object_id, name):
        """The last of such events, after a round trip."""
        self.roundtrip()
        last = self.wait(object_id, name)
        while found := self.told(object_id, name):
            last = found
        return last

    def roundtrip(self):
        self.wait(self.send(1, "sync"), "done")

    def close(self):
        self.socket.close()
        for file in self.files:
            os.close(file)


class Window(Client):
    """A program with one window and one text input."""

    def __init__(self, path, interfaces, name):
        super().__init__(path, interfaces)
        self.seat = self.bind("wl_seat")
        self.keyboard = self.send(self.seat, "get_keyboard")
        compositor, shell, memory = self.bind("wl_compositor"), self.bind("xdg_wm_base"), self.bind("wl_shm")
        self.surface = self.send(compositor, "create_surface")
        self.xdg = xdg = self.send(shell, "get_xdg_surface", self.surface)
        self.top = self.send(xdg, "get_toplevel")
        self.send(self.top, "set_app_id", name)
        self.send(self.surface, "commit")
        self.send(xdg, "ack_configure", self.wait(xdg, "configure")[0])
        file = os.memfd_create("pixels")
        os.ftruncate(file, 4096)
        pool = self.send(memory, "create_pool", file, 4096)
        self.send(self.surface, "attach", self.send(pool, "create_buffer", 0, 8, 8, 32, 0), 0, 0)
        self.send(self.surface, "commit")
        os.close(file)
        self.roundtrip()

    def make_field(self):
        self.field = self.send(self.bind("zwp_text_input_manager_v3"), "get_text_input", self.seat)
        return self.field

    def enable(self):
        self.send(self.field, "enable")
        self.send(self.field, "commit")


class Typist(Client):
    """A keyboard at the compositor itself, beside the gateway."""

    def __init__(self, path, interfaces):
        super().__init__(path, interfaces)
        manager = self.bind("zwp_virtual_keyboard_manager_v1")
        self.board = self.send(manager, "create_virtual_keyboard", self.bind("wl_seat"))
        keymap = keymap_text()
        file = memory_file(keymap)
        self.send(self.board, "keymap", 1, file, len(keymap))
        os.close(file)
        self.roundtrip()

    def key(self, key, state):
        self.send(self.board, "key", int(time.monotonic() * 1000) & 0x7FFFFFFF, key, state)

    def modifiers(self, depressed):
        self.send(self.board, "modifiers", depressed, 0, 0, 0)


class Method(Client):
    """An input method that gets all keys, and gives back those that it doesn't want."""

    def __init__(self, path, interfaces):
        super().__init__(path, interfaces)
        seat = self.bind("wl_seat")
        self.method = self.send(self.bind("zwp_input_method_manager_v2"), "get_input_method", seat)
        self.board = self.send(self.bind("zwp_virtual_keyboard_manager_v1"), "create_virtual_keyboard", seat)
        self.dones, self.active, self.grab = 0, False, None
        self.roundtrip()

    def event(self, object_id, opcode, body):
        super().event(object_id, opcode, body)
        _, name, arguments = self.heard[-1]
        if object_id == getattr(self, "method", None):
            self.dones += name == "done"
            self.active = {"activate": True, "deactivate": False}.get(name, self.active)
        elif object_id == getattr(self, "grab", None) and name == "keymap":
            self.send(self.board, "keymap", arguments[0], arguments[1], arguments[2])

    def take_keys(self):
        self.grab = self.send(self.method, "grab_keyboard")

    def commit(self, string=None, preedit=None):
        if string is not None:
            self.send(self.method, "commit_string", string)
        if preedit is not None:
            self.send(self.method, "set_preedit_string", preedit, len(preedit.encode()), len(preedit.encode()))
        self.send(self.method, "commit", self.dones)
