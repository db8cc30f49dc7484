#!/usr/bin/env python3
"""Lets an unmodified libwayland client type through wlim: adapter.py DOOR SOCKET [TOKEN=FILE ..]

DOOR is the socket of `wlim serve` for apps or for methods. The adapter listens at SOCKET for one client, which is started
with WAYLAND_DISPLAY=SOCKET. Bytes go both ways as frames. A descriptor of the client becomes a token, and a token that
comes back becomes the descriptor. The token of a shell's `keymap` line stands for the FILE that is named for it.

Nothing here is verified.
"""
import array
import os
import socket
import sys
import threading

from frames import MOST_BYTES, frame, read_frame

MOST_DESCRIPTORS = 28  # of one message of libwayland's
FIRST_TOKEN = 1 << 20  # below it are the tokens that are named on the command line


class Descriptors:
    """The descriptors that tokens stand for."""

    def __init__(self, files):
        self.files = files
        self.held = {}
        self.next = FIRST_TOKEN

    def token(self, descriptor):
        self.next += 1
        self.held[self.next] = descriptor
        return self.next

    def descriptor(self, token):
        """A descriptor to send, which is closed then."""
        if token in self.held:
            return self.held.pop(token)
        return os.open(self.files.get(token, os.devnull), os.O_RDONLY)


def from_client(client, door, descriptors):
    """Frames what the client sends until it ends."""
    room = socket.CMSG_SPACE(4 * MOST_DESCRIPTORS)
    while True:
        data, extra, _, _ = client.recvmsg(MOST_BYTES, room)
        if not data:
            break
        numbers = array.array("i")
        for level, kind, body in extra:
            if (level, kind) == (socket.SOL_SOCKET, socket.SCM_RIGHTS):
                numbers.frombytes(body[: len(body) - len(body) % 4])
        door.sendall(frame(data, [descriptors.token(number) for number in numbers]))
    door.shutdown(socket.SHUT_WR)


def to_client(client, door, descriptors):
    """Sends what stands in wlim's frames until they end."""
    while True:
        got = read_frame(door)
        if got is None:
            break
        data, tokens = got
        numbers = array.array("i", [descriptors.descriptor(token) for token in tokens])
        rights = [(socket.SOL_SOCKET, socket.SCM_RIGHTS, numbers)] if tokens else []
        sent = client.sendmsg([data], rights)
        client.sendall(data[sent:])
        for number in numbers:
            os.close(number)
    client.shutdown(socket.SHUT_WR)


def main():
    door_path, path, *named = sys.argv[1:]
    files = {int(token): file for token, file in (pair.split("=", 1) for pair in named)}
    descriptors = Descriptors(files)
    listener = socket.socket(socket.AF_UNIX)
    listener.bind(path)
    listener.listen(1)
    client, _ = listener.accept()
    os.unlink(path)
    door = socket.socket(socket.AF_UNIX)
    door.connect(door_path)
    back = threading.Thread(target=to_client, args=(client, door, descriptors))
    back.start()
    from_client(client, door, descriptors)
    back.join()


if __name__ == "__main__":
    main()
