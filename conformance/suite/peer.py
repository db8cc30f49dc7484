"""A client program, driven by lines: see client/client.c."""
import os
import select
import subprocess
import time


class NoAnswer(Exception):
    """The compositor didn't answer in time."""


class Peer:
    """A client that is connected. What it was told waits in `heard`: (microseconds, object, event, arguments)."""

    SECONDS = 5

    def __init__(self, program, name, environment):
        self.name, self.heard, self.ended, self.paused, self.wrong, self.globals = name, [], None, False, [], {}
        self.hung = self.flushed = False
        self.lines, self.syncs, self.synced, self.ready = b"", 0, 0, False
        self.process = subprocess.Popen(
            [program],
            env=environment,
            stdin=subprocess.PIPE,
            stdout=subprocess.PIPE,
            stderr=subprocess.DEVNULL,
            start_new_session=True,
        )
        os.set_blocking(self.process.stdout.fileno(), False)
        self.until(lambda: self.ready or self.wrong)
        if not self.ready:
            raise NoAnswer(f"{name} can't connect")

    def send(self, *lines):
        try:
            self.process.stdin.write("".join(line + "\n" for line in lines).encode())
            self.process.stdin.flush()
        except BrokenPipeError:
            self.gone()

    def gone(self):
        self.ended = self.ended or ["-", "-", "killed"]

    def read(self, seconds):
        """Reads once what the program says, waiting so long."""
        if not select.select([self.process.stdout], [], [], max(seconds, 0))[0]:
            return
        data = self.process.stdout.read()
        if not data:
            self.gone()
            self.ready = True
            time.sleep(0.001)
            return
        *lines, self.lines = (self.lines + data).split(b"\n")
        for line in lines:
            self.line(line.decode().split(" "))

    def line(self, words):
        if words[0] == "told":
            self.heard.append((int(words[1]), words[2], words[3], words[4:]))
        elif words[0] == "synced":
            self.synced = int(words[1])
        elif words[0] == "flushed":
            self.flushed = True
        elif words[0] == "ended":
            self.ended = words[1:]
        elif words[0] == "hung":
            self.hung = True
        elif words[0] == "ready":
            self.ready = True
        elif words[0] == "global":
            self.globals[words[1]] = int(words[2])
        else:
            self.wrong.append(" ".join(words))

    def until(self, holds, seconds=None):
        ends = time.monotonic() + (seconds or self.SECONDS)
        while not holds():
            left = ends - time.monotonic()
            if left < 0:
                raise NoAnswer(f"{self.name} got no answer")
            self.read(left)

    def send_all(self):
        """Sends what waits, without reading."""
        self.flushed = False
        self.send("flush")
        self.until(lambda: self.flushed or self.ended)

    def ask_sync(self):
        if self.ended or self.paused:
            return
        self.syncs += 1
        self.send(f"sync {self.syncs}")

    def wait_sync(self):
        if not self.ended and not self.paused:
            self.until(lambda: self.synced == self.syncs or self.ended)

    def take(self):
        heard, self.heard = self.heard, []
        return heard

    def list_globals(self):
        self.send("globals")
        self.ask_sync()
        self.wait_sync()
        return self.globals

    def kill(self):
        self.process.kill()
        self.process.wait(10)
        self.ended = self.ended or ["-", "-", "killed"]

    def quit(self):
        try:
            self.process.stdin.close()
        except BrokenPipeError:
            pass
        try:
            self.process.wait(5)
        except subprocess.TimeoutExpired:
            self.process.kill()
            self.process.wait(5)
        self.ended = self.ended or ["-", "-", "quit"]

    def end(self):
        if self.process.poll() is None:
            self.process.kill()
            self.process.wait(10)
        self.process.stdout.close()
        try:
            self.process.stdin.close()
        except BrokenPipeError:
            pass
