#!/usr/bin/env python3
"""The shell of the libwayland example: it focuses the surface that the field prints."""
import re
import socket
import sys
import time

door_path, printed = sys.argv[1:]
link = socket.socket(socket.AF_UNIX)
for _ in range(500):
    try:
        link.connect(door_path)
        break
    except OSError:
        time.sleep(0.02)
while True:
    try:
        with open(printed) as file:
            found = re.search(r"surface (\d+)", file.read())
    except FileNotFoundError:
        found = None
    if found:
        break
    time.sleep(0.05)
link.sendall(f"focus 1 {found.group(1)}\n".encode())
print("the shell's line was entry", link.recv(64).decode().strip())
