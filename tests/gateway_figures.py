#!/usr/bin/env python3
"""Measures the gateway beside the compositor alone, in one run: tests/gateway_figures.py FOLDER [TURNS]

FOLDER has `wlim-gateway`, `speed` and `protocols`. All runs on one processor: over several, where each is put decides.
"""
import os
import subprocess
import sys
import tempfile

from gateway_client import keymap_text
from gateway_desk import Desk


def main():
    os.sched_setaffinity(0, {max(os.sched_getaffinity(0))})
    built, turns = os.path.abspath(sys.argv[1]), sys.argv[2] if len(sys.argv) > 2 else "20"
    with tempfile.TemporaryDirectory() as work:
        desk = Desk(built, work)
        try:
            desk.start_gateway(logs=False, records=False)
            sockets = [desk.path(name) for name in ("wayland-1", "wlim-programs", "wlim-methods")]
            run = subprocess.run([built + "/speed", *sockets, turns], input=keymap_text(), env=desk.env, check=False)
            if desk.end_gateway() != 0:
                return 1
        finally:
            desk.end()
    return run.returncode


sys.exit(main())
