#!/usr/bin/env python3
"""Trials of the plug-in for Weston with real programs and fcitx5 (pinyin): tests/weston_trials.py FOLDER [NAME..]

FOLDER has what tests/weston.sh builds. Prints a line for each trial. Trials of one kind of desk share it, in order.
WESTON_SHOTS names a folder for screenshots; WESTON_PRELOAD what Weston alone preloads, as a sanitizer.
"""
import os
import signal
import sys
import tempfile
import time
import traceback

import weston_candidates
import weston_methods
import weston_typing
from weston_cases import TRIALS, same
from weston_desk import Desk

DESKS = {
    "desktop": {},
    "kiosk": {"shell": "kiosk"},
    "scaled": {"scale": 2},
    "two": {"outputs": 2},
    "user": {"methods": "user", "method": None},
    "failing": {"shell": "kiosk", "method": ("/bin/false",)},
    "twice": {"modules": "{built}/wlim.so,{built}/wlim.so,{built}/drive.so"},
}
MODULES = (weston_typing, weston_candidates, weston_methods)  # each adds its own to TRIALS


def out_of_time(*_):
    raise TimeoutError("out of time")


def open_desk(built, kind, work):
    how = {name: value.format(built=built) if isinstance(value, str) else value for name, value in DESKS[kind].items()}
    return Desk(built, work, **how)


def show_logs(desk):
    for process in desk.started:
        print(f"-- {process.args[:6]}\n{desk.read(process.log)[-1200:]}")
    print(f"-- the method\n{desk.read('method.log')[-600:]}")


def run_kind(built, kind, trials):
    """The trials of a kind of desk; how many failed."""
    failed, desk = 0, None
    for number, function in enumerate(trials):
        work = tempfile.TemporaryDirectory() if desk is None else work
        began = time.monotonic()
        signal.alarm(200)
        try:
            desk = desk or open_desk(built, kind, work.name)
            function(desk)
            if number + 1 == len(trials):
                code = desk.end()
                same("how Weston ended", code, 0)
                desk = None
            print(f"{kind}: {function.__name__}: {time.monotonic() - began:.1f} s", flush=True)
        except Exception as error:  # whatever it is, the desk ends, and the next trial has a new one
            failed += 1
            print(f"{kind}: {function.__name__} FAILED: {error}", flush=True)
            traceback.print_tb(error.__traceback__, -2, sys.stdout)
            if desk:
                show_logs(desk)
                desk.end()
                desk = None
        finally:
            signal.alarm(0)
    return failed


def main():
    built, names = os.path.abspath(sys.argv[1]), sys.argv[2:]
    for end in (signal.SIGALRM, signal.SIGTERM):
        signal.signal(end, out_of_time)
    failed = count = 0
    for kind in DESKS:
        trials = [function for of, function in TRIALS if of == kind and (not names or function.__name__ in names)]
        count += len(trials)
        failed += run_kind(built, kind, trials)
    print(f"{count - failed} passed, {failed} failed")
    return failed != 0


sys.exit(main())
