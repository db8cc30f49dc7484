#!/usr/bin/env python3
"""Plants faults in copies of the plug-in for Weston and of its glue: each must fail its trial of tests/weston_trials.py.

    tests/weston_faults.py FOLDER [NAME..]

FOLDER has what tests/weston.sh builds.
"""
import os
import shutil
import subprocess
import sys
import tempfile

TOP = os.path.dirname(os.path.dirname(os.path.abspath(__file__)))
PLUGIN, GLUE = "modules/weston", "examples/embed"

# Each fault: its name, the file, the text there, what stands in its place, and the trial that fails.
FAULTS = [
    ("modifiers are not followed", f"{PLUGIN}/keyboard.c", "\tfollow_modifiers();\n\tfollow_focus();", "\tfollow_focus();",
     "modifiers_are_given_back"),
    ("releases are not followed", f"{PLUGIN}/keyboard.c", "\tfollow_keys(in_hand, was_down);\n", "",
     "a_key_whose_release_another_grab_had"),
    ("a release comes twice", f"{PLUGIN}/keyboard.c", "\tif (was_down)\n", "\tif (!in_hand)\n",
     "keys_of_a_grab_reach_no_window"),
    ("nothing is hidden", f"{PLUGIN}/popups.c", "\tweston_hide(popup->surface);\n", "", "what_is_not_placed_is_not_shown"),
    ("the glue hides nothing", f"{GLUE}/wlim_glue.c", "\t\t\thide(popup);\n", "\t\t\tpopup->is_shown = false;\n",
     "what_is_not_placed_is_not_shown"),
    ("a popup that ends stays", f"{GLUE}/wlim_glue.c", "\thide(object);\n", "", "a_popup_ends"),
    ("popups have no size", f"{PLUGIN}/popups.c",
     "\twlim_glue_popup_size(plugin.glue, surface->resource, surface->width, surface->height);\n", "\t(void)surface;\n",
     "candidates_stay_inside"),
    ("all are trusted", f"{PLUGIN}/main.c", "return process == getpid() || (by_user && user == getuid());",
     "return process || by_user;", "a_stranger_is_no_method"),
    ("the glue asks nobody", f"{GLUE}/wlim_glue.c", "manager->trusted = glue->hooks->trusted && ",
     "manager->trusted = true || ", "a_stranger_is_no_method"),
    ("a menu's grab is left", f"{PLUGIN}/keyboard.c", "\t\tweston_keyboard_end_grab(keyboard);\n", "\t\treturn;\n",
     "a_popover_is_typed_into"),
    ("no keymap comes back", f"{PLUGIN}/keyboard.c", "\tif (shown) {\n", "\tif (shown && !keyboard) {\n",
     "keys_have_their_own_keymap"),
    ("keys have no modifiers of their own", f"{GLUE}/wlim_glue.c",
     "|| !same_modifiers(&glue->shown, from))", "&& !same_modifiers(&glue->shown, from))", "keys_have_their_own_modifiers"),
    ("areas have no origin", f"{GLUE}/wlim_glue.c", "is[0] - origin[0], is[1] - origin[1]", "is[0] + 0 * origin[0], is[1]",
     "candidates_on_the_second_output"),
    ("a method isn't started again", f"{PLUGIN}/main.c", "\tif (method.starts < STARTS_MOST)\n", "\tif (method.starts < 1)\n",
     "kiosk_starts_the_method_again"),
]


def plant(work, file, old, new):
    """Copies of the plug-in and the glue, with the fault."""
    for folder in (PLUGIN, GLUE):
        shutil.copytree(f"{TOP}/{folder}", f"{work}/{folder}")
    with open(f"{work}/{file}", encoding="utf-8") as source:
        text = source.read()
    if text.count(old) != 1:
        raise SystemExit(f"{file} has {old!r} {text.count(old)} times")
    with open(f"{work}/{file}", "w", encoding="utf-8") as source:
        source.write(text.replace(old, new))


def is_found(built, file, old, new, trial):
    """Whether the trial fails with the fault."""
    version = os.path.basename(built)
    with tempfile.TemporaryDirectory() as work:
        plant(work, file, old, new)
        shutil.copytree(built, f"{work}/out/{version}")
        os.symlink(f"{os.path.dirname(built)}/protocols", f"{work}/out/protocols")
        os.remove(f"{work}/out/{version}/wlim.so")
        subprocess.run(["make", "-s", "-C", f"{TOP}/{PLUGIN}", f"OUT={work}/out", f"HERE={work}/{PLUGIN}",
                        f"GLUE={work}/{GLUE}", "CFLAGS=-O1 -g -w"], check=True)
        ran = subprocess.run([f"{TOP}/tests/weston_trials.py", f"{work}/out/{version}", trial], capture_output=True,
                             text=True, check=False)
        return f"{trial} FAILED" in ran.stdout


def main():
    built, names = os.path.abspath(sys.argv[1]), sys.argv[2:]
    missed = 0
    for name, file, old, new, trial in FAULTS:
        if names and name not in names:
            continue
        found = is_found(built, file, old, new, trial)
        missed += not found
        print(f"{name}: {trial} {'fails' if found else 'DOES NOT FAIL'}", flush=True)
    return missed != 0


sys.exit(main())
