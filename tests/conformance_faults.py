#!/usr/bin/env python3
"""Plants faults in a copy of the example compositor, one at a time: a scenario of the fault's family has to find each.
Then what the protocols say where wlim departs from them: that must be no fault, and be listed apart.

    tests/conformance_faults.py [NAME..]

`make libwlim` and `make build` come before, or WLIM names the program. A fault is a family, and what is put in the
place of which lines of examples/embed.
"""
import json
import os
import shutil
import subprocess
import sys

ROOT = os.path.abspath(os.path.join(os.path.dirname(os.path.abspath(__file__)), ".."))
MADE = ROOT + "/out/conformance/faults"
GLUE, COMPOSITOR = "wlim_glue.c", "compositor.c"
COMMIT = "{ REQUEST(mcommit, serial - object->before); }"
ENABLE = """static void field_enable(struct wl_client *client, struct wl_resource *resource)
{ REQUEST(enable); }"""
BOARD_KEY = "wlim_vkey(board->glue->seat, board->label, time, key, state)"
NO_KEYMAP = "wl_resource_post_error(board->resource, ZWP_VIRTUAL_KEYBOARD_V1_ERROR_NO_KEYMAP,"
STRING = """static void method_string(struct wl_client *client, struct wl_resource *resource, const char *text)
{ REQUEST(mstring, text, strlen(text)); }"""

FAULTS = {
    "each serial is taken for the last": (
        "serials",
        [(GLUE, COMMIT, "{ (void)serial; REQUEST(mcommit, object->count - object->before); }")],
    ),
    "a field's done has another count": (
        "serials",
        [(GLUE, "zwp_text_input_v3_send_done(to, field->before + event->first)", "zwp_text_input_v3_send_done(to, 1)")],
    ),
    "an edit is kept until its commit, whatever is enabled meanwhile": (
        "edits",
        [
            (GLUE, STRING, "static char kept[4096];\n" + STRING.replace("{ REQ", "{ strncpy(kept, text, 4095); REQ")),
            (
                GLUE,
                COMMIT,
                """{
	struct object *of = wl_resource_get_user_data(resource);
	if (kept[0])
		wlim_mstring(of->glue->seat, of->label, kept, strlen(kept));
	kept[0] = 0;
	REQUEST(mcommit, serial - object->before);
}""",
            ),
        ],
    ),
    "a deactivation is not sent": (
        "focus",
        [
            (
                GLUE,
                "case WLIM_DEACTIVATE: zwp_input_method_v2_send_deactivate(to); break;",
                "case WLIM_DEACTIVATE: break;",
            )
        ],
    ),
    "the glue is told no move between windows of one program": (
        "windows",
        [
            (
                COMPOSITOR,
                "	wlim_glue_focus(self.glue, event->new_surface ? event->new_surface->resource : NULL);",
                """	if (event->new_surface && event->old_surface && wl_resource_get_client(event->new_surface->resource) ==
			wl_resource_get_client(event->old_surface->resource))
		return;
	wlim_glue_focus(self.glue, event->new_surface ? event->new_surface->resource : NULL);""",
            )
        ],
    ),
    "a new entry by the same text input is not told": (
        "entries",
        [
            (
                GLUE,
                ENABLE,
                """static void field_enable(struct wl_client *client, struct wl_resource *resource)
{
	struct object *of = wl_resource_get_user_data(resource);
	struct wlim_shown shown;
	if (wlim_look(of->glue->seat, &shown) && shown.holder == of->label)
		return;
	REQUEST(enable);
}""",
            )
        ],
    ),
    "the text of the entry before is told": (
        "entries",
        [
            (
                GLUE,
                "case WLIM_ACTIVATE: zwp_input_method_v2_send_activate(to); break;",
                """case WLIM_ACTIVATE:
		zwp_input_method_v2_send_activate(to);
		if (said[0])
			zwp_input_method_v2_send_surrounding_text(to, said, 0, 0);
		break;""",
            ),
            (GLUE, "	case WLIM_SURROUNDING:", "	case WLIM_SURROUNDING:\n		strncpy(said, text, 4095);\n"),
            (GLUE, "static void tell_method(", "static char said[4096];\nstatic void tell_method("),
        ],
    ),
    "a second method is not told": ("methods", [(GLUE, "		zwp_input_method_v2_send_unavailable(to);\n", "")]),
    "a second method types too": (
        "methods",
        [
            (
                GLUE,
                STRING,
                """static void method_string(struct wl_client *client, struct wl_resource *resource, const char *text)
{
	struct object *of = wl_resource_get_user_data(resource);
	struct wlim_shown shown;
	wlim_look(of->glue->seat, &shown);
	ACT(of->glue, client, wlim_mstring(of->glue->seat, shown.serving, text, strlen(text)));
}""",
            )
        ],
    ),
    "a field is told nothing when its method ends": (
        "ends",
        [(GLUE, "		glue->focus_owed = LEAVE;\n", "		glue->focus_owed = NOTHING;\n")],
    ),
    "a key that is grabbed passes too": (
        "keys",
        [
            (
                GLUE,
                "	case WLIM_KEY:\n",
                "	case WLIM_KEY:\n		glue->hooks->key(glue->data, glue->from, event->second, event->third, event->fourth);\n",
            )
        ],
    ),
    "a key that is given back is lost": ("keys", [(GLUE, BOARD_KEY, "((void)time, (void)key, (int64_t)0)")]),
    "popups are told nothing": (
        "popups",
        [
            (
                GLUE,
                "	else if (event->kind == WLIM_POPUP_RECT)\n",
                "	else if (event->kind == WLIM_POPUP_RECT && !object)\n",
            )
        ],
    ),
    "each tenth batch is lost": (
        "slow",
        [
            (
                GLUE,
                "	struct wl_resource *to = field->resource;\n",
                """	struct wl_resource *to = field->resource;
	static int groups;
	if (event->kind >= WLIM_PREEDIT && (groups += event->kind == WLIM_FIELD_DONE) % 10 == 9)
		return;
""",
            )
        ],
    ),
    "a virtual keyboard needs no keymap": ("bad", [(GLUE, NO_KEYMAP, "if (0) " + NO_KEYMAP)]),
}

DEPARTURES = {
    "a batch has to name the last done": (
        "serials",
        [(GLUE, COMMIT, "{ REQUEST(mcommit, serial == object->count ? serial - object->before : 0); }")],
    ),
    "a second enable is ignored while a field holds the seat": (
        "entries",
        [
            (
                GLUE,
                ENABLE,
                """static void field_enable(struct wl_client *client, struct wl_resource *resource)
{
	struct object *of = wl_resource_get_user_data(resource);
	struct wlim_shown shown;
	if (wlim_look(of->glue->seat, &shown) && shown.holder && shown.holder != of->label)
		return;
	REQUEST(enable);
}""",
            )
        ],
    ),
}


def planted(changes):
    """A copy of the example with the fault."""
    folder = MADE + "/embed"
    shutil.rmtree(folder, ignore_errors=True)
    shutil.copytree(ROOT + "/examples/embed", folder)
    for name, old, new in changes:
        with open(f"{folder}/{name}", encoding="utf-8") as file:
            text = file.read()
        if text.count(old) != 1:
            raise SystemExit(f"{name} has these lines {text.count(old)} times:\n{old}")
        with open(f"{folder}/{name}", "w", encoding="utf-8") as file:
            file.write(text.replace(old, new))
    return folder


def results(family, compositor, found):
    """What came of the scenarios of a family at a compositor."""
    subprocess.run(
        [ROOT + "/conformance/run.sh", "--only", family + ": ", "--json", found, "--", compositor],
        stdout=subprocess.DEVNULL,
        stderr=subprocess.DEVNULL,
        timeout=280,
        check=False,
    )
    with open(found, encoding="utf-8") as file:
        return json.load(file)["scenarios"]


def failed(*words):
    return [row for row in results(*words) if row["result"] == "failed"]


def build(folder, to):
    env = dict(os.environ, EMBED_FLAGS="-Wno-error -Wno-unused -Wno-stringop-truncation")
    subprocess.run([ROOT + "/conformance/embed.sh", to, folder], check=True, stdout=subprocess.DEVNULL, env=env)
    return to + "/compositor"


def main(names):
    os.makedirs(MADE, exist_ok=True)
    found, whole = 0, build(ROOT + "/examples/embed", MADE + "/whole")
    before = {}
    wanted = {name: fault for name, fault in FAULTS.items() if not names or any(word in name for word in names)}
    for name, (family, changes) in wanted.items():
        if family not in before:
            before[family] = {row["name"] for row in failed(family, whole, MADE + "/whole.json")}
        rows = failed(family, build(planted(changes), MADE + "/planted"), MADE + "/planted.json")
        rows = [row for row in rows if row["name"] not in before[family]]
        found += bool(rows)
        print(
            f"{'found' if rows else 'MISSED'} {family}: {name} ({len(rows)} scenarios"
            + (f", as: {rows[0]['name']}: {rows[0]['faults'][0]['did']})" if rows else ")"),
            flush=True,
        )
    apart = 0
    for name, (family, changes) in DEPARTURES.items():
        rows = results(family, build(planted(changes), MADE + "/planted"), MADE + "/planted.json")
        read = [row["name"] for row in rows if row["reading"]]
        bad = [row["name"] for row in rows if row["result"] == "failed"]
        apart += bool(read and not bad)
        print(f"{'apart' if read and not bad else 'WRONG'} {family}: {name} ({', '.join(read + bad)})", flush=True)
    print(f"{found} found, {len(wanted) - found} missed; {apart} of {len(DEPARTURES)} apart")
    return 0 if found == len(wanted) and apart == len(DEPARTURES) else 1


if __name__ == "__main__":
    sys.exit(main(sys.argv[1:]))
