#!/usr/bin/env bash
# Runs the conformance suite at a compositor: run.sh [OPTION..] -- COMMAND..
#
# COMMAND starts the compositor, without a screen; without it WAYLAND_DISPLAY names one that runs. `run.sh --help` lists
# the options. README.md beside this file says more.
set -e
here="$(cd "$(dirname "$0")" && pwd)"
built="${CONFORMANCE_BUILT:-$here/../out/conformance}"
judge="${WLIM:-$here/../crates/wlim/out/wlim}"
if [ ! -x "$judge" ] && [[ " $* " != *" --help "* ]]; then
	echo "no $judge: \`make build\` makes it, or WLIM names it" >&2
	exit 2
fi
if [ ! -x "$built/client" ] || [ -n "$(find "$here/client" "$here/protocol" -newer "$built/client" -print -quit)" ]; then
	"$here/build.sh" "$built"
fi
PYTHONPATH="$here" PYTHONDONTWRITEBYTECODE=1 exec python3 -m suite.run --client "$built/client" \
	--scenarios "$here/scenarios" --judge "$judge" "$@"
