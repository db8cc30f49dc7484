#!/usr/bin/env bash
# Runs the suite at all compositors that are here, one after another, and puts them side by side: the page
# out/conformance/page.html, and with --table the table of docs/CONFORMANCE.md. `make build` and `make libwlim` come before.
# For Weston `make weston` and its trials' driver; what isn't here is left out, and said.
set -e
cd "$(dirname "$0")/.."
built=out/conformance
results=$built/results
mkdir -p "$results"
conformance/build.sh "$built"
conformance/embed.sh "$built" > /dev/null
gateway/build.sh out/gateway

# One compositor: its name among the results, and its command.
play() {
	if ! command -v "$2" > /dev/null; then
		echo "$1: $2 isn't here"
		return
	fi
	timeout -k 10 300 conformance/run.sh --json "$results/$1.json" --junit "$results/$1.xml" -- "$2" > "$results/$1.txt" 2>&1 ||
		true
	echo "$1: $(tail -n 1 "$results/$1.txt")"
}

rm -f "$results"/*
play example "$built/compositor"
play gateway out/gateway/wlim-gateway
if [ -e "${WESTON_MODULES:-out/weston/10}/wlim.so" ] && [ -e "${WESTON_MODULES:-out/weston/10}/drive.so" ]; then
	play weston weston
else
	echo "weston: its plug-in isn't built"
fi
play sway sway
play mir mir_demo_server
files=$(for name in example gateway weston sway mir; do ls "$results/$name.json" 2> /dev/null || true; done)
PYTHONPATH=conformance PYTHONDONTWRITEBYTECODE=1 python3 -m suite.page $files > "$built/page.html"
if [ "$1" = --table ]; then
	PYTHONPATH=conformance PYTHONDONTWRITEBYTECODE=1 python3 -m suite.page --table $files > "$built/table.md"
	sed -i -e "/^| family/,/^| all/{/^| all/r $built/table.md
		d}" docs/CONFORMANCE.md
fi
echo "$built/page.html"
