#!/usr/bin/env bash
# Measures Weston with the plug-in beside the compositor of examples/embed and sway: weston_speed.sh [BATCHES] [ROUNDS]
#
# All three run without a screen, in turn, ROUNDS times each; tests/embed_speed.c is their client. Then by callgrind, which
# counts the same whatever else the machine does, their instructions for a batch. `make libwlim` and tests/weston.sh come
# before. As root all runs as nobody, since sway refuses root.
set -e -o pipefail
cd "$(dirname "$0")/.."
batches=${1:-50000}
rounds=${2:-3}
built=$PWD/out/weston
protocols=$built/protocols
shell=$built/xdg-shell
rest=1
. tests/speed_parts.sh

build() {
	build_client
	cp "$built/10/wlim.so" "$built/10/drive.so" "$work"
	printf '[core]\nidle-time=0\n[input-method]\npath=\n[wlim]\nmethods=user\n' > "$work/weston.ini"
	chmod -R a+rX "$work"
}

# Of each number the middle of all rounds, the least and the most.
table() {
	awk '
		{ round[$1]++; for (at = 2; at <= NF; at++) value[$1, at, round[$1]] = $at; rounds = round[$1] }
		function spread(who, at, digits,    of, i, j, low, form) {
			for (i = 1; i <= rounds; i++)
				of[i] = value[who, at, i] + 0
			for (i = 2; i <= rounds; i++)
				for (j = i; j > 1 && of[j] < of[j - 1]; j--) {
					low = of[j]; of[j] = of[j - 1]; of[j - 1] = low
				}
			form = "%." digits "f"
			return sprintf(form " (" form " to " form ")", of[int((rounds + 1) / 2)], of[1], of[rounds])
		}
		function row(what, at, digits) {
			printf "| %s | %s | %s | %s |\n", what, spread("weston", at, digits), spread("example", at, digits),
				spread("sway", at, digits)
		}
		END {
			print "| | Weston with the plug-in | the example | sway |\n|---|---|---|---|"
			row("batches a second, pipelined", 2, 0)
			row("processor time of one of these, us", 3, 2)
			row("one batch at a time, p50, us", 4, 1)
			row("one batch at a time, p99, us", 5, 1)
		}' "$1"
}

build
echo "$batches batches and 5000 one at a time, $rounds times each, at a load of $(cut -d ' ' -f 1 /proc/loadavg) on" \
	"$(nproc) processors; $(weston --version); $(sway --version)"
export WESTON_DRIVE=$work/run/drive
weston="weston --backend=headless-backend.so --use-pixman --width=800 --height=600 --shell=kiosk-shell.so"
weston="$weston --modules=$work/wlim.so,$work/drive.so --config=$work/weston.ini"
for round in $(seq "$rounds"); do
	measure "$batches" 5000 $weston | sed 's/^/weston /' >> "$work/rounds"
	measure "$batches" 5000 "$work/compositor" | sed 's/^/example /' >> "$work/rounds"
	measure "$batches" 5000 sway --config "$work/config" | sed 's/^/sway /' >> "$work/rounds"
done
cat "$work/rounds"
table "$work/rounds"
echo "| instructions of one | $(batch_instructions $weston) | $(batch_instructions "$work/compositor")" \
	"| $(batch_instructions sway --config "$work/config") |"
