#!/usr/bin/env bash
# Measures libwlim in the compositor of examples/embed beside sway: tests/embed_speed.sh [BATCHES] [ROUNDS]
#
# Both run without a screen, in turn, ROUNDS times each; tests/embed_speed.c is their client. Then by callgrind, which
# counts the same whatever else the machine does, their instructions for a batch, and the library's for an act; and its
# size. `make libwlim` comes before. As root all runs as nobody, since sway refuses root.
set -e -o pipefail
cd "$(dirname "$0")/.."
batches=${1:-100000}
rounds=${2:-3}
protocols=out/embed/protocols
shell=out/embed/xdg-shell
library=out/libwlim/lib
. tests/speed_parts.sh

build() {
	examples/embed/protocols.sh "$protocols"
	build_client
	${CC:-cc} $flags -D_POSIX_C_SOURCE=200809L -o "$work/play_acts" examples/embed/play_acts.c "$library/libwlim.a"
	${CC:-cc} $flags -D_POSIX_C_SOURCE=200809L -o "$work/embed_act" tests/embed_act.c "$library/libwlim.a"
	${CC:-cc} $flags -o "$work/embed_ready" tests/embed_ready.c "$library/libwlim.a"
}

# Of each number the middle of all rounds, the least and the most; the same of the rounds' ratios.
table() {
	awk '
		{ round = int((NR + 1) / 2); for (at = 2; at <= NF; at++) value[$1, at, round] = $at }
		function spread(of, digits,    i, j, low, form) {
			for (i = 2; i <= round; i++)
				for (j = i; j > 1 && of[j] < of[j - 1]; j--) {
					low = of[j]; of[j] = of[j - 1]; of[j - 1] = low
				}
			form = "%." digits "f"
			return sprintf(form " (" form " to " form ")", of[int((round + 1) / 2)], of[1], of[round])
		}
		function row(what, at, digits,    i, ours, theirs, ratio) {
			for (i = 1; i <= round; i++) {
				ours[i] = value["libwlim", at, i] + 0
				theirs[i] = value["sway", at, i] + 0
				ratio[i] = ours[i] / theirs[i]
			}
			printf "| %s | %s | %s | %s |\n", what, spread(ours, digits), spread(theirs, digits), spread(ratio, 2)
		}
		END {
			print "| | libwlim | sway | ratio |\n|---|---|---|---|"
			row("batches a second, pipelined", 2, 0)
			row("processor time of one of these, us", 3, 2)
			row("one batch at a time, p50, us", 4, 1)
			row("one batch at a time, p99, us", 5, 1)
		}' "$1"
}

# So many keystrokes: the method's string and commit, the field's surrounding text and commit.
keystrokes() {
	printf '%s\n' peer 'surface 1' 'field 1' peer 'method 4' 'focus 2' 'enable 3' 'commit 3'
	for serial in $(seq "$1"); do
		printf '%s\n' 'mstring 5 61' "mcommit 5 $serial" 'surround 3 c3a9 2 2' 'commit 3'
	done
	echo end
}

# Instructions that the library takes for an act of a keystroke, its events pulled.
act_instructions() {
	local call calls many counted
	for call in mstring mcommit surround commit next; do
		calls="$calls --toggle-collect=wlim_$call"
	done
	for many in 500 2500; do
		keystrokes $many > "$work/acts"
		valgrind --tool=callgrind --callgrind-out-file="$work/callgrind" $calls "$work/play_acts" \
			< "$work/acts" > "$work/told" 2> "$work/log"
		counted="$(sed -n 's/.*Collected : //p' "$work/log") $counted"
	done
	echo "$counted" | awk '{ printf "%.0f\n", ($1 - $2) / 8000 }'
}

# Instructions of a call that asks who has output, after so many peers came and went: ready_instructions PEERS
ready_instructions() {
	valgrind --tool=callgrind --callgrind-out-file="$work/callgrind" --toggle-collect=wlim_broker_ready \
		"$work/embed_ready" "$1" 1000 > "$work/told" 2> "$work/log"
	sed -n 's/.*Collected : //p' "$work/log" | awk '{ printf "%.0f\n", $1 / 1000 }'
}

build
ours="$work/compositor"
sway="sway --config $work/config"
load="a load of $(cut -d ' ' -f 1 /proc/loadavg) on $(nproc) processors"
echo "$batches batches and 5000 one at a time, $rounds times each, at $load; $(sway --version)"
for round in $(seq "$rounds"); do
	[ $SECONDS -lt 220 ] || { echo "out of time"; exit 1; }
	measure "$batches" 5000 $ours > "$work/libwlim.line"
	measure "$batches" 5000 $sway > "$work/sway.line"
	(cd "$work" && sed 's/^/libwlim /' libwlim.line && sed 's/^/sway /' sway.line)
done > "$work/rounds"
cat "$work/rounds"
table "$work/rounds"
batch_instructions $ours > "$work/ours"
batch_instructions $sway > "$work/theirs"
awk '{ of[NR] = $1 } END { printf "| instructions of one | %d | %d | %.2f |\n", of[1], of[2], of[1] / of[2] }' \
	"$work/ours" "$work/theirs"
echo "an act of a keystroke, its events pulled: $(act_instructions) instructions of the library"
echo "a string and its commit: $("$work/embed_act")"
for peers in 10 20000; do
	echo "who has output, after $peers peers came and went: $(ready_instructions $peers) instructions"
done
for file in libwlim.a libwlim.so; do
	strip --strip-unneeded -o "$work/$file" "$library/$file"
	echo "$file, stripped: $(stat -c %s "$work/$file") bytes"
done
